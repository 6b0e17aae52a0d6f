"""One channel of the program: a command is a line in, its reply a line out, in the same order."""
import asyncio
import collections
import json
from collections.abc import Callable
from typing import Protocol

from .faults import unavailable


class Input(Protocol):
    """Where lines are written without waiting; it is closed behind what was written."""

    def write(self, data: bytes) -> None:
        """Writes now, or as soon as the program reads."""

    def close(self) -> None:
        """Closes it, at once or behind what waits to be written."""


class Channel:
    """The commands that wait for a reply. `ended` is set when none comes any more; before that `on_end` is called."""

    def __init__(self, name: str, on_end: Callable[["Channel"], None]):
        self.name = name
        self.ended = asyncio.Event()
        self.unasked: dict | None = None
        self._on_end = on_end
        self._input: Input | None = None
        self._output: asyncio.ReadTransport | None = None
        self._waiting: collections.deque[asyncio.Future] = collections.deque()

    @property
    def waiting(self) -> int:
        """How many commands wait for a reply, also those that nobody waits for any more."""
        return len(self._waiting)

    def connect(self, given: Input, told: asyncio.ReadTransport | None = None) -> None:
        """Has its commands written to `given`, and `told` closed at its end."""
        self._input, self._output = given, told

    def send(self, line: bytes) -> asyncio.Future:
        """Writes the line of a command, behind those that were sent before. The reply is the future's, or a Fault 503.

        Raises Fault 503 where the channel has ended.
        """
        if self.ended.is_set() or self._input is None:
            raise unavailable(f"{self.name} has ended\n")
        future = asyncio.get_running_loop().create_future()
        self._waiting.append(future)
        self._input.write(line + b"\n")
        return future

    async def serve(self, replies: asyncio.StreamReader) -> None:
        """Gives each reply to whoever waits for it, up to the end. What comes when nobody waits is `unasked`.

        Raises ValueError where a line is no reply. What is cut off at the end is none.
        """
        try:
            while (line := await replies.readline()).endswith(b"\n"):
                self._take(json.loads(line))
        finally:
            self.end()

    def _take(self, reply: dict) -> None:
        if not self._waiting:
            self.unasked = reply
            return
        future = self._waiting.popleft()
        if not future.done():
            future.set_result(reply)

    def close(self) -> None:
        """Closes the program's input: it answers what it was sent, and ends the channel."""
        if self._input is not None:
            self._input.close()

    def end(self) -> None:
        """Ends it: what waits gets a Fault 503, and nothing more is sent."""
        if self.ended.is_set():
            return
        self.ended.set()
        self._on_end(self)
        self.close()
        if self._output is not None:
            self._output.close()
        while self._waiting:
            future = self._waiting.popleft()
            if not future.done():
                future.set_exception(unavailable(f"{self.name} has ended; whether this was done is not known\n"))
