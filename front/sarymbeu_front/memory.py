"""The last answers to pushes, by tenant and digest of the body, so that one sent again is answered and not pushed again."""
import asyncio
import collections
import hashlib
from collections.abc import Awaitable, Callable
from dataclasses import dataclass, field


@dataclass
class Answer:
    """An answer to a push: its status, its text, and the streams of the body that may succeed when it is sent again.

    `reasons` are those of entries that were refused for good, the first of them in words.
    """

    status: int
    text: str = ""
    again: frozenset[int] = frozenset()
    ignored: int = 0
    reason: str = ""
    entries: int = 0


@dataclass
class Memory:
    """Holds the last `size` answers, and the work on pushes that are not answered yet."""

    size: int
    answers: collections.OrderedDict[bytes, Answer] = field(default_factory=collections.OrderedDict)
    working: dict[bytes, asyncio.Task] = field(default_factory=dict)

    async def answer(self, key: bytes, make: Callable[[Answer | None], Awaitable[Answer]]) -> tuple[Answer, bool]:
        """The answer to the body of this key, and whether it was pushed for another request.

        One for which work goes on waits for the same answer. One that was answered for good has that answer. Else `make` is
        called with what was answered before, if anything, in a task of its own: a client that goes away ends nothing.
        Raises what `make` raises; then nothing is held.
        """
        task = self.working.get(key)
        if task is not None:
            return await asyncio.shield(task), True
        before = self.answers.get(key)
        if before is not None and not before.again:
            self.answers.move_to_end(key)
            return before, True
        task = asyncio.create_task(make(before))
        self.working[key] = task
        task.add_done_callback(lambda done: self._hold(key, done))
        return await asyncio.shield(task), False

    def _hold(self, key: bytes, task: asyncio.Task) -> None:
        """Holds what a task came to, and lets the oldest answer go where there are too many."""
        del self.working[key]
        # To ask for the exception marks it as seen, where every client has gone away.
        if task.cancelled() or task.exception() is not None:
            return
        self.answers[key] = task.result()
        self.answers.move_to_end(key)
        while len(self.answers) > self.size:
            self.answers.popitem(last=False)


def key_of(tenant: str, kind: str, message: bytes) -> bytes:
    """The key of an unpacked body: how it was packed does not matter."""
    return hashlib.sha256(b"\0".join((tenant.encode(), kind.encode(), message))).digest()
