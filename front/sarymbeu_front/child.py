"""The program as a child: commands go in as lines and replies come out, through standard input and output or over channels."""
import asyncio
import fcntl
import json
import logging
import os
import time
import zlib

from .channel import Channel
from .faults import Fault, unavailable
from .labels import canonical_name
from .metrics import Metrics
from .pipes import Pipes

log = logging.getLogger("front")
# The longest line that the program reads, in bytes, without its line feed.
MAX_LINE = 1 << 24
# The longest line that is read of it: an answer of 5,000 lines of 256 KiB, with escapes.
MAX_REPLY = 1 << 33
# How long channels may answer behind the first one; in seconds. The program serves them side by side, if it gets the threads.
LATE = 10.0
# What the keeper has alone. A flush tells what its own channel's flusher stored: none shall go beside another.
KEEPING = ("sweep", "flush", "checkpoint")


class Child:
    """One run of the program. `ended` is set when it has closed its standard output, as it does when all channels have ended.

    Of several channels the first is the keeper's, for KEEPING; the others have pushes and queries. A push goes to the home of its
    stream, so that those of one stream keep their order; what else is asked, where the fewest commands wait. In the place of a
    channel that has ended another is taken.
    """

    def __init__(self, words: list[str], metrics: Metrics, channels: int = 1):
        self.words = words
        self.metrics = metrics
        self.ended = asyncio.Event()
        self.process: asyncio.subprocess.Process | None = None
        # What it says at standard output: all replies, or of several channels the report alone.
        self._output = Channel("the program", lambda _: self.ended.set())
        self.channels = [self._output]
        if channels > 1:
            self.channels = [Channel(f"channel {number} of the program", self._note_end) for number in range(channels)]
        self._requests = self.channels[1:] or self.channels
        self._pipes: Pipes | None = None
        self._reader: asyncio.Task | None = None
        self._served: list[asyncio.Task] = []
        self._ending = False

    @property
    def pid(self) -> int | None:
        """Its process id, while it runs."""
        return self.process.pid if self.process is not None and not self.ended.is_set() else None

    @property
    def report(self) -> dict | None:
        """What it reported at its end: what came to its standard output when nobody waited for a reply there."""
        return self._output.unasked

    def _note_end(self, channel: Channel) -> None:
        """Tells that one of several channels has ended, where that was not asked for."""
        if not self._ending:
            self.metrics.channels_broken.inc()
            log.warning("%s has ended by itself", channel.name)

    async def start(self, handles: tuple[int, ...] = ()) -> None:
        """Starts it, with these open files besides its pipes. Raises OSError.

        It is in a session of its own: a signal to the front's group, as by Ctrl-C, shall not end it before the front does.
        """
        words = self.words
        try:
            if len(self.channels) > 1:
                words = [*words, *await self._open_pipes(len(self.channels))]
            given = asyncio.subprocess.PIPE if self._pipes is None else asyncio.subprocess.DEVNULL
            self.process = await asyncio.create_subprocess_exec(
                *words,
                stdin=given,
                stdout=asyncio.subprocess.PIPE,
                limit=MAX_REPLY,
                pass_fds=handles,
                start_new_session=True,
            )
        except BaseException:
            await self._let_go()
            raise
        if self.process.stdin is not None:
            self._output.connect(self.process.stdin)
        self._reader = asyncio.create_task(self._read())

    async def _open_pipes(self, count: int) -> list[str]:
        """Makes the pipes of so many channels, opens them, and gives the words for the program. Raises OSError."""
        loop = asyncio.get_running_loop()
        self._pipes = Pipes(count)
        for number, channel in enumerate(self.channels):
            given, told = self._pipes.open(number)
            replies = asyncio.StreamReader(limit=MAX_REPLY)
            source, _ = await loop.connect_read_pipe(lambda: asyncio.StreamReaderProtocol(replies), told)
            sink, _ = await loop.connect_write_pipe(asyncio.BaseProtocol, given)
            channel.connect(sink, source)
            self._served.append(asyncio.create_task(channel.serve(replies)))
        return self._pipes.words()

    async def begin(self) -> dict:
        """Its first reply, to `board`, which comes behind recovery. Raises Fault 503 where it ends before.

        Of several channels those are given up that have not answered LATE seconds behind the first.
        """
        asked = [asyncio.create_task(self._ask(channel, {"cmd": "board"})) for channel in self.channels]
        try:
            await asyncio.wait(asked, return_when=asyncio.FIRST_COMPLETED)
            await asyncio.wait(asked, timeout=LATE)
            for channel, task in zip(self.channels, asked):
                if not task.done():
                    channel.end()
            replies = await asyncio.gather(*asked, return_exceptions=True)
        finally:
            for task in asked:
                task.cancel()
            if self._pipes is not None:
                self._pipes.remove()
        for reply in replies:
            if not isinstance(reply, BaseException):
                return reply
        raise replies[0]

    async def _read(self) -> None:
        """Reads all that it says, until it has closed its standard output, and then what its channels still have."""
        try:
            await self._output.serve(self.process.stdout)
        finally:
            if self._pipes is not None:
                self._pipes.release()
            await asyncio.gather(*self._served)

    async def ask(self, command: dict) -> dict:
        """The reply to a command other than a push. Its texts have no lone surrogate.

        Raises Fault 413 where its line would be too long, and 503 where the program or its channel has ended.
        """
        return await self._ask(self._keeper() if command["cmd"] in KEEPING else self._least(), command)

    async def _ask(self, channel: Channel, command: dict) -> dict:
        return await self._send(channel, command["cmd"], line_of(command))

    def _send(self, channel: Channel, name: str, line: bytes) -> asyncio.Future:
        """Sends a line at once, and gives the future of its reply, whose time is measured. Raises Fault 503."""
        began = time.monotonic()
        future = channel.send(line)

        def measure(done: asyncio.Future) -> None:
            if not done.cancelled() and done.exception() is None:
                self.metrics.reply_seconds.labels(name).observe(time.monotonic() - began)

        future.add_done_callback(measure)
        return future

    async def push(self, commands: dict[int, dict]) -> list[dict | Fault]:
        """The replies to pushes, by the home of their streams; a Fault 503 stands for one whose channel has ended meanwhile.

        All are written before anything else is. Raises Fault 413 where a line would be too long, and 503 where the program has
        ended: then none is written.
        """
        lines = [(home, line_of(command)) for home, command in commands.items()]
        channels = [self._at(home) for home, _ in lines]
        futures = [self._send(channel, "push", line) for channel, (_, line) in zip(channels, lines)]
        return await asyncio.gather(*futures, return_exceptions=True)

    def home_of(self, tenant: str, labels: dict[str, str]) -> int:
        """The home of a stream."""
        if len(self._requests) == 1:
            return 0
        return zlib.crc32(f"{tenant}/{canonical_name(labels)}".encode()) % len(self._requests)

    def _at(self, home: int) -> Channel:
        """The channel of a home: while it has ended, the next one. Raises Fault 503."""
        return self._first(self._requests[home:] + self._requests[:home] + self.channels)

    def _keeper(self) -> Channel:
        return self._first(self.channels)

    def _first(self, channels: list[Channel]) -> Channel:
        """The first of these that has not ended. Raises Fault 503."""
        for channel in channels:
            if not channel.ended.is_set():
                return channel
        raise unavailable("the program has ended\n")

    def _least(self) -> Channel:
        """The channel for requests where the fewest commands wait. Raises Fault 503."""
        return self._first([*sorted(self._requests, key=lambda channel: channel.waiting), *self.channels])

    async def end(self) -> int:
        """Closes its input, waits for its report and its end, and gives its status as a shell does: 128 and the signal."""
        self._ending = True
        if self._pipes is not None:
            self._pipes.remove()
        for channel in self.channels:
            channel.close()
        await self._reader
        status = await self.process.wait()
        await self._let_go()
        return status if status >= 0 else 128 - status

    async def _let_go(self) -> None:
        """Ends its channels, and takes their pipes away."""
        self._ending = True
        for channel in self.channels:
            channel.end()
        for task in self._served:
            task.cancel()
        await asyncio.gather(*self._served, return_exceptions=True)
        if self._pipes is not None:
            self._pipes.close()


def line_of(command: dict) -> bytes:
    """The line of a command, without its line feed. Raises Fault 413 where it would be too long."""
    line = json.dumps(command, separators=(",", ":"), ensure_ascii=False).encode()
    if len(line) > MAX_LINE:
        raise Fault(413, f"as a command the body is longer than {MAX_LINE} bytes\n")
    return line


def lock_folder(folder: str, seconds: float) -> int:
    """An open file that holds the lock of FOLDER, which is made where it is absent.

    The child inherits it: a front that was killed leaves the lock to its child, until that has read its last line. Waits this
    long for another front, or for the child that it left. Raises BlockingIOError, or another OSError.
    """
    os.makedirs(folder, exist_ok=True)
    handle = os.open(folder, os.O_RDONLY | os.O_DIRECTORY)
    until = time.monotonic() + seconds
    while True:
        try:
            fcntl.flock(handle, fcntl.LOCK_EX | fcntl.LOCK_NB)
            return handle
        except BlockingIOError:
            if time.monotonic() > until:
                os.close(handle)
                raise
            time.sleep(0.1)
