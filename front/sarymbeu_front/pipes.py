"""Named pipes for the channels of the program."""
import os
import tempfile
from typing import BinaryIO


class Pipes:
    """Two named pipes for each channel, IN and OUT, in a folder that is the front's alone.

    The program is given their names below the front's own handle on that folder, in /proc. So they go all at once, and with
    the front, however that ends: an open that comes too late fails, and the program does not wait for a front that is gone.
    """

    def __init__(self, count: int):
        """Makes them. Raises OSError."""
        self.count = count
        self._held: list[int] = []
        self._told: list[BinaryIO] = []
        self._folder = tempfile.TemporaryDirectory(prefix="sarymbeu-front-", ignore_cleanup_errors=True)
        self._handle: int | None = os.open(self._folder.name, os.O_RDONLY | os.O_DIRECTORY)
        try:
            for number in range(count):
                for end in ("in", "out"):
                    os.mkfifo(self._path(number, end), 0o600)
        except BaseException:
            self.close()
            raise

    def _path(self, number: int, end: str) -> str:
        return f"{self._folder.name}/{number}.{end}"

    def words(self) -> list[str]:
        """The words for the program."""
        below = f"/proc/{os.getpid()}/fd/{self._handle}"
        return [f"{below}/{number}.{end}" for number in range(self.count) for end in ("in", "out")]

    def open(self, number: int) -> tuple[BinaryIO, BinaryIO]:
        """The front's ends of a channel: where commands are written, and where replies are read. Raises OSError.

        Both are there before the program comes, which opens IN and then OUT: neither side waits for the other. IN has a reader
        until `remove`, for without one it would not open.
        """
        self._held.append(os.open(self._path(number, "in"), os.O_RDONLY | os.O_NONBLOCK))
        written = open(os.open(self._path(number, "in"), os.O_WRONLY | os.O_NONBLOCK), "wb", buffering=0)
        try:
            read = open(os.open(self._path(number, "out"), os.O_RDONLY | os.O_NONBLOCK), "rb", buffering=0)
        except BaseException:
            written.close()
            raise
        self._told.append(read)
        return written, read

    def release(self) -> None:
        """Gives each OUT an end, behind what was written there: one that nobody has opened for writing has none."""
        for told in self._told:
            if not told.closed:
                # Its name may be gone.
                os.close(os.open(f"/proc/self/fd/{told.fileno()}", os.O_WRONLY | os.O_NONBLOCK))

    def remove(self) -> None:
        """Takes the names away, and removes the folder. What is open stays open."""
        if self._handle is not None:
            # The number stays taken: else the names could come to lie below another folder that the front opens.
            nothing = os.open(os.devnull, os.O_RDONLY)
            os.dup2(nothing, self._handle, inheritable=False)
            os.close(nothing)
        while self._held:
            os.close(self._held.pop())
        self._folder.cleanup()

    def close(self) -> None:
        """Removes them, once the program has ended or was not started."""
        self.remove()
        if self._handle is not None:
            os.close(self._handle)
            self._handle = None
