"""A front as a process of its own, for figures and for kills."""
import contextlib
import os
import pathlib
import signal
import socket
import subprocess
import time
import urllib.error
import urllib.request


def free_port() -> int:
    """A port of 127.0.0.1 that nobody listens on now."""
    with socket.socket() as listener:
        listener.bind(("127.0.0.1", 0))
        return listener.getsockname()[1]


class FrontRun:
    """A front over `program`, in `place`, which gets settings of the program and its folder. Its log is `place`/front.log."""

    def __init__(self, front: str, program: str, place: pathlib.Path, settings: str = "", options: tuple[str, ...] = ()):
        self.place = place
        self.port = free_port()
        (place / "settings.toml").write_text(settings)
        self.words = [front, "--program", program, "--server.http-listen-port", str(self.port), *options]
        self.words += [str(place / "settings.toml"), str(place / "folder")]
        self.process: subprocess.Popen | None = None

    @property
    def url(self) -> str:
        """Where it listens."""
        return f"http://127.0.0.1:{self.port}"

    def start(self) -> None:
        """Starts it, and waits until it is ready. Raises RuntimeError where it ends before."""
        with open(self.place / "front.log", "ab") as log:
            self.process = subprocess.Popen(self.words, stderr=log)
        while not self.is_ready():
            if self.process.poll() is not None:
                raise RuntimeError(f"the front ended with {self.process.returncode}:\n{self.log()}")
            time.sleep(0.02)

    def is_ready(self) -> bool:
        """Whether it answers that it is ready."""
        with contextlib.suppress(OSError, urllib.error.URLError):
            return urllib.request.urlopen(f"{self.url}/ready", timeout=10).status == 200
        return False

    def log(self) -> str:
        """What it wrote to standard error."""
        return (self.place / "front.log").read_text()

    def child(self) -> int:
        """The process id of the program."""
        pid = self.process.pid
        return int(pathlib.Path(f"/proc/{pid}/task/{pid}/children").read_text().split()[0])

    def kill(self, front: bool = True, child: bool = True) -> None:
        """Kills the front, the program, or both, as `kill -9` does, and waits for the end of the front."""
        pids = [self.child()] if child else []
        for pid in pids + ([self.process.pid] if front else []):
            os.kill(pid, signal.SIGKILL)
        self.process.wait()

    def end(self) -> int:
        """Ends it in order, and gives its status."""
        self.process.terminate()
        return self.process.wait()
