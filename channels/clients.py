"""Clients of the channels of ingestd, each in a thread of its own, and the runs that serve them."""
import os
import pathlib
import subprocess
import threading
from dataclasses import dataclass, field

WHOLE, AHEAD, HALF, FILES = "talks to its end", "closes its input ahead", "ends in half a line", "is two files"
STOPS, DIES, FULL = "closes its output, and goes on", "dies in a line", "has no room for replies"
NO_INPUT, NO_OUTPUT, NO_LINES = "has no input", "has no output", "has a folder for its input"
WELL, BROKEN, UNSERVED = [WHOLE, AHEAD, HALF, FILES], [STOPS, DIES, FULL, NO_INPUT, NO_OUTPUT, NO_LINES], [NO_INPUT, NO_OUTPUT, NO_LINES]
AT_HAND = 30_000  # bytes of lines that are written before a reply is read: less than a pipe holds


@dataclass
class Turn:
    """A line that was given, and the reply to it as it was read, or None."""
    line: str
    reply: bytes = None

    def is_blank(self):
        return not self.line.strip(" \t\r")


class Ended(Exception):
    """That the program has closed a channel."""


@dataclass
class Client:
    """Who speaks on a channel: its lines, of which `whole` are given as a whole; the rest as its kind says. `together` has how many are
    given at once, in turn. Of what is not served nothing counts as said."""
    place: pathlib.Path
    lines: list
    kind: str = WHOLE
    whole: int = 0
    together: list = field(default_factory=lambda: [1])
    noted: callable = lambda: None  # called behind each reply
    failed: callable = lambda: None  # called where something is not as it has to be
    said: list = field(default_factory=list)
    fault: Exception = None

    def paths(self):
        """The two words for the program."""
        output = {NO_OUTPUT: self.place / "nowhere" / "out", FULL: pathlib.Path("/dev/full")}
        return [self.place / "in", output.get(self.kind, self.place / "out")]

    def make(self):
        """Makes what lies at the paths."""
        self.place.mkdir()
        given, told = self.paths()
        if self.kind == NO_LINES:
            given.mkdir()
        elif self.kind == FILES:
            given.write_text("".join(line + "\n" for line in self.lines), newline="")
        elif self.kind != NO_INPUT:
            os.mkfifo(given)
        if self.kind in (WHOLE, AHEAD, HALF, STOPS, DIES):
            os.mkfifo(told)

    def serve(self):
        """Talks, in a thread of its own."""
        try:
            self.talk()
        except (Ended, BrokenPipeError):
            pass
        except Exception as fault:
            self.fault = fault
            self.failed()

    def talk(self):
        if self.kind in (FILES, NO_INPUT, NO_LINES):
            return
        # In the order in which the program opens them.
        with open(self.paths()[0], "wb", buffering=0) as given:
            if self.kind in (NO_OUTPUT, FULL):
                self.give(given, self.lines)
                return
            with open(self.paths()[1], "rb") as told:
                self.converse(given, told)

    def converse(self, given, told):
        if self.kind == AHEAD:
            turns = self.give(given, self.lines[: self.whole])
            given.close()
            self.hear(told, turns)
        else:
            lines = self.lines if self.kind == WHOLE else self.lines[: self.whole]
            while lines:
                for count in self.together:
                    self.hear(told, self.give(given, lines[:count]))
                    lines = lines[count:]
            self.break_off(given, told)
        if not told.closed:
            given.close()
            rest = told.read()
            assert not rest, f"behind all replies stands {rest}"

    def break_off(self, given, told):
        """What comes behind the lines that are given as a whole."""
        half = self.lines[-1][: len(self.lines[-1]) // 2]
        if self.kind == HALF:
            given.write(half.encode())
            given.close()
            self.said.append(Turn(half))
            self.hear(told, self.said[-1:])
        elif self.kind == STOPS:
            told.close()
            self.give(given, self.lines[self.whole :])
        elif self.kind == DIES:
            told.close()
            given.write(half.encode())

    def give(self, given, lines):
        """Writes lines, all at once."""
        turns = [Turn(line) for line in lines]
        self.said += [] if self.kind in UNSERVED else turns
        text = memoryview("".join(line + "\n" for line in lines).encode())
        while text:
            text = text[given.write(text) :]
        return turns

    def hear(self, told, turns):
        """Reads the replies to lines; a blank one has none."""
        for turn in turns:
            if not turn.is_blank():
                reply = told.readline()
                if not reply.endswith(b"\n"):
                    raise Ended
                turn.reply = reply
                self.noted()

    def finish(self):
        """Reads what a file has, where it is two files."""
        if self.kind == FILES:
            self.said = [Turn(line) for line in self.lines]
            path = self.paths()[1]
            replies = path.read_bytes().splitlines(keepends=True) if path.exists() else []
            answered = [turn for turn in self.said if not turn.is_blank()]
            assert len(replies) <= len(answered), f"there are replies to no line: {replies[len(answered) :]}"
            for turn, reply in zip(answered, replies):
                turn.reply = reply if reply.endswith(b"\n") else None


class Killer:
    """Kills a program behind so many replies of all its channels, or so many seconds after its start."""

    def __init__(self, replies=None, seconds=None):
        self.replies, self.seconds, self.count, self.lock, self.process = replies, seconds, 0, threading.Lock(), None

    def begin(self, process):
        self.process = process
        if self.seconds is not None:
            threading.Timer(self.seconds, process.kill).start()

    def note(self):
        with self.lock:
            self.count += 1
            if self.count == self.replies:
                self.process.kill()


def release(clients):
    """Lets go who still waits for a program that has ended to open a pipe."""
    for path in [path for client in clients for path in client.paths() if path.is_fifo()]:
        os.close(os.open(path, os.O_RDWR | os.O_NONBLOCK))


def run(program, folder, clients, killer=None, beside=lambda process: None, patience=60):
    """Serves clients to their ends, or to its own, within so many seconds. Its status, standard output and standard error; `beside` is
    done meanwhile."""
    words = folder.words(program) + [path for client in clients for path in client.paths()]
    pipe = subprocess.PIPE
    with subprocess.Popen(words, stdin=subprocess.DEVNULL, stdout=pipe, stderr=pipe) as process:
        if killer:
            killer.begin(process)
        threads = [threading.Thread(target=client.serve, daemon=True) for client in clients]
        for client, thread in zip(clients, threads):
            client.failed = process.kill
            thread.start()
        beside(process)
        try:
            output, error = process.communicate(timeout=patience)
        except subprocess.TimeoutExpired:
            process.kill()
            heard = [(client.kind, len(client.said), sum(turn.reply is not None for turn in client.said)) for client in clients]
            raise AssertionError(f"the run has not ended within {patience} s, with these clients: {heard}") from None
        finally:
            while any(thread.is_alive() for thread in threads):
                release(clients)
                threads[0].join(0.01)
                threads = [thread for thread in threads if thread.is_alive()] or threads
    for client in clients:
        client.finish()
        if client.fault:
            raise client.fault
    return process.returncode, output, error
