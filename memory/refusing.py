#!/usr/bin/env python3
"""A program that was built unproved, and is run with one growth of its memory refused.

`rt try --fail-alloc N` builds a program so that it counts how often it asks for memory, and is refused the Nth time. That number
stands in the executable: here it is built once, with a number that stands there nowhere else, and before each run others are written
in its place. What it counted is read at its end (by `ptrace`). On x86-64 Linux alone, as `rt try` itself.
"""
import argparse
import contextlib
import ctypes
import os
import pathlib
import re
import shutil
import signal
import subprocess
import sys
import tempfile
import time
from dataclasses import dataclass

TOP = pathlib.Path(__file__).resolve().parent.parent
MARK = 0x7ABC_DEF0_1234_5678  # the number that is built in
# The machine's instructions that count a growth, with where the count stands, and compare it with that number.
COUNTING = re.compile(rb"\xf0\x48\x0f\xc1\x05(....)\x48\x83\xc0\x01\x48\xb9" + re.escape(MARK.to_bytes(8, "little")), re.DOTALL)
TRACEME, CONTINUE, SET_OPTIONS = 0, 7, 0x4200  # requests of `ptrace`
STOP_AT_EXIT, EXIT_WITH_TRACER, AT_EXIT = 0x40, 0x100000, 6
SECONDS = 60  # a run that takes longer hangs
LIBC = ctypes.CDLL(None, use_errno=True)
LIBC.ptrace.argtypes = [ctypes.c_long, ctypes.c_long, ctypes.c_void_p, ctypes.c_void_p]


@dataclass(frozen=True)
class Ran:
    """How a run ended, what it wrote, and how many growths it met."""
    status: int
    output: bytes
    errors: bytes
    growths: int


def ptrace(request, pid, data=0):
    if LIBC.ptrace(request, pid, None, data) < 0:
        raise OSError(ctypes.get_errno(), f"request {request} of ptrace")


def begin(closed):
    """What a process does before it becomes the program."""
    ptrace(TRACEME, 0)
    if closed is not None:
        os.close(closed)


def copy_when_it_runs(building, parent, waits, path):
    """Copies the executable as soon as it runs, which opens the pipe, and lets it go on. Whether it ran."""
    while building.poll() is None:
        try:
            opened = os.open(waits, os.O_WRONLY | os.O_NONBLOCK)
        except OSError:
            time.sleep(0.05)
            continue
        (program,) = parent.rglob("program")
        path.parent.mkdir(exist_ok=True)
        shutil.copy2(program, path)
        os.close(opened)
        return True
    return False


def build(crate, words, path):
    """Builds the program of a crate, and puts its executable at a path. With these words and a file's name it reads that file, which
    is a pipe here, so that it waits until it is copied."""
    with tempfile.TemporaryDirectory(prefix="memory-") as parent:
        waits, says = pathlib.Path(parent) / "waits", pathlib.Path(parent) / "says"
        os.mkfifo(waits)
        print(f"nothing is proved: {crate} is compiled, for some minutes", file=sys.stderr, flush=True)
        how = {"cwd": TOP / "crates" / crate, "stdin": subprocess.DEVNULL, "env": {**os.environ, "TMPDIR": parent}}
        with open(says, "wb") as told:
            building = subprocess.Popen(["rt", "try", "--fail-alloc", str(MARK), "--", *words, waits], stdout=told, stderr=told, **how)
            is_copied = copy_when_it_runs(building, pathlib.Path(parent), waits, path)
            building.wait()
        if not is_copied:
            raise SystemExit(f"{crate} is not built:\n{says.read_text()}")


class Refusing:
    """An executable that is told which growth is refused."""

    def __init__(self, built, path):
        shutil.copy2(built, path)
        self.path, text = path, path.read_bytes()
        found = list(COUNTING.finditer(text))
        if len(found) != text.count(MARK.to_bytes(8, "little")) or not found:
            raise SystemExit(f"{built} does not count growths as it is known here")
        self.places = [match.end() - 8 for match in found]
        # Where the count stands, from the instruction behind the one that adds to it.
        self.behind, self.distance = found[0].end(1), int.from_bytes(found[0][1], "little", signed=True)

    def write(self, number):
        """Has the growth of this number refused, from 1 on; of 0 none."""
        with open(self.path, "r+b") as file:
            for place in self.places:
                file.seek(place)
                file.write(number.to_bytes(8, "little"))

    def run(self, words, given, refused, place, closed=None):
        """Runs it in a place, with the growth of this number refused, and a standard stream closed."""
        self.write(refused)
        with contextlib.ExitStack() as stack:
            streams = [stack.enter_context(tempfile.TemporaryFile()) for _ in range(3)]
            streams[0].write(given)
            streams[0].seek(0)
            how = dict(zip(("stdin", "stdout", "stderr"), streams)) | {"cwd": place, "env": {}}
            process = subprocess.Popen([self.path, *words], preexec_fn=lambda: begin(closed), **how)
            signal.signal(signal.SIGALRM, lambda *_: process.kill())
            signal.alarm(SECONDS)
            growths = self.follow(process)
            signal.alarm(0)
            for stream in streams[1:]:
                stream.seek(0)
            return Ran(process.returncode, streams[1].read(), streams[2].read(), growths)

    def follow(self, process):
        """Waits for the end of a process that is traced: how many growths it met."""
        os.waitpid(process.pid, 0)
        ptrace(SET_OPTIONS, process.pid, STOP_AT_EXIT | EXIT_WITH_TRACER)
        growths, passed = 0, 0
        while True:
            ptrace(CONTINUE, process.pid, passed)
            _, status = os.waitpid(process.pid, 0)
            if not os.WIFSTOPPED(status):
                process.returncode = os.waitstatus_to_exitcode(status)
                return growths
            is_end = status >> 16 == AT_EXIT
            growths = self.count_in(process.pid) if is_end else growths
            passed = 0 if is_end else os.WSTOPSIG(status)

    def count_in(self, pid):
        """What a process has counted."""
        for line in pathlib.Path(f"/proc/{pid}/maps").read_text().splitlines():
            span, _, offset, *_, name = line.split()
            start, end = (int(bound, 16) for bound in span.split("-"))
            at = start + self.behind - int(offset, 16)
            if name == str(self.path) and start <= at < end:
                with open(f"/proc/{pid}/mem", "rb") as memory:
                    memory.seek(at + self.distance)
                    return int.from_bytes(memory.read(8), "little")
        raise RuntimeError(f"{self.path} is not mapped in {pid}")


def main():
    parser = argparse.ArgumentParser(description="Builds the program of a crate so that a growth of its memory can be refused.")
    parser.add_argument("crate")
    parser.add_argument("path", type=pathlib.Path, help="where the executable is put")
    parser.add_argument("words", nargs="*", help="those with which the program reads the file that is named behind them")
    options = parser.parse_args()
    build(options.crate, options.words, options.path)


if __name__ == "__main__":
    main()
