#!/usr/bin/env python3
"""Refuses the programs each growth of their memory in turn, one alone, and looks how they end, and what they leave.

    python3 memory/memory.py INGESTD --ctl INGESTCTL [--body WORD] [--jobs N] [--parent FOLDER]

INGESTD and INGESTCTL are built by refusing.py: unproved, with a check of each access to memory. A body (bodies.py) is settings, lines
and words; it is run with its first growth refused, then with its second, and so on until a run meets none: nothing is drawn. Each run of
`ingestd` has to end with status 3, `ingestd: NoMemory` on standard error, whole replies to the first lines as the run that was refused
nothing gave them, and no report; or exactly as that run, as where it cannot note in which place a stream stands.

Over a folder, which is put as it was before each run, what lies there behind it is read by docs/FORMATS.md alone, as in
kills/kills.py: what was answered durable is there, once, nothing is that was not sent, and as many chunks are stored as were told. A
new start finds all that by queries, and obeys the same lines again, as a plain model says. On a channel, of two files, the channel may break
alone instead: then the report says so, and adds up; or an upload fails, which its flush tells. Over a folder with which `ingestd` does
not start, the next start is refused as without want of memory.

`ingestctl` is run with cases of `crates/test_ctl_cases`. It has to end with status 2, the first lines that it writes else, and a last
line on standard error that says why, or with nothing written at all; or exactly as the run that was refused nothing. Files stay as
they are, but those that `mend` writes: what a log had is in it, or beside it.

Of each body it prints how many growths it met, and where runs differ from that the first such one, and at which growths there are
more; then the status is 1.
"""
import argparse
import collections
import functools
import itertools
import multiprocessing
import os
import pathlib
import shutil
import sys
import tempfile
import time

from bodies import BODIES, InFolder, InMemory
from lives import ENDED, FAILED, SURVIVED, Alone, Companion, Difference, OnChannel, OverFolder, RefusedStart
from refusing import Refusing

DIFFERENT = "different"


def refuse_each(life):
    """Runs a body with each of its growths refused, until a run meets none that is. How many runs ended how, and what differs, by the
    number of the growth."""
    counts, differences = collections.Counter(), {}
    for number in itertools.count(1):
        try:
            ran, how = life.look(number)
        except Exception as fault:
            differences[number], how = fault if isinstance(fault, Difference) else repr(fault), DIFFERENT
            is_met = number <= life.full.growths
        else:
            is_met = ran.growths >= number
            if not is_met and how != SURVIVED:
                differences[number] = "it was not met, and the run is not as the one that was refused nothing"
        if not is_met:
            return counts, differences
        counts[how] += 1


def life_of(options, body, place, program):
    """How a body is run in a place of its own, by a copy of its program."""
    if isinstance(body, InMemory):
        kind = Alone
    elif isinstance(body, InFolder):
        kind = OnChannel if body.is_channel else OverFolder
    else:
        kind = RefusedStart if body.words else Companion
    return kind(Refusing(options.ctl if kind is Companion else options.program, program), body, place)


def play(options, parent, at):
    """Plays a body. Its name, how many of its runs ended how, and what differs."""
    body, place, program = BODIES[at], parent / str(at), options.program.with_name(f"running-{os.getpid()}")
    place.mkdir()
    try:
        counts, differences = refuse_each(life_of(options, body, place, program))
    except Difference as difference:
        counts, differences = collections.Counter(), {0: difference}
    finally:
        program.unlink(missing_ok=True)
    shutil.rmtree(place)
    return body.name, counts, differences


def told(counts):
    ends = f"{counts[ENDED]:6} ended the run, {counts[SURVIVED]:4} changed nothing"
    ends += f", {counts[FAILED]} failed an upload" if counts[FAILED] else ""
    return f"{sum(counts.values()):6} growths, {ends}" + (f", {counts[DIFFERENT]} ended otherwise" if counts[DIFFERENT] else "")


def spans_of(numbers):
    """Numbers as spans, in words."""
    spans = []
    for _, run in itertools.groupby(enumerate(numbers), lambda pair: pair[1] - pair[0]):
        (_, first), *_, (_, last) = [*run] * 2
        spans.append(f"{first}" if first == last else f"{first} to {last}")
    return ", ".join(spans)


def tell_differences(name, differences):
    """Tells the first of them, and at which growths there are any."""
    first, says = next(iter(differences.items()))
    print(f"{name}: growth {first}: {says}\nso, or otherwise, at growths {spans_of(differences)}", flush=True)


def main():
    parser = argparse.ArgumentParser(description=__doc__.split("\n")[0])
    parser.add_argument("program", type=lambda path: pathlib.Path(path).resolve())
    parser.add_argument("--ctl", required=True, type=lambda path: pathlib.Path(path).resolve(), help="ingestctl")
    parser.add_argument("--body", default="", help="those whose name has this word")
    parser.add_argument("--jobs", type=int, default=len(os.sched_getaffinity(0)), help="how many bodies are run side by side")
    parser.add_argument("--parent", default="/dev/shm", help="where folders are made: a memory disk")
    options = parser.parse_args()
    parent = pathlib.Path(tempfile.mkdtemp(prefix="memory-", dir=options.parent))
    began, total, is_right = time.monotonic(), collections.Counter(), True
    chosen = [at for at, body in enumerate(BODIES) if options.body in body.name]
    with multiprocessing.Pool(options.jobs) as pool:
        for name, counts, differences in pool.imap(functools.partial(play, options, parent), chosen):
            total.update(counts)
            print(f"{told(counts)}: {name}", flush=True)
            if differences:
                is_right = False
                tell_differences(name, differences)
    print(f"{told(total)} in all, of {len(chosen)} bodies ({time.monotonic() - began:.0f} s)")
    shutil.rmtree(parent)
    sys.exit(not is_right)


if __name__ == "__main__":
    main()
