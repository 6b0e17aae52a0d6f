#!/usr/bin/env python3
"""Forges chunk objects, index rows and logs by lot, and looks whether the program reads in each exactly what its grammar says.

    python3 forged/forged.py PROGRAM --ctl INGESTCTL [--texts N] [--seed N] [--jobs N] [--batch N] [--parent FOLDER]

Honest texts are drawn, and taken from folders that PROGRAM wrote; chunk objects and logs are of either version. Most
are forged: bytes, fields, records and versions are changed, cut, doubled, swapped and taken from other texts, counts
and lengths set to what no input covers, mostly so that all sums are right again. A reader of its own, written from
docs/FORMATS.md alone (formats.py; what records come to, fitting.py), says what each has, or as what it is refused, and
where. With this are compared

- `ingestctl show --entries`: what chunk objects, index rows and the records of logs say, or their first fault;
- `ingestctl check --room`: what a shard has that is made again from a log over the objects of its folder, or why none is. Of
  these objects some are forged, too, under their old key or under the key of what they have become;
- PROGRAM itself over that folder: the logs that it leaves. Of a shard that was made again it is a checkpoint with just what the
  reader of this folder has, byte for byte; each other is as it was.

The last file that `show` and `check` are given is a pipe: when they open it they are done with the others, and their peaks of
memory are read, mapped and resident. Those of the forged texts may not pass those of honest ones by 1 MiB: nothing is reserved
by a count that the input does not cover.

At the first difference it prints what differs with the text in hexadecimal digits, keeps the folder, and ends with status 1.
`--seed N --batch N` plays that again.
"""
import argparse
import collections
import functools
import multiprocessing
import os
import pathlib
import random
import shutil
import subprocess
import sys
import tempfile
import time
from dataclasses import dataclass, field

from drawing import SHARDS, draw_chunk, draw_log, draw_row, names_by_shard, written_logs
from fitting import Settings, Shard
from forging import forge_chunk, forge_listed, forge_log, forge_row
from spelling import payload, record
from words import CHANGED_OBJECT, NO_OBJECT, OTHER_OBJECT, checked, read_lines, shown

ROUNDS = 20  # of a batch, over logs that one run of the program wrote
LOGS, CHUNKS, ROWS = SHARDS - 1, 97, 40  # texts of a round; the last shard's log is a pipe
HONEST = 0.1  # the share of texts that are left as they are
SLACK = 1024  # KiB by which forged texts may take more memory than honest ones
KINDS = {b"INGC": "chunk objects", b"INGR": "index rows"}
LOG, MADE = "logs, as texts", "logs, of which a shard is made again"
READ = "read"
ENDINGS = dict.fromkeys([NO_OBJECT, OTHER_OBJECT, CHANGED_OBJECT], "BadObject")


class Difference(Exception):
    """What differs, with the text."""


@dataclass
class Tally:
    """How often a kind of text came to what, and the greatest peaks of memory in KiB."""
    counts: collections.Counter = field(default_factory=collections.Counter)
    peaks: dict = field(default_factory=dict)

    def note_peak(self, name, peak):
        self.peaks[name] = max(self.peaks.get(name, 0), peak)

    def add(self, other):
        self.counts.update(other.counts)
        for name, peak in other.peaks.items():
            self.note_peak(name, peak)


@dataclass
class Texts:
    """What lies in a folder of a round."""
    logs: list
    chunks: list
    rows: list
    objects: dict


def peaks_of(process):
    """The peaks of a process so far, mapped and resident, in KiB."""
    lines = pathlib.Path(f"/proc/{process.pid}/status").read_text().splitlines()
    return {name: int(line.split()[1]) for line in lines for name in ("VmPeak", "VmHWM") if line.startswith(name)}


def run_measured(words, last, tally, name):
    """Runs a program whose last file is a pipe. What it wrote, and its status."""
    with tempfile.TemporaryFile() as output, subprocess.Popen(words, stdout=output, stderr=subprocess.PIPE) as process:
        while process.poll() is None:
            try:
                opened = os.open(last, os.O_WRONLY | os.O_NONBLOCK)
            except OSError:
                time.sleep(0.001)
                continue
            for which, peak in peaks_of(process).items():
                tally.note_peak((name, which), peak)
            os.close(opened)
            break
        says = process.stderr.read()
        process.wait()
        output.seek(0)
        if says:
            raise Difference(f"{name} says on standard error: {says!r}")
        return output.read(), process.returncode


class Round:
    """Texts in a place of their own, and what the program says of them."""

    def __init__(self, options, place, sizes, tally):
        self.options, self.place, self.sizes, self.tally = options, place, sizes, tally
        self.folder, self.pipe = place / "folder", place / "folder" / f"wal-{LOGS}"

    def write(self, texts):
        shutil.rmtree(self.place, ignore_errors=True)
        (self.folder / "objects").mkdir(parents=True)
        for key, text in texts.objects.items():
            (self.folder / "objects" / f"c-{key.hex()}").write_bytes(text)
        for shard, text in enumerate(texts.logs):
            (self.folder / f"wal-{shard}").write_bytes(text)
        for at, text in enumerate(texts.chunks):
            (self.place / f"chunk-{at}").write_bytes(text)
        for at, text in enumerate(texts.rows):
            (self.place / f"row-{at}").write_bytes(text)
        os.mkfifo(self.pipe)

    def play(self, texts):
        self.write(texts)
        self.look_at_texts(texts)
        self.look_at_logs(texts)

    def look_at_texts(self, texts):
        """What `show` writes of all texts."""
        named = [(self.place / f"chunk-{at}", text) for at, text in enumerate(texts.chunks)]
        named += [(self.place / f"row-{at}", text) for at, text in enumerate(texts.rows)]
        named += [(self.folder / f"wal-{at}", text) for at, text in enumerate(texts.logs)]
        paths = [path for path, _ in named]
        told, status = run_measured([self.options.ctl, "show", "--entries", *paths, self.pipe], self.pipe, self.tally, "show")
        wanted, owners, is_right = [], [], True
        for path, text in [*named, (self.pipe, b"")]:
            lines, fault = shown(text)
            kind = KINDS.get(text[:4], LOG)  # as `show` takes it
            wanted += [f"{path}: ".encode() + lines[0], *lines[1:]]
            owners += [(kind, text)] * len(lines)
            is_right = is_right and fault is None
            if path != self.pipe:
                self.tally.counts[kind, fault or READ] += 1
        self.compare("show", wanted, owners, read_lines(told.removesuffix(b"\n")), status, 0 if is_right else 1)

    def compare(self, name, wanted, owners, told, status, wanted_status):
        """Each line that was written with the one that is wanted, and the text that it is of."""
        for at, (line, said) in enumerate(zip(wanted, told)):
            if line != said:
                kind, text = owners[at]
                raise Difference(f"{name} of one of the {kind} says\n  {said}\nand not\n  {line}\nof the text\n  {text.hex()}")
        if (len(told), status) != (len(wanted), wanted_status):
            found = f"{len(told)} lines and status {status}"
            raise Difference(f"{name} gives {found}, and not {len(wanted)} lines and status {wanted_status}: {told[-1]}")

    def look_at_logs(self, texts):
        """What `check` writes of the logs, and what the program makes of them."""
        blocks, target = self.sizes
        found = []
        for shard, text in enumerate(texts.logs):
            found.append(checked(text, Settings(shard, SHARDS, blocks, target), texts.objects))
            self.tally.counts[MADE, found[-1][1] or READ] += 1
        words = [self.options.ctl, "check", "--room", self.folder, self.place.parent / "settings.toml"]
        told, status = run_measured(words, self.pipe, self.tally, "check")
        wanted = [b"wal-%d: %b" % (shard, words) for shard, (words, _, _) in enumerate(found)]
        wanted.append(b"wal-%d: 0 entries, 0 of them stored" % LOGS)
        made = [shard for _, _, shard in found if shard] + [Shard(Settings(LOGS, SHARDS, blocks, target), {})]
        wanted.append(b"room: there is, for %d bytes of checkpoints" % sum(len(record(payload(shard.said()))) for shard in made))
        is_right = all(fault is None for _, fault, _ in found)
        owners = [(LOG, text) for text in [*texts.logs, b"", b""]]
        self.compare("check", wanted, owners, told.removesuffix(b"\n").split(b"\n"), status, 0 if is_right else 1)
        self.start(texts, found)

    def start(self, texts, found):
        """Starts the program over the folder, and looks at the logs that it leaves."""
        self.pipe.unlink()
        words = [self.options.program, self.place.parent / "settings.toml", self.folder]
        ran = subprocess.run(words, input=b"", capture_output=True, timeout=120)
        # The lowest shard that is refused tells why.
        says = [ENDINGS.get(fault, fault) for _, fault, _ in found if fault]
        wanted = (2, f"ingestd: {says[0]}\n".encode()) if says else (0, b"")
        if (ran.returncode, ran.stderr) != wanted:
            raise Difference(f"the program ends with {(ran.returncode, ran.stderr)}, and not with {wanted}")
        for shard, (text, (_, _, made)) in enumerate(zip(texts.logs, found)):
            wanted = record(payload(made.said())) if made else text
            left = (self.folder / f"wal-{shard}").read_bytes()
            if left != wanted:
                words = f"of a log\n  {text.hex()}\nthe program makes\n  {left.hex()}\nand not\n  {wanted.hex()}"
                raise Difference(f"{words}\nunder {self.sizes}")


def draw_texts(draw, sizes, names, written, objects):
    """Honest texts: logs that were drawn and written, chunk objects and index rows."""
    objects, logs = dict(objects), []
    for shard in range(LOGS):
        settings = Settings(shard, SHARDS, *sizes)
        logs.append(written[shard] if draw.random() < 0.4 else draw_log(draw, settings, names[shard], objects))
    stored = list(objects.values())
    chunks = [draw.choice(stored) if stored and draw.random() < 0.3 else draw_chunk(draw, names) for _ in range(CHUNKS)]
    return Texts(logs, chunks, [draw_row(draw, names) for _ in range(ROWS)], objects)


def forge_texts(draw, honest):
    """Most of the texts forged."""
    objects, logs = dict(honest.objects), []
    for text in honest.logs:
        way = draw.random()
        if way > HONEST:
            text = forge_listed(draw, text, honest.objects, objects) if way < 0.25 else forge_log(draw, text, honest.logs)
        logs.append(text)
    chunks = [text if draw.random() < HONEST else forge_chunk(draw, text, honest.chunks) for text in honest.chunks]
    rows = [text if draw.random() < HONEST else forge_row(draw, text, honest.rows) for text in honest.rows]
    return Texts(logs, chunks, rows, objects)


def play_batch(options, parent, names, number):
    """Plays a batch, unless they are to stop: what it counted, and the first difference."""
    tally, draw = Tally(), random.Random(f"{options.seed} {number}")
    if (parent / "stop").exists():
        return number, tally, None
    above = parent / f"batch-{number}"
    above.mkdir()
    sizes = draw.randint(40, 400), draw.randint(200, 3000)
    lines = [f"shards = {SHARDS}", f"chunk_block_size = {sizes[0]}", f"chunk_target_size = {sizes[1]}", ""]
    (above / "settings.toml").write_text("\n".join(lines))
    objects = {}
    try:
        written = written_logs(options.program, above / "written", above / "settings.toml", draw, names, objects)
        for at in range(ROUNDS):
            honest = draw_texts(draw, sizes, names, written, objects)
            texts = honest if number < 0 else forge_texts(draw, honest)
            Round(options, above / "round", sizes, tally).play(texts)
    except Difference as difference:
        return number, tally, f"seed {options.seed}, batch {number}, round {at}, in {above}:\n{difference}"
    except Exception:
        print(f"seed {options.seed}, batch {number}, in {above}:", flush=True)
        raise
    shutil.rmtree(above)
    return number, tally, None


def play_all(options, parent):
    """Plays honest texts, and then batches side by side: what was counted of both, and the first difference."""
    names, tally, honest = names_by_shard(), Tally(), Tally()
    _, more, difference = play_batch(options, parent, names, -1)
    honest.add(more)
    count = -(-options.texts // (ROUNDS * (LOGS + CHUNKS + ROWS)))
    numbers = range(count) if options.batch is None else [options.batch]
    play = functools.partial(play_batch, options, parent, names)
    with multiprocessing.Pool(min(options.jobs, len(numbers))) as pool:
        for _, more, found in pool.imap_unordered(play, [] if difference else numbers):
            tally.add(more)
            difference = difference or found
            if found:
                (parent / "stop").touch()
    return honest, tally, difference


def print_counts(tally):
    """Prints how many texts of each kind were read, and as what how many were refused."""
    print(f"{sum(count for (kind, _), count in tally.counts.items() if kind != MADE)} texts")
    for kind in (*KINDS.values(), LOG, MADE):
        told = sorted((name, count) for (which, name), count in tally.counts.items() if which == kind)
        refused = sum(count for name, count in told if name != READ)
        print(f"{kind}: {tally.counts[kind, READ]} read, {refused} refused")
        for name, count in told:
            if name != READ:
                print(f"{count:10} {name}")


def check_peaks(honest, tally):
    """Prints the peaks of memory, and says whether forged texts took about as much as honest ones."""
    is_right = True
    for (name, which), peak in sorted(tally.peaks.items()):
        what, before = {"VmPeak": "mapped", "VmHWM": "resident"}[which], honest.peaks[name, which]
        print(f"{name}: at most {peak} KiB {what}, of honest texts {before} KiB", flush=True)
        is_right = is_right and peak <= before + SLACK
    return is_right


def main():
    parser = argparse.ArgumentParser(description=__doc__.split("\n")[0])
    parser.add_argument("program")
    parser.add_argument("--ctl", required=True, help="ingestctl")
    parser.add_argument("--texts", type=int, default=1000000)
    parser.add_argument("--seed", type=int, default=random.randrange(2**32))
    parser.add_argument("--jobs", type=int, default=os.cpu_count(), help="how many batches are played side by side")
    parser.add_argument("--batch", type=int, help="play this one alone, to look at it again")
    parser.add_argument("--parent", default="/dev/shm", help="where folders are made: a memory disk")
    options = parser.parse_args()
    parent = pathlib.Path(tempfile.mkdtemp(prefix="forged-", dir=options.parent))
    print(f"seed {options.seed}, {options.texts} texts, folders in {parent}", flush=True)
    honest, tally, difference = play_all(options, parent)
    print_counts(tally)
    if difference:
        print(difference)
        sys.exit(1)
    shutil.rmtree(parent)
    if not check_peaks(honest, tally):
        print(f"forged texts took more than {SLACK} KiB above what honest ones took")
        sys.exit(1)


if __name__ == "__main__":
    main()
