#!/usr/bin/env python3
"""Cuts the power of ingestd over a folder, at drawn moments and in drawn ways, and looks whether what it had answered is there.

    python3 crashes/crashes.py PROGRAM [--channels N] [--images N] [--seed N] [--jobs N] [--ctl PROGRAM]
        [--fail] [--without WHICH] [--history N]
    python3 crashes/crashes.py --check

A run of `PROGRAM SETTINGS FOLDER`, with a clock in half of the histories, gets drawn commands, and `strace` records its calls for
files and its replies, in one order. A model of a file system (disk.py) is told them one by one. Before and behind each of them
images are built that a power cut may leave: bytes that were not synced dropped, cut, or zeros; creations, renames and removals that
were not synced undone, singly and together. FOLDER itself, and folders above it that the program made, may be gone. Of all these
some of each kind are drawn.

Each image is put into a folder, and what lies in it is read by docs/FORMATS.md alone, as in kills/kills.py: what was answered
durable before that moment is there, once, and nothing is that was not sent. The program is started over it, without a clock:
queries for all streams give the same, and so does what it leaves. Only a log whose end is damaged may keep it from starting, with
`DamagedLog`: then this program cuts it behind its last whole record, and all that was durable has to be there; with --ctl,
`ingestctl mend` has to leave the same, and to keep what was there.

A history is of several runs over one folder. Each begins with what the one before left: at its end; where it is taken to be
killed, with what was not synced then; or as an image of it. What a run begins with has to last as soon as it has answered.

Besides, the order itself is looked at, in the record alone. Before a reply tells that something is durable or stored, these are
synced: the logs, what leads to them, `lock`, and the names of the objects that the logs list. Before a rename the bytes of the
renamed file are.

With --channels a run is `PROGRAM SETTINGS FOLDER IN OUT ..`, with two to N channels, diaries in half of the histories, and commands
for streams that are each channel's own (talks.py). Some have all at hand in a file, others wait for replies.
What began to be written to an OUT was told there: what any channel was told durable has to be there, and of what each said behind
that some may be, in its order. At a reply another thread may just be about to sync what has no push of this channel (order.py).
Over an image the program is started with two words, as ever. Where a call fails a channel may break.

With --fail a call fails in each run: a drawn one that writes, syncs, cuts, makes, renames or removes a file of the folder, with
EIO or ENOSPC (by `strace`; the run is played beforehand, over a copy, to see which calls there are). It does nothing, and what
a failed sync was to make last a later one makes last. Images are those behind it, and the next run begins with one of them. The
order is not looked at: a log that takes no record more may stay behind.

With --without the record is read as if the program had left out one of its syncs, which both an image and the order have to show
(status 0, else 1); `told` means --fail, and a program that tells durable what failed, which an image has to show:

    append  the sync of a log behind an append
    beside  the sync of what is written beside before a rename: checkpoints and objects
    folder  the sync of a folder behind a rename
    begun   those with which a folder is begun: of `lock`, of FOLDER, and of the folders that list it
    told    no sync, but `"durable":false` in replies

What a disk does with what it said was synced this cannot show, nor an order of threads that was not seen: `--seed` draws the same
commands and cuts, but threads may take turns otherwise the next time. At the first image that loses, doubles or invents
something, and at a wrong order, it says what, keeps the image, and ends with status 1. `--seed N --history N` plays that again.
"""
import argparse
import collections
import copy
import functools
import itertools
import json
import multiprocessing
import os
import pathlib
import random
import shutil
import subprocess
import sys
import tempfile
from dataclasses import dataclass, field

from disk import CALLS, KEPT, WAYS, Disk, check_disk, left_of, read_trace
from order import check_rename, check_reply, leaves_out
from talks import PATIENCE, Expected, Listener, Started, Talk, speak, speak_on_channels

# Its folder is among those of talks.py.
from kills import CALLS as CALLS_OF_FILES
from kills import SETTINGS, Fields, Folder, Model, calls_in, draw_queries, run_traced, without_clock

EACH = 100  # images of one history
OF_A_KIND = 2  # images of one kind that are built in a run
OF_A_RUN = 50  # images of a run
OF_A_FAILING_RUN = 10
MOST = 40  # commands of a run
OF_CHANNELS = {"diaries": [False, True]}
ABOVE = ["", "above", "above/more"]  # folders that the program has to make, too
WHICH = ["append", "beside", "folder", "begun", "told"]
FAILING = ["openat", "write", "pwrite64", "fsync", "fdatasync", "ftruncate", "rename", "unlink", "mkdir"]
ERRORS = ["EIO", "ENOSPC"]
BEFORE, BEHIND, AMID = "before the first reply", "behind a reply", "several threads at work"
STARTED, ANEW, MENDED = "started", "began anew", "started when mended"


@dataclass
class Image:
    """What a power cut may leave: files by path, None for a folder. Its kind says how entries and bytes were left, and `told` how
    many replies each talk has."""
    kind: tuple
    moment: int
    told: tuple
    files: dict


@dataclass
class Kill:
    """What a kill at a moment leaves: the model of files, which knows what is not synced."""
    told: tuple
    disk: Disk


@dataclass
class Lot:
    """At most so many images, or kills, of each kind, drawn among all that are offered."""
    draw: random.Random
    size: int
    taken: dict = field(default_factory=dict)
    offered: collections.Counter = field(default_factory=collections.Counter)

    def offer(self, kind, build):
        self.offered[kind] += 1
        place = self.offered[kind] - 1
        if place >= self.size:
            place = self.draw.randrange(self.offered[kind])
        if place < self.size:
            self.taken.setdefault(kind, {})[place] = build()

    def images(self):
        """Those drawn, each once."""
        found = {}
        for image in itertools.chain(*(images.values() for images in self.taken.values())):
            found.setdefault((image.told, frozenset(image.files.items())), image)
        return sorted(found.values(), key=lambda image: image.moment)

    def any(self):
        """One of a drawn kind."""
        return self.draw.choice([*self.draw.choice([*self.taken.values()]).values()])


def ways_of_entries(calls, draw):
    """How the entries are left that no sync made last, with those that are kept."""
    if not calls:
        return [("all kept", [])]
    one = draw.choice(calls)
    ways = [("all kept", calls), ("all undone", []), (f"one {one.kind} undone", [call for call in calls if call is not one])]
    return ways + [(f"one {one.kind} kept", [one]), ("some undone", [call for call in calls if draw.random() < 0.5])]


def offer_images(disk, lot, moment, told, failed):
    """Offers images of a moment, behind calls that failed, as is told."""
    nodes, draw = disk.nodes(), lot.draw
    entries = [call for node in nodes if node.is_folder() for call in node.calls]
    has_bytes = any(node.calls for node in nodes if not node.is_folder())
    threads = {call.thread for node in nodes for call in node.calls} - {None}
    stage = BEFORE if not any(told) else BEHIND if len(threads) < 2 else AMID
    for name, kept in ways_of_entries(entries, draw):
        for way in [*WAYS, "drawn"] if has_bytes else ["none"]:
            kind = (stage, f"entries: {name if entries else 'none'}", f"bytes: {way}", *failed)

            def build():
                def text_of(node):
                    return left_of(node, draw.choice(WAYS) if way == "drawn" else KEPT if way == "none" else way, draw)

                return Image(kind, moment, told, disk.image(kept, text_of))

            lot.offer(kind, build)


def offer_kill(disk, lot, told):
    """Offers a kill at a moment, by the kinds of calls that are not synced and the first letters of what they name."""
    nodes = disk.nodes()
    entries = {(call.kind, name[:2]) for node in nodes if node.is_folder() for call in node.calls for name in call.meant}
    has_bytes = any(node.calls for node in nodes if not node.is_folder())
    lot.offer((frozenset(entries), has_bytes), lambda: Kill(told, copy.deepcopy(disk)))


def makes_or_changes(name, line):
    """Whether a call is one that may be made to fail."""
    return name in FAILING and (name != "openat" or "O_CREAT" in line)


def write_files(top, files):
    """Puts an image into a folder, which may be there with another one."""
    shutil.rmtree(top, ignore_errors=True)
    top.mkdir(parents=True)
    for path, text in sorted(files.items()):
        if text is None:
            (top / path).mkdir()
        else:
            (top / path).write_bytes(text)


def files_below(top):
    return {str(path.relative_to(top)): None if path.is_dir() else path.read_bytes() for path in sorted(top.rglob("*"))}


@dataclass
class Place(Folder):
    """A folder of kills.py below a top, which alone is there at first, beside the settings: the program makes what is missing."""
    top: pathlib.Path

    def settings_file(self):
        return self.top.parent / "settings.toml"


def make_place(parent, settings, above):
    Folder(parent, settings).make()
    (parent / "top").mkdir()
    return Place(parent / "top" / above, settings, parent / "top")


def start(options, place, commands):
    """Runs the program over a folder to the end of these commands: its status, replies, and what it says."""
    lines = "".join(json.dumps(command) + "\n" for command in commands).encode()
    ran = subprocess.run(place.words(options.program), input=lines, capture_output=True, timeout=PATIENCE)
    return ran.returncode, [json.loads(line) for line in ran.stdout.splitlines()], ran.stderr.decode()


def cut_logs(logs):
    """Cuts each log, whose bytes are given, behind its last whole record."""
    for path, text in logs.items():
        fields, whole = Fields(text), 0
        try:
            for _ in fields.records():
                whole = fields.at
        except AssertionError:
            path.write_bytes(text[:whole])


def mend(options, place):
    """Cuts the logs, and sees that ingestctl does the same and keeps what they were. What is found then."""
    logs = {path: path.read_bytes() for path in place.path().glob("wal-?")}
    cut_logs(logs)
    found = place.read()
    if options.ctl:
        for path, text in logs.items():
            path.write_bytes(text)
        words = [options.ctl, "mend", place.path(), place.settings_file(), "--cut"]
        ran = subprocess.run(words, capture_output=True, timeout=PATIENCE)
        assert ran.returncode == 0, f"mend ended with {ran.returncode}: {ran.stderr.decode()}"
        assert place.read() == found, "behind mend the logs have other chunks than their whole records"
        lost = [path.name for path, text in logs.items() if text not in files_below(place.path()).values()]
        assert not lost, f"mend did not keep {lost}"
    return found


def check_image(options, place, model):
    """Looks at an image that lies in a place, by what was told before. How the program started over it, and what was found."""
    outcome = STARTED if (place.path() / "wal-0").exists() else ANEW
    try:
        found = place.read()
    except AssertionError as fault:
        ended = start(options, place, [])
        assert ended == (2, [], "ingestd: DamagedLog\n"), f"{fault}, and the program ended with {ended}"
        outcome, found = MENDED, mend(options, place)
    model.check_found(found)
    again = Model(place, found)
    queries = draw_queries(random.Random(0), again.kept, 5000)
    status, replies, says = start(options, place, queries)
    assert status == 0, f"the program ended with {status}: {says}"
    again.check_report(replies.pop()["report"])
    for query, reply in zip(queries, replies, strict=True):
        again.note(query, reply)
    assert place.read() == found, "the program left other chunks than it found"
    return outcome, found


class History:
    """Runs over one folder, and images of each. What a run began with is `found`, and what had to last then `before` says."""

    def __init__(self, options, number, parent):
        self.options, self.draw = options, random.Random(f"{options.seed} {number}")
        settings = {name: self.draw.choice(values) for name, values in SETTINGS.items()}
        above, self.copy, self.failing = self.draw.choice(ABOVE), parent / f"copy-{number}", None
        self.numbers, self.channels = [None], parent / f"channels-{number}"
        if options.channels:
            settings |= {name: self.draw.choice(values) for name, values in OF_CHANNELS.items()}
            self.numbers = range(self.draw.randint(min(2, options.channels), options.channels))
        self.place = make_place(parent / f"history-{number}", settings, above)
        self.image_place = make_place(parent / f"image-{number}", without_clock(settings), above)
        self.disk, self.found, self.before = Disk(self.place.top), {}, None
        self.counts, self.order, self.loss = collections.Counter(), None, None

    def play(self):
        """Plays runs until there are images enough."""
        for run in itertools.count():
            talks = self.draw_talks(run)
            self.failing = self.draw_failing(talks) if self.options.fail else None
            self.record(run, talks)
            images, kill = self.read_record(talks)
            started = self.check(run, images, talks)
            if sum(self.counts.values()) >= EACH or self.loss:
                break
            self.go_on(started, kill, talks)
        shutil.rmtree(self.channels, ignore_errors=True)
        for place in [self.place] if self.loss else [self.place, self.image_place]:
            shutil.rmtree(place.top.parent)

    def silent(self):
        """Talks in which nothing is said."""
        return [Talk(number) for number in self.numbers]

    def draw_talks(self, run):
        """What is said in a run."""
        talks = self.silent()
        for talk in talks:
            talk.draw(self.draw, self.found, (10**9 + 7 * run) * 10**9, run > 0, MOST // len(talks))
        return talks

    def draw_failing(self, talks):
        """The call that is to fail: what it is, its number in its thread, and the error. Each kind is as likely as another."""
        shutil.copytree(self.place.top.parent, self.copy)
        place = Place(self.copy / self.place.place.relative_to(self.place.top.parent), self.place.settings, self.copy / "top")
        trace = self.copy / "trace"
        if self.options.channels:
            tracer = ["strace", "-f", "-qq", "-y", "-o", trace, "-e", f"trace={','.join(CALLS_OF_FILES)}"]
            speak_on_channels(self.options.program, Started(place, tracer), talks, self.channels)
        else:
            run_traced(self.options.program, place, Model(place, self.found), talks[0].commands, trace)
        calls = calls_in(trace, place.path(), makes_or_changes)
        shutil.rmtree(self.copy)
        kind = self.draw.choice(sorted({name for name, _ in calls}))
        return kind, self.draw.choice([number for name, number in calls if name == kind]), self.draw.choice(ERRORS)

    def record(self, run, talks):
        """Runs the program under strace. Where a call fails, it may end by that."""
        words = ["strace", "-f", "-qq", "-xx", "-s", str(2**24), "-e", "signal=none", "-e", f"trace={','.join(CALLS)}"]
        words += ["-e", "inject={0}:error={2}:when={1}".format(*self.failing)] if self.failing else []
        started = Started(self.place, [*words, "-o", self.place.top.parent / "trace"])
        if self.options.channels:
            status, says, report = speak_on_channels(self.options.program, started, talks, self.channels)
            assert self.failing or report.startswith(b'{"broken":0,'), f"the program ended with {status}: {says}, {report}"
        else:
            waits = len(talks[0].commands) if self.draw.random() < 0.7 else min(run, 1)
            status, says = speak(started.words(self.options.program), talks[0], waits)
        is_well = (status, says) == (0, b"") or (self.failing and status in (1, 2, 127))
        assert is_well, f"the program ended with {status}: {says}"

    def read_record(self, talks):
        """Tells the model of files what was recorded, and the talks their replies: images, and a kill."""
        lot, kills, listener = Lot(self.draw, OF_A_KIND), Lot(self.draw, 1), Listener(talks)
        failed = ["{0} failed with {2}".format(*self.failing)] if self.failing else []
        may_offer = not failed
        steps = read_trace((self.place.top.parent / "trace").read_text().splitlines())
        for moment, (called, begins) in enumerate(steps):
            if called.is_failed:
                may_offer = True
                continue
            if begins:
                self.begin(called, listener)
            else:
                self.disk.end(called)
                listener.end(called)
            if may_offer:
                offer_images(self.disk, lot, moment, listener.told(), failed)
                offer_kill(self.disk, kills, listener.told())
        assert self.disk.image() == files_below(self.place.top), "the record does not give what lies in the folder"
        listener.check_heard()
        assert failed or all(len(talk.replies) == len(talk.commands) for talk in talks), "a command has no reply in the record"
        self.disk.stop()
        return lot.images(), kills.any() if kills.taken else None

    def begin(self, called, listener):
        """Notes that a call begins, and looks at the order there."""
        talk, places = listener.begin(called, self.alter)
        for place in places:
            command, reply = talk.commands[place], talk.replies[place]
            self.look(lambda: check_reply(self.disk, self.place, talk, called.thread, command, reply))
        if called.name.startswith("rename"):
            self.look(lambda: check_rename(self.disk, called))
        self.disk.begin(called, lambda opened: leaves_out(self.options.without, opened))

    def alter(self, line):
        """The line of a reply, as it is read."""
        return line.replace(b'"durable":false', b'"durable":true') if self.options.without == "told" else line

    def look(self, check):
        """Looks at the order, and keeps what is first wrong with it."""
        try:
            if not self.failing:
                check()
        except AssertionError as fault:
            self.order = self.order or str(fault)

    def expect(self, talks, told):
        """What may be there, and has to be, behind so many replies."""
        return Expected(self.place, self.found, talks, told, may_fail=bool(self.failing))

    def check(self, run, images, talks):
        """Looks at images of a run, up to the first that loses. Those over which the program started, with what was found."""
        none = (0,) * len(talks)
        expected, started = {none: self.before or self.expect(talks, none)}, []
        self.before = expected[none]
        count = OF_A_FAILING_RUN if self.failing else OF_A_RUN
        for image in self.draw.sample(images, min(count, len(images))):
            if image.told not in expected:
                expected[image.told] = self.expect(talks, image.told)
            write_files(self.image_place.top, image.files)
            try:
                outcome, found = check_image(self.options, self.image_place, expected[image.told])
            except Exception as fault:
                kind = ", ".join(image.kind[1:])
                said = f"{type(fault).__name__}: {fault}"[:2000]
                replies = " and ".join(map(str, image.told))
                self.loss = f"run {run}, moment {image.moment}, {replies} replies, {kind}: {said}"
                write_files(self.image_place.top, image.files)
                break
            self.counts[image.kind, outcome] += 1
            started += [(image, found)] if outcome == STARTED else []
        return started

    def go_on(self, started, kill, talks):
        """Makes the next run begin with what the last one left: at its end, where it is killed, or as an image over which the
        program started. Behind a call that failed it is an image, or nothing: what else there is need not last."""
        way, top = self.draw.random(), self.place.top
        told = tuple(len(talk.replies) for talk in talks)
        if self.failing or (way < 0.4 and started):
            files, self.found = {}, {}
            if started:
                image, self.found = self.draw.choice(started)
                files = image.files
            write_files(top, files)
            self.disk, self.before = Disk(top, files), self.expect(self.silent(), (0,) * len(talks))
            return
        if way < 0.8:
            self.disk, told = kill.disk, kill.told
            self.disk.stop()
            write_files(top, self.disk.image())
        self.before = self.expect(talks, told) if any(told) else self.before
        self.found = self.place.read()


def play(options, parent, number):
    """Plays a history, unless they are to stop. What it counted, and what was wrong with the order and with an image."""
    if (parent / "stop").exists():
        return number, {}, None, None
    history = History(options, number, parent)
    try:
        history.play()
    except Exception:
        print(f"seed {options.seed}, history {number}:", flush=True)
        raise
    return number, history.counts, history.order, history.loss


def play_all(options, parent):
    """Plays histories side by side, until there are images enough or something is wrong. What is counted, and first faults."""
    numbers = range(-(-options.images // EACH)) if options.history is None else [options.history]
    counts, order, loss = collections.Counter(), None, None
    with multiprocessing.Pool(min(options.jobs, len(numbers))) as pool:
        for number, more, wrong_order, lost in pool.imap_unordered(functools.partial(play, options, parent), numbers):
            counts.update(more)
            order = order or wrong_order and f"seed {options.seed}, history {number}, order: {wrong_order}"
            loss = loss or lost and f"seed {options.seed}, history {number}, {lost}"
            if lost and not options.without:
                print(f"an image with a loss lies in {parent / f'image-{number}'}", flush=True)
            if is_over(options, order, loss):
                (parent / "stop").touch()
    return counts, order, loss


def is_over(options, order, loss):
    """Whether there is no more to be seen: at a fault, and without a sync where both faults are found that have to be."""
    if options.fail:
        return bool(loss)
    return bool(order and loss) if options.without else bool(order or loss)


def print_table(counts):
    """Prints how many images of each stage, way of entries and way of bytes there were, by outcome."""
    table, outcomes = collections.Counter(), [STARTED, ANEW, MENDED]
    for (kind, outcome), count in counts.items():
        for name in ["images", *kind]:
            table[name, outcome] += count
    print(f"{'':32}" + "".join(f"{outcome:>22}" for outcome in outcomes))
    for name in sorted({name for name, _ in table}):
        print(f"{name:32}" + "".join(f"{table[name, outcome]:22}" for outcome in outcomes), flush=True)


def main():
    parser = argparse.ArgumentParser(description=__doc__.split("\n")[0])
    parser.add_argument("program", nargs="?")
    parser.add_argument("--images", type=int, default=10000)
    parser.add_argument("--seed", type=int, default=random.randrange(2**32))
    parser.add_argument("--channels", type=int, default=0, help="speak on up to so many channels, not at one input")
    parser.add_argument("--jobs", type=int, default=os.cpu_count(), help="how many histories are played side by side")
    parser.add_argument("--ctl", help="ingestctl, which mends")
    parser.add_argument("--fail", action="store_true", help="fail a call in each run")
    parser.add_argument("--without", choices=WHICH, help="a sync that the record is read without (see the head of this file)")
    parser.add_argument("--history", type=int, help="play this one alone, to look at it again")
    parser.add_argument("--parent", default="/dev/shm", help="where folders are made: a memory disk")
    parser.add_argument("--check", action="store_true", help="check the model of files alone")
    options = parser.parse_args()
    options.fail |= options.without == "told"
    check_disk()
    if options.check:
        return
    if not options.program or not shutil.which("strace"):
        parser.error("a program is needed, and strace")
    parent = pathlib.Path(tempfile.mkdtemp(prefix="crashes-", dir=options.parent))
    what = f" at most, without `{options.without}`" if options.without else " behind calls that failed" if options.fail else ""
    print(f"seed {options.seed}, {options.images} images{what}, folders in {parent}", flush=True)
    counts, order, loss = play_all(options, parent)
    if not options.without:
        print_table(counts)
    for fault in filter(None, [order, loss]):
        print(fault)
    if options.without or not loss:
        shutil.rmtree(parent)
    is_caught = is_over(options, order, loss)
    if options.without:
        print(f"a program without `{options.without}` is{'' if is_caught else ' not'} caught")
    sys.exit(not is_caught if options.without else bool(order or loss))


if __name__ == "__main__":
    main()
