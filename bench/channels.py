#!/usr/bin/env python3
"""What channels side by side come to over a folder: entries a second, and how long a reply takes while others push.

    python3 bench/channels.py PROGRAM [--pushes N] [--parent FOLDER]

Pushes of one entry and of 100 entries of 120 bytes, N together (20,000; of 100 entries a twentieth of that), to 1,000 streams in turn,
come from files through 1, 2, 4 and 8 channels, over 1 and 4 shards; beside them the same lines on standard input. Lines that are at
hand share a sync. Every entry has to be accepted, or it stops. Then one client pushes a tenth of N, one entry after another through
pipes, and waits for each reply, while 0, 1, 3 and 7 channels, each of a tenant of its own, push ten times N each from files; where these
had ended before, the figures say so. Then N pushes of one entry, and a tenth of that of 100, come through four channels without diaries
and with them: what the end of the run compares has to be noted until then. Last, clients of one shard push a tenth of N together, and each
waits for a reply before it pushes again, while every sync takes 5 milliseconds longer (by `strace`, where it is installed). Prints four
tables; a start and an end are in the figures of all but the second.
"""
import argparse
import json
import pathlib
import shutil
import statistics
import subprocess
import sys
import tempfile
import threading
import time

TOP = pathlib.Path(__file__).resolve().parent.parent
sys.path += [str(TOP / "channels"), str(TOP / "kills")]
from clients import FILES, WHOLE, Client, run  # noqa: E402
from kills import Folder  # noqa: E402
from scenes import play_slowly  # noqa: E402

START = 10**18
SHARDS, CHANNELS = [1, 4], [1, 2, 4, 8]


def push_line(number, entries, tenant="t"):
    values = [[str(START + number * 10**6 + place), f"{place:0120}"] for place in range(entries)]
    stream = {"stream": {"app": "web", "pod": f"p{number % 1000}"}, "values": values}
    return json.dumps({"cmd": "push", "tenant": tenant, "now": str(START), "streams": [stream]})


class Timed(Client):
    """Waits for each reply, and ends the run behind the last. `seconds` has how long each took."""

    def converse(self, given, told):
        self.seconds = []
        for line in self.lines:
            begun = time.perf_counter()
            turns = self.give(given, [line])
            self.hear(told, turns)
            self.seconds.append(time.perf_counter() - begun)
        self.process.kill()


class Peak:
    """The most memory that a process had, in MiB: read until it is gone, so what it took in its last 10 milliseconds may be missing."""

    def __init__(self, process):
        self.mebibytes, self.process = 0, process
        threading.Thread(target=self.watch, daemon=True).start()

    def watch(self):
        while self.process.returncode is None:
            try:
                status = pathlib.Path(f"/proc/{self.process.pid}/status").read_text()
            except OSError:
                return
            for line in status.splitlines():
                if line.startswith("VmHWM:"):
                    self.mebibytes = int(line.split()[1]) / 1024
            time.sleep(0.01)


def new_folder(parent, shards, **settings):
    folder = Folder(parent / "run", {"shards": shards, "max_streams_per_tenant": 100_000, **settings})
    folder.make()
    return folder


def is_whole(report, count):
    return sum(shard["accepted"] for shard in report) == count


def seconds_of_input(options, parent, shards, lines, count):
    """The same lines on standard input."""
    folder = new_folder(parent, shards)
    (parent / "run" / "input").write_text("".join(line + "\n" for line in lines))
    with open(parent / "run" / "input", "rb") as given:
        begun = time.monotonic()
        ran = subprocess.run(folder.words(options.program), stdin=given, capture_output=True, check=True)
        seconds = time.monotonic() - begun
    assert is_whole(json.loads(ran.stdout.splitlines()[-1])["report"], count), "not all is accepted"
    shutil.rmtree(folder.place)
    return seconds


def seconds_of_channels(options, parent, shards, lines, count, channels, beside=lambda process: None, **settings):
    """Lines that come through so many channels."""
    folder = new_folder(parent, shards, **settings)
    clients = [Client(parent / "run" / str(number), lines[number::channels], FILES) for number in range(channels)]
    for client in clients:
        client.make()
    begun = time.monotonic()
    status, output, error = run(options.program, folder, clients, beside=beside, patience=600)
    seconds = time.monotonic() - begun
    assert status == 0 and is_whole(json.loads(output)["report"], count), f"the run ended with {status}: {output}{error}"
    shutil.rmtree(folder.place)
    return seconds


def seconds_of_replies(options, parent, shards, beside):
    """How long each reply takes on one channel, while so many others push from files, and whether these had ended before."""
    folder = new_folder(parent, shards)
    pushes = options.pushes // 10
    timed = Timed(parent / "run" / "timed", [push_line(number, 1) for number in range(pushes)], WHOLE)
    others = [Client(parent / "run" / str(place), [push_line(number, 1, f"t{place}") for number in range(10 * options.pushes)], FILES) for place in range(beside)]
    for client in [timed, *others]:
        client.make()
    run(options.program, folder, [timed, *others], beside=lambda process: setattr(timed, "process", process), patience=600)
    assert len(timed.seconds) == pushes, "not all is answered"
    had_ended = any(other.said[-1].reply is not None for other in others)
    shutil.rmtree(folder.place)
    return sorted(timed.seconds), had_ended


def print_rates(options, parent):
    print("| Shards | entries a push | standard input | " + " | ".join(f"{count} channel{'s' * (count > 1)}" for count in CHANNELS) + " |")
    print("|---" * (len(CHANNELS) + 3) + "|")
    for shards in SHARDS:
        for entries, pushes in [(1, options.pushes), (100, options.pushes // 20)]:
            lines, count = [push_line(number, entries) for number in range(pushes)], entries * pushes
            seconds = [seconds_of_input(options, parent, shards, lines, count)]
            seconds += [seconds_of_channels(options, parent, shards, lines, count, channels) for channels in CHANNELS]
            print(f"| {shards} | {entries} | " + " | ".join(f"{count / each:,.0f}" for each in seconds) + " |", flush=True)


def print_replies(options, parent):
    print("| Shards | channels that push beside | p50 | p99 |")
    print("|---|---|---|---|")
    for shards in SHARDS:
        for beside in [0, 1, 3, 7]:
            seconds, had_ended = seconds_of_replies(options, parent, shards, beside)
            p50, p99 = statistics.median(seconds), seconds[len(seconds) * 99 // 100]
            print(f"| {shards} | {beside}{', of which some had ended' * had_ended} | {p50 * 1000:.2f} | {p99 * 1000:.2f} |", flush=True)


def print_diaries(options, parent):
    print("| entries a push | entries | diaries | seconds | MiB at most |")
    print("|---" * 5 + "|")
    for entries, pushes in [(1, options.pushes), (100, options.pushes // 10)]:
        lines, count = [push_line(number, entries) for number in range(pushes)], entries * pushes
        for diaries in [False, True]:
            peaks = []
            seconds = seconds_of_channels(options, parent, 1, lines, count, 4, lambda process: peaks.append(Peak(process)), diaries=diaries)
            print(f"| {entries} | {count:,} | {'with' if diaries else 'without'} | {seconds:.2f} | {peaks[0].mebibytes:.0f} |", flush=True)


def print_waiting(options, parent):
    print("| clients that wait | pushes a second | pushes a sync |")
    print("|---|---|---|")
    for count in CHANNELS:
        lines = [push_line(number, 1) for number in range(options.pushes // 10)]
        clients = [Client(parent / f"waits-{count}-{number}", lines[number::count], WHOLE) for number in range(count)]
        syncs, seconds = play_slowly(options.program, parent, clients, len(lines))
        print(f"| {count} | {len(lines) / seconds:,.0f} | {len(lines) / syncs:.1f} |", flush=True)


def main():
    parser = argparse.ArgumentParser(description=__doc__.split("\n")[0])
    parser.add_argument("program", type=lambda path: str(pathlib.Path(path).resolve()))
    parser.add_argument("--pushes", type=int, default=20_000)
    parser.add_argument("--parent", help="where the folder is made")
    options = parser.parse_args()
    parent = pathlib.Path(tempfile.mkdtemp(prefix="channels-", dir=options.parent))
    print("Entries a second:\n")
    print_rates(options, parent)
    print("\nMilliseconds of a reply to a push of one entry:\n")
    print_replies(options, parent)
    print("\nSeconds and memory of four channels and one shard:\n")
    print_diaries(options, parent)
    if shutil.which("strace"):
        print("\nClients of one shard that each wait for a reply, over a slower disk:\n")
        print_waiting(options, parent)
    else:
        print("\nNo strace: nothing of clients that each wait for a reply.")
    shutil.rmtree(parent)


if __name__ == "__main__":
    main()
