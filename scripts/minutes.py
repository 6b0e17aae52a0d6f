#!/usr/bin/env python3
"""Runs a command, and prints how many minutes of a processor the toolchain took for each crate.

    python3 scripts/minutes.py make test
    python3 scripts/minutes.py make build

Every two seconds it looks at all processes of the machine that are the toolchain's (`/proc`): what a crate's proof, its tests and its
program took, and what its wrong bodies did, which begin with one check of the whole crate. A process is counted up to where it was seen
last, and one of another checkout is counted, too. Prints a table at the end, and ends with the command's status.
"""
import collections
import os
import pathlib
import subprocess
import sys
import threading
import time

TICKS = os.sysconf("SC_CLK_TCK")


class Minutes:
    """What processes took that were seen so far."""

    def __init__(self):
        self.seen = {}

    def look(self):
        for place in pathlib.Path("/proc").iterdir():
            if place.name.isdigit():
                try:
                    self.note(place)
                except OSError:
                    pass  # it has ended

    def note(self, place):
        words = (place / "cmdline").read_bytes().decode(errors="replace").split("\0")
        if not words[0].endswith("/rattle") or "--crate-name" not in words:
            return
        # Behind the command's name in brackets, which may have blanks.
        fields = (place / "stat").read_text().rpartition(")")[2].split()
        crate = words[words.index("--crate-name") + 1]
        is_wrong = "/rt-edit" in os.readlink(place / "cwd")
        self.seen[place.name, fields[19]] = crate, is_wrong, int(fields[11]) + int(fields[12])

    def by_crate(self):
        sums = collections.defaultdict(lambda: [0, 0])
        for crate, is_wrong, ticks in self.seen.values():
            sums[crate][is_wrong] += ticks / TICKS / 60
        return sorted(sums.items(), key=lambda item: -sum(item[1]))


def main():
    if len(sys.argv) < 2:
        sys.exit(__doc__)
    minutes, begun, ended = Minutes(), time.monotonic(), threading.Event()

    def watch():
        while not ended.wait(2):
            minutes.look()

    watcher = threading.Thread(target=watch)
    watcher.start()
    status = subprocess.run(sys.argv[1:]).returncode
    ended.set()
    watcher.join()
    print("| crate | proof, tests, program | wrong bodies |\n|---|---|---|")
    crates = minutes.by_crate()
    for crate, (proof, wrong) in crates:
        print(f"| {crate} | {proof:.1f} | {wrong:.1f} |")
    print(f"| all | {sum(proof for _, (proof, _) in crates):.0f} | {sum(wrong for _, (_, wrong) in crates):.0f} |")
    print(f"\n{(time.monotonic() - begun) / 60:.0f} minutes by the clock, on {os.cpu_count()} processors")
    sys.exit(status)


if __name__ == "__main__":
    main()
