#!/usr/bin/env python3
"""What a start over a folder with many stored chunks costs, and the flush that stored them.

    python3 bench/recovery.py PROGRAM [CHUNKS] [ENTRIES] [--parent FOLDER]

Pushes ENTRIES entries of 120 bytes (10 by default) to each of CHUNKS streams (100,000 by default), flushes, and starts PROGRAM
(ingestd) three times over what it left: each start has to recover all, stored. Prints time by the clock, processor time and peak
memory of each run.
"""
import argparse
import json
import os
import pathlib
import shutil
import subprocess
import tempfile
import time


def run(program, folder, lines):
    """Its report, seconds by the clock, of the processor, and MiB at most."""
    words = [program, folder / "settings.toml", folder / "folder"]
    with open(folder / "input", "wb") as it:
        it.writelines(json.dumps(line).encode() + b"\n" for line in lines)
    with open(folder / "input", "rb") as given, open(folder / "output", "wb") as told:
        start = time.monotonic()
        process = subprocess.Popen(words, stdin=given, stdout=told)
        _, status, used = os.wait4(process.pid, 0)
        seconds = time.monotonic() - start
    assert status == 0, f"the program ended with {status}"
    report = json.loads((folder / "output").read_bytes().splitlines()[-1])["report"]
    return report, seconds, used.ru_utime + used.ru_stime, used.ru_maxrss / 1024


def pushes(chunks, entries):
    for first in range(0, chunks, 100):
        streams = [
            {"stream": {"app": "web", "pod": f"p{n}"}, "values": [[str(10**18 + k), f"{k:08}" + "x" * 112] for k in range(entries)]}
            for n in range(first, min(first + 100, chunks))
        ]
        yield {"cmd": "push", "tenant": "t", "now": str(10**18), "streams": streams}
    yield {"cmd": "flush"}


def main():
    parser = argparse.ArgumentParser(description=__doc__.split("\n")[0])
    parser.add_argument("program")
    parser.add_argument("chunks", type=int, nargs="?", default=100000)
    parser.add_argument("entries", type=int, nargs="?", default=10)
    parser.add_argument("--parent", help="where the folder is made")
    options = parser.parse_args()
    folder = pathlib.Path(tempfile.mkdtemp(prefix="recovery-", dir=options.parent))
    (folder / "settings.toml").write_text(f"flushers = 4\nmax_streams_per_tenant = {options.chunks}\n")
    print(f"{options.chunks} chunks of {options.entries} entries: seconds, processor seconds, MiB")
    report, *figures = run(options.program, folder, pushes(options.chunks, options.entries))
    print("  pushed and flushed  {:7.2f} {:7.2f} {:7.0f}".format(*figures))
    for _ in range(3):
        report, *figures = run(options.program, folder, [])
        count = options.chunks * options.entries
        assert report == [{"accepted": 0, "kept": 0, "recovered": count, "stored": count}], report
        print("  started             {:7.2f} {:7.2f} {:7.0f}".format(*figures))
    shutil.rmtree(folder)


if __name__ == "__main__":
    main()
