#!/usr/bin/env python3
"""Draws inputs for any number of shards and flushers, and compares each reply and report with those of a slow model.

    python3 inputs/inputs.py PROGRAM [--inputs N] [--seed N] [--jobs N] [--lines N] [--parent FOLDER]

Settings are drawn, and pushes of several tenants and streams, of what is accepted, doubled, late and refused; sweeps, flushes,
gauges, boards, checkpoints, queries and questions for streams and labels between them; blank and bad lines. An input is run in
memory, or over a folder, where it may be cut into parts, with a new start before each. What the program writes has to be, byte for
byte, what model.py replies, which is written from docs/COMMANDS.md and docs/FORMATS.md alone. No upload fails here.

At the first difference it prints what was written and what the model replies, keeps settings, input and folder, and ends with
status 1. `--seed N` draws the same inputs again.
"""
import argparse
import collections
import json
import multiprocessing
import pathlib
import random
import shutil
import subprocess
import sys
import tempfile
import time
from dataclasses import asdict

from model import BAD_SELECTORS, Model, Rules, Settings, canonical_name, text_of

TENANTS = ["t", "acme", "a-b.c_d"]
NAMES, VALUES = ["a", "b", "app"], ["1", "2", "web", 'x"\\\n', "äö"]
BAD_LABELS = [{}, {"a": ""}, {"1a": "x", "b": "1"}, {"b": "1", "ä": "x"}, {"a": "1", "too_long_a_name": "x"}, {"a": "1", "another_long_name": ""}, {"a": "a long value"}]
LINES = ["", "x", "hello", 'quote " and \\', "line\nfeed\r\t\x01\x7f", "ä€😀", "a longer line, of forty bytes or so there"]
BAD_LINES = ["{", "[]", "null", '{"cmd":"nope"}', '{"cmd":1}', '{"cmd":"push"}', '{"cmd":"sweep","now":5}', '{"cmd":"sweep","now":"1x"}']
BAD_LINES += ['{"cmd":"flush","forced":0}', '{"cmd":"gauges","tenant":".."}', '{"cmd":"gauges"}', '{"cmd":"sweep","now":"9223372036854775808"}']
BAD_LINES += ['{"cmd":"query","tenant":"t","query":"{a=\\"1\\"}","after":{"number":1,"stamp":"1"}}']
BAD_LINES += ['{"cmd":"query","tenant":"t","query":"{a=\\"1\\"}","after":{"number":-1,"stamp":"1","stream":""}}']
BAD_LINES += ['{"cmd":"query","tenant":"t","query":"{a=\\"1\\"}","after":{"number":1,"stamp":"x","stream":""}}']
BAD_LINES += ['{"cmd":"series"}', '{"cmd":"series","tenant":"t","query":null}', '{"cmd":"labels","tenant":"..","name":1}']
BAD_LINES += ['{"cmd":"query","tenant":"t","query":"{a=\\"1\\"}","limit":0}', '{"cmd":"query","tenant":"t","query":"{}"}']
BAD_LINES += ['{"cmd":"push","tenant":"t","now":"1","streams":[{"stream":{"a":"1"},"values":[["1","x",{}]]}]}']
BAD_LINES += ['{"cmd":"push","tenant":"t","now":"1","streams":[{"stream":{"a":"1"},"values":[["1","x"],["","y"]]}]}']
SIZES = {"chunk_block_size": [1, 20, 60, 262144], "chunk_target_size": [1, 40, 90, 200, 1572864]}
DURATIONS = {"chunk_idle_period": [0, 5, 50, 1800 * 10**9], "max_chunk_age": [0, 9, 30, 200, 7200 * 10**9]}
LIMITS = {"max_label_names": [1, 2, 15], "max_label_name_length": [1, 3, 1024], "max_label_value_length": [1, 5, 2048]}
LIMITS |= {"max_line_size": [1, 8, 262144], "max_streams_per_tenant": [1, 2, 3, 1000], "max_entries_per_push": [1, 3, 10000]}
COMMANDS = {"push": 55, "sweep": 10, "flush": 8, "gauges": 6, "board": 4, "checkpoint": 3, "query": 10, "series": 4, "labels": 4, "blank": 1, "bad": 3}


class Difference(Exception):
    """What the program wrote that the model does not reply."""


def draw_limits(draw, odds):
    """Some limits: the others are as in Rules."""
    return {name: draw.choice(among) for name, among in LIMITS.items() if draw.random() < odds}


def draw_settings(draw, is_cut):
    """Where an input is cut no operation is left without room, since a start orders the streams anew."""
    rules = Rules(**draw_limits(draw, 0.15))
    tenants = {tenant: Rules(**asdict(rules) | draw_limits(draw, 0.3)) for tenant in TENANTS if draw.random() < 0.3}
    drawn = {name: draw.choice(among) for name, among in (SIZES | DURATIONS).items()}
    queue = 1024 if is_cut else draw.choice([1, 2, 5, 1024])
    return Settings(shards=draw.choice([1, 2, 3, 5]), flushers=draw.choice([1, 2, 4]), flush_queue_length=queue, rules=rules, tenants=tenants, **drawn)


def settings_text(settings):
    said = asdict(settings)
    lines = [f"{name} = {said[name]}" for name in ("shards", "flushers", "flush_queue_length", *SIZES)]
    lines += [f'{name} = "{said[name]}ns"' for name in DURATIONS]
    lines += [f"{name} = {value}" for name, value in said["rules"].items()]
    for tenant, rules in said["tenants"].items():
        lines += [f'[tenants."{tenant}"]', *(f"{name} = {value}" for name, value in rules.items())]
    return "\n".join(lines) + "\n"


class Drawing:
    """Draws lines, under a clock that mostly goes on."""

    def __init__(self, draw):
        self.draw, self.now, self.last = draw, 1000, ["1000", "x"]
        self.counts, self.places = collections.Counter(), []

    def line(self):
        kind = self.draw.choices(list(COMMANDS), COMMANDS.values())[0]
        self.now += self.draw.choice([0, 1, 1, 3, 10, 60])
        if kind in ("blank", "bad"):
            return self.draw.choice(BAD_LINES if kind == "bad" else ["", " \t\r"])
        members = {"push": self.push, "sweep": self.time, "flush": self.flush, "gauges": self.tenant, "query": self.query}
        members |= {"series": self.series, "labels": self.labels_asked}
        return json.dumps({"cmd": kind} | members.get(kind, dict)(), ensure_ascii=self.draw.random() < 0.5)

    def tenant(self):
        return {"tenant": self.draw.choice(TENANTS[:2] if self.draw.random() < 0.9 else TENANTS)}

    def time(self):
        return {"now": str(max(0, self.now + self.draw.choice([0, 0, -7, 40])))}

    def flush(self):
        return self.draw.choice([{}, {"forced": True}, {"forced": False}, {"forced": False}])

    def labels(self):
        if self.draw.random() < 0.06:
            return self.draw.choice(BAD_LABELS)
        names = self.draw.sample(NAMES, self.draw.choice([1, 1, 2]))
        return {name: self.draw.choice(VALUES[:3] if self.draw.random() < 0.9 else VALUES) for name in names}

    def value(self):
        if self.draw.random() < 0.85:
            stamp = max(0, self.now + self.draw.choice([0, 0, 1, 2, -1, -4, -20, -120]))
            self.last = [str(stamp), self.draw.choice(LINES)]
        return self.last

    def push(self):
        streams = [{"stream": self.labels(), "values": [self.value() for _ in range(self.draw.choice([0, 1, 1, 2, 3, 4]))]}
                   for _ in range(self.draw.choice([0, 1, 1, 1, 2, 3]))]
        tenant = self.tenant()
        for stream in streams:
            self.note(tenant["tenant"], stream)
        return tenant | self.time() | {"streams": streams}

    def note(self, tenant, stream):
        """Where its entries stand, if each of them, and all before, are accepted."""
        labels = {label: value for label, value in stream["stream"].items() if value}
        if labels and {*labels} <= {*NAMES}:
            name = canonical_name(labels)
            for stamp, _ in stream["values"]:
                self.places.append((tenant, {"number": self.counts[tenant, name], "stamp": stamp, "stream": name}))
                self.counts[tenant, name] += 1

    def selector(self):
        selectors = ['{a="1"}', '{a="2"}', '{app="web"}', '{ a = "1" , b != "1" }', '{b="1", a=""}', '{a!="1", app="1"}', '{a="x\\"\\\\\\n"}']
        selectors += ['{a="1"}', '{a="2"}'] * 4 + [*BAD_SELECTORS, '{a!="1"}']
        return {"query": self.draw.choice(selectors)}

    def series(self):
        return self.tenant() | (self.selector() if self.draw.random() < 0.5 else {})

    def labels_asked(self):
        return self.series() | ({"name": self.draw.choice([*NAMES, "none", ""])} if self.draw.random() < 0.6 else {})

    def query(self):
        among = {"start": [str(self.now - 100), "0"], "end": [str(self.now), str(2**63)], "limit": [2, 5, 5000], "direction": ["forward", "backward"], "pages": [True, True, False]}
        options = {name: self.draw.choice(choices) for name, choices in among.items() if self.draw.random() < 0.4}
        if self.places and self.draw.random() < 0.3:
            tenant, options["after"] = self.draw.choice(self.places[-30:])
            return {"tenant": tenant} | (self.selector() if self.draw.random() < 0.5 else {"query": options["after"]["stream"]}) | options
        if self.draw.random() < 0.2:
            options["after"] = self.cursor()
        return self.tenant() | self.selector() | options

    def cursor(self):
        """The place of an entry that may stand there, or may not."""
        place = {"number": self.draw.choice([0, 0, 1, 1, 2, 3, 5, 2**64 - 1]), "stamp": str(max(0, self.now + self.draw.choice([0, 0, 1, -1, -4, -20])))}
        return place | {"stream": self.draw.choice(['{a="1"}', '{a="1"}', '{a="2"}', '{app="web"}', "", "no name"])}


def compare(lines, written, expected):
    for at, (one, other) in enumerate(zip(written, expected)):
        if one != other:
            raise Difference(f"reply {at} differs:\n  written {one}\n  model   {other}")
    if len(written) != len(expected):
        raise Difference(f"{len(written)} lines were written of {len(expected)}")


def play(program, place, model, lines, words, tally):
    """Runs the program over these lines."""
    (place / "input.jsonl").write_text("".join(line + "\n" for line in lines), newline="")
    with open(place / "input.jsonl", "rb") as given:
        ran = subprocess.run([program, *words], stdin=given, capture_output=True, timeout=120)
    if ran.returncode or ran.stderr:
        raise Difference(f"the program ended with {ran.returncode}: {ran.stderr!r}")
    replies = [reply for reply in map(model.answer, lines) if reply is not None] + [model.report()]
    compare(lines, ran.stdout.decode().split("\n")[:-1], [text_of(reply) for reply in replies])
    tally.update(lines=len(lines), entries=sum(shard["accepted"] for shard in replies[-1]["report"]))
    for reply in replies:
        tally.update(stored=reply.get("flush", {}).get("stored", 0), found=len(reply.get("query", {}).get("entries", [])), refused="error" in reply)


def one_input(options, number, tally):
    draw = random.Random(f"{options.seed} {number}")
    has_folder, parts = draw.random() < 0.6, draw.choice([1, 1, 2, 3])
    parts = parts if has_folder else 1
    settings = draw_settings(draw, parts > 1)
    place = pathlib.Path(tempfile.mkdtemp(prefix="inputs-", dir=options.parent))
    (place / "settings.toml").write_text(settings_text(settings))
    words = [place / "settings.toml"] + [place / "folder"] * has_folder
    model, drawing = Model(settings, has_folder), Drawing(draw)
    tally.update(inputs=1, **{"over a folder": has_folder, "new starts": parts - 1})
    try:
        for part in range(parts):
            if part:
                model.restart()
            play(options.program, place, model, [drawing.line() for _ in range(draw.randint(1, options.lines))], words, tally)
    except Difference as difference:
        raise Difference(f"input {number}, part {part} of {parts}, in {place}: {difference}") from None
    shutil.rmtree(place)


def work(options, first):
    """Every so many of the inputs. What they came to, and the first difference."""
    tally = collections.Counter()
    try:
        for number in range(first, options.inputs, options.jobs):
            one_input(options, number, tally)
    except Difference as difference:
        return tally, str(difference)
    return tally, None


def main():
    parser = argparse.ArgumentParser(description=__doc__.split("\n")[0])
    parser.add_argument("program", type=lambda path: str(pathlib.Path(path).resolve()))
    parser.add_argument("--inputs", type=int, default=10_000)
    parser.add_argument("--seed", type=int, default=1)
    parser.add_argument("--jobs", type=int, default=multiprocessing.cpu_count())
    parser.add_argument("--lines", type=int, default=80, help="the most of a part")
    parser.add_argument("--parent", default=None, help="where the folders lie")
    options = parser.parse_args()
    began, total = time.monotonic(), collections.Counter()
    with multiprocessing.Pool(options.jobs) as pool:
        ended = pool.starmap(work, [(options, first) for first in range(options.jobs)])
    for tally, difference in ended:
        total.update(tally)
        if difference:
            print(difference)
    print(", ".join(f"{name}: {count}" for name, count in total.items()), f"({time.monotonic() - began:.0f} s, seed {options.seed})")
    sys.exit(any(difference for _, difference in ended))


if __name__ == "__main__":
    main()
