#!/usr/bin/env python3
"""Speaks with ingestd on several channels at once, over drawn rounds, and looks whether what it tells on all of them fits together.

    python3 channels/channels.py PROGRAM [--rounds N] [--seed N] [--lines N] [--parent FOLDER]
    python3 channels/channels.py PROGRAM --plant WHICH [--seed N]

A round starts `PROGRAM SETTINGS FOLDER IN OUT ..` over a folder, which is new now and then, with one to eight channels and drawn
settings. A client on each, in a thread of its own, pushes to streams that it shares with others and to some of its own, sweeps,
flushes, asks and queries. Some break off: they stop reading, die in a line, close their input ahead, have no room for replies, or
paths that cannot be opened. In some rounds the program is killed with SIGKILL.

Each line that comes back has to be one reply, whole, of the form of its command. What is told of a stream that one channel alone
pushes to is, word for word, what inputs/model.py says. Of a shared stream each number is told once, on whichever channel, and each
part of a push is judged as the model judges it behind what stood before it. A query answers with what its channel was told before,
and with what the first so many entries of each stream answer, by their numbers; boards and fronts do not fall. The report adds up
with all replies, and counts who broke. What lies in the folder then is read by docs/FORMATS.md alone, as in kills/kills.py: all
that was told durable, each entry once, under its number, and nothing else but what was not answered. Then the program is started over
it with two words: it finds the same, and leaves the same.

Between them are inputs through one channel alone, each reply of which is, byte for byte, that of the model; and before all rounds
there are fixed scenes (scenes.py). `--seed` draws the same lines again, but threads take turns as they like. With --plant what was
seen is altered before it is looked at, in a way of planted.py, or in each of them, which has to be noticed (status 0, else 1). At the first failure it
says what differs, keeps the folder, and ends with status 1.
"""
import argparse
import collections
import json
import pathlib
import random
import shutil
import tempfile

from checks import BROAD, Seen, check, merged, start_again
from clients import AHEAD, AT_HAND, BROKEN, FILES, WELL, WHOLE, Client, Killer, run
from inputs import BAD_LINES, Drawing, compare, draw_settings, settings_text
from kills import CLOCK, LINES, TENANTS, Folder, canonical_name, draw_queries, entries_of
from model import Model, text_of
from planted import LEFT, PLANTS
from scenes import play_scenes

SETTINGS = {"shards": range(1, 6), "flushers": range(1, 4), "flush_queue_length": [1, 2, 1024]}
SETTINGS |= {"chunk_idle_period": ["1s", "30m"], "max_chunk_age": ["10s", "2h"]}
SETTINGS |= CLOCK | {"diaries": [False, True]}
SETTINGS |= {"chunk_block_size": [1, 60, 200, 262144], "chunk_target_size": [1, 120, 600, 3000, 1572864]}
COMMANDS = {"push": 60, "sweep": 6, "flush": 8, "gauges": 4, "board": 6, "checkpoint": 3, "query": 12, "series": 4, "labels": 4, "blank": 1, "bad": 2}
PASSED = "what was planted was not noticed"
BAD_LABELS = [{}, {"1a": "x"}, {"app": ""}, {"app": "x" * 2049}]


class Speech:
    """Draws what a client says."""

    def __init__(self, draw, channel, now):
        self.draw, self.channel, self.now, self.first, self.count = draw, channel, now, now, 0
        self.last = [str(now), "common"]

    def line(self):
        kind = self.draw.choices(list(COMMANDS), COMMANDS.values())[0]
        self.now += 10**8
        if kind in ("blank", "bad"):
            return self.draw.choice(BAD_LINES if kind == "bad" else ["", " \t\r"])
        members = {"push": self.push, "sweep": self.time, "flush": self.flush, "gauges": self.tenant, "query": self.query}
        members |= {"series": self.series, "labels": self.labels_asked}
        return json.dumps({"cmd": kind} | members.get(kind, dict)(), ensure_ascii=self.draw.random() < 0.5)

    def tenant(self):
        return {"tenant": self.draw.choice(TENANTS)}

    def time(self):
        return {"now": str(self.now + self.draw.choice([0, 3600 * 10**9]))}

    def flush(self):
        return self.draw.choice([{}, {"forced": True}, {"forced": False}])

    def labels(self):
        own = self.draw.random() < 0.4
        return {"app": "web", "id": f"p{self.channel}.{self.draw.randrange(2)}" if own else f"s{self.draw.randrange(3)}"}

    def value(self):
        """Mostly one that nobody else has; else the last, or one of a few that all have."""
        chance = self.draw.random()
        if chance < 0.08:
            return [str(self.first + self.draw.randrange(3)), "common"]
        if chance < 0.9:
            self.count += 1
            stamp = self.now + self.draw.choice([0, 1, 10**6]) - self.draw.choice([0, 0, 0, self.draw.randint(0, 8 * 10**9)])
            self.last = [str(stamp), f"{self.draw.choice(LINES) * self.draw.randint(0, 3)}{self.channel}.{self.count}"]
        return self.last

    def push(self):
        parts = [{"stream": self.labels(), "values": [self.value() for _ in range(self.draw.choice([0, 1, 1, 2, 4, 7]))]}
                 for _ in range(self.draw.choice([0, 1, 1, 1, 2, 3]))]
        if self.draw.random() < 0.03:
            parts.append({"stream": self.draw.choice(BAD_LABELS), "values": [self.value()]})
        return self.tenant() | {"now": str(self.now), "streams": parts}

    def series(self):
        return self.tenant() | ({"query": self.draw.choice([BROAD, canonical_name(self.labels())])} if self.draw.random() < 0.5 else {})

    def labels_asked(self):
        return self.series() | ({"name": self.draw.choice(["app", "id", "none"])} if self.draw.random() < 0.6 else {})

    def query(self):
        among = {"start": [str(self.now - 10**9), "0"], "end": [str(self.now), str(2**63)], "limit": [1, 5, 5000], "direction": ["forward", "backward"], "pages": [True, False]}
        options = {name: self.draw.choice(choices) for name, choices in among.items() if self.draw.random() < 0.5}
        if self.draw.random() < 0.3:
            stamp = self.draw.choice([self.last[0], str(self.now), str(self.now - 10**8)])
            options["after"] = {"number": self.draw.choice([0, 1, 2, 5]), "stamp": stamp, "stream": canonical_name(self.labels())}
        return self.tenant() | {"query": self.draw.choice([BROAD, canonical_name(self.labels())])} | options


def draw_client(draw, place, channel, now, noted):
    """A client with its lines, the last of which has a reply that a break keeps from being written."""
    speech = Speech(draw, channel, now)
    lines = [speech.line() for _ in range(draw.randint(0, 40))] + ['{"cmd":"board"}']
    kind = draw.choice([WHOLE] * 12 + WELL * 2 + BROKEN)
    whole = draw.randint(0, len(lines) - 1)
    while kind == AHEAD and sum(len(line.encode()) + 1 for line in lines[:whole]) > AT_HAND:
        whole -= 1
    together = [draw.choice([1, 1, 3, 20]) for _ in range(5)]
    return Client(place, lines, kind, whole, together, noted)


def draw_killer(draw, most):
    if draw.random() < 0.7:
        return Killer()
    return Killer(seconds=10 ** draw.uniform(-3, -0.7)) if draw.random() < 0.3 else Killer(replies=draw.randint(1, most))


def served(program, folder, before, clients, killer):
    """What is seen of a run, and what was found behind it."""
    status, output, error = run(program, folder, clients, killer)
    is_killed = status == -9 and (killer.replies or killer.seconds)
    assert is_killed or (status == 0 and not error), f"the program ended with {status}: {error}"
    after = folder.read()
    # A kill may come behind the report, too, while memory is given back.
    if is_killed and not output:
        return Seen(folder, before, after, clients), after
    assert not folder.unfinished(), f"there lie {folder.unfinished()}"
    told = json.loads(output)
    assert output == text_of(told).encode() + b"\n" and set(told) == {"broken", "report"}, f"the report is {output}"
    return Seen(folder, before, after, clients, told["report"], told["broken"]), after


def play_round(options, folder, before, draw, clock, counts):
    """A run of some channels, and one of none over what it left. What is found in the folder then."""
    killer = draw_killer(draw, 100)
    place = pathlib.Path(tempfile.mkdtemp(prefix="pipes-", dir=folder.place))
    clients = [draw_client(draw, place / str(channel), channel, clock, killer.note) for channel in range(draw.choice([1, 2, 2, 3, 4, 5, 8]))]
    for client in clients:
        client.make()
    seen, after = served(options.program, folder, before, clients, killer)
    if options.plant in PLANTS and not PLANTS[options.plant](seen, draw):
        return after
    counts["entries told accepted"] += check(seen)
    if options.plant in PLANTS or (options.plant and not LEFT[options.plant](after)):
        assert options.plant not in PLANTS, PASSED
        return after
    counts.update({"killed": seen.report is None, "channels": len(clients), **collections.Counter(client.kind for client in clients)})
    counts["replies"] += sum(turn.reply is not None for client in clients for turn in client.said)
    counts["entries found"] += sum(len(entries_of(chunks)) for chunks in after.values())
    counts["stored chunks found"] += len(seen.stored[1])
    start_again(options.program, folder, after, draw_queries(draw, merged(after), 5000))
    assert not options.plant, PASSED
    shutil.rmtree(place)
    return after


def play_rounds(options, parent, counts):
    """Rounds over one folder after another; with what is planted up to the one where it was noticed, and by which words."""
    folder = None
    for number in range(options.rounds):
        draw = random.Random(f"{options.seed} {number}")
        if folder is None or draw.random() < 0.3:
            if folder:
                shutil.rmtree(folder.place)
            folder, found = Folder(parent / f"from-round-{number}", {name: draw.choice(values) for name, values in SETTINGS.items()}), {}
            folder.make()
        try:
            found = play_round(options, folder, found, draw, (10**9 + number) * 10**9, counts)
            counts["rounds"] += 1
            if not options.plant and number % 2:
                play_alone(options, parent / "alone", draw)
                counts["inputs through one channel"] += 1
        except Exception as failure:
            if options.plant and isinstance(failure, AssertionError) and failure.args != (PASSED,):
                shutil.rmtree(folder.place)
                return str(failure)
            print(f"seed {options.seed}, round {number}, with {folder.place}:", flush=True)
            raise
    return None


def play_alone(options, place, draw):
    """An input through one channel, with a new start in it: each reply is the model's, byte for byte."""
    settings = draw_settings(draw, True)
    place.mkdir()
    (place / "settings.toml").write_text(settings_text(settings))
    folder, model, drawing = Folder(place, {}), Model(settings, True), Drawing(draw)
    for part in range(2):
        if part:
            model.restart()
        lines = [drawing.line() for _ in range(draw.randint(1, 60))]
        client = Client(place / f"channel-{part}", lines, draw.choice([FILES, WHOLE]), together=[draw.choice([1, 5])])
        client.make()
        status, output, error = run(options.program, folder, [client])
        assert (status, error) == (0, b""), f"the program ended with {status}: {error}"
        replies = [reply for reply in map(model.answer, lines) if reply is not None] + [{"broken": 0} | model.report()]
        written = [turn.reply for turn in client.said if not turn.is_blank()] + [output]
        compare(lines, [text.decode()[:-1] for text in written], [text_of(reply) for reply in replies])
    shutil.rmtree(place)


def play_plants(options, parent):
    """Plants each alteration, or one, in the first of the rounds where there is something to alter."""
    for which in [*PLANTS, *LEFT] if options.plant == "each" else [options.plant]:
        options.plant = which
        noticed = play_rounds(options, parent, collections.Counter())
        assert noticed, f"in {options.rounds} rounds nothing was to be altered so: {which}"
        print(f"{which} was noticed: {noticed if len(noticed) < 200 else noticed[:200] + ' ..'}", flush=True)


def main():
    parser = argparse.ArgumentParser(description=__doc__.split("\n")[0])
    parser.add_argument("program", type=lambda path: str(pathlib.Path(path).resolve()))
    parser.add_argument("--rounds", type=int, default=200)
    parser.add_argument("--seed", type=int, default=random.randrange(2**32))
    parser.add_argument("--lines", type=int, default=200, help="how many lines of 60 KB each of eight writers gives in a scene")
    parser.add_argument("--plant", choices=[*PLANTS, *LEFT, "each"], help="what is altered, and has to be noticed")
    parser.add_argument("--parent", help="where folders are made, and removed when others follow")
    options = parser.parse_args()
    parent = pathlib.Path(tempfile.mkdtemp(prefix="channels-", dir=options.parent))
    counts = collections.Counter()
    print(f"seed {options.seed}, {options.rounds} rounds, folders in {parent}", flush=True)
    if options.plant:
        play_plants(options, parent)
    else:
        play_scenes(options.program, parent, options.lines, counts)
        play_rounds(options, parent, counts)
        print("\n".join(f"{count:8} {name}" for name, count in counts.items()))
    shutil.rmtree(parent)


if __name__ == "__main__":
    main()
