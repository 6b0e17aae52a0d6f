#!/usr/bin/python3
"""Stands in for the program in tests of the front: the same commands and replies, of few rules, without proof or folder.

FRONT_STAND_IN says what else it does: with `mute` it answers nothing, with `dies` it ends at the first push, with `sleepy` pushes
and questions take 0.3 seconds, with `fails` flushes and checkpoints fail; with `keeps` its entries are kept in
FOLDER/stand-in.json, so that a second run has those of the first; with `refuses` it ends at once. Whatever the tenant `lost`
asks is refused, as where a shard is misplaced.

Of channels: with `uneven` each takes a time of its own for a reply, with `held` questions wait until a flush is done, 3 seconds
at most, with `late` they are opened after 0.4 seconds, with `unserved` the last one when the others have ended. A push with the
line `break` is taken, and then the channel ends without a reply, a flush with `keeper` likewise; the line `half` is not taken,
and of the reply a half is written.
"""
import json
import os
import pathlib
import random
import re
import sys
import threading
import time

MODE = os.environ.get("FRONT_STAND_IN", "")
PLACE = pathlib.Path(sys.argv[2]) / "stand-in.json"
QUESTIONS = ("query", "series", "labels")
PAIR = r'([a-zA-Z_][a-zA-Z0-9_]*)(!?=)"((?:[^"\\]|\\.)*)"'
streams = {}  # By tenant and canonical name the entries, as accepted.
if MODE == "keeps" and PLACE.exists():
    streams = {tuple(key): entries for key, entries in json.loads(PLACE.read_text())}


def escaped(value):
    return value.replace("\\", "\\\\").replace('"', '\\"').replace("\n", "\\n")


def name_of(labels):
    return "{" + ", ".join(f'{name}="{escaped(labels[name])}"' for name in sorted(labels) if labels[name]) + "}"


def verdict(entries, tenant, entry):
    if len(entry[1].encode()) > 1000:
        return "line_too_long"
    if entries and int(entry[0]) < max(int(stamp) for stamp, _ in entries) - 3600 * 10**9:
        return {"too_far_behind": str(max(int(stamp) for stamp, _ in entries) - 3600 * 10**9)}
    if entries and entries[-1] == entry:
        return "duplicate"
    live = sum(1 for (owner, _), held in streams.items() if owner == tenant and held)
    if not entries and live >= 3:
        return {"too_many_streams": live}
    entries.append(entry)
    return {"accepted": len(entries) - 1}


def push_stream(tenant, stream):
    bad = [at for at, name in enumerate(sorted(stream["stream"])) if not re.fullmatch("[a-zA-Z_][a-zA-Z0-9_]*", name)]
    if bad:
        return {"at": bad[0], "error": "BadName", "number": 1}
    if not any(stream["stream"].values()):
        return {"error": "NoLabels", "number": 3}
    name = name_of(stream["stream"])
    entries = streams.setdefault((tenant, name), [])
    verdicts = [verdict(entries, tenant, entry) for entry in stream["values"]]
    return {"durable": tenant != "torn", "stream": name, "verdicts": verdicts}


def unescaped(value):
    return re.sub(r"\\(.)", lambda found: "\n" if found[1] == "n" else found[1], value)


def pairs_of(text):
    """Of a selector or a canonical name each label with its sign and its value."""
    return [(name, sign, unescaped(value)) for name, sign, value in re.findall(PAIR, text)]


def matches(selector, labels):
    return all((labels.get(name, "") == value) == (sign == "=") for name, sign, value in pairs_of(selector))


def streams_of(tenant, selector):
    """Names and labels of the tenant's streams that have an entry and are selected, in byte order."""
    held = sorted(name for (owner, name), entries in streams.items() if owner == tenant and entries)
    found = [(name, {label: value for label, _, value in pairs_of(name)}) for name in held]
    return [(name, labels) for name, labels in found if matches(selector, labels)]


def fault_of_page(command):
    """How a query is refused whose `pages` or `after` is none, or None."""
    match command:
        case {"pages": pages} if not isinstance(pages, bool):
            return {"error": "BadCommand", "number": 33}
        case {"after": {"number": number, "stamp": str(stamp), "stream": str()}} if type(number) is int and 0 <= number < 2**64:
            is_stamp = re.fullmatch("[0-9]{1,19}", stamp) and int(stamp) < 2**63
            return None if is_stamp else {"error": "BadStamp", "number": 31}
        case {"after": _}:
            return {"error": "BadCommand", "number": 33}
    return None


def query(command, names):
    backward, limit = command.get("direction", "backward") == "backward", command.get("limit", 100)
    found = []
    for name in names:
        entries = streams[command["tenant"], name]
        found += [(int(stamp), name, number, line) for number, (stamp, line) in enumerate(entries)]
    found = [one for one in found if int(command.get("start", 0)) <= one[0] < int(command.get("end", 2**63))]
    if "after" in command:
        after = int(command["after"]["stamp"]), command["after"]["stream"], command["after"]["number"]
        found = [one for one in found if (one[:3] < after if backward else one[:3] > after)]
    found = sorted(found, reverse=backward)[:limit]
    answer = {"entries": [{"line": line, "stamp": str(stamp), "stream": name} for stamp, name, _, line in found], "fronts": [0]}
    if command.get("pages", False) and len(found) == limit:
        stamp, name, number, _ = found[-1]
        answer["next"] = {"number": number, "stamp": str(stamp), "stream": name}
    return {"query": answer}


def question(command):
    selector = command.get("query", "{}")
    if command["cmd"] == "query" and (fault := fault_of_page(command)):
        return fault
    if command["tenant"] == "lost":
        return {"error": "Misplaced", "number": 43}
    if not re.fullmatch(rf"\{{({PAIR}(, {PAIR})*)?\}}", selector):
        return {"at": 0, "error": "BadSelector", "number": 8}
    if "query" in command and not any(sign == "=" and value for _, sign, value in pairs_of(selector)):
        return {"error": "TooWide", "number": 9}
    found = streams_of(command["tenant"], selector)
    match command:
        case {"cmd": "query"}:
            return query(command, [name for name, _ in found])
        case {"cmd": "series"}:
            return {"series": [name for name, _ in found]}
        case {"cmd": "labels", "name": wanted}:
            return {"labels": sorted({labels[wanted] for _, labels in found if wanted in labels})}
        case {"cmd": "labels"}:
            return {"labels": sorted({name for _, labels in found for name in labels})}


def reply(command, channel):
    count = sum(len(entries) for entries in streams.values())
    match command["cmd"]:
        case "push":
            if MODE == "dies":
                os._exit(3)
            answer = {"push": [push_stream(command["tenant"], stream) for stream in command["streams"]]}
            if MODE == "keeps":
                PLACE.write_text(json.dumps(list(streams.items())))
            return answer
        case name if name in QUESTIONS:
            return question(command)
        case "board":
            return {"board": [{"accepted": count, "stored": 0}]}
        case "sweep":
            return {"sweep": {"queued": 0, "sealed": 0}}
        case "flush":
            return {"flush": {"failed": int(MODE == "fails"), "sealed": 1, "stored": 1, "channel": channel}}
        case "checkpoint":
            return {"checkpoint": [MODE != "fails"]}


class Broken(Exception):
    """That a channel ends before its input does."""


def lines_of(command):
    return [line for stream in command.get("streams", []) for _, line in stream["values"]]


def answer(line, channel, told):
    """Obeys one command, as all channels do one after another, and writes the reply."""
    command = json.loads(line)
    if MODE == "sleepy" and command["cmd"] in ("push", *QUESTIONS):
        time.sleep(0.3)
    if MODE == "held" and command["cmd"] in QUESTIONS:
        flushed.wait(3)
    if "half" in lines_of(command):
        print("{", end="", file=told, flush=True)
        raise Broken
    with turn:
        text = json.dumps(reply(command, channel), separators=(",", ":"), ensure_ascii=False)
    if command["cmd"] == "flush":
        flushed.set()
    if MODE == "uneven":
        time.sleep(random.random() * 0.01)
    if "break" in lines_of(command) or MODE == "keeper" and command["cmd"] == "flush" and channel == 0:
        raise Broken
    if MODE != "mute":
        print(text, file=told, flush=True)


def serve(channel, given, told):
    """Opens a channel, and serves it to its end; one that breaks is counted."""
    try:
        with open(given) as given, open(told, "w") as told:
            for line in given:
                answer(line, channel, told)
    except (Broken, OSError):
        broken.append(channel)


def serve_channels(paths):
    """Serves all channels, each in a thread."""
    time.sleep(0.4 * (MODE == "late"))
    threads = [threading.Thread(target=serve, args=(at // 2, *paths[at : at + 2])) for at in range(0, len(paths), 2)]
    last = threads.pop() if MODE == "unserved" else None
    for thread in threads:
        thread.start()
    for thread in threads:
        thread.join()
    if last is not None:
        last.run()


turn, flushed, broken = threading.Lock(), threading.Event(), []
if MODE == "refuses":
    sys.exit("ingestd: OtherSettings")
if sys.argv[3:]:
    serve_channels(sys.argv[3:])
else:
    for line in sys.stdin:
        answer(line, 0, sys.stdout)
report = {"report": [{"accepted": sum(map(len, streams.values())), "kept": 0, "recovered": 0, "stored": 0}]}
print(json.dumps({"broken": len(broken)} | report if sys.argv[3:] else report), flush=True)
