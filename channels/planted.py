"""Ways to alter what was seen of a run, each of which a check has to notice. Each gives back whether there was something to alter."""
import json
import re

from checks import accepted_in, canonical_name, command_of, texts_of
from clients import BROKEN
from model import text_of


def answered(seen, kind):
    """The answered commands of a kind: of each its channel, its command, its turn, and what was told."""
    found = []
    for channel, client in enumerate(seen.clients):
        for turn in client.said:
            command = command_of(turn.line) if turn.reply else None
            if command and command["cmd"] == kind:
                found.append((channel, command, turn, json.loads(turn.reply)[kind]))
    return found


def put(turn, kind, told):
    turn.reply = text_of({kind: told}).encode() + b"\n"
    return True


def drawn(draw, found):
    return draw.choice(found) if found else None


def pushed(seen, draw, name, is_wanted=lambda verdicts: accepted_in(verdicts)):
    """A part of a push to a stream whose name has this text: its turn, all that was told, and its verdicts there."""
    parts = [(channel, turn, told, each["verdicts"]) for channel, _, turn, told in answered(seen, "push") for each in told
             if "verdicts" in each and name.format(channel) in each["stream"] and is_wanted(each["verdicts"])]
    return drawn(draw, parts)


def mixed(seen, draw):
    """One reply stands in another."""
    turns = [turn for client in seen.clients for turn in client.said if turn.reply]
    if len(turns) < 2:
        return False
    one, other = draw.sample(turns, 2)
    at = draw.randrange(1, len(one.reply) - 1)
    one.reply = one.reply[:at] + other.reply[:-1] + one.reply[at:]
    return True


def swapped(seen, draw):
    """Two replies stand in each other's place."""
    pairs = [(one, other) for client in seen.clients for one, other in zip(client.said, client.said[1:])
             if one.reply and other.reply and one.reply[:5] != other.reply[:5]]
    pair = drawn(draw, pairs)
    if pair:
        pair[0].reply, pair[1].reply = pair[1].reply, pair[0].reply
    return bool(pair)


def silent(seen, draw):
    """The last reply of a channel that did not break is missing."""
    clients = [client for client in seen.clients if client.kind not in BROKEN and client.said and client.said[-1].reply]
    client = drawn(draw, clients if seen.report else [])
    if client:
        client.said[-1].reply = None
    return bool(client)


def member(kind, name, change):
    """A number in a reply of this kind is another."""
    def plant(seen, draw):
        found = drawn(draw, answered(seen, kind))
        return bool(found) and put(found[2], kind, found[3] | {name: change(found[3][name])})
    return plant


def failing(seen, draw):
    """A checkpoint is told to have failed."""
    found = drawn(draw, answered(seen, "checkpoint"))
    return bool(found) and put(found[2], "checkpoint", [False, *found[3][1:]])


def refusal(seen, draw):
    """A refusal has another number."""
    turns = [turn for client in seen.clients for turn in client.said if turn.reply and b'"error":' in turn.reply[:10]]
    turn = drawn(draw, turns)
    if turn:
        turn.reply = turn.reply.replace(b'"number":', b'"number":1')
    return bool(turn)


def number(name):
    """An entry of a stream is told another number."""
    def plant(seen, draw):
        found = pushed(seen, draw, name)
        if found:
            place, told = draw.choice(accepted_in(found[3]))
            found[3][place] = {"accepted": told + 1}
            put(found[1], "push", found[2])
        return bool(found)
    return plant


def unbroken(plant):
    """The same, in a run that lost nothing with a channel."""
    return lambda seen, draw: not seen.breaks and seen.report is not None and plant(seen, draw)


def unclocked(plant):
    """The same, in a run without a clock, which stores what no channel is told."""
    return lambda seen, draw: not seen.has_clock and plant(seen, draw)


def first(part):
    return accepted_in(part[2][0]["verdicts"])[0][1]


def twice(seen, draw):
    """A number of a shared stream is told on two channels: one tells what the other was told, too."""
    parts = [(channel, turn, told, (command["tenant"], told[0]["stream"])) for channel, command, turn, told in answered(seen, "push")
             if len(told) == 1 and '"s' in told[0].get("stream", "") and len(told[0]["verdicts"]) == len(accepted_in(told[0]["verdicts"])) == 1]
    pairs = [(one, other) for one in parts for other in parts if one[0] != other[0] and one[3] == other[3] and first(one) + 1 == first(other)]
    pair = drawn(draw, pairs)
    return bool(pair) and put(pair[0][1], "push", pair[1][2])


def hidden(seen, draw):
    """An entry of a shared stream is told a duplicate, and was accepted."""
    found = pushed(seen, draw, '"s')
    if found:
        found[3][draw.choice(accepted_in(found[3]))[0]] = "duplicate"
        put(found[1], "push", found[2])
    return bool(found)


def limit(seen, draw):
    """The limit of a verdict is another."""
    found = pushed(seen, draw, '"s', lambda verdicts: any("too_far_behind" in verdict for verdict in verdicts))
    if found:
        for verdict in found[3]:
            if "too_far_behind" in verdict:
                verdict["too_far_behind"] = str(int(verdict["too_far_behind"]) + 12345)
        put(found[1], "push", found[2])
    return bool(found)


def lasting(seen, draw):
    """A push is told as not durable."""
    found = drawn(draw, [each for each in answered(seen, "push") if any("durable" in part for part in each[3])])
    return bool(found) and put(found[2], "push", [part | {"durable": False} if "durable" in part else part for part in found[3]])


def entries(pick):
    """What a query found is altered: pick gives the entries to be told, or None."""
    def plant(seen, draw):
        queries = [(found, pick(seen, draw, *found)) for found in answered(seen, "query") if found[3]["entries"]]
        altered = drawn(draw, [(found, told) for found, told in queries if told is not None])
        return bool(altered) and put(altered[0][2], "query", altered[0][3] | {"entries": altered[1]})
    return plant


def without(told, entry):
    return [each for each in told["entries"] if each is not entry]


def disordered(seen, draw, channel, command, turn, told):
    found = told["entries"]
    return found[::-1] if found[0]["stamp"] != found[-1]["stamp"] else None


def lacking(seen, draw, channel, command, turn, told):
    """One that this channel was told accepted is missing."""
    entry = drawn(draw, [entry for entry in told["entries"] if re.search(rf"(^|\D){channel}\.\d+$", entry["line"])])
    return without(told, entry) if entry and len(told["entries"]) < command.get("limit", 100) else None


def holed(seen, draw, channel, command, turn, told):
    """One that another channel pushed is missing, and one of its stream that was accepted later is found."""
    if len(told["entries"]) == command.get("limit", 100):
        return None
    for entry in told["entries"]:
        stream, pushed_by = (command["tenant"], entry["stream"]), re.search(r"(\d+)\.\d+$", entry["line"])
        same = {(int(each["stamp"]), each["line"]) for each in told["entries"] if each["stream"] == entry["stream"]}
        order, key = [each for each in seen.after[stream] if each in same], (int(entry["stamp"]), entry["line"])
        is_new = pushed_by and int(pushed_by[1]) != channel and key not in seen.before.get(stream, [])
        if is_new and order.count(key) == 1 and key != order[-1]:
            return without(told, entry)
    return None


def doubled(seen, draw, channel, command, turn, told):
    entry = told["entries"][0]
    is_one = seen.after[command["tenant"], entry["stream"]].count((int(entry["stamp"]), entry["line"])) == 1
    return [entry, *told["entries"]] if is_one and len(told["entries"]) < command.get("limit", 100) else None


def invented(seen, draw, channel, command, turn, told):
    return [told["entries"][0] | {"line": "nobody pushed this"}, *told["entries"][1:]]


def fallen(seen, draw):
    """A board tells less than one before."""
    boards = answered(seen, "board")
    pairs = [(one, other) for one, other in zip(boards, boards[1:]) if one[0] == other[0] and one[3][0]["accepted"] > 0]
    pair = drawn(draw, pairs)
    if pair:
        less = pair[0][3][0]["accepted"] - 1
        put(pair[1][2], "board", [{"accepted": less, "stored": 0}, *pair[1][3][1:]])
    return bool(pair)


def nothing(kind, none):
    """Shards are told to have nothing, to a channel that was told of something, of the tenant that it asks for."""
    def plant(seen, draw):
        for client in seen.clients:
            tenants = set()
            for turn in client.said:
                command = command_of(turn.line) if turn.reply else None
                reply = json.loads(turn.reply) if command else {}
                if any(accepted_in(part.get("verdicts", [])) for part in reply.get("push", [])):
                    tenants |= {command["tenant"], None}
                if kind in reply and (command["tenant"] if kind == "gauges" else None) in tenants:
                    return put(turn, kind, none(reply[kind]))
        return False
    return plant


def listed(kind, text):
    """A question for a catalog of a whole tenant is told a text more."""
    def plant(seen, draw):
        found = drawn(draw, [each for each in answered(seen, kind) if "query" not in each[1] and "name" not in each[1]])
        return bool(found) and put(found[2], kind, [*found[3], text])
    return plant


def unlisted(kind):
    """A question for a catalog of a whole tenant is not told what a stream tells of which the channel was told before."""
    def plant(seen, draw):
        for client in seen.clients:
            known = []
            for turn in client.said:
                command = command_of(turn.line) if turn.reply else None
                reply = json.loads(turn.reply) if command else {}
                known += [(command["tenant"], part["stream"]) for part in reply.get("push", []) if accepted_in(part.get("verdicts", []))]
                if kind in reply and "query" not in command and "name" not in command:
                    names = [text for stream in known if stream[0] == command["tenant"] for text in texts_of(command, stream[1])]
                    if names:
                        return put(turn, kind, [text for text in reply[kind] if text != names[0]])
        return False
    return plant


def paged(change):
    """A full page tells nothing of the next one, or that it begins elsewhere."""
    def plant(seen, draw):
        found = drawn(draw, [each for each in answered(seen, "query") if "next" in each[3]])
        return bool(found) and put(found[2], "query", change(found[3]))
    return plant


def no_gauges(told):
    return [shard | {name: {"bytes": "0", "entries": 0} for name in ("block", "flight", "head", "stored")} for shard in told]


def reported(change):
    """The report has another number."""
    def plant(seen, draw):
        shard = drawn(draw, seen.report or [])
        if shard:
            shard.update(change(shard))
        return bool(shard)
    return plant


def breaks(seen, draw):
    """One channel more is told broken."""
    seen.broken = seen.broken + 1 if seen.report is not None else None
    return seen.report is not None


def kept(change):
    """Of a stream, one entry of which was told accepted, other entries are found."""
    def plant(seen, draw):
        told = [((command["tenant"], canonical_name(part["stream"])), number) for _, command, _, told in answered(seen, "push")
                for part, each in zip(command["streams"], told) for _, number in accepted_in(each.get("verdicts", []))]
        found = drawn(draw, told)
        return bool(found) and change(seen.after[found[0]], found[1])
    return plant


def lost(entries, number):
    """It is not there, and what was accepted later is not."""
    del entries[number:]
    return True


def foreign(entries, number):
    entries.append((1, "nobody pushed this"))
    return True


def reordered(entries, number):
    """It stands before the one that was accepted before it."""
    entries[number - 1 : number + 1] = entries[number - 1 : number + 1][::-1]
    return number > 0


def forgotten(after):
    """What was found behind a run has an entry less than a new start will find."""
    chunks = [chunks for chunks in after.values() if chunks[-1].entries[1:]]
    return bool(chunks) and bool(chunks[0][-1].entries.pop())


PLANTS = {"mixed": mixed, "swapped": swapped, "silent": silent, "refusal": refusal, "lasting": lasting, "limit": limit}
PLANTS |= {"own": number('"p{}.'), "shared": number('"s'), "twice": twice, "hidden": unbroken(hidden), "fallen": fallen}
PLANTS |= {"sweep": member("sweep", "sealed", lambda count: -1), "checkpoint": failing}
PLANTS |= {"failed": member("flush", "failed", lambda count: 1), "stored": unclocked(unbroken(member("flush", "stored", lambda count: count + 1)))}
PLANTS |= {"disordered": entries(disordered), "lacking": entries(lacking), "holed": entries(holed), "doubled": entries(doubled), "invented": entries(invented)}
PLANTS |= {"board": nothing("board", lambda told: [{"accepted": 0, "stored": 0} for _ in told]), "gauges": nothing("gauges", no_gauges)}
PLANTS |= {"fronts": nothing("query", lambda told: told | {"fronts": [0 for _ in told["fronts"]]})}
PLANTS |= {"series": unlisted("series"), "labels": unlisted("labels"), "listed": listed("series", '{zzz="1"}'), "named": listed("labels", "zzz")}
PLANTS |= {"unpaged": paged(lambda told: {name: told[name] for name in ("entries", "fronts")})}
PLANTS |= {"next": paged(lambda told: told | {"next": told["next"] | {"stamp": str(int(told["next"]["stamp"]) + 1)}})}
PLANTS |= {"accepted": reported(lambda shard: {"accepted": shard["accepted"] + 1, "kept": shard["kept"] + 1}), "broken": breaks}
PLANTS |= {"recovered": reported(lambda shard: {"accepted": shard["accepted"] - 1, "recovered": shard["recovered"] + 1})}
PLANTS |= {"kept": reported(lambda shard: {"kept": shard["kept"] + 1, "stored": shard["stored"] - 1}), "sum": reported(lambda shard: {"kept": shard["kept"] + 1})}
PLANTS |= {"killed": lambda seen, draw: seen.report is None and kept(lost)(seen, draw)}
PLANTS |= {"lost": kept(lost), "foreign": kept(foreign), "reordered": kept(reordered)}
LEFT = {"forgotten": forgotten}
