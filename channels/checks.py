"""What may be told on channels, by docs/COMMANDS.md alone: each reply, all of them together, the report, and what is left behind."""
import bisect
import collections
import json
import pathlib
import re
import subprocess
import sys
from dataclasses import dataclass

TOP = pathlib.Path(__file__).resolve().parent.parent
sys.path += [str(TOP / "kills"), str(TOP / "inputs"), str(TOP / "forged")]
from clients import BROKEN  # noqa: E402
from kills import CLOCK, GROWING, SEALED, canonical_name, entries_of  # noqa: E402
from kills import Model as Kept  # noqa: E402
from model import MATCHER, Chunk, Entry, Model, Refused, Settings, Stream, labels_of, matchers_of, text_of  # noqa: E402

DURATIONS = {"1s": 10**9, "10s": 10**10, "30m": 1800 * 10**9, "2h": 7200 * 10**9}
NOT_MODELLED = [*CLOCK, "diaries"]  # the settings that the model has not
PLACES = ["block", "flight", "head", "stored"]
BROAD = '{app="web"}'  # picks all streams of a tenant
SPELT = re.compile(rf"{{{MATCHER.pattern}(,{MATCHER.pattern})*}}", re.ASCII)  # the canonical name of a stream


def is_count(value):
    return type(value) is int and value >= 0


def settings_of(said):
    """Those of a folder, for a model, which has no clock."""
    spans = {name: DURATIONS[said[name]] for name in ("chunk_idle_period", "max_chunk_age")}
    return Settings(**{name: value for name, value in said.items() if name not in NOT_MODELLED} | spans)


def accepted_in(verdicts):
    """The place of each entry that was accepted, and its number."""
    return [(place, verdict["accepted"]) for place, verdict in enumerate(verdicts) if isinstance(verdict, dict) and "accepted" in verdict]


def merged(found):
    """The entries of each stream by number."""
    return {stream: entries_of(chunks) for stream, chunks in found.items()}


def stored_in(found):
    """All chunks that are stored, with their streams."""
    return [(stream, chunk) for stream, chunks in found.items() for chunk in chunks if chunk.place not in (GROWING, SEALED)]


@dataclass
class Part:
    """What a push has for one stream, and what was told of it, or None."""
    channel: int
    stream: tuple
    values: list
    told: dict

    def accepted(self):
        return accepted_in(self.told["verdicts"]) if self.told and "verdicts" in self.told else []


class Seen:
    """All that is seen of a run: what was found in its folder before and behind it, what was said on its channels, and its report, which
    is None where it was killed."""

    def __init__(self, folder, before, after, clients, report=None, broken=None):
        self.folder, self.settings, self.clients, self.report, self.broken = folder, settings_of(folder.settings), clients, report, broken
        self.before, self.after = merged(before), merged(after)
        self.stored = [stored_in(before), stored_in(after)]
        self.breaks = sum(client.kind in BROKEN for client in clients)
        self.has_clock = folder.settings.get("flush_check_period", "0s") != "0s"

    def gather(self):
        """Takes pushes apart; behind this no reply may be altered."""
        self.parts = [part for number, client in enumerate(self.clients) for turn in client.said for part in parts_of(number, turn)]
        self.sent = {stream: collections.Counter(entries) for stream, entries in self.before.items()}
        for part in self.parts:
            self.sent.setdefault(part.stream, collections.Counter()).update(part.values)

    def shard_counts(self, entries):
        """How many of these entries by stream each shard has."""
        counts = [0] * self.settings.shards
        for stream, those in entries.items():
            counts[self.folder.shard_of(stream)] += len(those)
        return counts

    def limit_at(self, stream, number):
        """The least stamp that is accepted behind so many entries of a stream."""
        return max(0, max(stamp for stamp, _ in self.after[stream][:number]) - self.settings.max_chunk_age // 2)


def command_of(line):
    """The command that a line is, or None where it is refused or blank."""
    try:
        command = json.loads(line)
        Model(Settings(), True).obey(line)
        return command
    except (ValueError, Refused):
        return None


def parts_of(number, turn):
    command = command_of(turn.line)
    if not command or command["cmd"] != "push":
        return []
    told = json.loads(turn.reply).get("push") if turn.reply else [None] * len(command["streams"])
    assert told is not None and len(told) == len(command["streams"]), f"{command} was answered {turn.reply}"
    return [Part(number, (command["tenant"], canonical_name(said["stream"])), [(int(stamp), line) for stamp, line in said["values"]], each)
            for said, each in zip(command["streams"], told)]


def verdicts_at(seen, stream, number, values):
    """The verdicts where so many entries were accepted before."""
    last, verdicts, limit = seen.after.get(stream, [])[number - 1 : number], [], seen.limit_at(stream, number) if number else 0
    for stamp, line in values:
        if stamp < limit:
            verdicts.append({"too_far_behind": str(limit)})
        elif last == [(stamp, line)]:
            verdicts.append("duplicate")
        else:
            verdicts.append({"accepted": number})
            number, last = number + 1, [(stamp, line)]
            limit = max(limit, stamp - seen.settings.max_chunk_age // 2)
    return verdicts


class Listener:
    """Goes through what was told on one channel, and knows what that has to be. Streams whose labels name the channel only it pushes to."""

    def __init__(self, seen, number):
        self.seen, self.client, self.own = seen, seen.clients[number], f'"p{number}.'
        shards = range(seen.settings.shards)
        self.told, self.counts = collections.defaultdict(list), seen.shard_counts(seen.before)
        self.fronts, self.board_before, self.chunks = list(self.counts), [(0, 0) for _ in shards], 0
        self.model = Model(seen.settings, True)
        for (tenant, name), entries in seen.before.items():
            rows = [Entry(number, stamp, line) for number, (stamp, line) in enumerate(entries)]
            self.model.shards[seen.folder.shard_of((tenant, name))][tenant, name] = Stream(tenant, {}, name, [Chunk(0, head=rows)])

    def listen(self):
        missing = False
        for turn in self.client.said:
            if turn.reply is None:
                missing = missing or not turn.is_blank()
                continue
            assert not missing, f"a reply stands behind none: {turn}"
            self.hear(turn)
        is_done = self.seen.report is None or self.client.kind in BROKEN or not missing
        assert is_done, f"a channel that did not break has no reply to {self.client.said[-1]}"

    def hear(self, turn):
        reply = json.loads(turn.reply)
        command = command_of(turn.line)
        if command is None:
            expected = self.model.answer(turn.line)
            assert reply == expected, f"{turn.line} was answered {reply}, not {expected}"
            return
        kind = command["cmd"]
        assert list(reply) == [kind], f"{command} was answered {reply}"
        getattr(self, kind)(command, reply[kind])

    def push(self, command, told):
        for part, answer in zip(command["streams"], told, strict=True):
            stream = command["tenant"], canonical_name(part["stream"])
            if self.own in stream[1] or is_refused(self.seen.settings, part):
                expected = self.model.push_stream(command["tenant"], int(command["now"]), part)
                assert answer == expected, f"what only this channel pushes, {part}, was answered {answer}, not {expected}"
            if not is_refused(self.seen.settings, part):
                self.push_part(stream, part["values"], answer)

    def push_part(self, stream, values, answer):
        assert answer == {"durable": True, "stream": stream[1], "verdicts": answer["verdicts"]}, f"{stream} was answered {answer}"
        assert len(answer["verdicts"]) == len(values), f"{values} have the verdicts {answer}"
        for verdict in answer["verdicts"]:
            ((kind, number),) = verdict.items() if isinstance(verdict, dict) else [(verdict, 0)]
            is_good = kind == "duplicate" or (kind == "accepted" and is_count(number)) or (kind == "too_far_behind" and number.isdigit())
            assert is_good, f"{stream} was answered {answer}"
        for place, number in accepted_in(answer["verdicts"]):
            before = self.told[stream][-1][1] if self.told[stream] else len(self.seen.before.get(stream, [])) - 1
            assert number > before, f"number {number} of {stream} was told behind {before}"
            self.told[stream].append((int(values[place][0]), number, values[place][1]))
            self.counts[self.seen.folder.shard_of(stream)] += 1

    def sweep(self, command, told):
        assert set(told) == {"queued", "sealed"} and all(map(is_count, told.values())), f"a sweep was answered {told}"

    def flush(self, command, told):
        assert set(told) == {"failed", "sealed", "stored"} and all(map(is_count, told.values())), f"a flush was answered {told}"
        assert told["failed"] == 0, f"a flush failed: {told}"
        self.chunks += told["stored"]

    def checkpoint(self, command, told):
        assert told == [True] * self.seen.settings.shards, f"a checkpoint was answered {told}"

    def gauges(self, command, told):
        of_tenant = {stream: entries for stream, entries in self.seen.before.items() if stream[0] == command["tenant"]}
        least = self.seen.shard_counts(of_tenant)
        for stream, entries in self.told.items():
            least[self.seen.folder.shard_of(stream)] += len(entries) if stream[0] == command["tenant"] else 0
        for gauges, count in zip(told, least, strict=True):
            assert set(gauges) == {*PLACES, "streams"} and is_count(gauges["streams"]), f"gauges are {gauges}"
            for place in [gauges[name] for name in PLACES]:
                assert set(place) == {"bytes", "entries"} and is_count(place["entries"]), f"gauges are {gauges}"
                assert int(place["bytes"]) >= 16 * place["entries"], f"gauges are {gauges}"
            all_told = sum(gauges[name]["entries"] for name in PLACES)
            assert all_told >= count, f"gauges tell of {all_told} entries, of which this channel knows {count}: {gauges}"

    def board(self, command, told):
        counts = [(shard["accepted"], shard["stored"]) for shard in told]
        assert all(set(shard) == {"accepted", "stored"} and is_count(shard["stored"]) for shard in told), f"a board is {told}"
        for shard, before, known in zip(counts, self.board_before, self.counts, strict=True):
            assert before[0] <= shard[0] and before[1] <= shard[1], f"a board fell from {before} to {shard}"
            assert shard[1] <= shard[0], f"more is stored than accepted: {told}"
            assert shard[0] >= known, f"a board tells of {shard[0]} entries, and this channel was told {known}"
        self.board_before = counts

    def series(self, command, told):
        self.check_catalog(command, told)

    def labels(self, command, told):
        self.check_catalog(command, told)

    def check_catalog(self, command, told):
        """In byte order it has what the streams tell that this channel knows to be there, and nothing that no pushed stream does."""
        def texts(streams):
            picked = [stream for stream in streams if stream[0] == command["tenant"] and command.get("query", BROAD) in (BROAD, stream[1])]
            return {text for stream in picked for text in texts_of(command, stream[1])}

        assert told == sorted(set(told), key=str.encode), f"{command} has an answer out of order: {told}"
        known = texts(stream for stream, entries in [*self.seen.before.items(), *self.told.items()] if entries)
        assert known <= {*told}, f"{command} lacks {known - {*told}}: {told}"
        assert {*told} <= texts({*self.seen.before, *self.seen.sent}), f"{command} was answered what nobody pushed: {told}"

    def query(self, command, told):
        asked = Asked.of(command)
        is_full = asked.pages and len(told["entries"]) == asked.limit
        assert set(told) == {"entries", "fronts"} | ({"next"} if is_full else set()), f"a query was answered {told}"
        for front, before in zip(told["fronts"], [max(both) for both in zip(self.fronts, self.counts)], strict=True):
            assert is_count(front) and front >= before, f"a front is {front}, and this channel was told {before}"
        self.fronts = told["fronts"]
        found = [(int(entry["stamp"]), entry["stream"].encode(), entry["line"]) for entry in told["entries"]]
        assert all(set(entry) == {"line", "stamp", "stream"} for entry in told["entries"]), f"entries are {told['entries']}"
        check_answer(self.seen, asked, found, self.told)
        if is_full:
            check_next(self.seen, asked, found[-1], told["next"])


@dataclass
class Asked:
    """What a query asks for, with what may be absent."""
    tenant: str
    selector: str
    start: int
    end: int
    limit: int
    is_backward: bool
    after: tuple | None
    pages: bool

    @classmethod
    def of(cls, command):
        start, end = int(command.get("start", "0")), int(command.get("end", str(2**63)))
        place = command.get("after")
        after = place and (int(place["stamp"]), place["stream"].encode(), place["number"])
        is_backward, pages = command.get("direction") != "forward", command.get("pages", False)
        return cls(command["tenant"], command["query"], start, end, command.get("limit", 100), is_backward, after, pages)

    def picks(self, stream):
        return stream[0] == self.tenant and self.selector in (BROAD, stream[1])

    def has(self, stamp, name, number):
        """Whether an entry of this number is wanted, of a stream of this canonical name; `number` is None where it is not known."""
        if not self.start <= stamp < self.end:
            return False
        if self.after is None:
            return True
        place, edge = ((stamp, name, number), self.after) if number is not None else ((stamp, name), self.after[:2])
        return (place < edge if self.is_backward else place > edge) or (number is None and place == edge)


def texts_of(command, name):
    """What a stream of this canonical name tells of what a question for a catalog asks for; nothing, if its labels are refused."""
    if not SPELT.fullmatch(name):
        return set()
    labels = {label: value for label, _, value in matchers_of(name)}
    if command["cmd"] == "series":
        return {name}
    return ({labels[command["name"]]} if command["name"] in labels else set()) if "name" in command else set(labels)


def is_refused(settings, part):
    try:
        labels_of(part["stream"], settings.rules)
        return False
    except Refused:
        return True


def check_answer(seen, asked, found, told):
    """What a query found: in order, pushed by someone, with what this channel was told, and of each stream a front of its entries."""
    keys = [entry[:2] for entry in found]
    assert keys == sorted(keys, reverse=asked.is_backward), f"{asked} has an answer out of order: {found}"
    assert len(found) <= asked.limit and all(asked.has(*key, None) for key in keys), f"{asked} has an answer of others: {found}"
    counted = collections.defaultdict(collections.Counter)
    for stamp, name, line in found:
        counted[asked.tenant, name.decode()][stamp, line] += 1
    for stream, counts in counted.items():
        more = counts - seen.sent.get(stream, collections.Counter())
        assert asked.picks(stream) and not more, f"{asked} found what was not pushed, or more often: {stream}, {more}"
    whole = len(found) < asked.limit
    for stream in filter(asked.picks, {*told, *seen.before}):
        numbered = [(stamp, number, line) for number, (stamp, line) in enumerate(seen.before.get(stream, []))] + told.get(stream, [])
        name = stream[1].encode()
        entries = collections.Counter((stamp, line) for stamp, number, line in numbered if asked.has(stamp, name, number))
        for (stamp, line), count in entries.items():
            key = stamp, name
            is_sure = whole or (key > keys[-1] if asked.is_backward else key < keys[-1])
            assert not is_sure or counted[stream][stamp, line] >= count, f"{asked} lacks {(stamp, line)} of {stream}: {found}"
    for stream in filter(asked.picks, seen.after):
        if whole or asked.selector != BROAD:
            check_front(seen, asked, stream, [(stamp, line) for stamp, name, line in found if name.decode() == stream[1]])


def check_next(seen, asked, last, place):
    """The next page is told to begin behind the last entry of a full one."""
    stamp, name, line = last
    told = int(place["stamp"]), place["stream"].encode()
    assert set(place) == {"number", "stamp", "stream"} and is_count(place["number"]) and told == (stamp, name), f"{asked} goes on behind {place}, and not {last}"
    entries = seen.after.get((asked.tenant, name.decode()))
    is_there = entries is None or entries[place["number"] : place["number"] + 1] == [(stamp, line)]
    assert is_there, f"{asked} goes on behind {place}, which is no number of {last}"


def check_front(seen, asked, stream, found):
    """Of a stream whose entries are known by number, the first so many as accepted were answered for. What a kill took, of pushes that were
    not synced yet, may have been found before: it came behind all others."""
    name, entries = stream[1].encode(), [*seen.after[stream]]
    if seen.report is None:
        entries += (collections.Counter(found) - collections.Counter(entries)).elements()
    wanted = [(stamp, number) for number, (stamp, _) in enumerate(entries) if asked.has(stamp, name, number)]
    ordered = []
    for count in range(len(wanted) + 1):
        answer = (ordered[::-1] if asked.is_backward else ordered)[: asked.limit] if len(ordered) >= len(found) else []
        if len(answer) == len(found) and [entries[number] for _, number in answer] == found:
            return
        if count < len(wanted):
            bisect.insort(ordered, wanted[count])
    raise AssertionError(f"{asked} found of {stream} what is at no moment the answer: {found}")


def check_numbers(seen):
    """Accepted numbers of a stream are told once, and all of them where nothing was lost with a channel."""
    told = collections.defaultdict(set)
    for part in seen.parts:
        for _, number in part.accepted():
            assert number not in told[part.stream], f"number {number} of {part.stream} was told twice"
            told[part.stream].add(number)
    for stream, numbers in told.items():
        before = len(seen.before.get(stream, []))
        is_whole = numbers == {*range(before, before + len(numbers))} or seen.breaks or seen.report is None
        assert is_whole, f"the numbers that were told of {stream} have gaps: {sorted(numbers)}"
    return told


def check_verdicts(seen):
    """What was told accepted is found under its number, and each part of a push is judged as what stood before it demands."""
    for part in seen.parts:
        entries = seen.after.get(part.stream, [])
        for place, number in part.accepted():
            assert entries[number : number + 1] == [part.values[place]], f"{part.values[place]} of {part.stream}, told as {number}, is not found"
        if part.told and "verdicts" in part.told:
            first = [number for _, number in part.accepted()[:1]]
            among = first or range(len(seen.before.get(part.stream, [])), len(entries) + 1)
            is_right = any(verdicts_at(seen, part.stream, number, part.values) == part.told["verdicts"] for number in among)
            assert is_right, f"{part} is at no moment judged so"


def check_found(seen, told):
    """Nothing is lost that was there before, and what was not told accepted was pushed, and not answered."""
    unsure = collections.defaultdict(collections.Counter)
    for part in seen.parts:
        unsure[part.stream].update([] if part.told else part.values)
    for stream, entries in seen.after.items():
        before = seen.before.get(stream, [])
        assert entries[: len(before)] == before, f"{stream} has lost what was there before"
        left = collections.Counter(entry for number, entry in enumerate(entries) if number >= len(before) and number not in told[stream])
        assert not left - unsure[stream], f"{stream} has what nobody pushed, or was told accepted: {left - unsure[stream]}"
    assert not {*seen.before} - {*seen.after}, "a stream is lost"


def check_report(seen, chunks):
    """The report stands to the replies as it has to; `chunks` are told stored on all channels."""
    before, after, told = (seen.shard_counts(entries) for entries in (seen.before, seen.after, sure_in(seen)))
    stored = seen.shard_counts(stored_entries(seen.stored[1]))
    assert seen.broken == seen.breaks, f"{seen.broken} channels are told broken, not {seen.breaks}"
    assert len(seen.report) == len(before), f"the report is of {len(seen.report)} shards"
    most = [count + unsure for count, unsure in zip(told, unsure_counts(seen))]
    for number, shard in enumerate(seen.report):
        assert set(shard) == {"accepted", "kept", "recovered", "stored"}, f"shard {number} is reported as {shard}"
        assert shard["accepted"] + shard["recovered"] == shard["stored"] + shard["kept"], f"shard {number} does not add up: {shard}"
        assert shard["recovered"] == before[number], f"shard {number} had {before[number]}: {shard}"
        assert told[number] <= shard["accepted"] <= most[number], f"shard {number} was told {told[number]} to {most[number]}: {shard}"
        assert shard["accepted"] == after[number] - before[number], f"shard {number} has {after[number]} by now: {shard}"
        assert shard["stored"] == stored[number], f"of shard {number} {stored[number]} are found stored: {shard}"
    new = len(seen.stored[1]) - len(seen.stored[0])
    assert chunks == new or (chunks < new and (seen.breaks or seen.has_clock)), f"{chunks} chunks were told stored, and {new} are"


def stored_entries(chunks):
    entries = collections.defaultdict(list)
    for stream, chunk in chunks:
        entries[stream] += chunk.entries
    return entries


def sure_in(seen):
    """What was told accepted, by stream."""
    told = collections.defaultdict(list)
    for part in seen.parts:
        told[part.stream] += part.accepted()
    return told


def unsure_counts(seen):
    """How many entries more each shard may have accepted, for commands that were not answered."""
    unsure = collections.defaultdict(list)
    for part in seen.parts:
        unsure[part.stream] += [] if part.told else part.values
    return seen.shard_counts(unsure)


def check_lines(seen):
    """Each line that came back is one reply, and nothing beside."""
    for turn in [turn for client in seen.clients for turn in client.said if turn.reply]:
        try:
            is_whole = turn.reply == text_of(json.loads(turn.reply)).encode() + b"\n"
        except ValueError:
            is_whole = False
        assert is_whole, f"no line of a reply: {turn.reply}"


def check(seen):
    """All that can be looked at behind a run. Of how many entries replies told that they were accepted."""
    check_lines(seen)
    seen.gather()
    listeners = [Listener(seen, number) for number in range(len(seen.clients))]
    for listener in listeners:
        listener.listen()
    told = check_numbers(seen)
    check_verdicts(seen)
    check_found(seen, told)
    if seen.report is not None:
        check_report(seen, sum(listener.chunks for listener in listeners))
    return sum(len(entries) for listener in listeners for entries in listener.told.values())


def start_again(program, folder, after, queries, patience=60):
    """Starts the program over what a run left, with two words, and without a clock, which would go on: queries find it, the report tells it
    as recovered, and it stays."""
    lines = "".join(json.dumps(query) + "\n" for query in queries)
    ran = subprocess.run(folder.still().words(program), input=lines.encode(), capture_output=True, timeout=patience)
    assert (ran.returncode, ran.stderr) == (0, b""), f"a new start ended with {ran.returncode}: {ran.stderr}"
    model, replies = Kept(folder, after), [json.loads(line) for line in ran.stdout.splitlines()]
    report = replies.pop()["report"]
    for query, reply in zip(queries, replies, strict=True):
        model.note(query, reply)
    model.check_report(report)
    stored = [0] * len(report)
    for stream, chunk in stored_in(after):
        stored[folder.shard_of(stream)] += len(chunk.entries)
    assert [shard["stored"] for shard in report] == stored, f"{stored} are found stored, and reported is {report}"
    assert folder.read() == after, "a new start left other chunks than it found"
