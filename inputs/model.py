"""A slow model: what is replied to each line, by docs/COMMANDS.md and docs/FORMATS.md alone. It shares nothing with the program."""
import json
import pathlib
import re
import sys
from dataclasses import dataclass, field

TOP = pathlib.Path(__file__).resolve().parent.parent
sys.path += [str(TOP / "kills"), str(TOP / "forged")]
from formats import shard_of  # noqa: E402
from kills import canonical_name  # noqa: E402

LABEL_NAME = re.compile(r"[a-zA-Z_][a-zA-Z0-9_]*", re.ASCII)
TENANT = re.compile(r"[a-zA-Z0-9!\-_.*'()]{1,150}", re.ASCII)
STAMP = re.compile(r"[0-9]{1,19}", re.ASCII)
MATCHER = re.compile(r'\s*([a-zA-Z_][a-zA-Z0-9_]*)\s*(!?=)\s*"((?:[^"\\\n]|\\["\\n])*)"\s*', re.ASCII)
NUMBERS = {"BadName": 1, "NoLabels": 3, "TooMany": 4, "NameTooLong": 5, "ValueTooLong": 6, "BadSelector": 8, "TooWide": 9}
NUMBERS |= {"BadTenant": 30, "BadStamp": 31, "TooManyEntries": 32, "BadCommand": 33, "Metadata": 34}
ENTRY_SIZE = 16  # bytes beside the line
KINDS = ["block", "flight", "head", "stored"]
BAD_SELECTORS = {'{a=~"x"}': 3, "{}x": 2, 'a="1"': 0}  # the length of the longest front with which some selector begins


@dataclass(frozen=True)
class Rules:
    """What a tenant may do."""
    max_label_names: int = 15
    max_label_name_length: int = 1024
    max_label_value_length: int = 2048
    max_line_size: int = 262144
    max_streams_per_tenant: int = 1000
    max_entries_per_push: int = 10000


@dataclass
class Settings:
    """Durations are in nanoseconds, sizes in bytes."""
    shards: int = 1
    flushers: int = 1
    flush_queue_length: int = 1024
    chunk_block_size: int = 262144
    chunk_target_size: int = 1572864
    chunk_idle_period: int = 30 * 60 * 10**9
    max_chunk_age: int = 2 * 3600 * 10**9
    rules: Rules = Rules()
    tenants: dict = field(default_factory=dict)

    def rules_for(self, tenant):
        return self.tenants.get(tenant, self.rules)


class Refused(Exception):
    """That a line, a stream or a selector is refused: the name, and the place at fault where there is one."""

    def __init__(self, name, at=None):
        super().__init__(name, at)
        self.reply = {"error": name, "number": NUMBERS[name]} | ({} if at is None else {"at": at})


@dataclass(frozen=True)
class Entry:
    number: int
    stamp: int
    line: str

    def size(self):
        return ENTRY_SIZE + len(self.line.encode())


@dataclass
class Chunk:
    """It grows, waits or is stored: a flush leaves none in flight, and an entry of it stands in a block, or in its head."""
    updated: int
    state: str = "grows"
    blocks: list = field(default_factory=list)
    head: list = field(default_factory=list)

    def entries(self):
        return self.blocks + self.head

    def close_head(self):
        self.blocks, self.head = self.blocks + self.head, []

    def seal(self):
        self.close_head()
        self.state = "waits"

    def span(self):
        stamps = [entry.stamp for entry in self.entries()]
        return max(stamps) - min(stamps)


@dataclass
class Stream:
    tenant: str
    labels: dict
    name: str
    chunks: list = field(default_factory=list)

    def entries(self):
        return [entry for chunk in self.chunks for entry in chunk.entries()]

    def is_live(self):
        return any(chunk.state != "stored" for chunk in self.chunks)

    def waiting(self):
        return [chunk for chunk in self.chunks if chunk.state == "waits"]


def place_of(tenant, name, shards):
    return shard_of(tenant.encode(), name.encode(), shards)


def in_byte_order(texts):
    return sorted(set(texts), key=str.encode)


def require(holds, name="BadCommand"):
    if not holds:
        raise Refused(name)


def labels_of(pairs, rules):
    """The labels with values, or the first fault; places count all pairs, in byte order of names."""
    pairs = sorted(pairs.items())
    for at, (name, _) in enumerate(pairs):
        if not LABEL_NAME.fullmatch(name):
            raise Refused("BadName", at)
    labels = {name: value for name, value in pairs if value}
    require(labels, "NoLabels")
    require(len(labels) <= rules.max_label_names, "TooMany")
    for fault, most, part in [("NameTooLong", rules.max_label_name_length, 0), ("ValueTooLong", rules.max_label_value_length, 1)]:
        for at, pair in enumerate(pairs):
            if pair[1] and len(pair[part].encode()) > most:
                raise Refused(fault, at)
    return labels


def stamp_of(text, below=2**63):
    require(STAMP.fullmatch(text) and int(text) < below, "BadStamp")
    return int(text)


def require_cursor(after):
    require(isinstance(after, dict) and all(isinstance(after.get(name), str) for name in ("stamp", "stream")))
    require(type(after.get("number")) is int and 0 <= after["number"] < 2**64)


def require_tenant(text):
    require(TENANT.fullmatch(text) and text not in (".", ".."), "BadTenant")


def matchers_of(text):
    """The matchers of a selector that is spelt as one: of each its name, whether it asks for equality, and its value."""
    if text in BAD_SELECTORS:
        raise Refused("BadSelector", BAD_SELECTORS[text])
    inside = re.fullmatch(r"\s*\{(.*)\}\s*", text, re.DOTALL)[1]
    found, at = [], 0
    while at < len(inside) and inside.strip():
        match = MATCHER.match(inside, at)
        value = re.sub(r"\\(.)", lambda escape: "\n" if escape[1] == "n" else escape[1], match[3])
        found.append((match[1], match[2] == "=", value))
        at = match.end() + 1
    return found


class Model:
    """All shards of a run. `recovered` is what each began with; over logs what is accepted is durable."""

    def __init__(self, settings, logged):
        self.settings, self.logged = settings, logged
        self.shards = [{} for _ in range(settings.shards)]
        self.recovered = [0] * settings.shards
        self.queue = []

    def restart(self):
        """What a start over the folder of this run begins with."""
        self.recovered = self.fronts()
        self.queue = []

    def streams(self, shard):
        return list(self.shards[shard].values())

    def fronts(self):
        return [sum(len(stream.entries()) for stream in shard.values()) for shard in self.shards]

    def stored(self):
        chunks = [[chunk for stream in shard.values() for chunk in stream.chunks] for shard in self.shards]
        return [sum(len(chunk.entries()) for chunk in shard if chunk.state == "stored") for shard in chunks]

    def answer(self, line):
        """The reply to a line, or None where there is none."""
        if not line.strip(" \t\r"):
            return None
        try:
            return self.obey(line)
        except Refused as refused:
            return refused.reply

    def obey(self, line):
        try:
            command = json.loads(line)
        except ValueError:
            raise Refused("BadCommand") from None
        require(isinstance(command, dict) and isinstance(command.get("cmd"), str))
        obeys = {"push": self.push, "sweep": self.sweep, "flush": self.flush, "gauges": self.gauges, "board": self.board}
        obeys |= {"checkpoint": self.checkpoint, "query": self.query, "series": self.series, "labels": self.labels}
        require(command["cmd"] in obeys)
        return obeys[command["cmd"]](command)

    def push(self, command):
        require(all(isinstance(command.get(name), str) for name in ("tenant", "now")) and isinstance(command.get("streams"), list))
        values = []
        for stream in command["streams"]:
            require(isinstance(stream, dict) and isinstance(stream.get("stream"), dict) and isinstance(stream.get("values"), list))
            require(all(isinstance(value, str) for value in stream["stream"].values()))
            require(all(isinstance(value, list) and len(value) in (2, 3) for value in stream["values"]))
            require(all(isinstance(part, str) for value in stream["values"] for part in value[:2]))
            values += stream["values"]
        require(all(len(value) == 2 for value in values), "Metadata")
        require_tenant(command["tenant"])
        now = stamp_of(command["now"])
        for stamp, _ in values:
            stamp_of(stamp)
        return {"push": [self.push_stream(command["tenant"], now, stream) for stream in command["streams"]]}

    def push_stream(self, tenant, now, said):
        rules = self.settings.rules_for(tenant)
        try:
            labels = labels_of(said["stream"], rules)
            require(len(said["values"]) <= rules.max_entries_per_push, "TooManyEntries")
        except Refused as refused:
            return refused.reply
        name = canonical_name(labels)
        shard = self.shards[place_of(tenant, name, self.settings.shards)]
        stream = shard.get((tenant, name), Stream(tenant, labels, name))
        verdicts = []
        for stamp, line in said["values"]:
            verdicts.append(self.judge(shard, stream, now, int(stamp), line))
            if stream.chunks:
                shard[tenant, name] = stream
        return {"durable": self.logged, "stream": name, "verdicts": verdicts}

    def judge(self, shard, stream, now, stamp, line):
        """The first verdict that holds; an entry that is accepted is kept."""
        rules, entries = self.settings.rules_for(stream.tenant), stream.entries()
        live = sum(other.is_live() for other in shard.values() if other.tenant == stream.tenant)
        if len(line.encode()) > rules.max_line_size:
            return "line_too_long"
        if entries:
            limit = max(0, max(entry.stamp for entry in entries) - self.settings.max_chunk_age // 2)
            if stamp < limit:
                return {"too_far_behind": str(limit)}
            if (entries[-1].stamp, entries[-1].line) == (stamp, line):
                return "duplicate"
        if not stream.is_live() and live >= rules.max_streams_per_tenant:
            return {"too_many_streams": live}
        self.keep(stream, now, Entry(len(entries), stamp, line))
        return {"accepted": len(entries)}

    def keep(self, stream, now, entry):
        if not stream.chunks or stream.chunks[-1].state != "grows":
            stream.chunks.append(Chunk(now))
        chunk = stream.chunks[-1]
        chunk.updated = now
        chunk.head.append(entry)
        if sum(each.size() for each in chunk.head) >= self.settings.chunk_block_size:
            chunk.close_head()
        if sum(each.size() for each in chunk.entries()) >= self.settings.chunk_target_size:
            chunk.seal()

    def seal_where(self, is_due):
        """How many growing chunks were sealed, and the operations that there are then."""
        sealed = 0
        for shard in self.shards:
            for stream in shard.values():
                for chunk in stream.chunks:
                    if chunk.state == "grows" and is_due(chunk):
                        chunk.seal()
                        sealed += 1
        return sealed, [stream for shard in self.shards for stream in shard.values() for _ in stream.waiting()]

    def sweep(self, command):
        require(isinstance(command.get("now"), str))
        now, settings = stamp_of(command["now"]), self.settings
        sealed, operations = self.seal_where(lambda chunk: now - chunk.updated > settings.chunk_idle_period or chunk.span() > settings.max_chunk_age)
        room = max(0, settings.flush_queue_length - len(self.queue))
        self.queue += operations[:room]
        return {"sweep": {"queued": len(operations[:room]), "sealed": sealed}}

    def flush(self, command):
        forced, sealed = command.get("forced", True), 0
        require(isinstance(forced, bool))
        if forced:
            sealed, operations = self.seal_where(lambda chunk: True)
            self.queue += operations
        claimed = 0
        for stream in self.queue:
            if stream.waiting():
                stream.waiting()[0].state = "stored"
                claimed += 1
        self.queue = []
        return {"flush": {"failed": 0, "sealed": sealed, "stored": claimed}}

    def gauges(self, command):
        require(isinstance(command.get("tenant"), str))
        require_tenant(command["tenant"])
        return {"gauges": [self.gauges_of(shard, command["tenant"]) for shard in self.shards]}

    def gauges_of(self, shard, tenant):
        standing = {kind: [] for kind in KINDS}
        streams = [stream for stream in shard.values() if stream.tenant == tenant]
        for chunk in [chunk for stream in streams for chunk in stream.chunks]:
            standing["stored" if chunk.state == "stored" else "block"] += chunk.blocks
            standing["head"] += chunk.head
        gauges = {kind: {"bytes": str(sum(each.size() for each in there)), "entries": len(there)} for kind, there in standing.items()}
        return gauges | {"streams": sum(stream.is_live() for stream in streams)}

    def board(self, command):
        return {"board": [{"accepted": front, "stored": stored} for front, stored in zip(self.fronts(), self.stored())]}

    def checkpoint(self, command):
        return {"checkpoint": [self.logged for _ in self.shards]}

    def query(self, command):
        require(all(isinstance(command.get(name), str) for name in ("tenant", "query")))
        start, end, limit = command.get("start", "0"), command.get("end", str(2**63)), command.get("limit", 100)
        direction = command.get("direction", "backward")
        require(isinstance(start, str) and isinstance(end, str) and direction in ("forward", "backward"))
        require(type(limit) is int and 1 <= limit <= 5000)
        after = command.get("after")
        if "after" in command:
            require_cursor(after)
        pages = command.get("pages", False)
        require(isinstance(pages, bool))
        require_tenant(command["tenant"])
        start, end = stamp_of(start), stamp_of(end, 2**63 + 1)
        after = (stamp_of(after["stamp"]), after["stream"].encode(), after["number"]) if "after" in command else None
        found = self.wanted(command["tenant"], matchers_of(command["query"]), start, end)
        found.sort(key=lambda each: each[:3], reverse=direction == "backward")
        if after is not None:
            found = [each for each in found if (each[:3] < after if direction == "backward" else each[:3] > after)]
        found = found[:limit]
        entries = [{"line": line, "stamp": str(stamp), "stream": name.decode()} for stamp, name, _, line in found]
        answer = {"entries": entries, "fronts": self.fronts()}
        if pages and len(found) == limit:
            stamp, name, number, _ = found[-1]
            answer["next"] = {"number": number, "stamp": str(stamp), "stream": name.decode()}
        return {"query": answer}

    def wanted(self, tenant, matchers, start, end):
        """Of each entry its stamp, canonical name, number and line."""
        require(any(is_equal and value for _, is_equal, value in matchers), "TooWide")
        return [(entry.stamp, stream.name.encode(), entry.number, entry.line)
                for stream in self.picked(tenant, matchers) for entry in stream.entries() if start <= entry.stamp < end]

    def picked(self, tenant, matchers):
        streams = [stream for shard in self.shards for stream in shard.values() if stream.tenant == tenant]
        return [each for each in streams if all((each.labels.get(name, "") == value) == equal for name, equal, value in matchers)]

    def series(self, command):
        return {"series": in_byte_order(stream.name for stream in self.asked(command))}

    def labels(self, command):
        require(isinstance(command.get("name", ""), str))
        if "name" not in command:
            return {"labels": in_byte_order(name for stream in self.asked(command) for name in stream.labels)}
        values = [stream.labels.get(command["name"]) for stream in self.asked(command)]
        return {"labels": in_byte_order(value for value in values if value)}

    def asked(self, command):
        """The streams that a question for a catalog is about."""
        require(isinstance(command.get("tenant"), str) and isinstance(command.get("query", ""), str))
        require_tenant(command["tenant"])
        matchers = matchers_of(command["query"]) if "query" in command else []
        require("query" not in command or any(is_equal and value for _, is_equal, value in matchers), "TooWide")
        return self.picked(command["tenant"], matchers)

    def report(self):
        shards = zip(self.fronts(), self.recovered, self.stored())
        return {"report": [{"accepted": front - recovered, "kept": front - stored, "recovered": recovered, "stored": stored}
                           for front, recovered, stored in shards]}


def text_of(reply):
    return json.dumps(reply, ensure_ascii=False, separators=(",", ":"), sort_keys=True)
