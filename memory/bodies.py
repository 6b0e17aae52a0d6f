"""What is run: settings, lines, words and files, which between them make each call of the programs that takes memory."""
import json
from dataclasses import dataclass, field

SECOND = 10**9
SETTINGS = """\
shards = 2
flushers = 2
flush_queue_length = 3
chunk_block_size = 60
chunk_target_size = 110
chunk_idle_period = "1s"
max_chunk_age = "1h0m10s"
max_label_names = 3
max_label_name_length = 8
max_label_value_length = 24

[tenants.acme]
max_line_size = 8
max_streams_per_tenant = 1

[tenants."a-b.c_d"]
max_entries_per_push = 1
"""
# TOML in its other forms.
OTHER_SETTINGS = """\
# One shard and one flusher
chunk_block_size = 1_000
"max_chunk_age" = '2h'
chunk_idle_period = "3\\u0030m"
tenants = { t = { max_line_size = 40 }, u.max_label_names = 2 }
"""
# A clock, which takes memory when a run begins, and whose period does not end before the run does.
CLOCK = {"flush_check_period": "1h", "checkpoint_log_size": 1}
REFUSED_SETTINGS = {"no TOML": "shards =", "no setting": "[tenants.acme]\nshard = 1", "a bad setting": 'tenants."a b" = {}'}
REFUSED_SETTINGS |= {"a bad duration": 'max_chunk_age = "1x"', "no text": b"\xff"}


@dataclass(frozen=True)
class InMemory:
    """Words and input of `ingestd` without a folder, the files where it is run, and the status with which it ends."""
    name: str
    words: list = ()
    given: bytes = b""
    files: dict = field(default_factory=dict)
    status: int = 0
    closed: int | None = None  # a standard stream


@dataclass(frozen=True)
class InFolder:
    """Settings and lines of `ingestd` over a folder; the lines that were run there before, and what happened to it then."""
    name: str
    settings: dict
    lines: list
    before: list = ()
    change: object = lambda folder: None
    is_below: bool = False  # other folders, which are to be made, too
    is_channel: bool = False  # the lines stand in one file, and the replies in another


@dataclass(frozen=True)
class OfCase:
    """A case of `ingestctl`, by its name; the words of `ingestd`, where it is run in the place of the case; and the status."""
    case: str
    status: int = 0
    words: list = ()

    @property
    def name(self):
        return f"{'ingestd over' if self.words else 'ingestctl:'} {self.case}"


def text_of(command):
    return json.dumps(command, separators=(",", ":"), ensure_ascii=False)


def push(tenant, now, *streams):
    """A push of streams, each a pair of labels and values."""
    said = [{"stream": labels, "values": [[str(stamp), line] for stamp, line in values]} for labels, values in streams]
    return text_of({"cmd": "push", "tenant": tenant, "now": str(now), "streams": said})


def query(tenant, selector, **options):
    return text_of({"cmd": "query", "tenant": tenant, "query": selector} | options)


def sweep(now):
    return text_of({"cmd": "sweep", "now": str(now)})


def given_of(lines):
    return "".join(line + "\n" for line in lines).encode()


FLUSH, DUE = '{"cmd":"flush"}', '{"cmd":"flush","forced":false}'
CHECKPOINT, BOARD, GAUGES = '{"cmd":"checkpoint"}', '{"cmd":"board"}', '{"cmd":"gauges","tenant":"t"}'
ESCAPES = r'{"cmd":"push","tenant":"t","now":"2000","streams":[{"stream":{"b":"\u00e4\ud83d\ude00","a":"q\"b\\n\nx"},'
ESCAPES += r'"values":[["2000","tab\t \b\f\r\/ \u0001 ä€😀"]]}]}'
OTHER_FORM = r'{ "streams" : [ {"values":[["2001","x"],["1999","y"]], "stream" : {"b":"2","a":"1"}, "more":[1,{"x":null}]} ],'
OTHER_FORM += r' "now":"2001", "tenant":"t", "cmd":"push" }'
# Pushes at hand together, of labels in and out of order, which fill blocks and chunks; each verdict.
PUSHES = [
    push("t", 1000, ({"a": "1"}, [(1000, "aaaa"), (1001, "bbbb"), (1000, "cccc"), (1000, "cccc")])),
    push("t", 1001, ({"b": "2", "a": "1"}, [(1001, "dddd")]), ({"a": "2"}, [(1002, "eeee"), (1003, "ffff"), (1001, "gggg")])),
    push("acme", 1002, ({"a": "1", "b": ""}, [(1002, "no more than 8"), (1002, "8")]), ({"a": "2"}, [(1002, "too many")])),
    push("acme", 1002, *(({"a": str(at)}, [(1002, "x")]) for at in range(3, 6))),
    push("t", 4000 * SECOND, ({"a": "1"}, [(4000 * SECOND, "hhhh"), (1, "late"), (4000 * SECOND + 1, "iiii")])),
]
FAULTS = [
    push("t", 5, ({"1a": "x"}, []), ({}, []), ({"a": "1", "b": "1", "c": "1", "d": "1"}, [])),
    push("t", 5, ({"long_name_": "1"}, [(5, "x")]), ({"a": "a value of more than 24 bytes"}, [(5, "x")])),
    push("a-b.c_d", 5, ({"a": "1"}, [(5, "x"), (6, "y")])), push("a/b", 5), push("t", "5x"),
    '{"cmd":"push","tenant":"t","now":"1","streams":[{"stream":{"a":"1"},"values":[["1","x",{}]]}]}',
    '{"cmd":"nope"}', "{", "[]", '{"cmd":"sweep","now":5}', '{"cmd":"flush","forced":0}', '{"cmd":"gauges","tenant":".."}', "",
    query("t", "{a=~1}"), query("t", '{a!="1"}'), query("t", '{a="1"}', limit=0), query("t", '{a="1"}', start="x"),
]
QUERIES = [
    query("t", '{a="1"}'), query("nobody", '{a="1"}'), query("t", '{a="q\\"b\\\\n\\nx"}'),
    query("t", '{ a = "2" , b != "2" }', direction="forward", start="1001", end="1003", limit=3),
]
# What is queried stands in heads and blocks, and then in the store.
FLUSHES = [*PUSHES[:2], *QUERIES, sweep(1100), sweep(4002 * SECOND), DUE, *PUSHES[3:], FLUSH, *QUERIES, GAUGES, BOARD, CHECKPOINT]
# Names of streams and labels, and a query page by page.
NAMES = ['{"cmd":"series","tenant":"t"}', '{"cmd":"series","tenant":"t","query":"{a=\\"1\\", b=\\"2\\"}"}', '{"cmd":"labels","tenant":"t"}']
NAMES += ['{"cmd":"labels","tenant":"t","name":"a"}', '{"cmd":"labels","tenant":"t","query":"{a!=\\"1\\"}"}', '{"cmd":"series","tenant":"t","query":"{a"}']
PAGES = [query("t", '{a="1"}', limit=2, pages=True, **after) for after in ({}, {"after": {"number": 0, "stamp": "1001", "stream": '{a="1", b="2"}'}})]
LONG = [push("t", 5, ({"a": "1"}, [(5, "x" * 40000), (5, "y" * 40000)])), query("t", '{a="1"}', limit=1)]


def in_memory():
    files, words = {"settings.toml": SETTINGS, "others.toml": OTHER_SETTINGS}, ["settings.toml"]
    bodies = [
        InMemory("in memory: no lines", words, b"", files),
        InMemory("in memory: pushes", words, given_of([*PUSHES, ESCAPES, OTHER_FORM]), files),
        InMemory("in memory: faults", words, given_of(FAULTS), files),
        InMemory("in memory: flushes and queries", words, given_of(FLUSHES), files),
        InMemory("in memory: names and pages", words, given_of([*PUSHES[:2], *NAMES, *PAGES, FLUSH, *NAMES, *PAGES]), files),
        InMemory("in memory: other settings", ["others.toml"], given_of([ESCAPES]), files),
        InMemory("in memory: beside a clock", ["clock.toml"], given_of([*PUSHES[:1], FLUSH]), {"clock.toml": 'flush_check_period = "1h"\n'}),
        InMemory("in memory: a line of 80,000 bytes, without a line feed", [], given_of(LONG)[:-1]),
        InMemory("in memory: standard input closed", [], closed=0),
        InMemory("in memory: standard output closed", [], given_of(PUSHES[:1]), closed=1),
        InMemory("version", ["--version"]),
        InMemory("no settings file", ["absent.toml"], status=1),
        InMemory("three words", ["settings.toml", "folder", "more"], status=1),
    ]
    return bodies + [InMemory(f"settings: {name}", words, b"", {"settings.toml": text}, 1) for name, text in REFUSED_SETTINGS.items()]


T = 10000 * SECOND
ZERO, WEB, FEED = {"id": "0"}, {"id": "1", "app": "web"}, {"id": 'q"\\', "b": "\n"}
ENDS = {"start": "0", "end": str(2**63), "limit": 5000}
# A life of a folder: at its end there are chunks that are stored, wait, and grow.
LIFE = [
    push("t", T, (ZERO, [(T, "aaaa"), (T + 1, "bbbb"), (T, "cccc"), (T, "cccc")]), (WEB, [(T, "dddd")])),
    push("acme", T, (FEED, [(T, "eeee")])),
    sweep(T + 2 * SECOND), DUE, CHECKPOINT,
    push("t", T + 3 * SECOND, (WEB, [(T + 3 * SECOND, "ffff"), (5, "late")])),
    query("t", '{app="web", id="1"}', direction="forward", **ENDS), FLUSH,
    push("t", T + 4 * SECOND, (ZERO, [(T + 4 * SECOND + at, "gggg") for at in range(6)]), (WEB, [(T + 4 * SECOND, "hhhh")])),
    query("t", '{id="0"}', direction="backward", **ENDS),
]
ASKED = ['{"cmd":"series","tenant":"t"}', '{"cmd":"labels","tenant":"t"}', '{"cmd":"labels","tenant":"t","name":"id"}']
ASKED += [query("t", '{id="0"}', direction="forward", start="0", end=str(2**63), limit=2, pages=True)]
MORE = [LIFE[-2], FLUSH, LIFE[-1]]


def sizes(shards, flushers):
    drawn = {"shards": shards, "flushers": flushers, "chunk_block_size": 60, "chunk_target_size": 110}
    return drawn | {"chunk_idle_period": "1s", "max_chunk_age": "2h"}


def as_stopped(folder):
    """As an earlier version leaves a folder, without a text in `lock`, and what was being written when it was stopped."""
    (folder / "lock").write_bytes(b"")
    (folder / "wal-0.new").write_bytes(b"x")
    (folder / "objects" / "c-x.0.new").write_bytes(b"x")


IN_FOLDERS = [
    InFolder("a new folder, one shard, one flusher", sizes(1, 1), LIFE),
    InFolder("a new folder below others, three shards, three flushers", sizes(3, 3), LIFE, is_below=True),
    InFolder("a folder with stored, waiting and growing chunks, two shards, two flushers", sizes(2, 2), MORE, LIFE),
    InFolder("a folder behind a checkpoint, one shard, two flushers", sizes(1, 2), MORE[:1], [*LIFE, CHECKPOINT]),
    InFolder("a new folder, beside a clock, two shards, one flusher", sizes(2, 1) | CLOCK, LIFE),
    InFolder("a channel beside a clock, over a new folder, two shards", sizes(2, 1) | CLOCK, LIFE, is_channel=True),
    InFolder("a channel over a new folder, two shards", sizes(2, 1), LIFE, is_channel=True),
    InFolder("a channel over a folder with stored, waiting and growing chunks, two shards", sizes(2, 1), MORE, LIFE, is_channel=True),
    InFolder("a channel that asks for names and pages, two shards", sizes(2, 1), [*LIFE[:2], *ASKED], is_channel=True),
    InFolder("a folder of an earlier version, which was stopped, one shard, one flusher", sizes(1, 1), MORE[:1], LIFE[:5], as_stopped),
]

# The settings file for each of these cases, over whose folder `ingestd` does not start.
NOT_STARTED = dict.fromkeys(["check_a_damaged_log", "check_a_changed_chunk", "check_a_missing_log"], "empty.toml")
NOT_STARTED |= {"check_other_settings": "check_other_settings/settings.toml"}
OF_FOLDERS = [OfCase(name, 2, [settings, f"{name}/folder"]) for name, settings in NOT_STARTED.items()]

# Cases of each command of `ingestctl`, with the status where it is not 0.
CASES = {"load_times_of_lines": 0, "load_times_of_syslog": 0, "load_tells_returns": 0, "load_files_in_turn": 0, "load_twice_named": 2}
CASES |= {"wrap_two_bodies": 0, "wrap_metadata": 1, "explain_refused": 1, "explain_notes_of_streams": 0, "explain_by_settings": 1}
CASES |= {"settings_of_a_tenant": 0, "settings_meant": 1, "show_a_chunk_with_entries": 0, "show_a_log": 0, "show_a_row": 0}
CASES |= {"show_a_damaged_log": 1, "check_the_room": 0, "check_a_changed_chunk": 1, "check_other_settings": 1}
CASES |= {"check_a_damaged_log": 1, "check_forged_logs": 1}
CASES |= {"mend_zeros_cut": 0, "export_two_shards": 0, "export_beside_a_missing_chunk": 1, "export_more_streams_than_may_live": 0}
CASES |= {"refusal_by_name": 0, "tick_with_a_checkpoint": 0, "query_of_words": 0, "query_since": 0, "query_refused": 2}
CASES |= {"entries_as_json": 0, "next_forward": 0, "next_of_one_stamp_second": 0}

BODIES = [*in_memory(), *IN_FOLDERS, *OF_FOLDERS, *(OfCase(name, status) for name, status in CASES.items())]
