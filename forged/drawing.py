"""Draws honest chunk objects, index rows and logs, and takes others from folders that the program wrote.

About half of the logs are of each version, and so are the chunk objects that are drawn.
"""
import hashlib
import json
import pathlib
import subprocess
import sys
from dataclasses import dataclass

from fitting import Shard
from formats import FORCED, IDLE, MAXIMUM_AGE, VERSIONS, Blocks, ChunkObject, Entry, IndexRow, Listing, Push, Seals
from formats import StoredChunk, records_of, shard_of
from spelling import chunk_text, payload, record, row_text

sys.path.insert(0, str(pathlib.Path(__file__).resolve().parent.parent / "kills"))
from kills import canonical_name  # noqa: E402

SHARDS = 64
STREAMS = 4  # of each shard
TENANTS = ["t", "acme", "!-_.*'()", "x" * 150]
OTHER_LABELS = [{}, {"app": "web"}, {"m": 'a"b\\c\nd'}, {"Z_9": "ä€😀"}, {"long": "v" * 300}]
LINES = [b"", b"x", b"a line of some length", b'quote " and \\', b"line\nfeed\r\t\0", "ä€😀\u200b\u0301".encode(), b"y" * 700]


@dataclass(frozen=True)
class Name:
    """A stream with its labels."""
    tenant: bytes
    name: bytes
    labels: str


def names_by_shard():
    """Some streams of each shard."""
    found, at = [[] for _ in range(SHARDS)], 0
    while any(len(names) < STREAMS for names in found):
        labels = {"id": str(at), **OTHER_LABELS[at % len(OTHER_LABELS)]}
        tenant, name = TENANTS[at // 7 % len(TENANTS)].encode(), canonical_name(labels).encode()
        names = found[shard_of(tenant, name, SHARDS)]
        if len(names) < STREAMS:
            names.append(Name(tenant, name, json.dumps(labels)))
        at += 1
    return found


def draw_stamp(draw):
    return draw.choice([draw.randrange(10), draw.randrange(10**6), 2**63 - 1 - draw.randrange(3)])


def draw_entries(draw, most):
    return [Entry(draw_stamp(draw), draw.choice(LINES)) for _ in range(draw.randint(1, most))]


def draw_chunk(draw, names):
    """The text of a chunk object."""
    blocks = Blocks()
    for _ in range(draw.randint(1, 3)):
        block = draw_entries(draw, 5)
        blocks.sizes.append(len(block))
        blocks.entries += block
    name, count = draw.choice(draw.choice(names)), len(blocks.entries)
    first = draw.choice([0, 0, 7, 2**32 - 1, 2**62 - count - 1, 2**62 - count])
    return chunk_text(ChunkObject(name.tenant, name.name, first, blocks), draw.choice(VERSIONS))


def draw_row(draw, names):
    """The text of an index row."""
    name, key = draw.choice(draw.choice(names)), draw.randbytes(32)
    count = draw.choice([1, 2, 1000, 2**32 - 1])
    size, stamps = 16 * count + draw.choice([0, 1, 10**6]), sorted([draw_stamp(draw), draw_stamp(draw)])
    first = draw.choice([0, 5, 2**62 - count])
    return row_text(IndexRow(name.tenant, name.name, first, Listing(count, size, *stamps, key)))


def draw_log(draw, settings, names, objects):
    """The text of a log of a shard with these streams: a checkpoint, and records that fit. What it calls stored is put among
    the objects."""
    shard, version = Shard(settings, objects), draw.choice(VERSIONS)
    for _ in range(draw.choice([0, 2, 5, 12])):
        assert shard.fits(draw_record(draw, shard, names, objects))
    texts = [payload(shard.said(), version)]
    shard.has_begun = True
    for _ in range(draw.choice([0, 1, 3, 6])):
        said = draw_record(draw, shard, names, objects)
        assert shard.fits(said)
        texts.append(payload(said, version))
    return b"".join(record(text) for text in texts)


def draw_record(draw, shard, names, objects):
    """A record that fits what the shard has: a push where no other does."""
    kind, streams = draw.random(), list(shard.streams.items())
    growing = [key for key, stream in streams if stream.chunks[-1].grows()]
    waiting = [(key, chunk) for key, stream in streams for chunk in stream.chunks if chunk.waits()]
    if kind < 0.2 and growing:
        sealed = draw.sample(growing, draw.randint(1, len(growing)))
        return Seals([(tenant, name, draw.choice([IDLE, MAXIMUM_AGE, FORCED])) for tenant, name in sealed])
    if kind < 0.5 and waiting:
        (tenant, name), chunk = draw.choice(waiting)
        said = ChunkObject(tenant, name, chunk.first, chunk.blocks)
        key = put_object(objects, chunk_text(said, draw.choice(VERSIONS)))  # whatever the log's version is
        return StoredChunk(tenant, name, chunk.first, key)
    stream = draw.choice(names)
    return Push(draw.choice([0, 10**18, 2**63 - 1]), stream.tenant, stream.name, draw_entries(draw, 6))


def put_object(objects, text):
    """Puts an object under its key."""
    key = hashlib.sha256(text).digest()
    objects[key] = text
    return key


def draw_commands(draw, names):
    """Commands for the program: pushes to streams of all shards, and what seals, stores and replaces logs."""
    commands = []
    for now in range(10**9, 10**9 + draw.randint(60, 240)):
        streams = []
        for name in dict.fromkeys(draw.choice(draw.choice(names)) for _ in range(4)):
            line = [str(now - draw.randrange(3)), f"{draw.choice(LINES).decode()} {draw.randrange(1000)}"]
            streams.append((name, [line] + [[str(now), str(at)] for at in range(draw.randrange(4))]))
        for tenant in sorted({name.tenant for name, _ in streams}):
            parts = [{"stream": json.loads(name.labels), "values": values} for name, values in streams if name.tenant == tenant]
            commands.append({"cmd": "push", "tenant": tenant.decode(), "now": str(now), "streams": parts})
        if draw.random() < 0.05:
            others = [{"cmd": "sweep", "now": str(now + 10**13)}, {"cmd": "flush"}, {"cmd": "flush", "forced": False}]
            commands.append(draw.choice([*others, {"cmd": "checkpoint"}]))
    return commands


def spelled_in(version, text):
    """An honest log in a version."""
    return b"".join(record(payload(said, version)) for _, said in records_of(text) if said is not None)


def written_logs(program, folder, settings_file, draw, names, objects):
    """The logs that the program leaves in a new folder, by shard, spelled in drawn versions: it writes the last alone.
    Its chunk objects are put among the objects."""
    lines = "".join(json.dumps(command) + "\n" for command in draw_commands(draw, names))
    words = [program, settings_file, folder]
    ran = subprocess.run(words, input=lines.encode(), capture_output=True, timeout=120)
    assert ran.returncode == 0, f"the program ended with {ran.returncode}: {ran.stderr}"
    assert b'"error"' not in ran.stdout, f"a command was refused: {ran.stdout}"
    for path in sorted((folder / "objects").glob("c-*")):
        assert path.name == f"c-{put_object(objects, path.read_bytes()).hex()}", f"{path} has another digest"
    return [spelled_in(draw.choice(VERSIONS), (folder / f"wal-{shard}").read_bytes()) for shard in range(SHARDS)]
