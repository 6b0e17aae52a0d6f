"""What `ingestctl show --entries` writes of a text, and `ingestctl check` of a log, by what formats.py and fitting.py read in it.

A line with an entry is a triple: its number, its stamp, and its line as it is, since `show` puts that in quotes.
"""
import hashlib
import re

from fitting import ANOTHER, CHANGED, NOT_THERE, BadObject, made_again
from formats import BAD_FIELD, BAD_MAGIC, BAD_VERSION, DAMAGED, OTHER_SETTINGS, OUT_OF_ORDER, TRAILING, TRUNCATED
from formats import VERSIONS, Checkpoint, Growing, Listed, Push, Refused, Seals, read_chunk, read_row, records_of

FAULTS = {TRUNCATED: "the bytes end within a field", BAD_MAGIC: "the bytes begin as no object of this kind does"}
FAULTS |= {BAD_VERSION: "the version is not known", BAD_FIELD: "a bad value, at byte {at}"}
FAULTS |= {OUT_OF_ORDER: "entries are out of order", TRAILING: "bytes stand after the last field"}
FAULTS |= {DAMAGED: "the log is damaged at {at}"}
REASONS = {1: b"full", 2: b"idle", 3: b"of the greatest age", 4: b"by command"}
NEITHER = b"no chunk and no index row; as a log: "
NO_OBJECT, CHANGED_OBJECT, OTHER_OBJECT = "an object is not there", "an object was changed", "an object is another chunk"
OBJECTS = {NOT_THERE: NO_OBJECT, CHANGED: CHANGED_OBJECT, ANOTHER: OTHER_OBJECT}
ESCAPES = {b"n": b"\n", b"r": b"\r", b"t": b"\t", b"0": b"\0"}


def fault_words(fault):
    return FAULTS[fault.name].format(at=fault.at).encode()


def names(said):
    return b"%b of tenant %b" % (said.name, said.tenant)


def entry_lines(entries, numbers):
    return [(at, entries[at].stamp, entries[at].line) for at in numbers]


def chunk_lines(text):
    chunk = read_chunk(text)
    entries, covered = chunk.blocks.entries, 0
    size = sum(entry.size() for entry in entries)
    key = hashlib.sha256(text).hexdigest().encode()
    lines = [b"chunk of " + names(chunk), b"  key " + key]
    lines.append(b"  %d entries from number %d, %d bytes" % (len(entries), chunk.first, size))
    for place, count in enumerate(chunk.blocks.sizes):
        numbers = sorted(range(covered, covered + count), key=lambda at: (entries[at].stamp, at))
        span = entries[numbers[0]].stamp, entries[numbers[-1]].stamp
        lines.append(b"  block %d: %d entries, stamps %d to %d" % (place, count, *span))
        lines += [(chunk.first + at, stamp, line) for at, stamp, line in entry_lines(entries, numbers)]
        covered += count
    return lines


def row_lines(text):
    row = read_row(text)
    said = row.listing
    numbers = (said.count, row.first, said.size, said.least, said.greatest)
    counts = b"  %d entries from number %d, %d bytes, stamps %d to %d" % numbers
    return [b"index row of " + names(row), b"  chunk " + said.key.hex().encode(), counts]


def log_lines(text):
    *records, (rest_at, _) = records_of(text)
    front = NEITHER if not records and text else b""
    lines = [front + b"log of %d records, then %d bytes of one that was cut off" % (len(records), len(text) - rest_at)]
    for place, (_, said) in enumerate(records):
        told = record_lines(said)
        lines += [b"%d: %b" % (place, told[0]), *told[1:]]
    return lines


def record_lines(said):
    if isinstance(said, Push):
        front = b"%d entries of %b, pushed at %d" % (len(said.entries), names(said), said.time)
        return [front, *entry_lines(said.entries, range(len(said.entries)))]
    if isinstance(said, Seals):
        sealed = b"the growing chunk of %b of tenant %b sealed, %b"
        return [sealed % (name, tenant, REASONS[reason]) for tenant, name, reason in said.streams]
    if isinstance(said, Checkpoint):
        sizes = (said.shard, said.shards, said.block_size, said.target_size, len(said.streams))
        lines = [b"checkpoint of shard %d of %d, blocks of %d bytes, chunks of %d bytes, %d streams" % sizes]
        for stream in said.streams:
            lines.append(b"  %b: %d entries, greatest stamp %d" % (names(stream), stream.count, stream.greatest))
            lines += [b"    from number %d: %b" % (chunk.first, chunk_words(chunk)) for chunk in stream.chunks]
        return lines
    return [b"the chunk from number %d of %b stored as %b" % (said.first, names(said), said.key.hex().encode())]


def chunk_words(said):
    """A chunk of a checkpoint."""
    if isinstance(said, Listed):
        return b"%d entries stored as %b" % (said.listing.count, said.listing.key.hex().encode())
    blocks = len(said.blocks.sizes)
    if isinstance(said, Growing):
        return b"it grows, with %d blocks and a head of %d entries" % (blocks, len(said.head))
    return b"sealed, %b, with %d blocks" % (REASONS[said.reason], blocks)


def shown(text):
    """What `show` writes of a text, and as what that is refused, if it is."""
    lines_of = {b"INGC": chunk_lines, b"INGR": row_lines}.get(text[:4], log_lines)
    try:
        return lines_of(text), None
    except Refused as fault:
        front = NEITHER if fault.name == DAMAGED and fault.at == 0 else b""
        return [front + fault_words(fault)], fault.name


def checked(text, settings, objects):
    """What `check` writes of a log, as what that is refused, and the shard that it makes again."""
    try:
        shard, at = made_again(text, settings, objects)
    except Refused as fault:
        _, said = next(records_of(text))
        sizes = (said.shard, said.shards, said.block_size, said.target_size)
        words = b"23 OtherSettings: it is of shard %d of %d, chunk_block_size = %d, chunk_target_size = %d"
        assert fault.name == OTHER_SETTINGS
        return words % sizes, OTHER_SETTINGS, None
    except BadObject as fault:
        words = b"27 BadObject: objects/c-%b %b" % (fault.key.hex().encode(), fault.why.encode())
        return words + chunk_fault(fault), OBJECTS[fault.why], None
    counts = b"%d entries, %d of them stored" % shard.counts()
    if at is None:
        return counts, None, shard
    version = text[17] if at == 0 and is_of_other_version(text) else None
    if version is not None:
        return b"22 DamagedLog: it is of version %d, and versions 1 and 2 are read" % version, DAMAGED, None
    return b"22 DamagedLog: damaged at byte %d; before it stand %b" % (at, counts), DAMAGED, None


def chunk_fault(fault):
    """What is wrong with an object as a chunk, if anything is."""
    if fault.why == NOT_THERE:
        return b""
    try:
        read_chunk(fault.text)
        return b""
    except Refused as refused:
        return b", and " + fault_words(refused)


def is_of_other_version(text):
    """Whether a log begins with a whole record that has the kind of a checkpoint and a version that is not read."""
    if len(text) < 26 or text[16] != 4 or text[17] in VERSIONS:
        return False
    length, complement = int.from_bytes(text[:8], "big"), int.from_bytes(text[8:16], "big")
    payload = text[16 : 16 + length]
    is_whole = length + complement == 2**64 - 1 and length >= 2 and len(text) >= length + 24
    return is_whole and hashlib.sha256(payload).digest()[:8] == text[16 + length : 24 + length]


def unquoted(text):
    """A line that `show` put in quotes."""
    if b"\\" not in text:
        return text

    def meant(match):
        return chr(int(match[2], 16)).encode() if match[2] else ESCAPES.get(match[1], match[1])

    return re.sub(rb"\\(u\{([0-9a-f]+)\}|.)", meant, text)


def read_lines(text):
    """The lines that `show` wrote, in the form of the above."""
    lines = []
    for line in text.split(b"\n"):
        match = re.fullmatch(rb'    (\d+)  (\d+)  "(.*)"', line, re.DOTALL)
        lines.append((int(match[1]), int(match[2]), unquoted(match[3])) if match else line)
    return lines
