"""Forges texts: changes, cuts, doubles and swaps bytes, fields and records of honest ones, also so that all sums are right."""
import hashlib

from formats import VERSIONS, Blocks, ChunkObject, Fields, Refused, chunk_in, payload_in, read_chunk, records_of, row_in
from spelling import chunk_text, number, payload, record

LONGEST = 2**16  # a forged text has no more bytes
EDGES = [0, 1, 2, 3, 4, 5, 63, 64, 65, 128, 150, 151, 255, 2**16, 262144, 262145, 2**24, 2**28, 2**31, 2**32 - 1, 2**40]
EDGES += [2**61, 2**62 - 1, 2**62, 2**62 + 1, 2**63 - 1, 2**63, 2**64 - 24, 2**64 - 1]
BEGINNINGS = [b"INGC", b"INGR", b"\4"]  # behind which a version stands
WORDS = [b"", b".", b"..", b"...", b"t", b"T0", b"a/b", b"a b", b"x" * 150, b"x" * 151, b"{}", b'{a=""}', b'{a="1"}', b'{a="2"}']
WORDS += [b'{a="1",b="2"}', b'{a="1", b="2"}', b'{b="1", a="2"}', b'{a="1", a="2"}', b'{a="1", ab="2"}', b'{ab="1", a="2"}']
WORDS += [b'{1a="1"}', b'{a_1="1"}', b'{a-1="1"}', b'{a="1" }', b'{ a="1"}', b'{a="1"', b'{a="1"}}', b'{a="\n"}', b'{a="\\n"}']
WORDS += [b'{a="\\t"}', b'{a="\\"}', b'{a="\\\\"}', b'{a="\r\t\0"}', b'{a="\xff"}', b'{a="\xc3\xa4"}', b'{\xc3\xa4="1"}']
WORDS += [b"\xff", b"\xed\xa0\x80", b"\xc0\x80"]
WORDS += [b"\xf4\x90\x80\x80", b"\xf4\x8f\xbf\xbf", b"\xf0\x9f\x98", b"\xef\xbb\xbfx", b"\xe2\x80\xa8", b"\n", b'"', b"\\"]


def pieces_of(text, read, version=None):
    """The numbers and texts of an honest text, by a reader; of a payload in the version of its log."""
    fields = Fields(text, version)
    read(fields)
    return fields.pieces


def place_of(draw, pieces, is_wanted):
    """A drawn place among those that are wanted, if there is one."""
    places = [at for at, piece in enumerate(pieces) if is_wanted(piece)]
    return draw.choice(places) if places else None


def run_of(draw, items, most=8):
    """The ends of a drawn run of items."""
    start = draw.randrange(len(items) + 1)
    return start, min(len(items), start + draw.randint(1, most))


def change_number(draw, pieces, others):
    """A number becomes another: one at an edge, one near it, or another one of the text."""
    at = place_of(draw, pieces, lambda piece: len(piece) in (1, 4, 8))
    if at is None:
        return pieces
    size, value = len(pieces[at]), int.from_bytes(pieces[at], "big")
    same = [int.from_bytes(piece, "big") for piece in pieces if len(piece) == size]
    value = draw.choice([draw.choice(EDGES), value + draw.choice([-2, -1, 1, 2]), draw.choice(same)])
    return [*pieces[:at], number(value % 2 ** (8 * size), size), *pieces[at + 1 :]]


def change_byte(draw, pieces, others):
    at = place_of(draw, pieces, len)
    if at is None:
        return pieces
    piece = bytearray(pieces[at])
    piece[draw.randrange(len(piece))] = draw.choice([0, 255, draw.randrange(256)])
    return [*pieces[:at], bytes(piece), *pieces[at + 1 :]]


def change_version(draw, pieces, others):
    """A version becomes the other, or one that there is not. Nothing else is spelled anew."""
    if len(pieces) < 2 or pieces[0] not in BEGINNINGS:
        return pieces
    version = draw.choice([each for each in (b"\1", b"\2", b"\3") if each != pieces[1]])
    return [pieces[0], version, *pieces[2:]]


def change_metadata(draw, pieces, others):
    """An entry tells of metadata, or behind its line stands no byte, or two."""
    at = place_of(draw, pieces, lambda piece: piece == b"\0")  # no other number of one byte is 0
    if at is None:
        return pieces
    instead = draw.choice([[b"\1"], [number(draw.randrange(1, 256), 1)], [], [b"\0", b"\0"]])
    return [*pieces[:at], *instead, *pieces[at + 1 :]]


def drop_run(draw, pieces, others):
    start, end = run_of(draw, pieces)
    return pieces[:start] + pieces[end:]


def double_run(draw, pieces, others):
    start, end = run_of(draw, pieces)
    return pieces[:end] + pieces[start:]


def swap_runs(draw, pieces, others):
    start, middle = run_of(draw, pieces)
    end = min(len(pieces), middle + draw.randint(1, 8))
    return pieces[:start] + pieces[middle:end] + pieces[start:middle] + pieces[end:]


def swap_alike(draw, pieces, others):
    """Two pieces of one length change places."""
    pieces, at = list(pieces), draw.randrange(len(pieces))
    other = place_of(draw, pieces, lambda piece: len(piece) == len(pieces[at]))
    pieces[at], pieces[other] = pieces[other], pieces[at]
    return pieces


def graft(draw, pieces, others):
    """A run becomes one of another text."""
    (start, end), other = run_of(draw, pieces), draw.choice(others)
    from_start, from_end = run_of(draw, other)
    return pieces[:start] + other[from_start:from_end] + pieces[end:]


def change_text(draw, pieces, others):
    """A text behind its length becomes another, and the length with it."""
    places = [at for at in range(1, len(pieces)) if int.from_bytes(pieces[at - 1], "big") == len(pieces[at])]
    if not places:
        return pieces
    at, other = draw.choice(places), draw.choice(others)
    piece = draw.choice([draw.choice(WORDS), pieces[at] + draw.choice(WORDS), pieces[at][:-1], draw.choice(other)])
    size = len(pieces[at - 1])
    return [*pieces[: at - 1], number(len(piece) % 2 ** (8 * size), size), piece, *pieces[at + 1 :]]


FIELD_WAYS = [change_number, change_number, change_byte, drop_run, double_run, swap_runs, swap_alike, graft]
FIELD_WAYS += [change_text, change_text, change_version, change_metadata]


def cut(draw, text, others):
    return text[: draw.randrange(len(text) + 1)]


def double_bytes(draw, text, others):
    start, end = run_of(draw, text, 60)
    return text[:end] + text[start:]


def drop_bytes(draw, text, others):
    start, end = run_of(draw, text, 60)
    return text[:start] + text[end:]


def swap_bytes(draw, text, others):
    return swap_runs(draw, text, others)


def put_bytes(draw, text, others):
    """Some bytes stand in the place of as many, or between others."""
    more = draw.choice([draw.randbytes(draw.randint(1, 20)), bytes(16), b"\xff" * 8 + bytes(8), number(draw.choice(EDGES), 8)])
    at = draw.randrange(len(text) + 1)
    return text[:at] + more + text[at + draw.choice([0, len(more)]) :]


def change_one_byte(draw, text, others):
    return b"".join(change_byte(draw, [text], others))


def other_end(draw, text, others):
    """The text goes on as another one."""
    other = draw.choice(others)
    return text[: draw.randrange(len(text) + 1)] + other[draw.randrange(len(other) + 1) :]


BYTE_WAYS = [cut, double_bytes, drop_bytes, swap_bytes, put_bytes, change_one_byte, change_one_byte, other_end]


def forge_bytes(draw, text, others):
    """Changes bytes where they stand, and no sum with them."""
    for _ in range(draw.choice([1, 1, 2])):
        text = draw.choice(BYTE_WAYS)(draw, text, others)
    return text[:LONGEST]


def forge_pieces(draw, pieces, others):
    """Changes numbers and texts."""
    for _ in range(draw.choice([1, 1, 1, 2, 3])):
        if pieces:
            pieces = draw.choice(FIELD_WAYS)(draw, pieces, others)
    return pieces


def forge_object(draw, text, others, read):
    """A forged chunk object or index row, in the one or the other way, of others of its kind."""
    if draw.random() < 0.3:
        return forge_bytes(draw, text, others)
    other = [pieces_of(draw.choice(others), read)]
    return b"".join(forge_pieces(draw, pieces_of(text, read), other))[:LONGEST]


def forge_chunk(draw, text, others):
    return forge_object(draw, text, others, chunk_in)


def forge_row(draw, text, others):
    return forge_object(draw, text, others, row_in)


def payloads_of(text):
    """The payloads of an honest log."""
    *records, (end, _) = records_of(text)
    starts = [at for at, _ in records] + [end]
    return [text[at + 16 : behind - 8] for at, behind in zip(starts, starts[1:])]


def version_of(text):
    """In which version a payload reads, or None. One without entries reads in both."""
    for version in VERSIONS:
        try:
            payload_in(Fields(text, version))
            return version
        except Refused:
            pass
    return None


def forge_payload(draw, text, others):
    """A payload in which fields, or bytes, are changed."""
    version, other = version_of(text), draw.choice(others)
    if draw.random() < 0.15 or version is None:  # it was forged before
        return forge_bytes(draw, text, others)
    other = [pieces_of(other, payload_in, version_of(other))]
    return b"".join(forge_pieces(draw, pieces_of(text, payload_in, version), other))


def spell_otherwise(text):
    """A payload as it is in a log of the other version."""
    version = version_of(text)
    return text if version is None else payload(payload_in(Fields(text, version)), sum(VERSIONS) - version)


def forge_frame(draw, text):
    """A payload between a length, its complement and a check, one of which is wrong or all of which are of something else."""
    whole, length = record(text), draw.choice([*EDGES, len(text) - 1, len(text) + 1]) % 2**64
    lengths = number(length, 8) + number(2**64 - 1 - length, 8)
    ends = [lengths + whole[16:], number(length, 8) + whole[8:], whole[:8] + number(length, 8) + whole[16:]]
    ends += [whole[:-1], whole[:-8] + draw.randbytes(8), whole[:16] + forge_bytes(draw, text, [text]) + whole[-8:]]
    return draw.choice(ends)


def forge_records(draw, payloads, others):
    """Forges a payload, spells it in the other version, or drops, doubles, swaps or grafts some. All sums are right."""
    way, at = draw.random(), draw.randrange(len(payloads))
    if way < 0.05:
        return [*payloads[:at], spell_otherwise(payloads[at]), *payloads[at + 1 :]]
    if way < 0.6:
        return [*payloads[:at], forge_payload(draw, payloads[at], others), *payloads[at + 1 :]]
    if way < 0.7:
        return double_run(draw, payloads, None)
    if way < 0.8:
        return swap_runs(draw, payloads, None)
    if way < 0.9:
        return payloads[:at] + [draw.choice(others)] + payloads[at + draw.randrange(2) :]
    return drop_run(draw, payloads, None)


def forge_log(draw, text, others):
    """A forged log. The others are honest ones."""
    way, other = draw.random(), payloads_of(draw.choice(others))
    if way < 0.2 or not text:
        return forge_bytes(draw, text, others)
    payloads = payloads_of(text)
    for _ in range(draw.choice([1, 1, 2])):
        if payloads and other:
            payloads = forge_records(draw, payloads, other)
    records = [record(each) for each in payloads]
    if way < 0.3 and records:
        at = draw.randrange(len(records))
        records[at] = forge_frame(draw, payloads[at])
    if way > 0.9:
        records.append(draw.choice([draw.randbytes(draw.randrange(40)), b"".join(records)[: draw.randrange(100)], bytes(16)]))
    return b"".join(records)[:LONGEST]


def in_other_version(text):
    """An honest chunk object in its other spelling."""
    return chunk_text(read_chunk(text), sum(VERSIONS) - text[4])


def divided_anew(draw, text):
    """An honest chunk object with the same entries in other blocks."""
    chunk = read_chunk(text)
    left, sizes = len(chunk.blocks.entries), []
    while left:
        sizes.append(draw.randint(1, left))
        left -= sizes[-1]
    blocks = Blocks(sizes, chunk.blocks.entries)
    return chunk_text(ChunkObject(chunk.tenant, chunk.name, chunk.first, blocks), draw.choice(VERSIONS))


def forge_listed(draw, text, honest, objects):
    """A log that lists a forged object in the place of an honest one, or that one in its other spelling; or the log as
    it was, and its object is changed or gone."""
    payloads = payloads_of(text)
    keys = [key for key in honest if any(key in each for each in payloads)]
    if not keys:
        return text
    key, way = draw.choice(keys), draw.random()
    if way < 0.05:
        objects.pop(key, None)
        return text
    object_text = honest[key]
    if way < 0.15:
        forged = in_other_version(object_text)
    elif way < 0.3:
        forged = divided_anew(draw, object_text)
    else:
        forged = forge_chunk(draw, object_text, list(honest.values()))
    if way > 0.9:
        objects[key] = forged
        return text
    new = hashlib.sha256(forged).digest()
    objects[new] = forged
    return b"".join(record(each.replace(key, new)) for each in payloads)
