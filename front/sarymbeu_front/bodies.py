"""Bodies of `POST /loki/api/v1/push`: JSON, or protobuf with Snappy, to streams as the program takes them."""
import json
import re
import warnings
import zlib
from dataclasses import dataclass, field

import snappy
from google.protobuf.message import DecodeError

from . import push_pb2
from .faults import Fault
from .labels import read_labels
from .scan import Unread, text_of
from .stamps import SECOND, STAMP_LIMIT, is_stamp

# The longest body, as sent and as unpacked, in bytes; a line to the program has the same bound.
MAX_BODY = 1 << 24
JSON, PROTOBUF = "application/json", "application/x-protobuf"
# An escape that may be half of a pair: only a text with one can have a lone surrogate.
SURROGATE_ESCAPE = re.compile(r"\\u[dD][89a-fA-F]")
SURROGATE = re.compile("[\ud800-\udfff]")


@dataclass
class Stream:
    """Labels, and entries as lists of stamp and line."""

    labels: dict[str, str]
    values: list[list[str]]


@dataclass
class Body:
    """What was read of a body.

    `mended` counts what was no text and became U+FFFD: bytes, and lone surrogates. `metadata` counts entries whose
    structured metadata was left out.
    """

    streams: list[Stream] = field(default_factory=list)
    mended: int = 0
    metadata: int = 0

    def text(self, value: bytes) -> str:
        """The text of `value`, mended."""
        text, count = text_of(value)
        self.mended += count
        return text

    def whole(self, text: str) -> str:
        """`text` without lone surrogates."""
        text, count = SURROGATE.subn("\ufffd", text)
        self.mended += count
        return text

    def leave_out_metadata(self, place: str, drop: bool) -> None:
        """Counts an entry's structured metadata as left out. Raises Fault 400 where the settings do not say so."""
        if not drop:
            raise Fault(400, f"{place}: structured metadata is not taken; send it as labels or in the line\n")
        self.metadata += 1


def too_large(what: str) -> Fault:
    """413, for what is longer than a body may be."""
    return Fault(413, f"{what} is longer than {MAX_BODY} bytes\n")


def kind_of(content_type: str | None) -> str:
    """JSON or PROTOBUF; protobuf where nothing is said, as in Loki. Raises Fault 415."""
    kind = (content_type or PROTOBUF).split(";")[0].strip().lower()
    if kind not in (JSON, PROTOBUF):
        raise Fault(415, f"the content type {kind!r} is not understood: {JSON} and {PROTOBUF} are\n")
    return kind


def unpacked(body: bytes, encoding: str, kind: str) -> bytes:
    """The JSON text or the protobuf message of a body with this `Content-Encoding`.

    Raises Fault 400 where it cannot be unpacked, 413 where it would be longer than MAX_BODY, 415 for another encoding.
    """
    encoding = encoding.strip().lower()
    if encoding in ("gzip", "deflate"):
        body = inflated(body, encoding)
    elif encoding not in ("", "identity") and (encoding, kind) != ("snappy", PROTOBUF):
        raise Fault(415, f"the content encoding {encoding!r} is not understood: gzip and deflate are\n")
    return unsnapped(body) if kind == PROTOBUF else body


def inflated(body: bytes, encoding: str) -> bytes:
    """What gzip or deflate (zlib) packed, in whole. Raises Fault 400 or 413."""
    pieces, size = [], 0
    try:
        while body or not pieces:
            # 31 is gzip with 32 KiB of window, 15 is zlib; a gzip file may have several members.
            unpacker = zlib.decompressobj(31 if encoding == "gzip" else 15)
            pieces.append(unpacker.decompress(body, MAX_BODY + 1 - size))
            size += len(pieces[-1])
            if size > MAX_BODY:
                raise too_large("the unpacked body")
            if not unpacker.eof:
                raise Fault(400, f"the body is cut off within its {encoding}\n")
            body = unpacker.unused_data
    except zlib.error as fault:
        raise Fault(400, f"the body is no {encoding}: {fault}\n") from None
    return b"".join(pieces)


def unsnapped(body: bytes) -> bytes:
    """What Snappy packed as one block. Raises Fault 400 or 413."""
    # The library takes the room that the block says it needs, by the number in front: that is looked at first.
    size, shift = 0, 0
    for byte in body[:5]:
        size |= (byte & 127) << shift
        shift += 7
        if byte < 128:
            break
    else:
        raise Fault(400, "the body is no block of Snappy: it begins with no length\n")
    if size > MAX_BODY:
        raise too_large("the unpacked body")
    try:
        return snappy.uncompress(body)
    except snappy.UncompressError as fault:
        raise Fault(400, f"the body is no block of Snappy: {fault}\n") from None


def read(message: bytes, kind: str, drop_metadata: bool) -> Body:
    """The streams of an unpacked body; those without an entry are left out. Raises Fault 400, with the first place at fault."""
    body = read_json(message, drop_metadata) if kind == JSON else read_protobuf(message, drop_metadata)
    body.streams = [stream for stream in body.streams if stream.values]
    return body


def read_json(message: bytes, drop_metadata: bool) -> Body:
    """The streams of a JSON body. Raises Fault 400."""
    body = Body()
    text = body.text(message)
    try:
        value = json.loads(text)
    except (ValueError, RecursionError) as fault:
        raise Fault(400, f"the body is no JSON: {fault}\n") from None
    streams = value.get("streams") if isinstance(value, dict) else None
    if not isinstance(streams, list):
        raise Fault(400, "the body has no list `streams`\n")
    whole = body.whole if SURROGATE_ESCAPE.search(text) else None
    for index, stream in enumerate(streams):
        body.streams.append(_json_stream(body, f"stream {index}", stream, drop_metadata, whole))
    return body


def _json_stream(body: Body, place: str, stream: object, drop_metadata: bool, whole) -> Stream:
    """One member of `streams`; `whole` mends its texts, where that may be needed. Raises Fault 400."""
    labels = stream.get("stream") if isinstance(stream, dict) else None
    values = stream.get("values") if isinstance(stream, dict) else None
    if not isinstance(labels, dict) or not all(isinstance(value, str) for value in labels.values()):
        raise Fault(400, f"{place}: `stream` is no object of texts\n")
    if not isinstance(values, list):
        raise Fault(400, f"{place}: `values` is no list\n")
    for index, value in enumerate(values):
        if not isinstance(value, list) or len(value) not in (2, 3) or not isinstance(value[1], str):
            raise Fault(400, f"{place}, entry {index}: no list of stamp and line\n")
        if not is_stamp(value[0]):
            raise Fault(400, f"{place}, entry {index}: the stamp is no text of nanoseconds below 2^63\n")
        if len(value) == 3:
            if not isinstance(value[2], dict):
                raise Fault(400, f"{place}, entry {index}: the third element is no object\n")
            if value.pop():
                body.leave_out_metadata(f"{place}, entry {index}", drop_metadata)
    if whole is None:
        return Stream(labels, values)
    mended = {whole(name): whole(value) for name, value in labels.items()}
    return Stream(mended, [[stamp, whole(line)] for stamp, line in values])


def read_protobuf(message: bytes, drop_metadata: bool) -> Body:
    """The streams of a push message. Raises Fault 400."""
    # Of a message that it has read in part, up to a tag that ends a group, the library only warns.
    with warnings.catch_warnings(record=True) as warned:
        warnings.simplefilter("always")
        try:
            request = push_pb2.PushRequest.FromString(message)
        except DecodeError as fault:
            raise Fault(400, f"the body is no push message: {fault}\n") from None
    if warned:
        raise Fault(400, f"the body is no push message: {warned[0].message}\n")
    body = Body()
    for index, stream in enumerate(request.streams):
        body.streams.append(_protobuf_stream(body, f"stream {index}", stream, drop_metadata))
    return body


def _protobuf_stream(body: Body, place: str, stream: push_pb2.Stream, drop_metadata: bool) -> Stream:
    """One stream of a push message. Raises Fault 400."""
    try:
        labels, mended = read_labels(body.text(stream.labels))
    except Unread as fault:
        raise Fault(400, f"{place}: labels: {fault}\n") from None
    body.mended += mended
    values = []
    for index, entry in enumerate(stream.entries):
        stamp = entry.timestamp.seconds * SECOND + entry.timestamp.nanos
        if not (0 <= entry.timestamp.nanos < SECOND and 0 <= stamp < STAMP_LIMIT):
            raise Fault(400, f"{place}, entry {index}: the stamp is not within 1970 and 2262\n")
        if entry.structured_metadata:
            body.leave_out_metadata(f"{place}, entry {index}", drop_metadata)
        values.append([str(stamp), body.text(entry.line)])
    return Stream(labels, values)
