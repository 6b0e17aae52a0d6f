"""Bodies of pushes: packed, whole, and wrong."""
import gzip
import json
import pathlib
import random
import subprocess
import zlib

import pytest
import snappy

from sarymbeu_front import bodies, push_pb2
from sarymbeu_front.bodies import JSON, MAX_BODY, PROTOBUF
from sarymbeu_front.faults import Fault
from sarymbeu_front.stamps import is_stamp

PACKAGE = pathlib.Path(bodies.__file__).parent


def body_of(*streams):
    return json.dumps({"streams": [{"stream": labels, "values": values} for labels, values in streams]}).encode()


def message_of(labels, *entries):
    request = push_pb2.PushRequest()
    stream = request.streams.add(labels=labels)
    for seconds, nanos, line in entries:
        stream.entries.add(timestamp=push_pb2.Timestamp(seconds=seconds, nanos=nanos), line=line)
    return request


def status_of(work):
    with pytest.raises(Fault) as fault:
        work()
    return fault.value.status


def test_json_is_read():
    body = bodies.read(body_of(({"a": "1"}, [["5", "x"], ["6", "y", {}]]), ({"b": "2"}, [])), JSON, False)
    assert [(one.labels, one.values) for one in body.streams] == [({"a": "1"}, [["5", "x"], ["6", "y"]])]
    assert body.mended == body.metadata == 0


def test_what_is_no_text_is_mended_and_counted():
    body = bodies.read(b'{"streams":[{"stream":{"a":"\\ud800"},"values":[["5","x\\udc00\\ud83d\\ude00\xff"]]}]}', JSON, False)
    assert (body.streams[0].labels, body.streams[0].values) == ({"a": "\ufffd"}, [["5", "x\ufffd😀\ufffd"]])
    assert body.mended == 3


def test_protobuf_is_read():
    request = message_of(b'{a="1", b="x\\ty"}', (1700000000, 5, b"hello"), (0, 0, b"\xff\xfe!"))
    body = bodies.read(bodies.unpacked(snappy.compress(request.SerializeToString()), "", PROTOBUF), PROTOBUF, False)
    assert body.streams[0].labels == {"a": "1", "b": "x\ty"}
    assert body.streams[0].values == [["1700000000000000005", "hello"], ["0", "\ufffd\ufffd!"]]
    assert body.mended == 2


def test_structured_metadata_is_refused_or_dropped_and_counted():
    json_body = body_of(({"a": "1"}, [["5", "x", {"trace": "7"}], ["6", "y"]]))
    request = message_of(b'{a="1"}', (1, 0, b"x"))
    request.streams[0].entries[0].structured_metadata.add(name=b"trace", value=b"7")
    for message, kind in ((json_body, JSON), (request.SerializeToString(), PROTOBUF)):
        assert status_of(lambda: bodies.read(message, kind, False)) == 400
        body = bodies.read(message, kind, True)
        assert body.metadata == 1 and body.streams[0].values[0][1] == "x"


@pytest.mark.parametrize(
    "text, place",
    [
        ("", "no JSON"),
        ("[" * 100000, "no JSON"),
        ("[]", "no list"),
        ('{"streams":{}}', "no list"),
        ('{"streams":[5]}', "stream 0"),
        ('{"streams":[{"stream":{"a":1},"values":[]}]}', "stream 0"),
        ('{"streams":[{"stream":{"a":"1"}}]}', "stream 0"),
        ('{"streams":[{"stream":{"a":"1"},"values":[["1","x"],["2"]]}]}', "stream 0, entry 1"),
        ('{"streams":[{"stream":{"a":"1"},"values":[[1,"x"]]}]}', "stream 0, entry 0"),
        ('{"streams":[{"stream":{"a":"1"},"values":[["9223372036854775808","x"]]}]}', "stream 0, entry 0"),
        ('{"streams":[{"stream":{"a":"1"},"values":[["-1","x"]]}]}', "stream 0, entry 0"),
        ('{"streams":[{"stream":{"a":"1"},"values":[["1","x",5]]}]}', "stream 0, entry 0"),
        ('{"streams":[{"stream":{"a":"1"},"values":[["1","x",{},{}]]}]}', "stream 0, entry 0"),
    ],
)
def test_wrong_json_has_its_place(text, place):
    with pytest.raises(Fault) as fault:
        bodies.read(text.encode(), JSON, False)
    assert fault.value.status == 400 and place in fault.value.text


@pytest.mark.parametrize("entry", [(-1, 0, b""), (0, -1, b""), (0, 10**9, b""), (9223372037, 0, b"")])
def test_stamps_of_protobuf_have_their_range(entry):
    message = message_of(b'{a="1"}', entry).SerializeToString()
    assert status_of(lambda: bodies.read(message, PROTOBUF, False)) == 400


def test_wrong_protobuf_is_refused():
    whole = message_of(b'{a="1"}', (1, 0, b"x")).SerializeToString()
    # A length past the end; a part of a message; a tag that ends a group where none began.
    for message in (b"\x0a\xff", whole[:-1], whole + b"\x0c" + whole):
        assert status_of(lambda: bodies.read(message, PROTOBUF, False)) == 400
    assert status_of(lambda: bodies.read(message_of(b"{a=1}", (1, 0, b"")).SerializeToString(), PROTOBUF, False)) == 400


def test_bodies_are_unpacked():
    plain = b"x" * 100000
    for packed, encoding in ((gzip.compress(plain), "gzip"), (zlib.compress(plain), "deflate"), (plain, "")):
        assert bodies.unpacked(packed, encoding, JSON) == plain
    assert bodies.unpacked(gzip.compress(plain[:5]) + gzip.compress(plain[5:]), "gzip", JSON) == plain
    assert bodies.unpacked(snappy.compress(plain), "snappy", PROTOBUF) == plain
    assert bodies.unpacked(gzip.compress(snappy.compress(plain)), "gzip", PROTOBUF) == plain


def test_what_cannot_be_unpacked_is_refused():
    whole = gzip.compress(b"x" * 1000)
    for packed, encoding, kind in (
        (whole[:-5], "gzip", JSON), (b"x", "gzip", JSON), (b"", "gzip", JSON), (b"\xff\xff", "", PROTOBUF), (b"", "", PROTOBUF),
    ):  # fmt: skip
        assert status_of(lambda: bodies.unpacked(packed, encoding, kind)) == 400, (packed, encoding)
    assert status_of(lambda: bodies.unpacked(b"{}", "br", JSON)) == 415
    assert status_of(lambda: bodies.unpacked(b"{}", "snappy", JSON)) == 415
    assert status_of(lambda: bodies.kind_of("text/plain")) == 415


def test_no_body_grows_beyond_its_bound():
    long = b"\0" * (MAX_BODY + 1)
    for packed, encoding, kind in (
        (gzip.compress(long, 1), "gzip", JSON), (zlib.compress(long, 1), "deflate", JSON), (snappy.compress(long), "", PROTOBUF),
    ):  # fmt: skip
        assert status_of(lambda: bodies.unpacked(packed, encoding, kind)) == 413
    assert status_of(lambda: bodies.unpacked(b"\xff\xff\xff\xff\x0f" + b"x" * 10, "", PROTOBUF)) == 413
    assert len(bodies.unpacked(gzip.compress(long[1:], 1), "gzip", JSON)) == MAX_BODY


def test_the_generated_module_is_that_of_the_message(tmp_path):
    subprocess.run(["protoc", f"--proto_path={PACKAGE}", f"--python_out={tmp_path}", "push.proto"], check=True)
    assert (tmp_path / "push_pb2.py").read_bytes() == (PACKAGE / "push_pb2.py").read_bytes()


def changed(lot, message):
    """A message with up to three changes: bytes taken out, put in, or replaced."""
    message = bytearray(message)
    for _ in range(lot.randrange(1, 4)):
        at, what = lot.randrange(len(message) + 1), bytes([lot.choice([lot.randrange(256), *b'{}[]",:\\u'])])
        message[at : at + lot.randrange(2)] = what * lot.randrange(2)
    return bytes(message)


@pytest.mark.parametrize("seed", range(4))
def test_every_body_is_read_or_refused(seed):
    lot = random.Random(seed)
    values = [["5", "x\ud800"], ["6", "y", {"trace": "7"}], ["7", "ä😀"]]
    request = message_of(b'{a="1\\x41", b=`q`}', (1, 5, b"hello"), (2, 0, b"\xff"))
    request.streams[0].entries[0].structured_metadata.add(name=b"trace", value=b"7")
    whole = {JSON: body_of(({"a": "1", "b": "\udfff"}, values)), PROTOBUF: request.SerializeToString()}
    read = 0
    for number in range(2000):
        kind = (JSON, PROTOBUF)[number % 2]
        try:
            body = bodies.read(changed(lot, whole[kind]), kind, True)
        except Fault as fault:
            assert fault.status == 400
            continue
        read += 1
        # What was read can be sent: it has no lone surrogate, and all stamps are the program's.
        for stream in body.streams:
            json.dumps([stream.labels, stream.values], ensure_ascii=False).encode()
            assert all(is_stamp(stamp) for stamp, _ in stream.values)
    assert read > 200


@pytest.mark.parametrize("seed", range(4))
def test_every_snappy_block_is_unpacked_or_refused(seed):
    lot = random.Random(seed)
    packed = snappy.compress(b"hello hello hello hello " * 20)
    for _ in range(500):
        try:
            assert len(bodies.unpacked(changed(lot, packed), "", PROTOBUF)) <= MAX_BODY
        except Fault as fault:
            assert fault.status in (400, 413)
