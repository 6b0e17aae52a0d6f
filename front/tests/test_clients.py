"""What agents and readers send that cannot be run here: bodies, headers and URLs of the form of each, written by hand."""
import gzip
import json

import pytest
import snappy

PUSH, RANGE = "/loki/api/v1/push", "/loki/api/v1/query_range"
SECOND = 10**9
FIRST, LAST = 1700000000 * SECOND, 1700003600 * SECOND
TENANT = {"X-Scope-OrgID": "acme"}
ENTRIES = [[str(FIRST + number * SECOND), f"line {number}"] for number in range(3)]
# Parts of URLs: the time, and `{app="web"}`.
TIMES = f"start={FIRST}&end={LAST}"
WEB = "%7Bapp%3D%22web%22%7D"


def varint(number):
    return bytes([number & 127 | 128]) + varint(number >> 7) if number > 127 else bytes([number])


def member(number, content):
    """A field of a protobuf message: a number, or bytes."""
    if isinstance(content, int):
        return varint(number << 3) + varint(content)
    return varint(number << 3 | 2) + varint(len(content)) + content


def message(*streams):
    """Loki's PushRequest of streams: labels as text, and entries of stamp and line."""
    whole = b""
    for labels, entries in streams:
        stream = member(1, labels.encode())
        for stamp, line in entries:
            time = member(1, stamp // SECOND) + (member(2, stamp % SECOND) if stamp % SECOND else b"")
            stream += member(2, member(1, time) + member(2, line.encode()))
        whole += member(1, stream)
    return snappy.compress(whole)


async def found(client, query):
    words = {"query": query, "start": "0", "end": str(2**63 - 1), "direction": "forward"}
    response = await client.get(RANGE, params=words, headers=TENANT)
    assert response.status == 200, await response.text()
    result = (await response.json())["data"]["result"]
    return [(stream["stream"], *value) for stream in result for value in stream["values"]]


async def sent(client, body, **headers):
    """Status and text of the answer to a body with these headers alone, beside the tenant's."""
    headers = {name.replace("_", "-"): value for name, value in headers.items()}
    response = await client.post(PUSH, data=body, headers=TENANT | headers)
    return response.status, await response.text()


# Labels as Go's strconv.Quote writes them, rising by name.
GO_LABELS = r'{filename="/var/log/a\tb.log", job="varlogs", q="a\"b\\c\u200b\x7f\u00a0ä😀\n\a\v\xff"}'
GO_VALUE = 'a"b\\c\u200b\x7f\u00a0ä😀\n\x07\x0b\ufffd'


@pytest.mark.parametrize("agent", ["promtail/2.9.10", "GrafanaAgent/v0.43.4 (static; linux)", "Alloy/v1.5.1 (linux; deb)"])
def test_promtail_and_alloy(with_front, agent):
    async def work(client, _):
        entries = [(FIRST, "first"), (FIRST + 5, 'second "ä" \\ \x1b[0m'), (FIRST + 5, "")]
        body = message((GO_LABELS, entries), ('{job="other"}', [(FIRST + SECOND, "x")]))
        assert await sent(client, body, User_Agent=agent, Content_Type="application/x-protobuf") == (204, "")
        labels = {"filename": "/var/log/a\tb.log", "job": "varlogs", "q": GO_VALUE}
        assert await found(client, '{job="varlogs"}') == [(labels, str(stamp), line) for stamp, line in entries]
        assert await found(client, '{job="other"}') == [({"job": "other"}, str(FIRST + SECOND), "x")]

    with_front(work)


def test_fluent_bit(with_front):
    # Where labels come of keys, each record is a stream of its own; all but ASCII is escaped.
    stream = r'{"stream":{"job":"fluent-bit","sub_key":"v\u00e4\"\\"},"values":[["%s","%s"]]}'
    first = stream % ("1700000000123456789", r"{\"log\":\"x \\\"q\\\"\\n\",\"stream\":\"stdout\"}")
    second = stream % ("1700000000123456790", r"\ud83d\ude00 \u0001\/")
    body = f'{{"streams":[{first},{second}]}}'.encode()
    packed = gzip.compress(body.replace(b"fluent-bit", b"packed"))
    headers = {"User_Agent": "Fluent-Bit", "Content_Type": "application/json"}

    async def work(client, _):
        assert await sent(client, body, **headers) == (204, "")
        assert await sent(client, packed, **headers, Content_Encoding="gzip") == (204, "")
        for job in ("fluent-bit", "packed"):
            labels = {"job": job, "sub_key": 'vä"\\'}
            line = '{"log":"x \\"q\\"\\n","stream":"stdout"}'
            wanted = [(labels, "1700000000123456789", line), (labels, "1700000000123456790", "😀 \x01/")]
            assert await found(client, f'{{job="{job}"}}') == wanted
        # With structured metadata, which is told.
        status, text = await sent(client, b'{"streams":[{"stream":{"a":"1"},"values":[["5","x",{"trace":"7"}]]}]}', **headers)
        assert status == 400 and text == "stream 0, entry 0: structured metadata is not taken; send it as labels or in the line\n"

    with_front(work)


@pytest.mark.parametrize("compression", ["none", "gzip", "snappy"])
def test_vector(with_front, compression):
    headers = {"User_Agent": "Vector/0.42.0 (x86_64-unknown-linux-gnu 3d16e34 2024-10-21)", "Content_Type": "application/json"}
    body = b'{"streams":[{"stream":{"host":"h","job":"vector"},"values":[["%d","line"]]}]}' % FIRST
    if compression == "gzip":
        body, headers["Content_Encoding"] = gzip.compress(body), "gzip"
    elif compression == "snappy":
        body = message(('{host="h", job="vector"}', [(FIRST, "line")]))
        headers |= {"Content_Type": "application/x-protobuf", "Content_Encoding": "snappy"}

    async def work(client, _):
        assert (await client.get("/ready")).status == 200  # Its healthcheck.
        assert await sent(client, body, **headers) == (204, "")
        assert await found(client, '{job="vector"}') == [({"host": "h", "job": "vector"}, str(FIRST), "line")]

    with_front(work)


KAFKA = "application/vnd.kafka.v1+json"


@pytest.mark.parametrize(
    "kind, body, answer",
    [
        ("application/json; charset=utf-8", b'{"streams":[%s,%s]}', (204, "")),
        ("application/json; charset=utf-8", b"[%s,%s]", (400, "the body has no list `streams`\n")),
        (KAFKA, b'{"records":[{"value":%s},{"value":%s}]}', (415, f"the content type '{KAFKA}' is not understood")),
        ("text/plain", b"%s\n%s", (415, "the content type 'text/plain' is not understood: application/json and")),
    ],
)
def test_omhttp_with_each_format_of_batches(with_front, kind, body, answer):
    parts = tuple(b'{"stream":{"job":"rsyslog"},"values":[["%d","line"]]}' % stamp for stamp in (FIRST, FIRST + 1))

    async def work(client, _):
        status, text = await sent(client, body % parts, Content_Type=kind)
        assert status == answer[0] and text.startswith(answer[1]), text
        assert len(await found(client, '{job="rsyslog"}')) == (2 if status == 204 else 0)

    with_front(work)


async def read(client, url):
    """Status, and data or text, of the answer to a URL as it is written, with the headers of Grafana's data source."""
    headers = {"User-Agent": "Grafana/11.3.0", "X-Query-Tags": "Source=explore"}
    headers |= {"Accept-Encoding": "gzip", "X-Loki-Response-Encoding-Flags": "categorize-labels"}
    response = await client.get(url, headers=TENANT | headers)
    return response.status, (await response.json())["data"] if response.status == 200 else await response.text()


@pytest.fixture
def reads(with_front):
    """Whether URLs are answered so, over a few streams. An answer is data, or a status and what its text begins with."""

    def run(answers):
        async def work(client, _):
            for labels in ({"app": "web", "host": "a"}, {"app": "db", "host": "a"}):
                body = json.dumps({"streams": [{"stream": labels, "values": ENTRIES}]})
                assert await sent(client, body, Content_Type="application/json") == (204, "")
            for url, answer in answers:
                status, data = await read(client, url)
                if isinstance(answer, tuple):
                    assert status == answer[0] and data.startswith(answer[1]), (url, data)
                else:
                    data = [value for stream in data["result"] for value in stream["values"]] if isinstance(data, dict) else data
                    assert (status, data) == (200, answer), url

        with_front(work)

    return run


def test_what_grafana_asks(reads):
    lines = f"end={LAST}&limit=1000&query={WEB}+%7C%3D+%60%60&start={FIRST}&step=2000ms"
    before = f"end={FIRST + SECOND}&limit=50&query={WEB}&start={FIRST}&step=1ms"
    behind = f"end={LAST}&limit=50&query={WEB}&start={FIRST + SECOND}&step=1ms"
    volume = "sum+by+%28level%29+%28count_over_time%28%7Bapp%3D%22web%22%7D+%7C%3D+%60%60%5B2s%5D%29%29"
    reads(
        [
            (f"/loki/api/v1/labels?{TIMES}", ["app", "host"]),
            (f"/loki/api/v1/labels?{TIMES}&query={WEB}", ["app", "host"]),
            (f"/loki/api/v1/labels?{TIMES}&query=%7B%7D", ["app", "host"]),
            (f"/loki/api/v1/label/app/values?{TIMES}", ["db", "web"]),
            (f"/loki/api/v1/label/app/values?{TIMES}&query=%7Bhost%3D%22a%22%7D", ["db", "web"]),
            (f"/loki/api/v1/series?end={LAST}&match%5B%5D={WEB}&start={FIRST}", [{"app": "web", "host": "a"}]),
            (f"/loki/api/v1/query_range?direction=backward&{lines}", ENTRIES[::-1]),
            (f"/loki/api/v1/query_range?direction=forward&{lines}", ENTRIES),
            # The lines around one.
            (f"/loki/api/v1/query_range?direction=backward&{before}", ENTRIES[:1]),
            (f"/loki/api/v1/query_range?direction=forward&{behind}", ENTRIES[1:]),
            (f"/loki/api/v1/query_range?direction=backward&query={volume}&{TIMES}", (400, "parse error at line 1, col 1")),
            (f"/loki/api/v1/index/stats?query={WEB}&{TIMES}", (404, "404")),
            (f"/loki/api/v1/tail?query={WEB}", (404, "404")),
        ]
    )


def test_whether_grafana_finds_the_source_well(with_front):
    async def work(client, _):
        url = "/loki/api/v1/query?direction=backward&query=vector%281%29%2Bvector%281%29&time=4000000000"
        status, data = await read(client, url)
        assert status == 200 and data["resultType"] == "vector" and data["result"][0]["value"][1] == "2"

    with_front(work)


def test_what_logcli_asks(reads):
    times = f"end={LAST}&start={FIRST}"
    both = [{"app": "db", "host": "a"}, {"app": "web", "host": "a"}]
    reads(
        [
            (f"/loki/api/v1/series?match=%7B%7D&{times}", both),
            (f"/loki/api/v1/query_range?direction=BACKWARD&limit=30&query={WEB}&{times}", ENTRIES[::-1]),
            (f"/loki/api/v1/query_range?direction=FORWARD&limit=2&query={WEB}&{times}&step=60.000000", ENTRIES[:2]),
            (f"/loki/api/v1/query_range?direction=FORWARD&interval=5.000000&limit=2&query={WEB}&{times}", (400, "interval:")),
            (f"/loki/api/v1/query?direction=BACKWARD&limit=30&query={WEB}&time={FIRST + 2 * SECOND}", ENTRIES[1::-1]),
            (f"/loki/api/v1/labels?{times}", ["app", "host"]),
            (f"/loki/api/v1/label/host/values?{times}", ["a"]),
            (f"/loki/api/v1/series?match={WEB}&{times}", both[1:]),
        ]
    )


@pytest.mark.parametrize(
    "start, end",
    [
        (str(FIRST), str(FIRST + SECOND)),
        ("1700000000", "1700000001"),
        ("1700000000.0", "1700000000.5"),
        ("2023-11-14T22:13:20Z", "2023-11-14T22:13:20.000000001Z"),
        ("2023-11-15T00:13:20%2B02:00", "2023-11-15T00:13:21%2B02:00"),
        ("1.7e9", "1700000000.000000001"),
    ],
)
def test_times_as_readers_write_them(reads, start, end):
    reads([(f"/loki/api/v1/query_range?query={WEB}&start={start}&end={end}", ENTRIES[:1])])
