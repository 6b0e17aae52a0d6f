"""Requests and answers of a front over the stand-in."""
import asyncio
import gzip
import json

import pytest
import snappy

from sarymbeu_front import pages, push_pb2, resent
from sarymbeu_front.faults import refused

PUSH, RANGE = "/loki/api/v1/push", "/loki/api/v1/query_range"
JSON = {"Content-Type": "application/json"}
WEB, DB, ODD = {"app": "web", "host": "a"}, {"app": "db"}, {"app": 'o"d\\d\n'}


def body_of(labels, *values):
    return {"streams": [{"stream": labels, "values": [list(value) for value in values]}]}


def of_tenant(tenant):
    return {"X-Scope-OrgID": tenant}


async def push(client, labels, *values, tenant="t"):
    response = await client.post(PUSH, json=body_of(labels, *values), headers=of_tenant(tenant))
    return response.status, await response.text()


async def found(client, query, tenant="t", **words):
    words = {"start": "0", "end": "9223372036854775807", "direction": "forward", "query": query} | words
    response = await client.get(RANGE, params=words, headers=of_tenant(tenant))
    assert response.status == 200, await response.text()
    answer = await response.json()
    assert answer["status"] == "success" and answer["data"]["resultType"] == "streams"
    return [(stream["stream"], *value) for stream in answer["data"]["result"] for value in stream["values"]]


async def refusal(client, path, tenant="t", **words):
    response = await client.get(path, params=words, headers=of_tenant(tenant))
    return response.status, await response.text()


async def told(client, path, *words, tenant="t"):
    """The data of an answer of labels or series; each word is a name and a value."""
    response = await client.get(f"/loki/api/v1/{path}", params=words, headers=of_tenant(tenant))
    assert response.status == 200, await response.text()
    answer = await response.json()
    assert answer["status"] == "success"
    return answer["data"]


async def counts(client):
    page = await (await client.get("/metrics")).text()
    return {key: float(value) for key, _, value in (line.rpartition(" ") for line in page.splitlines() if line[0] != "#")}


def sums_up(numbers):
    refused = sum(value for name, value in numbers.items() if name.startswith("front_lines_refused_total"))
    ended = sum(numbers[f"front_lines_{name}_total"] for name in ("accepted", "duplicate", "already_there"))
    return numbers["front_lines_received_total"] == ended + refused


def test_a_push_is_found(with_front):
    async def work(client, _):
        assert await push(client, {"app": "web", "none": ""}, ("1", "a"), ("2", 'b "ä"\n')) == (204, "")
        labels = {"app": "web"}
        assert await found(client, '{app="web"}') == [(labels, "1", "a"), (labels, "2", 'b "ä"\n')]
        assert await found(client, '{app="web"}', direction="BACKWARD", limit="1") == [(labels, "2", 'b "ä"\n')]
        assert await found(client, '{app="web"}', start="0.000000001", end="0.000000002") == [(labels, "1", "a")]
        assert await found(client, '{app="web"} |= "b"') == [(labels, "2", 'b "ä"\n')]
        assert await found(client, '{app="web"} != "b"') == [(labels, "1", "a")]
        assert await found(client, '{app="web"}', tenant="other") == []

    with_front(work)


def test_each_kind_of_body_is_taken(with_front):
    async def work(client, _):
        text = json.dumps(body_of({"a": "1"}, ("1", "json"))).encode()
        packed = gzip.compress(json.dumps(body_of({"a": "1"}, ("2", "gzip"))).encode())
        request = push_pb2.PushRequest()
        stream = request.streams.add(labels=b'{a="1"}')
        stream.entries.add(timestamp=push_pb2.Timestamp(nanos=3), line=b"protobuf")
        message = snappy.compress(request.SerializeToString())
        for body, headers in (
            (text, JSON | {"Content-Type": "application/json; charset=utf-8"}),
            (packed, JSON | {"Content-Encoding": "gzip"}),
            (message, {"Content-Type": "application/x-protobuf"}),
        ):
            assert (await client.post(PUSH, data=body, headers=headers)).status == 204
        lines = [line for _, _, line in await found(client, '{a="1"}', tenant="fake")]
        assert lines == ["json", "gzip", "protobuf"]

    with_front(work)


def test_refusals_are_told_in_lokis_manner(with_front):
    async def work(client, _):
        eight, nine = str(8 * 3600 * 10**9), str(9 * 3600 * 10**9)
        status, text = await push(client, {"a": "1"}, (eight, "x"), ("1", "y"), (nine, "z" * 1001))
        assert status == 400
        assert text.startswith("entry too far behind, entry timestamp is: 1970-01-01T00:00:00.000000001Z, oldest")
        assert 'stream: {a="1"}, entry 1\ntotal ignored: 2 out of 3\n' in text
        status, text = await push(client, {"a": "1"}, (nine, "z" * 1001))
        assert status == 400 and "Max entry size '1000' bytes exceeded for stream '{a=\"1\"}'" in text and "length '1001'" in text
        status, text = await push(client, {"ok": "1", "x-y": "2"}, ("1", "x"))
        assert status == 400 and "the label name 'x-y'" in text
        assert (await push(client, {"a": ""}, ("1", "x")))[0] == 400
        response = await client.post(PUSH, json={}, headers=of_tenant("a b"))
        assert response.status == 400 and "X-Scope-OrgID" in await response.text()
        numbers = await counts(client)
        assert numbers['front_lines_refused_total{reason="too_far_behind"}'] == 1
        assert numbers['front_lines_refused_total{reason="line_too_long"}'] == 2
        assert sums_up(numbers)

    with_front(work)


def test_a_stream_too_many_is_tried_again_alone(with_front):
    async def work(client, front):
        for name in ("1", "2"):
            await push(client, {"a": name}, ("1", "x"))
        body = {"streams": [{"stream": {"a": name}, "values": [["5", "y"]]} for name in ("1", "3", "4")]}
        response = await client.post(PUSH, json=body, headers=of_tenant("t"))
        assert response.status == 429 and "Maximum active stream limit exceeded" in await response.text()
        # The same again: what was accepted is not pushed a second time, behind another entry of its stream.
        await push(client, {"a": "1"}, ("6", "z"))
        assert (await client.post(PUSH, json=body, headers=of_tenant("t"))).status == 429
        assert [line for _, _, line in await found(client, '{a="1"}')] == ["x", "y", "z"]
        assert sums_up(await counts(client))

    with_front(work)


def test_a_body_sent_again_is_answered_and_not_pushed(with_front):
    async def work(client, _):
        values = (("1", "a"), ("2", "b"), ("3", "c"))
        for _ in range(3):
            assert await push(client, {"a": "1"}, *values) == (204, "")
        answers = await asyncio.gather(*(push(client, {"b": "1"}, *values) for _ in range(5)))
        assert answers == [(204, "")] * 5
        assert len(await found(client, '{a="1"}')) == 3 and len(await found(client, '{b="1"}')) == 3
        numbers = await counts(client)
        assert numbers["front_answers_remembered_total"] == 6 and numbers["front_lines_accepted_total"] == 6

    with_front(work)


def test_a_duplicate_is_an_accept_and_a_torn_log_is_counted(with_front):
    async def work(client, _):
        assert await push(client, {"a": "1"}, ("1", "a"), ("1", "a")) == (204, "")
        assert await push(client, {"a": "1"}, ("1", "a"), tenant="torn") == (204, "")
        numbers = await counts(client)
        assert numbers["front_lines_duplicate_total"] == 1 and numbers["front_lines_not_durable_total"] == 1

    with_front(work)


def test_many_entries_of_a_stream_go_in_parts(with_front):
    async def work(client, _):
        values = [(str(number), f"line {number}") for number in range(5)]
        assert await push(client, {"a": "1"}, *values, tenant="small") == (204, "")
        assert [line for _, _, line in await found(client, '{a="1"}', tenant="small")] == [line for _, line in values]

    with_front(work)


@pytest.mark.parametrize("direction", ["forward", "backward"])
def test_pages_go_on_within_a_stamp(with_front, monkeypatch, direction):
    monkeypatch.setattr(pages, "FIRST_PAGE", 2)
    monkeypatch.setattr(pages, "MOST", 3)

    async def work(client, _):
        whole = [({"a": "1", "b": name}, "5", f"{'xy'[number % 2]} {number}") for name in "12" for number in range(10)]
        for at in (0, 10):
            assert await push(client, whole[at][0], *(entry[1:] for entry in whole[at : at + 10])) == (204, "")
        whole = whole if direction == "forward" else whole[::-1]
        for text, limit in (("", 100), ("", 7), ("", 1), ("x", 100), ("x", 6), ("y 9", 1), ("z", 1)):
            wanted = [entry for entry in whole if text in entry[2]][:limit]
            query = '{a="1"}' + (f' |= "{text}"' if text else "")
            assert await found(client, query, direction=direction, limit=str(limit)) == wanted, (text, limit)

    with_front(work)


def test_wrong_queries_have_their_place(with_front):
    async def work(client, _):
        assert await refusal(client, RANGE) == (400, "query: is missing\n")
        for words, start in (
            ({"query": '{a=~"x"}'}, "parse error at line 1, col 3: =~ is not understood"),
            ({"query": 'rate({a="x"}[5m])'}, "parse error at line 1, col 1:"),
            ({"query": '{a="x"}', "limit": "5001"}, "max entries limit per query exceeded"),
            ({"query": '{a="x"}', "limit": "0"}, "limit:"),
            ({"query": '{a="x"}', "start": "2", "end": "1"}, "invalid query, through < from"),
            ({"query": '{a="x"}', "start": "soon"}, "start:"),
            ({"query": '{a="x"}', "since": "soon"}, "since:"),
            ({"query": '{a="x"}', "direction": "up"}, "direction:"),
            ({"query": '{a="x"}', "interval": "5s"}, "interval:"),
        ):
            status, text = await refusal(client, RANGE, **words)
            assert status == 400 and text.startswith(start), (words, text)
        assert (await refusal(client, "/loki/api/v1/nothing"))[0] == 404

    with_front(work)


def test_instant_queries_and_the_question_of_grafana(with_front):
    async def work(client, _):
        await push(client, {"a": "1"}, (str(10**9), "early"), (str(50 * 10**9), "late"))
        response = await client.get("/loki/api/v1/query", params={"query": '{a="1"}', "time": "60"}, headers=of_tenant("t"))
        assert (await response.json())["data"]["result"] == [{"stream": {"a": "1"}, "values": [[str(50 * 10**9), "late"]]}]
        response = await client.get("/loki/api/v1/query", params={"query": "vector(1)+vector(1)", "time": "4"})
        assert (await response.json())["data"]["result"] == [{"metric": {}, "value": [4.0, "2"]}]

    with_front(work)


def test_labels_and_series(with_front):
    async def work(client, _):
        for labels in (WEB, ODD, DB):
            assert await push(client, labels | {"none": ""}, ("1", "x")) == (204, "")
        assert await push(client, {"app": "api", "zone": "z"}, ("1", "x"), tenant="u") == (204, "")
        for path, words, data in (
            ("labels", [], ["app", "host"]),
            ("label", [], ["app", "host"]),
            ("labels", [("query", "")], ["app", "host"]),
            ("labels", [("query", " { } ")], ["app", "host"]),
            ("labels", [("query", '{app="db"}')], ["app"]),
            ("label/app/values", [], ["db", 'o"d\\d\n', "web"]),
            ("label/app/values", [("query", '{host="a"}')], ["web"]),
            ("label/app/values", [("query", '{host="a", app!="web"}')], []),
            ("label/none/values", [], []),
            ("label/n%22%0A/values", [], []),
            ("series", [], [DB, ODD, WEB]),
            ("series", [("match[]", "{}")], [DB, ODD, WEB]),
            ("series", [("match[]", '{app="db"}'), ("start", "5"), ("end", "6")], [DB]),
            ("series", [("match[]", '{host=`a`, app!="db"}')], [WEB]),
            ("series", [("match[]", '{app="o\\"d\\\\d\\x0a"}')], [ODD]),
            ("series", [("match[]", '{app="web"}'), ("match", '{app="db"}'), ("match[]", '{host="a"}')], [DB, WEB]),
            ("series", [("match[]", '{app="web"}'), ("match[]", '{app="none"}'), ("match[]", "{}")], [DB, ODD, WEB]),
        ):
            assert await told(client, path, *words) == data, (path, words)
        assert await told(client, "series", tenant="u") == [{"app": "api", "zone": "z"}]
        assert await told(client, "label/zone/values", tenant="u") == ["z"]
        assert await told(client, "labels", tenant="fake") == await told(client, "series", tenant="fake") == []

    with_front(work)


WHERE_SELECTORS_STAND = [("labels", "query"), ("label/app/values", "query"), ("series", "match[]"), ("series", "match")]


@pytest.mark.parametrize("path, word", WHERE_SELECTORS_STAND)
def test_wrong_selectors_have_their_place(with_front, path, word):
    async def work(client, _):
        await push(client, WEB, ("1", "x"))
        for text, start in (
            ('{app="web", host=~"b"}', "parse error at line 1, col 17: =~ is not understood"),
            ('{app="web", host!~"a"}', "parse error at line 1, col 17: !~ is not understood"),
            ('{app!="db"}', "parse error at line 1, col 1: a selector needs at least one matcher"),
            ('{app="web"', "parse error at line 1, col 11:"),
            ('{app="web"} |= "x"', "only a selector is wanted, without line filters"),
        ):
            status, answer = await refusal(client, f"/loki/api/v1/{path}", **{word: text})
            assert status == 400 and answer.startswith(start), (text, answer)
        for words in ([("match[]", "{}"), ("match[]", "")], [("match", '{app="web"}'), ("match[]", "web")]):
            assert (await client.get("/loki/api/v1/series", params=words, headers=of_tenant("t"))).status == 400

    with_front(work)


def test_what_the_program_refuses_is_no_empty_answer(with_front):
    async def work(client, _):
        for path, words in (
            ("labels", {}),
            ("label/app/values", {}),
            ("series", {}),
            ("series", {"match[]": '{app="web"}'}),
            ("query_range", {"query": '{app="web"}'}),
        ):
            status, text = await refusal(client, f"/loki/api/v1/{path}", tenant="lost", **words)
            assert status == 500 and text.startswith("the program refuses the query") and "Misplaced" in text, (path, text)

    with_front(work)


@pytest.mark.parametrize("status, numbers", [(400, (8, 9, 30, 31, 33, 34)), (500, (26, 27, 43))])
def test_whose_fault_a_refusal_is(status, numbers):
    assert {refused("query", {"error": "Name", "number": number}).status for number in numbers} == {status}


def test_the_other_routes(with_front):
    async def work(client, _):
        for path, text in (("/ready", "ready\n"), ("/services", "ingestd => Running\n"), ("/config", "listen_port: 3100\n")):
            response = await client.get(path)
            assert response.status == 200 and text in await response.text()
        response = await client.post("/flush")
        assert response.status == 200 and (await response.json())["flush"]["failed"] == 0
        numbers = await counts(client)
        assert numbers['ingestd_entries_kept{shard="0"}'] == 0 and numbers["ingestd_process_resident_memory_bytes"] > 0
        assert numbers['front_reply_seconds_count{command="flush"}'] == 1

    with_front(work)


def test_before_the_first_answer_nothing_is_ready(with_front, monkeypatch):
    monkeypatch.setenv("FRONT_STAND_IN", "mute")

    async def work(client, front):
        response = await client.get("/ready")
        assert response.status == 503 and response.headers["Retry-After"] == "1"
        assert (await push(client, {"a": "1"}, ("1", "x")))[0] == 503
        assert (await client.get("/metrics")).status == 200
        front.child.process.kill()

    with_front(work, wait=False)


def test_the_end_of_the_program_is_503(with_front, monkeypatch):
    monkeypatch.setenv("FRONT_STAND_IN", "dies")

    async def work(client, front):
        answers = await asyncio.gather(*(push(client, {"a": str(number)}, ("1", "x")) for number in range(3)))
        assert [status for status, _ in answers] == [503] * 3
        assert (await client.get("/ready")).status == 503
        assert await front.child.end() == 3

    with_front(work)


def test_a_client_that_goes_away_ends_nothing(with_front, monkeypatch):
    monkeypatch.setenv("FRONT_STAND_IN", "sleepy")

    async def work(client, front):
        with pytest.raises(TimeoutError):
            async with asyncio.timeout(0.1):
                await push(client, {"a": "1"}, ("1", "x"), ("2", "y"), ("1", "x"))
        assert await push(client, {"a": "1"}, ("1", "x"), ("2", "y"), ("1", "x")) == (204, "")
        assert len(await found(client, '{a="1"}')) == 3
        assert front.pushes.waiting.bytes == 0

    with_front(work)


def test_a_query_that_takes_too_long_is_504(with_front, monkeypatch):
    monkeypatch.setenv("FRONT_STAND_IN", "sleepy")

    async def work(client, _):
        assert (await refusal(client, RANGE, query='{a="1"}'))[0] == 504
        for path in ("labels", "label/a/values", "series"):
            assert (await refusal(client, f"/loki/api/v1/{path}"))[0] == 504
        assert (await client.get("/ready")).status == 200

    with_front(work, "--querier.query-timeout", "50ms")


def test_labels_and_series_take_turns_with_queries(with_front, monkeypatch):
    monkeypatch.setenv("FRONT_STAND_IN", "sleepy")

    async def work(client, front):
        asked = [asyncio.create_task(told(client, path)) for path in ("labels", "label/a/values", "series")]
        asked.append(asyncio.create_task(found(client, '{a="1"}')))
        most = 0
        while not all(task.done() for task in asked):
            most = max(most, front.child.channels[0].waiting)
            await asyncio.sleep(0.002)
        assert most == 2 and [task.result() for task in asked] == [[]] * 4

    with_front(work, "--querier.max-concurrent", "2")


@pytest.mark.parametrize("mode, failed", [("", False), ("fails", True)])
def test_the_clock_sweeps_flushes_and_checkpoints(with_front, monkeypatch, mode, failed):
    monkeypatch.setenv("FRONT_STAND_IN", mode)

    async def work(client, _):
        await asyncio.sleep(0.2)
        numbers = await counts(client)
        asked = [numbers[f'front_reply_seconds_count{{command="{command}"}}'] for command in ("sweep", "flush", "checkpoint")]
        assert min(asked) > 0
        assert (numbers["front_flushes_failed_total"] > 0) == (numbers["front_checkpoints_failed_total"] > 0) == failed
        assert (await client.post("/flush")).status == (500 if failed else 200)

    with_front(work, "--ingester.flush-check-period", "20ms", "--ingester.checkpoint-duration", "40ms")


def test_pushes_that_wait_are_bounded(with_front):
    async def work(client, front):
        assert (await push(client, {"a": "1"}, ("1", "x" * 900)))[0] == 204
        status, text = await push(client, {"a": "1"}, *((str(number), "x" * 900) for number in range(2, 9)))
        assert status == 503 and "too many pushes wait" in text
        assert front.pushes.waiting.bytes == 0

    with_front(work, "--max-waiting-bytes", "5000")


def test_a_body_past_16_mebibytes_is_413(with_front):
    async def work(client, _):
        async def pieces():
            for _ in range(17):
                yield b" " * (1 << 20)

        for data in (b" " * ((1 << 24) + 1), pieces(), gzip.compress(b" " * ((1 << 24) + 1), 1)):
            headers = JSON | ({"Content-Encoding": "gzip"} if isinstance(data, bytes) and data[:1] != b" " else {})
            assert (await client.post(PUSH, data=data, headers=headers)).status == 413

    with_front(work)


def test_what_was_pushed_before_a_start_is_not_pushed_again(with_front, monkeypatch):
    monkeypatch.setenv("FRONT_STAND_IN", "keeps")

    async def before(client, _):
        await push(client, {"a": "1"}, ("1", "a"), ("2", "b"), ("2", "c"))
        await push(client, {"a": "1", "b": "2"}, ("9", "other stream"))

    async def after(client, _):
        # In other parts than before, and with an entry that is new.
        assert await push(client, {"a": "1"}, ("2", "c"), ("2", "new"), ("3", "d")) == (204, "")
        assert await push(client, {"a": "1"}, ("1", "a"), ("4", "e")) == (204, "")
        assert await push(client, {"c": "1"}, ("1", "x")) == (204, "")
        lines = [line for labels, _, line in await found(client, '{a="1", b=""}')]
        assert sorted(lines) == ["a", "b", "c", "d", "e", "new"]
        numbers = await counts(client)
        assert numbers["front_lines_already_there_total"] == 2 and sums_up(numbers)

    with_front(before)
    with_front(after)


def test_labels_and_series_are_told_of_what_was_there_before_a_start(with_front, monkeypatch):
    monkeypatch.setenv("FRONT_STAND_IN", "keeps")

    async def before(client, _):
        await push(client, WEB, ("1", "x"))

    async def after(client, _):
        assert await told(client, "labels") == ["app", "host"] and await told(client, "label/app/values") == ["web"]
        await push(client, DB, ("1", "x"))
        assert await told(client, "series") == [DB, WEB]

    with_front(before)
    with_front(after)


@pytest.mark.parametrize("most, asked", [(1, 10), (2, 8)])
def test_a_stamp_that_was_let_go_is_asked_for_again(with_front, monkeypatch, most, asked):
    monkeypatch.setenv("FRONT_STAND_IN", "keeps")
    monkeypatch.setattr(resent, "MOST_STREAMS", most)

    async def before(client, _):
        for name in "abc":
            await push(client, {name: "1"}, ("1", "x"))

    async def after(client, _):
        for stamp, name in enumerate("abaca", 2):
            assert await push(client, {name: "1"}, ("1", "x"), (str(stamp), "new")) == (204, "")
        numbers = await counts(client)
        assert numbers["front_lines_already_there_total"] == 5 and sums_up(numbers)
        # Each time for the entry that stands, and for the stamp as often as it is not kept: of two, those that came last.
        assert numbers['front_reply_seconds_count{command="query"}'] == asked

    with_front(before)
    with_front(after)
