"""The front over the program itself."""
import concurrent.futures
import json
import os
import pathlib
import signal
import subprocess
import sys
import time

import pytest

BENCH = pathlib.Path(__file__).resolve().parent.parent / "bench"
HOUR = 3600 * 10**9


@pytest.mark.parametrize("channels", ["1", "4"])
def test_a_push_is_found_flushed_and_found_again(front, channels):
    client = front("shards = 4\nflushers = 2\n", "--channels", channels)
    lines = [(number * 1000, f'line {number} "ä😀"\n\t\\') for number in range(1, 2001)]
    assert client.push({"app": "web", "none": ""}, *lines) == (204, "")
    assert client.found('{app="web"}') == lines
    assert json.loads(client.ask("/flush", b"")[1])["flush"]["stored"] == 1
    assert client.found('{app="web"}') == lines
    assert client.found('{app="web"}', direction="backward", limit="3") == lines[:-4:-1]
    wanted = [one for one in lines if "line 19" in one[1] and "9 " not in one[1]]
    assert client.found('{app="web"} |= "line 19" != "9 "') == wanted
    assert client.data("/loki/api/v1/labels") == ["app"] and client.data("/loki/api/v1/label/app/values") == ["web"]
    assert client.data("/loki/api/v1/series", **{"match[]": '{app="web"}'}) == [{"app": "web"}]
    numbers = client.counts()
    assert numbers["front_lines_accepted_total"] == 2000 and numbers["front_lines_not_durable_total"] == 0
    assert sum(value for name, value in numbers.items() if name.startswith("ingestd_entries_stored_total")) == 2000


@pytest.mark.parametrize(
    "labels, text",
    [
        ({"a": "", "b-c": "1", "d": "2"}, "the label name 'b-c', which is not"),
        ({"a": "1", "9": "1"}, "the label name '9', which is not"),
        ({"a": ""}, "error at least one label pair is required"),
        ({f"l{number}": "1" for number in range(16)}, "has 16 label names; limit 15"),
        ({"a": "1", "n" * 1025: "1"}, f"has label name too long: '{'n' * 1025}'; limit 1024 bytes"),
        ({"a": "1", "b": "ä" * 1025}, "has label value too long: 'b' has 2050 bytes; limit 2048"),
    ],
)
def test_a_stream_that_is_refused_has_its_label_and_limit(front, labels, text):
    client = front()
    status, answer = client.push(labels, (5, "x"))
    assert status == 400 and text in answer and "total ignored: 1 out of 1" in answer, answer


def test_an_entry_that_is_refused_has_its_limit(front):
    client = front("max_streams_per_tenant = 1\n[tenants.t]\nmax_line_size = 5\n")
    status, answer = client.push({"a": "1"}, (8 * HOUR, "first"), (6 * HOUR, "late"), (8 * HOUR, "longer"), (8 * HOUR, "äää"))
    assert status == 400 and "oldest acceptable timestamp is: 1970-01-01T07:00:00Z" in answer and "ignored: 3 out of 4" in answer
    status, answer = client.push({"a": "1"}, (8 * HOUR, "longer"))
    assert status == 400 and "Max entry size '5' bytes exceeded for stream '{a=\"1\"}'" in answer and "length '6' bytes" in answer
    status, answer = client.push({"a": "2"}, (8 * HOUR, "other"))
    assert status == 429 and "Maximum active stream limit exceeded when trying to create stream {a=\"2\"}" in answer
    # Once the other stream is stored, there is room, and the same request succeeds.
    client.ask("/flush", b"")
    assert client.push({"a": "2"}, (8 * HOUR, "other")) == (204, "")
    assert client.found('{a="2"}') == [(8 * HOUR, "other")]


def test_many_entries_of_one_stream_are_one_push(front):
    client = front("max_entries_per_push = 1000\n")
    lines = [(number, f"line {number}") for number in range(2500)]
    assert client.push({"a": "1"}, *lines) == (204, "")
    assert client.found('{a="1"}') == lines


def test_a_stream_may_stand_several_times_in_a_body(front):
    client = front()
    parts = [{"stream": {"job": "fluent-bit"}, "values": [[str(number), f"line {number}"]]} for number in range(50)]
    assert client.ask("/loki/api/v1/push", json.dumps({"streams": parts}).encode()) == (204, "")
    assert client.found('{job="fluent-bit"}') == [(number, f"line {number}") for number in range(50)]


def test_filters_look_through_all_pages(front):
    client = front()
    lines = [(number // 7, f"line {number}") for number in range(20000)]
    for first in range(0, 20000, 5000):
        assert client.push({"a": "1"}, *lines[first : first + 5000]) == (204, "")
    assert client.found('{a="1"} |= "999"') == [one for one in lines if "999" in one[1]]
    assert client.found('{a="1"} |= "999"', direction="backward") == [one for one in lines if "999" in one[1]][::-1]


@pytest.mark.parametrize("channels", ["1", "3"])
def test_more_of_one_stamp_than_an_answer_holds_come_in_pages(front, channels):
    client = front("shards = 2\n", "--channels", channels)
    lines = {name: [(5, f"{name} line {number}") for number in range(6000)] for name in "12"}
    for first in (0, 3000):
        for name in "12":
            assert client.push({"a": "1", "b": name}, *lines[name][first : first + 3000]) == (204, "")
        # The first halves are stored, the others in memory.
        assert first or json.loads(client.ask("/flush", b"")[1])["flush"]["stored"] == 2
    whole = lines["1"] + lines["2"]
    wanted = [one for one in whole if "99" in one[1]]
    assert client.found('{a="1"} |= "99"') == wanted and client.found('{a="1"} |= "none"') == []
    assert client.found('{a="1"} |= "99"', direction="backward") == wanted[::-1]
    assert client.found('{a="1"}') == whole[:5000] and client.found('{a="1"}', direction="backward") == whole[:-5001:-1]
    # Behind a start they are looked through for what is sent again.
    client.run.kill()
    client.run.start()
    assert client.push({"a": "1", "b": "2"}, (5, "2 line 0"), (5, "2 line 5999"), (5, "new")) == (204, "")
    assert client.counts()["front_lines_already_there_total"] == 2
    assert client.found('{a="1"} != "line"') == [(5, "new")]


def test_wrong_queries_are_refused(front):
    client = front()
    for query in ('{a=~"x"}', "{}", '{a!="x"}', '{a="x"} | json', 'rate({a="x"}[1m])'):
        status, answer = client.ask("/loki/api/v1/query_range", query=query)
        assert status == 400 and answer.startswith("parse error at line 1, col "), answer
    # A selector that the front reads is read by the program, whatever stands in its texts.
    assert client.found('{ a = "x\\ty\\x41\\u00e4" , b!=`\\`}  |= "" != `y`') == []


@pytest.mark.parametrize("channels", ["1", "3"])
def test_an_end_in_order_and_a_start_after_it(front, channels):
    client = front("shards = 2\n", "--ingester.flush-on-shutdown", "--channels", channels)
    assert client.push({"a": "1"}, (1, "x"), (2, "y"), (2, "x")) == (204, "")
    assert client.run.end() == 0
    report = json.loads(client.run.log().partition(" report: ")[2].partition(", status 0")[0])["report"]
    assert sum(shard["accepted"] for shard in report) == sum(shard["stored"] for shard in report) == 3
    client.run.start()
    # What stands is not stored again, what is new is.
    assert client.push({"a": "1"}, (2, "x"), (2, "y"), (3, "z")) == (204, "")
    assert client.found('{a="1"}') == [(1, "x"), (2, "y"), (2, "x"), (3, "z")]
    assert client.counts()["front_lines_already_there_total"] == 2
    assert client.run.end() == 0


@pytest.mark.parametrize("channels", ["1", "3"])
def test_labels_and_series_are_of_all_streams_also_after_a_start(front, channels):
    client = front("shards = 4\n", "--channels", channels)
    hosts = ['\\"\n', *(f"host-{number:02}" for number in range(20)), "ä"]
    series = [{"app": "web", "host": host} for host in hosts]
    for labels in series[::2]:
        assert client.push(labels | {"none": ""}, (5, "x")) == (204, "")
    client.ask("/flush", b"")
    for labels in series[1::2]:
        assert client.push(labels, (5, "x")) == (204, "")
    other = type(client)(client.run, "other")
    assert other.push({"job": "api"}, (5, "x")) == (204, "")

    def look():
        assert client.data("/loki/api/v1/labels") == ["app", "host"] and client.data("/loki/api/v1/label/host/values") == hosts
        assert client.data("/loki/api/v1/label/host/values", query='{app="web", host!="ä"}') == hosts[:-1]
        assert client.data("/loki/api/v1/labels", query='{ app = "x\\ty\\u00e4" , b!=`\\`}') == []
        assert client.data("/loki/api/v1/label/job/values") == [] and client.data("/loki/api/v1/series") == series
        two = ['{host="host-03"}', '{app="web", host="ä"}', '{host="ä"}']
        assert client.data("/loki/api/v1/series", **{"match[]": two}) == [series[4], series[-1]]
        assert other.data("/loki/api/v1/series") == [{"job": "api"}]

    look()
    client.run.kill()
    client.run.start()
    look()


@pytest.mark.parametrize("channels", ["1", "3"])
def test_the_end_of_the_program_ends_the_front(front, channels):
    client = front("", "--channels", channels)
    child = client.run.child()
    os.kill(child, signal.SIGKILL)
    assert client.run.process.wait(10) == 137 and "the program has ended by itself" in client.run.log()


def test_a_front_that_is_killed_leaves_the_folder_to_its_program(front):
    client = front()
    assert client.push({"a": "1"}, (1, "x")) == (204, "")
    child = client.run.child()
    os.kill(child, signal.SIGSTOP)
    client.run.kill(child=False)
    words = [*client.run.words[:3], "--server.http-listen-port", "1", *client.run.words[5:]]
    second = subprocess.Popen(words, stderr=subprocess.PIPE)
    time.sleep(0.5)
    assert second.poll() is None, "it did not wait"
    second.kill()
    second.communicate()
    os.kill(child, signal.SIGCONT)
    client.run.start()
    assert client.found('{a="1"}') == [(1, "x")]


def test_a_program_that_stands_still_makes_pushes_wait_and_then_503(front):
    client = front("", "--max-waiting-bytes", "20000000")
    child = client.run.child()
    os.kill(child, signal.SIGSTOP)
    try:
        with concurrent.futures.ThreadPoolExecutor(40) as pool:
            work = [pool.submit(client.push, {"a": str(number)}, (5, "x" * 1000), (6, "y" * 250000)) for number in range(40)]
            # Nothing is answered but what there was no room for.
            done, waiting = concurrent.futures.wait(work, timeout=5)
            assert waiting and done and all(one.result()[0] == 503 for one in done)
            os.kill(child, signal.SIGCONT)
            statuses = [one.result(20)[0] for one in work]
    finally:
        os.kill(child, signal.SIGCONT)
    assert statuses.count(204) == len(waiting) and statuses.count(503) == len(done)
    for number, status in enumerate(statuses):
        assert len(client.found(f'{{a="{number}"}}')) == (2 if status == 204 else 0)
    assert client.counts()["front_waiting_bytes"] == 0


@pytest.mark.parametrize("channels", ["1", "3"])
def test_a_folder_that_cannot_be_opened_ends_the_front(front, channels):
    client = front("shards = 2\n", "--channels", channels)
    assert client.run.end() == 0
    (client.run.place / "settings.toml").write_text("shards = 3\n")
    with pytest.raises(RuntimeError, match="ended with 2"):
        client.run.start()


def test_logs_that_have_grown_are_checkpointed(front):
    client = front("", "--checkpoint-log-bytes", "100000", "--ingester.flush-check-period", "100ms")
    log = client.run.place / "folder" / "wal-0"

    def push(first):
        client.push({"a": str(first)}, *((number, "x" * 100) for number in range(first, first + 1000)))

    for first in range(0, 3000, 1000):
        push(first)
    client.ask("/flush", b"")
    assert log.stat().st_size > 300000
    # Whenever the last checkpoint was, this calls for one, in which the entries above are listed as stored.
    push(3000)
    until = time.monotonic() + 10
    while log.stat().st_size > 200000 and time.monotonic() < until:
        time.sleep(0.05)
    assert log.stat().st_size < 200000
    assert len(client.found('{a="0"}')) == 1000


@pytest.mark.parametrize("in_flight, channels", [("1", "1"), ("4", "1"), ("4", "4")])
def test_kills_lose_and_double_nothing(tmp_path, in_flight, channels):
    words = [BENCH / "agents.py", os.environ["FRONT"], os.environ["PROGRAM"], "--lines", "20000", "--kills", "3"]
    words += ["--in-flight", in_flight, "--channels", channels, "--parent", tmp_path]
    run = subprocess.run([sys.executable, *words], capture_output=True, text=True)
    assert run.returncode == 0, run.stdout + run.stderr
