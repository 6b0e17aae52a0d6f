"""A front over the stand-in with several channels."""
import asyncio
import json
import os
import pathlib
import signal
import socket
import stat
import subprocess
import sys
import tempfile
import time

import pytest

from sarymbeu_front import child
from sarymbeu_front.bodies import Stream
from sarymbeu_front.resent import Resent
from sarymbeu_front.server import serve
from sarymbeu_front.settings import read_settings
from test_requests import PUSH, RANGE, body_of, counts, found, of_tenant, push, sums_up, told

HERE = pathlib.Path(__file__).resolve().parent
FOUR = ("--channels", "4")
LABELS = [{"a": str(number)} for number in range(3)]


def home(front, labels, tenant="t"):
    return front.child.home_of(tenant, labels)


def apart(front, count=3):
    """Labels of streams with homes that are all different, by their homes."""
    labels = ({"a": str(number)} for number in range(100))
    return [one for _, one in sorted({home(front, one): one for one in labels}.items())][:count]


async def answers_to(client):
    """Status and text of each of many requests, among them refusals and bodies of several streams."""
    lines = [["1", "x"], ["2", "y"], ["1", "x"]]
    bodies = [{"streams": [{"stream": labels, "values": lines} for labels in LABELS]}, body_of({"a": "0"}, ("3", "z"))]
    bodies += [{"streams": [{"stream": labels, "values": [["4", "w" * 1001]]} for labels in [{"9": "x"}, *LABELS, {"a": ""}]]}]
    mixed = [("0", "p"), ("1", "w" * 1002), ("0", "q"), ("2", "w" * 1003), ("1", "r"), ("0", "s")]
    bodies += [{"streams": [{"stream": {"a": name}, "values": [["5", line]]} for name, line in mixed]}, bodies[0], {}]
    found = []
    for tenant in ("t", "small", "torn"):
        for body in bodies:
            response = await client.post(PUSH, json=body, headers=of_tenant(tenant))
            found.append((response.status, await response.text()))
        words = {"start": "0", "end": "100"}
        paths = [f'{RANGE}?query={{a="{number}"}}' for number in range(3)] + [RANGE]
        for path in paths + [f"/loki/api/v1/{name}" for name in ("labels", "label/a/values", "series")]:
            response = await client.get(path, params=words, headers=of_tenant(tenant))
            text = await response.text()
            found.append((response.status, json.loads(text)["data"] if response.status == 200 else text))
            if "result" in found[-1][1]:
                del found[-1][1]["stats"]
    assert {status for status, _ in found} == {200, 204, 400}
    numbers = await counts(client)
    # Members with `_created` are times.
    kept = [name for name in numbers if name.startswith(("front_lines", "ingestd_entries")) and "_created" not in name]
    return found, {name: numbers[name] for name in kept}


def test_the_answers_are_those_of_one_channel(with_front):
    found = []

    async def work(client, front):
        found.append(await answers_to(client))
        assert len(front.child.channels) == 1 or len({home(front, labels) for labels in LABELS}) > 1

    with_front(work)
    with_front(work, *FOUR)
    assert found[0] == found[1]


def test_each_request_has_its_own_reply(with_front, monkeypatch):
    monkeypatch.setenv("FRONT_STAND_IN", "uneven")

    async def one(client, number):
        """Of a stream of its own, a push that is told by its size, and a query."""
        labels = {"n": str(number)}
        text = (await push(client, labels, ("5", str(number)), ("6", "x" * (1001 + number)), tenant=f"t{number}"))[1]
        assert f"stream '{{n=\"{number}\"}}' while adding an entry with length '{1001 + number}'" in text
        assert await found(client, f'{{n="{number}"}}', tenant=f"t{number}") == [(labels, "5", str(number))]

    async def work(client, front):
        await asyncio.gather(*(one(client, number) for number in range(20)))
        assert not any(channel.unasked for channel in front.child.channels)
        assert sums_up(await counts(client))

    with_front(work, *FOUR)


def test_the_pushes_of_a_stream_keep_their_order(with_front, monkeypatch):
    monkeypatch.setenv("FRONT_STAND_IN", "uneven")

    async def work(client, front):
        streams, whole = apart(front), 16

        def sent(number):
            """By turns of all streams and of one; of one stamp, so that a query has them as they were accepted."""
            pushed = streams if number % 2 else [streams[number // 2 % 3]]
            return front.pushes._send("t", list(enumerate(Stream(labels, [["5", f"{number:02}"]]) for labels in pushed)))

        # All of them before the first reply comes, in this order.
        outcomes = await asyncio.gather(*(asyncio.create_task(sent(number)) for number in range(whole)))
        assert sum(outcome.accepted for outcome in outcomes) == whole // 2 * 4
        for labels in streams:
            lines = [line for _, _, line in await found(client, f'{{a="{labels["a"]}"}}')]
            assert lines == sorted(lines) and len(lines) >= whole // 2 + 2

    with_front(work, *FOUR)


def test_housekeeping_has_a_channel_of_its_own(with_front, monkeypatch):
    monkeypatch.setenv("FRONT_STAND_IN", "held")

    async def work(client, front):
        asked = [asyncio.create_task(found(client, '{a="1"}')) for _ in range(2)]
        asked += [asyncio.create_task(told(client, path)) for path in ("labels", "series")]
        while sum(channel.waiting for channel in front.child.channels) < 4:
            await asyncio.sleep(0.002)
        assert [channel.waiting for channel in front.child.channels] == [0, 2, 1, 1]
        # The queries wait for a flush: none goes behind them.
        flushed = await asyncio.gather(*(client.post("/flush") for _ in range(3)))
        assert [(await response.json())["flush"]["channel"] for response in flushed] == [0] * 3
        await asyncio.gather(*asked)

    with_front(work, *FOUR)


@pytest.mark.parametrize("line", ["break", "half"])
def test_what_a_channel_took_and_did_not_answer_is_not_pushed_again(with_front, line):
    async def work(client, front):
        lost, other, third = apart(front)
        lines = [["1", "x"], ["2", line], ["3", "y"]]
        body = {"streams": [{"stream": labels, "values": [["1", "x"], ["3", "y"]]} for labels in (other, third)]}
        body["streams"].append({"stream": lost, "values": lines})
        for _ in range(2):
            assert (await push(client, lost, ("1", "x")))[0] == 204
        response = await client.post(PUSH, json=body, headers=of_tenant("t"))
        assert response.status == 503 and response.headers["Retry-After"] == "1"
        assert (await client.get("/ready")).status == 200 and not front.child.ended.is_set()
        # What comes between, with a greater stamp, does not hide what is sent again.
        for labels in (lost, other, third):
            assert (await push(client, labels, ("9", "later")))[0] == 204
        lines[1][1] = "mended"
        parts = [[["1", "x"]], [["3", "y"]]]
        for values in parts:
            body["streams"] = [{"stream": labels, "values": values} for labels in (other, third, lost)]
            assert (await client.post(PUSH, json=body, headers=of_tenant("t"))).status == 204
        for labels in (other, third, lost):
            lines = [line for _, _, line in await found(client, f'{{a="{labels["a"]}"}}') if line != "break"]
            assert sorted(lines) == ["later", "x", "y"], labels
        numbers = await counts(client)
        assert numbers["front_channels_broken_total"] == 1 and numbers["front_lines_already_there_total"] > 4
        assert sums_up(numbers)

    with_front(work, *FOUR)


def test_what_is_left_out_behind_a_broken_channel_is_in_a_checkpoint(with_front):
    async def work(client, front):
        labels = apart(front)[0]
        assert (await push(client, labels, ("1", "x"), ("2", "break")))[0] == 503
        assert await push(client, labels, ("1", "x")) == (204, "")
        assert await push(client, labels, ("3", "y")) == (204, "")
        assert (await counts(client))['front_reply_seconds_count{command="checkpoint"}'] == 1
        # What was known of the stream behind the first break does not count behind the second.
        assert (await push(client, labels, ("8", "z"), ("9", "break")))[0] == 503
        assert await push(client, labels, ("8", "z")) == (204, "")
        assert (await counts(client))['front_reply_seconds_count{command="checkpoint"}'] == 2
        lines = [line for _, _, line in await found(client, f'{{a="{labels["a"]}"}}')]
        assert lines == ["x", "break", "y", "z", "break"]

    with_front(work, *FOUR)


@pytest.mark.parametrize("doubted", [False, True])
def test_a_stamp_that_comes_into_doubt_while_it_is_asked_for_is_not_kept(doubted):
    streams = [(0, Stream({"a": "1"}, [["5", "x"]]))]

    async def ask(_):
        if doubted:
            left_out.doubt("t", streams)
        return {"query": {"entries": []}}

    left_out = Resent(ask, None)
    assert asyncio.run(left_out.without_standing("t", streams)) == streams
    assert left_out.may_stand("t", streams) == doubted


def test_requests_that_wait_on_a_broken_channel_get_503_and_others_do_not(with_front, monkeypatch):
    monkeypatch.setenv("FRONT_STAND_IN", "uneven")

    async def work(client, front):
        lost, other, _ = apart(front)
        work = [push(client, lost, ("1", "break")), *(push(client, lost, ("2", str(number))) for number in range(5))]
        statuses = [status for status, _ in await asyncio.gather(*work, *(push(client, other, (str(n), "x")) for n in range(5)))]
        assert statuses[0] == 503 and statuses[6:] == [204] * 5
        assert {status for status, _ in [await push(client, labels, ("3", "z")) for labels in (lost, other)]} == {204}

    with_front(work, *FOUR)


def test_when_all_channels_have_broken_the_front_ends(with_front):
    async def work(client, front):
        statuses = [(await push(client, {"a": str(number)}, ("1", "break")))[0] for number in range(12)]
        assert statuses == [503] * 12
        await front.child.ended.wait()
        assert (await client.get("/ready")).status == 503
        assert await front.child.end() == 0 and front.child.report["broken"] == 4

    with_front(work, *FOUR)


def test_the_end_of_the_program_is_503(with_front, monkeypatch):
    monkeypatch.setenv("FRONT_STAND_IN", "dies")

    async def work(client, front):
        answers = await asyncio.gather(*(push(client, {"a": str(number)}, ("1", "x")) for number in range(8)))
        assert [status for status, _ in answers] == [503] * 8
        await front.child.ended.wait()
        assert (await client.get("/ready")).status == 503
        assert await front.child.end() == 3

    with_front(work, *FOUR)


def test_housekeeping_goes_on_by_another_channel(with_front, monkeypatch):
    monkeypatch.setenv("FRONT_STAND_IN", "keeper")

    async def work(client, front):
        async with asyncio.timeout(5):
            while (await counts(client)).get('front_reply_seconds_count{command="checkpoint"}', 0) < 2:
                await asyncio.sleep(0.02)
        assert (await counts(client))["front_channels_broken_total"] == 1
        assert (await (await client.post("/flush")).json())["flush"]["channel"] == 1

    with_front(work, *FOUR, "--ingester.flush-check-period", "20ms", "--ingester.checkpoint-duration", "40ms")


def test_a_channel_that_is_not_served_is_given_up(with_front, monkeypatch):
    monkeypatch.setenv("FRONT_STAND_IN", "unserved")
    monkeypatch.setattr(child, "LATE", 0.4)

    async def work(client, front):
        assert [channel.ended.is_set() for channel in front.child.channels] == [False, False, False, True]
        for labels in apart(front):
            assert (await push(client, labels, ("1", "x")))[0] == 204
        assert await front.child.end() == 0 and front.child.report["broken"] == 1

    with_front(work, *FOUR)


@pytest.fixture
def run_of(tmp_path, monkeypatch):
    """Runs `serve` over the stand-in in this mode, with pipes below tmp_path/pipes, and a coroutine function beside it that may
    end it by a signal. Gives the status."""
    pipes = tmp_path / "pipes"
    pipes.mkdir()
    monkeypatch.setattr(tempfile, "tempdir", str(pipes))
    with socket.socket() as free:
        free.bind(("127.0.0.1", 0))
        words = [*FOUR, "--server.http-listen-port", str(free.getsockname()[1])]

    def run(mode="", program=HERE / "stand_in.py", beside=None):
        monkeypatch.setenv("FRONT_STAND_IN", mode)
        settings = read_settings([*words, "--program", str(program), "/dev/null", str(tmp_path / "folder")])

        async def whole():
            async with asyncio.timeout(8):
                beside_it = asyncio.create_task(beside(pipes)) if beside else None
                status = await serve(settings)
                if beside_it:
                    await beside_it
                return status

        return asyncio.run(whole())

    return run


def report_of(caplog):
    (line,) = [line for line in caplog.messages if line.startswith("report: ")]
    return json.loads(line.removeprefix("report: ").rpartition(", status ")[0])


def test_the_pipes_are_the_fronts_alone_and_gone_when_it_is_ready(run_of, caplog):
    async def work(pipes):
        while len(list(pipes.rglob("*.out"))) < 4:
            await asyncio.sleep(0.002)
        (folder,) = pipes.iterdir()
        assert stat.S_IMODE(folder.stat().st_mode) == 0o700 and all(path.is_fifo() for path in folder.iterdir())
        while not any(line.startswith("ready") for line in caplog.messages):
            await asyncio.sleep(0.002)
        assert not list(pipes.iterdir())
        os.kill(os.getpid(), signal.SIGTERM)

    caplog.set_level("INFO")
    assert run_of("late", beside=work) == 0
    assert report_of(caplog) == {"broken": 0, "report": [{"accepted": 0, "kept": 0, "recovered": 0, "stored": 0}]}


@pytest.mark.parametrize("mode, program, status", [("refuses", HERE / "stand_in.py", 1), ("", "/no/such/program", 2)])
def test_a_program_that_does_not_start_ends_the_front_and_leaves_nothing(run_of, tmp_path, capfd, mode, program, status):
    assert run_of(mode, program) == status
    assert not list((tmp_path / "pipes").iterdir())
    assert status == 2 or "ingestd: OtherSettings" in capfd.readouterr().err


def test_a_front_that_is_ended_before_the_pipes_are_open_leaves_nothing(run_of, tmp_path, caplog):
    async def work(pipes):
        while not list(pipes.rglob("3.out")):
            await asyncio.sleep(0.002)
        os.kill(os.getpid(), signal.SIGTERM)

    caplog.set_level("INFO")
    assert run_of("late", beside=work) == 0
    assert report_of(caplog)["broken"] == 4 and not list((tmp_path / "pipes").iterdir())


def test_a_program_does_not_wait_for_a_front_that_was_killed(tmp_path):
    words = [sys.executable, "-m", "sarymbeu_front", *FOUR, "--program", HERE / "stand_in.py", "/dev/null", tmp_path / "folder"]
    environment = os.environ | {"FRONT_STAND_IN": "late", "TMPDIR": str(tmp_path), "PYTHONDONTWRITEBYTECODE": "1"}
    front = subprocess.Popen(words, env=environment, cwd=HERE.parent)
    children = pathlib.Path(f"/proc/{front.pid}/task/{front.pid}/children")
    while not children.read_text():
        assert front.poll() is None
        time.sleep(0.002)
    front.kill()
    front.wait()
    # The program has it as long as it runs.
    os.close(child.lock_folder(str(tmp_path / "folder"), 5.0))
