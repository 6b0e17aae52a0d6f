#!/usr/bin/python3
"""Figures of pushes of 100 lines: through the front, by the program alone, and by a plain server that appends and syncs.

    front/bench/figures.py PROGRAM FRONT [--pushes N] [--shards N] [--channels N [N ..]] [--parent FOLDER]

Each of ten streams gets a tenth of the pushes; a line has 100 bytes. One push waits at a time, then ten; so of the front with
each number of channels to the program.
"""
import argparse
import asyncio
import functools
import json
import pathlib
import socket
import subprocess
import sys
import tempfile
import time

import aiohttp

from front_run import FrontRun, free_port

LINES = 100
JSON = {"Content-Type": "application/json"}
HERE = pathlib.Path(__file__).resolve().parent


def streams(number: int) -> list[dict]:
    """The streams of push `number`: one, of LINES entries."""
    first = number * LINES
    values = [[str(10**18 + index), f"line {index} ".ljust(100, "x")] for index in range(first, first + LINES)]
    return [{"stream": {"job": "figures", "stream": str(number % 10)}, "values": values}]


async def in_turns(send, pushes: int, at_once: int) -> tuple[list[float], float]:
    """The seconds of each push, the shortest first, with so many waiting at once; and of all."""
    numbers, times = iter(range(pushes)), []

    async def work() -> None:
        for number in numbers:
            began = time.perf_counter()
            await send(number)
            times.append(time.perf_counter() - began)

    began = time.perf_counter()
    await asyncio.gather(*(work() for _ in range(at_once)))
    return sorted(times), time.perf_counter() - began


async def over_http(url: str, pushes: int, at_once: int) -> tuple[list[float], float]:
    """Pushes by requests to `url`."""
    bodies = [json.dumps({"streams": streams(number)}).encode() for number in range(pushes)]
    async with aiohttp.ClientSession() as session:

        async def send(number: int) -> None:
            async with session.post(f"{url}/loki/api/v1/push", data=bodies[number], headers=JSON) as response:
                assert response.status == 204, await response.text()

        return await in_turns(send, pushes, at_once)


async def over_pipes(words: list[str], pushes: int, at_once: int) -> tuple[list[float], float]:
    """Pushes by lines to the program."""
    pipe = asyncio.subprocess.PIPE
    child = await asyncio.create_subprocess_exec(*words, stdin=pipe, stdout=pipe, limit=1 << 24)
    head = {"cmd": "push", "tenant": "fake", "now": str(10**18)}
    lines = [json.dumps(head | {"streams": streams(number)}).encode() + b"\n" for number in range(pushes)]
    replies: asyncio.Queue[asyncio.Future] = asyncio.Queue()

    async def read() -> None:
        while line := await child.stdout.readline():
            if b'"report"' not in line:
                replies.get_nowait().set_result(line)

    async def send(number: int) -> None:
        future = asyncio.get_running_loop().create_future()
        replies.put_nowait(future)
        child.stdin.write(lines[number])
        assert b'"durable":true' in await future

    reader = asyncio.create_task(read())
    figures = await in_turns(send, pushes, at_once)
    child.stdin.close()
    await reader
    await child.wait()
    return figures


def settings_text(words: argparse.Namespace) -> str:
    """The settings of the program."""
    return f"shards = {words.shards}\n"


def of_front(words: argparse.Namespace, place: pathlib.Path, at_once: int, channels: int) -> tuple[list[float], float]:
    run = FrontRun(words.front, words.program, place, settings_text(words), ("--channels", str(channels)))
    run.start()
    try:
        return asyncio.run(over_http(run.url, words.pushes, at_once))
    finally:
        run.end()


def of_program(words: argparse.Namespace, place: pathlib.Path, at_once: int) -> tuple[list[float], float]:
    (place / "settings.toml").write_text(settings_text(words))
    return asyncio.run(over_pipes([words.program, str(place / "settings.toml"), str(place / "folder")], words.pushes, at_once))


def of_plain_server(words: argparse.Namespace, place: pathlib.Path, at_once: int) -> tuple[list[float], float]:
    port = free_port()
    server = subprocess.Popen([sys.executable, HERE / "plain_server.py", str(port), place / "log"])
    try:
        while socket.socket().connect_ex(("127.0.0.1", port)):
            time.sleep(0.02)
        return asyncio.run(over_http(f"http://127.0.0.1:{port}", words.pushes, at_once))
    finally:
        server.terminate()
        server.wait()


def main() -> None:
    parser = argparse.ArgumentParser(description=__doc__.splitlines()[0])
    parser.add_argument("program")
    parser.add_argument("front")
    parser.add_argument("--pushes", type=int, default=2000)
    parser.add_argument("--shards", type=int, default=1, help="%(default)s")
    parser.add_argument("--channels", type=int, nargs="+", default=[1], help="of the front, runs for each number (%(default)s)")
    parser.add_argument("--parent", default=None)
    words = parser.parse_args()
    print("| Pushes of 100 lines | at once | requests a second | lines a second | p50 ms | p99 ms |\n|---|---|---|---|---|---|")
    works = [("the program alone", of_program)]
    for channels in words.channels:
        name = "the front" if channels == 1 else f"the front, {channels} channels"
        works.append((name, functools.partial(of_front, channels=channels)))
    for name, work in [*works, ("a plain server", of_plain_server)]:
        for at_once in (1, 10):
            with tempfile.TemporaryDirectory(dir=words.parent) as place:
                times, seconds = work(words, pathlib.Path(place), at_once)
            rate, median, late = len(times) / seconds, times[len(times) // 2], times[len(times) * 99 // 100]
            print(f"| {name} | {at_once} | {rate:.0f} | {rate * LINES:.0f} | {median * 1000:.2f} | {late * 1000:.2f} |")


if __name__ == "__main__":
    main()
