#!/usr/bin/python3
"""A load of agents at once over a front, which is killed meanwhile; then each line is looked for.

    front/bench/agents.py FRONT PROGRAM [--agents N] [--lines N] [--kills N] [--in-flight N] [--channels N] [--ctl INGESTCTL]
                          [--parent FOLDER]

Each agent has a stream of its own and sends its lines in batches, by turns as JSON, JSON with gzip, and protobuf with Snappy.
A batch without an answer, or with 429 or 503, is sent again as it is. Now and then front and program are killed, or one of
both, and started again. At the end each stream is read by `query_range`, and with --ctl behind the end of the front by
`ingestctl export`: each line has to stand there once, under its stamp, and no other. It prints tables, and ends with status 1
where a line is lost, doubled or mixed.
"""
import argparse
import asyncio
import collections
import gzip
import itertools
import json
import pathlib
import random
import subprocess
import sys
import tempfile
import time
from dataclasses import dataclass, field

import aiohttp
import snappy

from front_run import FrontRun

sys.path.insert(0, str(pathlib.Path(__file__).resolve().parent.parent))
from sarymbeu_front import push_pb2  # noqa: E402

SETTINGS = "shards = 4\nflushers = 2\n"
KINDS = ["json", "gzip", "protobuf"]


def json_body(labels: dict[str, str], entries: list[tuple[int, str]]) -> bytes:
    values = [[str(stamp), line] for stamp, line in entries]
    return json.dumps({"streams": [{"stream": labels, "values": values}]}).encode()


def protobuf_body(labels: dict[str, str], entries: list[tuple[int, str]]) -> bytes:
    request = push_pb2.PushRequest()
    text = "{" + ", ".join(f'{name}="{value}"' for name, value in labels.items()) + "}"
    stream = request.streams.add(labels=text.encode())
    for stamp, line in entries:
        stamp = push_pb2.Timestamp(seconds=stamp // 10**9, nanos=stamp % 10**9)
        stream.entries.add(timestamp=stamp, line=line.encode())
    return snappy.compress(request.SerializeToString())


def packed(kind: str, labels: dict[str, str], entries: list[tuple[int, str]]) -> tuple[bytes, dict[str, str]]:
    """A body of this kind, and its headers."""
    if kind == "protobuf":
        return protobuf_body(labels, entries), {"Content-Type": "application/x-protobuf"}
    body, headers = json_body(labels, entries), {"Content-Type": "application/json"}
    return (gzip.compress(body, 1), headers | {"Content-Encoding": "gzip"}) if kind == "gzip" else (body, headers)


@dataclass
class Agent:
    """Sends `count` lines. `times` has the seconds of answers 204, `others` counts other answers, None where there was none."""

    number: int
    count: int
    batch: int
    began: int
    tenant: str = "load"
    sent: int = 0
    times: list[float] = field(default_factory=list)
    others: collections.Counter = field(default_factory=collections.Counter)

    @property
    def header(self) -> dict[str, str]:
        return {"X-Scope-OrgID": self.tenant}

    @property
    def labels(self) -> dict[str, str]:
        return {"job": "load", "agent": f"agent-{self.number}"}

    def entry(self, index: int) -> tuple[int, str]:
        """Line `index`, with its stamp: ten lines of one stamp each, as where clocks are coarse."""
        return self.began + index // 10 * 1000, f"agent {self.number} line {index} " + "x" * (60 + index * 7 % 60)

    async def run(self, session: aiohttp.ClientSession, url: str, in_flight: int) -> None:
        firsts = iter(range(0, self.count, self.batch))
        await asyncio.gather(*(self._work(session, url, firsts) for _ in range(in_flight)))

    async def _work(self, session: aiohttp.ClientSession, url: str, firsts) -> None:
        for first in firsts:
            entries = [self.entry(index) for index in range(first, min(first + self.batch, self.count))]
            body, headers = packed(KINDS[first // self.batch % len(KINDS)], self.labels, entries)
            while not await self._send(session, url, body, headers):
                await asyncio.sleep(0.05)
            self.sent += len(entries)

    async def _send(self, session: aiohttp.ClientSession, url: str, body: bytes, headers: dict[str, str]) -> bool:
        """Whether the batch was answered by 204. Raises RuntimeError where it is refused for good."""
        began = time.monotonic()
        try:
            async with session.post(f"{url}/loki/api/v1/push", data=body, headers=self.header | headers) as response:
                text = await response.text()
        except (aiohttp.ClientError, asyncio.TimeoutError, OSError):
            self.others[None] += 1
            return False
        if response.status == 204:
            self.times.append(time.monotonic() - began)
            return True
        self.others[response.status] += 1
        if response.status in (429, 503):
            return False
        raise RuntimeError(f"{response.status}: {text}")

    async def found(self, session: aiohttp.ClientSession, url: str) -> collections.Counter:
        """The entries that `query_range` gives of the stream, page by page; the last stamp of a page is asked for again."""
        entries, edge, at_edge = collections.Counter(), self.began, collections.Counter()
        query = f'{{agent="agent-{self.number}"}}'
        for _ in itertools.count():
            words = {"query": query, "start": str(edge), "end": str(2**63 - 1), "limit": "5000", "direction": "forward"}
            async with session.get(f"{url}/loki/api/v1/query_range", params=words, headers=self.header) as response:
                assert response.status == 200, await response.text()
                result = (await response.json())["data"]["result"]
            assert all(stream["stream"] == self.labels for stream in result), f"other streams in {result[:1]}"
            page = collections.Counter((int(stamp), line) for stream in result for stamp, line in stream["values"])
            entries += page - at_edge
            if page.total() < 5000:
                return entries
            edge = max(stamp for stamp, _ in page)
            at_edge = collections.Counter({entry: count for entry, count in page.items() if entry[0] == edge})


async def kill_now_and_then(run: FrontRun, agents: list[Agent], kills: int) -> None:
    """Kills at even parts of the load: both, the front alone, the program alone, by turns."""
    whole = sum(agent.count for agent in agents)
    for number in range(1, kills + 1):
        while sum(agent.sent for agent in agents) < whole * number / (kills + 1):
            await asyncio.sleep(0.005)
        await asyncio.sleep(random.random() * 0.05)
        run.kill(**[{}, {"child": False}, {"front": False}][(number - 1) % 3])
        await asyncio.to_thread(run.start)


def exported(ctl: str, run: FrontRun) -> dict[str, collections.Counter]:
    """By tenant and labels, as text, the entries that `ingestctl export` writes of the folder. Raises RuntimeError."""
    entries: dict[str, collections.Counter] = collections.defaultdict(collections.Counter)
    words = [ctl, "export", str(run.place / "folder"), str(run.place / "settings.toml")]
    with subprocess.Popen(words, stdout=subprocess.PIPE) as process:
        for line in process.stdout:
            command = json.loads(line)
            for stream in command.get("streams", []):
                key = stream_key(command["tenant"], stream["stream"])
                entries[key].update((int(stamp), text) for stamp, text in stream["values"])
    if process.returncode:
        raise RuntimeError(f"{ctl} export ended with {process.returncode}")
    return entries


def stream_key(tenant: str, labels: dict[str, str]) -> str:
    return json.dumps([tenant, labels], sort_keys=True)


def are_exported(ctl: str, run: FrontRun, agents: list[Agent]) -> bool:
    """Prints what the folder has of each agent. Whether that is each line once, and nothing else."""
    entries = exported(ctl, run)
    rows = [row_of(agent, entries.pop(stream_key(agent.tenant, agent.labels), collections.Counter())) for agent in agents]
    print("\nby `ingestctl export`:\n\n| agent | sent | found | lost | doubled | mixed |\n|---|---|---|---|---|---|")
    for agent, row in zip(agents, rows):
        print("|", " | ".join(map(str, (agent.number, agent.count, *row))), "|")
    print(f"\nfurther streams: {len(entries)}")
    return not entries and all(row[1:] == (0, 0, 0) for row in rows)


async def load(run: FrontRun, words: argparse.Namespace, agents: list[Agent]) -> bool:
    """The whole load. Whether each line was found once."""
    seconds = time.monotonic()
    async with aiohttp.ClientSession(connector=aiohttp.TCPConnector(limit=0)) as session:
        kills = asyncio.create_task(kill_now_and_then(run, agents, words.kills))
        await asyncio.gather(*(agent.run(session, run.url, words.in_flight) for agent in agents))
        await kills
        seconds = time.monotonic() - seconds
        print("| agent | sent | batches sent again | found | lost | doubled | mixed |\n|---|---|---|---|---|---|---|")
        rows = [row_of(agent, await agent.found(session, run.url)) for agent in agents]
    for agent, row in zip(agents, rows):
        print("|", " | ".join(map(str, (agent.number, agent.count, agent.others.total(), *row))), "|")
    times = sorted(itertools.chain(*(agent.times for agent in agents)))
    median, late = times[len(times) // 2] * 1000, times[len(times) * 99 // 100] * 1000
    count = sum(agent.count for agent in agents)
    print(f"\n{count} lines in {seconds:.1f} seconds, {count / seconds:.0f} a second; {words.kills} kills;", end=" ")
    print(f"a push of {words.batch} lines: p50 {median:.1f} ms, p99 {late:.1f} ms")
    return all(row[1:] == (0, 0, 0) for row in rows)


def row_of(agent: Agent, found: collections.Counter) -> tuple[int, int, int, int]:
    """How many lines were found, lost, found more than once, and found though never sent."""
    sent = {agent.entry(index) for index in range(agent.count)}
    doubled = sum(count - 1 for entry, count in found.items() if entry in sent)
    mixed = sum(count for entry, count in found.items() if entry not in sent)
    return found.total(), sum(1 for entry in sent if entry not in found), doubled, mixed


def main() -> int:
    parser = argparse.ArgumentParser(description=__doc__.splitlines()[0])
    parser.add_argument("front")
    parser.add_argument("program")
    parser.add_argument("--agents", type=int, default=10)
    parser.add_argument("--lines", type=int, default=100000)
    parser.add_argument("--batch", type=int, default=100)
    parser.add_argument("--kills", type=int, default=3)
    parser.add_argument("--in-flight", type=int, default=1)
    parser.add_argument("--channels", type=int, default=1, help="channels to the program (%(default)s)")
    parser.add_argument("--seconds", type=float, default=300, help="the longest that it may take (%(default)s)")
    parser.add_argument("--ctl", help="ingestctl, by which the folder is read at the end")
    parser.add_argument("--parent", default=None)
    words = parser.parse_args()
    began = time.time_ns() // 10**9 * 10**9
    agents = [Agent(number, words.lines // words.agents, words.batch, began) for number in range(words.agents)]
    with tempfile.TemporaryDirectory(dir=words.parent) as place:
        options = ("--ingester.flush-check-period", "2s", "--ingester.checkpoint-duration", "5s")
        options += ("--channels", str(words.channels))
        run = FrontRun(words.front, words.program, pathlib.Path(place), SETTINGS, options)
        run.start()
        try:
            well = asyncio.run(asyncio.wait_for(load(run, words, agents), words.seconds))
            status = run.end()
            well &= words.ctl is None or are_exported(words.ctl, run, agents)
        except BaseException:
            run.process.kill()
            print(run.log()[-5000:], file=sys.stderr)
            raise
    print(f"the front ended with status {status}")
    return 0 if well and status == 0 else 1


if __name__ == "__main__":
    sys.exit(main())
