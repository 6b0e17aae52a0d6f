#!/usr/bin/python3
"""Three fronts behind HAProxy, of which one is killed and started again under load.

    front/bench/three_fronts.py FRONT PROGRAM [--agents N] [--lines N] [--parent FOLDER]

It runs front/deploy/haproxy.cfg with other ports. Each agent is a tenant. In the middle the front with the most tenants is
killed with its program; two seconds later it is started again. Then each line is looked for through HAProxy, and each tenant
at each front: it has to stand at one front alone. It ends with status 1 where that is not so, or where a tenant of another
front got anything but 204.
"""
import argparse
import asyncio
import pathlib
import subprocess
import sys
import tempfile
import time

import aiohttp

from agents import SETTINGS, Agent, row_of
from front_run import FrontRun, free_port

CONFIGURATION = pathlib.Path(__file__).resolve().parent.parent / "deploy" / "haproxy.cfg"
AWAY = 2.0  # How long the front is away, in seconds.


def proxy_text(port: int, runs: list[FrontRun]) -> str:
    """The configuration with these ports, and with names of sockets that only this run has."""
    text = CONFIGURATION.read_text().replace("abns@front-", f"abns@front-{port}-")
    for old, new in zip(("3100", "3101", "3102", "3103"), (port, *(run.port for run in runs))):
        text = text.replace(f"127.0.0.1:{old}", f"127.0.0.1:{new}")
    return text


async def places(session: aiohttp.ClientSession, agents: list[Agent], runs: list[FrontRun]) -> list[list[int]]:
    """Of each agent the numbers of the fronts that have lines of it."""
    return [[number for number, run in enumerate(runs) if await agent.found(session, run.url)] for agent in agents]


async def load(url: str, runs: list[FrontRun], words: argparse.Namespace) -> bool:
    """The whole load. Whether all is as it has to be."""
    began = time.time_ns() // 10**9 * 10**9
    count = words.lines // words.agents
    agents = [Agent(number, count, 100, began, f"tenant-{number}") for number in range(words.agents)]
    async with aiohttp.ClientSession(connector=aiohttp.TCPConnector(limit=0)) as session:
        work = asyncio.gather(*(agent.run(session, url, 1) for agent in agents))
        while not all(agent.sent for agent in agents):
            await asyncio.sleep(0.01)
        homes = [found[0] for found in await places(session, agents, runs)]
        killed = max(range(3), key=homes.count)
        while sum(agent.sent for agent in agents) < words.lines / 3:
            await asyncio.sleep(0.01)
        runs[killed].kill()
        await asyncio.sleep(AWAY)
        await asyncio.to_thread(runs[killed].start)
        await work
        await asyncio.sleep(2)  # Until HAProxy has seen that it is back.
        rows = [row_of(agent, await agent.found(session, url)) for agent in agents]
        homes = await places(session, agents, runs)
    well = True
    print("| tenant | front | sent | other answers | found | lost | doubled | mixed |\n|---|---|---|---|---|---|---|---|")
    for agent, row, home in zip(agents, rows, homes):
        others = ", ".join(f"{count} times {status or 'none'}" for status, count in agent.others.items())
        print(f"| {agent.tenant} | {home} | {agent.count} | {others} |", " | ".join(map(str, row)), "|")
        well &= row[1:] == (0, 0, 0) and len(home) == 1 and (home == [killed] or not agent.others)
    print(f"\nfront {killed} was away for {AWAY} seconds and its start")
    return well


def main() -> int:
    parser = argparse.ArgumentParser(description=__doc__.splitlines()[0])
    parser.add_argument("front")
    parser.add_argument("program")
    parser.add_argument("--agents", type=int, default=12)
    parser.add_argument("--lines", type=int, default=60000)
    parser.add_argument("--seconds", type=float, default=120, help="the longest that it may take (%(default)s)")
    parser.add_argument("--parent", default=None)
    words = parser.parse_args()
    with tempfile.TemporaryDirectory(dir=words.parent) as place:
        runs = []
        for name in ("one", "two", "three"):
            folder = pathlib.Path(place) / name
            folder.mkdir()
            runs.append(FrontRun(words.front, words.program, folder, SETTINGS))
            runs[-1].start()
        port = free_port()
        configuration = pathlib.Path(place) / "haproxy.cfg"
        configuration.write_text(proxy_text(port, runs))
        proxy = subprocess.Popen(["/usr/sbin/haproxy", "-db", "-f", configuration])
        try:
            time.sleep(1.5)  # Until each front was looked at.
            assert proxy.poll() is None, "HAProxy has ended"
            well = asyncio.run(asyncio.wait_for(load(f"http://127.0.0.1:{port}", runs, words), words.seconds))
        finally:
            proxy.kill()
            statuses = [run.end() for run in runs]
    print(f"the fronts ended with {statuses}")
    return 0 if well and not any(statuses) else 1


if __name__ == "__main__":
    sys.exit(main())
