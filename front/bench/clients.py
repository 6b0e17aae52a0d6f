#!/usr/bin/python3
"""Lines by clients of several kinds through one front, each found again or not.

    front/bench/clients.py FRONT PROGRAM [--lines N] [--kills N] [--rsyslogd FILE] [--modules FOLDERS] [--parent FOLDER]

The clients are curl, Python's own with each kind of body, python3-requests, and those of front/deploy that are here: syslog-ng,
and rsyslog where a module omhttp is in one of the FOLDERS (apart by colons). While these two send, front and program are killed
and started again. It prints a table, and ends with status 1 where a line is lost or found more than once.
"""
import argparse
import collections
import json
import pathlib
import shutil
import subprocess
import sys
import tempfile
import time
import urllib.parse
import urllib.request

import requests

from agents import KINDS, SETTINGS, packed
from front_run import FrontRun

TENANT = {"X-Scope-OrgID": "acme"}
DEPLOY = pathlib.Path(__file__).resolve().parent.parent / "deploy"
MODULES = "/usr/lib/x86_64-linux-gnu/rsyslog"


def lines_of(name: str, count: int) -> list[str]:
    """Lines of which each comes once, with what has to be escaped."""
    return [f'{name} line {number} "quoted" \\ tab\t ä😀 ' + "x" * (number % 50) for number in range(count)]


def by_curl(run: FrontRun, lines: list[str], place: pathlib.Path) -> None:
    """A push of each line by curl."""
    for line in lines:
        body = {"streams": [{"stream": {"job": "curl"}, "values": [[str(time.time_ns()), line]]}]}
        (place / "body").write_text(json.dumps(body))
        words = ["curl", "-sf", "-H", "Content-Type: application/json", "-H", "X-Scope-OrgID: acme", "--data-binary", "@body"]
        subprocess.run([*words, f"{run.url}/loki/api/v1/push"], cwd=place, check=True)


def by_python(run: FrontRun, lines: list[str], kind: str) -> None:
    """Pushes of 100 lines."""
    for first in range(0, len(lines), 100):
        entries = [(time.time_ns(), line) for line in lines[first : first + 100]]
        body, headers = packed(kind, {"job": f"python-{kind}"}, entries)
        urllib.request.urlopen(urllib.request.Request(f"{run.url}/loki/api/v1/push", body, TENANT | headers), timeout=30).close()


def by_requests(run: FrontRun, lines: list[str]) -> None:
    """Pushes of 100 lines over one connection."""
    with requests.Session() as session:
        for first in range(0, len(lines), 100):
            values = [[str(time.time_ns()), line] for line in lines[first : first + 100]]
            body = {"streams": [{"stream": {"job": "requests"}, "values": values}]}
            session.post(f"{run.url}/loki/api/v1/push", json=body, headers=TENANT, timeout=30).raise_for_status()


def by_agent(run: FrontRun, job: str, words: list[str], lines: list[str], kills: int, place: pathlib.Path) -> None:
    """An agent over a file, with its configuration of front/deploy as JOB.conf; front and program are killed meanwhile.

    It is ended when as many lines are found as the file has, or after two minutes.
    """
    (place / f"{job}.log").write_text("".join(line + "\n" for line in lines))
    text = (DEPLOY / f"{job}.conf").read_text()
    text = text.replace("/var/log/app.log", str(place / f"{job}.log")).replace("3100", str(run.port))
    (place / f"{job}.conf").write_text(text)
    process = subprocess.Popen(words, cwd=place, stdout=subprocess.DEVNULL, stderr=subprocess.DEVNULL)
    until, marks = time.monotonic() + 120, [len(lines) * number // (kills + 1) for number in range(1, kills + 1)]
    while (count := found(run, job).total()) < len(lines) and time.monotonic() < until:
        if marks and count >= marks[0]:
            marks.pop(0)
            run.kill()
            time.sleep(1)
            run.start()
        time.sleep(0.1)
    time.sleep(2)  # Whatever it would send twice.
    process.terminate()
    process.wait()


def agents_of(words: argparse.Namespace, place: pathlib.Path) -> dict[str, list[str]]:
    """The agents that are here, each with its words."""
    agents = {}
    if shutil.which("syslog-ng", path="/usr/sbin"):
        agents["syslog-ng"] = ["/usr/sbin/syslog-ng", "-F", "-f", "syslog-ng.conf", "-R", "persist", "-c", "control", "-p", "pid"]
    has_module = any(pathlib.Path(folder, "omhttp.so").exists() for folder in words.modules.split(":"))
    if shutil.which(words.rsyslogd) and has_module:
        own = ["-n", "-f", str(place / "rsyslog.conf"), "-i", str(place / "rsyslog.pid"), "-M", words.modules]
        agents["rsyslog"] = [words.rsyslogd, *own]
    return agents


def found(run: FrontRun, job: str) -> collections.Counter:
    """The lines that a query finds; of these tests there are fewer than 5,000."""
    words = {"query": f'{{job="{job}"}}', "start": "0", "end": str(2**63 - 1), "limit": "5000"}
    request = urllib.request.Request(f"{run.url}/loki/api/v1/query_range?{urllib.parse.urlencode(words)}", headers=TENANT)
    result = json.load(urllib.request.urlopen(request, timeout=30))["data"]["result"]
    return collections.Counter(line for stream in result for _, line in stream["values"])


def main() -> int:
    parser = argparse.ArgumentParser(description=__doc__.splitlines()[0])
    parser.add_argument("front")
    parser.add_argument("program")
    parser.add_argument("--lines", type=int, default=4000, help="below 5,000; curl sends a hundredth (%(default)s)")
    parser.add_argument("--kills", type=int, default=1, help="of front and program, for each agent (%(default)s)")
    parser.add_argument("--rsyslogd", default="/usr/sbin/rsyslogd", help="%(default)s")
    parser.add_argument("--modules", default=MODULES, help="folders with rsyslog's modules (%(default)s)")
    parser.add_argument("--parent", default=None)
    words = parser.parse_args()
    sent = {}
    with tempfile.TemporaryDirectory(dir=words.parent) as folder:
        place = pathlib.Path(folder)
        run = FrontRun(words.front, words.program, place, SETTINGS)
        run.start()
        sent["curl"] = lines_of("curl", words.lines // 100)
        by_curl(run, sent["curl"], place)
        for kind in KINDS:
            sent[f"python-{kind}"] = lines_of(kind, words.lines)
            by_python(run, sent[f"python-{kind}"], kind)
        sent["requests"] = lines_of("requests", words.lines)
        by_requests(run, sent["requests"])
        for job, own in agents_of(words, place).items():
            sent[job] = lines_of(job, words.lines)
            by_agent(run, job, own, sent[job], words.kills, place)
        got = {job: found(run, job) for job in sent}
        status = run.end()
    print("| client | lines sent | found | lost | twice or not sent |\n|---|---|---|---|---|")
    well = status == 0
    for job, lines in sent.items():
        wanted = collections.Counter(lines)
        lost, more = (wanted - got[job]).total(), (got[job] - wanted).total()
        well &= lost == more == 0
        print(f"| {job} | {len(lines)} | {got[job].total()} | {lost} | {more} |")
    return 0 if well else 1


if __name__ == "__main__":
    sys.exit(main())
