"""A front with the program, each in a process of its own. PROGRAM and FRONT in the environment are their paths."""
import json
import os
import pathlib
import sys
import urllib.error
import urllib.parse
import urllib.request

import pytest

BENCH = pathlib.Path(__file__).resolve().parent.parent / "bench"
sys.path.insert(0, str(BENCH))

from front_run import FrontRun  # noqa: E402


class Client:
    """Requests to a front, of one tenant."""

    def __init__(self, run: FrontRun, tenant: str = "t"):
        self.run = run
        self.tenant = tenant

    def ask(self, path, data=None, content_type="application/json", **words):
        """Status and text of the answer: of a POST where there is data."""
        url = f"{self.run.url}{path}" + ("?" + urllib.parse.urlencode(words, doseq=True) if words else "")
        request = urllib.request.Request(url, data, {"X-Scope-OrgID": self.tenant, "Content-Type": content_type})
        try:
            with urllib.request.urlopen(request, timeout=30) as answer:
                return answer.status, answer.read().decode()
        except urllib.error.HTTPError as answer:
            return answer.code, answer.read().decode()

    def push(self, labels, *values):
        """Status and text of the answer to a push of one stream."""
        streams = [{"stream": labels, "values": [[str(stamp), line] for stamp, line in values]}]
        return self.ask("/loki/api/v1/push", json.dumps({"streams": streams}).encode())

    def data(self, path, **words):
        """The data of an answer that succeeds."""
        status, text = self.ask(path, **words)
        assert status == 200, text
        return json.loads(text)["data"]

    def found(self, query, **words):
        """Stamps and lines that a query finds, the oldest first."""
        words = {"start": "0", "end": str(2**63 - 1), "limit": "5000", "direction": "forward"} | words
        result = self.data("/loki/api/v1/query_range", query=query, **words)["result"]
        return [(int(stamp), line) for stream in result for stamp, line in stream["values"]]

    def counts(self):
        """All counts."""
        lines = self.ask("/metrics")[1].splitlines()
        return {key: float(value) for key, _, value in (line.rpartition(" ") for line in lines if line[0] != "#")}


@pytest.fixture
def front(tmp_path):
    """Makes a front that is ready, over a folder of this test, with settings and options; it is killed at the end."""
    runs = []

    def make(settings="", *options):
        runs.append(FrontRun(os.environ["FRONT"], os.environ["PROGRAM"], tmp_path, settings, options))
        runs[-1].start()
        return Client(runs[-1])

    yield make
    for run in runs:
        if run.process.poll() is None:
            run.kill(child=False)
