"""A front over the stand-in, for tests of requests and answers."""
import asyncio
import pathlib
import sys

import pytest

HERE = pathlib.Path(__file__).resolve().parent
sys.path.insert(0, str(HERE.parent))

from aiohttp.test_utils import TestClient, TestServer  # noqa: E402

from sarymbeu_front.limits import AllLimits  # noqa: E402
from sarymbeu_front.server import Front  # noqa: E402
from sarymbeu_front.settings import read_settings  # noqa: E402

# The settings of the program, as far as the front reads them.
LIMITS = {"max_line_size": 1000, "tenants": {"small": {"max_entries_per_push": 2}}}


@pytest.fixture
def with_front(tmp_path):
    """Runs a coroutine function with a client and a front, whose command line has these further words."""

    def run(work, *words, wait=True):
        async def whole():
            settings = read_settings([*words, "--program", str(HERE / "stand_in.py"), "/dev/null", str(tmp_path)])
            front = Front(settings, AllLimits(LIMITS))
            await front.child.start()
            task = asyncio.create_task(front.run())
            server = TestServer(front.application())
            client = TestClient(server)
            await server.start_server(auto_decompress=False)
            try:
                async with asyncio.timeout(8):
                    while not front.ready and not front.child.ended.is_set() and wait:
                        await asyncio.sleep(0.002)
                    return await work(client, front)
            finally:
                task.cancel()
                await client.close()
                await front.child.end()
                await asyncio.gather(task, return_exceptions=True)

        return asyncio.run(whole())

    return run
