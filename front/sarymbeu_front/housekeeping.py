"""What is done by the clock: sweeps, flushes and checkpoints. The program itself does none, but with channels and a
`flush_check_period` in its settings; then both do."""
import asyncio
import logging
import os
import time
from pathlib import Path

from .child import Child
from .faults import Fault
from .metrics import Metrics
from .stamps import SECOND

log = logging.getLogger("front")
# How often the size of the logs is looked at, in seconds.
LOOK = 5.0


def log_bytes(folder: str) -> int:
    """The size of all logs in FOLDER, in bytes."""
    size = 0
    for path in Path(folder).glob("wal-*"):
        try:
            size += os.stat(path).st_size
        except FileNotFoundError:
            continue  # A checkpoint has just been put in its place.
    return size


class Housekeeping:
    """Sweeps and flushes each `flush_check_period`; a checkpoint each `checkpoint_duration`, or where the logs have grown."""

    def __init__(self, child: Child, metrics: Metrics, settings):
        self.child = child
        self.metrics = metrics
        self.settings = settings

    async def run(self) -> None:
        """Goes on until it is cancelled. Raises Fault where the program has ended."""
        period, between = self.settings.flush_check_period / SECOND, self.settings.checkpoint_duration / SECOND
        swept = checkpointed = time.monotonic()
        least = log_bytes(self.settings.folder)
        while True:
            await asyncio.sleep(min(LOOK, period, between))
            try:
                if time.monotonic() - swept >= period:
                    swept = time.monotonic()
                    await self.child.ask({"cmd": "sweep", "now": str(time.time_ns())})
                    await self.flush(forced=False)
                grown = log_bytes(self.settings.folder) - least
                if time.monotonic() - checkpointed >= between or grown >= self.settings.checkpoint_log_bytes:
                    checkpointed = time.monotonic()
                    await self.checkpoint()
                    # What stands in a checkpoint stays in the log: only what comes behind it counts.
                    least = log_bytes(self.settings.folder)
            except Fault as fault:
                if self.child.ended.is_set():
                    raise
                # The channel alone has ended: the next turn is another one's.
                log.warning("housekeeping was broken off: %s", fault.text.rstrip())

    async def flush(self, forced: bool) -> dict:
        """A flush, and its reply. Uploads that failed are counted. Raises Fault where the program has ended."""
        reply = await self.child.ask({"cmd": "flush", "forced": forced})
        failed = reply["flush"]["failed"] if "flush" in reply else 1
        if failed:
            self.metrics.flushes_failed.inc(failed)
            log.warning("a flush failed in part: %s", reply)
        return reply

    async def checkpoint(self) -> None:
        """A checkpoint. Shards of which none was written are counted. Raises Fault where the program has ended."""
        reply = await self.child.ask({"cmd": "checkpoint"})
        failed = reply["checkpoint"].count(False) if "checkpoint" in reply else 1
        if failed:
            self.metrics.checkpoints_failed.inc(failed)
            log.warning("a checkpoint was not written of every shard: %s", reply)
