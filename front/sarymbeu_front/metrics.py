"""What is counted, as Prometheus reads it."""
from collections.abc import Callable

from prometheus_client import CollectorRegistry, Counter, Gauge, Histogram, ProcessCollector, generate_latest
from prometheus_client.core import CounterMetricFamily, GaugeMetricFamily

BUCKETS = (0.0005, 0.001, 0.0025, 0.005, 0.01, 0.025, 0.05, 0.1, 0.25, 0.5, 1, 2.5, 5, 10, 30)


class Board:
    """The program's last reply to `board`, as a collector."""

    def __init__(self) -> None:
        self.shards: list[dict] = []

    def collect(self):
        """The counts of each shard."""
        accepted = CounterMetricFamily("ingestd_entries_accepted", "Entries that the program holds or stored.", labels=["shard"])
        stored = CounterMetricFamily("ingestd_entries_stored", "Entries that are stored.", labels=["shard"])
        kept = GaugeMetricFamily("ingestd_entries_kept", "Entries in memory that are not stored yet.", labels=["shard"])
        for index, shard in enumerate(self.shards):
            accepted.add_metric([str(index)], shard["accepted"])
            stored.add_metric([str(index)], shard["stored"])
            kept.add_metric([str(index)], shard["accepted"] - shard["stored"])
        return [accepted, stored, kept]


class Metrics:
    """All that is counted. `child_pid` gives the process id of the program, or None."""

    def __init__(self, child_pid: Callable[[], int | None]):
        self.registry = CollectorRegistry()
        self.board = Board()
        self.registry.register(self.board)
        # The process's own numbers, and those of the program, from /proc.
        ProcessCollector(namespace="front", registry=self.registry)
        ProcessCollector(namespace="ingestd", pid=lambda: child_pid() or "none", registry=self.registry)
        self.requests = self._counter("requests", "Requests, by route and status.", "route", "status")
        self.received_bytes = self._counter("received_bytes", "Bytes of pushes, unpacked.")
        self.lines = self._counter("lines_received", "Lines of pushes that were answered.")
        self.accepted = self._counter("lines_accepted", "Lines that the program accepted.")
        self.duplicate = self._counter("lines_duplicate", "Lines that were their stream's last one already.")
        self.already_there = self._counter("lines_already_there", "Lines left out: they stood before this start.")
        self.refused = self._counter("lines_refused", "Lines that were not accepted.", "reason")
        self.not_durable = self._counter("lines_not_durable", "Lines accepted, but not in a log.")
        self.mended = self._counter("texts_mended", "What was no text and became U+FFFD.")
        self.metadata = self._counter("metadata_dropped", "Entries whose structured metadata was dropped.")
        self.remembered = self._counter("answers_remembered", "Pushes that were sent again, and answered without a push.")
        self.flushes_failed = self._counter("flushes_failed", "Uploads of chunks that failed.")
        self.checkpoints_failed = self._counter("checkpoints_failed", "Shards of which a checkpoint was not written.")
        self.channels_broken = self._counter("channels_broken", "Channels of the program that have ended by themselves.")
        self.waiting_bytes = Gauge("front_waiting_bytes", "Bytes of pushes that wait.", registry=self.registry)
        self.reply_seconds = Histogram(
            "front_reply_seconds", "From a command to its reply.", ["command"], buckets=BUCKETS, registry=self.registry
        )

    def _counter(self, name: str, text: str, *labels: str) -> Counter:
        return Counter(f"front_{name}", text, labels, registry=self.registry)

    def page(self) -> bytes:
        """The page of all counts."""
        return generate_latest(self.registry)
