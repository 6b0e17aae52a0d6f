"""What an agent sends again after a start, because the run before, or a channel, ended without an answer to it.

A push that was not answered may have been taken. Before this start a stream had some greatest stamp; an entry above it is new.
One that is not is asked for, by stream, stamp and line, and left out where it stands. So what is left out is there, and what
is not there is pushed: whichever push of the run before is sent again, whenever, in whatever parts. It also means that an entry
whose stamp and line its stream has already, from before the start, is not stored a second time; Loki has no second one either.
"""
import asyncio
import collections
from collections.abc import Awaitable, Callable
from dataclasses import dataclass, field

from . import pages
from .bodies import Stream
from .faults import Fault, unavailable
from .labels import canonical_name

BAD_SELECTOR, TOO_WIDE = 8, 9
# Of how many streams the stamps of before are kept.
MOST_STREAMS = 100000


@dataclass
class Resent:
    """Leaves out what stands. `fresh`: nothing stood before this start, so nothing needs to be asked for.

    Who holds `lock` looks and pushes, one after another: two pushes of the same entries do not both find them absent. `doubts`
    counts pushes that may have been taken in part, of which `settled` are in a log, as far as they were. `stamps` has by tenant
    and canonical name the greatest stamp that a stream may have had before this start, or -1: of those that came last.
    """

    ask: pages.Ask
    checkpoint: Callable[[], Awaitable[None]]
    fresh: bool = False
    doubts: int = 0
    settled: int = 0
    lock: asyncio.Lock = field(default_factory=asyncio.Lock)
    stamps: collections.OrderedDict[tuple[str, str], int] = field(default_factory=collections.OrderedDict)

    def doubt(self, tenant: str, streams: list[tuple[int, Stream]]) -> None:
        """Notes that entries of these may have been taken without an answer: they are looked for as after a start.

        That is to be called when nothing of them is under way any more.
        """
        self.doubts += 1
        self.fresh = False
        for _, stream in streams:
            self.stamps.pop((tenant, canonical_name(stream.labels)), None)

    def may_stand(self, tenant: str, streams: list[tuple[int, Stream]]) -> bool:
        """Whether an entry of these may have been pushed before this start."""
        return not self.fresh and any(self._may_stand(tenant, stream) for _, stream in streams)

    def _may_stand(self, tenant: str, stream: Stream) -> bool:
        before = self._kept(tenant, canonical_name(stream.labels))
        return before is None or any(int(stamp) <= before for stamp, _ in stream.values)

    def _kept(self, tenant: str, name: str) -> int | None:
        """The stamp that is kept of a stream, which is now the last that came, or None where it has to be asked for."""
        if (tenant, name) in self.stamps:
            self.stamps.move_to_end((tenant, name))
        return self.stamps.get((tenant, name))

    async def without_standing(self, tenant: str, streams: list[tuple[int, Stream]]) -> list[tuple[int, Stream]]:
        """The streams, with their places in the body, without the entries that stand.

        Raises Fault 503 where that cannot be told.
        """
        doubts = self.doubts
        if self.settled < doubts:
            # What a channel took and did not answer stands, but may not be in a log yet.
            await self.checkpoint()
            self.settled = doubts
        return [(place, await self._without_standing(tenant, stream)) for place, stream in streams]

    async def _without_standing(self, tenant: str, stream: Stream) -> Stream:
        name = canonical_name(stream.labels)
        before = await self._before(tenant, name)
        old = [int(stamp) for stamp, _ in stream.values if int(stamp) <= before]
        if not old:
            return stream
        sent = {(int(stamp), line) for stamp, line in stream.values}
        stands: set[tuple[int, str]] = set()
        try:
            async for page in pages.walk(self.ask, pages.Range(tenant, name, min(old), max(old) + 1)):
                stands |= sent & {(int(entry["stamp"]), entry["line"]) for entry in page if entry["stream"] == name}
        except Fault as fault:
            raise unavailable(f"whether these entries stand already cannot be told: {fault.text}") from None
        return Stream(stream.labels, [[stamp, line] for stamp, line in stream.values if (int(stamp), line) not in stands])

    async def _before(self, tenant: str, name: str) -> int:
        """The greatest stamp that the stream may have had before this start, or -1. It is asked for once, as long as it is kept.

        The name as a selector also takes streams with further labels: then this is too great, and more is asked for.
        """
        kept = self._kept(tenant, name)
        if kept is not None:
            return kept
        doubts = self.doubts
        reply = await self.ask(pages.Range(tenant, name, backward=True).command(1))
        if reply.get("number") in (BAD_SELECTOR, TOO_WIDE):
            return -1  # No stream has such labels: the push will be refused.
        if "error" in reply:
            raise unavailable(f"whether these entries stand already cannot be told: {reply}\n")
        before = max((int(entry["stamp"]) for entry in reply["query"]["entries"]), default=-1)
        # Where something has come into doubt meanwhile, this may be too little for what is sent again.
        if doubts == self.doubts:
            self.stamps[tenant, name] = before
            if len(self.stamps) > MOST_STREAMS:
                self.stamps.popitem(last=False)
        return before
