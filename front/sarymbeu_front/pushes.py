"""`POST /loki/api/v1/push`."""
import contextlib
import time
from collections.abc import Iterator

from aiohttp import web

from . import bodies, memory, verdicts
from .bodies import MAX_BODY, Stream
from .child import Child
from .faults import Fault, refused, unavailable
from .limits import AllLimits
from .metrics import Metrics
from .resent import Resent
from .tenants import tenant_of

# What a request takes beside its body, about, in bytes.
REQUEST_BYTES = 1024


class Waiting:
    """Bounds the bytes of the pushes that are read or wait for an answer."""

    def __init__(self, most: int, metrics: Metrics):
        self.most = most
        self.metrics = metrics
        self.bytes = 0

    def take(self, count: int) -> int:
        """Takes room for so many bytes, and gives their number. Raises Fault 503 where there is none."""
        if self.bytes + count > self.most:
            raise unavailable("too many pushes wait for an answer\n")
        self.bytes += count
        self.metrics.waiting_bytes.set(self.bytes)
        return count

    @contextlib.contextmanager
    def room(self) -> Iterator[list[int]]:
        """A list of what was taken, which is given back at the end."""
        taken: list[int] = []
        try:
            yield taken
        finally:
            self.bytes -= sum(taken)
            self.metrics.waiting_bytes.set(self.bytes)


class Pushes:
    """Answers pushes."""

    def __init__(self, child: Child, limits: AllLimits, resent: Resent, metrics: Metrics, settings):
        self.child = child
        self.limits = limits
        self.resent = resent
        self.metrics = metrics
        self.drop_metadata = settings.structured_metadata == "drop"
        self.waiting = Waiting(settings.max_waiting_bytes, metrics)
        self.memory = memory.Memory(settings.remembered_answers)

    async def handle(self, request: web.Request) -> web.Response:
        """The answer to a push. Raises Fault: 400, 413 and 415 for its body, 503 where it has to wait."""
        tenant = tenant_of(request)
        kind = bodies.kind_of(request.headers.get("Content-Type"))
        with self.waiting.room() as taken:
            taken.append(self.waiting.take(REQUEST_BYTES))
            body = await self._read(request, taken)
            message = bodies.unpacked(body, request.headers.get("Content-Encoding", ""), kind)
            taken.append(self.waiting.take(len(message)))
            self.metrics.received_bytes.inc(len(message))
            key = memory.key_of(tenant, kind, message)
            answer, again = await self.memory.answer(key, lambda before: self._push(tenant, kind, message, before))
        if again:
            self.metrics.remembered.inc()
        return web.Response(status=answer.status, text=answer.text or None)

    async def _read(self, request: web.Request, taken: list[int]) -> bytes:
        """The body of a request as it was sent. Raises Fault 413, and 503 where there is no room for it."""
        if (request.content_length or 0) > MAX_BODY:
            raise bodies.too_large("the body")
        pieces, size = [], 0
        async for piece in request.content.iter_any():
            taken.append(self.waiting.take(len(piece)))
            pieces.append(piece)
            size += len(piece)
            if size > MAX_BODY:
                raise bodies.too_large("the body")
        return b"".join(pieces)

    async def _push(self, tenant: str, kind: str, message: bytes, before: memory.Answer | None) -> memory.Answer:
        """Pushes a body, or of one that was answered before the streams that were too many then. Raises Fault."""
        # Room of its own, for what is read of the body: this goes on when the client has gone away.
        with self.waiting.room() as taken:
            taken.append(self.waiting.take(REQUEST_BYTES + len(message)))
            body = bodies.read(message, kind, self.drop_metadata)
            streams = [(place, stream) for place, stream in enumerate(body.streams) if before is None or place in before.again]
            outcome = await self._send_what_is_new(tenant, streams)
        # Counted by the body, so that the sum of what came of lines can be held against it.
        self.metrics.lines.inc(entries_of(streams) - outcome.unanswered)
        self._count(outcome)
        if outcome.fault is not None:
            raise outcome.fault
        if before is None:
            self.metrics.mended.inc(body.mended)
            self.metrics.metadata.inc(body.metadata)
            before = memory.Answer(204, entries=sum(len(stream.values) for stream in body.streams))
        return answer_of(outcome, before)

    async def _send_what_is_new(self, tenant: str, streams: list[tuple[int, Stream]]) -> verdicts.Outcome:
        """What comes of these streams, without what stands from before this start. Raises Fault where nothing was sent."""
        if not self.resent.may_stand(tenant, streams):
            return await self._send(tenant, streams)
        async with self.resent.lock:
            new = await self.resent.without_standing(tenant, streams)
            outcome = await self._send(tenant, new)
        outcome.already_there = entries_of(streams) - entries_of(new)
        return outcome

    async def _send(self, tenant: str, streams: list[tuple[int, Stream]]) -> verdicts.Outcome:
        """What the program says to these streams. Raises Fault where nothing was sent."""
        limits = self.limits.of(tenant)
        parts = verdicts.parts_of(streams, limits.max_entries_per_push)
        if not parts:
            return verdicts.Outcome()
        members, fault, in_doubt = await self._ask(tenant, parts)
        if in_doubt:
            self.resent.doubt(tenant, streams)
        outcome = verdicts.judge(parts, members, limits, tenant)
        outcome.fault = fault
        return outcome

    async def _ask(self, tenant: str, parts: list[verdicts.Part]) -> tuple[list[dict | None], Fault | None, bool]:
        """The member of a reply for each part, or None; why one is None; and whether some parts may have been taken nevertheless.

        The parts of one home are one command, which is refused in whole or not. Raises Fault where nothing was sent.
        """
        homes: dict[int, list[int]] = {}
        for place, part in enumerate(parts):
            homes.setdefault(self.child.home_of(tenant, part.content.labels), []).append(place)
        head = {"cmd": "push", "tenant": tenant, "now": str(time.time_ns())}
        replies = await self.child.push({home: head | {"streams": members_of(parts, homes[home])} for home in homes})
        members: list[dict | None] = [None] * len(parts)
        faults = []
        for places, reply in zip(homes.values(), replies, strict=True):
            if isinstance(reply, Fault) or "error" in reply:
                faults.append(fault_of(reply))
                continue
            for place, member in zip(places, reply["push"], strict=True):
                members[place] = member
        in_doubt = bool(faults) and (len(replies) > 1 or isinstance(replies[0], Fault))
        return members, faults[0] if faults else None, in_doubt

    def _count(self, outcome: verdicts.Outcome) -> None:
        self.metrics.already_there.inc(outcome.already_there)
        self.metrics.accepted.inc(outcome.accepted)
        self.metrics.duplicate.inc(outcome.duplicate)
        self.metrics.not_durable.inc(outcome.not_durable)
        for reason, count in outcome.refused.items():
            self.metrics.refused.labels(reason).inc(count)


def members_of(parts: list[verdicts.Part], places: list[int]) -> list[dict]:
    """The members of a push for the parts at these places."""
    return [{"stream": parts[place].content.labels, "values": parts[place].content.values} for place in places]


def fault_of(reply: dict | Fault) -> Fault:
    """The answer where a push has no reply, or is refused."""
    return reply if isinstance(reply, Fault) else refused("push", reply)


def entries_of(streams: list[tuple[int, Stream]]) -> int:
    """How many entries these streams have."""
    return sum(len(stream.values) for _, stream in streams)


def answer_of(outcome: verdicts.Outcome, before: memory.Answer) -> memory.Answer:
    """The answer to a push, by what came of it and what was answered before.

    429 as long as a stream is one too many: the agent sends all again, and only such streams are pushed again. Then 400 with
    the first reason, where an entry was refused for good; else 204.
    """
    for_good = sum(count for reason, count in outcome.refused.items() if reason != verdicts.TOO_MANY_STREAMS)
    ignored, reason = before.ignored + for_good, before.reason or outcome.reason
    kept = {"ignored": ignored, "reason": reason, "entries": before.entries}
    if outcome.again:
        return memory.Answer(429, outcome.too_many + "\n", frozenset(outcome.again), **kept)
    if reason:
        return memory.Answer(400, f"{reason}\ntotal ignored: {ignored} out of {before.entries}\n", **kept)
    return memory.Answer(204, **kept)
