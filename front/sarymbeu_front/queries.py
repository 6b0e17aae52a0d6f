"""`GET /loki/api/v1/query_range`, `query`, `labels`, `label/NAME/values` and `series`."""
import asyncio
import contextlib
import time
from collections.abc import AsyncIterator, Mapping

from aiohttp import web

from . import answers, pages
from .faults import Fault, refused
from .labels import labels_of
from .logql import Query, Unread, read_query
from .stamps import SECOND, duration, moment
from .tenants import tenant_of

DEFAULT_LIMIT, DEFAULT_SINCE = 100, "1h"
# The most bytes of lines in one answer.
MAX_ANSWER = 1 << 28
HEALTH = "vector(1)+vector(1)"
EVERY_STREAM = "{}"


class Queries:
    """Answers queries."""

    def __init__(self, ask: pages.Ask, settings):
        self.ask = ask
        self.settings = settings
        self.turns = asyncio.Semaphore(settings.max_concurrent)

    async def range(self, request: web.Request) -> web.Response:
        """`query_range`. Raises Fault."""
        words = request.query
        query = query_of(_wanted(words, "query"))
        if words.get("interval", "0") not in ("0", "0s", ""):
            raise Fault(400, "interval: is not understood\n")
        end = moment("end", words["end"]) if "end" in words else time.time_ns()
        start = moment("start", words["start"]) if "start" in words else max(end - _since(words), 0)
        if end < start:
            raise Fault(400, "invalid query, through < from: end is below start\n")
        return await self._entries(request, query, start, end)

    async def instant(self, request: web.Request) -> web.Response:
        """`query`: the entries of a short while before `time`; and Grafana's question whether all is well. Raises Fault."""
        words = request.query
        text = _wanted(words, "query")
        now = moment("time", words["time"]) if "time" in words else time.time_ns()
        if text.replace(" ", "") == HEALTH:
            return answers.success(answers.two(now / SECOND))
        return await self._entries(request, query_of(text), max(now - self.settings.max_lookback_period, 0), now)

    async def _entries(self, request: web.Request, query: Query, start: int, end: int) -> web.Response:
        """The first entries of a query. Raises Fault: 400 as told in it, 500 of the store, and what a turn raises."""
        words, began = request.query, time.monotonic()
        backward, limit = _direction(words), self._limit(words)
        wanted = pages.Range(tenant_of(request), query.selector(), start, end, backward)
        async with self._turn():
            found, looked_at, size = await self._collect(wanted, query, limit)
        return answers.success(answers.streams(found, looked_at, size, began))

    @contextlib.asynccontextmanager
    async def _turn(self) -> AsyncIterator[None]:
        """One of the turns in which the program is asked. Raises Fault 504 where waiting and asking take too long."""
        try:
            async with asyncio.timeout(self.settings.query_timeout / SECOND), self.turns:
                yield
        except TimeoutError:
            raise Fault(504, "the query took too long; ask for a shorter range, or for fewer streams\n") from None

    async def _collect(self, wanted: pages.Range, query: Query, limit: int) -> tuple[list[dict], int, int]:
        """The first `limit` entries that pass the filters, how many were looked at, and the bytes of their lines.

        Raises Fault 400 where the answer would be too long, and what pages raise.
        """
        found, held, looked_at, size = [], 0, 0, 0
        first = pages.FIRST_PAGE if query.filters else min(limit, pages.FIRST_PAGE)
        async with contextlib.aclosing(pages.walk(self.ask, wanted, first)) as walk:
            async for page in walk:
                looked_at += len(page)
                size += sum(len(entry["line"]) for entry in page)
                kept = [entry for entry in page if query.keeps(entry["line"])][: limit - len(found)]
                found += kept
                held += sum(len(entry["line"]) for entry in kept)
                if held > MAX_ANSWER:
                    raise Fault(400, f"the answer is longer than {MAX_ANSWER} bytes; ask with a lower limit\n")
                if len(found) == limit:
                    break
        return found, looked_at, size

    def _limit(self, words: Mapping[str, str]) -> int:
        text, most = words.get("limit", str(DEFAULT_LIMIT)), self.settings.max_entries_limit
        if not (text.isascii() and text.isdigit() and len(text) < 10 and int(text) > 0):
            raise Fault(400, f"limit: {text!r} is no whole number above 0\n")
        if int(text) > most:
            raise Fault(400, f"max entries limit per query exceeded, limit > max_entries_limit ({text} > {most})\n")
        return int(text)

    async def labels(self, request: web.Request) -> web.Response:
        """`labels`: the names of the labels of all streams, or of those that `query` means. Raises Fault."""
        query = request.query.get("query") or EVERY_STREAM
        return answers.success(await self._told(request, "labels", [query]))

    async def values(self, request: web.Request) -> web.Response:
        """`label/NAME/values`: the values of a label, of the same streams. Raises Fault."""
        query = request.query.get("query") or EVERY_STREAM
        return answers.success(await self._told(request, "labels", [query], name=request.match_info["name"]))

    async def series(self, request: web.Request) -> web.Response:
        """`series`: the labels of each stream, or of each that a `match[]` means. Raises Fault."""
        texts = request.query.getall("match[]", []) + request.query.getall("match", [])
        names = await self._told(request, "series", texts or [EVERY_STREAM])
        return answers.success([labels_of(name) for name in names])

    async def _told(self, request: web.Request, what: str, texts: list[str], **members: str) -> list[str]:
        """What the command `what` tells of the streams that any of these selectors means, in byte order, each once.

        Raises Fault: 400 and 500 as for a query, and what a turn raises.
        """
        commands = [{"cmd": what, "tenant": tenant_of(request)} | members | selection_of(text) for text in texts]
        told: dict[str, None] = {}
        async with self._turn():
            for command in commands:
                reply = await self.ask(command)
                if "error" in reply:
                    raise refused("query", reply)
                told |= dict.fromkeys(reply[what])
        return sorted(told)


def query_of(text: str) -> Query:
    """The query of this text. Raises Fault 400, with the place of what is not understood."""
    try:
        return read_query(text)
    except Unread as fault:
        raise Fault(400, f"{fault}\n") from None


def selection_of(text: str) -> dict[str, str]:
    """The member of a command for a selector alone. Raises Fault 400.

    There is none for `{}`, which means every stream, as in Loki where streams and not lines are asked for.
    """
    if "".join(text.split()) == EVERY_STREAM:
        return {}
    query = query_of(text)
    if query.filters:
        raise Fault(400, f"only a selector is wanted, without line filters: {text}\n")
    return {"query": query.selector()}


def _wanted(words: Mapping[str, str], name: str) -> str:
    if name not in words:
        raise Fault(400, f"{name}: is missing\n")
    return words[name]


def _since(words: Mapping[str, str]) -> int:
    try:
        return duration(words.get("since", DEFAULT_SINCE))
    except ValueError as fault:
        raise Fault(400, f"since: {fault}\n") from None


def _direction(words: Mapping[str, str]) -> bool:
    """Whether the newest entries come first, as they do where nothing is said. Raises Fault 400."""
    direction = words.get("direction", "backward").lower()
    if direction not in ("forward", "backward"):
        raise Fault(400, f"direction: {direction!r} is neither forward nor backward\n")
    return direction == "backward"
