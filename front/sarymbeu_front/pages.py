"""Entries page by page, none lost between two pages and none twice."""
from collections.abc import AsyncIterator, Awaitable, Callable
from dataclasses import dataclass, replace

from .faults import Fault, refused
from .stamps import STAMP_LIMIT

# The most entries of one answer of the program.
MOST = 5000
# A first page is short, since its lines may be long: 1,000 of them have at most 256 MiB. Those that follow are made so long
# that their lines have about PAGE_BYTES, by the lines of the page before.
FIRST_PAGE, LEAST_PAGE = 1000, 100
PAGE_BYTES = 1 << 23
Ask = Callable[[dict], Awaitable[dict]]


@dataclass
class Range:
    """What is asked for: a tenant's entries of a selector with stamps from `start` to below `end`.

    With `after`, the place that a reply gives as `next`, those alone that stand behind it in their order.
    """

    tenant: str
    selector: str
    start: int = 0
    end: int = STAMP_LIMIT
    backward: bool = False
    after: dict | None = None

    def command(self, limit: int) -> dict:
        """The command for a page, the first `limit` entries."""
        direction = "backward" if self.backward else "forward"
        command = {"cmd": "query", "tenant": self.tenant, "query": self.selector, "limit": limit, "direction": direction}
        command |= {"start": str(self.start), "end": str(self.end), "pages": True}
        return command if self.after is None else command | {"after": self.after}


async def walk(ask: Ask, wanted: Range, limit: int = FIRST_PAGE) -> AsyncIterator[list[dict]]:
    """All entries that are wanted, in order, in pages, the first of at most `limit`, which is at most MOST.

    Each page goes on exactly behind the last entry of the one before, however many have its stamp: none comes twice. Of what is
    accepted meanwhile, what stands behind that entry is found, and what stands before it is not.

    Raises Fault: 400 for a selector that the program does not read, 500 as where the store did not give what is stored, or where
    the program does not tell where the next page begins.
    """
    if wanted.start >= wanted.end:
        return
    while True:
        reply = await ask(wanted.command(limit))
        if "error" in reply:
            raise refused("query", reply)
        page, after = reply["query"]["entries"], reply["query"].get("next")
        yield page
        if after is None and len(page) == limit:
            raise Fault(500, "the program does not tell where the next page begins; it is older than the front\n")
        if after is None:
            return
        wanted, limit = replace(wanted, after=after), _next_limit(page)


def _next_limit(page: list[dict]) -> int:
    """How many entries like these make a page of about PAGE_BYTES."""
    mean = sum(len(entry["line"]) + 64 for entry in page) / len(page)
    return int(min(MOST, max(LEAST_PAGE, PAGE_BYTES / mean)))
