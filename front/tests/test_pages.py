"""Pages over a plain list of entries, in both directions, while more is pushed."""
import asyncio
import random

import pytest

from sarymbeu_front import pages
from sarymbeu_front.bodies import Stream
from sarymbeu_front.faults import Fault
from sarymbeu_front.resent import Resent


class Store:
    """Answers queries of entries as the program does: by stamp, then stream, then as accepted."""

    def __init__(self, entries):
        self.entries = entries
        self.asked = []
        self.last = None

    def places(self):
        """The place of each entry; forward they stand in the order of these."""
        return [(stamp, stream, number) for number, (stamp, stream, _) in enumerate(self.entries)]

    async def ask(self, command):
        self.asked.append(command)
        assert len(self.asked) < 1000, "pages have no end"
        backward, limit = command["direction"] == "backward", command["limit"]
        wanted = [place for place in self.places() if int(command["start"]) <= place[0] < int(command["end"])]
        if "after" in command:
            after = place_of(command["after"])
            wanted = [place for place in wanted if place != after and (place < after) == backward]
        wanted = sorted(wanted, reverse=backward)[:limit]
        found = [{"line": self.entries[number][2], "stamp": str(stamp), "stream": stream} for stamp, stream, number in wanted]
        answer = {"entries": found, "fronts": [0]}
        self.last = wanted[-1] if command["pages"] and len(found) == limit else None
        if self.last:
            answer["next"] = {"number": self.last[2], "stamp": str(self.last[0]), "stream": self.last[1]}
        return {"query": answer}

    def in_order(self, places, backward):
        """The entries at these places, as they are to be found."""
        return [self.entries[number] for _, _, number in sorted(places, reverse=backward)]


def place_of(cursor):
    return int(cursor["stamp"]), cursor["stream"], cursor["number"]


def walked(store, backward, limit, between=lambda: None, **stamps):
    async def work():
        found = []
        async for page in pages.walk(store.ask, pages.Range("t", "{}", backward=backward, **stamps), limit):
            found += [(int(entry["stamp"]), entry["stream"], entry["line"]) for entry in page]
            between()
        return found

    return asyncio.run(work())


def drawn(lot, count, stamps):
    return [(lot.randrange(stamps), lot.choice("ab"), lot.choice("xyz")) for _ in range(count)]


@pytest.mark.parametrize("seed", range(10))
@pytest.mark.parametrize("stamps", [40, 3, 1])
@pytest.mark.parametrize("backward", [False, True])
def test_each_entry_comes_once_and_in_order(seed, stamps, backward, monkeypatch):
    lot = random.Random(seed)
    monkeypatch.setattr(pages, "MOST", lot.randrange(1, 30))
    store = Store(drawn(lot, 200, stamps))
    assert walked(store, backward, lot.randrange(1, 12)) == store.in_order(store.places(), backward)
    start, end = sorted(lot.choices(range(stamps + 1), k=2))
    within = [place for place in store.places() if start <= place[0] < end]
    assert walked(store, backward, lot.randrange(1, 12), start=start, end=end) == store.in_order(within, backward)


@pytest.mark.parametrize("seed", range(10))
@pytest.mark.parametrize("stamps", [40, 3, 1])
@pytest.mark.parametrize("backward", [False, True])
def test_of_what_is_pushed_meanwhile_comes_what_stands_behind_and_nothing_twice(seed, stamps, backward, monkeypatch):
    lot = random.Random(seed)
    monkeypatch.setattr(pages, "MOST", lot.randrange(5, 30))
    store = Store(drawn(lot, 150, stamps))
    wanted = store.places()

    def more():
        """Three entries, between two pages."""
        if store.last:
            store.entries += drawn(lot, 3, stamps)
            wanted.extend(place for place in store.places()[-3:] if (place < store.last) == backward)

    found = walked(store, backward, lot.randrange(1, 12), more)
    assert found == store.in_order(wanted, backward) and len(store.entries) > 150


@pytest.mark.parametrize("count", [12000, 11000])
@pytest.mark.parametrize("backward", [False, True])
def test_more_of_one_stamp_than_an_answer_holds_come_in_pages(count, backward):
    store = Store([(4, "a", "x"), (6, "a", "x")] + [(5, "ab"[number % 2], f"line {number}") for number in range(count)])
    assert walked(store, backward, pages.FIRST_PAGE) == store.in_order(store.places(), backward)
    # Where pages end with the last entry, one more is asked for.
    at_five = [place for place in store.places() if place[0] == 5]
    store.asked.clear()
    assert walked(store, backward, pages.FIRST_PAGE, start=5, end=6) == store.in_order(at_five, backward)
    assert [command["limit"] for command in store.asked] == [pages.FIRST_PAGE] + [pages.MOST] * 3
    assert [command.get("after") is None for command in store.asked] == [True, False, False, False]


def test_nothing_is_asked_where_no_stamp_is_wanted():
    store = Store([(5, "a", "x")])
    assert walked(store, False, 10, start=5, end=5) == [] and store.asked == []


def test_a_refusal_between_two_pages_ends_them():
    store = Store([(5, "a", "x")] * 20)

    async def ask(command):
        return {"error": "StoreFault", "number": 26} if "after" in command else await store.ask(command)

    async def work():
        async for page in pages.walk(ask, pages.Range("t", "{}"), 10):
            assert len(page) == 10

    with pytest.raises(Fault) as fault:
        asyncio.run(work())
    assert fault.value.status == 500 and "StoreFault" in fault.value.text


def test_a_program_that_knows_of_no_pages_ends_no_walk_early():
    store = Store([(5, "a", "x")] * 10)

    async def ask(command):
        return await store.ask(command | {"pages": False})

    async def work(limit):
        return [len(page) async for page in pages.walk(ask, pages.Range("t", "{}"), limit)]

    assert asyncio.run(work(11)) == [10]
    with pytest.raises(Fault) as fault:
        asyncio.run(work(10))
    assert fault.value.status == 500 and "older than the front" in fault.value.text


def test_what_stands_among_many_of_one_stamp_is_left_out():
    name = '{a="1"}'
    store = Store([(5, name, f"line {number}") for number in range(12000)] + [(6, name, "x")])
    sent = [["5", "line 11999"], ["5", "new"], ["5", "line 0"], ["6", "x"], ["6", "line 0"], ["7", "line 1"]]
    (left,) = asyncio.run(Resent(store.ask, None).without_standing("t", [(0, Stream({"a": "1"}, sent))]))
    assert left == (0, Stream({"a": "1"}, [["5", "new"], ["6", "line 0"], ["7", "line 1"]]))


def test_pages_are_shorter_where_lines_are_long():
    entry = {"line": "x" * 100000, "stamp": "1", "stream": "a"}
    assert pages._next_limit([entry]) == pages.LEAST_PAGE and pages._next_limit([entry | {"line": ""}]) == pages.MOST
