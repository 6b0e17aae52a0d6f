"""Of LogQL what is understood: a selector with `=` and `!=`, and behind it line filters `|=` and `!=`."""
from dataclasses import dataclass, field

from .labels import escaped
from .scan import Scanner, Unread

# Longer tokens stand before those that they begin with.
MATCHES = ("=~", "!~", "!=", "=")
FILTERS = ("|=", "!=")


@dataclass(frozen=True)
class Matcher:
    """A label's value that is wanted, or with `negated` is not; an absent label has the empty value."""

    name: str
    negated: bool
    value: str


@dataclass(frozen=True)
class Filter:
    """A text that a line has to hold, or with `negated` must not."""

    negated: bool
    text: str


@dataclass
class Query:
    """A selector and line filters, all of which have to hold."""

    matchers: list[Matcher] = field(default_factory=list)
    filters: list[Filter] = field(default_factory=list)

    def selector(self) -> str:
        """The selector as the program reads it."""
        matchers = (f'{one.name}{"!=" if one.negated else "="}"{escaped(one.value)}"' for one in self.matchers)
        return "{" + ", ".join(matchers) + "}"

    def keeps(self, line: str) -> bool:
        """Whether a line passes all filters."""
        return all((one.text in line) != one.negated for one in self.filters)


def read_query(text: str) -> Query:
    """The query of this text. Raises Unread, with the place of what is not understood."""
    scanner, query = Scanner(text), Query()
    if not scanner.take("{"):
        raise scanner.fault(f"a selector in braces is wanted, not {scanner.rest()}; metric queries are not understood")
    while not query.matchers or not scanner.take("}"):
        if query.matchers and not scanner.take(","):
            raise scanner.fault(f", or }} is wanted, not {scanner.rest()}")
        query.matchers.append(_matcher(scanner))
    if not any(one.value and not one.negated for one in query.matchers):
        raise scanner.fault("a selector needs at least one matcher name=\"value\" whose value is not empty", 0)
    scanner.space()
    while scanner.at < len(text):
        query.filters.append(_filter(scanner))
        scanner.space()
    if scanner.mended:
        raise scanner.fault("a text in this query is no UTF-8", 0)
    return query


def _matcher(scanner: Scanner) -> Matcher:
    name = scanner.name()
    token = scanner.take(*MATCHES)
    if token in ("=~", "!~"):
        raise scanner.fault(f"{token} is not understood: only = and != are", scanner.at - 2)
    if token is None:
        raise scanner.fault(f"= or != is wanted, not {scanner.rest()}")
    return Matcher(name, token == "!=", scanner.quoted())


def _filter(scanner: Scanner) -> Filter:
    token = scanner.take(*FILTERS)
    if token is None:
        raise scanner.fault(f"only the line filters |= and != are understood here, not {scanner.rest()}")
    return Filter(token == "!=", scanner.quoted())


__all__ = ["Filter", "Matcher", "Query", "Unread", "read_query"]
