"""Stamps: nanoseconds since 1970, from 0 to below 2^63."""
import datetime
import decimal
import re

from .faults import Fault

SECOND = 10**9
STAMP_LIMIT = 2**63
UNITS = {"ns": 1, "us": 10**3, "µs": 10**3, "ms": 10**6, "s": SECOND, "m": 60 * SECOND, "h": 3600 * SECOND}
UNITS |= {"d": 86400 * SECOND, "w": 7 * 86400 * SECOND}
DURATION = re.compile(r"(?:[0-9]+(?:\.[0-9]+)?(?:ns|us|µs|ms|[smhdw]))+")
DURATION_PART = re.compile(r"([0-9.]+)(ns|us|µs|ms|[smhdw])")
DECIMAL = re.compile(r"[+-]?[0-9]+(?:\.[0-9]*)?(?:[eE][+-]?[0-9]{1,2})?")
TIME = re.compile(r"(\d{4}-\d{2}-\d{2})[Tt](\d{2}:\d{2}:\d{2})(?:\.(\d{1,9}))?([Zz]|[+-]\d{2}:\d{2})")
EPOCH = datetime.datetime(1970, 1, 1, tzinfo=datetime.timezone.utc)


def is_stamp(text: object) -> bool:
    """Whether the program would take this as a stamp: a text of 1 to 19 digits, below 2^63."""
    if not isinstance(text, str) or not (text.isascii() and text.isdigit()) or len(text) > 19:
        return False
    return len(text) < 19 or int(text) < STAMP_LIMIT


def duration(text: str) -> int:
    """The nanoseconds of a duration in Loki's form, as `1h30m`. Raises ValueError."""
    if DURATION.fullmatch(text) is None:
        raise ValueError(f"{text!r} is no duration such as 30s, 5m or 1h30m")
    parts = DURATION_PART.findall(text)
    return int(sum(decimal.Decimal(number) * UNITS[unit] for number, unit in parts))


def moment(name: str, text: str) -> int:
    """The stamp of a time in one of Loki's forms, held within 0 to 2^63.

    A number with a point, or of at most 10 digits, is in seconds; another is in nanoseconds; else it is a time of RFC 3339.
    Raises Fault 400, which gives the parameter `name`.
    """
    if DECIMAL.fullmatch(text):
        whole = text.isdigit() and len(text) > 10 or text.startswith("-") and text[1:].isdigit() and len(text) > 10
        stamp = int(text) if whole else int(decimal.Decimal(text) * SECOND)
    else:
        stamp = _rfc3339(text)
    if stamp is None:
        raise Fault(400, f"{name}: {text!r} is no time: nanoseconds, seconds or RFC 3339 are understood\n")
    return min(max(stamp, 0), STAMP_LIMIT)


def _rfc3339(text: str) -> int | None:
    """The stamp of a time of RFC 3339, with up to nine digits behind the point, or None."""
    found = TIME.fullmatch(text)
    if found is None:
        return None
    date, time, fraction, zone = found.groups()
    try:
        whole = datetime.datetime.fromisoformat(f"{date}T{time}{'+00:00' if zone in 'Zz' else zone}")
    except ValueError:
        return None
    since = whole - EPOCH
    return (since.days * 86400 + since.seconds) * SECOND + int((fraction or "").ljust(9, "0"))


def rfc3339(stamp: int) -> str:
    """A stamp as Loki writes it in its answers: RFC 3339 in UTC, without zeros at the end of the fraction."""
    whole = EPOCH + datetime.timedelta(seconds=stamp // SECOND)
    fraction = f".{stamp % SECOND:09}".rstrip("0").rstrip(".")
    return whole.strftime("%Y-%m-%dT%H:%M:%S") + fraction + "Z"
