"""The program's verdicts on a push, in Loki's words."""
import collections
from collections.abc import Iterator
from dataclasses import dataclass, field

from .bodies import Stream
from .faults import Fault
from .labels import canonical_name
from .limits import Limits
from .stamps import rfc3339

TOO_MANY_STREAMS = "stream_limit"
# Refusals of a stream by the program's number: the name for counts, as Loki has it where it has one.
STREAM_REFUSALS = {
    1: "invalid_labels",
    2: "invalid_labels",
    3: "missing_labels",
    4: "max_label_names_per_series",
    5: "label_name_too_long",
    6: "label_value_too_long",
    19: "counter_full",
    32: "too_many_entries",
}


@dataclass
class Part:
    """Entries of one stream of a body, as they are sent: `stream` is its place there, `first` how many are sent before."""

    stream: int
    first: int
    content: Stream


@dataclass
class Outcome:
    """What came of the streams of a push, in entries. `again` are streams of the body that were too many.

    Of `unanswered` entries it is not known, since `fault` came in the place of a reply.
    """

    accepted: int = 0
    duplicate: int = 0
    already_there: int = 0
    not_durable: int = 0
    refused: collections.Counter = field(default_factory=collections.Counter)
    reason: str = ""
    too_many: str = ""
    again: set[int] = field(default_factory=set)
    unanswered: int = 0
    fault: Fault | None = None

    def refuse(self, name: str, text: str, count: int = 1) -> None:
        """Counts entries that are refused for good."""
        self.refused[name] += count
        self.reason = self.reason or text

    def limit_streams(self, part: Part, tenant: str, live: int) -> None:
        """Counts an entry whose stream is one too many."""
        name = canonical_name(part.content.labels)
        self.refused[TOO_MANY_STREAMS] += 1
        self.again.add(part.stream)
        self.too_many = self.too_many or (
            f"Maximum active stream limit exceeded when trying to create stream {name}, reduce the number of active streams "
            f"(reduce labels or reduce label values): {live} are live, user: {tenant}"
        )


def parts_of(streams: list[tuple[int, Stream]], most: int) -> list[Part]:
    """Streams with their places in the body as parts of at most `most` entries, the program's limit for one stream of a push."""
    return [part for place, stream in streams for part in _parts(place, stream, most)]


def _parts(place: int, stream: Stream, most: int) -> Iterator[Part]:
    for first in range(0, len(stream.values), most):
        yield Part(place, first, Stream(stream.labels, stream.values[first : first + most]))


def judge(parts: list[Part], replies: list[dict | None], limits: Limits, tenant: str) -> Outcome:
    """What came of `parts`, by the member of the reply for each, or None where there is none."""
    outcome = Outcome()
    for part, reply in zip(parts, replies, strict=True):
        if reply is None:
            outcome.unanswered += len(part.content.values)
            continue
        if "error" in reply:
            name = STREAM_REFUSALS.get(reply["number"], reply["error"])
            outcome.refuse(name, stream_reason(part.content, reply, limits), len(part.content.values))
            continue
        before = outcome.accepted
        for number, verdict in zip(range(len(part.content.values)), reply["verdicts"], strict=True):
            _judge_entry(outcome, part, number, verdict, reply["stream"], limits, tenant)
        if not reply["durable"]:
            outcome.not_durable += outcome.accepted - before
    return outcome


def _judge_entry(
    outcome: Outcome, part: Part, number: int, verdict: str | dict, name: str, limits: Limits, tenant: str
) -> None:
    """Counts entry `number` of a part, of the stream `name`."""
    if "accepted" in verdict:
        outcome.accepted += 1
        return
    if verdict == "duplicate":
        outcome.duplicate += 1
        return
    stamp, line = part.content.values[number]
    place = f"stream: {name}, entry {part.first + number}"
    if verdict == "line_too_long":
        size, limit = len(line.encode()), limits.max_line_size
        text = f"Max entry size '{limit}' bytes exceeded for stream '{name}' while adding an entry with length '{size}' bytes"
        outcome.refuse("line_too_long", f"{text}, {place}")
    elif "too_far_behind" in verdict:
        given, limit = rfc3339(int(stamp)), rfc3339(int(verdict["too_far_behind"]))
        text = f"entry too far behind, entry timestamp is: {given}, oldest acceptable timestamp is: {limit}"
        outcome.refuse("too_far_behind", f"{text}, {place}")
    elif "too_many_streams" in verdict:
        outcome.limit_streams(part, tenant, verdict["too_many_streams"])
    else:
        outcome.refuse("unknown", f"the program's verdict {verdict!r} is not known, {place}")


def stream_reason(stream: Stream, refusal: dict, limits: Limits) -> str:
    """Why a whole stream is refused, with the label at fault."""
    name, number = canonical_name(stream.labels), refusal["number"]
    label, value = _label_at(stream, refusal.get("at"))
    if number == 1:
        return f"stream '{name}' has the label name '{label}', which is not one or more of a-z A-Z 0-9 _, or begins with a digit"
    if number == 3:
        return "error at least one label pair is required per stream"
    if number == 4:
        count = sum(1 for text in stream.labels.values() if text)
        return f"entry for stream '{name}' has {count} label names; limit {limits.max_label_names}"
    if number == 5:
        return f"stream '{name}' has label name too long: '{label}'; limit {limits.max_label_name_length} bytes"
    if number == 6:
        limit = limits.max_label_value_length
        return f"stream '{name}' has label value too long: '{label}' has {len(value.encode())} bytes; limit {limit}"
    if number == 32:
        return f"stream '{name}' has more entries in one push than {limits.max_entries_per_push}"
    return f"stream '{name}' is refused: {refusal['error']} ({number})"


def _label_at(stream: Stream, at: int | None) -> tuple[str, str]:
    """The label at this place in byte order of names, and its value."""
    pairs = sorted(stream.labels.items(), key=lambda pair: pair[0].encode())
    return pairs[at] if at is not None and at < len(pairs) else ("", "")
