"""How a body is run with a growth refused, and what has to hold then."""
import itertools
import json
import pathlib
import shutil
import sys
from dataclasses import dataclass

from refusing import TOP

sys.path.insert(0, str(TOP / "kills"))
from kills import GROWING, SEALED, Folder, Model, entries_of  # noqa: E402

CASES = TOP / "crates" / "test_ctl_cases" / "data"
ENDED, SURVIVED, FAILED = "ended", "survived", "failed"
REPORT = b'{"report":'
WELL, NO_MEMORY = (0, b""), (3, b"ingestd: NoMemory\n")
UNREAD = 2
# How a line begins and ends by which `ingestctl` says that memory ran out.
SAYS, WHY = (b"ingestctl: ", b"error: "), (b"out of memory\n", b"memory allocation failed\n")


class Difference(Exception):
    """What is not as it is promised."""


def require(holds, says):
    if not holds:
        raise Difference(says)


def shown(ran):
    return f"status {ran.status}, on standard error {ran.errors.decode(errors='replace')!r} and on standard output\n{ran.output.decode(errors='replace')}"


def is_same(ran, full):
    return (ran.status, ran.output, ran.errors) == (full.status, full.output, full.errors)


def require_front(ran, full, ends=b"\n"):
    """What is written ends so, and is the beginning of what the run that was refused nothing wrote."""
    is_front = full.output.startswith(ran.output) and (ran.output.endswith(ends) or not ran.output)
    require(is_front, f"no whole first lines: {shown(ran)}")


def ending_of(ran, full):
    """How a run of `ingestd` ended."""
    if is_same(ran, full):
        return SURVIVED
    require((ran.status, ran.errors) == NO_MEMORY, f"another ending: {shown(ran)}")
    require_front(ran, full)
    require(REPORT not in ran.output, f"a report: {shown(ran)}")
    return ENDED


def write_files(place, files):
    for name, text in files.items():
        (place / name).write_bytes(text if isinstance(text, bytes) else text.encode())


def files_in(place):
    return {path.relative_to(place): path.read_bytes() for path in place.rglob("*") if path.is_file()}


class Alone:
    """`ingestd` in memory."""

    def __init__(self, program, body, place):
        self.program, self.body, self.place = program, body, place
        write_files(place, body.files)
        self.full = self.run(0)
        require(self.full.status == body.status, f"refused nothing: {shown(self.full)}")

    def run(self, number):
        return self.program.run(self.body.words, self.body.given, number, self.place, self.body.closed)

    def look(self, number):
        ran = self.run(number)
        return ran, ending_of(ran, self.full)


@dataclass
class Below(Folder):
    """A folder that is to be made below others."""

    def path(self):
        return self.place / "above" / "more" / "folder"


class OverFolder:
    """`ingestd` over a folder, which is as it was before each run."""
    may_fail = False  # an upload for which memory runs out ends the run

    def __init__(self, program, body, place):
        self.program, self.body = program, body
        kind = Below if body.is_below else Folder
        self.base, self.folder = kind(place / "base", body.settings), kind(place / "run", body.settings)
        self.base.make()
        if body.before:
            before = self.start(self.base, body.before)
            require((before.status, before.errors) == WELL, f"before: {shown(before)}")
        body.change(self.base.path())
        self.before = self.base.read()
        self.full = self.run(0)
        require((self.full.status, self.full.errors) == WELL, f"refused nothing: {shown(self.full)}")

    def start(self, folder, lines, number=0):
        _, *words = folder.words(None)
        return self.program.run(words, "".join(line + "\n" for line in lines).encode(), number, folder.place)

    def run(self, number):
        shutil.rmtree(self.folder.place, ignore_errors=True)
        shutil.copytree(self.base.place, self.folder.place)
        return self.start(self.folder, self.body.lines, number)

    def ending_of(self, ran):
        return ending_of(ran, self.full)

    def look(self, number):
        ran = self.run(number)
        how = self.ending_of(ran)
        if how == ENDED:
            # A start that is ended at once removes nothing of what was being written when a program was stopped.
            require({*self.folder.unfinished()} <= {*self.base.unfinished()}, f"there lie {self.folder.unfinished()}")
        found = self.found_behind(ran, self.body.lines, self.before)
        self.start_again(found)
        return ran, how

    def found_behind(self, ran, lines, before):
        """What lies in the folder behind a run, if it fits what lay there, the lines and the replies."""
        model, (replies, report) = Model(self.folder, before, self.may_fail), self.told_by(ran)
        for line, reply in itertools.zip_longest(lines, replies):
            model.note(json.loads(line), reply)
        if report:
            model.check_report(report)
        require(ran.status or not self.folder.unfinished(), f"there lie {self.folder.unfinished()}")
        found = self.folder.read()
        model.check_found(found)
        told = sum(reply.get("flush", {}).get("stored", 0) for reply in replies)
        stored = stored_in(found) - stored_in(before)
        require(stored >= told, f"{told} chunks were told stored, and {stored} are")
        return found

    def told_by(self, ran):
        """The replies, and the report, or None."""
        replies = [json.loads(reply) for reply in ran.output.splitlines()]
        return (replies[:-1], replies[-1]["report"]) if ran.status == 0 else (replies, None)

    def start_again(self, found):
        """A new start finds all, and obeys the same lines."""
        kept = {stream: entries_of(chunks) for stream, chunks in found.items()}
        lines = [query_for(stream) for stream in kept] + self.body.lines
        ran = self.start(self.folder, lines)
        require((ran.status, ran.errors) == WELL, f"a new start: {shown(ran)}")
        self.found_behind(ran, lines, found)


class OnChannel(OverFolder):
    """`ingestd` over a folder with one channel, of two files."""
    may_fail = True

    def __init__(self, program, body, place):
        super().__init__(program, body, place)
        self.whole = self.told

    def start(self, folder, lines, number=0):
        _, *words = folder.words(None)
        given, replies = folder.place / "in", folder.place / "out"
        given.write_text("".join(line + "\n" for line in lines))
        replies.unlink(missing_ok=True)
        ran = self.program.run([*words, given, replies], b"", number, folder.place)
        self.told = replies.read_bytes() if replies.exists() else b""
        return ran

    def ending_of(self, ran):
        """The channel breaks alone, behind replies to the first lines, or the run ends before it or behind it without a report; or an
        upload fails, and all lines are answered."""
        if is_same(ran, self.full) and self.told == self.whole:
            return SURVIVED
        if ran.status == 0 and json.loads(ran.output)["broken"] == 0:
            failed = sum(json.loads(reply).get("flush", {}).get("failed", 0) for reply in self.told.splitlines())
            require(failed == 1 and not ran.errors, f"other replies: {self.told}, and {shown(ran)}")
            return FAILED
        require(self.whole.startswith(self.told) and self.told[-1:] in (b"", b"\n"), f"no whole first replies: {self.told}")
        if ran.status == 0:
            told = json.loads(ran.output)
            adds_up = all(shard["accepted"] + shard["recovered"] == shard["stored"] + shard["kept"] for shard in told["report"])
            require(told["broken"] == 1 and adds_up and not ran.errors, f"another report: {shown(ran)}")
        else:
            require((ran.status, ran.errors, ran.output) == (*NO_MEMORY, b""), f"another ending: {shown(ran)}")
        return ENDED

    def told_by(self, ran):
        """A channel that broke may have taken a command that it did not answer, so that its report says more than its replies."""
        report = json.loads(ran.output) if ran.status == 0 else {"broken": 1}
        return [json.loads(reply) for reply in self.told.splitlines()], None if report["broken"] else report["report"]


def stored_in(found):
    """How many chunks are stored."""
    return sum(chunk.place not in (GROWING, SEALED) for chunks in found.values() for chunk in chunks)


def query_for(stream):
    """The query for all entries of a stream, by its name."""
    ends = {"start": "0", "end": str(2**63), "limit": 5000, "direction": "forward"}
    return json.dumps({"cmd": "query", "tenant": stream[0], "query": stream[1]} | ends)


class OfCase:
    """A program that is given the words of a case of `ingestctl`, in a copy of what lies there."""

    def __init__(self, program, body, place):
        self.program, self.body, self.place = program, body, place / "cases"
        case = CASES / body.case
        self.words = body.words or (case / "arguments").read_text().splitlines()
        self.given = (case / "input").read_bytes() if (case / "input").exists() else b""
        # The folders of cases that the words name.
        self.named = {body.case} | {pathlib.Path(word).parts[0] for word in self.words if word and (CASES / word).exists()}
        self.full = self.run(0)
        self.left = files_in(self.place)
        require(self.full.status == body.status, f"refused nothing: {shown(self.full)}")

    def run(self, number):
        shutil.rmtree(self.place, ignore_errors=True)
        for name in self.named:
            shutil.copytree(CASES / name, self.place / name)
        write_files(self.place, {"empty.toml": ""})
        self.before = files_in(self.place)
        return self.program.run(self.words, self.given, number, self.place)


class RefusedStart(OfCase):
    """`ingestd` over a folder with which it does not start."""

    def look(self, number):
        ran = self.run(number)
        how = ending_of(ran, self.full)
        again = self.program.run(self.words, self.given, 0, self.place)
        require(is_same(again, self.full), f"a new start: {shown(again)}")
        return ran, how


class Companion(OfCase):
    """`ingestctl`."""

    def look(self, number):
        ran = self.run(number)
        self.look_at_files(ran)
        if is_same(ran, self.full):
            return ran, SURVIVED
        require(ran.status == UNREAD, f"another ending: {shown(ran)}")
        # `show` writes the name of a file before it looks at what that is.
        require_front(ran, self.full, (b"\n", b": ") if self.words[0] == "show" else b"\n")
        *lines, last = ran.errors.splitlines(keepends=True) or [b""]
        require(self.full.errors.startswith(b"".join(lines)), f"other lines: {shown(ran)}")
        says_why = last.startswith(SAYS) and last.endswith(WHY)
        require(says_why or not (last or ran.output), f"it does not say why: {shown(ran)}")
        return ran, ENDED

    def look_at_files(self, ran):
        """Files are as they were; or `mend` has cut a log, and kept it."""
        left = files_in(self.place)
        if is_same(ran, self.full):
            require(left == self.left, f"other files: {shown(ran)}")
        elif left != self.before:
            require(self.left != self.before, f"changed files: {shown(ran)}")
            require({*self.before.values()} <= {*left.values()}, f"a file is lost: {shown(ran)}")
