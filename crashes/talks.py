"""What is said at the one input of a run, or on its channels: commands, replies as a record has them, and what these make last.

The streams of a channel are its own, by tenants that end in its number. So nobody else changes what it is told, or what has to be
found of them: a model of kills.py for each channel is enough, in whatever order they come to a shard. Only a checkpoint makes
last what others were told, too.

A reply is that of the channel whose OUT was opened as the descriptor to which it is written. It is told when the write begins.
What the channel's client read has to be the same.
"""
import contextlib
import itertools
import json
import pathlib
import shutil
import signal
import subprocess
import sys
from dataclasses import dataclass, field

sys.path += [str(pathlib.Path(__file__).resolve().parent.parent / name) for name in ("kills", "channels")]
from clients import FILES, WHOLE, Client  # noqa: E402
from clients import run as run_clients  # noqa: E402
from kills import Fields, Folder, Model, draw_commands, entries_of  # noqa: E402

PATIENCE = 600  # seconds, where nothing goes on, or proofs take all processors


@dataclass
class Talk:
    """What is said on a channel of this number, or at the one input, where that is None. On a channel `together` has how many
    commands are given at once, in turn; none where all are at hand, in a file. To each reply `since` has how many replies all
    talks had when this one was told the last time before: what it tells was done behind that."""
    number: int
    commands: list = field(default_factory=list)
    together: list = field(default_factory=list)
    replies: list = field(default_factory=list)
    since: list = field(default_factory=list)
    written: bytes = b""
    client: Client = None

    def owns(self, stream):
        return self.number is None or stream[0].endswith(f".{self.number}")

    def has_push(self, text):
        """Whether records of a log have a push that was said here."""
        return any(fields.number(1) == 1 and fields.take(8) and self.owns(fields.stream()) for fields in Fields(text).records())

    def part_of(self, found):
        """What is found of its streams."""
        return {stream: chunks for stream, chunks in found.items() if self.owns(stream)}

    def draw(self, draw, found, clock, is_later, most):
        """Draws what is said, at most so much. In a later run it begins with a command that adds nothing, the reply to which
        tells that it goes on."""
        ending = "" if self.number is None else f".{self.number}"
        own = self.part_of(found)
        kept = {(tenant.removesuffix(ending), name): entries_of(chunks) for (tenant, name), chunks in own.items()}
        first = [{"cmd": "checkpoint"}, {"cmd": "flush"}, {"cmd": "flush", "forced": False}, {"cmd": "sweep", "now": str(clock)}]
        self.commands = ([draw.choice(first)] if is_later else []) + draw_commands(draw, kept, clock)[:most]
        for command in self.commands:
            if "tenant" in command:
                command["tenant"] += ending
        if self.number is not None and (is_later or draw.random() < 0.8):
            self.together = [1, *(draw.choice([1, 1, 3, 20]) for _ in range(5))]

    def lines(self):
        return [json.dumps(command) for command in self.commands]


def speak(words, talk, waits):
    """Says at the input of a program what there is, and waits for each of the first so many replies. How the program ended, and
    what it said beside."""
    lines, pipe = [line.encode() + b"\n" for line in talk.lines()], subprocess.PIPE
    with subprocess.Popen(words, stdin=pipe, stdout=pipe, stderr=pipe, bufsize=0) as process:
        signal.signal(signal.SIGALRM, lambda *_: process.kill())
        signal.alarm(PATIENCE)
        for line in lines[:waits]:
            with contextlib.suppress(BrokenPipeError):
                process.stdin.write(line)
            if not process.stdout.readline():
                break
        _, says = process.communicate(b"".join(lines[waits:]))
        signal.alarm(0)
    return process.returncode, says


@dataclass
class Started:
    """A place with other words by which the program is started there."""
    place: Folder
    before: list

    def words(self, program):
        return [*self.before, *self.place.words(program)]


def speak_on_channels(program, started, talks, folder):
    """Says on channels what there is, which are made in a folder. How the program ended, what it said beside, and its report."""
    shutil.rmtree(folder, ignore_errors=True)
    folder.mkdir()
    for talk in talks:
        kind = WHOLE if talk.together else FILES
        talk.client = Client(folder / str(talk.number), talk.lines(), kind, together=talk.together)
        talk.client.make()
    status, report, says = run_clients(program, started, [talk.client for talk in talks], patience=PATIENCE)
    return status, says, report


class Listener:
    """Takes the replies to talks from the calls of a record."""

    def __init__(self, talks):
        self.talks = talks
        self.before = [(0,) * len(talks)] * len(talks)  # `since` of the next reply to each
        self.outputs = {1: 0} if talks[0].client is None else {}  # places among the talks by descriptor
        self.paths = {str(talk.client.paths()[1]): place for place, talk in enumerate(talks) if talk.client}

    def told(self):
        return tuple(len(talk.replies) for talk in self.talks)

    def begin(self, called, alter=lambda line: line):
        """What a call that begins tells: the talk, and the places of its replies. Their lines may be altered."""
        if called.name == "close":
            self.outputs.pop(called.number(0), None)
        if called.name not in ("write", "writev") or called.number(0) not in self.outputs:
            return None, []
        place = self.outputs[called.number(0)]
        talk, now = self.talks[place], self.told()
        talk.written += b"".join(called.texts())[: called.result]
        # At the one input the report stands behind all replies.
        lines = talk.written.split(b"\n")[:-1][now[place] : len(talk.commands)]
        talk.replies += [json.loads(alter(line)) for line in lines]
        talk.since += [self.before[place]] * len(lines)
        # Half a line tells of what was done before.
        self.before[place] = now if talk.written.endswith(b"\n") else self.before[place]
        return talk, range(now[place], len(talk.replies))

    def end(self, called):
        """Notes what a call opened that has returned."""
        if called.name in ("open", "openat", "creat") and (place := self.paths.get(called.texts()[0].decode())) is not None:
            self.outputs[called.result] = place

    def check_heard(self):
        """What was recorded is what the clients read."""
        for talk in [talk for talk in self.talks if talk.client]:
            heard = b"".join(turn.reply for turn in talk.client.said if turn.reply)
            assert talk.written == heard, f"channel {talk.number} read {heard}, and the record has {talk.written}"


class Expected:
    """What may be there, and has to be, where so many replies were told on each talk."""

    def __init__(self, place, found, talks, told, may_fail):
        self.talks = talks
        self.models = [Model(place, part, may_fail) for part in self.parts_of(found)]
        lengths = [self.note_all(*each) for each in zip(self.models, talks, told, strict=True)]
        for talk, count in zip(talks, told):
            for reply, since in [*zip(talk.replies, talk.since)][:count]:
                self.note_checkpoint(reply.get("checkpoint", []), [counts[index] for counts, index in zip(lengths, since)])

    def parts_of(self, found):
        """For each talk what is found of its streams."""
        parts = [talk.part_of(found) for talk in self.talks]
        assert sum(map(len, parts)) == len(found), f"there are streams of nobody: {set(found).difference(*parts)}"
        return parts

    def note_all(self, model, talk, count):
        """Notes commands with so many replies. How much was added behind each of these."""
        lengths = [len(model.added)]
        for command, reply in itertools.zip_longest(talk.commands, talk.replies[:count]):
            model.note(command, reply)
            lengths.append(len(model.added))
        return lengths

    def note_checkpoint(self, done, counts):
        """Notes of which shards there is a checkpoint that has so much, at least, of what was added on each talk."""
        for model, count in zip(self.models, counts):
            for shard in [shard for shard, is_done in enumerate(done) if is_done]:
                model.durable[shard] = max(count, model.durable[shard])

    def check_found(self, found):
        for model, part in zip(self.models, self.parts_of(found), strict=True):
            model.check_found(part)
