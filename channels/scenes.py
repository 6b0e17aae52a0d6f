"""Fixed scenes on channels: what has to be so, whatever is drawn."""
import json
import os
import random
import shutil
import subprocess
import threading
import time

from checks import Seen, check, entries_of, merged, start_again
from clients import FILES, NO_INPUT, WHOLE, Client, Turn, run
from kills import Folder, draw_queries
from model import text_of

SETTINGS = {"shards": 2, "flushers": 1, "flush_queue_length": 1024, "chunk_idle_period": "30m", "max_chunk_age": "2h"}
SETTINGS |= {"chunk_block_size": 262144, "chunk_target_size": 1572864}
START = 10**18
PATIENCE = 600  # seconds in which a run of a scene has to end
FLUSH, BOARD = '{"cmd":"flush"}', '{"cmd":"board"}'


def push_line(stream, count, lines):
    """A push of lines to a stream, a nanosecond between stamps."""
    values = [[str(START + count * 1000 + place), line] for place, line in enumerate(lines)]
    streams = [{"stream": {"app": "web", "id": stream}, "values": values}]
    return json.dumps({"cmd": "push", "tenant": "acme", "now": str(START), "streams": streams})


def query_line(stream, limit=5000):
    return json.dumps({"cmd": "query", "tenant": "acme", "query": f'{{app="web", id="{stream}"}}', "limit": limit})


class Flood(Client):
    """Writes all its lines as fast as they are taken, and reads replies beside."""

    def converse(self, given, told):
        turns = [Turn(line) for line in self.lines]
        writer = threading.Thread(target=self.give_all, args=[given])
        self.said = turns
        writer.start()
        self.hear(told, turns)
        writer.join()

    def give_all(self, given):
        for line in self.lines:
            given.write(line.encode() + b"\n")
        given.close()


class Lazy(Client):
    """Gives some lines, reads nothing until all others have ended, and then goes on. `others` are their threads' events."""

    def converse(self, given, told):
        lines, self.lines = self.lines, self.lines[self.whole :]
        turns = self.give(given, lines[: self.whole])
        self.wait()
        self.hear(told, turns)
        self.kind = WHOLE
        super().converse(given, told)

    def wait(self):
        assert self.others_ended.wait(60), "the others wait for one that does not read"


class Late(Client):
    """Opens its input, and its output not until all others have ended."""

    def talk(self):
        with open(self.paths()[0], "wb", buffering=0) as given:
            assert self.others_ended.wait(60), "the others wait for one that does not open"
            time.sleep(0.2)
            assert self.process.poll() is None, "the run has ended before one of its channels"
            with open(self.paths()[1], "rb") as told:
                self.converse(given, told)


class Stale(Client):
    """Two files, of which the output has what was there before."""

    def make(self):
        super().make()
        self.paths()[1].write_text("what was there before\n")


class Watched(Client):
    """Tells that it has ended."""

    def serve(self):
        super().serve()
        self.ended.set()


def watch(clients):
    """An event that comes when these clients have ended."""
    for client in clients:
        client.ended = threading.Event()
    all_ended = threading.Event()
    threading.Thread(target=lambda: [client.ended.wait() for client in clients] and all_ended.set(), daemon=True).start()
    return all_ended


def play(program, parent, clients, broken=0, beside=lambda process: None, clock={}):
    """A scene over a new folder: all that is told is looked at, and what a new start finds. The report of each shard."""
    folder = Folder(parent / "scene", SETTINGS | clock)
    folder.make()
    for client in clients:
        client.make()
    status, output, error = run(program, folder, clients, beside=beside, patience=PATIENCE)
    assert (status, error) == (0, b""), f"the program ended with {status}: {error}"
    told, after = json.loads(output), folder.read()
    assert output == text_of(told).encode() + b"\n" and told["broken"] == broken, f"the report is {output}"
    check(Seen(folder, {}, after, clients, told["report"], told["broken"]))
    start_again(program, folder, after, draw_queries(random.Random(1), merged(after), 5000), PATIENCE)
    shutil.rmtree(folder.place)
    return told["report"], after


def eight_writers(program, parent, count):
    """Eight give so many pushes of some 60 KB each, at once, by turns to a stream of their own and to one that all have."""
    clients = []
    for number in range(8):
        lines = [push_line([f"p{number}.0", "s0"][at % 2], at, [f"{number}.{at}." + "x" * 60_000]) for at in range(count)]
        clients.append(Flood(parent / f"writer-{number}", lines))
    report, after = play(program, parent, clients)
    assert sum(shard["accepted"] for shard in report) == 8 * count, f"not all is accepted: {report}"
    expected = [count - count // 2] * 8 + [8 * (count // 2)]
    assert sorted(len(entries_of(chunks)) for chunks in after.values()) == expected, "not all is found"


def one_reads_nothing(program, parent):
    """One gives queries of which the replies fill its pipe, and reads nothing until two others have ended."""
    others = [Watched(parent / f"other-{n}", [push_line(f"p{n}.0", c, [f"{n}.{c}"]) for c in range(50)] + [FLUSH, BOARD]) for n in range(2)]
    pushes = [push_line("s0", count, ["y" * 1000] * 20) for count in range(10)]
    lazy = Lazy(parent / "lazy", [*pushes, *[query_line("s0")] * 20, FLUSH, BOARD], whole=30)
    lazy.others_ended = watch(others)
    play(program, parent, [others[0], lazy, others[1]])


def one_opens_late(program, parent):
    """One opens its output when the others have ended: the run ends behind it, and its flush stores all."""
    others = [Watched(parent / f"other-{n}", [push_line(f"p{n}.0", c, [f"{n}.{c}"]) for c in range(20)]) for n in range(3)]
    late = Late(parent / "late", [push_line("s0", 1, ["late"]), FLUSH, query_line("p1.0")])
    late.others_ended = watch(others)
    report, _ = play(program, parent, [*others[:1], late, *others[1:]], beside=lambda process: setattr(late, "process", process))
    assert sum(shard["stored"] for shard in report) == 61 and not any(shard["kept"] for shard in report), f"the report is {report}"


def one_has_no_input(program, parent):
    """The input of one is not there: it breaks, and others are served."""
    clients = [Client(parent / "absent", [], NO_INPUT)]
    clients += [Client(parent / f"other-{n}", [push_line("s0", n, [str(n)]), FLUSH], [WHOLE, FILES][n % 2]) for n in range(3)]
    report, _ = play(program, parent, clients, broken=1)
    assert sum(shard["accepted"] for shard in report) == 3, f"the report is {report}"


def all_break(program, parent):
    """Each channel has no input: the run ends with a report."""
    report, after = play(program, parent, [Client(parent / f"absent-{n}", [], NO_INPUT) for n in range(3)], broken=3)
    assert report == [{"accepted": 0, "kept": 0, "recovered": 0, "stored": 0}] * 2 and not after


def nothing_is_said(program, parent):
    """Files without a line: their channels end well, and their outputs are empty, also where a file stood before."""
    clients = [Client(parent / "empty", [], FILES), Stale(parent / "stale", [], FILES)]
    play(program, parent, clients)
    assert all(client.paths()[1].read_bytes() == b"" for client in clients)


class Asks(Client):
    """Gives its lines, and then asks what is stored until that is all, and the logs are shorter than this. `logs` are their paths."""

    def converse(self, given, told):
        for line in self.lines:
            self.hear(told, self.give(given, [line]))
        for _ in range(2000):
            turns = self.give(given, [BOARD])
            self.hear(told, turns)
            shards = json.loads(turns[0].reply)["board"]
            lengths = [path.stat().st_size for path in self.logs]
            if all(shard["stored"] == shard["accepted"] for shard in shards) and max(lengths) < self.shorter:
                break
            time.sleep(0.01)
        else:
            raise AssertionError(f"the clock leaves {shards}, and logs of {lengths} bytes")
        given.close()
        rest = told.read()
        assert not rest, f"behind all replies stands {rest}"


def the_clock_stores(program, parent):
    """No client sweeps, flushes or writes a checkpoint: the clock does."""
    lines = [push_line(f"p0.{at % 3}", at, [f"{at}." + "z" * 200]) for at in range(200)]
    asks = Asks(parent / "asks", lines)
    asks.logs, asks.shorter = [parent / "scene" / "folder" / f"wal-{number}" for number in range(2)], 20_000
    report, _ = play(program, parent, [asks], clock={"flush_check_period": "20ms", "checkpoint_log_size": 10_000})
    assert sum(shard["stored"] for shard in report) == 200, f"the report is {report}"


def wait_for(happens, what):
    """Waits until it is so."""
    for _ in range(2000):
        if happens():
            return
        time.sleep(0.01)
    raise AssertionError(what)


def one_input_has_a_clock(program, parent):
    """Of one input, too: while nothing comes, and while lines come without a pause. Each line has one reply, and the clock none."""
    folder = Folder(parent / "scene", SETTINGS | {"flush_check_period": "20ms", "checkpoint_log_size": 10_000, "chunk_idle_period": "20ms"})
    folder.make()
    objects, logs = folder.place / "folder" / "objects", [folder.place / "folder" / f"wal-{number}" for number in range(2)]
    process = subprocess.Popen(folder.words(program), stdin=subprocess.PIPE, stdout=subprocess.PIPE)
    lines = [push_line(f"p0.{at % 3}", at, [f"{at}." + "z" * 200]) for at in range(200)]

    def hear(count):
        return [json.loads(process.stdout.readline()) for _ in range(count)]

    def say(text):
        process.stdin.write(text.encode())
        process.stdin.flush()

    say("".join(line + "\n" for line in lines))
    told = hear(200)
    wait_for(lambda: max(log.stat().st_size for log in logs) < 10_000, "no checkpoint comes while nothing is said")

    def is_stored():
        say(BOARD + "\n")
        return sum(shard["stored"] for shard in hear(1)[0]["board"]) == 200

    wait_for(is_stored, "the clock does not store what was pushed")
    before, pushes = len([*objects.glob("c-*")]), 2000
    hearing = threading.Thread(target=lambda: [told.extend(hear(1)) for _ in range(pushes)], daemon=True)
    hearing.start()
    for count in range(pushes):
        say(push_line(f"q{count % 50}", 1000 + count, ["y" * 50]) + "\n")
    wait_for(lambda: len([*objects.glob("c-*")]) > before, "nothing is stored beside lines that come")
    hearing.join(60)
    process.stdin.close()
    rest = process.stdout.read().decode().splitlines()
    assert process.wait(60) == 0 and len(rest) == 1, f"behind all replies stands {rest}"
    report = json.loads(rest[0])["report"]
    accepted = sum(json.dumps(reply).count('"accepted"') for reply in told)
    assert sum(shard["accepted"] for shard in report) == accepted == 200 + pushes, f"of {accepted} told accepted the report is {report}"
    shutil.rmtree(folder.place)


class SlowDisk(Folder):
    """The program over it is traced: each sync of a log takes 5 milliseconds longer, and is noted."""

    def words(self, program):
        traced = ["-e", "trace=fdatasync", "-e", "inject=fdatasync:delay_exit=5000", "-o", self.place / "trace"]
        return ["strace", "-f", "-qq", *traced, *super().words(program)]

    def syncs(self):
        return (self.place / "trace").read_text().count("fdatasync(")


def play_slowly(program, parent, clients, count):
    """Serves clients of one shard over a slower disk; so many entries have to be accepted. How many syncs it took, and how many seconds."""
    folder = SlowDisk(parent / "slow", SETTINGS | {"shards": 1})
    folder.make()
    for client in clients:
        client.make()
    begun = time.monotonic()
    status, output, error = run(program, folder, clients, patience=PATIENCE)
    seconds = time.monotonic() - begun
    assert (status, error) == (0, b""), f"the program ended with {status}: {error}"
    assert json.loads(output)["report"][0]["accepted"] == count, f"the report is {output}"
    syncs = folder.syncs()
    shutil.rmtree(folder.place)
    return syncs, seconds


def syncs_of(program, parent, kind, each):
    """How many syncs eight clients of a kind need, that push so many lines each."""
    clients = [Client(parent / f"{kind} {n}", [push_line(f"p{n}.0", at, [f"{n}.{at}"]) for at in range(each)], kind) for n in range(8)]
    return play_slowly(program, parent, clients, 8 * each)[0]


def pushes_share_syncs(program, parent):
    """Pushes that are at hand together, and those of clients that each wait for their reply, take fewer syncs than there are pushes."""
    if not shutil.which("strace"):
        print("no strace: nobody looks whether pushes share syncs", flush=True)
        return
    at_hand, waiting = syncs_of(program, parent, FILES, 100), syncs_of(program, parent, WHOLE, 25)
    assert at_hand < 800 / 20, f"800 pushes at hand took {at_hand} syncs"
    assert waiting < 200 / 1.25, f"200 pushes of clients that wait took {waiting} syncs"


class Spoils(Client):
    """Gives its lines, asks while a byte of each stored chunk is another, and once more when it is put back. `objects` is their folder."""

    def converse(self, given, told):
        for line in self.lines:
            self.hear(told, self.give(given, [line]))
        kept = {path: path.read_bytes() for path in self.objects.glob("c-*")}
        for path, text in kept.items():
            path.write_bytes(text[:-1] + bytes([text[-1] ^ 1]))
        self.hear(told, self.give(given, [query_line("s0")]))
        self.refused = self.said.pop().reply
        for path, text in kept.items():
            path.write_bytes(text)
        self.hear(told, self.give(given, [query_line("s0")]))
        given.close()
        rest = told.read()
        assert kept and not rest, f"of {len(kept)} chunks behind all replies stands {rest}"


def an_object_is_changed(program, parent):
    """A query of what is stored is refused while one byte of it is another, and answered when it is put back."""
    spoils = Spoils(parent / "spoils", [push_line("s0", at, [f"{at}"]) for at in range(20)] + [FLUSH])
    spoils.objects = parent / "scene" / "folder" / "objects"
    play(program, parent, [spoils])
    assert json.loads(spoils.refused) == {"error": "StoreFault", "number": 26}, f"of a changed object is told {spoils.refused}"


def words_do_not_fit(program, parent):
    """An odd number of paths, no folder, or a settings file that is none, is refused before any file is made."""
    none, good = parent / "none.toml", ["in", parent / "out"]
    refused = [("BadArguments", ["/dev/null", parent / "f", "in"]), ("BadArguments", ["/dev/null", parent / "f", *good, "in"])]
    refused += [("BadArguments", ["/dev/null", "", *good]), ("NoSettings", [none, parent / "f", *good])]
    for name, words in refused:
        ran = subprocess.run([program, *words], stdin=subprocess.DEVNULL, capture_output=True, timeout=60)
        told = ran.returncode, ran.stdout, ran.stderr
        assert told == (1, b"", f"ingestd: {name}\n".encode()) and not [*parent.iterdir()], f"{words} ended with {told}"


def folder_is_in_use(program, parent):
    """A second program over a folder at work ends at once, with its channels untouched; the first goes on."""
    late = Late(parent / "late", [push_line("s0", 1, ["late"])])
    late.others_ended = threading.Event()

    def intrude(process):
        late.process = process
        while not [*(parent / "scene").glob("folder/wal-1")]:
            time.sleep(0.01)
        words = [program, "/dev/null", parent / "scene" / "folder", "/dev/null", parent / "out"]
        ran = subprocess.run(words, stdin=subprocess.DEVNULL, capture_output=True, timeout=60)
        late.others_ended.set()
        told = ran.returncode, ran.stdout, ran.stderr
        assert told == (2, b"", b"ingestd: FolderInUse\n") and not (parent / "out").exists(), f"a second program ended with {told}"

    play(program, parent, [late], beside=intrude)


def streams_are_closed(program, parent):
    """With any standard stream closed a channel is served, and nothing of it gets into other files."""
    (parent / "in").write_text(push_line("s0", 1, ["line"]) + "\n")
    for stream in range(3):
        words = [program, "/dev/null", parent / f"closed-{stream}"]
        ran = subprocess.run([*words, parent / "in", parent / "out"], capture_output=True, preexec_fn=lambda: os.close(stream), timeout=60)
        told = json.loads((parent / "out").read_bytes())["push"][0]
        assert ran.returncode == 0 and told["verdicts"] == [{"accepted": 0}], f"with stream {stream} closed all ended with {ran}, {told}"
        again = json.loads(subprocess.run(words, input=b"", capture_output=True, timeout=60).stdout)
        assert again == {"report": [{"accepted": 0, "kept": 1, "recovered": 1, "stored": 0}]}, f"behind stream {stream} closed: {again}"


SCENES = [the_clock_stores, one_input_has_a_clock, pushes_share_syncs, an_object_is_changed, one_reads_nothing, one_opens_late, one_has_no_input, all_break, nothing_is_said, words_do_not_fit, folder_is_in_use, streams_are_closed]


def play_scenes(program, parent, lines, counts):
    """Plays each."""

    def writers(program, parent):
        eight_writers(program, parent, lines)

    for scene in [writers, *SCENES]:
        place = parent / scene.__name__
        place.mkdir()
        try:
            scene(program, place)
        except Exception:
            print(f"{scene.__name__}, with {place}:", flush=True)
            raise
        shutil.rmtree(place)
        counts["scenes"] += 1
