"""What a power cut may leave of files: a file system that is told the calls of a program, in the order that `strace` saw.

Of each file it has the bytes that were synced last, and the calls since; of each folder the entries that were synced last, and
the creations, renames and removals since. A sync of a file makes its bytes last, not its entry; a sync of a folder its entries,
not what these name. A call has begun when the program hands it over, and has ended when it returns: what it changes may be there
from its beginning on, and a sync makes that last which had ended before the sync began. Nothing else is assumed of the order in
which calls reach the disk: of those that no sync made last any may be there, and any may not.
"""
import random
import re
from dataclasses import dataclass, field

PAGES = (512, 4096)  # sizes of what a disk writes at once
# How bytes are left that were written and not synced.
LOST, KEPT, CUT, ZEROS, CUT_THEN_ZEROS, HOLES, UNCUT = "lost", "kept", "cut", "zeros", "cut, then zeros", "holes", "writes alone"
WAYS = [LOST, KEPT, CUT, ZEROS, CUT_THEN_ZEROS, HOLES, UNCUT]
CALLS = ["open", "openat", "creat", "close", "lseek", "write", "pwrite64", "writev", "fsync", "fdatasync", "ftruncate", "mkdir"]
CALLS += ["mkdirat", "rename", "renameat", "renameat2", "unlink", "unlinkat", "rmdir", "link", "linkat", "symlink"]


@dataclass(eq=False)
class Write:
    """Bytes that are written into a file."""
    at: int
    data: bytes
    has_ended: bool = False
    thread: str = None

    def on(self, text):
        return text[: self.at].ljust(self.at, b"\0") + self.data + text[self.at + len(self.data) :]

    def zeroed(self):
        return Write(self.at, bytes(len(self.data)))


@dataclass(eq=False)
class Truncation:
    """The size that a file is given."""
    size: int
    has_ended: bool = False
    thread: str = None

    def on(self, text):
        return text[: self.size].ljust(self.size, b"\0")


@dataclass(eq=False)
class Entries:
    """A creation, a rename or a removal: what names of a folder mean from then on, or None where they mean nothing."""
    kind: str
    meant: dict
    has_ended: bool = False
    thread: str = None

    def on(self, entries):
        return {name: node for name, node in {**entries, **self.meant}.items() if node}


@dataclass(eq=False)
class Node:
    """A file, whose state is its bytes, or a folder, whose state is a node by name."""
    last: object
    calls: list = field(default_factory=list)

    def with_calls(self, calls):
        """The state with some of the calls that are not synced."""
        state = self.last
        for call in calls:
            state = call.on(state)
        return state

    def now(self):
        return self.with_calls(self.calls)

    def is_folder(self):
        return isinstance(self.last, dict)

    def sync(self, calls):
        """Makes some calls last."""
        self.last = self.with_calls([call for call in self.calls if call in calls])
        self.calls = [call for call in self.calls if call not in calls]


@dataclass
class Opened:
    """A file or folder that the program has open, by the path under which it opened it."""
    node: Node
    path: str
    at: int = 0
    appends: bool = False


@dataclass
class Called:
    """A call as it was seen. The result is None where it did not return. One that was made to fail has done nothing."""
    name: str
    words: str
    thread: str
    result: int = None
    is_failed: bool = False

    def texts(self):
        """The texts among its arguments."""
        return [bytes.fromhex(text.replace("\\x", "")) for text in re.findall(r'"((?:\\x[0-9a-f]{2})*)"', self.words)]

    def number(self, place):
        return int(self.words.split(", ")[place])


def read_trace(lines):
    """The calls of a trace, each twice: (call, True) where it begins and (call, False) where it returned. Those that failed by
    themselves are left out."""
    steps, waiting = [], {}
    for line in lines:
        match = re.match(r"(\d+) +(?:<\.\.\. \w+ resumed>|(\w+)\()(.*)$", line)
        if not match:
            continue
        thread, name, rest = match.groups()
        assert "..." not in rest.replace("<unfinished ...>", ""), f"a text is cut off in {line[:200]}"
        if name:
            called = Called(name, "", thread)
            steps.append((called, True))
        else:
            called = waiting.pop(thread)
        if rest.endswith("<unfinished ...>"):
            called.words, waiting[thread] = rest.removesuffix("<unfinished ...>"), called
        elif match := re.match(r"(.*)\) += (-?\d+|\?)", rest):
            called.words += match[1]
            if match[2] != "?":
                called.result, called.is_failed = int(match[2]), rest.endswith("(INJECTED)")
                steps.append((called, False))
    return [(called, begins) for called, begins in steps if called.result is None or called.result >= 0 or called.is_failed]


class Disk:
    """The files below one folder, `top`, which itself is there."""

    def __init__(self, top, files=None):
        self.top, self.root, self.opened, self.running = str(top), Node({}), {}, {}
        for path, text in sorted((files or {}).items()):
            folder, name = self.folder_of(f"{self.top}/{path}")
            folder.last[name] = Node({} if text is None else text)

    def find(self, path):
        """What stands at a path; None where nothing does, and where it is not below the top."""
        path = str(path)
        if path != self.top and not path.startswith(self.top + "/"):
            return None
        node = self.root
        for name in path[len(self.top) + 1 :].split("/") if path != self.top else []:
            node = node.now().get(name) if node and node.is_folder() else None
        return node

    def folder_of(self, path):
        """The folder in which a path is an entry, and the entry's name."""
        folder, name = str(path).rsplit("/", 1)
        return self.find(folder), name

    def change(self, called, node, call):
        """Puts a call behind those of a file or folder."""
        node.calls.append(call)
        call.thread = called.thread
        self.running.setdefault(id(called), []).append(call)

    def begin(self, called, is_left_out=lambda opened: False):
        """Notes that a call begins. Of a sync it can be asked that it is left out."""
        name = called.name
        if name in ("open", "openat", "creat"):
            self.begin_open(called)
        elif name == "close":
            self.opened.pop(called.number(0), None)
        elif name in ("write", "writev", "pwrite64", "ftruncate", "lseek"):
            if opened := self.opened.get(called.number(0)):
                self.begin_write(called, opened)
        elif name in ("fsync", "fdatasync"):
            if (opened := self.opened.get(called.number(0))) and not is_left_out(opened):
                ended = [call for call in opened.node.calls if call.has_ended]
                self.running[id(called)] = [(opened.node, ended)]
        elif name.startswith(("mkdir", "rename", "unlink", "rmdir")):
            self.begin_entries(called)
        else:
            assert not any(text.startswith(self.top.encode()) for text in called.texts()), f"{name} is not understood"

    def begin_open(self, called):
        path = called.texts()[0].decode()
        folder, name = self.folder_of(path)
        if folder is None and path != self.top:
            return
        creates = "O_CREAT" in called.words or called.name == "creat"
        if self.find(path) is None and creates:
            self.change(called, folder, Entries("creation", {name: Node(b"")}))
        elif "O_TRUNC" in called.words or called.name == "creat":
            self.change(called, self.find(path), Truncation(0))

    def begin_write(self, called, opened):
        node, count = opened.node, called.result
        if called.name == "lseek":
            opened.at = count
        elif called.name == "ftruncate":
            self.change(called, node, Truncation(called.number(1)))
        else:
            data = b"".join(called.texts())[:count]
            at = len(node.now()) if opened.appends else opened.at
            if called.name == "pwrite64":
                at = called.number(3)
            else:
                opened.at = at + len(data)
            self.change(called, node, Write(at, data))

    def begin_entries(self, called):
        paths = [text.decode() for text in called.texts()]
        folder, name = self.folder_of(paths[0])
        if folder is None:
            return
        if called.name.startswith("mkdir"):
            self.change(called, folder, Entries("creation", {name: Node({})}))
        elif called.name.startswith("rename"):
            other, new = self.folder_of(paths[1])
            assert other is folder, f"{paths[0]} is renamed into another folder"
            self.change(called, folder, Entries("rename", {name: None, new: self.find(paths[0])}))
        else:
            self.change(called, folder, Entries("removal", {name: None}))

    def end(self, called):
        """Notes that a call has returned."""
        for call in self.running.pop(id(called), []):
            if isinstance(call, tuple):
                node, ended = call
                node.sync(ended)
            else:
                call.has_ended = True
        if called.name in ("open", "openat", "creat"):
            self.opened.pop(called.result, None)
            path = called.texts()[0].decode()
            if node := self.find(path):
                self.opened[called.result] = Opened(node, path, appends="O_APPEND" in called.words)

    def stop(self):
        """Notes that the program has ended: nothing is open, and what it had begun counts as done, by no thread."""
        for node in self.nodes():
            for call in node.calls:
                call.has_ended, call.thread = True, None
        self.opened, self.running = {}, {}

    def nodes(self):
        """All files and folders that an image may show, each once."""
        found, todo = {}, [self.root]
        while todo:
            node = todo.pop()
            if node not in found:
                found[node] = None
                if node.is_folder():
                    todo += [*node.last.values(), *(inner for call in node.calls for inner in call.meant.values() if inner)]
        return list(found)

    def image(self, kept=None, text_of=Node.now):
        """Files by their paths below the top, None for a folder: with those unsynced entries that are kept, or all."""
        files = {}

        def show(node, path):
            for name, inner in node.with_calls([call for call in node.calls if kept is None or call in kept]).items():
                files[path + name] = None if inner.is_folder() else text_of(inner)
                if inner.is_folder():
                    show(inner, f"{path}{name}/")

        show(self.root, "")
        return files


def left_of(node, way, draw):
    """What may be left of a file's bytes, in a way."""
    if way == LOST or not node.calls:
        return node.last
    if way == ZEROS:
        return node.with_calls([call.zeroed() if isinstance(call, Write) else call for call in node.calls])
    if way == HOLES:
        return with_holes(node, draw)
    if way == UNCUT:
        return node.with_calls([call for call in node.calls if isinstance(call, Write)])
    text = node.now()
    if way == KEPT:
        return text
    count = draw.randrange(len(node.calls))
    front, call = node.with_calls(node.calls[:count]), node.calls[count]
    if isinstance(call, Write):
        front = Write(call.at, call.data[: draw.randint(0, len(call.data))]).on(front)
    return front if way == CUT else front.ljust(draw.randint(min(len(front), len(text)), len(text)), b"\0")


def with_holes(node, draw):
    """All bytes, but zeros in the place of some pages of what was written. The last one stands, so that there are holes."""
    size, text = draw.choice(PAGES), node.now()
    writes = [call for call in node.calls if isinstance(call, Write)]
    first = min((write.at for write in writes), default=0)
    end = min(max((write.at + len(write.data) for write in writes), default=0), len(text))
    starts = [first, *range(first - first % size + size, end, size)]
    for start, stop in zip(starts, starts[1:]):
        if draw.random() < 0.6:
            text = Write(start, bytes(stop - start)).on(text)
    return text


def hexed(text):
    return '"' + "".join(f"\\x{byte:02x}" for byte in text.encode()) + '"'


# Of two threads. The second sync of `b.new` begins before the write `3` returns, and that of the folder before the rename does.
BY_HAND = [
    f"7 mkdir({hexed('/top/f')}, 0700) = 0",
    f"7 openat(AT_FDCWD, {hexed('/top/f/a')}, O_WRONLY|O_CREAT|O_APPEND, 0600) = 3",
    f"7 write(3, {hexed('o')}, 1) = 1",
    f"7 openat(AT_FDCWD, {hexed('/top/f/a')}, O_WRONLY|O_APPEND) = 6",
    f"7 write(6, {hexed('ne')}, 2) = 2",
    "7 fsync(3)      = 0",
    f"7 write(3, {hexed('two')}, 3) = 2",
    f"7 openat(AT_FDCWD, {hexed('/top/f')}, O_RDONLY) = 4",
    "7 fsync(4) = 0",
    f"7 rename({hexed('/top/f/none')}, {hexed('/top/f/a')}) = -1 ENOENT (No such file or directory)",
    f"7 openat(AT_FDCWD, {hexed('/top/f/b.new')}, O_RDWR|O_CREAT|O_TRUNC, 0600) = 5",
    f"7 write(5, {hexed('12')}, 2) = 2",
    "8 fsync(5) = 0",
    f"7 write(5, {hexed('3')}, 1 <unfinished ...>",
    "8 fsync(5 <unfinished ...>",
    "7 <... write resumed>) = 1",
    f"7 rename({hexed('/top/f/b.new')}, {hexed('/top/f/a')} <unfinished ...>",
    "8 <... fsync resumed>)  = 0",
    "8 fsync(4 <unfinished ...>",
    "7 <... rename resumed>) = 0",
    "8 <... fsync resumed>) = 0",
    "7 close(3) = 0",
    "7 lseek(5, 1, SEEK_SET) = 1",
    f"7 write(5, {hexed('x')}, 1) = 1",
    f"7 pwrite64(5, {hexed('y')}, 1, 4) = 1",
    "7 ftruncate(5, 4) = 0",
    f"7 openat(AT_FDCWD, {hexed('/else')}, O_WRONLY|O_CREAT, 0600) = 3",
    f"7 write(3, {hexed('not here')}, 8) = 8",
    "7 +++ exited with 0 +++",
]


def check_disk():
    """Checks the model over a record written by hand."""
    disk, lost, draw = Disk("/top"), lambda node: node.last, random.Random(0)
    seen = []
    for called, begins in read_trace(BY_HAND):
        disk.begin(called) if begins else disk.end(called)
        folders = [node for node in disk.nodes() if node.is_folder()]
        kept = [call for call in disk.root.calls] + [call for node in folders for call in node.calls if call.kind == "creation"]
        seen.append((disk.image([], lost), disk.image(disk.root.calls, lost), disk.image(kept, lost), disk.image()))
    none, only, creations, full = zip(*seen)
    # Nobody synced what lists the folder.
    assert set(map(str, none)) == {"{}"}, none
    assert only[15] == {"f": None} and only[17] == {"f": None, "f/a": b"one"}, only[14:18]
    assert full[13] == {"f": None, "f/a": b"onetw"}, full[13]
    before = len(seen) - 1 - [called.name for called, _ in read_trace(BY_HAND)][::-1].index("fsync")
    assert only[before - 1] == {"f": None, "f/a": b"one"}, only[before - 1]
    created = {"f": None, "f/a": b"one", "f/b.new": b"12"}
    assert creations[before - 1] == only[before] == only[-1] == created, creations[before - 1]
    assert full[-1] == {"f": None, "f/a": b"1x3\0"}, full[-1]
    node = disk.find("/top/f/a")
    assert left_of(node, ZEROS, draw) == b"1\0\0\0" and left_of(node, UNCUT, draw) == b"1x3\0y", node
    cuts = {left_of(node, CUT, draw) for _ in range(100)}
    assert cuts == {b"12", b"123", b"1x3", b"1x3\0", b"1x3\0y"}, cuts
    tail = Node(b"synced", [Write(6, b"a" * 500), Write(506, b"b" * 600)])
    holes = {left_of(tail, HOLES, draw) for _ in range(100)}
    assert {text[:6] for text in holes} == {b"synced"} and {text[1024:] for text in holes} == {b"b" * 82}, holes
    assert len(holes) == 4 and b"synced" + bytes(506) + b"b" * 594 in holes, holes
