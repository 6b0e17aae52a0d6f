"""The order of syncs in a record: what has to be synced before a reply tells that it lasts, and before a file is renamed."""
import pathlib
import re

from disk import Entries, Write


def leaves_out(which, opened):
    """Whether a sync is the one that is left out."""
    name = opened.path.rsplit("/", 1)[1]
    has_renamed = opened.node.is_folder() and any(call.kind == "rename" for call in opened.node.calls)
    return {
        "append": re.fullmatch(r"wal-\d+", name),
        "beside": name.endswith(".new"),
        "folder": has_renamed,
        "begun": name == "lock" or opened.node.is_folder() and not has_renamed,
        "told": False,
        None: False,
    }[which]


def may_wait(call, name, talk, thread):
    """Whether a call need not be synced when a thread replies on a channel. Another thread may just be about to sync it, where no
    push of this channel is in it: what it appended to a log, a log that it put in the place of one, or what it has beside one."""
    if talk.client is None or call.thread == thread:
        return False
    if isinstance(call, Write):
        return name.startswith("wal-") and not talk.has_push(call.data)
    if isinstance(call, Entries):
        meant = {entry: node for entry, node in call.meant.items() if not entry.endswith(".new")}
        are_logs = call.kind == "rename" and all(re.fullmatch(r"wal-\d+", entry) for entry in meant)
        return not meant or (are_logs and not any(talk.has_push(node.now()) for node in meant.values()))
    return False


def check_reply(disk, place, talk, thread, command, reply):
    """The order at a reply: where it tells that something lasts, the calls before have made it last."""
    kind = command["cmd"]
    told = reply.get(kind)
    assert told is not None, f"a {kind} was answered {reply}"
    if kind == "push":
        lasting = [part["durable"] for part in told]
    else:
        lasting = told if kind == "checkpoint" else [kind == "flush" and told["stored"] > 0]
    if not any(lasting):
        return
    path = place.path()
    logs = [path / f"wal-{number}" for number in range(place.settings["shards"])]
    for at in [*logs, path / "lock", path, *path.parents]:
        if node := disk.find(at):
            calls = [call for call in node.calls if not may_wait(call, at.name, talk, thread)]
            assert node.last == node.with_calls(calls), f"a {kind} was answered before {at.name} was synced"
    texts = [disk.find(log).now() for log in logs]
    for name in [name for call in disk.find(path / "objects").calls for name in call.meant]:
        # What a killed run left may stay as it is until a log lists it.
        key = re.search("-([0-9a-f]{64})$", name)
        is_listed = key and any(bytes.fromhex(key[1]) in text for text in texts)
        assert not is_listed, f"a {kind} was answered before the entry {name} was synced"


def check_rename(disk, called):
    """The order at a rename: the bytes are synced."""
    path = called.texts()[0].decode()
    if node := disk.find(path):
        assert not node.calls, f"{pathlib.Path(path).name} was renamed before it was synced"
