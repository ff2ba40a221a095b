"""What a power cut may leave of a store, and whether a server that starts on it has every answer that had left before.

A server's writes, cuts and syncs are recorded. At a cut, each call on a file since the last sync that had ended may be on the disk or not, whole or by sectors, in any order; what a sync covered is there.
The same holds of a folder and the names in it.
"""

import json
import pathlib
from typing import NamedTuple

from disk import Disk
from serving import ADD, NotStarted, Peer, serving
from test_store import batch, call

SECTOR = 512
STORE = "cut.db"
TEXT = "field value = 0; proc one() { emit 1; }"
OTHER = "field value = 0; proc one() { emit 2; }"
MODES = ["none", "all", "some", "torn", "torn"]


def keyed(number, node=0):
    return json.dumps({**json.loads(call(node, 1)), "key": f"k{number}"})


def asked():
    """What a server is asked for while it is recorded: the calls have keys."""
    number = 0

    def calls(count, node):
        nonlocal number
        for _ in range(count):
            number += 1
            yield keyed(number, node)

    yield ADD
    yield from calls(8, 0)
    yield json.dumps({"op": "register", "text": TEXT})
    yield json.dumps({"op": "grow", "parents": [0, 1]})
    yield from calls(4, 2)
    yield json.dumps({"op": "seal"})
    yield from calls(4, 1)
    yield json.dumps({"op": "replace", "text": OTHER})
    # Enough for the log to be moved into the file.
    for _ in range(18):
        yield batch(*[1] * 256)
    yield from calls(8, 0)


class Answer(NamedTuple):
    """A call with a key that was answered, by the place of its answer among the entries."""

    place: int
    key: str
    reply: list


def record(tests, built):
    """The entries of two servers on one store, of which the first was killed; and the answers to keys."""
    disk, found, keys = Disk(built, tests.folder, "recorded"), [], 0
    for tree, lines in (("examples/one-node.json", asked()), (None, (keyed(number) for number in range(100, 104)))):
        with serving(tests, "--store", "recorded.db", "--generation", "1", connections=None, tree=tree, env=disk.recording()) as server:
            peer = Peer(server.port)
            for line in lines:
                answer = json.loads(peer.ask(line))
                assert "error" not in answer, f"{line}: {answer}"
                if "key" in line:
                    found.append((json.loads(line)["key"], answer["reply"]))
    entries = disk.recorded()
    places = [number for number, entry in enumerate(entries) if entry.op == ">" and entry.data.startswith(b'{"call"') and not entry.data.endswith(b"]}]}\n")]
    assert len(places) == len(found), f"{len(places)} answers of {len(found)} calls with a key"
    return entries, [Answer(place, *each) for place, each in zip(places, found)]


def applied(content, entry, keeps):
    """Writes what stays of one call into a file's content."""
    if entry.op == "t":
        if keeps(0):
            del content[entry.offset:]
            content.extend(bytes(entry.offset - len(content)))
        return
    for at in range(0, len(entry.data), SECTOR):
        if keeps(at):
            part = entry.data[at:at + SECTOR]
            content.extend(bytes(max(0, entry.offset + at - len(content))))
            content[entry.offset + at:entry.offset + at + len(part)] = part


def left_of(entries, chance):
    """What is left of a file after these calls on it; None where it was never written."""
    begun = [number for number, entry in enumerate(entries) if entry.op == "b"]
    ended = sum(entry.op == "s" for entry in entries)
    # One thread syncs a file at a time, so that the last sync that ended is as many begins from the first.
    sure = begun[ended - 1] if ended else 0
    mode, content = chance.choice(MODES), bytearray()
    for number, entry in enumerate(entries):
        if entry.op not in "wt":
            continue
        whole = number < sure or mode == "all" or (mode == "some" and chance.random() < 0.5)
        applied(content, entry, lambda _, whole=whole: whole or (mode == "torn" and chance.random() < 0.5))
    return bytes(content) if any(entry.op in "wt" for entry in entries) else None


def cut(entries, place, chance, folder):
    """Leaves in a folder what a cut before the entry of that place may leave."""
    for suffix in ("", "-wal"):
        own = [entry for entry in entries[:place] if pathlib.Path(entry.path).name == "recorded.db" + suffix]
        content = left_of(own, chance)
        path = folder / (STORE + suffix)
        path.unlink(missing_ok=True)
        if content is not None:
            path.write_bytes(content)


def judge(tests, name, due):
    """Starts a server on what is left. It has each answer that had left; where none had, it is a store or there is none."""
    try:
        with serving(tests, "--store", STORE, connections=None, tree=None) as server:
            peer = Peer(server.port)
            peer.send(*(keyed(each.key.removeprefix("k")) for each in due))
            found = [json.loads(peer.lines.readline()) for _ in due]
            wrong = [(each, answer) for each, answer in zip(due, found) if answer.get("reply") != each.reply or "stored" not in answer]
            tests.check(f"{name}: it has every answer", wrong == [], wrong[:3])
            peer.close()
            server.stop()
            tests.check(f"{name}: its server ends", server.end().status == 0, server.said)
        run = tests.run("audit", STORE)
        tests.check(f"{name}: its audit", run.status == 0, run)
    except NotStarted as refused:
        if due:
            tests.check(f"{name}: it starts", False, refused.run)
            return
        try:
            with serving(tests, "--store", STORE, connections=None) as server:
                server.stop()
                run = server.end()
        except NotStarted as again:
            run = again.run
        tests.check("a power cut of a first start: a store is made or none is there", run.status == 0, (name, refused.run, run))


def cuts(tests, built, chance, count, early):
    """Judges what so many cuts may leave; every `early`-th of them is in the first start."""
    entries, answers = record(tests, built)
    first = next(number for number, entry in enumerate(entries) if entry.op == ">")
    for number in range(count):
        place = chance.randrange(1, first) if number % early == 0 else chance.randrange(first, len(entries) + 1)
        cut(entries, place, chance, tests.folder)
        judge(tests, f"a power cut before entry {place} of {len(entries)}", [each for each in answers if each.place < place])
