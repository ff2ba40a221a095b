"""Tests that answers wait for the disk: while a sync is held, not a byte of an answer leaves, whatever was asked for. A kill can't show that, since the system keeps what was written."""

import json
import pathlib
import select

from disk import Disk, library
from running import until
from serving import ADD, Peer, serving
from test_store import STORE, batch, call, lines, reply

TEXT = "field value = 0; proc one() { emit 1; }"
OTHER = "field value = 0; proc one() { emit 2; }"
# How long an answer that doesn't wait may take to come.
EARLY = 0.3


def keyed(key):
    return json.dumps({**json.loads(call(0, 1)), "key": key})


# What a server with a store is asked for, in this order, and what its answer begins with.
REQUESTS = [
    ("a call", call(0, 1), '{"call":0,'),
    ("a call with a key", keyed("k"), '{"call":1,'),
    ("a batch", batch(1, 2), '{"batch":[{"call":2,'),
    ("a procedure", json.dumps({"op": "register", "name": "look", "asm": "arity 0\nret\n"}), '{"bounds":'),
    ("a text", json.dumps({"op": "register", "text": TEXT}), '{"registered":'),
    ("nodes", json.dumps({"op": "grow", "parents": [0, 1]}), '{"grown":1}'),
    ("another text", json.dumps({"op": "replace", "text": OTHER}), '{"replaced":'),
    ("a seal", json.dumps({"op": "seal"}), '{"sealed":'),
]


def has_answer(peer):
    return bool(select.select([peer.socket], [], [], 0)[0])


def waits_for_the_disk(disk, peers, ask):
    """Whether a sync waits once that is asked, and no peer has an answer as long as it does."""
    with disk.held() as waits:
        ask()
        until(lambda: waits() or any(map(has_answer, peers)), "neither a sync nor an answer")
        return waits() and not select.select([peer.socket for peer in peers], [], [], EARLY)[0]


def test_no_answer_before_its_sync(tests):
    disk = Disk(library(tests.folder), tests.folder)
    with serving(tests, "--store", STORE, connections=None, env=disk.env) as server:
        peer = Peer(server.port)
        peer.ask(ADD)
        for name, line, begin in REQUESTS:
            held = waits_for_the_disk(disk, [peer], lambda line=line: peer.send(line))
            tests.check(f"{name} waits for its sync", held, "its answer came before")
            answer = peer.lines.readline()
            tests.check(f"{name} is answered then", answer.startswith(begin), answer)


def test_one_key_on_two_connections(tests):
    """The connection that asks again gets the answer of a call that isn't stored yet no sooner than the first one."""
    disk = Disk(library(tests.folder), tests.folder)
    with serving(tests, "--store", STORE, connections=None, env=disk.env) as server:
        one, two = Peer(server.port), Peer(server.port)
        one.ask(ADD)

        def ask():
            one.send(keyed("k"))
            two.send(keyed("k"))

        tests.check("both wait for the sync", waits_for_the_disk(disk, [one, two], ask), "an answer came before")
        answers = sorted([one.lines.readline(), two.lines.readline()])
        tests.check("both are answered then", answers == sorted([reply(0, 6), lines({"call": 0, "reply": [6], "stored": 0})]), answers)


def test_a_copy_waits(tests):
    """A copy is told of once its bytes and its name are on the disk."""
    disk = Disk(library(tests.folder), tests.folder)
    tests.path("copies").mkdir()
    with serving(tests, "--store", STORE, "--snapshots", "copies", connections=None, env=disk.recording()) as server:
        Peer(server.port).ask(ADD)
        # A control has ten seconds for its line.
        control = Peer(server.control)
        held = waits_for_the_disk(disk, [control], lambda: control.send("snapshot one.db"))
        tests.check("a copy waits for its sync", held, "its answer came before")
        answer = control.lines.readline()
        tests.check("a copy is answered then", answer == lines({"snapshot": "one.db"}), answer)
    entries = disk.recorded()

    def places(op, name):
        return [number for number, entry in enumerate(entries) if entry.op == op and pathlib.Path(entry.path).name == name]

    (named,), answered = places("r", "one.db.part"), max(number for number, entry in enumerate(entries) if entry.op == ">" and b"snapshot" in entry.data)
    synced, written, folder_synced = places("s", "one.db.part"), max(places("w", "one.db.part")), places("s", "copies")
    tests.check("its bytes are synced before it has its name", any(written < number < named for number in synced), (written, synced, named))
    tests.check("its name is synced before it is told of", any(named < number < answered for number in folder_synced), (named, folder_synced, answered))


def test_a_call_beside_a_sync(tests):
    """What comes while a sync is under way isn't covered by it, and waits for the next one."""
    disk = Disk(library(tests.folder), tests.folder)
    with serving(tests, "--store", STORE, connections=None, env=disk.recording()) as server:
        peers = [Peer(server.port) for _ in range(4)]
        peers[0].ask(ADD)
        with disk.held() as waits:
            peers[0].send(call(0, 1))
            until(waits, "no sync")
            for peer in peers[1:]:
                peer.send(call(0, 1))
            early = select.select([peer.socket for peer in peers], [], [], EARLY)[0]
            begun = sum(entry.op == "b" for entry in disk.recorded())
        answers = [json.loads(peer.lines.readline()) for peer in peers]
    tests.check("none is answered early", early == [], len(early))
    tests.check("each has its own answer", sorted(answer["reply"][0] for answer in answers) == [6, 7, 8, 9], answers)
    entries = disk.recorded()
    for answer in answers:
        if answer["call"] > 0:
            line = lines(answer).encode()
            left = next(number for number, entry in enumerate(entries) if entry.op == ">" and line in entry.data)
            ended = sum(entry.op == "s" for entry in entries[:left])
            tests.check(f"call {answer['call']} has a sync that began behind it", ended > begun, (ended, begun))
