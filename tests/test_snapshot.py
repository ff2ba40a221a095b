"""Tests `treedb snapshot`: a running server copies its store into a file, which has all that was answered."""

import contextlib
import json
import socket
import sqlite3
import threading

from running import PATIENCE, Threads, free_port
from serving import ADD, Peer, serving
from test_store import again, batch, call, lines, reply, stored

STORE = "things.db"
FOLDER = "copies"
# What the record of examples/one-node.json begins with.
OPENING = 5
# How many connections call while copies are made, and how many copies.
CALLERS = 4
COPIES = 5


@contextlib.contextmanager
def copying(tests, store=STORE):
    """A server on a new store, with a folder for copies."""
    tests.path(FOLDER).mkdir(exist_ok=True)
    with serving(tests, "--store", store, "--snapshots", FOLDER, connections=None) as server:
        yield server


def snapshot(tests, server, name):
    return tests.run("snapshot", "--port", str(server.control), name)


def told(server, *asked):
    """What a server answers on a connection of its own."""
    peer = Peer(server.port)
    answers = [peer.ask(each) for each in asked]
    peer.close()
    return answers


def in_folder(tests):
    return sorted(file.name for file in tests.path(FOLDER).iterdir())


def end(tests, server, name):
    server.stop()
    run = server.end()
    tests.check(name, run.status == 0, run)
    return run


def test_a_copy(tests):
    """One file without a log, with all that was answered; a second server takes it up, and neither has what the other does later."""
    with copying(tests) as server:
        told(server, ADD, call(0, 3), batch(1, 2))
        run = snapshot(tests, server, "monday.db")
        tests.check("a copy", (run.status, run.out, run.err) == (0, lines({"snapshot": "monday.db"}), ""), run)
        tests.check("it is one file", in_folder(tests) == ["monday.db"], in_folder(tests))
        copy = f"{FOLDER}/monday.db"
        tests.check("its soundness", stored(tests, copy, "pragma integrity_check") == [("ok",)], copy)
        rows = stored(tests, copy, "select call, reply from reply")
        tests.check("its replies", rows == [(0, "[8]"), (1, "[9]"), (2, "[11]")], rows)
        tests.check("the server goes on", told(server, call(0, 100)) == [reply(3, OPENING + 106)], server.said)
        with again(tests, copy) as second:
            tests.check("a second server takes it up", f"{copy}: 3 calls of epoch 0 taken again, 0 of them ended now" in second.said, second.said)
            answers = told(second, call(0, 10))
            tests.check("it has all that was answered before the copy", answers == [reply(0, OPENING + 16)], answers)
            end(tests, second, "the second server's end")
        run = snapshot(tests, server, "tuesday.db")
        rows = stored(tests, f"{FOLDER}/tuesday.db", "select reply from reply where call = 3")
        tests.check("a later copy", run.status == 0 and rows == [("[111]",)], (run, rows))
        end(tests, server, "the server's end")
    # Python's SQLite leaves files of its own beside what it has only read.
    tests.check("the copies are those", [name for name in in_folder(tests) if name.endswith(".db")] == ["monday.db", "tuesday.db"], in_folder(tests))


def test_refused(tests):
    """What isn't a copy's name, and a name that is taken: nothing is written or replaced, and the server goes on."""
    with copying(tests) as server:
        told(server, ADD)
        for name in ("", "monday", ".db", "mon day.db", "../monday.db", "a/b.db", "m" * 65 + ".db", "m" * 200 + ".db", "monday.db-wal", "mönday.db"):
            run = snapshot(tests, server, name)
            tests.check(f"the name {name[:20]!r}", (run.status, run.out) == (1, lines({"error": [1010]})), run)
        tests.check("nothing is written", in_folder(tests) == [], in_folder(tests))
        run = snapshot(tests, server, "m" * 64 + ".db")
        tests.check("the longest name", run.status == 0, run)
        for taken, other in (("one.db", "one.db"), ("two.db", "two.db-wal"), ("three.db", "three.db-journal")):
            (tests.path(FOLDER) / other).write_text("mine")
            run = snapshot(tests, server, taken)
            kept = (tests.path(FOLDER) / other).read_text()
            tests.check(f"a name that {other} takes", (run.status, run.out, kept) == (1, lines({"error": [1010]}), "mine"), run)
        (tests.path(FOLDER) / "four.db.part").write_text("what an earlier one left")
        run = snapshot(tests, server, "four.db")
        tests.check("what an earlier one left", run.status == 0 and "four.db.part" not in in_folder(tests), run)
        tests.path(FOLDER).rename(tests.path("elsewhere"))
        run = snapshot(tests, server, "five.db")
        tests.check("a folder that isn't there", (run.status, run.out) == (3, lines({"error": [32]})), run)
        tests.check("the server goes on", told(server, call(0, 1)) == [reply(0, OPENING + 1)], server.said)
        end(tests, server, "the end after refusals")


def mode(tests, name):
    return tests.path(name).stat().st_mode & 0o777


def test_modes(tests):
    """A new store has the mode that --mode says, whatever the umask, and its log and its copies have the mode of the store."""
    tests.path(FOLDER).mkdir()
    for digits in ("600", "640", "666"):
        name, wanted = f"of-{digits}.db", int(digits, 8)
        with serving(tests, "--store", name, "--snapshots", FOLDER, "--mode", digits, connections=None) as server:
            told(server, ADD, call(0, 3))
            run = snapshot(tests, server, name)
            found = [mode(tests, each) for each in (name, f"{name}-wal", f"{FOLDER}/{name}")]
            tests.check(f"modes of {digits}", run.status == 0 and found == [wanted] * 3, (run, found))
            tests.path(name).chmod(0o604)
            run = snapshot(tests, server, f"later-{name}")
            tests.check("a copy of a store of another mode", run.status == 0 and mode(tests, f"{FOLDER}/later-{name}") == 0o604, run)
            end(tests, server, "the end")
        with again(tests, name, "--mode", "660") as server:
            end(tests, server, "the end of the next one")
        tests.check("a store that is there keeps its mode", mode(tests, name) == 0o604, oct(mode(tests, name)))
    for words in (["--store", "bad.db", "--mode", "68"], ["--mode", "600"]):
        run = tests.run("serve", "--port", "1", "--control", "2", "--tree", "examples/one-node.json", *words)
        tests.check(f"serve {' '.join(words)}", run.status == 2 and "--mode is " in run.err and not tests.path("bad.db").exists(), run)


def test_no_copies(tests):
    """Servers that make none: without a folder, without a store, of which clients seal, and none at all."""
    refused = (1, lines({"error": [901]}))
    for name, words, connections in (("without a folder", ["--store", STORE], None), ("without a store", [], None), ("of which clients seal", [], 1)):
        with serving(tests, *words, connections=connections) as server:
            run = snapshot(tests, server, "monday.db")
            tests.check(f"a server {name}", (run.status, run.out) == refused, run)
            server.stop()
            server.end()
    run = tests.run("snapshot", "--port", str(free_port()), "monday.db")
    tests.check("nobody there", (run.status, run.out) == (3, lines({"error": [33]})), run)
    run = tests.run("serve", "--port", "1", "--control", "2", "--tree", "examples/one-node.json", "--snapshots", FOLDER)
    tests.check("a folder without a store", run.status == 2 and "--snapshots is for a store" in run.err, run)


def test_the_line(tests):
    """What the control answers to the line itself, whole or cut off."""
    with copying(tests, "lines.db") as server:
        told(server, ADD)
        for name, line, answer in (
            ("a request", b"snapshot a.db\n", lines({"snapshot": "a.db"})),
            ("no name", b"snapshot \n", lines({"error": [1010]})),
            ("no UTF-8", b"snapshot \xff.db\n", lines({"error": [1010]})),
            ("another word", b"snapshots a.db\n", lines({"error": [901]})),
            ("cut off", b"snapshot b.d", lines({"error": [901]})),
        ):
            with socket.create_connection(("127.0.0.1", server.control), timeout=PATIENCE) as peer:
                peer.sendall(line)
                peer.shutdown(socket.SHUT_WR)
                got = peer.makefile().readline()
            tests.check(f"the line: {name}", got == answer, got)
        end(tests, server, "the line: the end")


def call_until(server, over, replies):
    """Adds 1 again and again on a connection of its own, and keeps what was answered."""
    peer = Peer(server.port)
    while not over.is_set():
        replies.append(json.loads(peer.ask(call(0, 1)))["reply"][0])
    peer.close()


def test_under_load(tests):
    """Copies while four connections call: each has a sum of calls as a crash could leave it, with all that was answered before it was asked for."""
    with copying(tests, "busy.db") as server:
        told(server, ADD)
        over, replies = threading.Event(), [[] for _ in range(CALLERS)]
        callers = Threads(*[(call_until, server, over, each) for each in replies])
        for number in range(COPIES):
            before = max((each[-1] for each in replies if each), default=OPENING)
            run = snapshot(tests, server, f"copy-{number}.db")
            tests.check(f"copy {number} under load", run.status == 0, run)
            sums = [json.loads(row[0])[0] for row in stored(tests, f"{FOLDER}/copy-{number}.db", "select reply from reply")]
            tests.check(f"copy {number} has what was answered before", max(sums, default=OPENING) >= before, (len(sums), before))
            tests.check(f"copy {number} has each sum once", sorted(sums) == list(range(OPENING + 1, OPENING + 1 + len(sums))), len(sums))
        over.set()
        callers.join()
        run = end(tests, server, "the end under load")
    whole = OPENING + sum(len(each) for each in replies)
    tests.check("nothing was lost meanwhile", json.loads(run.out.splitlines()[1])["records"][0][0] == whole, run)
    name = f"{FOLDER}/copy-{COPIES - 1}.db"
    with contextlib.closing(sqlite3.connect(tests.path(name))) as base:
        count = base.execute("select count(*) from call").fetchone()[0]
    with again(tests, name) as server:
        answers = told(server, call(0, 0))
        tests.check("the last copy, taken up", json.loads(answers[0])["reply"] == [OPENING + count], (answers, count))
        end(tests, server, "the last copy: the end")
