"""Tests a server with a store: what was answered is found again, whatever ends the server.

The files are read by Python's own SQLite while no server has them open. `test_failing` tries disks that fail or are full, `test_syncs` that answers wait for the disk, `test_power` power cuts.
"""

import contextlib
import fcntl
import json
import os
import random
import re
import shutil
import signal
import sqlite3
import subprocess
import sys
import time

from running import TOP, Threads, free_port
from serving import ADD, Peer, serving

STORE = "things.db"


def lines(*values):
    return "".join(json.dumps(value, separators=(",", ":")) + "\n" for value in values)


def call(node, amount):
    return json.dumps({"op": "call", "proc": "add", "args": [node, amount]})


def batch(*amounts):
    return json.dumps({"op": "batch", "calls": [["add", [0, amount]] for amount in amounts], "workers": 1})


def reply(number, value, epoch=0):
    return lines({"call": number, **({"epoch": epoch} if epoch else {}), "reply": [value]})


def stored(tests, name, question):
    """The rows of a question to a store that no server has open. A file that was left by a kill is read with its log."""
    with contextlib.closing(sqlite3.connect(f"file:{tests.path(name)}?mode=ro", uri=True)) as base:
        return base.execute(question).fetchall()


def made(tests, name, **more):
    return serving(tests, "--store", name, connections=None, **more)


def again(tests, name, *words, **more):
    return serving(tests, "--store", name, *words, connections=None, tree=None, **more)


def kill(server):
    server.kill()


def test_no_store(tests):
    words = ["serve", "--port", str(free_port()), "--store", "none.db"]
    tests.answers("no store, and no tree", words, 1, lines({"error": [1008]}))
    tests.check("nothing is made", not tests.path("none.db").exists() and not tests.path("none.db-wal").exists(), "it is there")
    tests.answers("no store, and a tree that isn't there", [*words, "--tree", "nowhere.json"], 3, lines({"error": [31]}))
    tests.path("bad.json").write_text('{"parents":[1],"records":[[0,0,0,0,0,0,0,0]]}')
    tests.answers("no store, and a tree with a fault", [*words, "--tree", "bad.json"], 1, lines({"error": [103]}))
    tests.check("nothing is made of a bad tree", not tests.path("none.db").exists(), "it is there")


def test_a_store(tests):
    """Made, stopped in order, and taken up again."""
    with made(tests, STORE) as server:
        peer = Peer(server.port)
        told = [peer.ask(ADD) != "", peer.ask(call(0, 3))]
        peer.close()
        server.stop()
        run = server.end()
    tests.check("a store that is made", told == [True, reply(0, 8)], told)
    after = {"parents": [0], "records": [[8, 0, 0, 0, 0, 0, 0, 0]]}
    tests.check("a store that is made: the end", (run.status, run.out) == (0, lines({"generations": 1}, after)), run)
    tests.check("its records", stored(tests, STORE, "select * from record") == [(0, 8, 0, 0, 0, 0, 0, 0, 0)], stored(tests, STORE, "select * from record"))
    question = "select call.procedure, call.arguments, reply.reply from call join reply on call.epoch = reply.epoch and call.number = reply.call"
    tests.check("its calls", stored(tests, STORE, question) == [("add", "[0,3]", "[8]")], stored(tests, STORE, question))
    tests.check("its opening", stored(tests, STORE, "select f0 from opening") == [(5,)], stored(tests, STORE, "select f0 from opening"))
    tests.check("its nodes", stored(tests, STORE, "select * from node") == [(0, 0, 0)], stored(tests, STORE, "select * from node"))
    tests.check("its procedures", stored(tests, STORE, "select number, name from procedure") == [(0, "add")], stored(tests, STORE, "select number, name from procedure"))
    tests.check("its soundness", stored(tests, STORE, "pragma integrity_check") == [("ok",)], stored(tests, STORE, "pragma integrity_check"))
    page = [line.strip() for line in (TOP / "docs/use/store-format.md").read_text().splitlines() if line.startswith("    CREATE ")]
    tests.check("its tables are those of the page on its format", stored(tests, STORE, "select sql from sqlite_master") == [(sql,) for sql in page], page)
    before = tests.bytes(STORE)
    words = ["serve", "--port", str(free_port()), "--store", STORE, "--tree", "examples/one-node.json"]
    tests.answers("a store, and a tree", words, 1, lines({"error": [1009]}))
    tests.check("a store, and a tree: the file", tests.bytes(STORE) == before, "it is another")
    with again(tests, STORE) as server:
        peer = Peer(server.port)
        told = peer.ask(call(0, 4))
        peer.close()
        server.stop()
        run = server.end()
    tests.check("a store that is taken up", told == reply(0, 12) and run.status == 0, (told, run))
    tests.check("its epochs", stored(tests, STORE, "select epoch, number from call") == [(0, 0), (1, 0)], stored(tests, STORE, "select epoch, number from call"))


def test_a_kill(tests):
    """What was answered before a kill is taken again."""
    name = "killed.db"
    with made(tests, name) as server:
        peer = Peer(server.port)
        told = [peer.ask(ADD) != "", peer.ask(call(0, 3)), peer.ask(batch(1, 2, 3))]
        kill(server)
    tests.check("before a kill", told[1] == reply(0, 8), told)
    for number in range(2):
        with again(tests, name) as server:
            peer = Peer(server.port)
            told = peer.ask(call(0, 0))
            kill(server)
        calls, epoch = (4, 0) if number == 0 else (1, 1)
        tests.check(f"after kill {number}", told == reply(0, 14) and f"{name}: {calls} calls of epoch {epoch} taken again, 0 of them ended now" in server.said + "", (told, server.said))
    with again(tests, name) as server:
        peer = Peer(server.port)
        told = peer.ask(call(0, 1))
        peer.close()
        server.stop()
        run = server.end()
    tests.check("a stop after kills", told == reply(0, 15) and run.out == lines({"generations": 1}, {"parents": [0], "records": [[15] + [0] * 7]}), (told, run))


def test_one_server(tests):
    """A store has one server."""
    name = "one.db"
    with made(tests, name) as server:
        Peer(server.port).ask(ADD)
        tests.answers("a store that is open", ["serve", "--port", str(free_port()), "--store", name], 3, lines({"error": [1002]}))
        server.stop()
        tests.check("the first server goes on", server.end().status == 0, "it didn't")


def test_foreign(tests):
    """Files that are no stores, and stores that somebody changed."""
    with contextlib.closing(sqlite3.connect(tests.path("other.db"))) as base:
        base.execute("create table t(a)")
        base.commit()
    before = tests.bytes("other.db")
    words = ["serve", "--port", str(free_port()), "--store"]
    tests.answers("a file with other tables", [*words, "other.db"], 1, lines({"error": [1003, 9]}))
    tests.check("a file with other tables stays", tests.bytes("other.db") == before, "it is another")
    tests.path("folder.db").mkdir()
    tests.answers("a folder without volumes", [*words, "folder.db"], 1, lines({"error": [1008]}))
    tree = ["--tree", "examples/one-node.json"]
    tests.answers("a file in no folder", [*words, "nowhere/things.db", *tree], 3, lines({"error": [1001, 2]}))
    tests.path("played.db").touch()
    tests.path("played.db-journal").write_bytes(b"a journal")
    tests.answers("a file with a journal", [*words, "played.db", *tree], 3, lines({"error": [1001, 4]}))
    with made(tests, "changed.db") as server:
        peer = Peer(server.port)
        peer.ask(ADD)
        peer.ask(call(0, 3))
        peer.ask(call(0, 4))
        kill(server)
    for what, number in (("update reply set reply = '[16]' where id = 0", [1006, 0]), ("update reply set call = 7 where id = 0", [1006, 7]), ("update call set arguments = '[a]' where id = 0", [1003, 3]),
                         ("update turn set calls = x'0001'", [1005, 0]), ("update turn set calls = x'000000000000000000010001000100010002'", [1004, 8]), ("update turn set calls = x'00000000000000000000'", [1005, 4]),
                         ("update procedure set container = x'00'", [1003, 2]), ("update node set parent = 1", [1003, 0]), ("delete from record", [1003, 1])):
        for suffix in ("", "-wal"):
            shutil.copyfile(tests.path("changed.db" + suffix), tests.path("copy.db" + suffix))
        with contextlib.closing(sqlite3.connect(tests.path("copy.db"))) as base:
            base.execute(what)
            base.commit()
        run = tests.run(*words, "copy.db")
        tests.check(f"a store after {what}", (run.status, run.out) == (1, lines({"error": number})), run)


def test_registered(tests):
    """Procedures of the command line are registered once; one that is there already is passed over."""
    words = ("--proc", "add=examples/add.asm")
    with serving(tests, "--store", "named.db", *words, connections=None) as server:
        peer = Peer(server.port)
        told = [peer.ask(call(0, 1))]
        kill(server)
    with again(tests, "named.db", *words) as server:
        peer = Peer(server.port)
        told.append(peer.ask(call(0, 1)))
        peer.close()
        server.stop()
        server.end()
    tests.check("procedures of the command line", told == [reply(0, 6), reply(0, 7)], told)
    tests.check("they are stored once", stored(tests, "named.db", "select name from procedure") == [("add",)], stored(tests, "named.db", "select name from procedure"))
    tests.answers("another procedure of that name", ["serve", "--port", str(free_port()), "--store", "named.db", "--proc", "add=examples/walk.asm"], 1, lines({"error": [611]}))


def test_texts(tests):
    """The procedures of a text are stored, in its order, before it is answered."""
    source = "field pieces = 0; proc add(at, amount) { lock n = node(at); n.pieces += amount; emit n.pieces; } proc one() { emit 1; }"
    with made(tests, "texts.db") as server:
        peer = Peer(server.port)
        told = peer.ask(json.dumps({"op": "register", "text": source}))
        kill(server)
    tests.check("a text with a store", [it["name"] for it in json.loads(told)["registered"]] == ["add", "one"], told)
    with again(tests, "texts.db") as server:
        peer = Peer(server.port)
        told = [peer.ask(call(0, 1)), peer.ask(json.dumps({"op": "call", "proc": "one", "args": []})), peer.ask(json.dumps({"op": "register", "text": source}))]
        peer.close()
        server.stop()
        server.end()
    tests.check("a text after a kill", told == [reply(0, 6), reply(1, 1), lines({"error": [611]})], told)
    found = stored(tests, "texts.db", "select number, name from procedure")
    tests.check("its procedures are stored", found == [(0, "add"), (1, "one")], found)


def test_growth(tests):
    """Nodes that are appended are stored, with the epoch at whose beginning they were there first."""
    name = "grown.db"
    with made(tests, name) as server:
        peer = Peer(server.port)
        told = [peer.ask(ADD) != "", peer.ask(call(0, 3)), peer.ask(json.dumps({"op": "grow", "parents": [0, 1]})), peer.ask(call(2, 5))]
        kill(server)
    tests.check("growth with a store", told[1:] == [reply(0, 8), lines({"grown": 1}), reply(0, 5, 1)], told)
    with again(tests, name) as server:
        peer = Peer(server.port)
        told = [peer.ask(call(node, 1)) for node in (0, 1, 2, 3)]
        peer.close()
        server.stop()
        run = server.end()
    tests.check("growth after a kill", told == [reply(0, 9), reply(1, 1), reply(2, 6), reply(3, 0).replace("[0]", "[]")], told)
    tests.check("growth: the nodes", stored(tests, name, "select number, parent, epoch from node") == [(0, 0, 0), (1, 0, 1), (2, 1, 1)], stored(tests, name, "select number, parent, epoch from node"))
    after = {"parents": [0, 0, 1], "records": [[value] + [0] * 7 for value in (9, 1, 6)]}
    tests.check("growth: the end", run.out.endswith(lines(after)), run)


def test_three_nodes_at_once(tests):
    """Each node of one growth is stored, and an export has it once."""
    name = "three.db"
    with made(tests, name) as server:
        peer = Peer(server.port)
        told = [peer.ask(line) for line in (ADD, json.dumps({"op": "grow", "parents": [0, 0, 2]}), call(1, 1), call(2, 2), call(3, 3))]
        kill(server)
    tests.check("three nodes", told[1:] == [lines({"grown": 1}), reply(0, 1, 1), reply(1, 2, 1), reply(2, 3, 1)], told)
    trails = check_export(tests, name, "grown", [1, 1])
    tests.check("three nodes: the export", [record[0] for record in trails[-1]["end"]] == [5, 1, 2, 3], trails[-1])
    with again(tests, name) as server:
        peer = Peer(server.port)
        told = [json.loads(peer.ask(call(node, 1)))["reply"] for node in range(4)]
        peer.close()
        server.stop()
        server.end()
    tests.check("three nodes after a kill", told == [[6], [2], [3], [4]], told)
    tests.check("three nodes: the rows", stored(tests, name, "select number, parent, epoch from node") == [(0, 0, 0), (1, 0, 1), (2, 0, 1), (3, 2, 1)], stored(tests, name, "select * from node"))


def test_a_long_commit(tests):
    """A batch whose calls take more than 32,768 turns is one commit, and can be read again."""
    name, children = "long.db", 200
    tests.path("wide.json").write_text(json.dumps({"parents": [0] * (children + 1), "records": [[1] + [0] * 7] * (children + 1)}))
    text = "field value = 0; proc walk() { lock n = node(0); let sum = 0; for each child c of n at most 200 { sum += c.value; } emit sum; }"
    with serving(tests, "--store", name, connections=None, tree="wide.json") as server:
        peer = Peer(server.port)
        peer.ask(json.dumps({"op": "register", "text": text}))
        told = json.loads(peer.ask(json.dumps({"op": "batch", "calls": [["walk", []]] * 256, "workers": 1})))["batch"]
        kill(server)
    tests.check("a long commit", [each["reply"] for each in told] == [[children]] * 256, told[:2])
    with again(tests, name) as server:
        tests.check("a long commit is taken again", f"{name}: 256 calls of epoch 0 taken again, 0 of them ended now" in server.said, server.said)
        kill(server)
    turns = max(length for length, in stored(tests, name, "select length(calls) from turn"))
    tests.check("it has many turns", turns > 2 * 32_768, turns)


def test_the_log(tests):
    """The log is moved into the file from time to time, and then begins anew."""
    name, most = "logged.db", 0
    with made(tests, name) as server:
        peer = Peer(server.port)
        peer.ask(ADD)
        for _ in range(30):
            for _ in range(20):
                peer.ask(call(0, 1))
            most = max(most, tests.path(name + "-wal").stat().st_size)
        kill(server)
    size = len(tests.bytes(name))
    tests.check("the log has an end", most < 5_000_000 and size > 4096, (most, size))


def test_others_are_kept_out(tests):
    """While a server has a store, SQLite finds it locked."""
    name = "locked.db"
    with made(tests, name) as server:
        Peer(server.port).ask(ADD)
        for question in ("select * from call", "insert into reply values (9, 9, 9, '[]')"):
            try:
                with contextlib.closing(sqlite3.connect(tests.path(name), timeout=0)) as base:
                    base.execute(question)
                found = "it was done"
            except sqlite3.OperationalError as refused:
                found = str(refused)
            tests.check(f"kept out: {question}", "locked" in found, found)
        server.stop()
        server.end()
    tests.check("let in afterwards", stored(tests, name, "select count(*) from procedure") == [(1,)], name)


def test_signals(tests):
    """A server that a signal ends has stored what it answered."""
    for sent in (signal.SIGTERM, signal.SIGHUP, signal.SIGINT):
        name = f"{sent.name}.db"
        with made(tests, name) as server:
            peer = Peer(server.port)
            told = [peer.ask(ADD), peer.ask(call(0, 3))]
            server.process.send_signal(sent)
            run = server.end()
        tests.check(f"{sent.name} ends it", run.status == -sent and told[1] == reply(0, 8), (run, told))
        with again(tests, name) as server:
            told = Peer(server.port).ask(call(0, 0))
        tests.check(f"after {sent.name}", told == reply(0, 8), told)


def test_many_connections(tests):
    """Forty connections at once, each of which gets its own answers."""
    with serving(tests, "--store", "forty.db", "--at-once", "40", connections=None) as server:
        peers = [Peer(server.port) for _ in range(40)]
        peers[0].ask(ADD)
        for peer in peers:
            peer.send(*[call(0, 1)] * 5)
        replies = [[json.loads(peer.lines.readline())["reply"][0] for _ in range(5)] for peer in peers]
        for peer in peers:
            peer.close()
        server.stop()
        run = server.end()
    tests.check("forty connections: each finds its own writes", all(own == sorted(own) for own in replies), replies)
    tests.check("forty connections: all are done", sorted(each for own in replies for each in own) == list(range(6, 206)) and run.status == 0, run)


def test_most_procedures(tests):
    """A store has 256 procedures, and no more."""
    name, one = "most.db", "proc p{0}() {{ emit {0}; }} "
    with made(tests, name) as server:
        peer = Peer(server.port)
        for begin in range(0, 256, 64):
            answer = json.loads(peer.ask(json.dumps({"op": "register", "text": "".join(one.format(number) for number in range(begin, begin + 64))})))
            tests.check(f"procedures from {begin}", len(answer.get("registered", [])) == 64, answer)
        refused = [peer.ask(json.dumps({"op": "register", "text": one.format(256)})), peer.ask(json.dumps({"op": "register", "name": "more", "asm": "arity 0\nret\n"}))]
        tests.check("one procedure too many", refused == [lines({"error": [613]})] * 2, refused)
        kill(server)
    with again(tests, name) as server:
        peer = Peer(server.port)
        answers = [peer.ask(json.dumps({"op": "call", "proc": f"p{number}", "args": []})) for number in (0, 255, 256)]
    tests.check("all procedures after a kill", answers == [reply(0, 0), reply(1, 255), lines({"error": [601]})], answers)


def copied(tests, name, copy, change=None):
    """A copy of a store and its log, after that change."""
    for suffix in ("", "-wal"):
        if tests.path(name + suffix).exists():
            shutil.copyfile(tests.path(name + suffix), tests.path(copy + suffix))
    if change is not None:
        with contextlib.closing(sqlite3.connect(tests.path(copy))) as base, base:
            base.execute(change)


def kept(tests, name):
    """The bytes of a store and of the pages in its log. A log without pages gets another head whenever the store is opened."""
    log = tests.bytes(name + "-wal")
    return tests.bytes(name), log if len(log) > 4096 else b""


def check_export(tests, name, folder, files):
    """What a store has is exported into so many epochs a file, which the auditor finds clean, and the store stays as it is."""
    before = kept(tests, name)
    tests.path(folder).mkdir()
    run = tests.run("export", name, folder)
    tests.check(f"{folder}: export", (run.status, run.out) == (0, lines({"epochs": sum(files), "files": len(files)})), run)
    found = sorted(file.name for file in tests.path(folder).iterdir())
    tests.check(f"{folder}: the files", found == [f"{number}.json" for number in range(len(files))], found)
    of_folder, of_store = tests.run("audit", folder), tests.run("audit", name)
    tests.check(f"{folder}: audit", of_folder.status == 0 and [len(json.loads(line)["orders"]) for line in of_folder.out.splitlines()] == files, of_folder)
    tests.check(f"{folder}: audit of the store", (of_store.status, of_store.out) == (0, of_folder.out), of_store)
    tests.check(f"{folder}: the store stays", kept(tests, name) == before, "it is another")
    trails = [trail for number in range(len(files)) for trail in json.loads(tests.path(f"{folder}/{number}.json").read_text())]
    copied(tests, name, "counted.db")
    wanted = dict(stored(tests, "counted.db", "select epoch, count(*) from call group by epoch"))
    tests.check(f"{folder}: the calls of each epoch", [len(trail["calls"]) for trail in trails] == [wanted.get(epoch, 0) for epoch in range(len(trails))], wanted)
    return trails


def test_exports(tests):
    """Epochs that filled up, that a growth ended and that a kill ended are exported, and judged by the auditor."""
    name, full = "exported.db", 17 * 256
    with serving(tests, "--store", name, "--generation", "1", connections=None) as server:
        peer = Peer(server.port)
        peer.ask(ADD)
        for _ in range(17):
            peer.ask(batch(*[1] * 256))
        for line in (json.dumps({"op": "grow", "parents": [0, 1]}), call(1, 4), call(2, 5), json.dumps({"op": "grow", "parents": [2]}), call(3, 6)):
            peer.ask(line)
        kill(server)
    trails = check_export(tests, name, "killed", [2, 1, 1])
    tests.check("an export: the first tree", trails[0]["tree"] == {"parents": [0], "records": [[5] + [0] * 7]}, trails[0]["tree"])
    tests.check("an export: the last tree", [record[0] for record in trails[-1]["end"]] == [5 + full, 4, 5, 6], trails[-1]["end"])
    with again(tests, name) as server:
        peer = Peer(server.port)
        told = json.loads(peer.ask(call(0, 1)))["reply"]
        for verb in (["audit"], ["export"]):
            tests.path("held").mkdir(exist_ok=True)
            tests.answers(f"{verb[0]} of a store that a server has", [*verb, name, *(["held"] if verb == ["export"] else [])], 3, lines({"error": [1002]}))
        peer.close()
        server.stop()
        server.end()
    trails = check_export(tests, name, "ended", [2, 1, 3])
    tests.check("an export after a start", told == [6 + full] and trails[-1]["end"][0][0] == 6 + full, (told, trails[-1]["end"]))


def test_reading(tests):
    """Who may only read a store and its folder can audit and export it. Nothing is made or changed there, with a log and without one."""
    # To root each file may be written, so another user reads.
    user = 65534 if os.geteuid() == 0 else None
    vault, name = tests.path("vault"), "vault/read.db"
    for made_folder, mode in ((tests.folder, 0o755), (vault, 0o755), (tests.path("killed"), 0o777), (tests.path("ended"), 0o777)):
        made_folder.mkdir(exist_ok=True)
        made_folder.chmod(mode)

    def held():
        return {file.name: (file.read_bytes(), file.stat().st_mtime_ns, file.stat().st_ino) for file in vault.iterdir()}

    def reads(what, folder, orders):
        for file in vault.iterdir():
            file.chmod(0o444)
        vault.chmod(0o555)
        before = held()
        audit, export = tests.run("audit", name, user=user), tests.run("export", name, folder, user=user)
        tests.check(f"{what}: the audit", (audit.status, audit.out, audit.err) == (0, lines({"orders": orders}), ""), audit)
        tests.check(f"{what}: the export", (export.status, export.out) == (0, lines({"epochs": len(orders), "files": 1})), export)
        tests.check(f"{what}: the files", held() == before, (sorted(before), sorted(held())))
        tests.answers(f"{what}: its trails", ["audit", f"{folder}/0.json"], 0, lines({"orders": orders}), "")
        vault.chmod(0o755)
        for file in vault.iterdir():
            file.chmod(0o644)

    with made(tests, name) as server:
        peer = Peer(server.port)
        for line in (ADD, call(0, 3), call(0, 4)):
            peer.ask(line)
        kill(server)
    tests.check("a kill leaves a log", tests.bytes(f"{name}-wal") != b"", sorted(held()))
    reads("after a kill", "killed", [[0, 1]])
    tests.path(f"{name}-wal").chmod(0)
    run = tests.run("audit", name, user=user)
    tests.check("a log that may not be read", (run.status, run.out) == (3, lines({"error": [1001, 1]})), run)
    tests.path(f"{name}-wal").chmod(0o644)
    with again(tests, name) as server:
        server.stop()
        server.end()
    tests.path(f"{name}-wal").unlink()
    # The start and the stop have sealed an epoch each.
    orders = [[0, 1], [], []]
    reads("without a log", "ended", orders)
    with open(tests.path(name), "rb+") as file:
        for what, kind, answer in (("another that reads", fcntl.LOCK_SH, (0, lines({"orders": orders}))), ("one that writes", fcntl.LOCK_EX, (3, lines({"error": [1002]})))):
            fcntl.lockf(file, kind, 512, 1 << 30)
            run = tests.run("audit", name)
            tests.check(f"an audit beside {what}", (run.status, run.out) == answer, run)


def changed(tests, name, *statements):
    """Changes a store that no server has open, by Python's SQLite."""
    with contextlib.closing(sqlite3.connect(tests.path(name))) as base:
        for statement in statements:
            base.execute(statement)
        base.commit()


def test_forms(tests):
    """A new store says its form. One of each form so far is taken up; one of a newer form is refused, and stays as it is."""
    with made(tests, "form.db") as server:
        kill(server)
    tests.check("its form, right after it is made", tests.bytes("form.db")[60:64] == bytes([0, 0, 0, 1]), tests.bytes("form.db")[:100])
    for kept in sorted((TOP / "tests/forms").glob("*.db")):
        name = f"of-{kept.name}"
        shutil.copyfile(kept, tests.path(name))
        said = stored(tests, name, "pragma user_version")
        tests.check(f"form {kept.stem}: what it says", said == [(int(kept.stem),)], said)
        with again(tests, name) as server:
            peer = Peer(server.port)
            again_told = peer.ask(json.dumps({"op": "call", "proc": "add", "args": [0, 2], "key": "first"}))
            told = peer.ask(call(0, 3))
            peer.close()
            server.stop()
            run = server.end()
        tests.check(f"form {kept.stem}: a call that it has the key of", again_told == lines({"call": 0, "reply": [7], "stored": 0}), again_told)
        tests.check(f"form {kept.stem}: a call", told == reply(0, 10) and run.status == 0, (told, run))
        audit = tests.run("audit", name)
        tests.check(f"form {kept.stem}: the audit", (audit.status, audit.out) == (0, lines({"orders": [[0], [0], []]})), audit)
        tests.check(f"form {kept.stem}: it says what it said", stored(tests, name, "pragma user_version") == said, said)
    tests.path("forms").mkdir()
    for what, statements, numbers in (("a newer form", ["pragma user_version = 2"], [1018, 2]), ("the newest form", [f"pragma user_version = {2 ** 31 - 1}"], [1018, 2 ** 31 - 1]),
                                      ("a newer form with another table", ["create table more(number integer primary key)", "pragma user_version = 7"], [1018, 7]),
                                      ("this form with another table", ["create table more(number integer primary key)"], [1003, 9]),
                                      ("other tables", ["drop table node", "pragma user_version = 7"], [1003, 9])):
        shutil.copyfile(tests.path("form.db"), tests.path("newer.db"))
        changed(tests, "newer.db", *statements)
        before = tests.bytes("newer.db")
        for words in (["serve", "--port", str(free_port()), "--store", "newer.db"], ["audit", "newer.db"], ["export", "newer.db", "forms"]):
            tests.answers(f"{words[0]} of {what}", words, 1, lines({"error": numbers}))
        tests.check(f"{what}: the file", tests.bytes("newer.db") == before, "it is another")


def test_exports_refused(tests):
    """Files that are no stores, folders that won't do, and stores that somebody changed."""
    tests.path("there").mkdir()
    name = "sound.db"
    with made(tests, name) as server:
        peer = Peer(server.port)
        for line in (ADD, call(0, 3), call(0, 4)):
            peer.ask(line)
        kill(server)
    with again(tests, name) as server:
        server.stop()
        server.end()
    for what, words, status, numbers in (("a folder that isn't there", [name, "nowhere"], 3, [32]), ("a store that isn't there", ["none.db", "there"], 3, [31]),
                                         ("a text", ["examples/one-node.json", "there"], 1, [1003, 9]), ("a folder as a store", ["examples", "there"], 3, [1001, 3])):
        tests.answers(f"export: {what}", ["export", *words], status, lines({"error": numbers}))
    tests.check("nothing is made by these", not any(tests.path(other).exists() for other in ("none.db", "none.db-wal", "examples/one-node.json-wal")), "it is there")
    with contextlib.closing(sqlite3.connect(tests.path("foreign.db"))) as base, base:
        base.execute("create table t(a)")
    for words in (["audit", "foreign.db"], ["export", "foreign.db", "there"]):
        tests.answers(f"{words[0]}: a database that is no store", words, 1, lines({"error": [1003, 9]}))
    tests.path("sound").mkdir()
    tests.run("export", name, "sound")
    run = tests.run("audit", "sound/0.json", name)
    tests.check("a store behind another file is read as a trail", run.status == 1 and run.out.startswith('{"orders":') and run.out.endswith(lines({"error": [701]})), run)
    for change, numbers in (("update record set f0 = 13", [1007, 0]), ("update reply set reply = '[9]' where id = 0", [1006, 0]), ("update opening set f0 = 6", [1006, 0]),
                            ("update turn set calls = x'0001'", [1005]), ("update seal set calls = 9", [1003, 6])):
        copied(tests, name, "changed.db", change)
        for words in (["audit", "changed.db"], ["export", "changed.db", "there"]):
            run = tests.run(*words)
            tests.check(f"{words[0]} after {change}", run.status == 1 and json.loads(run.out)["error"][:len(numbers)] == numbers, run)
    tests.check("a refused export leaves no whole file", [file.name for file in tests.path("there").iterdir() if file.suffix == ".json"] == [], list(tests.path("there").iterdir()))
    copied(tests, name, "damaged.db")
    content = bytearray(tests.bytes("damaged.db"))
    content[4096 * 2:4096 * 2 + 64] = bytes(64)
    tests.path("damaged.db").write_bytes(content)
    for words in (["audit", "damaged.db"], ["export", "damaged.db", "there"], ["serve", "--port", str(free_port()), "--store", "damaged.db"]):
        run = tests.run(*words)
        tests.check(f"{words[0]} of a damaged file", run.status == 1 and json.loads(run.out)["error"][0] in (1003, 1013), run)
    for number in (0, 5):
        shutil.rmtree(tests.path("there"))
        tests.path("there").mkdir()
        tests.path(f"there/{number}.json").write_text("")
        tests.answers("export: a folder that has trails", ["export", name, "there"], 3, lines({"error": [32]}))


def test_questions(tests):
    """The questions of the page are answered by a store whose nodes have names, and a server takes that store up."""
    name = "asked.db"
    with made(tests, name) as server:
        peer = Peer(server.port)
        keyed = json.dumps({**json.loads(call(1, 4)), "key": "order 17"})
        for line in (ADD, call(0, 3), json.dumps({"op": "grow", "parents": [0, 1]}), keyed, call(2, 5)):
            peer.ask(line)
        peer.close()
        server.stop()
        server.end()
    tests.path("names.json").write_text(json.dumps(["", "north", "aisle 1"]))
    environment = {**os.environ, "PYTHONPATH": str(TOP / "clients/python")}
    named = subprocess.run([sys.executable, "-m", "treedb", "name", name, "names.json"], cwd=tests.folder, env=environment, capture_output=True, text=True, check=False)
    tests.check("names in a store", (named.returncode, named.stdout) == (0, "3 names\n"), named)
    views, *questions = re.search("```sql\n(.*?)```", (TOP / "docs/use/store.md").read_text(), re.DOTALL)[1].split("\n-- ")
    wanted = [[], [("add", 3)], [(1, 0, 4)], [(1, 0, "[4]")], [("north/aisle 1", 5)]]
    with contextlib.closing(sqlite3.connect(tests.path(name))) as base:
        base.executescript(views)
        found = [base.execute(question.partition("\n")[2]).fetchall() for question in questions]
        rows = base.execute("select number, path, parent, f0 from records order by number").fetchall()
    tests.check("questions to a store", found == wanted, found)
    tests.check("records by name", rows == [(0, "", 0, 8), (1, "north", 0, 4), (2, "north/aisle 1", 1, 5)], rows)
    with again(tests, name) as server:
        peer = Peer(server.port)
        told = json.loads(peer.ask(call(1, 1)))["reply"]
        peer.close()
        server.stop()
        run = server.end()
    tests.check("a store with names is taken up", (told, run.status) == ([5], 0), (told, run))
    tests.check("its names stay", stored(tests, name, "select count(*) from name") == [(3,)], stored(tests, name, "select count(*) from name"))


def test_many_epochs(tests):
    """Epochs that fill up, over generations, and a kill in one of them."""
    name, count = "many.db", 0
    with serving(tests, "--store", name, "--generation", "1", connections=None) as server:
        peer = Peer(server.port)
        peer.ask(ADD)
        for _ in range(80):
            answer = json.loads(peer.ask(batch(*[1] * 256)))
            count += sum("reply" in each for each in answer["batch"])
        kill(server)
    tests.check("many epochs: all calls", count == 80 * 256, count)
    with again(tests, name) as server:
        peer = Peer(server.port)
        told = peer.ask(call(0, 0))
        peer.close()
        server.stop()
        run = server.end()
    tests.check("many epochs: after a kill", json.loads(told)["reply"] == [5 + count] and run.status == 0, (told, run))
    tests.check("many epochs: the rows", stored(tests, name, "select count(*) from call") == [(count + 1,)], stored(tests, name, "select count(*) from call"))
    epochs = stored(tests, name, "select epoch, count(*), max(number) + 1 from call group by epoch order by epoch")
    tests.check("many epochs: each has its calls", len(epochs) > 5 and all(count == numbers <= 4096 for _, count, numbers in epochs), epochs)
    tests.check("many epochs: the seals", stored(tests, name, "select epoch, calls from seal") == [(epoch, sum(count for other, count, _ in epochs if other <= epoch))
                for epoch in range(epochs[-1][0] + 1)], (stored(tests, name, "select epoch, calls from seal"), epochs))


# A call that a server takes first, what its rows have of it, and other bytes in their place. Its number is written as two equal bytes.
CHANGED_CALL, ITS_NUMBER = {"op": "call", "proc": "add", "args": [0, 7654321], "key": "the key of a call"}, 0x0707
CHANGES = {
    "an argument": (b"[0,7654321]", b"[0,7654322]"),
    "a reply": (b"[7656125]", b"[7656126]"),
    "a turn": (b"\x07" * 8, b"\x07" * 6 + b"\x06" * 2),
    "a key": (b"the key of a call", b"the key of a cull"),
}
# A call with much to store, and how many of them store more pages than a server keeps in memory.
WIDE = json.dumps({"op": "register", "name": "wide", "asm": "arity 8\n" + "".join(f"emit v{number % 8}\n" for number in range(32)) + "ret\n"})
WIDE_CALLS = json.dumps({"op": "batch", "calls": [["wide", [-1 << 63] * 8]] * 256, "workers": 1})
MANY_PAGES = 42


def changed_in_files(tests, name, old, new):
    """Changes the files of a store beside the server that has them open. Answers whether the bytes were there."""
    found = False
    for path in (tests.path(name), tests.path(name + "-wal")):
        data = path.read_bytes() if path.exists() else b""
        at = data.find(old)
        while at >= 0:
            with open(path, "r+b") as file:
                file.seek(at)
                file.write(new)
            found, at = True, data.find(old, at + len(old))
    return found


def test_changed_beside_a_server(tests):
    """A server reads back at a hand-over what it has stored. Where the files were changed meanwhile, a page isn't what was written: it says which epoch, stores nothing more, and ends with 1013."""
    for what, (old, new) in CHANGES.items():
        tests.path(STORE).unlink(missing_ok=True)
        with made(tests, STORE) as server:
            peer = Peer(server.port)
            before = [peer.ask(ADD), peer.ask(WIDE), *(peer.ask(batch(*[1] * count)) for count in [256] * 7 + [7])]
            told = peer.ask(json.dumps(CHANGED_CALL))
            tests.check(f"{what} is changed: the call", told == reply(ITS_NUMBER, 5 + ITS_NUMBER + CHANGED_CALL["args"][1]), (told, before[-1]))
            many = [peer.ask(WIDE_CALLS) for _ in range(MANY_PAGES)]
            tests.check(f"{what} is changed", changed_in_files(tests, STORE, old, new), many[-1][:200])
            # Nodes are appended by the next engine. The one before is compared while lines are answered.
            grown = peer.ask(json.dumps({"op": "grow", "parents": [0]}))
            server.says(lambda said: "of the store" in said)
            refused = peer.ask(call(0, 1))
            server.stop()
            run = server.end()
        tests.check(f"{what} is changed: nodes are appended", grown == lines({"grown": 1}), grown)
        tests.check(f"{what} is changed: nothing more is stored", "reply" not in refused, refused)
        tests.check(f"{what} is changed: it is said of which epoch", "treedb: epoch 0 of the store isn't what was run, or can't be compared: " in run.err, run)
        tests.check(f"{what} is changed: the end", (run.status, run.out) == (1, lines({"error": [1013]})), run)


# A field of the record of a node that no call comes to, and another number in its place. Its row is in another page than those of the nodes that are called on.
UNTOUCHED, ITS_FIELD, OTHER_FIELD = 399, 0x1122334455667788, 0x1122334455667789


def test_changed_before_its_end(tests):
    """A server that is stopped reads back what the next start takes up, also the records that no engine's rows have. Where one of their pages isn't what was written, it ends with 1013."""
    tests.path("many.json").write_text(json.dumps({"parents": [0] * (UNTOUCHED + 1), "records": [[0] * 7 + [ITS_FIELD if node == UNTOUCHED else 0] for node in range(UNTOUCHED + 1)]}))
    with made(tests, STORE, tree="many.json") as server:
        peer = Peer(server.port)
        told = [peer.ask(ADD), peer.ask(WIDE), peer.ask(call(0, 3)), *(peer.ask(WIDE_CALLS)[:40] for _ in range(MANY_PAGES))]
        is_changed = changed_in_files(tests, STORE, ITS_FIELD.to_bytes(8, "big"), OTHER_FIELD.to_bytes(8, "big"))
        peer.close()
        server.stop()
        run = server.end()
    tests.check("a record is changed", is_changed, told[-1])
    tests.check("a record is changed: no epoch is other than it was", "of the store" not in run.err, run)
    tests.check("a record is changed: the end", (run.status, run.out) == (1, lines({"error": [1013]})), run)


def ask_until_killed(port, own):
    """Adds one after another, some lines together, and keeps the replies that came."""
    with contextlib.suppress(OSError, ValueError, KeyError):
        peer = Peer(port)
        while True:
            amounts = [random.randrange(1, 5) for _ in range(random.choice((1, 1, 3)))]
            peer.send(*(call(0, amount) for amount in amounts))
            for amount in amounts:
                answer = json.loads(peer.lines.readline())
                own.append((answer["epoch"] if "epoch" in answer else 0, answer["call"], amount, answer["reply"][0]))


def test_kills_under_load(tests):
    """Eight connections, and kills at random times: each call that was answered is stored, with its reply, and the record is the sum of all."""
    name = "load.db"
    base_epoch, missing = 0, []
    for number in range(12):
        with (made if number == 0 else again)(tests, name) as server:
            if number == 0:
                Peer(server.port).ask(ADD)
            answered = [[] for _ in range(8)]
            threads = Threads(*[(ask_until_killed, server.port, own) for own in answered])
            # Every second kill comes after some answers, so that a slow machine has as many to lose.
            if number % 2:
                end = time.monotonic() + 30
                while sum(map(len, answered)) < 20 and time.monotonic() < end:
                    time.sleep(0.01)
            time.sleep(random.uniform(0.02, 0.3))
            kill(server)
            threads.join()
        shutil.copyfile(tests.path(name), tests.path("look.db"))
        shutil.copyfile(tests.path(name + "-wal"), tests.path("look.db-wal"))
        rows = {(epoch, call): (json.loads(arguments), json.loads(reply)) for epoch, call, arguments, reply in stored(tests, "look.db",
                "select call.epoch, call.number, call.arguments, reply.reply from call join reply on call.epoch = reply.epoch and call.number = reply.call")}
        for epoch, call_number, amount, value in (each for own in answered for each in own):
            if rows.get((base_epoch + epoch, call_number)) != ([0, amount], [value]):
                missing.append((number, epoch, call_number))
        base_epoch = max((epoch for epoch, _ in rows), default=-1) + 1
    tests.check("kills under load: what was answered is stored", missing == [], missing[:5])
    with again(tests, name) as server:
        peer = Peer(server.port)
        told = json.loads(peer.ask(call(0, 0)))["reply"]
        peer.close()
        server.stop()
        server.end()
    amounts = [json.loads(arguments)[1] for arguments, in stored(tests, name, "select arguments from call")]
    tests.check("kills under load: the sum of all", told == [5 + sum(amounts)] and len(amounts) > 100, (told, sum(amounts), len(amounts)))


def test_mistakes(tests):
    """Options that don't go together."""
    words = ["serve", "--port", str(free_port()), "--store", "mistaken.db"]
    for more in (["--connections", "1"], ["--connections", "1", "--seal", "by-hand"], ["--trail", "a.json"]):
        run = tests.run(*words, *more)
        tests.check(f"serve {' '.join(more)}", (run.status, run.out) == (2, "") and run.err.startswith("error: "), run)
    run = tests.run("serve", "--port", str(free_port()), "--connections", "1", "--tree", "examples/one-node.json", "--proc", "add=examples/add.asm")
    tests.check("serve --proc by hand", (run.status, run.out) == (2, "") and run.err.startswith("error: "), run)
    tests.check("nothing is made by a mistake", not tests.path("mistaken.db").exists(), "it is there")
