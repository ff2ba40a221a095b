"""Tests a store in volumes: a server goes on in a new file after so many calls, or when it is asked to, and what was answered stands in one of them."""

import json
import shutil
import sqlite3
import subprocess

from running import Threads, limited
from serving import ADD, Peer, serving
from test_keys import once, recalled
from test_store import batch, call, lines, reply

STORE = "things/"
# What the record of examples/one-node.json begins with.
OPENING = 5
# How often a server is killed under load, by how many callers it is asked, and how many calls a volume takes then.
KILLS, CALLERS, SMALL = 20, 8, 500
# How often a server goes on in a new volume while others start.
TURNS = 12


def volumes(tests, folder="things"):
    """The numbers of the volumes that there are, rising."""
    return sorted(int(path.stem) for path in tests.path(folder).iterdir() if path.suffix == ".db")


def turn(tests, server):
    return tests.run("volume", "--port", str(server.control))


def asked(server, *requests):
    """What a server answers on a connection of its own."""
    peer = Peer(server.port)
    answers = [peer.ask(each) for each in requests]
    peer.close()
    return answers


def rows(tests, number, question, folder="things"):
    with sqlite3.connect(f"file:{tests.path(folder)}/{number}.db?mode=ro&immutable=1", uri=True) as database:
        return database.execute(question).fetchall()


def end(tests, server, name):
    server.stop()
    run = server.end()
    tests.check(name, run.status == 0, run)
    return run


def made(tests, *words):
    return serving(tests, "--store", STORE, *words, connections=None)


def again(tests, *words):
    return serving(tests, "--store", STORE, *words, connections=None, tree=None)


def sums(tests, folder="things"):
    """Whether sha256sum finds the sums of a folder's list right, and what they are of."""
    run = subprocess.run(["sha256sum", "--check", "--strict", "--ignore-missing", "SHA256SUMS"], cwd=tests.path(folder), capture_output=True, text=True, check=False)
    return run.returncode == 0, [line.partition(":")[0] for line in run.stdout.splitlines()]


def test_a_volume(tests):
    """A server is asked for a new volume: the tree and the procedures go on, the closed volume has its calls and nothing more, and the next start reads the live one alone."""
    with made(tests) as server:
        tests.same("the first calls", asked(server, ADD, call(0, 3), call(0, 1), batch(2))[1:3], [reply(0, 8), reply(1, 9)])
        tests.same("its only volume", volumes(tests), [0])
        run = turn(tests, server)
        tests.same("a new volume", (run.status, run.out, run.err), (0, lines({"volume": 1}), ""))
        tests.same("its volumes", volumes(tests), [0, 1])
        tests.same("it goes on with the tree and the procedures", asked(server, call(0, 100)), [reply(0, OPENING + 106, 1)])
        run = turn(tests, server)
        tests.same("a third volume", (run.status, run.out), (0, lines({"volume": 2})))
        run = turn(tests, server)
        tests.same("a volume without a call goes on", (run.status, run.out, volumes(tests)), (0, lines({"volume": 2}), [0, 1, 2]))
        status = json.loads(server.status().out)
        tests.same("its status", status["volume"], 2)
        end(tests, server, "the server's end")
    tests.same("the replies of the first", rows(tests, 0, "select call, reply from reply"), [(0, "[8]"), (1, "[9]"), (2, "[11]")])
    tests.same("the replies of the second", rows(tests, 1, "select call, reply from reply"), [(0, "[111]")])
    tests.same("the sums of those that are closed", sums(tests), (True, ["0.db", "1.db"]))
    tests.check("no log is beside them", not any(tests.path("things").glob("[01].db-*")), list(tests.path("things").iterdir()))
    for name in ("0.db", "1.db"):
        (tests.path("things") / name).unlink()
    with again(tests) as server:
        tests.same("a start needs the live one alone", asked(server, call(0, 1)), [reply(0, OPENING + 107)])
        end(tests, server, "its end")


def test_full_volumes(tests):
    """After so many calls the next generation begins a new volume."""
    with made(tests, "--volume", "100", "--generation", "1") as server:
        asked(server, ADD)
        for _ in range(5):
            asked(server, *[call(0, 1)] * 60, json.dumps({"op": "seal"}))
        found = volumes(tests)
        tests.check("several volumes", len(found) > 1 and found[0] == 0, found)
        end(tests, server, "the server's end")
    found = volumes(tests)
    calls = [rows(tests, number, "select count(*) from call")[0][0] for number in found]
    tests.check("each closed one has as many calls as it takes, or some more", all(100 <= count < 220 for count in calls[:-1]) and sum(calls) == 300, calls)
    epochs = [rows(tests, number, "select count(*) from seal")[0][0] for number in found]
    tests.same("each number is that of the epochs before", found, [sum(epochs[:place]) for place in range(len(found))])


def test_full_and_asked(tests):
    """Who asks for a new volume where the live one is full gets one, and not two, with the mode of the one before."""
    with made(tests, "--volume", "1", "--mode", "640") as server:
        asked(server, ADD, call(0, 3))
        tests.same("a new volume", turn(tests, server).out, lines({"volume": 1}))
        tests.same("its volumes", volumes(tests), [0, 1])
        tests.same("their modes", [(tests.path("things") / f"{number}.db").stat().st_mode & 0o777 for number in (0, 1)], [0o640, 0o640])
        end(tests, server, "the end")
    with again(tests) as server:
        asked(server, call(0, 1))
        # The end sealed an epoch without calls.
        tests.same("after a start", turn(tests, server).out, lines({"volume": 3}))
        tests.same("the mode of the one before", (tests.path("things") / "3.db").stat().st_mode & 0o777, 0o640)
        end(tests, server, "its end")


def test_nodes_and_procedures(tests):
    """Nodes that are appended and procedures that are replaced right behind a new volume stand in that one."""
    text = "field value = 0; proc add(at, amount) { lock n = node(at); n.value += amount; emit n.value; }"
    other = text.replace("+= amount", "-= amount")
    with made(tests) as server:
        asked(server, json.dumps({"op": "register", "text": text}), call(0, 3))
        tests.same("a new volume", turn(tests, server).out, lines({"volume": 1}))
        tests.same("a node more", asked(server, json.dumps({"op": "grow", "parents": [0]})), [lines({"grown": 1})])
        tests.same("a call on it", asked(server, call(1, 4))[0].rpartition('"reply":')[2], "[4]}\n")
        asked(server, json.dumps({"op": "replace", "text": other}))
        tests.same("another new volume", turn(tests, server).status, 0)
        tests.same("the other code", asked(server, call(1, 1))[0].rpartition('"reply":')[2], "[3]}\n")
        server.kill()
    with again(tests) as server:
        tests.same("after a kill", asked(server, call(1, 1))[0].rpartition('"reply":')[2], "[2]}\n")
        end(tests, server, "its end")


def test_keys(tests):
    """A key is run once, also over new volumes and over starts behind them. Its epoch is counted over all volumes. Where a volume isn't there any more, its keys aren't."""
    with made(tests) as server:
        tests.same("before a new volume", asked(server, ADD, once("a", 0, 1))[1:], [reply(0, 6)])
        turn(tests, server)
        tests.same("in the second", asked(server, once("a", 0, 1), once("b", 0, 2), once("b", 0, 2)), [recalled(0, 6, 0), reply(0, 8, 1), recalled(0, 8, 1)])
        tests.same("a third volume", turn(tests, server).out, lines({"volume": 2}))
        tests.same("in the third", asked(server, once("a", 0, 1), once("b", 0, 2), once("c", 0, 4)), [recalled(0, 6, 0), recalled(0, 8, 1), reply(0, 12, 2)])
        server.kill()
    wanted = [recalled(0, 6, 0), recalled(0, 8, 1), recalled(0, 12, 2)]
    for start in (1, 2):
        with again(tests) as server:
            tests.same(f"start {start}", asked(server, once("a", 0, 1), once("b", 0, 2), once("c", 0, 4), call(0, 0)), [*wanted, reply(0, 12)])
            tests.same(f"start {start}: another volume", turn(tests, server).status, 0)
            tests.same(f"start {start}: in that", asked(server, once("a", 0, 1), once("b", 0, 2), once("c", 0, 4)), wanted)
            server.kill()
    (tests.path("things") / "0.db").unlink()
    with again(tests) as server:
        tests.same("without the first volume", asked(server, once("c", 0, 4), once("b", 0, 2), once("a", 0, 1)), [wanted[2], wanted[1], reply(0, 13)])
        end(tests, server, "the end")
    with again(tests, "--keys", "0") as server:
        tests.same("without a look into closed volumes", asked(server, once("b", 0, 0)), [reply(0, 13)])
        end(tests, server, "the last end")


def made_of_three(tests):
    """A store of three volumes, 0, 1 and 2, with a call in each; no server has it."""
    with made(tests) as server:
        asked(server, ADD, call(0, 3))
        for number in (1, 2):
            turn(tests, server)
            asked(server, call(0, number))
        end(tests, server, "the server's end")
    tests.same("three volumes", volumes(tests), [0, 1, 2])


def test_audit(tests):
    """An audit goes through all volumes, and ends with the sum of their list; an export writes the trails of all."""
    made_of_three(tests)
    run = tests.run("audit", "things")
    told = [json.loads(line) for line in run.out.splitlines()]
    listed = subprocess.run(["sha256sum", "SHA256SUMS"], cwd=tests.path("things"), capture_output=True, text=True, check=True).stdout.split()[0]
    tests.same("an audit", (run.status, told), (0, [{"orders": [[0], []]}] * 3 + [{"first": 0, "sha256": listed}]))
    tests.path("trails").mkdir()
    tests.same("an export", tests.run("export", "things", "trails").out, lines({"epochs": 6, "files": 3}))
    run = tests.run("audit", "trails")
    tests.same("the audit of what it wrote", run.status, 0)
    with again(tests) as server:
        run = tests.run("audit", "things")
        tests.same("beside a server, the closed ones", (run.status, run.out.count("orders")), (0, 2))
        end(tests, server, "its end")
    (tests.path("things") / "0.db").unlink()
    run = tests.run("audit", "things")
    tests.same("without the first", (run.status, json.loads(run.out.splitlines()[-1])["first"]), (0, 1))


def changed(tests, number, *statements):
    with sqlite3.connect(tests.path("things") / f"{number}.db") as database:
        for each in statements:
            database.execute(each)
    database.close()


def test_changed(tests):
    """A closed volume that was changed, or taken away from between two others, is found by an audit."""
    made_of_three(tests)
    whole = tests.bytes("things/1.db")
    changed(tests, 1, "update call set arguments = '[0,9]'", "update reply set reply = '[17]'", "update record set f0 = 17")
    for command in (["audit", "things"], ["export", "things", "trails"]):
        tests.path("trails").mkdir(exist_ok=True)
        run = tests.run(*command)
        tests.same(f"{command[0]}: consistently changed", (run.status, run.out.splitlines()[-1]), (1, '{"error":[1020,1]}'))
    known = tests.bytes("things/SHA256SUMS")
    listed = known.decode().splitlines(keepends=True)
    tests.path("things/SHA256SUMS").write_text(listed[0])
    run = tests.run("audit", "things")
    tests.same("and left out of the list", (run.status, run.out.splitlines()[-1]), (1, '{"error":[1020,2]}'))
    tests.path("things/SHA256SUMS").write_bytes(known)
    tests.path("things/1.db").unlink()
    run = tests.run("audit", "things")
    tests.same("taken away", (run.status, run.out.splitlines()[-1]), (1, '{"error":[1020,2]}'))
    tests.path("things/1.db").write_bytes(whole)
    tests.same("put back", tests.run("audit", "things").status, 0)


def test_backups(tests):
    """As docs/use/operating.md says: the volumes that the list has are copied while the server runs, and put back into a folder. A server goes on behind them, and changes none."""
    with made(tests) as server:
        asked(server, ADD, once("a", 0, 3))
        turn(tests, server)
        asked(server, call(0, 4))
        turn(tests, server)
        listed = sums(tests)[1]
        tests.path("backup").mkdir()
        for name in (*listed, "SHA256SUMS"):
            shutil.copy(tests.path("things") / name, tests.path("backup"))
        asked(server, call(0, 100))
        server.kill()
    whole = {name: tests.bytes(f"backup/{name}") for name in (*listed, "SHA256SUMS")}
    tests.same("what was copied", (listed, sums(tests, "backup")), (["0.db", "1.db"], (True, ["0.db", "1.db"])))
    tests.path("things").rename(tests.path("lost"))
    tests.path("backup").rename(tests.path("things"))
    for start in (1, 2):
        with again(tests) as server:
            answers = asked(server, call(0, 0), once("a", 0, 3))
            tests.same(f"start {start} on what was put back", [json.loads(answer)["reply"] for answer in answers], [[OPENING + 7], [OPENING + 3]])
            tests.same(f"start {start}: it goes on in a volume more", volumes(tests), [0, 1, 2])
            server.kill()
        tests.same(f"start {start}: those before are as they were", {name: tests.bytes(f"things/{name}") for name in whole}, whole)
    with again(tests) as server:
        tests.same("the next volume", turn(tests, server).status, 0)
        end(tests, server, "the end")
    tests.same("the audit", tests.run("audit", "things").status, 0)
    tests.path("moved").mkdir()
    (tests.path("things") / "0.db").rename(tests.path("moved") / "0.db")
    run = tests.run("audit", "things")
    tests.same("without the first", (run.status, json.loads(run.out.splitlines()[-1])["first"]), (0, 1))
    tests.same("the audit of what was moved", tests.run("audit", "moved/0.db").status, 0)


def test_snapshots(tests):
    """A copy of a store in volumes is the volume that was live: it is closed for it, and copied byte by byte. A name that no copy may have begins no volume."""
    tests.path("copies").mkdir()
    with made(tests, "--snapshots", "copies", "--mode", "640") as server:
        snapshot = lambda name: tests.run("snapshot", name, "--port", str(server.control))
        tests.same("without a call", snapshot("first.db").out, lines({"snapshot": "first.db"}))
        tests.same("no volume more", volumes(tests), [0])
        asked(server, ADD, once("a", 0, 3), call(0, 1))
        for name, numbers in (("first.db", [1010]), ("../x.db", [1010]), ("x", [1010])):
            run = snapshot(name)
            tests.same(f"refused: {name}", (run.out, volumes(tests)), (lines({"error": numbers}), [0]))
        tests.same("a copy", snapshot("second.db").out, lines({"snapshot": "second.db"}))
        copied = volumes(tests)[-2]
        tests.same("it is the closed volume", tests.bytes("copies/second.db"), tests.bytes(f"things/{copied}.db"))
        tests.same("its mode", tests.path("copies/second.db").stat().st_mode & 0o777, 0o640)
        tests.same("the server goes on", asked(server, call(0, 2), once("a", 0, 3))[0], reply(0, 11, volumes(tests)[-1]))
        tests.same("one more", snapshot("third.db").status, 0)
        end(tests, server, "the server's end")
    tests.same("nothing else is there", sorted(path.name for path in tests.path("copies").iterdir()), ["first.db", "second.db", "third.db"])
    for name in ("first.db", "second.db", "third.db"):
        tests.same(f"the audit of {name}", tests.run("audit", f"copies/{name}").status, 0)
    with serving(tests, "--store", "copies/second.db", connections=None, tree=None) as server:
        tests.same("a server on a copy", [json.loads(answer).get("reply") for answer in asked(server, once("a", 0, 3), call(0, 0))], [[8], [9]])
        end(tests, server, "its end")


def test_until(tests):
    """The tree as it was after an epoch; only the volume that has the epoch is read. A server goes on from there."""
    made_of_three(tests)
    for epoch, wanted in ((0, 8), (1, 9), (2, 11), (3, 11)):
        run = tests.run("export", "things", "then.json", "--until", str(epoch))
        tests.same(f"after epoch {epoch}", (run.status, run.out), (0, lines({"epoch": epoch, "nodes": 1})))
        tests.same(f"its record after epoch {epoch}", json.loads(tests.path("then.json").read_text())["records"][0][0], wanted)
    tests.path("things/0.db").write_bytes(b"nothing that is read")
    with serving(tests, "--store", "then.db", connections=None, tree="then.json") as server:
        tests.same("a store of that tree", asked(server, ADD, call(0, 1))[1:], [reply(0, 12)])
        end(tests, server, "its end")
    tests.same("a store in one file", tests.run("export", "then.db", "one.json", "--until", "0").out, lines({"epoch": 0, "nodes": 1}))
    tests.path("things/1.db").unlink()
    for epoch in (1, 4, 2 ** 32 - 1):
        tests.path("none.json").unlink(missing_ok=True)
        run = tests.run("export", "things", "none.json", "--until", str(epoch))
        there = tests.path("none.json").exists()
        tests.same(f"no epoch {epoch}", (run.status, run.out, there), (1, lines({"error": [1023, epoch]}), False) if epoch != 1 else (1, lines({"error": [1020, 0]}), False))
    for epoch in ("-1", "x", str(2 ** 32)):
        tests.same(f"a mistake: {epoch}", tests.run("export", "things", "none.json", "--until", epoch).status, 2)


def test_a_volume_that_isnt_there(tests):
    """Of an epoch whose volume was taken away there is no tree."""
    made_of_three(tests)
    tests.path("things/1.db").unlink()
    run = tests.run("export", "things", "none.json", "--until", "1")
    tests.same("no epoch 1", (run.status, run.out), (1, lines({"error": [1023, 1]})))
    tests.path("things/0.db").unlink()
    run = tests.run("export", "things", "none.json", "--until", "0")
    tests.same("no epoch 0", (run.status, run.out), (1, lines({"error": [1023, 0]})))


def test_stray_log(tests):
    """A log beside a closed volume, which has none, is refused by a start and by an audit, and stays."""
    made_of_three(tests)
    log = tests.path("things/0.db-wal")
    log.write_bytes(b"")
    tests.same("an empty one", tests.run("audit", "things").status, 0)
    log.write_bytes(b"of another store")
    for words in (["serve", "--store", STORE, "--port", "1", "--control", "2"], ["audit", "things"], ["export", "things", "then.json", "--until", "0"]):
        run = tests.run(*words)
        tests.same(f"{words[0]}", (run.status, run.out.splitlines()[-1:]), (1, ['{"error":[1019]}']))
    tests.same("it is there still", log.read_bytes(), b"of another store")
    log.unlink()
    with again(tests) as server:
        tests.same("without it", asked(server, call(0, 1)), [reply(0, 12)])
        end(tests, server, "the end")


def test_left_by_a_crash(tests):
    """A volume that wasn't begun, whatever there is of it, is removed, and the one below goes on; a log beside a closed volume is taken into it."""
    with made(tests) as server:
        asked(server, ADD, call(0, 3))
        server.kill()
    for name, content in (("an empty file", b""), ("a page without tables", None)):
        path = tests.path("things/7.db")
        path.write_bytes(content or b"")
        if content is None:
            with sqlite3.connect(path) as database:
                database.execute("pragma user_version = 1")
                database.execute("vacuum")
        with again(tests) as server:
            tests.same(f"{name}: it isn't there any more", volumes(tests), [0])
            tests.check(f"{name}: the volume below goes on", "reply" in asked(server, call(0, 1))[0], server.said)
            end(tests, server, f"{name}: the end")


def test_one_server(tests):
    """A second server on a folder doesn't begin, whichever volume is live."""
    with made(tests) as server:
        for _ in range(2):
            run = tests.run("serve", "--store", STORE, "--port", "1", "--control", "2")
            tests.same("a second server", (run.status, run.out), (3, lines({"error": [1002]})))
            asked(server, ADD, call(0, 3))
            turn(tests, server)
        end(tests, server, "the first server's end")


def starter(tests, found, done):
    """Starts servers on a folder that another one has, until that is done."""
    while not done:
        run = tests.run("serve", "--store", STORE, "--port", "1", "--control", "2")
        found.append((run.status, run.out))


def test_starts_beside(tests):
    """Servers that start while another one goes from volume to volume never have the store, and take nothing away from it."""
    found, done = [], []
    with made(tests) as server:
        asked(server, ADD)
        threads = Threads(*[(starter, tests, found, done)] * 2)
        for number in range(TURNS):
            tests.same(f"call {number}", [json.loads(answer)["reply"] for answer in asked(server, call(0, 1))], [[OPENING + 1 + number]])
            run = turn(tests, server)
            # A start may hold the next volume's file just then; then the server goes on in the one that it has.
            tests.check(f"volume {number}", run.status == 0 or (run.status, run.out) == (3, lines({"error": [32]})), run)
        done.append(True)
        threads.join()
        end(tests, server, "its end")
    tests.check("each start finds the store locked", found and set(found) == {(3, lines({"error": [1002]}))}, set(found))
    stored = [rows(tests, number, "select count(*) from call")[0][0] for number in volumes(tests)]
    tests.same("each call is in one of the volumes", sum(stored), TURNS)
    with again(tests) as server:
        tests.same("all are there", asked(server, call(0, 0)), [reply(0, OPENING + TURNS)])
        end(tests, server, "the end")
    tests.same("the audit", tests.run("audit", "things").status, 0)


def test_refused(tests):
    """No volume where the store is one file, or there is none; no store where there is no volume and no tree."""
    with serving(tests, "--store", "things.db", connections=None) as server:
        run = turn(tests, server)
        tests.same("a store in one file", (run.status, run.out), (1, lines({"error": [901]})))
        tests.same("its status", json.loads(server.status().out)["volume"], 0)
        end(tests, server, "its end")
    run = tests.run("serve", "--store", "none/", "--port", "1", "--control", "2")
    tests.same("neither a volume nor a tree", (run.status, run.out), (1, lines({"error": [1008]})))
    tests.check("nothing was made", not tests.path("none").exists(), "none")
    with made(tests) as server:
        end(tests, server, "a store that is made")
    run = tests.run("serve", "--store", STORE, "--tree", "examples/one-node.json", "--port", "1", "--control", "2")
    tests.same("a volume and a tree", (run.status, run.out), (1, lines({"error": [1009]})))
    for words in (["--volume", "0"], ["--volume", "16777217"], ["--volume", "x"]):
        run = tests.run("serve", "--store", STORE, *words, "--port", "1", "--control", "2")
        tests.same(f"a mistake: {words}", run.status, 2)
    run = tests.run("serve", "--tree", "examples/one-node.json", "--volume", "5", "--port", "1", "--control", "2")
    tests.same("volumes without a store", run.status, 2)


def caller(port, own, answered):
    """Calls until the server is gone, and notes the last number that it was answered, of its own node's counter."""
    try:
        peer = Peer(port)
        while line := peer.ask(call(own, 1)):
            answered[own] = json.loads(line)["reply"][0]
    except (OSError, ValueError, KeyError):
        pass


@limited(300)
def test_kills(tests):
    """A server is killed under load again and again, as it goes from volume to volume: each answered call is stored in one of them."""
    tests.path("many.json").write_text(json.dumps({"parents": [0] * CALLERS, "records": [[0] * 4] * CALLERS}))
    answered = [0] * CALLERS
    with serving(tests, "--store", STORE, connections=None, tree="many.json") as server:
        asked(server, ADD)
        end(tests, server, "the first end")
    for number in range(KILLS):
        with again(tests, "--volume", str(SMALL), "--generation", "1") as server:
            threads = Threads(*((caller, server.port, own, answered) for own in range(CALLERS)))
            if number % 2:
                turn(tests, server)
            asked(server, json.dumps({"op": "seal"}))
            server.kill()
            threads.join()
    with again(tests) as server:
        found = [json.loads(each)["reply"][0] for each in asked(server, *(call(own, 0) for own in range(CALLERS)))]
        tests.check("each answered call is stored", all(one >= other for one, other in zip(found, answered)), (found, answered))
        end(tests, server, "the last end")
    tests.check("it went through volumes", len(volumes(tests)) > 2, volumes(tests))
    tests.same("the sums of those that are closed", sums(tests), (True, [f"{number}.db" for number in volumes(tests)[:-1]]))
