"""Tests calls with a key: however often one is asked for, it is run once, also after a kill of the server."""

import contextlib
import json
import random
import threading
import time

from running import PATIENCE, Threads
from serving import ADD, LONG, Peer, serving
from test_store import again, batch, call, kill, lines, made, reply, stored

# What the record of examples/one-node.json begins with.
OPENING = 5
# How many connections ask for the same call at once.
CALLERS = 8
# How many clients ask while the server is killed, how many calls each asks for, and how often the server is killed.
CLIENTS = 4
EACH = 40
KILLS = 4


def once(key, *arguments, procedure="add"):
    return json.dumps({"op": "call", "proc": procedure, "args": list(arguments), "key": key})


def recalled(number, value, epoch):
    return lines({"call": number, "reply": [value], "stored": epoch})


def told(server, *asked):
    """What a server answers on a connection of its own, to lines that are sent together."""
    peer = Peer(server.port)
    peer.send(*asked)
    answers = [peer.lines.readline() for _ in asked]
    peer.close()
    return answers


def keys_of(tests, name):
    return stored(tests, name, "select epoch, number, key from call order by id")


def test_asked_again(tests):
    """The first answer is a call's; those after it say what came of that, whatever they ask for. Calls without a key are run beside it as ever."""
    with made(tests, "again.db") as server:
        answers = told(server, ADD, call(0, 1), once("é" * 32, 0, 2), call(0, 4), once("é" * 32, 0, 2), once("other", 0, 8), once("é" * 32, 0, 16), batch(32))[1:]
        wanted = [reply(0, 6), reply(1, 8), reply(2, 12), recalled(1, 8, 0), reply(3, 20), recalled(1, 8, 0), lines({"batch": [{"call": 4, "reply": [52]}]})]
        tests.check("lines that are sent together", answers == wanted, answers)
        answers = told(server, once("other", 0, 8), json.dumps({"op": "seal"}), once("third", 0, 64), once("other", 0, 8), once("third", 0, 64))
        wanted = [recalled(3, 20, 0), lines({"sealed": 0}), reply(0, 116, 1), recalled(3, 20, 0), recalled(0, 116, 1)]
        tests.check("another connection, and another epoch", answers == wanted, answers)
        server.stop()
        tests.check("the end", server.end().status == 0, server.said)
    rows = keys_of(tests, "again.db")
    tests.check("the store has each key once", rows == [(0, 0, None), (0, 1, "é" * 32), (0, 2, None), (0, 3, "other"), (0, 4, None), (1, 0, "third")], rows)
    tests.check("the store is that of its calls", tests.run("audit", "again.db").status == 0, tests.run("audit", "again.db"))


def test_no_reply(tests):
    """A call whose reply is empty is run once too, also after a start."""
    name, quiet = "quiet.db", "field value = 0; proc quiet(at, amount) { lock n = node(at); n.value += amount; }"
    with made(tests, name) as server:
        answers = told(server, ADD, json.dumps({"op": "register", "text": quiet}), *[once("q", 0, 1, procedure="quiet")] * 3, call(0, 0))[2:]
        kill(server)
    empty = {"call": 0, "reply": []}
    tests.check("a call without a reply", [json.loads(each) for each in answers] == [empty, {**empty, "stored": 0}, {**empty, "stored": 0}, json.loads(reply(1, 6))], answers)
    with again(tests, name) as server:
        answers = told(server, once("q", 0, 1, procedure="quiet"), call(0, 0))
    tests.check("after a kill", answers == [lines({"call": 0, "reply": [], "stored": 0}), reply(0, 6)], answers)


def test_beside_calls_without_a_key(tests):
    """A start finds the keys of epochs that have calls without one, too: of the epoch that a kill left open, and of one that was sealed."""
    name = "beside.db"
    asked = [call(0, 1), once("one", 0, 2), call(0, 4), once("two", 0, 8), batch(16, 32)]
    with made(tests, name) as server:
        told(server, ADD, *asked, json.dumps({"op": "seal"}), once("three", 0, 64), call(0, 128))
        kill(server)
    wanted = [recalled(1, 8, 0), recalled(3, 20, 0), recalled(0, 132, 1), reply(0, 260)]
    for number in range(2):
        with again(tests, name) as server:
            answers = told(server, once("one", 0, 2), once("two", 0, 8), once("three", 0, 64), call(0, 0))
            kill(server)
        tests.check(f"start {number}", answers == wanted, answers)


def test_after_a_kill(tests):
    """A key is found again after each start, under the store's numbers."""
    name = "killed.db"
    with made(tests, name) as server:
        answers = told(server, ADD, once("a", 0, 1), once("b", 0, 2))[1:]
        kill(server)
    tests.check("before the kill", answers == [reply(0, 6), reply(1, 8)], answers)
    for start in (1, 2):
        with again(tests, name) as server:
            answers = told(server, once("b", 0, 2), once("a", 0, 1), once(f"start {start}", 0, 0), once(f"start {start}", 0, 0))
            kill(server)
        wanted = [recalled(1, 8, 0), recalled(0, 6, 0), reply(0, 8), recalled(0, 8, start)]
        tests.check(f"start {start}", answers == wanted, answers)
    with again(tests, name) as server:
        answers = told(server, once("start 1", 0, 0), once("start 2", 0, 0), once("c", 0, 4))
        server.stop()
        tests.check("the end", server.end().status == 0, server.said)
    tests.check("start 3", answers == [recalled(0, 8, 1), recalled(0, 8, 2), reply(0, 12)], answers)


def test_at_once(tests):
    """Connections that ask with the same key at the same time get the same call: one runs it, and the others wait for its end."""
    with made(tests, "once.db") as server:
        told(server, LONG)
        answers, together = [], threading.Barrier(CALLERS)

        def ask():
            peer = Peer(server.port)
            together.wait(timeout=PATIENCE)
            answers.append(json.loads(peer.ask(once("long", procedure="long"))))
            peer.close()

        Threads(*[(ask,)] * CALLERS).join()
        server.stop()
        tests.check("the end", server.end().status == 0, server.said)
    called = [answer for answer in answers if "stored" not in answer]
    tests.check("one of them runs it", len(answers) == CALLERS and len(called) == 1, answers)
    tests.check("all get its reply", {(answer["call"], *answer["reply"]) for answer in answers} == {(0, *called[0]["reply"])}, answers)
    tests.check("one call is stored", keys_of(tests, "once.db") == [(0, 0, "long")], keys_of(tests, "once.db"))


def test_refused(tests):
    """What isn't admitted leaves its key free."""
    with made(tests, "refused.db") as server:
        answers = told(server, once("k", 0, 1), ADD, once("k", 0), once("k", 0, 1), once("k", 0, 1), once("k", 0))
    wanted = [lines({"error": [601]}), answers[1], lines({"error": [501]}), reply(0, 6), recalled(0, 6, 0), recalled(0, 6, 0)]
    tests.check("a refused call, and then another", answers == wanted, answers)


def test_no_key(tests):
    """What isn't a key, and servers that keep none."""
    asked = {"op": "call", "proc": "add", "args": [0, 1]}
    bad = ["", "x" * 65, "é" * 33, 5, None, ["k"], {"k": "k"}, True]
    with made(tests, "none.db") as server:
        answers = told(server, ADD, *(json.dumps({**asked, "key": key}) for key in bad), json.dumps({**asked, "key": "k", "more": 1}), json.dumps({**asked, "more": "k"}),
                       json.dumps({"op": "batch", "calls": [["add", [0, 1]]], "workers": 1, "key": "k"}), call(0, 1))[1:]
    tests.check("no keys", answers == [lines({"error": [901]})] * (len(bad) + 3) + [reply(0, OPENING + 1)], answers)
    with serving(tests, connections=None) as server:
        answers = told(server, ADD, once("k", 0, 1), call(0, 1), once("", 0, 1))[1:]
    tests.check("a server without a store", answers == [lines({"error": [1015]}), reply(0, OPENING + 1), lines({"error": [901]})], answers)
    with serving(tests) as server:
        answers = told(server, ADD, once("k", 0, 1), call(0, 1))[1:]
    tests.check("a server whose clients seal", answers == [lines({"error": [901]}), reply(0, OPENING + 1)], answers)


def ask_until_answered(address, own, answered):
    """Asks for calls one after another, each until it is answered, whatever ends the connection, or until no server will come any more."""
    for number in range(EACH):
        key, answer = f"{own}/{number}", ""
        while not answer.endswith("\n"):
            if "ended" in address:
                return
            with contextlib.suppress(OSError):
                peer = Peer(address["port"])
                answer = peer.ask(once(key, 0, 1))
                peer.close()
            if not answer:
                time.sleep(0.01)
        answered.append((key, answer))


def test_kills_under_load(tests):
    """Clients that ask again after a broken connection, by keys, have each call done once."""
    name, address, answered = "load.db", {}, []
    with contextlib.ExitStack() as servers:
        server = servers.enter_context(made(tests, name))
        told(server, ADD)
        address["port"] = server.port
        clients = Threads(*[(ask_until_answered, address, own, answered) for own in range(CLIENTS)])
        servers.callback(address.setdefault, "ended", True)
        for _ in range(KILLS):
            time.sleep(random.uniform(0.05, 0.3))
            kill(server)
            server = servers.enter_context(again(tests, name))
            address["port"] = server.port
        clients.join()
        server.stop()
        run = server.end()
    wanted = CLIENTS * EACH
    tests.check("each call is answered", sorted(key for key, _ in answered) == sorted(f"{own}/{number}" for own in range(CLIENTS) for number in range(EACH)), answered)
    tests.check("each is done once", run.status == 0 and json.loads(run.out.splitlines()[-1])["records"][0][0] == OPENING + wanted, run)
    rows = stored(tests, name, "select count(*), count(distinct key) from call")
    tests.check("each key is stored once", rows == [(wanted, wanted)], rows)
    values = {json.loads(answer)["reply"][0] for _, answer in answered}
    tests.check("no two have the same reply", values == set(range(OPENING + 1, OPENING + wanted + 1)), values)
