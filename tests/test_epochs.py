"""Clients of clients/python that seal, on servers of their own, and the hand-over from one server to the next.

Two clients make more calls than an epoch has room for. Their answers are compared with the chain of trails, which has to be clean. The
next server begins with the tree that was printed. On a third server all 256 epochs are used up.
"""

import json
from unittest import mock

import treedb
import treedb.client
from running import PATIENCE, TOP, Threads

TREE = {"parents": [0], "records": [[5, 0, 0, 0, 0, 0, 0, 0]]}
ADD = (TOP / "examples/add.asm").read_text()
# Two batches of so many calls are open at once at most, and 64 calls may be.
BATCHES, SIZE = 70, 32


def adds(port, answers):
    with treedb.Client(port=port, timeout=PATIENCE, seals=True) as db:
        for _ in range(BATCHES):
            answers += db.batch([("add", 0, 1)] * SIZE, workers=2)
        answers.append(db.call("add", 0, 1))


def is_answer(answer):
    return isinstance(answer, treedb.Answer)


def test_two_servers(tests, server, tree):
    """The second one begins with the tree that the first one printed."""
    left = two_clients(tests, server("--trail", "first.json", connections=3, tree=tree(TREE)))
    hand_over(tests, server("--trail", "second.json", connections=1, tree=tree(left)), left)


def two_clients(tests, server):
    """Two clients make 4,482 calls, and nobody has to say where an epoch ends. Returns the tree that is left."""
    with treedb.Client(port=server.port, timeout=PATIENCE) as db:
        db.register("add", ADD)
    answers = [[], []]
    Threads(*[(adds, server.port, own) for own in answers]).join()
    orders, left = server.end().out.splitlines()
    both = [answer for own in answers for answer in own]
    tests.same("each call is answered", [answer for answer in both if not is_answer(answer)], [])
    calls = 2 * (BATCHES * SIZE + 1)
    numbers = sorted((answer.epoch, answer.call) for answer in both if is_answer(answer))
    tests.same("their numbers", numbers, [(number // 4096, number % 4096) for number in range(calls)])
    tests.same("their replies", sorted(answer.reply[0] for answer in both if is_answer(answer)), [6 + number for number in range(calls)])
    for number, own in enumerate(answers):
        replies = [answer.reply[0] for answer in own[-1:] if is_answer(answer)]
        earlier = [answer.reply[0] for answer in own[:-1] if is_answer(answer)]
        tests.same(f"client {number} finds its writes", max(earlier) < replies[0], True)
    tests.same("the tree", json.loads(left), {**TREE, "records": [[5 + calls] + [0] * 7]})
    tests.same("the chain is clean, in the order that was printed", tests.run("audit", "first.json").out, orders + "\n")
    told = {(epoch, call): each[2] for epoch, trail in enumerate(json.loads((tests.folder / "first.json").read_text()))
            for call, each in enumerate(trail["calls"])}
    tests.same("the chain has the replies", [answer for answer in both if is_answer(answer) and told[answer.epoch, answer.call] != answer.reply], [])
    return json.loads(left)


def hand_over(tests, server, tree):
    """The next server goes on with the tree that was printed, and its file shows that it does."""
    with treedb.Client(port=server.port, timeout=PATIENCE, seals=True) as db:
        db.register("add", ADD)
        answer = db.call("add", 0, 1)
    printed = server.end().out.splitlines()
    tests.same("the next server's first call", answer, treedb.Answer(0, [tree["records"][0][0] + 1], 0))
    first, second = (json.loads((tests.folder / name).read_text()) for name in ("first.json", "second.json"))
    tests.same("the second file begins with the printed tree", second["tree"], tree)
    tests.same("which the first one ends with", first[-1]["end"], tree["records"])
    tests.same("the second file is clean", tests.run("audit", "second.json").out, printed[0] + "\n")


def test_all_epochs(tests, server, tree):
    """255 seals, and the last epoch is filled: the client that seals says that there is none left."""
    it = server("--trail", "third.json", connections=1, tree=tree(TREE))
    with mock.patch.object(treedb.client, "PATIENCE", 0.2), treedb.Client(port=it.port, timeout=PATIENCE, seals=True) as db:
        db.register("add", ADD)
        tests.same("the seals", [db.seal() for _ in range(255)], list(range(255)))
        answers = [answer for _ in range(17) for answer in db.batch([("add", 0, 1)] * 241)]
        tests.same("the last call", answers[4095], treedb.Answer(4095, [5 + 4096], 255))
        tests.same("those behind it", {type(answer) for answer in answers[4096:]}, {treedb.Exhausted})
        ends = []
        for ask in (lambda: db.call("add", 0, 1), lambda: db.batch([("add", 0, 1)])[0], db.seal):
            try:
                ends.append(str(ask()))
            except (treedb.Exhausted, treedb.Refused) as end:
                ends.append(str(end))
    printed = it.end().out.splitlines()
    full = "the last epoch of the server is full"
    tests.same("no epoch is left", ends, [full, full, f"[808] {treedb.FAULTS[808].meaning}"])
    orders = json.dumps({"orders": [[]] * 255 + [[*range(4096)]]}, separators=(",", ":"))
    tests.same("the orders of 256 epochs", printed[0], orders)
    tests.same("the chain of 256 trails", tests.run("audit", "third.json").out, orders + "\n")
