"""Tests copies of a store: a second server on the copy answers what the first one answered, and which files such a copy needs."""

import contextlib
import json
import os
import pathlib
import shutil
import signal
import threading

from running import Threads, skip, until
from serving import ADD, Peer
from test_store import again, batch, call, lines, made, reply, stored

STORE = "first.db"
CALLS = "select call.epoch, call.number, call.arguments, reply.reply from call join reply on call.epoch = reply.epoch and call.number = reply.call"
# What the record of examples/one-node.json begins with.
OPENING = 5
# How many bytes a page of the file has.
PAGE = 4096
# What /proc says of a thread that stands still until it is woken.
STILL = "T"


def copied(tests, name, suffixes=("", "-wal")):
    """Copies those files of the store to another name."""
    for suffix in suffixes:
        shutil.copyfile(tests.path(STORE + suffix), tests.path(name + suffix))
    return name


def stand_still(server):
    """Has the threads of a server stop where they are, and waits until all stand still."""
    server.process.send_signal(signal.SIGSTOP)
    tasks = pathlib.Path(f"/proc/{server.process.pid}/task")
    until(lambda: all((task / "stat").read_text().rpartition(") ")[2][0] == STILL for task in tasks.iterdir()), "the server doesn't stand still")


def told(server, *asked):
    """What a server answers on a connection of its own."""
    peer = Peer(server.port)
    answers = [peer.ask(each) for each in asked]
    peer.close()
    return answers


def test_an_idle_server(tests):
    """The file and its log, copied while nobody asks: the second server has each call, and what either does later the other doesn't have."""
    with made(tests, STORE) as first:
        answers = told(first, ADD, call(0, 3), batch(1, 2), call(0, -4), call(0, 0))
        tests.check("the first server", answers[-1] == reply(4, OPENING + 2), answers)
        copied(tests, "second.db")
        with again(tests, "second.db") as second:
            tests.check("the second server says what it took again", "second.db: 5 calls of epoch 0 taken again, 0 of them ended now" in second.said, second.said)
            answers = told(second, call(0, 0), call(0, 10))
            tests.check("the second server answers what the first one answered", answers == [reply(0, OPENING + 2), reply(1, OPENING + 12)], answers)
            answers = told(first, call(0, 0), call(0, 100))
            tests.check("the first server goes on without it", answers == [reply(5, OPENING + 2), reply(6, OPENING + 102)], answers)
            second.stop()
            ended = second.end()
        first.stop()
        run = first.end()
    tests.check("the second server's end", ended.out == lines({"generations": 1}, {"parents": [0], "records": [[OPENING + 12] + [0] * 7]}), ended)
    tests.check("the first server's end", run.out == lines({"generations": 1}, {"parents": [0], "records": [[OPENING + 102] + [0] * 7]}), run)
    rows = [[row[1:] for row in stored(tests, name, CALLS + " where call.epoch = 0 order by call.number")][:5] for name in (STORE, "second.db")]
    wanted = [(0, "[0,3]", "[8]"), (1, "[0,1]", "[9]"), (2, "[0,2]", "[11]"), (3, "[0,-4]", "[7]"), (4, "[0,0]", "[7]")]
    tests.check("both have the calls and the replies", rows == [wanted, wanted], rows)


def test_a_file_without_its_log(tests):
    """What a running server has answered stands in the log: the file alone is no store yet. After a stop in order it is everything."""
    with made(tests, STORE) as first:
        told(first, ADD, call(0, 3))
        name = copied(tests, "alone.db", suffixes=("",))
        run = tests.run("serve", "--socket", "calls", "--store", name)
        tests.check("the file of a running server alone", (run.status, run.out) == (1, lines({"error": [1008]})), run)
        first.stop()
        first.end()
    tests.check("after a stop the log has room for no page", len(tests.bytes(STORE + "-wal")) < PAGE, len(tests.bytes(STORE + "-wal")))
    with again(tests, copied(tests, "whole.db", suffixes=("",))) as second:
        answers = told(second, call(0, 0))
    tests.check("the file of a stopped server alone", answers == [reply(0, OPENING + 3)], answers)


def add_until(ended, port, answered):
    """Adds one after another, and keeps what was answered."""
    with contextlib.suppress(OSError, ValueError, KeyError):
        peer = Peer(port)
        while not ended.is_set():
            answer = json.loads(peer.ask(call(0, 1)))
            answered.append((answer.get("epoch", 0), answer["call"], answer["reply"][0]))
        peer.close()


def test_a_server_that_stands_still(tests):
    """Under load the server is stopped by a signal for as long as both files are copied. Each call that was answered before is in the copy, and the first server goes on."""
    if not os.path.isdir(f"/proc/{os.getpid()}/task"):
        skip("there is no /proc")
    with made(tests, STORE) as first:
        told(first, ADD)
        answered, ended = [[] for _ in range(4)], threading.Event()
        threads = Threads(*[(add_until, ended, first.port, own) for own in answered])
        until(lambda: min(map(len, answered)) >= 20, "not each connection has 20 answers")
        stand_still(first)
        # What has come by now was answered before the server stood still.
        came = [each for own in answered for each in list(own)]
        copied(tests, "second.db")
        first.process.send_signal(signal.SIGCONT)
        with again(tests, "second.db") as second:
            record = json.loads(told(second, call(0, 0))[0])["reply"][0]
            second.stop()
            second.end()
        ended.set()
        threads.join()
        last = json.loads(told(first, call(0, 0))[0])["reply"][0]
        first.stop()
        first.end()
    # The call by which the second server was asked for the record has other arguments.
    rows = {(epoch, number): json.loads(value)[0] for epoch, number, _, value in stored(tests, "second.db", CALLS + " where call.arguments = '[0,1]'")}
    lost = [(epoch, number, value) for epoch, number, value in came if rows.get((epoch, number)) != value]
    tests.check("calls were answered before the copy", all(len(own) >= 20 for own in answered), list(map(len, answered)))
    tests.check("a copy of a server that stands still has what was answered", lost == [], lost[:5])
    tests.check("its record is the sum of its calls", record == OPENING + len(rows), (record, len(rows)))
    total = sum(map(len, answered))
    tests.check("the first server goes on", last == OPENING + total and total >= len(came), (last, total, len(came)))
