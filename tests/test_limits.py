"""Tests numbers up to their limits, on each way on which they go: what a procedure emits and takes, and the events of an epoch."""

import contextlib
import json
import os
import pty
import subprocess

from running import PATIENCE, Run, before_program
from serving import Peer, serving
from test_store import lines

MOST_EMITS, MOST_ARGUMENTS = 32, 8
# A walk over so many children has more than 400 events, and a batch of 256 such walks more than 100,000.
CHILDREN = 200
WALK = f"field value = 0; proc walk() {{ lock n = node(0); let sum = 0; for each child c of n at most {CHILDREN} {{ sum += c.value; }} emit sum; }}"
WIDE = {"parents": [0] * (CHILDREN + 1), "records": [[1] + [0] * 7] * (CHILDREN + 1)}
NAMES = "abcdefgh"


def emits(count):
    return f"proc emits{count}() {{ " + "".join(f"emit {number}; " for number in range(count)) + "}"


def takes(count):
    names = NAMES[:count]
    return f"proc takes{count}({', '.join(names)}) {{ " + "".join(f"emit {name}; " for name in names) + "}"


def every_number():
    """Procedures, and of each the arguments and the reply."""
    text = " ".join([*map(emits, range(MOST_EMITS + 1)), *map(takes, range(MOST_ARGUMENTS + 1))])
    given = [[f"emits{count}", [], [*range(count)]] for count in range(MOST_EMITS + 1)]
    return text, given + [[f"takes{count}", [*range(7, 7 + count)], [*range(7, 7 + count)]] for count in range(MOST_ARGUMENTS + 1)]


def test_alone_run_and_drive(tests):
    text, given = every_number()
    tests.path("every.tdb").write_text(text)
    run = tests.run("check", "every.tdb")
    bounds = [bounds["bounds"]["emits"] for _, bounds in json.loads(run.out)] if run.status == 0 else run
    tests.check("check", bounds == [len(reply) for _, _, reply in given], bounds)
    for name, arguments, reply in given:
        tests.run("compile", "every.tdb", "one.tlp", "--proc", name)
        run = tests.run("alone", "--tree", "examples/one-node.json", "--proc", "one.tlp", "--args", json.dumps(arguments))
        tests.check(f"alone {name}", run.status == 0 and json.loads(run.out.splitlines()[0])["reply"] == reply, run)
    tests.path("calls.json").write_text(json.dumps({"calls": [[name, arguments] for name, arguments, _ in given], "procs": []}))
    run = tests.run("run", "--tree", "examples/one-node.json", "--proc", "every.tdb", "--workers", "1", "calls.json")
    tests.check("run", run.status == 0 and [each.get("reply") for each in json.loads(run.out.splitlines()[0])["batch"]] == [reply for _, _, reply in given], run)
    tests.path("moves.json").write_text(json.dumps({"moves": [[name, arguments] for name, arguments, _ in given] + [number for number, (_, _, reply) in enumerate(given) for _ in range(2 * len(reply) + 1)]}))
    run = tests.run("drive", "--tree", "examples/one-node.json", "--proc", "every.tdb", "--trail", "trail.json", "moves.json")
    replies = [reply for _, _, reply in json.loads(tests.bytes("trail.json"))["calls"]] if run.status == 0 else run
    tests.check("drive", replies == [reply for _, _, reply in given], replies)


def test_servers(tests):
    """Also with a key, which is asked for again."""
    text, given = every_number()
    tests.path("every.tdb").write_text(text)
    procedures = json.loads(tests.run("procs", "every.tdb").out)
    for name, words, connections, keys in (("by hand", (), 1, [None]), ("by itself", (), None, [None]), ("with a store", ("--store", "every.db"), None, [None, "once"])):
        with serving(tests, *words, connections=connections) as server:
            peer = Peer(server.port)
            for called, asm in procedures:
                peer.ask(json.dumps({"op": "register", "name": called, "asm": asm}))
            for key in keys:
                for called, arguments, reply in given:
                    line = {"op": "call", "proc": called, "args": arguments, **({"key": f"{key} {called}"} if key else {})}
                    for again in range(2 if key else 1):
                        answer = json.loads(peer.ask(json.dumps(line)))
                        tests.check(f"{name}, {called} {key or ''} {again}", answer.get("reply") == reply, answer)
            answers = json.loads(peer.ask(json.dumps({"op": "batch", "calls": [[called, arguments] for called, arguments, _ in given], "workers": 1})))
            tests.check(f"{name}, a batch", [each.get("reply") for each in answers["batch"]] == [reply for _, _, reply in given], answers)
            peer.close()
            if connections is None:
                server.stop()
            tests.check(f"{name}: the end", server.end().status == 0, server.said)


def on_a_terminal(tests, *words):
    """What a run comes to whose standard error is a terminal, and what that shows."""
    own, its = pty.openpty()
    process = subprocess.Popen([tests.program, *words], cwd=tests.folder, text=True, stdin=subprocess.DEVNULL, stdout=subprocess.PIPE, stderr=its, preexec_fn=before_program())
    os.close(its)
    shown = b""
    # Where the program has ended, nothing can be read of its terminal.
    with contextlib.suppress(OSError):
        while part := os.read(own, 65536):
            shown += part
    os.close(own)
    out, _ = process.communicate(timeout=PATIENCE)
    return Run(process.returncode, out, shown.decode())


def test_a_long_epoch(tests):
    """An epoch of more than 100,000 events has a trail, and an audit of it says on a terminal how far it is."""
    tests.path("walk.tdb").write_text(WALK)
    tests.path("wide.json").write_text(json.dumps(WIDE))
    tests.path("walks.json").write_text(json.dumps({"calls": [["walk", []]] * 256, "procs": []}))
    run = tests.run("run", "--tree", "wide.json", "--proc", "walk.tdb", "--workers", "1", "--trail", "long.json", "walks.json")
    tests.check("a long epoch", run.status == 0 and all(each.get("reply") == [CHILDREN] for each in json.loads(run.out.splitlines()[0])["batch"]), run)
    events = len(json.loads(tests.bytes("long.json"))["events"])
    tests.check("its events", events > 100_000, events)
    run = on_a_terminal(tests, "audit", "long.json")
    tests.check("its audit", (run.status, run.out) == (0, lines({"order": [*range(256)]})), run)
    tests.check("what a terminal shows of its audit", run.err == f"\r65536 of {events} events   \r\n", run)


def test_room_of_each_generation(tests):
    """An epoch of each generation has room for as many events as one of the first: many short calls, and a call with many locks."""
    most = 600
    tests.path("wide.json").write_text(json.dumps({"parents": [0] * (most + 1), "records": [[1] + [0] * 7] * (most + 1)}))
    text = WALK.replace(str(CHILDREN), str(most)) + " proc add(at) { lock n = node(at); n.value += 1; emit n.value; }"
    with serving(tests, "--generation", "1", connections=None, tree="wide.json") as server:
        peer = Peer(server.port)
        peer.ask(json.dumps({"op": "register", "text": text}))
        # A hand-over ends the epoch that is open.
        for epoch in (0, 2, 4):
            walked = json.loads(peer.ask(json.dumps({"op": "call", "proc": "walk", "args": []})))
            tests.check(f"from epoch {epoch}: a call with many locks", "reply" in walked and walked.get("epoch", 0) == epoch, walked)
            answers = [each for _ in range(3) for each in json.loads(peer.ask(json.dumps({"op": "batch", "calls": [["add", [1]]] * 256, "workers": 1})))["batch"]]
            tests.check(f"from epoch {epoch}: many calls in one epoch", all("reply" in each and each.get("epoch", 0) == epoch for each in answers), answers[-1])
            sealed = peer.ask(json.dumps({"op": "seal"}))
            tests.check(f"from epoch {epoch}: its seal", sealed == lines({"sealed": epoch}), sealed)
