"""Tests how a server ends: when it is asked to, and what a silent connection comes to."""

import contextlib
import json
import os
import signal
import socket
import subprocess
import time

from disk import Disk, library
from running import PATIENCE, TOP, alone, free_port, until
from serving import ADD, CALL, LONG, Peer, Process, serving

STOPPING = '{"stopping":true}\n'


def is_asked(tests, name, server):
    run = server.stop()
    tests.check(f"{name}: it is asked to stop", (run.status, run.out, run.err) == (0, STOPPING, ""), run)


def left(order, value):
    return json.dumps({"order": order}, separators=(",", ":")) + '\n{"parents":[0],"records":[[%d,0,0,0,0,0,0,0]]}\n' % value


def test_nobody(tests):
    with serving(tests) as server:
        is_asked(tests, "a server that nobody came to", server)
        run = server.end()
        said = f"treedb: listening on 127.0.0.1:{server.port}\ntreedb: treedb stop --port {server.control} ends it\n"
        tests.check("a server that nobody came to ends", (run.status, run.out) == (0, left([], 5)) and sorted(run.err.splitlines()) == sorted(said.splitlines()), run)
    run = tests.run("stop", "--port", str(free_port()))
    tests.check("nobody answers there", run.status == 3 and run.out == '{"error":[33]}\n' and run.err.startswith("treedb: no server answers on the control port"), run)


def test_open_connections(tests):
    """Two connections that wait, one with half a line: that is answered as at the end of what a peer sends, and both end."""
    with serving(tests, "--trail", "stopped.json", "--save", "left.json") as server:
        one, two = Peer(server.port), Peer(server.port)
        tests.check("a call before", one.ask(ADD) == '{"bounds":{"emits":1,"locks":1,"steps":7}}\n' and one.ask(CALL) == '{"call":0,"reply":[8]}\n', "")
        tests.check("a call of another one", two.ask(CALL) == '{"call":1,"reply":[11]}\n', "")
        two.socket.sendall(CALL.encode()[:-5])
        is_asked(tests, "open connections", server)
        ends = one.rest(), two.rest()
        tests.check("both end", ends == ("", '{"error":[901]}\n'), ends)
        run = server.end()
        tests.check("open connections", (run.status, run.out) == (0, left([0, 1], 11)), run)
        tests.check("its tree is kept", tests.bytes("left.json").decode() == run.out.splitlines(True)[1], run)
        tests.answers("its trail", ["audit", "stopped.json"], 0, '{"order":[0,1]}\n', "")
        with contextlib.suppress(OSError):
            late = Peer(server.port)
            tests.check("nobody is taken up later", late.rest() == "", "")


def test_signals(tests):
    """A signal ends a server at once: nothing is saved, written or printed."""
    for sent in (signal.SIGTERM, signal.SIGHUP, signal.SIGINT):
        with serving(tests, "--trail", "signal.json", "--save", "signal-left.json") as server:
            peer = Peer(server.port)
            tests.check(f"{sent.name}: a call before", '"bounds"' in peer.ask(ADD) and '"reply":[8]' in peer.ask(CALL), "")
            server.process.send_signal(sent)
            run = server.end()
        tests.check(f"{sent.name} ends it", (run.status, run.out) == (-sent, ""), run)
        tests.check(f"{sent.name}: no file is written", not tests.path("signal.json").exists() and not tests.path("signal-left.json").exists(), "")


def test_unsaved(tests):
    """A tree that can't be saved is printed all the same, before the error."""
    for connections in (100, None):
        with serving(tests, "--save", "nowhere/left.json", connections=connections) as server:
            peer = Peer(server.port)
            tests.check("a call before", '"bounds"' in peer.ask(ADD) and '"reply":[8]' in peer.ask(CALL), "")
            is_asked(tests, "a tree that can't be saved", server)
            run = server.end()
            tests.check(f"a tree that can't be saved: {connections}", run.status == 3 and run.out.endswith(left([0], 8).splitlines(True)[1] + '{"error":[32]}\n') and run.out.count("\n") == 3, run)
            tests.check("people are told why", "treedb: nowhere/left.json can't be written: " in run.err, run)


def test_in_a_batch(tests):
    """A batch that is under way is run to its end and answered."""
    with serving(tests) as server:
        peer = Peer(server.port)
        tests.check("a long procedure", '"bounds"' in peer.ask(LONG), "")
        peer.send(json.dumps({"op": "batch", "workers": 2, "calls": [["long", []]] * 200}))
        time.sleep(0.05)
        is_asked(tests, "a batch", server)
        answers = json.loads(peer.lines.readline())["batch"]
        tests.check("the batch is answered", [answer["reply"] for answer in answers] == [[195000]] * 200 and peer.rest() == "", answers[:3])
        run = server.end()
        tests.check("a batch", run.status == 0 and len(json.loads(run.out.splitlines()[0])["order"]) == 200, run)


def test_while_lines_come(tests):
    """A peer that sends without end is ended too; each answer is of a call, and the server has done no other."""
    with serving(tests) as server:
        peer = Peer(server.port)
        peer.ask(ADD)
        peer.send(*[CALL] * 300)
        is_asked(tests, "lines that come", server)
        with contextlib.suppress(OSError):
            for _ in range(100):
                peer.send(*[CALL] * 100)
        # The reading side may be ended in the middle of a line: what came of it is the last line, and is none that can be read.
        answers = peer.rest().splitlines(True)
        run = server.end()
        order = json.loads(run.out.splitlines()[0])["order"]
        done = len(order)
        tests.check("lines that come: each answer is of its call", answers[:-1] == [f'{{"call":{call},"reply":[{8 + 3 * call}]}}\n' for call in range(len(answers) - 1)], answers[-3:])
        last = ['{"error":[901]}\n', f'{{"call":{len(answers) - 1},"reply":[{5 + 3 * len(answers)}]}}\n']
        tests.check("lines that come: the last one is of a call, or of half a line", not answers or answers[-1] in last or not answers[-1].endswith("\n"), answers[-1:])
        tests.check("lines that come: what was answered is done, and no call is half done", (run.status, run.out) == (0, left([*range(done)], 5 + 3 * done)) and done >= len(answers) - 1, (len(answers), run))


def test_all_places(tests):
    """A stop while eight connections are open and a ninth waits; and one after the last connection was taken up."""
    with serving(tests) as server:
        peers = [Peer(server.port) for _ in range(9)]
        for peer in peers[:8]:
            peer.ask(ADD)
        is_asked(tests, "a full house", server)
        tests.check("all end", [peer.rest() for peer in peers] == [""] * 9, "")
        run = server.end()
        tests.check("a full house", (run.status, run.out) == (0, left([], 5)), run)
    with serving(tests, connections=1) as server:
        peer = Peer(server.port)
        peer.ask(ADD)
        is_asked(tests, "the last connection", server)
        tests.check("it ends", peer.rest() == "", "")
        run = server.end()
        tests.check("the last connection", run.status == 0, run)
    with serving(tests, connections=1) as server:
        peer = Peer(server.port)
        peer.close()
        run = server.end()
        tests.check("connections that end by themselves", (run.status, run.out) == (0, left([], 5)), run)


def test_other_words(tests):
    """Another word on the control port is refused, and a silent peer there stops nobody."""
    with serving(tests) as server:
        silent = Peer(server.control)
        wrong = Peer(server.control)
        wrong.send("end it")
        tests.check("another word", wrong.lines.readline() == '{"error":[901]}\n', "")
        tests.check("the server goes on", '"bounds"' in Peer(server.port).ask(ADD), "")
        is_asked(tests, "beside a silent peer", server)
        run = server.end()
        tests.check("beside a silent peer", run.status == 0, run)
        silent.close()
    with socket.socket() as taken:
        taken.bind(("127.0.0.1", 0))
        taken.listen()
        port = str(taken.getsockname()[1])
        words = ["serve", "--tree", "examples/one-node.json", "--port", str(free_port()), "--connections", "1", "--control", port]
        run = tests.run(*words)
        tests.check("a control port that is taken", (run.status, run.out) == (3, '{"error":[33]}\n'), run)


@alone
def test_waiting_for_an_answer(tests):
    """A connection that waits for its answer longer than it may be silent isn't ended."""
    disk = Disk(library(tests.folder), tests.folder)
    with serving(tests, "--idle", "1", "--store", "things.db", connections=None, env=disk.env) as server:
        peer = Peer(server.port)
        peer.ask(ADD)
        with disk.held() as waits:
            peer.send(CALL)
            until(waits, "no sync")
            time.sleep(2.5)
        answer = peer.lines.readline()
    tests.check("an answer that comes late", answer == '{"call":0,"reply":[8]}\n', answer)


@alone
def test_silence(tests):
    """A connection that sends nothing is ended."""
    with serving(tests, "--idle", "1", connections=10) as server:
        peers = [Peer(server.port) for _ in range(9)]
        busy = Peer(server.port)
        busy.send(ADD, CALL)
        tests.check("silent peers make room", '"bounds"' in busy.lines.readline() and busy.lines.readline() == '{"call":0,"reply":[8]}\n', "")
        tests.check("silent peers are ended", [peer.rest() for peer in peers] == [""] * 9, "")
        busy.close()
        run = server.end()
        tests.check("silent peers", (run.status, run.out) == (0, left([0], 8)), run)


@alone
def test_answers_not_taken(tests):
    """A connection that takes none of its answers is ended too, and its place is free again. An empty line is one byte, its answer 16, and the peer's
    buffer small."""
    with serving(tests, "--idle", "1", connections=9) as server:
        peers = [Peer(server.port, buffer=4096) for _ in range(8)]
        for peer in peers:
            with contextlib.suppress(OSError):
                peer.socket.sendall(b"\n" * 300_000)
        busy = Peer(server.port)
        busy.send(ADD, CALL)
        tests.check("peers that take nothing make room", '"bounds"' in busy.lines.readline() and busy.lines.readline() == '{"call":0,"reply":[8]}\n', "")
        busy.close()
        run = server.end()
        tests.check("peers that take nothing", (run.status, run.out) == (0, left([0], 8)), run)


def test_launcher(tests):
    """`tools/treedb-serve` has a server end in order where a signal comes, and hands its status on."""
    words = ["--tree", "examples/one-node.json", "--save", "launched.json"]
    for name in ("SIGTERM", "SIGINT"):
        port, control = free_port(), free_port()
        launched = Process(TOP / "tools/treedb-serve", [*words, "--port", port, "--control", control], folder=tests.folder, env={"TREEDB": str(tests.program)})
        peer = Peer(port)
        answers = [peer.ask(line) for line in (ADD, CALL)]
        launched.process.send_signal(getattr(signal, name))
        run = launched.end()
        wanted = '{"parents":[0],"records":[[8,0,0,0,0,0,0,0]]}\n'
        tests.check(f"a launched server at a {name}", (run.status, run.out, tests.bytes("launched.json").decode()) == (0, '{"generations":1}\n' + wanted, wanted), (answers, run))
    launched = Process(TOP / "tools/treedb-serve", [*words, "--port", port, "--control", control], folder=tests.folder, env={"TREEDB": str(tests.program)})
    tests.check("it is stopped at its control too", tests.run("stop", "--port", str(control)).status == 0 and launched.end().status == 0, "")
    for words, status in (["--port", str(port)], 2), (["--tree", "none.json", "--port", str(port), "--control", str(control)], 3):
        run = subprocess.run([TOP / "tools/treedb-serve", *words], cwd=tests.folder, env={**os.environ, "TREEDB": str(tests.program)}, capture_output=True, text=True, timeout=PATIENCE, check=False)
        tests.check(f"a launched server that doesn't start: {status}", run.returncode == status, run)
