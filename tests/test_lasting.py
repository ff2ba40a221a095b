"""Tests the server that lasts: it seals its epochs by itself, one generation takes over from another, and the files of all are audited together."""

import contextlib
import json
import re
import shutil
import socket
import subprocess

import refusing
from running import Threads, chance, free_port
from serving import ADD, CALL, LONG, NotStarted, Peer, serving

QUO = json.dumps({"op": "register", "name": "quo", "asm": "arity 2\ndiv v2 v0 v1 else L\nemit v2\nL:\nret\n"})
QUOTIENT = ["quo", [6, 3]]
SEAL = json.dumps({"op": "seal"})
TEXT = """field pieces = 0;
proc put(at, amount) {
    lock n = node(at);
    n.pieces += amount;
    emit n.pieces;
}
proc look(at) {
    lock n = node(at);
    emit n.pieces;
}
"""


def lines(*values):
    return "".join(json.dumps(value, separators=(",", ":")) + "\n" for value in values)


def tree(value):
    return {"parents": [0], "records": [[value, 0, 0, 0, 0, 0, 0, 0]]}


def batch(*calls, workers=1):
    return json.dumps({"op": "batch", "calls": calls, "workers": workers})


def answer(call, epoch, *reply):
    """The answer to a call; the first epoch isn't named."""
    return {"call": call, **({"epoch": epoch} if epoch else {}), "reply": [*reply]}


def folder(tests, name):
    tests.path(name).mkdir()
    return name


def files(tests, name):
    return sorted(path.name for path in tests.path(name).iterdir())


def one_connection(tests, name, *words):
    return serving(tests, "--seal", "itself", *words, "--trails", folder(tests, name), connections=1)


def test_full_epoch(tests):
    """The call after the last one of an epoch is the first of the next."""
    with one_connection(tests, "full", "--generation", "2") as server:
        peer = Peer(server.port)
        bounds = peer.ask(QUO)
        answers = [json.loads(peer.ask(batch(*[QUOTIENT] * 256)))["batch"] for _ in range(16)]
        calls = [call for each in answers for call in each]
        after = peer.ask(json.dumps({"op": "call", "proc": "quo", "args": [6, 3]}))
        peer.close()
        run = server.end()
    tests.check("a full epoch: the calls", bounds.startswith('{"bounds"') and calls == [answer(call, 0, 2) for call in range(4096)], calls[-1:])
    tests.check("a full epoch: the call after it", after == lines(answer(0, 1, 2)), after)
    tests.check("a full epoch: the end", (run.status, run.out) == (0, lines({"generations": 1}, tree(5))), run)
    tests.answers("a full epoch: the audit", ["audit", "full"], 0, lines({"orders": [[*range(4096)], [0]]}), "")


def test_batch_over_a_seal(tests):
    with one_connection(tests, "over", "--generation", "2") as server:
        peer = Peer(server.port)
        peer.ask(QUO)
        for _ in range(16):
            peer.ask(batch(*[QUOTIENT] * 250))
        found = json.loads(peer.ask(batch(*[QUOTIENT] * 256)))["batch"]
        peer.close()
        server.end()
    wanted = [answer(call, 0, 2) for call in range(4000, 4096)] + [answer(call, 1, 2) for call in range(160)]
    tests.check("a batch goes on in the next epoch", found == wanted, found[-1:])


def test_next_generation(tests):
    two_generations(tests)


def two_generations(tests):
    """The second seal fills a generation of two epochs. The line after it finds the next one due, which ends the epoch that is open."""
    with one_connection(tests, "two", "--generation", "2", "--save", "two.saved") as server:
        peer = Peer(server.port)
        peer.ask(ADD)
        answers = [peer.ask(line) for line in (SEAL, SEAL, SEAL, CALL)]
        peer.close()
        run = server.end()
    tests.check("generations: the answers", answers == [lines({"sealed": 0}), lines({"sealed": 1}), lines({"sealed": 3}), lines(answer(0, 4, 8))], answers)
    tests.check("generations: the end", (run.status, run.out) == (0, lines({"generations": 2}, tree(8))), run)
    tests.check("generations: the saved tree", tests.bytes("two.saved").decode() == lines(tree(8)), tests.bytes("two.saved"))
    tests.check("generations: the files", files(tests, "two") == ["0.json", "1.json"], files(tests, "two"))


def test_audits(tests):
    """Of the two files of two generations."""
    two_generations(tests)
    orders = lines({"orders": [[], [], []]}, {"orders": [[], [0]]})
    tests.answers("an audit of two files", ["audit", "two/0.json", "two/1.json"], 0, orders, "")
    tests.answers("an audit of a folder", ["audit", "two"], 0, orders, "")
    first = lines({"orders": [[], [0]]})
    tests.answers("files in the wrong order", ["audit", "two/1.json", "two/0.json"], 1, first + lines({"error": [718, 0]}), re.compile(r"^treedb: two/0\.json\n"))
    tests.path("two/1.json").write_bytes(tests.bytes("two/1.json").replace(b"[[5,0,", b"[[7,0,"))
    tests.answers("another tree at a seam", ["audit", "two"], 1, lines({"orders": [[], [], []]}, {"error": [718, 0]}), re.compile(r"^treedb: two/1\.json\n"))
    tests.path("two/1.json").rename(tests.path("two/2.json"))
    tests.answers("a file of a folder that isn't there", ["audit", "two"], 3, lines({"orders": [[], [], []]}, {"error": [31]}), re.compile(r"two/1\.json can't be read"))
    folder(tests, "none")
    tests.answers("a folder without files", ["audit", "none"], 3, lines({"error": [31]}), re.compile("none has no file 0.json"))
    tests.answers("a file that isn't there", ["audit", "two/0.json", "nowhere"], 3, lines({"orders": [[], [], []]}, {"error": [31]}), re.compile("nowhere can't be read"))


def test_seal_while_a_call_runs(tests):
    """A seal waits for the batch that is at work, and is never refused with 606."""
    with serving(tests, connections=None) as server:
        one, two = Peer(server.port), Peer(server.port)
        one.ask(LONG)
        one.send(batch(*[["long", []]] * 8))
        sealed = two.ask(SEAL)
        found = json.loads(one.lines.readline())["batch"]
        tests.check("a seal beside a batch", sealed in (lines({"sealed": 0}), lines({"sealed": 1})) and len(found) == 8 and all("reply" in each for each in found), (sealed, found))
        number, after = json.loads(sealed).get("sealed"), json.loads(two.ask(json.dumps({"op": "call", "proc": "long", "args": []})))
        epochs = {each.get("epoch", 0) for each in found}
        tests.check("no call of the batch is behind the epoch that the seal began, in which the next call is", max(epochs) <= number + 1 and after.get("epoch", 0) == number + 1, (number, epochs, after))
        server.stop()
        run = server.end()
        tests.check("a server that lasts is stopped", (run.status, run.out) == (0, lines({"generations": 1}, tree(5))), run)


def add_often(port, answers):
    peer = Peer(port)
    for _ in range(80):
        answers += json.loads(peer.ask(batch(*[["add", [0, 1]]] * 64, workers=2)))["batch"]
    peer.close()


def test_many_generations(tests):
    """Three connections at once fill several generations. Each answer stands in a file, none twice."""
    with serving(tests, "--generation", "1", "--trails", folder(tests, "many"), connections=None) as server:
        peer = Peer(server.port)
        peer.ask(ADD)
        answers = [[], [], []]
        Threads(*[(add_often, server.port, own) for own in answers]).join()
        peer.close()
        server.stop()
        run = server.end()
    calls = [each for own in answers for each in own]
    count = len(calls)
    told = {}
    epoch = 0
    for number in range(len(files(tests, "many"))):
        chain = json.loads(tests.bytes(f"many/{number}.json"))
        for trail in chain if isinstance(chain, list) else [chain]:
            told.update({(epoch, call): each[2] for call, each in enumerate(trail["calls"])})
            epoch += 1
    found = {(each.get("epoch", 0), each["call"]): each["reply"] for each in calls if "call" in each}
    tests.check("many generations: each answer stands in a file", len(found) == count == 3 * 80 * 64 and found == told, (len(found), count, len(told)))
    generations = len(files(tests, "many"))
    tests.check("many generations: the end", (run.status, run.out) == (0, lines({"generations": generations}, tree(5 + count))) and generations > 2, run)
    audit = tests.run("audit", "many")
    tests.check("many generations: the audit", audit.status == 0 and audit.out.count("\n") == generations, audit)


def test_connections_at_once(tests):
    """Nine connections are open with --at-once 9, and a tenth waits until one of them ends."""
    with serving(tests, "--at-once", "9", connections=None) as server:
        peers = [Peer(server.port) for _ in range(9)]
        peers[0].ask(ADD)
        answers = [json.loads(peer.ask(CALL))["call"] for peer in peers]
        tests.check("nine connections at once", answers == [*range(9)], answers)
        tenth = Peer(server.port)
        tenth.send(CALL)
        tenth.socket.settimeout(0.5)
        with contextlib.suppress(socket.timeout):
            tests.check("a tenth waits", tenth.socket.recv(1) == b"", "it was answered")
        tenth.socket.settimeout(30)
        peers[0].close()
        told = tenth.socket.recv(4096)
        tests.check("the tenth, once one has ended", told.decode() == lines(answer(9, 0, 35)), told)


def test_unwritten(tests):
    """A folder that isn't there, one with files, and one that goes away while the server runs."""
    words = ["serve", "--tree", "examples/one-node.json", "--port", str(free_port()), "--control", str(free_port())]
    tests.answers("a folder that isn't there", [*words, "--trails", "nowhere"], 3, lines({"error": [32]}), re.compile("nowhere can't be written"))
    tests.path(folder(tests, "used")).joinpath("3.json").write_text("")
    tests.answers("a folder with trails", [*words, "--trails", "used"], 3, lines({"error": [32]}), re.compile("used has trails already"))
    with one_connection(tests, "gone") as server:
        peer = Peer(server.port)
        peer.ask(ADD)
        peer.ask(CALL)
        tests.path("gone").rmdir()
        peer.close()
        run = server.end()
    tests.check("a folder that goes away", (run.status, run.out) == (3, lines({"generations": 1}, tree(8), {"error": [32]})) and "gone/0.json can't be written" in run.err, run)


def test_one_file(tests):
    """--trail is for servers whose clients seal: one that seals itself has no end, and a file for each generation."""
    words = ["serve", "--tree", "examples/one-node.json", "--port", str(free_port()), "--trail", "all.json"]
    for more in (["--control", str(free_port())], ["--control", str(free_port()), "--seal", "itself"], ["--connections", "1", "--seal", "itself"], ["--store", "one.db"]):
        run = tests.run(*words, *more)
        tests.check(f"serve --trail {' '.join(more)}", (run.status, run.out) == (2, "") and "--trails FOLDER" in run.err and "--store FILE" in run.err, run)
    tests.check("nothing is made", not tests.path("all.json").exists() and not tests.path("one.db").exists(), "it is there")
    for more in ([], ["--seal", "by-hand"]):
        with serving(tests, *more, "--trail", "all.json", connections=1) as server:
            peer = Peer(server.port)
            answers = [peer.ask(line) for line in (ADD, CALL, SEAL, CALL, SEAL, CALL)]
            peer.close()
            run = server.end()
        tests.check("one file: the calls", answers[1::2] == [lines({"call": 0, "reply": [8]}), *(lines(answer(0, epoch, 8 + 3 * epoch)) for epoch in (1, 2))], answers)
        tests.check("one file: the end", (run.status, run.out) == (0, lines({"orders": [[0], [0], [0]]}, tree(14))), run)
        tests.answers("one file: the audit", ["audit", "all.json"], 0, lines({"orders": [[0], [0], [0]]}), "")


def test_one_folder(tests):
    """Of two servers with one folder each file is that of the server that made it first: none is replaced, and the other server says so."""
    words = ["--trails", folder(tests, "both")]
    with serving(tests, *words, connections=None) as one, serving(tests, *words, connections=None) as two:
        for server, calls in ((one, 1), (two, 2)):
            peer = Peer(server.port)
            for line in [ADD, *[CALL] * calls]:
                peer.ask(line)
            peer.close()
        one.stop()
        first, kept = one.end(), tests.bytes("both/0.json")
        two.stop()
        second = two.end()
    tests.check("the first server", (first.status, first.out) == (0, lines({"generations": 1}, tree(8))), first)
    tests.check("the second server", (second.status, second.out) == (3, lines({"generations": 1}, tree(11), {"error": [32]})) and "both/0.json can't be written: " in second.err, second)
    tests.check("the file", tests.bytes("both/0.json") == kept and [file.name for file in tests.path("both").iterdir()] == ["0.json"], kept)
    tests.answers("its audit", ["audit", "both"], 0, lines({"orders": [[0]]}), "")


def told(epoch, generation, calls, connections, nodes, procedures, refusals):
    numbers = {"epoch": epoch, "generation": generation, "calls": calls, "connections": connections, "nodes": nodes, "procedures": procedures}
    return lines({**numbers, "refusals": refusals, "places": 256, "browsers": 0, "volume": 0})


def test_status(tests):
    """A server that lasts says how far it is: at its start, after calls and refusals, and after a hand-over."""
    with serving(tests, "--generation", "1", connections=None) as server:
        runs = [server.status()]
        peer = Peer(server.port)
        one, two, refused = peer.ask(ADD), peer.ask(QUO), peer.ask(QUO)
        for line in (CALL, batch(QUOTIENT, ["none", []], ["quo", [1]], QUOTIENT), json.dumps({"op": "call", "proc": "none", "args": []}), "no request"):
            peer.ask(line)
        runs.append(server.status())
        peer.ask(SEAL)
        with_another = Peer(server.port)
        with_another.ask(CALL)
        runs.append(server.status())
        peer.close()
        peer.rest()
        with_another.ask(SEAL)
        tests.check("status: what was registered", [each.startswith('{"bounds"') for each in (one, two, refused)] == [True, True, False], (one, two, refused))
        wanted = [told(0, 0, 0, 0, 1, 0, 0), told(0, 0, 3, 1, 1, 2, 4), told(2, 1, 4, 2, 1, 2, 4)]
        tests.check("status", [(run.status, run.out, run.err) for run in runs] == [(0, out, "") for out in wanted], runs)
        with Peer(server.control).socket as asking:
            asking.sendall(b"status\n")
            line = asking.recv(4096)
        tests.check("status: the line", line.startswith(b'{"epoch":3,"generation":1,"calls":4,"connections":') and line.endswith(b',"nodes":1,"procedures":2,"refusals":4,"places":256,"browsers":0,"volume":0}\n'), line)
        for wrong in ("statu", "statux", "status ", "Status", "state"):
            other = Peer(server.control)
            other.send(wrong)
            other.socket.shutdown(socket.SHUT_WR)
            found = other.lines.readline()
            tests.check(f"not quite {wrong}", found == '{"error":[901]}\n', found)
        server.stop()
        run = server.end()
        tests.check("status: the end", run.status == 0, run)
    run = server.status()
    tests.check("status: nobody is there", (run.status, run.out) == (3, '{"error":[33]}\n') and "no server answers on the control port" in run.err, run)


def test_status_by_hand(tests):
    """A server whose epochs clients seal doesn't say; the answer is the one to any other word."""
    with serving(tests) as server:
        asking = Peer(server.control)
        found = asking.ask("status")
        tests.check("status of a server sealed by hand", found == '{"error":[901]}\n', found)
        run = server.status()
        tests.check("the command then", (run.status, run.out) == (3, '{"error":[33]}\n'), run)
        server.stop()
        tests.check("it ends", server.end().status == 0, "")


def grow(*parents):
    return json.dumps({"op": "grow", "parents": [*parents]})


def add(node, value):
    return json.dumps({"op": "call", "proc": "add", "args": [node, value]})


def record(value=0):
    return [value, 0, 0, 0, 0, 0, 0, 0]


def test_growth(tests):
    three_generations(tests)


def three_generations(tests):
    """Nodes are appended between generations. Their records are zeros, procedures stay, and the numbers of epochs go on."""
    with one_connection(tests, "grown") as server:
        peer = Peer(server.port)
        answers = [peer.ask(line) for line in (ADD, CALL, grow(0, 1, 0), add(2, 7), grow(3), add(4, 1), add(5, 1))]
        peer.close()
        run = server.end()
    wanted = [lines(answer(0, 0, 8)), lines({"grown": 1}), lines(answer(0, 1, 7)), lines({"grown": 4}), lines(answer(0, 2, 1)), lines(answer(1, 2))]
    tests.check("growth: the answers", answers[1:] == wanted, answers)
    grown = {"parents": [0, 0, 1, 0, 3], "records": [record(8), record(), record(7), record(), record(1)]}
    tests.check("growth: the end", (run.status, run.out) == (0, lines({"generations": 3}, grown)), run)
    tests.answers("growth: the audit", ["audit", "grown"], 0, lines({"orders": [[0]]}, {"orders": [[0]]}, {"orders": [[0, 1]]}), "")


def tampered(tests, name, file, change):
    """The audit of a folder whose file was changed finds that it doesn't take over from the one before."""
    shutil.rmtree(tests.path("changed"), ignore_errors=True)
    shutil.copytree(tests.path("grown"), tests.path("changed"))
    path = tests.path(f"changed/{file}.json")
    trail = json.loads(path.read_text())
    change(trail)
    path.write_text(lines(trail))
    orders = lines(*[{"orders": [[0]]}] * file)
    tests.answers(name, ["audit", "changed"], 1, orders + lines({"error": [718, 0]}), re.compile(rf"^treedb: changed/{file}\.json\n"))


def test_growth_and_tampering(tests):
    """Of the files of a growth: only nodes behind the others are growth, only if their records are zeros, and only between files."""
    three_generations(tests)
    tampered(tests, "a new record that isn't zeros", 1, lambda trail: trail["tree"]["records"][3].__setitem__(7, 1))
    tampered(tests, "an old record that changed", 1, lambda trail: trail["tree"]["records"][0].__setitem__(0, 9))
    tampered(tests, "an old parent that changed", 2, lambda trail: trail["tree"]["parents"].__setitem__(2, 0))
    trails = [json.loads(tests.bytes(f"grown/{number}.json")) for number in range(2)]
    tests.path("chain.json").write_text(lines(trails))
    tests.answers("growth within a file", ["audit", "chain.json"], 1, lines({"error": [718, 1]}))
    tests.answers("growth before the first file", ["audit", "grown/1.json"], 0, lines({"order": [0]}), "")


def test_refused_growth(tests):
    with serving(tests, "--trails", folder(tests, "refused"), connections=None) as server:
        peer = Peer(server.port)
        refused = [(grow(1), [104, 0]), (grow(0, 1, 3, 9), [104, 2]), (grow(-1), [104, 0]), (grow(*[0] * 4096), [102]), (grow(*[9] * 4096), [102])]
        refused += [(json.dumps({"op": "grow", **more}), [901]) for more in ({}, {"parents": []}, {"parents": 0}, {"parents": ["a"]}, {"parents": [0.5]}, {"parents": [0], "records": []})]
        for line, numbers in refused:
            told = peer.ask(line)
            tests.check(f"growth that is refused: {line[:60]}", told == lines({"error": numbers}), told)
        tests.check("growth to the most nodes", peer.ask(grow(*range(4095))) == lines({"grown": 1}), "it was refused")
        told = peer.ask(grow(0))
        tests.check("growth past the most nodes", told == lines({"error": [102]}), told)
        peer.ask(ADD)
        told = peer.ask(add(4095, 1))
        tests.check("growth: the last node", told == lines(answer(0, 1, 1)), told)
        server.stop()
        run = server.end()
    tests.check("growth that is refused hands nothing over", run.status == 0 and run.out.startswith(lines({"generations": 2})), run)
    tests.answers("growth to the most nodes: the audit", ["audit", "refused"], 0, lines({"orders": [[]]}, {"orders": [[0]]}), "")


def test_growth_as_far_as_asked(tests):
    """`--nodes` says how many nodes the tree may have, at the start and after each growth, and how many that of a trail."""
    tests.path("four.json").write_text(json.dumps({"parents": [0, 0, 1, 2], "records": [record()] * 4}))
    run = tests.run("serve", "--tree", "four.json", "--nodes", "3", "--port", str(free_port()), "--connections", "1")
    tests.check("a tree of more nodes than it may have", (run.status, run.out) == (1, lines({"error": [102]})), run)
    with serving(tests, "--nodes", "6", "--trails", folder(tests, "far"), connections=None, tree="four.json") as server:
        peer = Peer(server.port)
        told = [peer.ask(line) for line in (grow(0, 0, 0), grow(3, 4), grow(5), grow())]
        peer.close()
        server.stop()
        run = server.end()
    wanted = [lines({"error": [102]}), lines({"grown": 4}), lines({"error": [102]}), lines({"error": [901]})]
    tests.check("growth as far as asked", told == wanted and run.status == 0, (told, run))
    tests.answers("the audit of a tree of as many nodes", ["audit", "--nodes", "6", "far"], 0, lines({"orders": [[]]}, {"orders": [[]]}), "")
    tests.answers("the audit of a tree of more nodes", ["audit", "--nodes", "5", "far/1.json"], 1, lines({"error": [102]}))
    most = {"parents": [0] * 65535, "records": [record()] * 65535}
    tests.path("most.json").write_text(json.dumps(most))
    tests.answers("a tree of the most nodes", ["widen", "--nodes", "65535", "most.json", "most-again.json"], 0, lines({"nodes": 65535}), "")
    tests.check("a tree of the most nodes, written", json.loads(tests.bytes("most-again.json")) == most, "it is another")
    tests.answers("a tree of the most nodes, where it may not have them", ["widen", "most.json", "most-again.json"], 1, lines({"error": [102]}))


# Where memory is refused for a line, an epoch or a generation.
OUT_OF_MEMORY = {290, 390, 490, 690, 790, 890, 990}


# So many seconds has a server to which memory was refused for an answer, and to stop.
SOON = 30


def without_memory(tests, library, number):
    """A server that hands over after each epoch, to which the allocation of that number is refused. Whether it came to that."""
    name = f"allocation {number} of a server refused"

    def run(**named):
        try:
            with serving(tests, "--generation", "1", "--trails", folder(tests, f"without-{number}"), connections=None, **named) as server:
                answers = []
                # A server that ends before it reads a line resets the connection, or refuses it.
                with contextlib.suppress(ConnectionError):
                    peer = Peer(server.port)
                    peer.socket.settimeout(SOON)
                    for line in (ADD, *(CALL, SEAL) * 3, CALL):
                        answers.append(json.loads(peer.ask(line) or "{}"))
                    peer.close()
                subprocess.run([tests.program, "stop", "--port", str(server.control)], capture_output=True, timeout=SOON, check=False)
                return answers, server.end()
        except NotStarted as refused:
            return None, refused.run
        except (TimeoutError, subprocess.TimeoutExpired) as late:
            return None, late

    (answers, run), was_refused = refusing.refused(library, number, False, run)
    tests.check(f"{name}: it answers, and stops", not isinstance(run, Exception), run)
    if isinstance(run, Exception):
        return was_refused
    if answers is None:
        # A file that can't be made for want of memory is one that can't be written.
        is_unwritten = run.status == 3 and run.out == lines({"error": [32]}) and "out of memory" in run.err
        tests.check(f"{name}: it doesn't start", run.status == 4 or is_unwritten, run)
        return was_refused
    replies = [answer["reply"] for answer in answers if "reply" in answer]
    tests.check(f"{name}: each call finds what the one before left", replies == [[8 + 3 * place] for place in range(len(replies))], answers)
    errors = {answer["error"][0] for answer in answers if "error" in answer}
    tests.check(f"{name}: the answers", errors <= OUT_OF_MEMORY | ({601} if answers and "error" in answers[0] else set()), answers)
    tests.check(f"{name}: the end", run.status in ((0, 3, 4) if was_refused else (0,)), run)
    if run.status == 0:
        tests.check(f"{name}: the tree", json.loads(run.out.splitlines()[-1]) == tree(5 + 3 * len(replies)), (answers, run))
        audit = tests.run("audit", f"without-{number}")
        done = sum(len(order) for line in audit.out.splitlines() for order in json.loads(line)["orders"])
        tests.check(f"{name}: the files", audit.status == 0 and done == len(replies), (answers, audit))
    return was_refused


def test_hand_over_without_memory(tests):
    """Whichever allocation is refused, no answered call is lost. Each seventeenth is tried, from one of the first seventeen on."""
    library = refusing.library(tests.folder)
    number = chance("hand-over").randrange(1, 18)
    while without_memory(tests, library, number):
        number += 17


def test_unknown_growth(tests):
    """A server on whose tree no nodes can be appended doesn't know the request."""
    with serving(tests, connections=1) as server:
        peer = Peer(server.port)
        told = [peer.ask(grow(0)), peer.ask(json.dumps({"op": "grown", "parents": [0]}))]
        peer.close()
        run = server.end()
    tests.check("growth of a server whose clients seal", told == [lines({"error": [901]})] * 2 and run.status == 0, (told, run))


def text(source):
    return json.dumps({"op": "register", "text": source})


def call(procedure, *arguments):
    return json.dumps({"op": "call", "proc": procedure, "args": arguments})


def test_texts(tests):
    """All procedures of a text are registered, in its order, and do what they say."""
    tests.path("text.tdb").write_text(TEXT)
    checked = json.loads(tests.run("check", "text.tdb").out)
    with one_connection(tests, "texts") as server:
        peer = Peer(server.port)
        told = peer.ask(text(TEXT))
        wanted = [{"bounds": each["bounds"], "name": name} for name, each in checked]
        tests.check("a text: its procedures", told == lines({"registered": wanted}) and [it["name"] for it in wanted] == ["put", "look"], (told, checked))
        told = [peer.ask(call("put", 0, 7)), peer.ask(call("look", 0))]
        tests.check("a text: what they do", told == [lines(answer(0, 0, 12)), lines(answer(1, 0, 12))], told)
        peer.close()
        run = server.end()
    tests.check("a text: the end", (run.status, run.out) == (0, lines({"generations": 1}, tree(12))), run)
    tests.answers("a text: the audit", ["audit", "texts"], 0, lines({"orders": [[0, 1]]}), "")


def test_refused_texts(tests):
    """For the first fault of the text, with its place, or of a name; then none of its procedures is registered."""
    other = TEXT.replace("proc put", "proc other")
    faults = [("that no parser knows", other + "prok", [273, 11, 1]), ("with a node that isn't held", other.replace("    emit n.pieces;\n}\n", "    free n; emit n.pieces;\n}\n"), [281, 5, 18]),
              ("with a fault behind a procedure", other.replace("lock n = node(at);\n    emit", "lock n = node(it);\n    emit"), [275, 8, 19]),
              ("of two procedures of one name", other.replace("look", "other"), [276, 7, 6]), ("of which a name is taken", other, [611])]
    with one_connection(tests, "refused") as server:
        peer = Peer(server.port)
        peer.ask(text(TEXT))
        for name, source, numbers in faults:
            told = [peer.ask(text(source)), peer.ask(call("other", 0, 1))]
            tests.check(f"a text {name}", told == [lines({"error": numbers}), lines({"error": [601]})], told)
        told = peer.ask(text(other.replace("look", "another")))
        tests.check("its names are free after that", [it["name"] for it in json.loads(told)["registered"]] == ["other", "another"], told)
        told = [peer.ask(json.dumps({"op": "register", **more})) for more in ({"text": ""}, {"text": 1}, {"text": TEXT, "name": "all"}, {"asm": "ret"})]
        tests.check("a text without a procedure, and what is no registration", told == [lines({"registered": []})] + [lines({"error": [901]})] * 3, told)
        peer.close()
        server.end()


def test_texts_of_other_servers(tests):
    """A server that seals itself takes texts, also where its connections are counted; one whose clients seal doesn't know them."""
    for name, words, wanted in (("that seals itself", ["--seal", "itself"], True), ("by hand", [], False)):
        with serving(tests, *words, connections=1) as server:
            peer = Peer(server.port)
            told = peer.ask(text(TEXT))
            peer.close()
            run = server.end()
        tests.check(f"a text of a server {name}", (told.startswith('{"registered":[{') if wanted else told == lines({"error": [901]})) and run.status == 0, (told, run))


def grow_often(port, count, numbers):
    peer = Peer(port)
    for _ in range(count):
        numbers.append(json.loads(peer.ask(grow(0)))["grown"])
    peer.close()


def test_growth_beside_calls(tests):
    """Three connections append nodes while two run batches. Each node is given once, and no call is lost."""
    with serving(tests, "--trails", folder(tests, "beside"), connections=None) as server:
        peer = Peer(server.port)
        peer.ask(ADD)
        numbers, answers = [[], [], []], [[], []]
        Threads(*[(grow_often, server.port, 8, own) for own in numbers], *[(add_often, server.port, own) for own in answers]).join()
        peer.close()
        server.stop()
        run = server.end()
    given = sorted(number for own in numbers for number in own)
    tests.check("growth beside calls: the numbers", given == [*range(1, 25)] and all(own == sorted(own) for own in numbers), numbers)
    sums = sum("reply" in each for own in answers for each in own)
    grown = {"parents": [0] * 25, "records": [record(5 + sums), *[record()] * 24]}
    generations = len(files(tests, "beside"))
    tests.check("growth beside calls: the end", (run.status, run.out) == (0, lines({"generations": generations}, grown)) and sums == 2 * 80 * 64, run)
    audit = tests.run("audit", "beside")
    tests.check("growth beside calls: the audit", audit.status == 0 and audit.out.count("\n") == generations >= 24, audit)


def test_mistakes(tests):
    """Options that don't go together."""
    words = ["serve", "--tree", "examples/one-node.json", "--port", str(free_port())]
    for more in ([], ["--seal", "itself"], ["--seal", "by-hand", "--control", "1"], ["--connections", "1", "--generation", "2"], ["--connections", "1", "--trails", "."],
                 ["--seal", "never", "--connections", "1"], ["--control", "1", "--generation", "0"], ["--control", "1", "--generation", "129"],
                 ["--control", "1", "--at-once", "0"], ["--control", "1", "--at-once", "1025"], ["--control", "1", "--trail", "a", "--trails", "."]):
        run = tests.run(*words, *more)
        tests.check(f"serve {' '.join(more)}", (run.status, run.out) == (2, "") and run.err.startswith("error: "), run)
