"""Compares `treedb audit` with a second auditor, fuzz/audit.py, which shares nothing with it: on logs that runs left, and on what became of them by changes left to chance. And `treedb-logs` with a server's answers."""

import copy
import hashlib
import json
import os
import subprocess
import sys

from running import PATIENCE, TOP, chance
from serving import Peer

# How many changes are tried of each log.
CHANGES = 25
TEXT = "field value = 0;\nproc add(at, amount) { lock n = node(at); n.value += amount; emit n.value; }\nproc down(at, place) { lock n = node(at); descend n to child(place); n.value += 1; emit n.value; } else { emit -1; }\n"


def second(tests, *files):
    """What the second auditor prints, and its status."""
    done = subprocess.run([sys.executable, TOP / "fuzz/audit.py", *files], cwd=tests.folder, capture_output=True, text=True, timeout=PATIENCE, check=False)
    return done.stdout or done.stderr, done.returncode


def agree(tests, name, *files):
    """Both say the same of these files. Returns what they say."""
    run = tests.run("audit", *files)
    said, status = second(tests, *files)
    tests.same(name, (said, status), (run.out, run.status))
    return run.out


def made(tests):
    """Logs of runs: of one call after another, of many at once, and of several epochs; each with the word for it."""
    tests.run("drive", "--tree", "examples/fork.json", "--trail", "turns.json", "examples/turns.json")
    tests.run("run", "--tree", "examples/stock/tree.json", "--workers", "4", "--proc", "examples/stock/stock.tdb", "--trail", "stock.json", "examples/stock/calls.json")
    tests.path("epochs.tdb").write_text(TEXT)
    tests.path("tree.json").write_text(json.dumps({"parents": [0, 0, 1, 1], "records": [[5] + [0] * 7] * 4}))
    epochs = [[["add", [1, 2]], ["down", [1, 0]], ["down", [0, 0]], ["add", [9, 1]]], [["down", [1, 1]], ["add", [0, 2**63 - 1]]], [["add", [2, 1]]]]
    tests.path("script.json").write_text(json.dumps({"epochs": epochs}))
    tests.run("run", "--tree", "tree.json", "--workers", "2", "--proc", "epochs.tdb", "--trail", "epochs.json", "script.json")
    return ["turns.json", "stock.json", "epochs.json"]


def changed(value, by):
    """A log with one change that is left to chance."""
    log = copy.deepcopy(value)
    trail = by.choice(log) if isinstance(log, list) else log
    kind, events = by.randrange(11), trail["events"]
    at = by.randrange(len(events))
    if kind == 0:
        del events[at]
    elif kind == 1:
        events.insert(at, copy.deepcopy(by.choice(events)))
    elif kind == 2:
        other = (at + 1) % len(events)
        events[at], events[other] = events[other], events[at]
    elif kind == 3:
        events[at][1] = by.randrange(len(trail["calls"]) + 1)
    elif kind == 4 and len(events[at]) == 4:
        events[at][3][by.randrange(8)] += by.choice([1, -1, 2**62])
    elif kind == 5 and len(events[at]) == 4:
        events[at][2] = by.randrange(len(trail["tree"]["parents"]) + 1)
    elif kind == 6:
        by.choice(trail["calls"])[2] = by.choice([None, [], [0], [2**63], [1] * 33])
    elif kind == 7:
        call = by.choice(trail["calls"])
        call[1] = [argument + by.randrange(-1, 2) for argument in call[1]]
    elif kind == 8:
        by.choice(by.choice([trail["end"], trail["tree"]["records"]]))[by.randrange(8)] += 1
    elif kind == 9:
        trail["tree"]["parents"][by.randrange(len(trail["tree"]["parents"]))] = by.randrange(len(trail["tree"]["parents"]))
    elif kind == 10 and isinstance(log, list):
        log.remove(trail)
    return log


def test_clean_logs(tests):
    for name in made(tests):
        tests.check(f"{name} is clean", agree(tests, f"both say the same of {name}", name).startswith('{"order'), name)


def test_changed_logs(tests):
    by, found = chance("auditors"), set()
    for name in made(tests):
        value = json.loads(tests.bytes(name))
        for number in range(CHANGES):
            text = json.dumps(changed(value, by))
            tests.path("changed.json").write_text(text)
            found.add(agree(tests, f"{name}, change {number}: {text[:300]}", "changed.json")[:12])
    tests.check("most changes are refused, for several reasons", len(found) > 4, found)


def test_texts_of_another_form(tests):
    clean = {"calls": [], "end": [[0] * 8], "events": [], "procs": [], "tree": {"parents": [0], "records": [[0] * 8]}}
    for name, value in (("no trail", {}), ("an empty chain", []), ("one member more", {**clean, "more": 0}), ("a clean one", clean), ("no node", {**clean, "tree": {"parents": [], "records": []}, "end": []}),
                        ("a root with a parent", {**clean, "tree": {"parents": [1], "records": [[0] * 8]}}), ("records of two widths", {**clean, "end": [[0] * 4]}), ("no end", {**clean, "end": []}),
                        ("four fields", {**clean, "end": [[0] * 4], "tree": {"parents": [0], "records": [[0] * 4]}}), ("a fraction", {**clean, "end": [[0.5] + [0] * 7]}), ("a chain", [clean, clean])):
        tests.path("text.json").write_text(json.dumps(value))
        agree(tests, name, "text.json")


def test_a_folder(tests):
    """Nodes appended, and a procedure with another code, between two files."""
    tests.path("folder").mkdir()
    first = {"calls": [["one", [], [1]]], "end": [[7] + [0] * 7], "events": [["a", 0], ["d", 0]], "procs": [["one", "arity 0\nset v0 1\nemit v0\nret\n"]], "tree": {"parents": [0], "records": [[7] + [0] * 7]}}
    later = {**first, "calls": [["one", [], [2]]], "procs": [["one", "arity 0\nset v0 2\nemit v0\nret\n"]], "tree": {"parents": [0, 0], "records": [[7] + [0] * 7, [0] * 8]}, "end": [[7] + [0] * 7, [0] * 8]}
    for name, value in (("a file of each", later), ("another record", {**later, "tree": {"parents": [0, 0], "records": [[8] + [0] * 7, [0] * 8]}}), ("a new node that isn't empty", {**later, "tree": {"parents": [0, 0], "records": [[7] + [0] * 7, [1] * 8]}}),
                        ("no procedure", {**later, "procs": [["two", first["procs"][0][1]]], "calls": [["two", [], [1]]]})):
        for number, each in enumerate(([first], [value])):
            tests.path(f"folder/{number}.json").write_text(json.dumps(each))
        agree(tests, name, "folder")


def test_what_a_log_has(tests, server):
    """`treedb-logs` finds each answer by its receipt, over files too, and the sum of the last tree is that of the file that the server saves; its procedures are those of the text."""
    tests.path("trails").mkdir()
    tests.path("add.tdb").write_text("field value = 0;\nproc add(node_number, amount) { lock n = node(node_number); n.value += amount; emit n.value; }\n")
    it = server("--trails", "trails", "--save", "left.json", "--generation", "1", "--proc", "add.tdb", connections=None)
    peer, answers = Peer(it.port), []
    for amount in range(1, 7):
        answers.append(json.loads(peer.ask(json.dumps({"op": "call", "proc": "add", "args": [0, amount]}))))
        if amount % 2 == 0:
            peer.ask('{"op":"seal"}')
    peer.close()
    it.stop()
    it.end()

    def logs(*words):
        done = subprocess.run([sys.executable, "-m", "treedb.logs", *words], cwd=tests.folder, env={**os.environ, "PYTHONPATH": str(TOP / "clients/python")}, capture_output=True, text=True, check=False)
        return done.returncode, [json.loads(line) for line in done.stdout.splitlines()], done.stderr

    status, lines, said = logs("summary", "trails")
    tests.same("the sums", (status, said, lines[-1]["calls"], lines[-2]["last_tree"]), (0, "", 6, hashlib.sha256(tests.bytes("left.json")).hexdigest()))
    tests.check("several files", lines[-1]["files"] > 2, lines)
    for amount, answer in enumerate(answers, 1):
        status, lines, said = logs("receipt", json.dumps(answer), "trails")
        tests.check(f"the receipt {answer}", status == 0 and lines[0]["args"] == [0, amount] and lines[0]["reply"] == answer["reply"], (lines, said))
    tests.path("printed").write_text(tests.run("procs", "add.tdb").out)
    tests.same("its procedures", logs("procedures", "printed", "trails")[:2], (0, [{"add": "the same"}]))
