"""Tests the built program from outside: its command line, its exit statuses, what it prints, and its files.

The commands themselves are proved and tested in their crates. Here is what no contract can say: which words are taken, what
goes to standard output and what to standard error, what a file or a stream that fails comes to, and that the examples of
the pages print what the pages say. Memory is refused by `refusing`; where there is no C compiler, that test is skipped.
"""

import contextlib
import errno
import functools
import json
import os
import pathlib
import re
import shlex
import socket
import subprocess

import refusing
from running import asked, at_once, free_port
from serving import LISTENING, Process
from unproved import without_proofs

TOP = pathlib.Path(__file__).resolve().parent.parent
FULL = "/dev/full"


# ---- what the words are

ALONE = ["alone", "--tree", "examples/one-node.json", "--proc", "examples/add.tlp", "--args", "[0,3]"]
ALONE_OUT = '{"reply":[8],"steps":7}\n{"parents":[0],"records":[[8,0,0,0,0,0,0,0]]}\n'
DRIVE = ["drive", "--tree", "examples/fork.json", "examples/turns.json"]
DRIVE_WITH_TRAIL = ["drive", "--tree", "examples/fork.json", "--trail", "trail.json", "examples/turns.json"]
ORDER_OUT = '{"order":[2,0,1]}\n'
RUN = ["run", "--tree", "examples/three-nodes.json", "--workers", "1", "examples/calls.json"]
ONE_NODE_OUT = '{"parents":[0],"records":[[5,0,0,0,0,0,0,0]]}\n'
RUN_OUT = """\
{"batch":[{"call":0,"reply":[]},{"call":1,"reply":[]},{"call":2,"reply":[18]},{"error":[601]}]}
{"order":[0,1,2]}
{"parents":[0,0,1],"records":[[11,0,0,0,0,0,0,0],[11,0,0,0,0,0,0,0],[18,0,0,0,0,0,0,0]]}
"""
RUN_AT_ONCE = ["run", "--tree", "examples/three-nodes.json", "--workers", "4", "--trail", "at-once.json", "examples/calls.json"]
SERVE = ["serve", "--tree", "examples/one-node.json", "--port", "7878", "--connections", "1"]
SERVE_OUT = '{"order":[0]}\n{"parents":[0],"records":[[8,0,0,0,0,0,0,0]]}\n'
ANSWERS = '{"bounds":{"emits":1,"locks":1,"steps":7}}\n{"call":0,"reply":[8]}\n{"closed":true}\n'
ASM = ["asm", "examples/walk.asm", "walk.tlp"]
COUNT_OUT = '{"count":10}\n'
DIS = ["dis", "examples/walk.tlp"]
VERIFY = ["verify", "examples/walk.tlp"]
CHECK = ["check", "examples/walk.asm"]
AUDIT = ["audit", "clean.json"]
MIGRATE = ["migrate", "examples/walk.tlp", "walk-2.tlp"]
WIDEN = ["widen", "examples/one-node.json", "wide.json"]
ALONE_SAVED = ALONE + ["--save", "saved.json"]
RUN_WITH_PROCEDURE = ["run", "--tree", "examples/one-node.json", "--workers", "1", "--proc", "look=examples/look.asm", "bare.json"]
COMMANDS = [ALONE, DRIVE, DRIVE_WITH_TRAIL, RUN, AUDIT, ASM, DIS, VERIFY, CHECK, MIGRATE, WIDEN, ALONE_SAVED, RUN_WITH_PROCEDURE]

# Words that are no command line of the program's.
MISTAKES = [
    [], ["walk"], ["--tree"], ["alone"], ALONE[:3], ALONE + ["more"], ALONE + ["--steps"], ALONE + ["--tree", "again"],
    ALONE[:-1], ["asm"], ASM[:2], ASM + ["more"], ["dis"], DIS + ["more"], ["verify"], VERIFY + ["--tree", "t"], ["migrate"],
    ["check"], CHECK + ["more"], ALONE + ["--save"], RUN + ["--proc"], MIGRATE[:2], MIGRATE + ["more"], ["widen"], WIDEN[:2], WIDEN + ["more"], ["drive"],
    DRIVE[:3], DRIVE + ["--trail"], ["audit"], AUDIT + ["--more"],
    ["export"], ["export", "a.db"], ["export", "a.db", "trails", "more"], ["run"], RUN[:5], RUN[:3] + RUN[5:], RUN + ["more"],
    RUN + ["--trail"], RUN + ["--workers", "2"],
] + [RUN[:4] + [workers] + RUN[5:] for workers in ("0", "17", "-1", "two", "", "1.0", "99999999999999999999")] + [
    ["serve"], SERVE[:5], SERVE[:3] + SERVE[5:], SERVE[:1] + SERVE[3:], SERVE + ["more"], SERVE + ["--trail"],
] + [SERVE[:place] + [number] + SERVE[place + 1:] for place in (4, 6) for number in ("65536", "-1", "one", "", "1.0")] + [SERVE[:6] + ["0"]] + [
    ["explain", *words] for words in ([], ["0"], ["408", "more"], ["100"], ["65535"], ["65536"], ["-1"], ["seven"], [""])
]

# Words whose command is refused, with its numbers.
REFUSED = [
    (ALONE[:-1] + ["[0]"], [501]),
    (ALONE[:-1] + ["[0,"], [732]),
    (ALONE[:-1] + ["[0,0.5]"], [732]),
    (["alone", "--tree", "examples/add.asm", "--proc", "examples/add.tlp"], [106]),
    (["verify", "examples/add.asm"], [201]),
    (["dis", "examples/add.asm"], [201]),
    (["migrate", "examples/add.asm", "never.tlp"], [201]),
    (["widen", "examples/add.asm", "never.tlp"], [106]),
    (["asm", "no.asm", "never.tlp"], [251, 2]),
    (["asm", "bytes.asm", "never.tlp"], [255]),
    (["check", "no.asm"], [251, 2]),
    (["check", "bytes.asm"], [255]),
    (["check", "examples/fork.json"], [251, 1]),
    (["check", "forgetful.asm"], [407, 2, 0]),
    (["run", "--tree", "examples/fork.json", "--workers", "2", "forgetful.json"], [407, 2, 0]),
    (["drive", "--tree", "examples/fork.json", "examples/fork.json"], [731]),
    (["run", "--tree", "examples/add.asm", "--workers", "2", "examples/turns.json"], [106]),
    (["run", "--tree", "examples/fork.json", "--workers", "2", "examples/turns.json"], [731]),
    (["run", "--tree", "examples/fork.json", "--workers", "2", "twice.json"], [611]),
    (SERVE[:2] + ["examples/add.asm"] + SERVE[3:], [106]),
    (["audit", "examples/turns.json"], [701]),
]


def error_line(numbers):
    return '{"error":[' + ",".join(map(str, numbers)) + "]}\n"


def test_command_lines(tests):
    helps = [[*command, "--help"] for command in [[], ["alone"], ["drive"], ["run"], ["serve"], ["audit"], ["asm"], ["dis"], ["verify"], ["check"], ["compile"], ["procs"], ["migrate"],
                                                  ["widen"], ["export"], ["stop"], ["status"], ["snapshot"], ["register"], ["replace"], ["explain"]]]
    for words, run, unprinted in zip(helps, tests.runs(*helps), tests.runs(*helps, out=FULL)):
        name = " ".join(words[:-1]) or "treedb"
        holds = run.status == 0 and "Usage" in run.out and "Exit status" in run.out and run.err == ""
        tests.check(f"help of {name}", holds, run)
        tests.check(f"help of {name} that can't be printed", unprinted.status == 3 and is_unprinted(unprinted), unprinted)
    for words, run, untold in zip(MISTAKES, tests.runs(*MISTAKES), tests.runs(*MISTAKES, err=FULL)):
        tests.check(f"mistake {words}", run.status == 2 and run.out == "" and run.err != "", run)
        tests.check(f"mistake {words}, told to nobody", untold.status == 2 and untold.out == "", untold)
    bad = [[b"\xff" * (at == place) + word.encode() for at, word in enumerate(words)] for words in COMMANDS for place in range(len(words))]
    for words, run in zip(bad, tests.runs(*bad)):
        tests.check(f"a word of {words} isn't UTF-8", run.status == 2 and run.out == "" and run.err != "", run)
    run = tests.run(b"\xff", err=FULL)
    tests.check("a word that isn't UTF-8, told to nobody", run.status == 2 and run.out == "", run)


def test_refusals(tests):
    tests.path("no.asm").write_bytes(b"arity 1\nset v16 0\nret\n")
    tests.path("bytes.asm").write_bytes(b"arity 0\nret ; \xff\n")
    tests.path("twice.json").write_text('{"calls":[["a",[]]],"procs":[["a","arity 0\\nret"],["a","arity 0\\nret"]]}')
    tests.path("forgetful.asm").write_text("arity 1\n\nfirst n0 v0 else out ; locks\n  jmp end\nend:\n  ret\nout:\nret\n")
    tests.path("forgetful.json").write_text(json.dumps({"calls": [["a", []]], "procs": [["ok", "arity 0\nret"], ["a", tests.path("forgetful.asm").read_text()]]}))
    refused = [words for words, _ in REFUSED]
    for (words, numbers), run, untold, unprinted in zip(REFUSED, tests.runs(*refused), tests.runs(*refused, err=FULL), tests.runs(*refused, out=FULL)):
        tests.judged(f"refused {words}", run, 1, error_line(numbers), re.compile(r"^treedb: .+\n\Z", re.MULTILINE))
        tests.check(f"refused {words}, told to nobody", untold.status == 1 and untold.out == error_line(numbers), untold)
        tests.check(f"refused {words}, not printed", unprinted.status == 3 and is_unprinted(unprinted), unprinted)
    tests.check("a refused text writes no container", not tests.path("never.tlp").exists(), "it is there")
    for words in (["asm", "no.asm", "never.tlp"], ["check", "no.asm"]):
        tests.answers(f"the refused line is shown by {words}", words, 1, error_line([251, 2]),
                      re.compile(r"^no\.asm:2\n    set v16 0\n    \^\ntreedb: .*\n\Z"))
    line = r":6\n      ret\n      \^\ntreedb: .*\n\Z"
    tests.answers("the refused instruction is shown", ["check", "forgetful.asm"], 1, error_line([407, 2, 0]), re.compile(r"^forgetful\.asm" + line))
    tests.answers("the refused procedure of a script is shown", ["run", "--tree", "examples/fork.json", "--workers", "2", "forgetful.json"], 1,
                  error_line([407, 2, 0]), re.compile(r"^treedb: the procedure a\na" + line))


def test_no_texts(tests):
    """A file whose one byte is no text's and no container's, in each place of each command."""
    tests.path("no-text").write_bytes(b"\xff")
    for words, place, number in [(ALONE, 2, 106), (ALONE, 4, 201), (DRIVE, 2, 106), (DRIVE, 3, 731), (RUN, 2, 106), (RUN, 5, 731),
                                 (SERVE, 2, 106), (AUDIT, 1, 701), (ASM, 1, 255), (DIS, 1, 201), (VERIFY, 1, 201)]:
        words = words[:place] + ["no-text"] + words[place + 1:]
        tests.answers(f"no text in {words}", words, 1, error_line([number]), re.compile(r"^treedb: .+\n\Z"))


def test_batches(tests):
    """64 calls are open at most, so a batch of more waits for its own; and a batch has at most 256."""
    words = ["run", "--tree", "examples/one-node.json", "--workers", "1", "batch.json"]
    for count in (256, 257):
        calls = [["echo", [number]] for number in range(count)]
        tests.path("batch.json").write_text(json.dumps({"calls": calls, "procs": [["echo", "arity 1\nemit v0\nret"]]}))
        answers = ",".join(f'{{"call":{number},"reply":[{number}]}}' for number in range(count))
        lines = f'{{"batch":[{answers}]}}\n{{"order":[{",".join(map(str, range(count)))}]}}\n' + ONE_NODE_OUT
        out, status = (lines, 0) if count == 256 else (error_line([731]), 1)
        tests.answers(f"a batch of {count} calls", words, status, out)


# ---- numbers

def test_numbers(tests):
    """`explain` prints what docs/use/faults.md says of each number."""
    rows = re.findall(r"^\| (\d+)((?:, \w+)*) \| ([^|]+) \| ([^|]+) \| ([^|]+) \|$", (TOP / "docs/use/faults.md").read_text(), re.MULTILINE)
    tests.check("docs/use/faults.md has numbers, each once", len({row[0] for row in rows}) == len(rows) > 70, len(rows))
    for (number, parts, name, when, advice), run in zip(rows, tests.runs(*(["explain", row[0]] for row in rows))):
        tests.judged(f"explain {number}", run, 0, f"[{number}{parts}]: {name}\nWhen: {when}.\nWhat to do: {advice}.\n", "")
    run = tests.run("explain", "408", out=FULL)
    tests.check("an explanation that can't be printed", run.status == 3 and is_unprinted(run), run)
    known = {number for number in map(int, (row[0] for row in rows))}
    unknown = [number for number in range(1000) if number not in known]
    for number, run in zip(unknown, tests.runs(*(["explain", str(number)] for number in unknown))):
        tests.check(f"explain {number}", run.status == 2 and run.out == "", run)
    # In the fault types of the crates no number stands that isn't explained.
    for path in sorted(path for path in TOP.glob("crates/tl_*/src/**/*.rt") if "tl_test_" not in str(path)):
        for found in re.findall(r"^ *///(?: .*)? (\d{2,3})(?: and the \w+)?: ", path.read_text(), re.MULTILINE):
            tests.check(f"{path.name}: {found} is explained", int(found) in known, found)


# ---- streams

def is_unprinted(run):
    """People are told last that standard output can't be written, with the system's reason."""
    return run.err.endswith(f"treedb: standard output can't be written: {os.strerror(errno.ENOSPC)} (os error 28)\n") \
        or re.search(r"treedb: standard output can't be written: .*\n\Z", run.err)


def test_streams(tests):
    before(tests)
    # Each of the commands writes files of its own.
    for words, plain, untold, unprinted, neither in zip(COMMANDS, *(tests.runs(*COMMANDS, **full) for full in ({}, {"err": FULL}, {"out": FULL}, {"out": FULL, "err": FULL}))):
        tests.check(f"done {words}", plain.status == 0 and plain.err == "", plain)
        tests.check(f"{words} with a full standard error", untold.status == 0 and untold.out == plain.out, untold)
        tests.check(f"{words} with a full standard output", unprinted.status == 3 and is_unprinted(unprinted), unprinted)
        tests.check(f"{words} with both full", neither.status == 3, neither)


# ---- options

def test_options(tests):
    """What `--version`, `--save` and `--proc` do."""
    before(tests)
    logic = re.search(r"`logic ([0-9a-f]{16})`", (TOP / "README.md").read_text())[1]
    tests.answers("the version", ["--version"], 0, f"treedb 0.1.0 (proved with Rattle, logic {logic})\n", "")
    for words in (ALONE, DRIVE, RUN):
        run = tests.run(*words, "--save", "tree.json")
        saved = tests.path("tree.json").read_text()
        tests.check(f"the saved tree of {words}", run.status == 0 and saved == run.out.rstrip("\n").split("\n")[-1] + "\n", saved)
        tests.check(f"{words}: nothing is left beside the tree", not tests.path("tree.json.part").exists(), "it is there")
    tests.path("epochs.json").write_text('{"epochs":[[["add",[0,1]]],[["add",[0,2]]]]}')
    run = tests.run("run", "--tree", "examples/one-node.json", "--workers", "1", "--proc", "add=examples/add.asm", "--save", "tree.json", "epochs.json")
    tests.check("the saved tree is that of the last epoch", run.status == 0 and tests.path("tree.json").read_text() == '{"parents":[0],"records":[[8,0,0,0,0,0,0,0]]}\n', run)
    run = tests.run(*ALONE, "--save", "tree.json", out=FULL)
    tests.check("the tree is saved before the result is printed", tests.path("tree.json").read_text().startswith("{"), run)
    out = '{"batch":[{"call":0,"reply":[5]}]}\n{"order":[0]}\n' + ONE_NODE_OUT
    tests.answers("a script without procedures", RUN_WITH_PROCEDURE, 0, out, "")
    tests.path("own.json").write_text('{"calls":[["look",[0]],["echo",[7]]],"procs":[["echo","arity 1\\nemit v0\\nret"]]}')
    out = '{"batch":[{"call":0,"reply":[5]},{"call":1,"reply":[7]}]}\n{"order":[0,1]}\n' + ONE_NODE_OUT
    tests.answers("a procedure beside a script's own", RUN_WITH_PROCEDURE[:-1] + ["own.json"], 0, out, "")
    for name, text, numbers in [("a list", "[]", [731]), ("no JSON", "{", [731]), ("other procedures", '{"calls":[["look",[0]]],"procs":7}', [731]),
                                ("the same name", '{"calls":[["look",[0]]],"procs":[["look","arity 0\\nret"]]}', [611])]:
        tests.path("other.json").write_text(text)
        tests.answers(f"a procedure for a script that is {name}", RUN_WITH_PROCEDURE[:-1] + ["other.json"], 1, error_line(numbers),
                      re.compile(r"^treedb: .+\n\Z", re.MULTILINE))


# ---- files of procedures

def test_sources(tests):
    """`--proc` takes a text of the procedure language, an assembler text or a container, as the file's name says."""
    before(tests)
    stock = ["alone", "--tree", "examples/stock/tree.json", "--args", "[10,5,0,1]", "--proc"]
    tests.run("compile", "examples/stock/stock.tdb", "shift.tlp", "--proc", "shift")
    compiled = tests.run(*stock, "shift.tlp")
    tests.check("alone of a container", compiled.status == 0 and compiled.out.startswith('{"reply":['), compiled)
    for name, words in [("a text", ["examples/stock/stock.tdb", "--name", "shift"]), ("a container, whatever the name", ["shift.tlp", "--name", "other"])]:
        tests.answers(f"alone of {name}", stock + words, 0, compiled.out, "")
    tests.answers("alone of an assembler text", ["alone", "--tree", "examples/one-node.json", "--proc", "examples/add.asm", "--args", "[0,3]"], 0,
                  tests.run(*ALONE).out, "")
    two = "proc one() { emit 1; } proc two() { emit 2; }"
    tests.path("two.tdb").write_text(two)
    tests.path("two.asm").write_text(two)
    tests.path("bytes.asm").write_bytes(b"\xff")
    tests.path("bytes.tdb").write_bytes(b"\xff")
    on_one = ["alone", "--tree", "examples/one-node.json", "--proc"]
    tests.path("only.tdb").write_text("proc only() { emit 1; }")
    tests.answers("alone of the only procedure", on_one + ["only.tdb"], 0, '{"reply":[1],"steps":3}\n' + ONE_NODE_OUT, "")
    tests.answers("alone of the second procedure", on_one + ["two.tdb", "--name", "two"], 0, '{"reply":[2],"steps":3}\n' + ONE_NODE_OUT, "")
    for name, words, numbers in [("two procedures", ["two.tdb"], [289]), ("no procedure of the name", ["two.tdb", "--name", "three"], [289]),
                                 ("a text for an assembler text", ["two.asm"], [251, 1]), ("an assembler text without UTF-8", ["bytes.asm"], [255]),
                                 ("a text without UTF-8", ["bytes.tdb"], [255])]:
        tests.answers(f"alone of {name}", on_one + words, 1, error_line(numbers), re.compile(r"^(two.asm:1\n.+\n.+\n)?treedb: .+\n\Z"))
    tests.answers("the tree is judged before the procedure", ["alone", "--tree", "examples/add.asm", "--proc", "two.tdb"], 1, error_line([106]),
                  re.compile(r"^(examples/add.asm:1:1\n.+\n.+\n)?treedb: the tree: .+\n\Z"))
    tests.path("wrong.tdb").write_text("proc one() {\n    emit 1 + ;\n}")
    tests.answers("a fault of a text of alone is shown", on_one + ["wrong.tdb"], 1, error_line([273, 2, 14]),
                  re.compile(r"^wrong.tdb:2:14\n        emit 1 \+ ;\n {17}\^\ntreedb: the text: "))
    bare = RUN_WITH_PROCEDURE[:-3]
    tests.run("asm", "examples/look.asm", "look.tlp")
    tests.path("look").write_bytes(tests.bytes("examples/look.asm"))
    looked = tests.run(*RUN_WITH_PROCEDURE).out
    for name, word in [("a container", "look=look.tlp"), ("a file of another name", "look=look")]:
        tests.answers(f"run with {name}", bare + ["--proc", word, "bare.json"], 0, looked, "")
    tests.path("twos.json").write_text('{"calls":[["two",[]],["one",[]]]}')
    out = '{"batch":[{"call":0,"reply":[2]},{"call":1,"reply":[1]}]}\n{"order":[0,1]}\n' + ONE_NODE_OUT
    tests.answers("run with all of a text", bare + ["--proc", "two.tdb", "twos.json"], 0, out, "")
    out = '{"batch":[{"call":0,"reply":[2]},{"error":[601]}]}\n{"order":[0]}\n' + ONE_NODE_OUT
    tests.answers("run with one of a text", bare + ["--proc", "two=two.tdb", "twos.json"], 0, out, "")
    tests.answers("run with another name than the text has", bare + ["--proc", "three=two.tdb", "twos.json"], 1, error_line([289]), re.compile("^treedb: "))
    tests.answers("run with a text twice", bare + ["--proc", "two.tdb", "--proc", "two=two.tdb", "twos.json"], 1, error_line([611]), re.compile("^treedb: "))
    tests.path("wrong.tlp").write_text(two)
    tests.answers("run with a container that is none", bare + ["--proc", "two=wrong.tlp", "twos.json"], 1, error_line([201]), re.compile(r"^treedb: .+\n\Z"))
    tests.answers("run with a file that isn't there", bare + ["--proc", "two=none.tlp", "twos.json"], 3, error_line([31]), re.compile("^treedb: none.tlp can't be read"))
    tests.answers("a file of procedures is judged before the next one is read", bare + ["--proc", "two=wrong.tlp", "--proc", "none.tdb", "twos.json"], 1, error_line([201]), re.compile(r"^treedb: .+\n\Z"))
    tests.answers("files of procedures are judged before the tree", ["run", "--tree", "examples/add.asm", "--workers", "1", "--proc", "wrong.tdb", "twos.json"], 1, error_line([273, 2, 14]),
                  re.compile(r"^wrong.tdb:2:14\n        emit 1 \+ ;\n {17}\^\ntreedb: the text: "))
    tests.path("moves.json").write_text('{"moves":[["two",[]],0,0]}')
    run = tests.run("drive", "--tree", "examples/one-node.json", "--proc", "two.tdb", "moves.json")
    tests.check("drive with a text", run.status == 0 and run.out.startswith('{"trace":[["a",0],'), run)
    tests.answers("drive without procedures", ["drive", "--tree", "examples/one-node.json", "moves.json"], 1, error_line([731]), re.compile(r"^treedb: .+\n\Z"))


# ---- files

def failing_files(tests, what, number, rows):
    """Of each row, the file that takes that place of the words can't be read, or written, for a reason."""
    commands = [words[:place] + [path] + words[place + 1:] for words, place, _, path in rows]
    for (_, _, reason, path), words, run, untold in zip(rows, commands, tests.runs(*commands), tests.runs(*commands, err=FULL)):
        said = f"treedb: {path} can't be {what}: {os.strerror(reason)}"
        holds = run.status == 3 and run.out == error_line([number]) and run.err.startswith(said) and run.err.count("\n") == 1
        tests.check(f"not {what}: {words}", holds, run)
        tests.check(f"not {what}: {words}, told to nobody", untold.status == 3 and untold.out == error_line([number]), untold)


def test_files(tests):
    unreadable, unwritable = [], []
    for words, place in [(ALONE, 2), (ALONE, 4), (DRIVE, 2), (DRIVE, 3), (RUN, 2), (RUN, 5), (SERVE, 2), (AUDIT, 1), (ASM, 1), (DIS, 1),
                         (VERIFY, 1), (CHECK, 1), (MIGRATE, 1), (WIDEN, 1)]:
        unreadable.append((words, place, errno.ENOENT, "nowhere/there is none"))
        if words != AUDIT:  # which takes folders too: test_lasting.py has them
            unreadable.append((words, place, errno.EISDIR, "examples"))
        unreadable.append((words, place, errno.ENOTDIR, "examples/add.asm/x"))
    for words, place in [(ASM, 2), (MIGRATE, 2), (WIDEN, 2), (DRIVE_WITH_TRAIL, 4), (RUN_AT_ONCE, 6)]:
        unwritable += [(words, place, errno.ENOENT, "nowhere/there is none"), (words, place, errno.EISDIR, "examples"), (words, place, errno.ENOSPC, FULL)]
    failing_files(tests, "read", 31, unreadable)
    failing_files(tests, "written", 32, unwritable)
    both = ["alone", "--tree", "no tree", "--proc", "no procedure"]
    tests.answers("the tree's file is read first", both, 3, error_line([31]), re.compile("^treedb: no tree can't be read"))
    tests.answers("files are read before they are judged", ["alone", "--tree", "examples/add.asm", "--proc", "none"], 3,
                  error_line([31]), re.compile("^treedb: none can't be read"))
    run = tests.run("asm", "examples/walk.asm", "early.tlp", out=FULL)
    written = tests.bytes("early.tlp")
    tests.check("a file is written before the result is printed", written == tests.bytes("examples/walk.tlp"), run)
    tests.path("long.tlp").write_bytes(b"x" * 9999)
    run = tests.run("asm", "examples/walk.asm", "long.tlp")
    tests.check("what stood in the file is gone", tests.bytes("long.tlp") == written, run)


# ---- epochs

def test_epochs(tests):
    """A run over epochs writes the chain of its trails, which is audited, however it is written; so does a server that is sealed."""
    add = tests.bytes("examples/add.asm").decode()
    script = {"epochs": [[["add", [0, 3]]], [["add", [0, 1]]]], "procs": [["add", add]]}
    tests.path("epochs.json").write_text(json.dumps(script))
    words = ["run", "--tree", "examples/one-node.json", "--workers", "1", "--trail", "chain.json", "epochs.json"]
    left = '{"orders":[[0],[0]]}\n{"parents":[0],"records":[[9,0,0,0,0,0,0,0]]}\n'
    out = '{"batch":[{"call":0,"reply":[8]}]}\n{"batch":[{"call":0,"epoch":1,"reply":[9]}]}\n' + left
    tests.answers("a run over two epochs", words, 0, out, "")
    tests.answers("the chain of two epochs", ["audit", "chain.json"], 0, '{"orders":[[0],[0]]}\n', "")
    chain = json.loads(tests.bytes("chain.json"))
    tests.check("a chain's file is compact", tests.bytes("chain.json").decode() == json.dumps(chain, separators=(",", ":")) + "\n", chain)
    turned = [dict(reversed(trail.items())) for trail in chain]
    changed = json.loads(json.dumps(chain))
    changed[1]["tree"]["records"][0][0] = 7
    for name, text, status, answer in (
        ("with spaces", "\n" + json.dumps(chain, indent=1), 0, '{"orders":[[0],[0]]}\n'),
        ("whose members are turned round", json.dumps(turned), 0, '{"orders":[[0],[0]]}\n'),
        ("of which one trail is turned round", json.dumps([chain[0], turned[1]]), 0, '{"orders":[[0],[0]]}\n'),
        ("of one trail", json.dumps(chain[:1]), 0, '{"orders":[[0]]}\n'),
        ("with another record between", json.dumps(changed), 1, error_line([718, 1])),
        ("without its end", json.dumps(chain)[:-1], 1, error_line([701])),
        ("with text behind it", json.dumps(chain) + "]", 1, error_line([701])),
        ("with a float", json.dumps(chain).replace('["a", 0]', '["a", 0.0]'), 1, error_line([701])),
        ("with a number more", json.dumps([*chain, 0]), 1, error_line([701])),
        ("of 257 trails", json.dumps([chain[0]] * 257), 1, error_line([701])),
        ("of none", "[]", 1, error_line([701])),
        ("with a trail of no calls' procedure", json.dumps([{**chain[0], "procs": []}, chain[1]]), 1, error_line([601])),
    ):
        tests.path("form.json").write_text(text)
        tests.answers(f"a chain {name}", ["audit", "form.json"], status, answer, "" if status == 0 else re.compile(r"^(form\.json:1:\d+\n)?treedb: "))
    run = tests.run(*words[:6], "nowhere/there is none", words[7])
    tests.check("a chain that can't be written", run.status == 3 and run.out == error_line([32]) and "can't be written" in run.err, run)
    tests.path("chain.json").write_text("as before")
    tests.answers("a run that is refused", words[:7] + ["examples/add.asm"], 1, error_line([731]), re.compile(r"^(examples/add.asm:1:1\n.+\n.+\n)?treedb: "))
    tests.check("and leaves the chain as it was", tests.bytes("chain.json") == b"as before", words)

    register = json.dumps({"op": "register", "name": "add", "asm": add})
    call, seal = '{"op":"call","proc":"add","args":[0,%d]}', '{"op":"seal"}'
    lines = "\n".join([register, call % 3, seal, call % 1, ""]).encode()
    run, answers, said = served(tests, [lines], "--trail", "chain.json")
    told = '{"bounds":{"emits":1,"locks":1,"steps":7}}\n{"call":0,"reply":[8]}\n{"sealed":0}\n{"call":0,"epoch":1,"reply":[9]}\n'
    tests.check("a server that is sealed", (run.status, run.out, run.err, answers) == (0, left, said, [told]), run)
    tests.answers("the chain of a server", ["audit", "chain.json"], 0, '{"orders":[[0],[0]]}\n', "")


# ---- calls at once

def test_at_once(tests):
    """Several threads: the calls and the tree that they leave are the same in each run, and the order fits the replies."""
    tests.answers("one worker", RUN, 0, RUN_OUT, "")
    answers, _, tree = map(json.loads, RUN_OUT.splitlines())
    # The runs come one after another, so that four threads have four processors; their audits come together.
    done = []
    for number in range(50):
        name = f"four workers, run {number}"
        run = tests.run(*RUN_AT_ONCE[:-2], f"at-once-{number}.json", RUN_AT_ONCE[-1])
        is_done = run.status == 0 and run.err == "" and run.out.count("\n") == 3
        tests.check(name, is_done, run)
        if is_done:
            done.append((number, name, run))
    audits = tests.runs(*(["audit", f"at-once-{number}.json"] for number, _, _ in done))
    for (number, name, run), audit in zip(done, audits):
        batch, order, left = map(json.loads, run.out.splitlines())
        replies = [answer["reply"] for answer in batch["batch"] if "call" in answer]
        # The look finds 7, and what those sweeps have added that come before it.
        before = order["order"][:order["order"].index(2)]
        added = sum({0: 1, 1: 10}[call] for call in before)
        holds = left == tree and replies == [[], [], [7 + added]]
        tests.check(f"{name}: the replies in that order, and the tree", holds, run)
        answers["batch"][2]["reply"] = replies[2]
        tests.check(f"{name}: the answers", batch == answers, run)
        trail = json.loads(tests.bytes(f"at-once-{number}.json"))
        holds = [call[2] for call in trail["calls"]] == replies and trail["end"] == left["records"]
        tests.check(f"{name}: the trail's replies and end", holds, trail)
        tests.judged(f"{name}: the trail's order", audit, 0, run.out.splitlines(True)[1], "")


# ---- a server

def served(tests, connections, *words, out=None):
    """A server, and what it answers to the lines of each connection, one after another."""
    port = free_port()
    said = f"treedb: listening on 127.0.0.1:{port}\n"
    words = SERVE[:4] + [str(port), "--connections", str(len(connections)), *words]
    with open(out, "wb") if out else contextlib.nullcontext(subprocess.PIPE) as stream:
        server = Process(tests.program, words, LISTENING, folder=tests.folder, out=stream)
    try:
        tests.check(f"it says where it listens: {words}", server.said == said, server.said)
        answers = [asked(port, lines) for lines in connections]
        return server.end(), answers, said
    finally:
        server.kill()


def test_server(tests):
    lines = tests.bytes("examples/requests.txt")
    page = (TOP / "examples/README.md").read_text()
    for line in ("./treedb " + " ".join(SERVE), "nc -N 127.0.0.1 7878 < examples/requests.txt",
                 *ANSWERS.splitlines(), *SERVE_OUT.splitlines()):
        tests.check(f"examples/README.md has {line}", f"    {line}\n" in page, "it hasn't")

    run, answers, said = served(tests, [lines])
    tests.check("one connection", (run.status, run.out, run.err, answers) == (0, SERVE_OUT, said, [ANSWERS]), run)

    call = b'{"op":"call","proc":"add","args":[0,10]}\nhello\n'
    run, answers, said = served(tests, [lines, call], "--trail", "served.json")
    told = [ANSWERS, '{"call":1,"reply":[18]}\n{"error":[901]}\n']
    left = '{"order":[0,1]}\n{"parents":[0],"records":[[18,0,0,0,0,0,0,0]]}\n'
    tests.check("two connections", (run.status, run.out, run.err, answers) == (0, left, said, told), run)
    tests.answers("the trail of two connections", ["audit", "served.json"], 0, '{"order":[0,1]}\n', "")

    run, answers, said = served(tests, [lines], "--trail", "nowhere/there is none")
    holds = run.status == 3 and run.out == error_line([32]) and "can't be written" in run.err and answers == [ANSWERS]
    tests.check("a trail that can't be written, when all have ended", holds, run)
    run, _, _ = served(tests, [lines], out=FULL)
    tests.check("a server's lines that can't be printed", run.status == 3 and is_unprinted(run), run)

    with socket.socket() as taken:
        taken.bind(("127.0.0.1", 0))
        taken.listen()
        words = SERVE[:4] + [str(taken.getsockname()[1])] + SERVE[5:]
        tests.answers("a port that is taken", words, 3, error_line([33]), re.compile(r"^treedb: .*can't be opened\n\Z"))
        tests.answers("the tree is judged before the port is asked for", words[:2] + ["examples/add.asm"] + words[3:], 1,
                      error_line([106]), re.compile("^treedb: "))
        run = tests.run(*words, err=FULL)
        tests.check("a port that is taken, told to nobody", run.status == 3 and run.out == error_line([33]), run)


# ---- the pages' examples

def page_examples(tests, page, examples):
    """The page has these words and these lines, and the runs print the lines."""
    text = (TOP / page).read_text()
    for commands, lines in examples:
        printed = "".join(tests.run(*shlex.split(command)).out for command in commands)
        tests.check(f"{page}: {commands[-1]}", printed == "".join(line + "\n" for line in lines), printed)
        for part in [f"./treedb {command}" for command in commands] + lines:
            tests.check(f"{page} has {part}", part in text, "it hasn't")


def shortened(tests):
    """The trace that examples/README.md shows in part, and the whole of examples/turns.out."""
    whole = tests.path("examples/turns.out").read_text().splitlines()
    text = (TOP / "examples/README.md").read_text()
    begin, end = re.search(r'^    (\{"trace":.*),\.\.,(.*)$', text, re.MULTILINE).groups()
    tests.check("examples/README.md: the trace's begin and end", whole[0].startswith(begin) and whole[0].endswith(end), whole[0])
    for line in whole[1:]:
        tests.check(f"examples/README.md has {line}", f"    {line}\n" in text, "it hasn't")
    for words in (DRIVE, DRIVE_WITH_TRAIL):
        tests.answers(f"examples/turns.out: {words}", words, 0, "".join(line + "\n" for line in whole), "")
    tests.answers("examples/README.md: audit trail.json", ["audit", "trail.json"], 0, ORDER_OUT, "")
    trail = tests.bytes("trail.json").decode()
    tests.path("other.json").write_text(trail.replace('["l",1,1,[11,0,0,0,0,0,0,0]]', '["l",1,1,[10,0,0,0,0,0,0,0]]'))
    at = re.search(r'"error":\[713,(\d+)\]', text).group(1)
    tests.answers("a trail that no run left", ["audit", "other.json"], 1, error_line([713, at]), re.compile("^treedb: "))
    other_forms(tests, json.loads(trail), at)


def other_forms(tests, trail, at):
    """The same trail in other words: however it is written, it is read as the same, and so is one with a fault."""
    turned = dict(reversed(trail.items()))
    wrong = json.loads(json.dumps(trail).replace('["l", 1, 1, [11, 0, 0, 0, 0, 0, 0, 0]]', '["l", 1, 1, [10, 0, 0, 0, 0, 0, 0, 0]]'))
    narrow = json.dumps(trail).replace(", 0, 0, 0, 0]", "]")
    twice = json.dumps(wrong["events"])
    texts = {
        "with spaces": json.dumps(trail, indent=1),
        "with the members turned about": json.dumps(turned),
        "whose first events are written over": json.dumps(turned)[:-1] + ',"events":' + json.dumps(trail["events"]) + "}",
        "with other events before its own": '{"events":' + twice + "," + json.dumps(trail)[1:],
        "with an escape in a letter": json.dumps(trail).replace('["a",', '["\\u0061",'),
        "with records of four numbers": narrow,
        "with records of four numbers, turned about": json.dumps(dict(reversed(json.loads(narrow).items()))),
    }
    for name, text in texts.items():
        tests.path("form.json").write_text(text)
        tests.answers(f"a trail {name}", ["audit", "form.json"], 0, ORDER_OUT, "")
    for name, text in {
        "and the members turned about": json.dumps(dict(reversed(wrong.items()))),
        "and spaces": json.dumps(wrong, indent=1),
        "that is written over its events": json.dumps(trail)[:-1] + ',"events":' + twice + "}",
    }.items():
        tests.path("form.json").write_text(text)
        tests.answers(f"a trail with a fault {name}", ["audit", "form.json"], 1, error_line([713, at]), re.compile("^treedb: "))
    whole = json.dumps(trail)
    for name, text in {
        "with a member more": whole[:-1] + ',"more":0}',
        "with one record of four numbers": whole.replace(", 0, 0, 0, 0]", "]", 1),
        "with one record of eight numbers": narrow.replace(", 0, 0, 0]", ", 0, 0, 0, 0, 0, 0, 0]", 1),
        "without its end": whole[:-1],
        "with text behind it": whole + "]",
        "with two of its kind": whole + whole,
        "with a float in an event": whole.replace('["a", 0]', '["a", 0.0]'),
        "with -0 in an event": whole.replace('["a", 0]', '["a", -0]'),
        "with a number too large": whole.replace('["a", 0]', '["a", 9223372036854775808]'),
    }.items():
        tests.path("form.json").write_text(text)
        tests.answers(f"no trail: one {name}", ["audit", "form.json"], 1, error_line([701]), re.compile(r"^(form\.json:1:\d+\n)?treedb: "))


def long_trail(calls):
    """The trail of calls that one after another walk down a chain of 101 nodes."""
    text = "arity 0\nfirst n0 v0 else L9\nrep 100\nchild n1 n0 v0 else L6\nrel n0\nmove n0 n1\nend\nL6:\nrel n0\nL9:\nret\n"
    records = [[0] * 8] * 101
    events = []
    for call in range(calls):
        events += [["a", call], ["l", call, 0, records[0]]]
        for node in range(100):
            events += [["l", call, node + 1, records[0]], ["f", call, node, records[0]]]
        events += [["f", call, 100, records[0]], ["d", call]]
    tree = {"parents": [0, *range(100)], "records": records}
    return {"calls": [["walk", [], []]] * calls, "end": records, "events": events, "procs": [["walk", text]], "tree": tree}


def test_long_trails(tests):
    """A long trail is read item by item, and so in some eight bytes of addresses a byte of its text; as one value it takes over twenty."""
    without_proofs()
    calls = 1_500
    text = json.dumps(long_trail(calls), separators=(",", ":"))
    tests.path("long.json").write_text(text)
    order = '{"order":' + json.dumps([*range(calls)], separators=(",", ":")) + "}\n"
    run = tests.run("audit", "long.json", memory=12 * len(text))
    tests.check("a long trail in twelve bytes a byte", run.status == 0 and run.out == order, run)
    # So is each trail of a chain.
    for trails in (1, 2):
        chain = json.dumps([long_trail(calls // trails)] * trails, separators=(",", ":"))
        tests.path("long.json").write_text(chain)
        orders = json.dumps({"orders": [[*range(calls // trails)]] * trails}, separators=(",", ":")) + "\n"
        run = tests.run("audit", "long.json", memory=12 * len(chain))
        tests.check(f"a long chain of {trails} in twelve bytes a byte", run.status == 0 and run.out == orders, run)


def bounds_table(tests):
    """Each text of the examples has the bounds that their page's table says."""
    page = (TOP / "examples/README.md").read_text()
    rows = re.findall(r"^\| `(\w+\.asm)` \| (\d+) \| (\d+) \| (\d+) \|$", page, re.MULTILINE)
    texts = sorted(path.name for path in (TOP / "examples").glob("*.asm"))
    tests.check("the table has each text", sorted(row[0] for row in rows) == texts, rows)
    for text, steps, locks, emits in rows:
        tests.run("asm", f"examples/{text}", "row.tlp")
        tests.answers(f"bounds of {text}", ["verify", "row.tlp"], 0,
                      f'{{"bounds":{{"emits":{emits},"locks":{locks},"steps":{steps}}}}}\n', "")
        shown = tests.run("dis", "row.tlp")
        tests.path("again.asm").write_text(shown.out)
        tests.run("asm", "again.asm", "again.tlp")
        same = tests.bytes("again.tlp") == tests.bytes("row.tlp") != b""
        tests.check(f"{text} shown and assembled again", shown.status == 0 and same, shown)


def containers(tests):
    """The containers of the examples are those of their texts, and the bytes that their page shows."""
    page = (TOP / "examples/README.md").read_text()
    shown = re.findall(r"((?:^    (?:[0-9A-F]{2} ){8} .*\n)+)", page, re.MULTILINE)
    for name, block in zip(("add", "walk"), shown, strict=True):
        stored = tests.bytes(f"examples/{name}.tlp")
        tests.check(f"bytes of {name} on the page",
                    bytes.fromhex("".join(line[:28] for line in block.splitlines())) == stored, block)
        tests.run("asm", f"examples/{name}.asm", "same.tlp")
        tests.check(f"container of {name}", tests.bytes("same.tlp") == stored, name)


def second_version(tests):
    """A container migrates by its fourth byte, and once; a tree's records get eight fields."""
    old = tests.bytes("examples/walk.tlp")
    tests.answers("migrate", MIGRATE, 0, COUNT_OUT, "")
    new = tests.bytes("walk-2.tlp")
    tests.check("a migrated container", new == old[:3] + b"2" + old[4:], new)
    tests.answers("migrate again", ["migrate", "walk-2.tlp", "walk-3.tlp"], 1, error_line([207]), re.compile("^treedb: "))
    shown = [tests.run("dis", name).out for name in ("examples/walk.tlp", "walk-2.tlp")]
    tests.check("the text of a migrated container", shown[1] == "version 2\n" + shown[0], shown)
    wide = '{"parents":[0],"records":[[5,0,0,0,0,0,0,0]]}\n'
    tests.answers("widen", WIDEN, 0, '{"nodes":1}\n', "")
    tests.check("a widened tree", tests.bytes("wide.json").decode() == wide, wide)
    tests.answers("widen again", ["widen", "wide.json", "wider.json"], 0, '{"nodes":1}\n', "")
    tests.check("a widened tree once more", tests.bytes("wider.json").decode() == wide, wide)
    tests.path("turns.asm").write_text("version 2\narity 1\nrepv v0 10\nemit v0\nend\nret\n")
    tests.answers("asm of version 2", ["asm", "turns.asm", "turns.tlp"], 0, '{"count":4}\n', "")
    for argument, reply, steps in ((3, [3] * 3, 8), (-5, [], 2), (99, [99] * 10, 22)):
        answer = json.dumps({"reply": reply, "steps": steps}, separators=(",", ":"))
        tests.answers(f"repv of {argument}", ["alone", "--tree", "wide.json", "--proc", "turns.tlp", "--args", f"[{argument}]"], 0,
                      answer + "\n" + wide, "")


def files_of(folder):
    return {str(path): path.read_bytes() for path in folder.rglob("*") if path.is_file()}


def test_examples(tests):
    before = files_of(tests.path("examples"))
    add = "alone --tree examples/one-node.json --proc examples/add.tlp --args '[0,3]'"
    walk = "--tree examples/three-nodes.json --proc"
    walked = ['{"reply":[7],"steps":15}', '{"parents":[0,0,1],"records":[[0,0,0,0,0,0,0,0],[0,0,0,0,0,0,0,0],[7,0,0,0,0,0,0,0]]}']
    page_examples(tests, "examples/README.md", [
        ([add], ALONE_OUT.splitlines()), ([f"alone {walk} examples/walk.tlp --args '[0]'"], walked),
        ([" ".join(RUN)], RUN_OUT.splitlines())])
    for node, steps in ((2, 7), (3, 2), (-1, 2)):
        run = tests.run(*shlex.split(f"alone {walk} examples/walk.tlp --args '[{node}]'"))
        tests.check(f"walk from {node}", run.status == 0 and f'"steps":{steps}}}' in run.out, run)
    shortened(tests)
    bounds_table(tests)
    containers(tests)
    second_version(tests)
    after = files_of(tests.path("examples"))
    tests.check("no command changes the files that it reads", before == after, sorted(after))


# ---- memory

def is_silent(run):
    """Memory was refused for the command line: status 4, and nothing is printed."""
    return run.status == 4 and run.out == run.err == ""


def is_memory(run):
    """Memory was refused for what the command does: status 4, one of memory's numbers, and a line for people."""
    told = re.fullmatch(r'\{"error":\[[1-9]90\]\}\n', run.out) and re.fullmatch(r"treedb: .*\n", run.err)
    return run.status == 4 and told is not None


def is_same(run, plain):
    """The run comes to the same, or it tells of an admission that memory was refused for it."""
    return run.status == 0 and (run.out == plain.out or re.search(r'\["x",690\]|"error":\[[68]90\]', run.out) is not None)


def refuse_each(tests, library, words):
    """Each allocation of a command is refused in turn, alone and with all behind it, until nothing is refused any more."""
    plain = tests.run(*words)
    for all_from in (False, True):
        reads_words, number = True, 0
        while True:
            number += 1
            run, was_refused = refusing.refused(library, number, all_from, functools.partial(tests.run, *words))
            if not was_refused:
                break
            # The command line's memory comes first, and the command's behind it.
            reads_words = reads_words and not is_memory(run)
            holds = is_same(run, plain) or (is_silent(run) if reads_words else is_memory(run))
            tests.check(f"{words}: allocation {number} refused{' and all behind' * all_from}", holds, run)
            if number == 1:
                tests.check(f"{words}: the first allocation is the command line's", is_silent(run), run)
        tests.check(f"{words}: the command's memory was refused too", not reads_words, run)
        tests.check(f"{words}: nothing is refused", run.status == 0 and run.out == plain.out, run)


def test_memory(tests):
    library = refusing.library(tests.folder)
    before(tests)
    # Each of the commands writes files of its own.
    at_once(functools.partial(refuse_each, tests, library), COMMANDS)


def before(tests):
    """Makes the files that `COMMANDS` name."""
    tests.run(*DRIVE[:3], "--trail", "clean.json", DRIVE[3])
    tests.path("bare.json").write_text('{"calls":[["look",[0]]]}')
