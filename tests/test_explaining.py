"""Tests `audit --explain`: each fault of a trail is told in words, with what stands there and what should."""

import copy
import json

DRIVE = ["drive", "--tree", "examples/fork.json", "--trail", "trail.json", "examples/turns.json"]
ZERO, TEN, ELEVEN, TWELVE = ([value, 0, 0, 0, 0, 0, 0, 0] for value in (0, 10, 11, 12))


def with_event(at, *events):
    """Changes a trail: these events stand in the place of as many from the one of that number on."""
    def change(trail):
        trail["events"][at:at + len(events)] = events
    return change


def without_event(at):
    def change(trail):
        del trail["events"][at]
    return change


def with_reply(call, reply):
    def change(trail):
        trail["calls"][call][2] = reply
    return change


def with_end(node, record):
    def change(trail):
        trail["end"][node] = record
    return change


def with_argument(call, value):
    def change(trail):
        trail["calls"][call][1] = [value]
    return change


# A change of the trail, the numbers of its first fault, and the sentence.
FAULTS = [
    (with_event(4, ["a", 2]), [711, 4], "event 4 admits call 2: calls are numbered in the order of their admissions, and the next one is call 1"),
    (without_event(4), [711, 4], "event 4 has call 1 lock node 1: it has to be admitted before"),
    (with_event(8, ["f", 1, 1, ELEVEN]), [711, 8], "event 8 has call 1 free node 1: it has ended before"),
    (with_event(3, ["l", 0, 1, TEN]), [711, 3], "event 3 has call 0 lock node 1: it locked that node at event 2, and a call locks a node once"),
    (with_event(6, ["l", 1, 2, [20, 0, 0, 0, 0, 0, 0, 0]]), [711, 6],
     "event 6 has call 1 lock node 2: it doesn't hold node 0, the parent, and only the first lock of a call may be at any node"),
    (with_event(3, ["f", 0, 2, ELEVEN]), [711, 3], "event 3 has call 0 free node 2: it doesn't hold that node"),
    (with_event(6, ["d", 1]), [711, 6], "event 6 ends call 1: it still holds node 1, and has to free it first"),
    (with_event(3, ["f", 0, 0, ZERO], ["d", 0]), [711, 4], "event 4 ends call 0: it still holds node 1, and has to free it first"),
    (without_event(3), [712, 4], "event 4 has call 1 lock node 1: call 0 has held it since event 2, and has to free it first"),
    (with_event(5, ["l", 1, 1, TWELVE]), [713, 5],
     "event 5 has call 1 lock node 1: it finds [12,0,0,0,0,0,0,0], but [11,0,0,0,0,0,0,0] was left there, at event 3"),
    (with_event(2, ["l", 0, 1, TWELVE]), [713, 2],
     "event 2 has call 0 lock node 1: it finds [12,0,0,0,0,0,0,0], but nothing was left there before, and the tree opens with [10,0,0,0,0,0,0,0]"),
    (with_argument(1, 2), [714, 1],
     "call 1 is of look with [2]: the procedure, run alone on the records that the call found, locks or frees other nodes, or leaves other records"),
    (without_event(15), [715, 0], "call 0 is of both with [11]: no event ends it"),
    (with_end(1, TEN), [716, 1], "node 1 has [10,0,0,0,0,0,0,0] in the end, but [11,0,0,0,0,0,0,0] was left there, at event 6"),
    (with_reply(0, [21]), [717, 0],
     "call 0 is of both with [11]: the trail says that it answered [21], and the procedure, run alone on the records that the call found, answers something else"),
]


def error(numbers):
    return json.dumps({"error": numbers}, separators=(",", ":")) + "\n"


def explained(tests, name, value, numbers, sentence, *before):
    """The file isn't clean: with `--explain` people are told the sentence, and the answer is the one that is given without."""
    tests.path("changed.json").write_text(json.dumps(value))
    words = [*before, "changed.json"]
    plain, told = tests.run("audit", *words), tests.run("audit", "--explain", *words)
    tests.check(f"{name}: the answer", (told.status, told.out) == (plain.status, plain.out) and told.status == 1 and told.out.endswith(error(numbers)), told)
    tests.check(f"{name}: the sentence", f"treedb: {sentence}\n" in told.err.splitlines(True), told.err)
    tests.check(f"{name}: nothing else", "".join(told.err.split(f"treedb: {sentence}\n")) == plain.err, told.err)


def made(tests):
    tests.run(*DRIVE)
    return json.loads(tests.bytes("trail.json"))


def test_faults(tests):
    """Each fault of a trail."""
    trail = made(tests)
    for change, numbers, sentence in FAULTS:
        other = copy.deepcopy(trail)
        change(other)
        explained(tests, str(numbers), other, numbers, sentence)


def test_clean(tests):
    """A clean trail has nothing to explain."""
    made(tests)
    tests.answers("clean", ["audit", "--explain", "trail.json"], 0, '{"order":[2,0,1]}\n', "")


def next_of(trail):
    """A trail without calls that goes on where this one ends."""
    tree = copy.deepcopy({"parents": trail["tree"]["parents"], "records": trail["end"]})
    return {**copy.deepcopy(trail), "calls": [], "events": [], "tree": tree}


def test_chain(tests):
    """A trail of a chain that doesn't take over, and one that has a fault."""
    trail = made(tests)
    other = next_of(trail)
    other["tree"]["records"][1] = other["end"][1] = TWELVE
    explained(tests, "another record", [trail, other], [718, 1],
              "node 1 opens with [12,0,0,0,0,0,0,0], and the trail before ends with [11,0,0,0,0,0,0,0]")
    other = next_of(trail)
    other["tree"]["parents"][2] = 1
    explained(tests, "another parent", [trail, other], [718, 1], "a node has another parent than in the trail before")
    other = next_of(trail)
    del other["procs"][0]
    explained(tests, "a procedure less", [trail, other], [718, 1], "its procedures don't begin with all procedures of the trail before")
    other = next_of(trail)
    other["procs"][0][1] = other["procs"][1][1]
    explained(tests, "another code", [trail, other], [718, 1], "its procedures don't begin with all procedures of the trail before")
    faulty = copy.deepcopy(trail)
    with_event(6, ["d", 1])(faulty)
    explained(tests, "a fault within", [faulty, next_of(trail)], [719, 0, 711, 6], "event 6 ends call 1: it still holds node 1, and has to free it first")


def test_files(tests):
    """Of several files the one that doesn't take over is named."""
    trail = made(tests)
    other = next_of(trail)
    for part in (other["tree"]["records"], other["end"]):
        part.pop()
    other["tree"]["parents"].pop()
    explained(tests, "a node less", other, [718, 0], "its tree has 2 nodes, and that of the trail before has 3", "trail.json")
