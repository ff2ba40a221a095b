#!/usr/bin/env python3
"""A second auditor: judges trails, chains and folders of them by docs/use/formats.md, and prints what `treedb audit` prints.

    fuzz/audit.py TRAIL.. | FOLDER

It shares nothing with the product: the machine is that of `alone.py`. It takes texts of procedures that the assembler and the verifier accept, and doesn't look for faults in others.
"""

import json
import pathlib
import re
import sys

from alone import alone, assemble, wide

LEAST, GREATEST = -(2**63), 2**63 - 1
MAX_CALLS, MAX_EVENTS, MAX_REPLY, MAX_PROCEDURES, MAX_TRAILS = 4_096, 1_048_576, 32, 256, 256
USUAL_NODES, MAX_NODES = 4_096, 65_535
MEMBERS = {"calls", "end", "events", "procs", "tree"}
NAME = re.compile(r"[A-Za-z0-9_]{1,32}")


class Fault(Exception):
    """A fault, with its numbers."""

    def __init__(self, *numbers):
        super().__init__(*numbers)
        self.numbers = list(numbers)


def need(holds, *numbers):
    if not holds:
        raise Fault(*numbers)


# ---- what a text has


def is_integer(value, least=LEAST, greatest=GREATEST):
    return type(value) is int and least <= value <= greatest


def is_list(value, holds, lengths=None):
    return type(value) is list and (lengths is None or len(value) in lengths) and all(map(holds, value))


def is_record(value, widths=(4, 8)):
    return is_list(value, is_integer, widths)


def is_call(value):
    return type(value) is list and len(value) == 3 and type(value[0]) is str and is_list(value[1], is_integer) and (value[2] is None or is_list(value[2], is_integer, range(MAX_REPLY + 1)))


def is_event(value):
    if not (type(value) is list and value and value[0] in ("a", "d", "l", "f") and all(is_integer(number, 0) for number in value[1:3])):
        return False
    return len(value) == 2 if value[0] in ("a", "d") else len(value) == 4 and is_record(value[3])


def read(text):
    """The trails of a text, or the fault of its form; and whether it is a chain."""
    try:
        value = json.loads(text)
    except (ValueError, RecursionError):
        raise Fault(701) from None
    is_chain = type(value) is list
    trails = value if is_chain else [value]
    need(not is_chain or 1 <= len(trails) <= MAX_TRAILS, 701)
    return [Trail(trail) for trail in trails], is_chain


class Trail:
    """A trail whose text has no fault."""

    def __init__(self, value):
        need(type(value) is dict and set(value) == MEMBERS, 701)
        tree, calls, events, end, procs = (value[name] for name in ("tree", "calls", "events", "end", "procs"))
        need(type(tree) is dict and set(tree) == {"parents", "records"} and is_list(tree["parents"], is_integer) and is_list(tree["records"], is_record), 701)
        need(is_list(procs, lambda it: is_list(it, lambda word: type(word) is str, {2})) and is_list(calls, is_call) and is_list(events, is_event) and is_list(end, is_record), 701)
        records = [*tree["records"], *end, *(event[3] for event in events if len(event) == 4)]
        need(len({*map(len, records)}) <= 1, 701)
        self.parents, self.opening, self.end = tree["parents"], wide(tree["records"]), wide(end)
        self.check_tree()
        self.procedures = self.registered(procs)
        need(len(calls) <= MAX_CALLS, 603)
        for name, arguments, _ in calls:
            need(name in self.procedures, 601)
            need(len(arguments) == self.procedures[name][2], 501)
        self.calls = calls
        self.events = [event[:3] + [wide([event[3]])[0]] if len(event) == 4 else event for event in events]
        need(all(event[1] < len(calls) and (len(event) == 2 or event[2] < len(self.parents)) for event in events), 701)
        need(len(end) == len(self.parents) and len(events) <= MAX_EVENTS, 701)

    def check_tree(self):
        need(self.parents, 101)
        need(len(self.parents) <= Trail.nodes, 102)
        need(self.parents[0] == 0, 103)
        for node, parent in enumerate(self.parents[1:], 1):
            need(0 <= parent < node, 104, node)
        need(len(self.opening) == len(self.parents), 105)

    def registered(self, procs):
        """The codes by their names, each with its arity. That they are accepted is taken as given."""
        codes = {}
        for name, text in procs:
            words = [line.split(";")[0].split() for line in text.split("\n")]
            arity = next(int(line[1]) for line in words if line[:1] == ["arity"])
            need(NAME.fullmatch(name), 612)
            need(name not in codes, 611)
            need(len(codes) < MAX_PROCEDURES, 613)
            codes[name] = (*assemble(text), arity, ["version", "2"] in words)
        return codes


# ---- what a trail says


class Call:
    """What the events of a call say up to now."""

    def __init__(self):
        self.is_admitted = self.is_done = False
        self.held, self.locked, self.did = set(), set(), []


def judge(trail):
    """The order of a clean trail; a fault of it is raised."""
    calls, current, holder, order, admitted = [Call() for _ in trail.calls], list(trail.opening), {}, [], 0
    above = [[] for _ in trail.parents]
    for node in range(1, len(trail.parents)):
        above[node] = [trail.parents[node], *above[trail.parents[node]]]
    for at, (kind, number, *what) in enumerate(trail.events):
        call = calls[number]
        if kind == "a":
            need(number == admitted, 711, at)
            call.is_admitted, admitted = True, admitted + 1
            continue
        need(call.is_admitted and not call.is_done, 711, at)
        if kind == "d":
            need(not call.held, 711, at)
            call.is_done = True
            if number not in order:
                order.append(number)
            continue
        node, record = what
        if kind == "l":
            need(node not in call.locked and (not call.locked or trail.parents[node] in call.held), 711, at)
            need(node not in holder, 712, at)
            need(record == current[node], 713, at)
            if number not in order:
                order.insert(next((place for place, other in enumerate(order) if may_come(calls[other], node, above[node])), len(order)), number)
            call.locked.add(node)
            call.held.add(node)
            holder[node] = number
        else:
            need(node in call.held, 711, at)
            call.held.remove(node)
            del holder[node]
            current[node] = record
        call.did.append((kind, node, record))
    for number, call in enumerate(calls):
        need(call.is_done, 715, number)
    for number, call in enumerate(calls):
        check_alone(trail, number, call)
    for node, record in enumerate(trail.end):
        need(record == current[node], 716, node)
    return order


def may_come(call, node, above):
    """Whether the call may still lock the node: it hasn't, and it still holds the nearest node above that it has locked."""
    nearest = next((each for each in above if each in call.locked), None)
    return node not in call.locked and nearest in call.held


def check_alone(trail, number, call):
    """A call does what its procedure does alone, on the records that it found."""
    name, arguments, reply = trail.calls[number]
    records = [list(record) for record in trail.opening]
    for kind, node, record in call.did:
        if kind == "l":
            records[node] = list(record)
    did = []
    replied = alone(trail.procedures[name][:2], arguments, trail.parents, records, did)
    need(did == call.did, 714, number)
    need(reply == replied, 717, number)


def takes_over(trail, before, is_file):
    """Whether a trail begins where the one before ends. Between two files nodes may have been appended, and procedures replaced."""
    count, known = len(before.parents), len(before.procedures)
    if not is_file:
        return trail.parents == before.parents and trail.opening == before.end and [*trail.procedures.items()][:known] == [*before.procedures.items()]
    return (trail.parents[:count] == before.parents and trail.opening[:count] == before.end and not any(map(any, trail.opening[count:]))
            and [*trail.procedures][:known] == [*before.procedures])


def audited(text, before=None):
    """What `treedb audit` prints of a text, as a value; and its last trail. A file before it has `before` as its last one."""
    trails, is_chain = read(text)
    orders = []
    for place, trail in enumerate(trails):
        need(before is None or takes_over(trail, before, place == 0), 718, place)
        try:
            orders.append(judge(trail))
        except Fault as fault:
            if is_chain:
                raise Fault(719, place, *fault.numbers) from None
            raise
        before = trail
    return ({"orders": orders} if is_chain else {"order": orders[0]}), before


Trail.nodes = USUAL_NODES


def files_of(words):
    """The files that are named, or those of a folder, `0.json` and so on."""
    folder = pathlib.Path(words[0])
    if len(words) > 1 or not folder.is_dir():
        return [pathlib.Path(word) for word in words]
    numbers = sorted(int(path.stem) for path in folder.glob("*.json") if path.stem.isdecimal())
    return [folder / f"{number}.json" for number in range(numbers[0], numbers[-1] + 1)] if numbers else []


def main():
    words = sys.argv[1:]
    if words[:1] == ["--nodes"] and len(words) > 1:
        Trail.nodes, words = min(int(words[1]), MAX_NODES), words[2:]
    files = files_of(words) if words else []
    if not files:
        print(__doc__.split("\n\n")[1].strip(), file=sys.stderr)
        return 2
    before, is_one = None, len(files) == 1 and not pathlib.Path(words[0]).is_dir()
    for file in files:
        try:
            value, before = audited(file.read_bytes(), before)
        except Fault as fault:
            print(json.dumps({"error": fault.numbers}, separators=(",", ":")))
            return 1
        print(json.dumps(value if is_one or "orders" in value else {"orders": [value["order"]]}, separators=(",", ":")))
    return 0


if __name__ == "__main__":
    sys.exit(main())
