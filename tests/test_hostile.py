"""Feeds texts of the procedure language that nobody would write to `check`, to `procs` and to a server's lines: all say the same of each, and another client's calls are answered. `fuzz/language`
goes on as long as it is let."""

import collections
import json
import random
import threading

import hostile
from serving import Peer, serving

# So many texts of this seed, each of so many bytes at most.
COUNT, SEED, BYTES = 30, "the gate's", 1_500
# So many texts that take long are compiled beside calls.
TEXTS = 20
# What a server takes: bytes of a line, and procedures.
MOST_LINE, MOST_PROCEDURES = 65_536, 256
# A procedure whose name no text has, and which counts its calls.
BESIDE = "counted_by_another_client"
BESIDE_TEXT = f"field value = 0; proc {BESIDE}() {{ lock n = node(0); n.value += 1; emit n.value; }}"
BESIDE_CALL = json.dumps({"op": "call", "proc": BESIDE, "args": []})


class Beside:
    """A client of a server that registers, and another one that calls meanwhile."""

    def __init__(self, tests, server):
        self.tests, self.server, self.names = tests, server, {BESIDE}
        self.first, self.other = Peer(self.server.port), Peer(self.server.port)
        self.first.ask(json.dumps({"op": "register", "text": BESIDE_TEXT}))
        self.counted = self.call()

    def call(self):
        """What the other client's call is answered: one more than before."""
        return json.loads(self.other.ask(BESIDE_CALL))["reply"][0]

    def asked(self, line):
        """What a line of the first client is answered, while the other one's call is answered too, and another one behind it."""
        self.first.socket.sendall(line + b"\n")
        self.called()
        answer = self.first.lines.readline()
        self.called()
        return json.loads(answer)

    def called(self):
        found, self.counted = self.call(), self.counted + 1
        self.tests.same("another client's call", found, self.counted)

    def end(self):
        self.server.stop()
        run = self.server.end()
        self.tests.check("the server ends as it should", run.status == 0, run)


def line_of(word, data):
    """The line that hands these bytes to a server: a member of JSON, whose bytes need not be UTF-8."""
    escaped = b"".join(b"\\u%04x" % byte if byte < 32 or byte in b'"\\' else bytes([byte]) for byte in data)
    return b'{"op":"%s","text":"%s"}' % (word, escaped)


def registered(judged, known):
    """What a text that is judged so, and is registered beside these names, is answered. Its names are then known."""
    taken = set(known)
    for name, _ in judged:
        if name in taken or len(taken) == MOST_PROCEDURES:
            return {"error": [611 if name in taken else 613]}
        taken.add(name)
    known |= taken
    return {"registered": told(judged)}


def replaced(judged, known):
    return {"replaced": told(judged)} if all(name in known for name, _ in judged) else {"error": [601]}


def told(judged):
    return [{**bounds, "name": name} for name, bounds in judged]


def judgement(tests, name):
    """What `check` says of a text; `procs` says the same of it, and what it prints has the same bounds."""
    checked, made = (tests.run(word, "hostile.tdb") for word in ("check", "procs"))
    for word, run in (("check", checked), ("procs", made)):
        refused = run.out.startswith('{"error":[') and run.status == 1
        tests.check(f"{name}: {word} ends with a line of JSON", run.out.count("\n") == 1 and (refused or run.status == 0 and run.out.startswith("[")), run)
    judged, procedures = json.loads(checked.out), json.loads(made.out)
    if checked.status != 0 or made.status != 0:
        tests.same(f"{name}: procs refuses what check refuses", procedures, judged)
        return judged
    tests.same(f"{name}: procs has the procedures of check", [each for each, _ in procedures], [each for each, _ in judged])
    for (_, text), (_, bounds) in [*zip(procedures, judged)][:1]:
        tests.path("hostile.asm").write_text(text)
        tests.same(f"{name}: the bounds of what procs prints", json.loads(tests.run("check", "hostile.asm").out), bounds)
    return judged


def tried(tests, beside, seed, most):
    """One text; its kind and what it came to."""
    kind, data = hostile.Hostile(random.Random(seed), most).text()
    name = f"text {seed}, {kind}, {data[:200]!r}"
    tests.path("hostile.tdb").write_bytes(data)
    judged = judgement(tests, name)
    lines = {word: line_of(word.encode(), data) for word in ("register", "replace")}
    answers = {word: beside.asked(line) for word, line in lines.items()}
    for word, wanted in (("register", registered), ("replace", replaced)):
        if len(lines[word]) > MOST_LINE:
            answer = {"error": [902]}
        elif judged == {"error": [255]}:
            answer = {"error": [903]}
        else:
            answer = judged if "error" in judged else wanted(judged, beside.names)
        tests.same(f"{name}: {word}", answers[word], answer)
    return kind, f"refused by {judged['error'][0]}" if "error" in judged else "taken"


def test_hostile_texts(tests):
    with serving(tests, connections=None) as server:
        beside = Beside(tests, server)
        came_to = collections.Counter(tried(tests, beside, f"{SEED} {number}", BYTES)[1] for number in range(COUNT))
        tests.check("some are taken, and the others are refused by many numbers", came_to["taken"] > COUNT / 10 and len(came_to) > 6, came_to)
        beside.end()


def test_calls_beside_a_compiler(tests):
    """While a first client's texts are compiled, one behind the other, another client's calls are answered, several for each text; and so are nodes that are appended, for which the server changes the generation."""
    text, answers = json.dumps({"op": "register", "text": hostile.deep(4)}), []
    with serving(tests, connections=None) as server:
        first, other = Peer(server.port), Peer(server.port)
        first.ask(json.dumps({"op": "register", "text": BESIDE_TEXT}))
        compiling = threading.Thread(target=lambda: answers.extend(json.loads(first.ask(text)) for _ in range(TEXTS)))
        compiling.start()
        grown, answered = json.loads(other.ask(json.dumps({"op": "grow", "parents": [0]}))), 0
        while compiling.is_alive():
            answered += "reply" in json.loads(other.ask(BESIDE_CALL))
        tests.same("the texts are refused", answers, [{"error": [274, 5, 2124]}] * TEXTS)
        tests.check("nodes are appended meanwhile", "grown" in grown, grown)
        # A call that waited for the compiler would be answered once a text, or twice.
        tests.check("several calls are answered for each text", answered > 4 * TEXTS, answered)
        server.stop()
        tests.check("the end", server.end().status == 0, server.said)
