"""Fails the disk at its calls: the program is killed there, or the call and all behind it fail. Then the next start has to have every answer that came. The gate tries some of the calls, `fuzz/disk` each.

What a server says and how it ends is what docs/use/faults.md says: 1011 where the disk fails, 1012 where it is full, and status 3. `disk` says which calls are counted; where there is no C compiler,
these tests are skipped.
"""

import contextlib
import json
import os
import shutil
from typing import NamedTuple

import refusing
from disk import FAILURES, Disk, library
from running import Threads, at_once, chance, parametrize
from serving import ADD, NotStarted, Peer, serving
from test_store import STORE, batch, call, lines, stored

KILLED = -9
# What the record of examples/one-node.json begins with.
OPENING = 5
TEXT = "field value = 0; proc one() { emit 1; }"
OTHER = "field value = 0; proc one() { emit 2; }"
GROW = json.dumps({"op": "grow", "parents": [0, 1]})
SEAL = json.dumps({"op": "seal"})
# How many calls with a key are answered before.
KEPT = 3
# No request comes to so many calls of the disk.
MOST = 400
# The disk fails at its first call, at its last and at so many others, which are left to chance; or at each, as for `fuzz/disk`.
SOME, IS_EACH = 4, bool(os.environ.get("TREEDB_EACH_CALL"))


def keyed(key, amount=1):
    return json.dumps({**json.loads(call(0, amount)), "key": key})


def register(text):
    return json.dumps({"op": "register", "text": text})


def replace(text):
    return json.dumps({"op": "replace", "text": text})


class Request(NamedTuple):
    """The lines that are asked while the disk fails, and those that were answered before."""

    name: str
    lines: tuple
    before: tuple = ()


# A generation has one epoch, so the call behind a seal is the next one's first.
REQUESTS = [
    Request("a call", (call(0, 10),)),
    Request("a call with a key", (keyed("asked", 10),)),
    Request("a batch", (batch(10, 20, 30),)),
    Request("nodes", (GROW,)),
    Request("a text", (register(TEXT),)),
    Request("another text", (replace(OTHER),), (register(TEXT),)),
    Request("a seal and a hand-over", (SEAL, call(0, 10))),
]


class Answers:
    """What a server answered before its end: by key, by the number of a call, and what else."""

    def __init__(self):
        self.keyed, self.told = {}, []

    def take(self, line, answer):
        asked = json.loads(line)
        if not answer.endswith("\n") or "error" in json.loads(answer):
            return
        self.told.append((asked, json.loads(answer)))
        if "key" in asked:
            self.keyed[asked["key"]] = json.loads(answer)

    def sum(self):
        """What the answered calls have added."""
        amounts = [asked["args"][1] for asked, _ in self.told if asked["op"] == "call"]
        return sum(amounts) + sum(args[1] for asked, _ in self.told if asked["op"] == "batch" for _, args in asked["calls"])

    def values(self):
        """The last reply of each."""
        return [each["reply"] for asked, answer in self.told if asked["op"] in ("call", "batch") for each in answer.get("batch", [answer])]


def ask_until_the_end(server, asked, answers):
    """Asks line by line, until the server has ended the connection."""
    with contextlib.suppress(OSError):
        peer = Peer(server.port)
        for line in asked:
            answers.take(line, peer.ask(line))


def copied(tests, name, to):
    for suffix in ("", "-wal"):
        tests.path(to + suffix).unlink(missing_ok=True)
        if tests.path(name + suffix).exists():
            shutil.copyfile(tests.path(name + suffix), tests.path(to + suffix))


def ends_as_said(tests, name, run, what, also=()):
    """A server whose disk failed, or that was killed there."""
    if what == "kill":
        return tests.check(f"{name}: it is killed", run.status == KILLED, run)
    wanted = [lines({"error": [number]}) for number in (FAILURES[what], *also)]
    return tests.check(f"{name}: the status and the number", run.status == 3 and run.out in wanted, run)


def has_all(tests, name, store, answers):
    """The next start has each answer, and the store is what its calls make of it."""
    try:
        with serving(tests, "--store", store, connections=None, tree=None) as server:
            peer = Peer(server.port)
            for key, answer in answers.keyed.items():
                again = json.loads(peer.ask(keyed(key)))
                tests.check(f"{name}: the next start has the answer to {key}", again.get("reply") == answer["reply"] and "stored" in again, (again, answer))
            value = json.loads(peer.ask(call(0, 0)))["reply"][0]
            tests.check(f"{name}: the next start has what was added", value >= OPENING + answers.sum(), (value, answers.told))
            for asked, answer in answers.told:
                if asked["op"] == "grow":
                    grown = json.loads(peer.ask(call(answer["grown"] + len(asked["parents"]) - 1, 0)))
                    tests.check(f"{name}: the next start has the nodes", grown.get("reply") == [0], grown)
                if asked["op"] in ("register", "replace") and "text" in asked:
                    one = json.loads(peer.ask(json.dumps({"op": "call", "proc": "one", "args": []})))
                    wanted = [[2]] if asked["op"] == "replace" else [[1], [2]]
                    tests.check(f"{name}: the next start has the procedure", one.get("reply") in wanted, one)
            peer.close()
            server.stop()
            tests.check(f"{name}: the next start ends", server.end().status == 0, server.said)
    except NotStarted as refused:
        tests.check(f"{name}: the next start takes the store up", False, refused.run)
        return
    files = sorted(f"{store}/{path.name}" for path in tests.path(store).glob("*.db")) if tests.path(store).is_dir() else [store]
    replies = [json.loads(reply) for file in files for reply, in stored(tests, file, "select reply from reply")]
    missing = [reply for reply in answers.values() if reply not in replies]
    tests.check(f"{name}: the next start has each reply", missing == [], missing)
    run = tests.run("audit", store)
    tests.check(f"{name}: the audit", run.status == 0, run)


class Attempt(NamedTuple):
    """A run in which the disk fails at its call of that number, or kills the program: what its checks are called, and the disk and the file for a store that are its own."""

    name: str
    number: int
    what: str
    disk: Disk
    store: str


def at_its_calls(tests, built, name, what, once, is_each=IS_EACH):
    """Has `once` judge runs in which the disk fails, some at once, and say of each whether it came to that call."""
    def attempt(number, words):
        return Attempt(f"{name}, {words}", number, what, Disk(built, tests.folder, f"{what} {number}"), f"{what}-{number}.db")

    plain = attempt(MOST, f"no {what}")
    once(plain)
    count = plain.disk.calls()
    numbers = range(1, count + 1)
    tried = numbers if is_each else sorted({1, count, *chance(f"{name} {what}").sample(numbers, min(SOME, count))})
    found = at_once(once, [attempt(number, f"{what} at disk call {number} of {count}") for number in tried])
    reached = [number for number, is_reached in zip(tried, found) if is_reached]
    # The last ones may come later than the server's end is asked for.
    tests.check(f"{name}, {what}: the disk fails", 1 in reached, (count, reached))


@parametrize("requested", REQUESTS, ids=[each.name for each in REQUESTS])
def test_requests(tests, requested):
    """While a server works: each request, and the hand-over to the next generation."""
    built, before = library(tests.folder), Answers()
    with serving(tests, "--store", "before.db", "--generation", "1", connections=None) as server:
        ask_until_the_end(server, [ADD, *(keyed(f"before {number}") for number in range(KEPT)), *requested.before], before)
        server.kill()

    def once(it):
        copied(tests, "before.db", it.store)
        answers = Answers()
        answers.keyed, answers.told = dict(before.keyed), list(before.told)
        with serving(tests, "--store", it.store, "--generation", "1", connections=None, tree=None, env=it.disk.failing(it.number, it.what, later=True)) as server:
            Peer(server.port).ask(keyed("before 0"))
            it.disk.now()
            ask_until_the_end(server, requested.lines, answers)
            if it.disk.calls() < it.number:
                return False
            ends_as_said(tests, it.name, server.end(), it.what)
        has_all(tests, it.name, it.store, answers)
        return True

    for what in ("kill", *FAILURES):
        at_its_calls(tests, built, requested.name, what, once)


# How many connections ask at once, and at which calls of the disk it fails then.
CALLERS = 8
FAILING = (4, 7, 13, 20, 31)


def ask_until_it_ends(server, own, answers):
    """Asks with keys of its own, one after another, until the server has ended the connection."""
    ask_until_the_end(server, (keyed(f"{own} {number}") for number in range(2_000)), answers)


def test_many_connections(tests):
    """Of several connections whose calls share commits, none has an answer that isn't stored."""
    built = library(tests.folder)
    for what in ("kill", *FAILURES):
        for number in FAILING:
            disk, name = Disk(built, tests.folder), f"{CALLERS} connections, {what} at disk call {number}"
            for suffix in ("", "-wal"):
                tests.path(STORE + suffix).unlink(missing_ok=True)
            with serving(tests, "--store", STORE, connections=None, env=disk.failing(number, what, later=True)) as server:
                Peer(server.port).ask(ADD)
                own = [Answers() for _ in range(CALLERS)]
                threads = Threads(*[(ask_until_it_ends, server, place, answers) for place, answers in enumerate(own)])
                disk.now()
                threads.join()
                ends_as_said(tests, name, server.end(), what)
            every = Answers()
            every.keyed = {key: answer for answers in own for key, answer in answers.keyed.items()}
            every.told = [each for answers in own for each in answers.told]
            has_all(tests, name, STORE, every)


# What a file that isn't as it was written is refused with, by the server that wrote it or by the next one.
OTHER_BYTES = {1003, 1004, 1005, 1006, 1011, 1013, 1014}


def number_of(run):
    """The number with which a run ended."""
    return json.loads(run.out.splitlines()[-1])["error"][0] if run.status else 0


def said_of(tests, it, answers):
    """With which numbers an audit, a start and its calls say that a copy of the store's file isn't as it was written; none where each of them takes it."""
    read = f"read of {it.store}"
    copied(tests, it.store, read)
    said, found = {number_of(tests.run("audit", read))}, []
    try:
        with serving(tests, "--store", read, connections=None, tree=None) as server:
            with contextlib.suppress(OSError):
                peer = Peer(server.port)
                found = [peer.ask(line) for line in (*map(keyed, answers.keyed), call(0, 0))]
                peer.close()
            server.stop()
            said.add(number_of(server.end()))
    except NotStarted as refused:
        said.add(number_of(refused.run))
    told = [json.loads(line) for line in found if line.endswith("\n")]
    return said.union(answer["error"][0] for answer in told if "error" in answer) - {0}


def test_lost_writes(tests):
    """A disk that says of one write that it is done, and hasn't done it. The server says at its end that its store is another than what was run, or a reader, the next start or one of its calls says so, or all is there."""
    built = library(tests.folder)

    def once(it):
        answers = Answers()
        with serving(tests, "--store", it.store, connections=None, env=it.disk.failing(it.number, it.what, later=True)) as server:
            ask_until_the_end(server, [ADD], answers)
            it.disk.now()
            ask_until_the_end(server, [keyed("one"), call(0, 2), GROW, keyed("two")], answers)
            server.stop()
            found = number_of(server.end())
        said = {found} - {0} | said_of(tests, it, answers)
        if said:
            # What was lost may be missed by others too, as a procedure by a call.
            tests.check(f"{it.name}: what is said", said & OTHER_BYTES, said)
        else:
            has_all(tests, it.name, it.store, answers)
        return found

    def attempt(number, words):
        return Attempt(f"{words} is lost", number, "lose", Disk(built, tests.folder, f"write {number}"), f"lost-{number}.db")

    plain = attempt(MOST, "no write")
    once(plain)
    count = plain.disk.calls()
    found = at_once(once, [attempt(number, f"write {number} of {count}") for number in range(1, count + 1)])
    tests.check("a lost write is told of by the server that wrote", any(found), found)


# Where memory is refused to a server with a store: for a line, an epoch, a generation or the store.
OUT_OF_MEMORY = {190, 290, 390, 490, 690, 790, 890, 990, 1090}


def without_memory(tests, library, number, answers):
    """Whether a server on a store came to its allocation of that number, which was refused: it ends with status 4 or goes on, and the next start has every answer."""
    own, name = Answers(), f"allocation {number} of a server with a store refused"
    own.keyed, own.told = dict(answers.keyed), list(answers.told)

    def run(**named):
        try:
            with serving(tests, "--store", STORE, "--generation", "1", connections=None, tree=None, **named) as server:
                ask_until_the_end(server, [keyed("one"), call(0, 2), GROW, SEAL, keyed("two"), batch(1, 2)], own)
                server.stop()
                return server.end()
        except NotStarted as refused:
            return refused.run

    copied(tests, "before.db", STORE)
    ended, was_refused = refusing.refused(library, number, False, run)
    # Where memory is refused as the program begins, there is none for a line either.
    tests.check(f"{name}: the end", ended.status == 0 or (ended.status == 4 and (not ended.out or number_of(ended) in OUT_OF_MEMORY)), ended)
    has_all(tests, name, STORE, own)
    return was_refused


def test_without_memory(tests):
    """Each seventeenth allocation is refused, from one of the first seventeen on."""
    library, answers = refusing.library(tests.folder), Answers()
    with serving(tests, "--store", "before.db", connections=None) as server:
        ask_until_the_end(server, [ADD, keyed("before 0")], answers)
        server.kill()
    number = chance("a store without memory").randrange(1, 18)
    while without_memory(tests, library, number, answers):
        number += 17


def test_first_start(tests):
    """A first start that is broken off has made a store, or none: the next one with the same words makes it, or a start without a tree takes it up."""
    built = library(tests.folder)

    def once(it):
        if not fails_at_start(tests, it, tree="examples/one-node.json"):
            return False
        found = [start_of(tests, tree, it.store) for tree in (None, "examples/one-node.json")]
        tests.check(f"{it.name}: a store is made or none is there", any(run.status == 0 for run in found), found)
        return True

    for what in ("kill", *FAILURES):
        at_its_calls(tests, built, "a first start", what, once, is_each=IS_EACH or what == "kill")


def start_of(tests, tree, store=STORE):
    """What a server comes to that is stopped when it has started."""
    try:
        with serving(tests, "--store", store, connections=None, tree=tree) as server:
            server.stop()
            return server.end()
    except NotStarted as refused:
        return refused.run


def fails_at_start(tests, it, tree=None, reads=False):
    """Whether a start comes to that call of the disk, and then it ends as it is said."""
    try:
        with serving(tests, "--store", it.store, connections=None, tree=tree, env=it.disk.failing(it.number, it.what, reads=reads)) as server:
            # Some calls come behind the first lines that a server says.
            server.stop()
            run = server.end()
    except NotStarted as refused:
        run = refused.run
    if it.disk.calls() < it.number:
        tests.check(f"{it.name}: it isn't reached", run.status == 0, run)
        return False
    ends_as_said(tests, it.name, run, it.what)
    return True


def later_start(tests, name, end):
    """Starts on a store that has answers, which `end` has ended."""
    built, answers = library(tests.folder), Answers()
    with serving(tests, "--store", "before.db", connections=None) as server:
        ask_until_the_end(server, [ADD, *(keyed(f"before {number}") for number in range(KEPT)), batch(1, 2)], answers)
        end(server)

    def once(it):
        copied(tests, "before.db", it.store)
        if not fails_at_start(tests, it, reads=it.what == "EIO"):
            return False
        has_all(tests, it.name, it.store, answers)
        return True

    for what in ("kill", *FAILURES):
        at_its_calls(tests, built, name, what, once)


def stop(server):
    server.stop()
    server.end()


def test_start(tests):
    """A start on a store whose server was stopped in order. Of a disk that fails, reads fail too."""
    later_start(tests, "a start", stop)


def test_recovery(tests):
    """A start on a store whose server was killed."""
    later_start(tests, "a recovery", lambda server: server.kill())


def test_copies(tests):
    """A copy that doesn't become whole leaves no file of its name, and the server and its store stay as they are; after a kill the next copy has that name."""
    built, answers = library(tests.folder), Answers()
    with serving(tests, "--store", "before.db", connections=None) as server:
        ask_until_the_end(server, [ADD, *(keyed(f"before {number}") for number in range(KEPT))], answers)
        server.kill()

    def once(it):
        copied(tests, "before.db", it.store)
        folder = f"copies of {it.store}"
        copy = f"{folder}/one.db"
        tests.path(folder).mkdir()
        words = ["--store", it.store, "--snapshots", folder]
        with serving(tests, *words, connections=None, tree=None, env=it.disk.failing(it.number, it.what, later=True)) as server:
            Peer(server.port).ask(keyed("before 0"))
            it.disk.now()
            run = tests.run("snapshot", "--port", str(server.control), "one.db")
            if it.disk.calls() < it.number:
                tests.check(f"{it.name}: a copy is made", run.status == 0, run)
                return False
            judge_copy(tests, it.name, it.what, run, copy)
        if tests.path(copy).exists():
            has_all(tests, f"{it.name}: the copy", copy, answers)
            for file in tests.path(folder).iterdir():
                file.unlink()
        with serving(tests, *words, connections=None, tree=None) as server:
            run = tests.run("snapshot", "--port", str(server.control), "one.db")
            tests.check(f"{it.name}: the next copy", run.status == 0, run)
        has_all(tests, it.name, it.store, answers)
        return True

    for what in ("kill", *FAILURES):
        at_its_calls(tests, built, "a copy", what, once)


def test_carry_overs(tests):
    """A server whose disk fails, or that is killed, as it goes on in a new volume or behind that. The next start has each answer in one of the volumes, and goes on in a new one again."""
    built, before = library(tests.folder), Answers()
    with serving(tests, "--store", "before/", connections=None) as server:
        ask_until_the_end(server, [ADD, *(keyed(f"before {number}") for number in range(KEPT)), register(TEXT)], before)
        server.kill()

    def once(it):
        store = it.store.removesuffix(".db")
        shutil.copytree(tests.path("before"), tests.path(store))
        answers = Answers()
        answers.keyed, answers.told = dict(before.keyed), list(before.told)
        with serving(tests, "--store", store, connections=None, tree=None, env=it.disk.failing(it.number, it.what, later=True)) as server:
            Peer(server.port).ask(keyed("before 0"))
            it.disk.now()
            run = tests.run("volume", "--port", str(server.control))
            ask_until_the_end(server, [keyed("behind"), call(0, 10), batch(1, 2)], answers)
            if it.disk.calls() < it.number:
                tests.check(f"{it.name}: a new volume", run.status == 0, run)
                return False
            # Where a volume that wasn't begun can't be removed, the store fails, whatever the reason is.
            ends_as_said(tests, it.name, server.end(), it.what, also=[1011])
        has_all(tests, it.name, store, answers)
        with serving(tests, "--store", store, connections=None, tree=None) as server:
            tests.check(f"{it.name}: a new volume later", "reply" in Peer(server.port).ask(call(0, 0)) and tests.run("volume", "--port", str(server.control)).status == 0, server.said)
        return True

    for what in ("kill", *FAILURES):
        at_its_calls(tests, built, "a new volume", what, once)


def judge_copy(tests, name, what, run, copy):
    """What the one who asked for a copy is told where it fails."""
    if what == "kill":
        tests.check(f"{name}: nobody is told of a copy", run.out == "" or "error" in run.out, run)
        return
    told = json.loads(run.out)
    tests.check(f"{name}: the number", (run.status, told) == (3, {"error": [32]}), run)
    tests.check(f"{name}: no file has its name", not tests.path(copy).exists(), copy)
