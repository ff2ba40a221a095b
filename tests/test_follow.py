"""Tests followers: what a server stored is told behind each position, each row once, over seals, growths, volumes and starts; and answers that wait for a follower."""

import json
import select
import sqlite3
import time

from running import Threads
from serving import ADD, Peer, serving
from test_store import batch, call, lines, reply
from test_volumes import again, asked, end, made, turn, volumes

SOCKET = "followers"
FOLLOW = ("--follow-socket", SOCKET)
# The tables of a store that grow, in the order of a position, and their columns.
GROWING = {"node": "parent, epoch", "procedure": "name, hex(container)", "call": "epoch, number, procedure, arguments, key", "turn": "epoch, hex(calls)", "reply": "epoch, call, reply",
           "seal": "procedures, calls, turns, replies"}
KEYS = {"node": "number", "procedure": "number", "seal": "epoch"}
FIELDS = ", ".join(f"f{field}" for field in range(8))
SEAL = json.dumps({"op": "seal"})


class Follower(Peer):
    """A follower, which has what it was told."""

    def __init__(self, tests, at=None, op="follow"):
        super().__init__(tests.path(SOCKET))
        self.at, self.records, self.op = at, None, op

    def next(self, wait=0):
        answer = json.loads(self.ask(json.dumps({"from": self.at, "op": self.op, "records": self.records, "wait": wait})))
        if "to" in answer:
            if self.at is not None and self.at[0] != answer["to"][0]:
                # Seals are counted anew in each volume.
                self.records = None
            self.at = answer["to"]
            if answer["record"] is not None:
                self.records = self.at[6]
        return answer

    def all(self):
        """All that is stored behind the position, volume by volume."""
        told = {}
        while True:
            at, answer = self.at, self.next()
            of = told.setdefault(answer["to"][0], {table: [] for table in GROWING} | {"opening": None, "record": None})
            for table in GROWING:
                of[table] += answer[table]
            for table in ("opening", "record"):
                of[table] = of[table] if answer[table] is None else answer[table]
            if self.at == at:
                return told


def stored(tests, file):
    """The rows of a store's file, as followers are told them."""
    with sqlite3.connect(f"file:{tests.path(file)}?mode=ro&immutable=1", uri=True) as database:
        def rows(columns, table, key):
            return [list(row) for row in database.execute(f"select {columns} from {table} order by {key}")]
        found = {table: rows(columns, table, KEYS.get(table, "id")) for table, columns in GROWING.items()}
        for table, column in (("procedure", 1), ("turn", 1)):
            found[table] = [[*row[:column], row[column].lower()] for row in found[table]]
        return found | {"opening": rows(FIELDS, "opening", "node"), "record": rows(FIELDS, "record", "node")}


def test_rows(tests):
    """What a follower is told is what stands in the file in the end: calls, keys, seals, growths, and procedures that are replaced."""
    with serving(tests, "--store", "things.db", *FOLLOW, connections=None) as server:
        follower = Follower(tests)
        first = follower.next()
        tests.same("the store's beginning", (first["node"], first["opening"], first["call"]), ([[0, 0]], [[5, 0, 0, 0, 0, 0, 0, 0]], []))
        told = {table: list(first[table]) for table in GROWING}
        for number in range(4):
            asked(server, *([ADD] if number == 0 else []), call(0, number), batch(2), json.dumps({"op": "grow", "parents": [0, number]}), SEAL, call(0, 1))
            while True:
                at, answer = follower.at, follower.next()
                for table in GROWING:
                    told[table] += answer[table]
                if follower.at == at:
                    break
        end(tests, server, "the server's end")
    found = stored(tests, "things.db")
    # The end seals.
    for table in GROWING:
        tests.same(f"rows of {table}", told[table], found[table][: len(told[table])])
    tests.same("all calls", told["call"], found["call"])
    with again_in_file(tests) as server:
        everything = Follower(tests).all()
        tests.same("all of it from the start on", everything[0], found | {"record": found["record"]})
        end(tests, server, "the second end")


def again_in_file(tests, *words):
    return serving(tests, "--store", "things.db", *FOLLOW, *words, connections=None, tree=None)


def test_each_position(tests):
    """Behind each position that a follower was at comes the rest, and nothing twice."""
    with serving(tests, "--store", "things.db", *FOLLOW, connections=None) as server:
        asked(server, ADD, *(line for number in range(5) for line in (call(0, number), SEAL)))
        follower, positions = Follower(tests), []
        while not positions or positions[-1] != follower.at:
            positions.append(follower.at)
            follower.next()
        whole = Follower(tests).all()[0]
        for at in positions[1:]:
            rest = Follower(tests, at).all()[0]
            tests.same(f"behind {at}", [rest[table] for table in GROWING], [whole[table][count:] for table, count in zip(GROWING, at[1:])])
        end(tests, server, "the end")


def test_over_volumes(tests):
    """A follower goes from a closed volume into the next one; one that comes late begins with the first that is there."""
    with made(tests, *FOLLOW) as server:
        asked(server, ADD, call(0, 3))
        follower = Follower(tests)
        told = follower.all()
        turn(tests, server)
        asked(server, call(0, 4))
        turn(tests, server)
        asked(server, call(0, 5))
        behind = follower.all()
        tests.same("the volumes that it was told of", (list(told), list(behind)), ([0], [0, 1, 2]))
        tests.same("their replies", [rows["reply"] for rows in behind.values()], [[], [[0, 0, "[12]"]], [[0, 0, "[17]"]]])
        tests.same("a later one begins with the tree", (behind[2]["opening"], behind[2]["node"]), ([[12, 0, 0, 0, 0, 0, 0, 0]], [[0, 0]]))
        for number, rows in Follower(tests).all().items():
            if number != volumes(tests)[-1]:
                tests.same(f"volume {number} is what stands in its file", rows, stored(tests, f"things/{number}.db"))
        end(tests, server, "the end")
    (tests.path("things") / "0.db").unlink()
    with again(tests, *FOLLOW) as server:
        tests.check("one that comes late", 0 not in Follower(tests).all(), volumes(tests))
        tests.same("a volume that isn't there", Follower(tests, [0] * 7).next(), {"error": [1021]})
        end(tests, server, "its end")


def test_waiting(tests):
    """A follower waits for what comes, but not for longer than it says."""
    with serving(tests, "--store", "things.db", *FOLLOW, connections=None) as server:
        asked(server, ADD)
        follower = Follower(tests)
        follower.all()
        began = time.monotonic()
        tests.same("nothing comes", follower.next(300)["call"], [])
        waited = time.monotonic() - began
        tests.check("it waited", waited >= 0.3, waited)
        answers = []
        threads = Threads((lambda: answers.append(follower.next(1000)),))
        time.sleep(0.1)
        asked(server, call(0, 1))
        threads.join()
        tests.same("what came", [row[2:4] for row in answers[0]["call"]], [["add", "[0,1]"]])
        end(tests, server, "the end")


def test_refused(tests):
    """Lines of other forms, positions of no store, and a server that stores nothing."""
    with serving(tests, "--store", "things.db", *FOLLOW, connections=None) as server:
        follower = Peer(tests.path(SOCKET))
        for line in ("{}", "no", json.dumps({"from": [0] * 6, "op": "follow", "records": None, "wait": 0}), json.dumps({"from": None, "op": "follow", "records": -1, "wait": 0}),
                     json.dumps({"from": None, "op": "call", "records": None, "wait": 0}), json.dumps({"from": None, "op": "follow", "records": None}), call(0, 1)):
            tests.same(f"refused {line}", follower.ask(line), lines({"error": [901]}))
        for at in ([0, 2, 0, 0, 0, 0, 0], [1, 0, 0, 0, 0, 0, 0], [0, 0, 0, 0, 0, 0, 1]):
            tests.same(f"no position {at}", Follower(tests, at).next(), {"error": [1021]})
        end(tests, server, "the end")
    run = tests.run("serve", "--tree", "examples/one-node.json", "--port", "0", "--control", "0", *FOLLOW)
    tests.same("a server that stores nothing", run.status, 2)


def comes(peer, seconds):
    """Whether something comes from the other end in that time."""
    return bool(select.select([peer.socket], [], [], seconds)[0])


def test_held(tests):
    """With --wait-for 1 an answer waits until a follower holds what it rests on; a stop ends what still waits, and nothing of it is lost."""
    with serving(tests, "--store", "things.db", *FOLLOW, "--wait-for", "1", connections=None) as server:
        peer, reader, holder = Peer(server.port), Follower(tests), Follower(tests, op="hold")
        peer.send(ADD)
        reader.all()
        tests.check("no answer while nobody holds it", not comes(peer, 0.5), "an answer came")
        holder.all()
        tests.check("an answer once it is held", "bounds" in json.loads(peer.lines.readline()), "no bounds")
        peer.send(call(0, 1))
        tests.check("the next one waits too", not comes(peer, 0.5), "an answer came")
        holder.all()
        tests.same("it comes once it is held", peer.lines.readline(), reply(0, 6))
        peer.send(call(0, 2))
        tests.check("one that nobody holds", not comes(peer, 0.3), "an answer came")
        end(tests, server, "the end")
        tests.same("its connection has ended without it", peer.rest(), "")
    tests.same("it is stored all the same", stored(tests, "things.db")["reply"], [[0, 0, "[6]"], [0, 1, "[8]"]])


def test_last_connection(tests):
    """A follower is served too that comes after the last connection: an answer there may wait for it."""
    with serving(tests, "--store", "things.db", *FOLLOW, "--wait-for", "1", "--seal", "itself", connections=1) as server:
        peer = Peer(server.port)
        peer.send(ADD)
        tests.check("no answer while nobody holds it", not comes(peer, 0.5), "an answer came")
        Follower(tests, op="hold").all()
        tests.check("an answer once it is held", "bounds" in json.loads(peer.lines.readline()), "no bounds")
        peer.close()
        tests.same("the end", server.end().status, 0)
