"""Tests `{"op":"replace","text":text}`: procedures in the place of those with their names, from the next generation on."""

import json

from serving import Peer, serving
from test_store import again, call, kill, made, stored

# What the record of examples/one-node.json begins with.
OPENING = 5
FIELD = "field value = 0;\n"


def adds(name, times):
    """A procedure that adds its argument so many times to a place's value, and answers what there is then."""
    return f"proc {name}(at, amount) {{\n    lock place = node(at);\n" + "    place.value += amount;\n" * times + "    emit place.value;\n}\n"


def register(*procedures):
    return json.dumps({"op": "register", "text": FIELD + "".join(procedures)})


def replace(*procedures):
    return json.dumps({"op": "replace", "text": FIELD + "".join(procedures)})


def told(server, *asked):
    peer = Peer(server.port)
    answers = [json.loads(peer.ask(each)) for each in asked]
    peer.close()
    return answers


def generation(server):
    return json.loads(server.status().out)["generation"]


def names_of(answer, member):
    return [each["name"] for each in answer.get(member, [])]


def test_the_next_generation(tests):
    """Calls before run the code from before, and calls after the other one; the other procedures, the records and the numbers of epochs go on."""
    with serving(tests, connections=None) as server:
        told(server, register(adds("add", 1), adds("other", 1)))
        before = told(server, call(0, 2))[0]
        answer, after, beside = told(server, replace(adds("add", 3)), call(0, 2), json.dumps({"op": "call", "proc": "other", "args": [0, 1]}))
        tests.check("before", before == {"call": 0, "reply": [OPENING + 2]}, before)
        tests.check("the answer", names_of(answer, "replaced") == ["add"], answer)
        tests.check("after", after == {"call": 0, "epoch": 1, "reply": [OPENING + 8]}, after)
        tests.check("another procedure", beside == {"call": 1, "epoch": 1, "reply": [OPENING + 9]}, beside)
        tests.check("the generation", generation(server) == 1, server.status())
        both = told(server, replace(adds("other", 2), adds("add", 2)), call(0, 1), json.dumps({"op": "call", "proc": "other", "args": [0, 1]}))
        tests.check("two at once", names_of(both[0], "replaced") == ["other", "add"] and [each["reply"] for each in both[1:]] == [[OPENING + 11], [OPENING + 13]], both)
        server.stop()
        tests.check("the end", server.end().status == 0, server.said)


def test_refusals(tests):
    """Nothing is replaced, and no generation ends."""
    with serving(tests, connections=None) as server:
        told(server, register(adds("add", 1)))
        refused = told(server, replace(adds("add", 2), adds("none", 1)), json.dumps({"op": "replace", "text": "proc add(at, amount) {"}), json.dumps({"op": "replace", "text": 5}), json.dumps({"op": "replace"}))
        tests.check("a name that isn't there", refused[0] == {"error": [601]}, refused)
        tests.check("a fault in the text has its place", len(refused[1]["error"]) == 3, refused)
        tests.check("other forms", refused[2:] == [{"error": [901]}] * 2, refused)
        tests.check("what was there", told(server, call(0, 1)) == [{"call": 0, "reply": [OPENING + 1]}], "")
        tests.check("the generation", generation(server) == 0, server.status())
    with serving(tests) as server:
        answer = told(server, json.dumps({"op": "replace", "text": FIELD + adds("add", 1)}))
        tests.check("where clients seal", answer == [{"error": [901]}], answer)


def test_two_at_once(tests):
    """Both of two procedures that are replaced at once are stored before that is answered."""
    with made(tests, "two.db") as server:
        told(server, register(adds("add", 1), adds("other", 1)), replace(adds("other", 3), adds("add", 2)))
        kill(server)
    with again(tests, "two.db") as server:
        answers = told(server, call(0, 1), json.dumps({"op": "call", "proc": "other", "args": [0, 1]}))
    tests.check("after a kill", [each["reply"] for each in answers] == [[OPENING + 2], [OPENING + 5]], answers)


def test_a_store(tests):
    """A store has both codes; a start takes up the latest, after a stop and after a kill, and an export runs each epoch with the code that it had."""
    with made(tests, "replaced.db") as server:
        told(server, register(adds("add", 1), adds("other", 1)), call(0, 2), replace(adds("add", 3)), call(0, 2))
        server.stop()
        tests.check("the end", server.end().status == 0, server.said)
    tests.check("its rows", stored(tests, "replaced.db", "select number, name from procedure order by number") == [(0, "add"), (1, "other"), (2, "add")], "")
    with again(tests, "replaced.db") as server:
        answers = told(server, call(0, 1), replace(adds("add", 2)))
        tests.check("after a stop", answers[0]["reply"] == [OPENING + 11], answers)
        answers = told(server, call(0, 1))
        tests.check("replaced again", answers[0]["reply"] == [OPENING + 13], answers)
        kill(server)
    with again(tests, "replaced.db") as server:
        answers = told(server, call(0, 1))
        tests.check("after a kill", answers[0]["reply"] == [OPENING + 15], answers)
        server.stop()
        tests.check("the end", server.end().status == 0, server.said)
    run = tests.run("audit", "replaced.db")
    tests.check("the audit", run.status == 0, run)
    tests.path("trails").mkdir()
    run = tests.run("export", "replaced.db", "trails")
    tests.check("the export", run.status == 0, run)
    files = sorted(file.name for file in tests.path("trails").iterdir())
    tests.check("a file for each code", len(files) == 3, files)
    run = tests.run("audit", *(f"trails/{name}" for name in files))
    tests.check("the audit of the files", run.status == 0, run)
    tests.check("it says what was replaced", run.err.splitlines() == [f"treedb: trails/{number}.json: add was replaced" for number in (1, 2)], run.err)
    for kind, paths in (("a folder", ["trails"]), ("files", [f"trails/{name}" for name in files])):
        run = tests.run("audit", "--same-procedures", *paths)
        printed = run.out.splitlines()
        tests.check(f"with --same-procedures {kind}: the second file is refused", run.status == 1 and len(printed) == 2 and printed[1] == '{"error":[720]}', run)
        tests.check(f"{kind}: it says what was replaced there", run.err.splitlines()[:1] == ["treedb: trails/1.json: add was replaced"], run.err)
    run = tests.run("audit", "--same-procedures", "trails/0.json")
    tests.check("one file alone has none before it", run.status == 0, run)
    run = tests.run("audit", "--same-procedures", "replaced.db")
    tests.check("a store is exported first", run.status == 1 and run.out == '{"error":[720]}\n', run)
