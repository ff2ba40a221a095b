"""Compares the tree that a command prints, the tree that it saves and the end of its trail: they are one."""

import json

from running import TOP
from serving import ADD, CALL, Peer, serving
from test_store import STORE, lines

STOCK = "examples/stock"


def is_one(tests, name, printed, saved, trail=None):
    """The last line that is printed is the saved file, and the trail's end has its records."""
    tree = json.loads(printed.splitlines()[-1])
    tests.same(f"{name}: the saved tree is the printed one", tests.bytes(saved).decode(), lines(tree))
    if trail:
        chain = json.loads(tests.bytes(trail))
        last = chain[-1] if isinstance(chain, list) else chain
        tests.same(f"{name}: the trail ends with its records", last["end"], tree["records"])
        tests.same(f"{name}: the trail is of a tree of its form", last["tree"]["parents"], tree["parents"])
    return tree


def test_alone(tests):
    run = tests.run("alone", "--tree", "examples/one-node.json", "--proc", "examples/add.tlp", "--args", "[0,3]", "--save", "saved.json")
    tree = is_one(tests, "alone", run.out, "saved.json")
    tests.same("alone: it changed the tree", tree["records"], [[8] + [0] * 7])


def test_drive(tests):
    """Also where a call isn't done in the end."""
    moves = json.loads((TOP / "examples/turns.json").read_text())["moves"]
    for count in (len(moves), len(moves) - 1):
        tests.path("moves.json").write_text(json.dumps({**json.loads((TOP / "examples/turns.json").read_text()), "moves": moves[:count]}))
        run = tests.run("drive", "--tree", "examples/fork.json", "--trail", "trail.json", "--save", "saved.json", "moves.json")
        is_one(tests, f"drive of {count} moves", run.out, "saved.json", "trail.json")


def test_run(tests):
    words = ["run", "--tree", f"{STOCK}/tree.json", "--proc", f"{STOCK}/stock.tdb", "--trail", "trail.json", "--save", "saved.json"]
    for workers in ("1", "4"):
        run = tests.run(*words, "--workers", workers, f"{STOCK}/calls.json")
        tree = is_one(tests, f"run on {workers} workers", run.out, "saved.json", "trail.json")
        tests.check("run: it changed the tree", tree != json.loads((TOP / STOCK / "tree.json").read_text()), tree)


def asked(server, *requests):
    peer = Peer(server.port)
    for line in requests:
        peer.ask(line)
    peer.close()


def test_serve(tests):
    """Servers whose clients seal, servers that seal by themselves, and servers with a store."""
    seal, grow = json.dumps({"op": "seal"}), json.dumps({"op": "grow", "parents": [0]})
    tests.path("trails").mkdir()
    tests.path("stored").mkdir()
    for name, connections, words, requests, trail in (
        ("by hand", 1, ["--trail", "trail.json"], (ADD, CALL), "trail.json"),
        ("by hand, with a seal", 1, ["--trail", "trail.json"], (ADD, CALL, seal, CALL), "trail.json"),
        ("in a folder", None, ["--trails", "trails"], (ADD, CALL, seal, CALL, grow, CALL), "trails/1.json"),
        ("with a store", None, ["--trails", "stored", "--store", STORE], (ADD, CALL, grow, CALL, CALL), "stored/1.json"),
    ):
        with serving(tests, *words, "--save", "saved.json", connections=connections) as server:
            asked(server, *requests)
            if connections is None:
                server.stop()
            run = server.end()
        tree = is_one(tests, f"serve {name}", run.out, "saved.json", trail)
        tests.same(f"serve {name}: what the calls added", tree["records"][0][0], 5 + 3 * requests.count(CALL))
    run = tests.run("export", STORE, "trails")
    tests.check("a folder with trails is refused", run.status == 3, run)
    tests.path("exported").mkdir()
    tests.run("export", STORE, "exported")
    exported = json.loads(tests.bytes("exported/1.json"))
    last = exported[-1] if isinstance(exported, list) else exported
    tests.same("the export of the store ends with the same records", last["end"], tree["records"])
