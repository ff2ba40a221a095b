"""Tests `treedb.testing`, and the page that shows it: its files are a project whose tests pytest runs."""

import importlib.util
import os
import subprocess
import sys

from running import PATIENCE, TOP, fixture, raises, skip
from test_guide import File, steps

from treedb.testing import Failed, Server, alone, tree_of

TEXT = "field pieces = 0;\nproc sell(shelf, amount) { lock s = node(shelf); require s.pieces >= amount; s.pieces -= amount; emit s.pieces; } else { emit -1; }\n"
TREE = tree_of({"north/shelf 1": [5], "south": [1, 2]})


@fixture
def text(tests):
    os.environ["TREEDB_PROGRAM"] = str(tests.program)
    tests.path("sell.tdb").write_text(TEXT)
    return tests.path("sell.tdb")


def test_trees(tests):
    zeros = [0] * 8
    tests.same("a tree of paths", TREE, {"parents": [0, 0, 1, 0], "records": [zeros, zeros, [5, *zeros[1:]], [1, 2, *zeros[2:]]]})
    tests.same("the root's record", tree_of({"": [7]}), {"parents": [0], "records": [[7, *zeros[1:]]]})


def test_a_call_alone(tests, text):
    tests.same("a call", alone(text, "sell", 2, 2, tree=TREE)[:1], ([3],))
    with raises(Failed, "289"):
        alone(text, "none", tree=TREE)


def test_servers(tests, text):
    with Server(text, tree=TREE) as shop:
        tests.same("calls", [shop.call("sell", 2, amount) for amount in (2, 9)], [[3], [-1]])
        with shop.client() as db:
            tests.same("another connection", db.call("sell", 3, 1).reply, [0])
        tests.same("a record", shop.record(2)[0], 3)
        tests.same("what is left", [record[0] for record in shop.stop()["records"]], [0, 0, 3, 0])
        folder = shop.folder
    tests.check("its folder is gone", not folder.exists(), folder)
    with Server(text, tree=TREE, store=True) as shop, shop.client() as db:
        tests.same("a key", [db.call_once("sell", 2, 1, key="one").reply for _ in range(2)], [[4], [4]])
        db.close()
        tests.same("a store", shop.stop()["records"][2][0], 4)


def test_servers_that_do_not_begin(tests, text):
    tests.path("wrong.tdb").write_text("proc")
    for files, tree in (([tests.path("wrong.tdb")], TREE), ([text], {"parents": [1], "records": [[0] * 8]}), ([text], tests.path("none.json"))):
        with raises(Failed, "didn't begin") as failed:
            Server(*files, tree=tree)
        tests.check("it says why", "treedb: " in str(failed[0]), failed)


def test_the_page(tests, text):
    if importlib.util.find_spec("pytest") is None:
        skip("there is no pytest")
    for step in steps((TOP / "docs/use/testing.md").read_text()):
        if isinstance(step, File):
            tests.path(step.name).write_text(step.text)
    done = subprocess.run([sys.executable, "-m", "pytest", "-q", "-p", "no:cacheprovider", "test_sell.py"], cwd=tests.folder, env={**os.environ, "PYTHONPATH": str(TOP / "clients/python")},
                          capture_output=True, text=True, timeout=PATIENCE, check=False)
    tests.check("its tests pass", done.returncode == 0 and "3 passed" in done.stdout, done.stdout)
