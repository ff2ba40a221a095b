from __future__ import annotations

import asyncio
import pathlib
import subprocess
import sys
import tempfile
import types
import unittest

from treedb import AsyncClient, Client
from treedb.reading import Procedure, declared_in
from treedb.stubs import stubs_of

from .fake import answers, echo, serving

DEADLINE = 60
PYTHON = pathlib.Path(__file__).resolve().parent.parent
TEXT = r"""
field pieces = 0; field visits=3;
field count = 2;   // a name that a tuple has itself
part moved(node n, amount) { n.pieces += amount; }

// Takes pieces. Says "none" \ and so on.
// Answers how many.
atomic  proc  shift(amount, from,
                    onto) { require amount >= 0; } else { emit 0; }
proc class() {} // proc hidden(x)
proc record(self, key) {}
"""


def module(source: str) -> types.ModuleType:
    made = types.ModuleType("stock")
    exec(compile(source, "stock.py", "exec"), made.__dict__)
    return made


class Reading(unittest.TestCase):
    def test_what_a_text_declares(self):
        found = declared_in(TEXT)
        self.assertEqual(found.procedures, (Procedure("shift", ("amount", "from", "onto"), True, 'Takes pieces. Says "none" \\ and so on. Answers how many.'),
                                            Procedure("class", ()), Procedure("record", ("self", "key"))))
        self.assertEqual(found.fields, {"pieces": 0, "visits": 3, "count": 2})

    def test_nothing(self):
        self.assertEqual(declared_in("").procedures, ())
        # A field whose number is computed has no name here, and never that of another one.
        self.assertEqual(declared_in("const BASE = 1;\nfield a = 1 + BASE;\nfield b = BASE;\n// field c = 4;\nfield d = 3;").fields, {"d": 3})


class Stubs(unittest.TestCase):
    def test_calls_by_names(self):
        made = module(stubs_of(declared_in(TEXT), "my-stock.tdb"))
        with serving(echo) as server, Client(port=server.port) as db:
            stock = made.MyStock(db)
            self.assertEqual(stock.shift(amount=5, from_=1, onto=2, key="k").reply, [5, 1, 2])
            self.assertEqual((stock.class_().reply, stock.record_(self_=1, key_=2).reply), ([], [1, 2]))
            with self.assertRaises(TypeError):
                stock.shift(5, 1)
        self.assertEqual(server.heard[0], {"op": "call", "proc": "shift", "args": [5, 1, 2], "key": "k"})
        self.assertIn("It is atomic.", made.MyStock.shift.__doc__)

    def test_records(self):
        made = module(stubs_of(declared_in(TEXT), "stock.tdb"))
        self.assertEqual(made.Record._fields, ("pieces", "field_1", "field_2", "visits", "field_4", "field_5", "field_6", "field_7"))
        read = {"batch": [{"call": 0, "reply": [5, 0, 0, 2, 0, 0, 0, 0]}]}
        with serving(answers({"bounds": {"emits": 8, "locks": 1, "steps": 19}}, read)) as server, Client(port=server.port) as db:
            found = made.Stock(db).record(7)
        self.assertEqual((found.pieces, found.visits), (5, 2))

    def test_asyncio(self):
        made = module(stubs_of(declared_in(TEXT), "stock.tdb", is_async=True))

        async def run(port: int) -> list[int]:
            async with await AsyncClient.connect(port=port) as db:
                return (await made.Stock(db).shift(5, 1, 2)).reply

        with serving(echo) as server:
            self.assertEqual(asyncio.run(run(server.port)), [5, 1, 2])

    def test_names_of_files(self):
        for file, kind in (("1st.tdb", "_1st"), ("none.tdb", "None_"), ("_.tdb", "Procedures")):
            self.assertTrue(hasattr(module(stubs_of(declared_in(TEXT), file)), kind), file)

    def test_the_program(self):
        def ran(*words: object):
            done = subprocess.run([sys.executable, "-m", "treedb.stubs", *map(str, words)], cwd=PYTHON, capture_output=True, text=True, timeout=DEADLINE)
            return done.returncode, done.stdout

        with tempfile.TemporaryDirectory() as folder:
            text, empty = pathlib.Path(folder, "stock.tdb"), pathlib.Path(folder, "empty.tdb")
            text.write_text(TEXT)
            empty.write_text("field pieces = 0;\n")
            self.assertEqual(ran(text), (0, stubs_of(declared_in(TEXT), "stock.tdb")))
            self.assertEqual([ran(path)[0] for path in (empty, pathlib.Path(folder, "none.tdb"))], [1, 1])


if __name__ == "__main__":
    unittest.main()
