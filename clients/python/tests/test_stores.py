from __future__ import annotations

import contextlib
import pathlib
import sqlite3
import tempfile
import unittest

from treedb import write_names

PARENTS, NAMES = [0, 0, 1, 1], ["", "north", "aisle 1", "aisle 2"]
TABLES = "create table node(number integer primary key, parent integer not null, epoch integer not null); create table name(node integer primary key, path text not null)"


class NamesInAStore(unittest.TestCase):
    def setUp(self):
        folder = tempfile.TemporaryDirectory()
        self.addCleanup(folder.cleanup)
        self.store = pathlib.Path(folder.name) / "a #1?.db"
        with contextlib.closing(sqlite3.connect(self.store)) as base, base:
            base.executescript(TABLES)
            base.executemany("insert into node values (?, ?, 0)", enumerate(PARENTS))

    def stored(self):
        with contextlib.closing(sqlite3.connect(self.store)) as base:
            return base.execute("select node, path from name order by node").fetchall()

    def test_paths_in_the_place_of_those_before(self):
        self.assertEqual(write_names(self.store, ["", "south"]), 2)
        self.assertEqual(self.stored(), [(0, ""), (1, "south")])
        self.assertEqual(write_names(str(self.store), NAMES), 4)
        self.assertEqual(self.stored(), [(0, ""), (1, "north"), (2, "north/aisle 1"), (3, "north/aisle 2")])

    def test_a_node_without_a_name(self):
        self.assertEqual(write_names(self.store, ["", "north", "", "aisle 2"]), 3)
        self.assertEqual(self.stored(), [(0, ""), (1, "north"), (3, "north/aisle 2")])

    def test_what_is_refused_changes_nothing(self):
        write_names(self.store, NAMES)
        before = self.stored()
        for names, said in (([*NAMES, "aisle 3"], "5 names for 4 nodes"), (["", "north", "a", "a"], "one path")):
            with self.assertRaisesRegex(ValueError, said):
                write_names(self.store, names)
        with contextlib.closing(sqlite3.connect(self.store)) as other:
            other.execute("begin exclusive")
            with self.assertRaisesRegex(ValueError, "locked"):
                write_names(self.store, ["", "south"], patience=0)
        self.assertEqual(self.stored(), before)

    def test_no_store(self):
        missing = self.store.with_name("missing.db")
        with self.assertRaises(ValueError):
            write_names(missing, NAMES)
        self.assertFalse(missing.exists())
