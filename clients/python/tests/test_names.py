from __future__ import annotations

import collections.abc
import io
import json
import pathlib
import tempfile
import unittest

from treedb import Names
from treedb.tables import read_table, shown, write_table

TABLE = "path,pieces,visits\nnorth,0,2\nnorth/aisle 1/shelf 1,7\nnorth/aisle 1/shelf 2,3,-1\n\nsouth,,5\n"
PARENTS, NAMES = [0, 0, 1, 2, 2, 0], ["", "north", "aisle 1", "shelf 1", "shelf 2", "south"]


class NamesOfNodes(unittest.TestCase):
    def setUp(self):
        self.names = Names(PARENTS, NAMES)

    def test_a_mapping_of_paths(self):
        self.assertIsInstance(self.names, collections.abc.Mapping)
        self.assertEqual((self.names["north/aisle 1/shelf 2"], self.names[""], len(self.names)), (4, 0, 6))
        self.assertEqual(("south" in self.names, "west" in self.names, self.names.get("west")), (True, False, None))
        self.assertEqual(list(self.names)[:3], ["", "north", "north/aisle 1"])
        with self.assertRaises(KeyError):
            self.names["west"]

    def test_the_path_of_a_node(self):
        self.assertEqual((self.names.path(0), self.names.path(3)), ("", "north/aisle 1/shelf 1"))
        for node in (-1, 6):
            with self.assertRaises(ValueError):
                self.names.path(node)

    def test_names_of_another_tree(self):
        for parents, names, said in (([0, 0], [""], "1 names for 2 nodes"), ([0, 0, 0], ["", "a", "a"], "one path"), ([0, 1], ["", "a"], "lower number")):
            with self.assertRaisesRegex(ValueError, said):
                Names(parents, names)

    def test_nodes_without_names(self):
        names = Names([0, 0, 1, 0], ["", "", "aisle", "south"])
        self.assertEqual(list(names), ["", "south"])

    def test_what_is_missing(self):
        self.assertEqual(self.names.missing(["north/b", "west/a/c", "west"]), [["west"], ["north/b", "west/a"], ["west/a/c"]])
        self.assertEqual(self.names.missing([]), [])

    def test_new_names_go_to_the_file(self):
        with tempfile.TemporaryDirectory() as folder:
            tree, file = pathlib.Path(folder, "tree.json"), pathlib.Path(folder, "names.json")
            tree.write_text(json.dumps({"parents": PARENTS, "records": []}))
            file.write_text(json.dumps(NAMES))
            names = Names.load(tree, file)
            names.append(6, ["north/é"])
            self.assertEqual(json.loads(file.read_text(encoding="utf-8")), [*NAMES, "é"])
            self.assertEqual(sorted(it.name for it in pathlib.Path(folder).iterdir()), ["names.json", "names.json.parents", "tree.json"])
        with self.assertRaises(ValueError):
            names.append(6, ["west"])

    def shared(self, folder: str) -> list[Names]:
        """Names of three programs, by the same files."""
        tree, file = pathlib.Path(folder, "tree.json"), pathlib.Path(folder, "names.json")
        tree.write_text(json.dumps({"parents": PARENTS, "records": []}))
        file.write_text(json.dumps(NAMES))
        return [Names.load(tree, file) for _ in range(3)]

    def test_programs_that_share_a_file(self):
        with tempfile.TemporaryDirectory() as folder:
            one, other, third = self.shared(folder)
            one.append(6, ["west"])
            self.assertEqual((other["west"], other.path(6), other.refresh()), (6, "west", False))
            self.assertEqual(third.missing(["west/a"]), [["west/a"]])
            # Node 7 is another client's, which has a file of its own.
            third.append(8, ["west/a"])
            self.assertEqual((one["west/a"], one.names[7:], one.parents[6:]), (8, ["", "a"], [0, 0, 6]))
            with self.assertRaises(KeyError):
                one["east"]
            pathlib.Path(folder, "names.json").write_text(json.dumps(["x"] * 12))
            pathlib.Path(folder, "names.json.parents").write_text(json.dumps([0] * 12))
            with self.assertRaisesRegex(ValueError, "another tree"):
                one.refresh()

    def test_one_program_adds_names_at_a_time(self):
        with tempfile.TemporaryDirectory() as folder:
            one, other, third = self.shared(folder)
            with one.turn() as turn:
                self.assertTrue(turn.is_taken())
                with other.turn() as later:
                    self.assertFalse(later.is_taken())
                    one.append(6, ["west"])
                    self.assertFalse(later.is_taken())
                    self.assertEqual(list(other)[6:], [])
            with third.turn() as turn:
                self.assertTrue(turn.is_taken(waits=True))
                self.assertEqual(list(third)[6:], ["west"])
        with self.names.turn() as turn, self.names.turn() as second:
            self.assertEqual((turn.is_taken(), second.is_taken()), (True, True))


class Tables(unittest.TestCase):
    def test_a_tree_of_a_table(self):
        tree, names = read_table(io.StringIO(TABLE))
        self.assertEqual((tree["parents"], names), (PARENTS, NAMES))
        self.assertEqual([record[:2] for record in tree["records"]], [[0, 0], [0, 2], [0, 0], [7, 0], [3, -1], [0, 5]])

    def test_a_table_of_the_tree_gives_it_again(self):
        tree, names = read_table(io.StringIO(TABLE))
        table = io.StringIO()
        write_table(table, tree, names, ["pieces", "visits"])
        table.seek(0)
        self.assertEqual(read_table(table), (tree, names))

    def test_a_node_without_a_name_is_in_no_table(self):
        with self.assertRaisesRegex(ValueError, "node 1 has no name"):
            write_table(io.StringIO(), {"parents": [0, 0], "records": [[0] * 8] * 2}, ["", ""])

    def test_a_tree_is_shown(self):
        tree, names = read_table(io.StringIO(TABLE))
        lines = list(shown(tree, names))
        self.assertEqual([lines[0], lines[3]], ["0  [0, 0, 0, 0, 0, 0, 0, 0]", "      3 shelf 1  [7, 0, 0, 0, 0, 0, 0, 0]"])
        self.assertEqual([line.split()[0] for line in shown(tree, names, 2)], ["2", "3", "4"])
        self.assertEqual(next(iter(shown(tree))), lines[0])

    def test_a_long_path(self):
        tree, _ = read_table(io.StringIO(f"path\n{'/'.join(['n'] * 3_000)}\n"))
        self.assertEqual(tree["parents"], [0, *range(3_000)])

    def test_a_name_with_signs_for_a_terminal(self):
        self.assertEqual(next(iter(shown({"parents": [0], "records": [[0]]}, ["\x1b[2J"]))), "0 \\u001b[2J  [0]")

    def test_tables_that_are_none(self):
        many = "path\n" + "".join(f"n{node}\n" for node in range(65_535))
        for text, said in (("", "the first row"), ("path\nnorth,1,2,3,4,5,6,7,8,9\n", "at most 8 fields"), ("path,a\nnorth,x\n", "no integer"),
                           ("path,a\nnorth,9223372036854775808\n", "64 bits"), ("path,a\nnorth,1\nnorth/,2\n", "stands twice"),
                           ("path,a,b,c,d,e,f,g,h,i\n", "the first row"), (many, "65535 nodes"), ("path\nnorth//a\n", "empty")):
            with self.subTest(text[:30]), self.assertRaisesRegex(ValueError, said):
                read_table(io.StringIO(text))


if __name__ == "__main__":
    unittest.main()
