from __future__ import annotations

import json
import pathlib
import tempfile
import unittest

import treedb
from treedb import Bounds, Client, Refused, Status

from .fake import answers, serving

BOUNDS = {"emits": 1, "locks": 2, "steps": 3}
REGISTERED = {"registered": [{"bounds": BOUNDS, "name": "two"}, {"bounds": BOUNDS, "name": "one"}]}


class Texts(unittest.TestCase):
    def setUp(self):
        folder = tempfile.TemporaryDirectory()
        self.addCleanup(folder.cleanup)
        self.folder = pathlib.Path(folder.name)

    def file(self, name, content):
        path = self.folder / name
        path.write_bytes(content.encode() if isinstance(content, str) else content)
        return path

    def test_a_text(self):
        with serving(answers(REGISTERED)) as server, Client(port=server.port) as db:
            found = db.register_text("proc é")
        self.assertEqual(list(found.items()), [("two", Bounds(3, 2, 1)), ("one", Bounds(3, 2, 1))])
        self.assertEqual(server.heard[0], {"op": "register", "text": "proc é"})

    def test_files(self):
        text, assembler, container = self.file("more.tdb", "proc"), self.file("turn.asm", "arity 0\nret\n"), self.file("add.tlp", bytes.fromhex("544c503200000001 1400000000000000"))
        told = {"bounds": BOUNDS}
        with serving(answers(REGISTERED, told, told, told)) as server, Client(port=server.port) as db:
            found = [db.register_file(text), db.register_file(str(assembler)), db.register_file(assembler, "other"), db.register_file(container)]
        self.assertEqual([list(each) for each in found], [["two", "one"], ["turn"], ["other"], ["add"]])
        self.assertEqual(found[1]["turn"], Bounds(3, 2, 1))
        self.assertEqual(server.heard[:-1], [{"op": "register", "text": "proc"}, {"op": "register", "name": "turn", "asm": "arity 0\nret\n"},
                                             {"op": "register", "name": "other", "asm": "arity 0\nret\n"},
                                             {"op": "register", "name": "add", "asm": "version 2\narity 0\nret\n"}])

    def test_files_that_are_not_sent(self):
        broken = [b"", b"TLP1", b"TLP3\0\0\0\0", b"TLP1\0\0\0\1ret", bytes.fromhex("544c503100000001 1600000000000000")]
        with serving(answers()) as server, Client(port=server.port) as db:
            for content in broken:
                with self.assertRaisesRegex(ValueError, "no container"):
                    db.register_file(self.file("wrong.tlp", content))
            with self.assertRaisesRegex(ValueError, "itself"):
                db.register_file(self.file("more.tdb", "proc"), "more")
            with self.assertRaises(UnicodeDecodeError):
                db.register_file(self.file("more.tdb", b"\xff"))
            with self.assertRaises(FileNotFoundError):
                db.register_file(self.folder / "none.tdb")
        self.assertEqual(server.heard, [{"op": "close"}])

    def test_a_refused_text_has_its_place(self):
        with serving(answers({"error": [281, 13, 18]}, {"error": [611]}, {"error": [901]})) as server, Client(port=server.port) as db:
            with self.assertRaisesRegex(Refused, r"\[281, 13, 18\].*\(line 13, column 18\)") as refused:
                db.register_text("")
            self.assertEqual((refused.exception.line, refused.exception.column), (13, 18))
            for number in (611, 901):
                with self.assertRaisesRegex(Refused, rf"\[{number}\]") as refused:
                    db.register_file(self.file("more.tdb", "proc"))
                self.assertIsNone(refused.exception.line)

    def test_a_script(self):
        made = treedb.script({"one": "arity 0\nret\n"}, [("one",), ("one", 1, 2)])
        self.assertEqual(json.loads(made), {"calls": [["one", []], ["one", [1, 2]]], "procs": [["one", "arity 0\nret\n"]]})


class ControlPorts(unittest.TestCase):
    TOLD = {"epoch": 3, "generation": 1, "calls": 9, "connections": 2, "nodes": 40, "procedures": 4, "refusals": 0, "places": 256, "browsers": 0, "volume": 0}

    def test_status(self):
        with serving(lambda line: self.TOLD) as server:
            self.assertEqual(treedb.status(port=server.port), Status(3, 1, 9, 2, 40, 4, 0, 256, 0))
        self.assertEqual(server.heard, [b"status\n"])

    def test_status_by_a_socket(self):
        with tempfile.TemporaryDirectory() as folder:
            path = str(pathlib.Path(folder, "socket"))
            with serving(lambda line: self.TOLD, path):
                self.assertEqual(treedb.status(path=path).nodes, 40)

    def test_a_server_that_does_not_tell(self):
        with serving(lambda line: {"error": [901]}) as server, self.assertRaisesRegex(Refused, "901"):
            treedb.status(port=server.port)

    def test_stop(self):
        with serving(lambda line: {"stopping": True}) as server:
            self.assertIsNone(treedb.stop(port=server.port))
        self.assertEqual(server.heard, [b"stop\n"])

    def test_volume(self):
        with serving(lambda line: {"volume": 16}) as server:
            self.assertEqual(treedb.volume(port=server.port), 16)
        self.assertEqual(server.heard, [b"volume\n"])
        with serving(lambda line: {"error": [901]}) as server, self.assertRaises(treedb.Refused):
            treedb.volume(port=server.port)

    def test_snapshot(self):
        with serving(lambda line: {"snapshot": "monday.db"}) as server:
            self.assertIsNone(treedb.snapshot("monday.db", port=server.port))
        self.assertEqual(server.heard, [b"snapshot monday.db\n"])

    def test_a_name_that_is_refused(self):
        with serving(lambda line: {"error": [1010]}) as server, self.assertRaisesRegex(Refused, "1010"):
            treedb.snapshot("monday", port=server.port)
        with serving(lambda line: {"stopping": True}) as server, self.assertRaises(ValueError):
            treedb.snapshot("monday.db\nstop", port=server.port)
        self.assertEqual(server.heard, [])

    def test_no_answer(self):
        with serving(lambda line: b"") as server, self.assertRaises(treedb.Disconnected):
            treedb.stop(port=server.port)


if __name__ == "__main__":
    unittest.main()
