from __future__ import annotations

import contextlib
import hashlib
import io
import json
import pathlib
import tempfile
import unittest
from typing import Any

from treedb import logs

LARGE = 2**63 - 1
TEXT = "version 2\narity 2\nret\n"


def trail(before: int, calls: list[tuple[str, list[int], list[int] | None]], after: int) -> dict[str, Any]:
    """A trail on one node."""
    return {"calls": calls, "end": [[after, *[0] * 7]], "events": [], "procs": [["add", TEXT], ["look", "ret\n"]], "tree": {"parents": [0], "records": [[before, *[0] * 7]]}}


def sum_of(value: int) -> str:
    return hashlib.sha256(f'{{"parents":[0],"records":[[{value},0,0,0,0,0,0,0]]}}\n'.encode()).hexdigest()


class Logs(unittest.TestCase):
    def setUp(self) -> None:
        made = tempfile.TemporaryDirectory()
        self.addCleanup(made.cleanup)
        self.folder = pathlib.Path(made.name)
        self.write("0.json", [trail(5, [("add", [0, 3], [8]), ("look", [0], [8])], 8), trail(8, [("add", [0, 1], [9])], 9)])
        self.write("1.json", trail(9, [("add", [0, LARGE - 9], [LARGE]), ("add", [0, 1], None)], LARGE))
        self.write("names.json", ["all"])

    def write(self, name: str, value: Any) -> None:
        (self.folder / name).write_text(json.dumps(value))

    def run_of(self, *words: str) -> tuple[int, list[Any], str]:
        out, err = io.StringIO(), io.StringIO()
        with contextlib.redirect_stdout(out), contextlib.redirect_stderr(err):
            status = logs.main([*words, str(self.folder)])
        return status, [json.loads(line) for line in out.getvalue().splitlines()], err.getvalue()

    def test_summary(self) -> None:
        status, (first, second, total), said = self.run_of("summary")
        self.assertEqual((status, said), (0, ""))
        self.assertEqual(total, {"files": 2, "epochs": 3, "calls": 5})
        data = (self.folder / "0.json").read_bytes()
        self.assertEqual(first, {"file": "0.json", "sha256": hashlib.sha256(data).hexdigest(), "epochs": 2, "calls": 3, "unfinished": 0, "procedures": {"add": 2, "look": 1}, "nodes": 1,
                                 "first_tree": sum_of(5), "last_tree": sum_of(9)})
        self.assertEqual((second["unfinished"], second["first_tree"], second["last_tree"]), (1, sum_of(9), sum_of(LARGE)))

    def test_files_that_are_missing(self) -> None:
        self.write("4.json", trail(1, [], 1))
        status, lines, said = self.run_of("summary")
        self.assertEqual((status, len(lines), said), (1, 4, "treedb-logs: between 1.json and 4.json files are missing\n"))
        (self.folder / "0.json").unlink()
        self.assertIn("the log begins with 1.json", self.run_of("summary")[2])
        self.assertEqual(self.run_of("receipt", '{"call":0}')[0], 1)

    def test_receipt(self) -> None:
        for receipt, wanted in (
            ({"call": 1}, {"file": "0.json", "trail": 0, "procedure": "look", "args": [0], "reply": [8]}),
            ({"call": 0, "epoch": 1, "reply": [9]}, {"file": "0.json", "trail": 1, "procedure": "add", "args": [0, 1], "reply": [9]}),
            ({"call": 0, "epoch": 2, "reply": [LARGE]}, {"file": "1.json", "trail": 0, "procedure": "add", "args": [0, LARGE - 9], "reply": [LARGE]}),
        ):
            self.assertEqual(self.run_of("receipt", json.dumps(receipt)), (0, [wanted], ""))
        for receipt, said in (({"call": 2}, "has 2 calls"), ({"call": -1}, "has 2 calls"), ({"call": 0, "epoch": 3}, "the log has 3 epochs"), ({"call": 0, "reply": [7]}, "another reply: [8]"), ({}, "'call'")):
            status, lines, error = self.run_of("receipt", json.dumps(receipt))
            self.assertEqual((status, lines), (1, []))
            self.assertIn(said, error)

    def test_procedures(self) -> None:
        printed = self.folder / "printed"
        for procedures, status, answers in (
            ([["add", TEXT]], 0, {"add": "the same"}),
            ([["add", TEXT], ["more", TEXT]], 0, {"add": "the same", "more": "not in the log"}),
            ([["add", TEXT + "ret\n"]], 1, {"add": "other instructions"}),
            ([["look", "ret\n"]], 1, {"add": "called, and not in the text", "look": "the same"}),
        ):
            printed.write_text(json.dumps(procedures))
            self.assertEqual(self.run_of("procedures", str(printed))[:2], (status, [answers]))

    def test_what_is_no_log(self) -> None:
        for text in ("{", "[]", "[7]", '{"calls":[]}', "7"):
            (self.folder / "1.json").write_text(text)
            status, _, said = self.run_of("summary")
            self.assertEqual(status, 1)
            self.assertIn("1.json is no log", said)
