from __future__ import annotations

import contextlib
import io
import json
import os
import pathlib
import stat
import subprocess
import sys
import tempfile
import unittest
from unittest import mock

from treedb import shell
from treedb.lines import History, typed
from treedb.names import Names
from treedb.shell import Shell, Where

from .fake import END, serving

DEADLINE = 60
PYTHON = pathlib.Path(__file__).resolve().parent.parent
PARENTS, NAMES = [0, 0, 1, 2, 2, 0], ["", "north", "aisle 1", "shelf 1", "shelf 2", "17"]
TEXT = """field pieces = 0;
field visits = 1;
// Sells some.
atomic proc sell(shelf, amount) { lock s = node(shelf); }
proc look() {} // proc none(x)
"""
BOUNDS = {"emits": 2, "locks": 1, "steps": 17}
TOLD = {"epoch": 3, "generation": 1, "calls": 9, "connections": 2, "nodes": 40, "procedures": 4, "refusals": 0, "places": 256, "browsers": 0, "volume": 0}


def answering(request):
    """A small server: its records have a node's number, and `sell` answers its arguments."""
    if isinstance(request, bytes):
        return {b"status\n": TOLD, b"stop\n": {"stopping": True}}.get(request, {"error": [901]})
    if request["op"] == "register" and "text" in request:
        return {"registered": [{"bounds": BOUNDS, "name": "sell"}, {"bounds": BOUNDS, "name": "look"}]}
    if request["op"] == "replace":
        return {"error": [601]}
    if request["op"] == "grow":
        return {"grown": 6}
    if request["op"] == "batch":
        return {"batch": [{"call": 0, "reply": [node, 0, 0, 0, 0, 0, 0, 0]} for _, (node,) in request["calls"]]}
    if request["op"] == "call":
        return {"error": [601]} if request["proc"] == "none" else {"call": 4, "reply": request["args"], "epoch": 1}
    return {"closed": True} if request["op"] == "close" else {"bounds": BOUNDS}


class Commands(unittest.TestCase):
    def setUp(self):
        folder = tempfile.TemporaryDirectory()
        self.addCleanup(folder.cleanup)
        self.folder = pathlib.Path(folder.name)
        self.text = self.folder / "sell.tdb"
        self.text.write_text(TEXT)

    def ran(self, *lines, is_json=False, goes_on=False, names=True, answer=answering):
        """The exit status of these commands, what they print, and what they say to people."""
        out, err = io.StringIO(), io.StringIO()
        with serving(answer) as server, contextlib.redirect_stdout(out), contextlib.redirect_stderr(err):
            it = Shell(Where(server.port), Where(server.port), Names(PARENTS, NAMES) if names else None, is_json)
            exit_status = shell.run(it, lines, goes_on)
            it.close()
        self.heard = server.heard
        return exit_status, out.getvalue(), err.getvalue()

    def test_calls(self):
        self.assertEqual(self.ran('call sell "north/aisle 1/shelf 2" 2', "call sell 1_000 -2 # a comment", "", "call look"), (0, "[4, 2]\n[1000, -2]\n[]\n", ""))
        self.assertEqual(self.ran("call sell @17 17", is_json=True), (0, '{"call":4,"reply":[5,17],"epoch":1}\n', ""))

    def test_nodes_that_are_not_there(self):
        self.assertEqual(self.ran("call sell north/aisle")[0::2], (1, "treedb-shell: no node has the path 'north/aisle'; did you mean 'north/aisle 1'?\n"))
        self.assertEqual(self.ran("call sell north", names=False)[0::2], (1, "treedb-shell: 'north' is no number, and the shell knows no names; they come by --tree and --names\n"))
        self.assertEqual(self.ran("ls", names=False)[0], 1)
        self.assertEqual(self.ran("ls 9")[0::2], (1, "treedb-shell: no node 9\n"))

    def test_the_tree(self):
        self.assertEqual(self.ran("tree north 1")[1], "1 north  [1, 0, 0, 0, 0, 0, 0, 0]\n  2 aisle 1  [2, 0, 0, 0, 0, 0, 0, 0]\n")
        self.assertEqual([line.split()[0] for line in self.ran("tree")[1].splitlines()], ["0", "1", "2", "3", "4", "5"])
        self.assertEqual(self.ran("ls 2", is_json=True)[1], '[{"node":3,"name":"shelf 1","level":0,"record":[3,0,0,0,0,0,0,0]},{"node":4,"name":"shelf 2","level":0,"record":[4,0,0,0,0,0,0,0]}]\n')
        self.assertEqual(self.ran("record 1 north")[1], "[1, 0, 0, 0, 0, 0, 0, 0]\n" * 2)
        self.assertEqual(self.ran("tree 0 deep")[0], 1)

    def test_procedures(self):
        told = "at most 17 steps, 1 locks, 2 emitted numbers\n"
        self.assertEqual(self.ran(f"register {self.text}", "procedures", "record 1"),
                         (0, f"atomic sell(shelf, amount)  {told}look()  {told}" + f"look()  {told}atomic sell(shelf, amount)  {told}" + "pieces 1, visits 0\n", ""))
        self.assertEqual(self.heard[0], {"op": "register", "text": TEXT})
        self.assertEqual(json.loads(self.ran(f"register {self.text}", is_json=True)[1]), {"sell": BOUNDS, "look": BOUNDS})
        self.assertEqual(self.ran("procedures")[0], 0)

    def test_a_text_that_is_registered_already(self):
        exit_status, out, err = self.ran(f"register {self.text}", "procedures", goes_on=True, answer=lambda request: {"closed": True} if request["op"] == "close" else {"error": [611]})
        self.assertEqual((exit_status, out), (1, "look()\natomic sell(shelf, amount)\n"))
        self.assertIn("choose another name", err)

    def test_growth(self):
        self.assertEqual(self.ran("grow south", "call sell south")[1], "6 south\n[6]\n")

    def test_the_control(self):
        self.assertEqual(self.ran("status", is_json=True), (0, json.dumps(TOLD, separators=(",", ":")) + "\n", ""))
        self.assertEqual(self.ran("status", "stop")[1].splitlines()[-2:], ["volume 0", "the server is stopping"])

    def test_what_the_server_was_not_started_for(self):
        status, _, said = self.ran("snapshot monday.db")
        self.assertEqual(status, 1)
        self.assertIn("what to do: start the server with --store and --snapshots", said)

    def test_explaining(self):
        self.assertIn("what to do: choose another name", self.ran("explain 611")[1])
        self.assertEqual([self.ran(f"explain {word}")[0] for word in ("1", "six")], [1, 1])

    def test_help(self):
        out = self.ran("help")[1]
        self.assertEqual([line.split()[0] for line in out.splitlines()], [*shell.COMMANDS])
        self.assertEqual(len(self.ran("help call")[1].splitlines()), 1)
        self.assertEqual([self.ran(line)[0] for line in ("help none", "cal sell", 'call "sell', "call", "explain 1 2")], [1] * 5)
        self.assertIn("did you mean 'call'?", self.ran("cal sell")[2])

    def test_the_first_failure_ends_it(self):
        self.assertEqual(self.ran("call none", "call look")[:2], (1, ""))
        self.assertEqual(self.ran("call none", "call look", goes_on=True)[:2], (1, "[]\n"))
        self.assertEqual(self.ran("call none", is_json=True)[1], '{"error":[601]}\n')
        self.assertEqual(self.ran("quit", "call look"), (0, "", ""))

    def test_no_server(self):
        self.assertEqual(self.ran("call look", answer=lambda request: END)[0], 3)
        it = Shell(Where(), Where(), None)
        with contextlib.redirect_stderr(io.StringIO()):
            self.assertEqual([shell.run(it, [line], False) for line in ("call look", "status")], [1, 1])

    def test_a_lost_connection_is_made_anew(self):
        left = [END, {"call": 0, "reply": [1]}]
        exit_status, out, err = self.ran("call look", "call look", goes_on=True, answer=lambda request: {"closed": True} if request["op"] == "close" else left.pop(0))
        self.assertEqual((exit_status, out), (3, "[1]\n"))
        self.assertIn("may have been done", err)

    def test_a_server_that_is_waited_for(self):
        tries = iter([shell.Unanswered("not yet"), None])
        made = shell.Client

        def client(**words):
            if (failed := next(tries, None)) is not None:
                raise failed
            return made(**words)

        with serving(answering) as server, mock.patch("treedb.shell.Client", client), contextlib.redirect_stdout(io.StringIO()) as out:
            it = Shell(Where(server.port), Where(), None, wait=DEADLINE)
            self.assertEqual((shell.run(it, ["call look"], False), out.getvalue()), (0, "[]\n"))
            it.close()

    def test_ctrl_c_while_an_answer_is_waited_for(self):
        with mock.patch("treedb.shell.Shell.client", new_callable=mock.PropertyMock, side_effect=KeyboardInterrupt):
            self.assertEqual(self.ran("call look")[0::2], (1, "treedb-shell: interrupted; a call under way may have been done\n"))


class Completion(unittest.TestCase):
    def setUp(self):
        self.shell = Shell(Where(), Where(), Names(PARENTS, NAMES))
        self.shell.learn(shell.declared_in(TEXT))

    def test_words(self):
        for line, wanted in (("ca", (0, ["call"])), ("call s", (5, ["sell"])), ("call sell no", (10, ["north"])), ("call sell north/", (10, ['"north/aisle 1'])),
                             ('call sell "north/aisle 1/', (10, ['"north/aisle 1/shelf 1', '"north/aisle 1/shelf 2'])), ("ls n", (3, ["north"])),
                             ("explain 61", (8, ["611", "612", "613"])), ("help st", (5, ["status", "stop"])), ("none n", (5, [])), ("status s", (7, []))):
            with self.subTest(line):
                self.assertEqual(self.shell.completing(line), wanted)

    def test_files(self):
        with tempfile.TemporaryDirectory() as folder:
            for name in ("one.tdb", "two words.tdb"):
                pathlib.Path(folder, name).touch()
            self.assertEqual(self.shell.completing(f"register {folder}/o")[1], [f"{folder}/one.tdb"])
            self.assertEqual(self.shell.completing(f'register "{folder}/two w')[1], [f'"{folder}/two words.tdb'])


class Lines(unittest.TestCase):
    def test_a_history(self):
        with tempfile.TemporaryDirectory() as folder:
            path = pathlib.Path(folder, "history")
            history = History(str(path))
            self.assertEqual(history.lines(), [])
            with mock.patch.dict(sys.modules, {"prompt_toolkit": None}), mock.patch("builtins.input", side_effect=["call look", KeyboardInterrupt, "", "quit", EOFError]), \
                    contextlib.redirect_stdout(io.StringIO()):
                self.assertEqual([*typed("> ", history, lambda line: (0, []))], ["call look", "", "quit"])
            self.assertEqual((history.lines(), stat.S_IMODE(path.stat().st_mode)), (["call look", "quit"], 0o600))
            History(str(path / "none")).add("nowhere")
            History("").add("nowhere")
            self.assertEqual(History("").lines(), [])


class Program(unittest.TestCase):
    def ran(self, *words, typed=""):
        done = subprocess.run([sys.executable, "-m", "treedb.shell", *words], cwd=PYTHON, input=typed, capture_output=True, text=True, timeout=DEADLINE, env={**os.environ, "TREEDB_HISTORY": ""})
        return done.returncode, done.stdout, done.stderr

    def test_standard_input_files_and_words(self):
        with serving(answering) as server, tempfile.TemporaryDirectory() as folder:
            tree, names, commands = (pathlib.Path(folder, name) for name in ("tree.json", "names.json", "commands"))
            tree.write_text(json.dumps({"parents": PARENTS, "records": [[0] * 8] * 6}))
            names.write_text(json.dumps(NAMES))
            commands.write_text("call sell 1 2\ncall sell 3\n")
            at = ("--port", str(server.port), "--tree", str(tree), "--names", str(names))
            self.assertEqual(self.ran(*at, typed="call sell north 2\n"), (0, "[1, 2]\n", ""))
            self.assertEqual(self.ran(*at, str(commands)), (0, "[1, 2]\n[3]\n", ""))
            self.assertEqual(self.ran(*at, "-c", "call none", "-c", "call look", "--keep-going", "--json"), (1, '{"error":[601]}\n{"call":4,"reply":[],"epoch":1}\n', ""))
            self.assertEqual(self.ran("--port", str(server.port), "--tree", str(tree), "-c", "ls 2")[1].splitlines()[0], "3   [3, 0, 0, 0, 0, 0, 0, 0]")

    def test_faults_of_the_command_line(self):
        self.assertEqual([self.ran(*words)[0] for words in (["--port"], ["--port", "1", "--socket", "s"], ["--tree", "none.json"], ["--names", "none.json"], ["none"])], [2] * 5)
        self.assertEqual(self.ran("--socket", "/there is no such socket", "-c", "call look")[0], 3)


if __name__ == "__main__":
    unittest.main()
