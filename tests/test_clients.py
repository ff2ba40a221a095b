"""Tests the clients: their own tests, both on servers, and their packages, which install without an index.

What needs Node.js, npm or a venv with pip is skipped where there is none.
"""

import asyncio
import json
import os
import pathlib
import re
import shutil
import subprocess
import sys
import tempfile
import unittest

import treedb
import treedb.reading
from running import PATIENCE, TOP, Threads, alone, fixture, raises, skip, tool

PYTHON, JAVASCRIPT = TOP / "clients/python", TOP / "clients/javascript"
ADD = (TOP / "examples/add.asm").read_text()
THREE = "examples/three-nodes.json"
TABLE = "path,pieces,visits\nnorth,0,2\nnorth/aisle 1/shelf 1,7\nnorth/aisle 1/shelf 2,3,-1\n\nsouth,,5\n"


def left(run):
    """The records that a server left."""
    return json.loads(run.out.splitlines()[1])["records"]


def test_the_words_for_each_number_are_those_of_the_page():
    assert subprocess.run([TOP / "tools/faults", "--check"], check=False).returncode == 0


def test_the_versions():
    version = re.search(r"^## (\S+)", (TOP / "CHANGELOG.md").read_text(), re.MULTILINE)[1]
    assert (treedb.__version__, json.loads((JAVASCRIPT / "package.json").read_text())["version"]) == (version, version)


@alone
def test_the_tests_of_the_client_in_python(tests):
    """`python3 -m unittest` in clients/python, each test a check of its own."""
    suite = unittest.defaultTestLoader.discover(str(PYTHON / "tests"), top_level_dir=str(PYTHON))
    with open(os.devnull, "w") as nowhere:
        result = unittest.TextTestRunner(stream=nowhere, verbosity=0, warnings="default").run(suite)
    tests.check("there are tests", result.testsRun > len(list((PYTHON / "tests").glob("test_*.py"))), result)
    failures = result.failures + result.errors
    for test, trace in failures:
        tests.check(str(test), False, trace)
    for test, reason in result.skipped:
        print(f"skipped: {test}: {reason}")
    tests.passed += result.testsRun - len(failures) - len(result.skipped)
    tests.skipped += len(result.skipped)


# ---- the client in Python, on servers


def test_procedures_calls_and_batches(tests, server):
    it = server(tree=THREE, connections=2)
    with treedb.Client("127.0.0.1", it.port, timeout=PATIENCE) as db:
        tests.same("the bounds", db.register("add", ADD), treedb.Bounds(steps=7, locks=1, emits=1))
        tests.same("a call", db.call("add", 2, 3), treedb.Answer(0, [10], 0))
        batch = db.batch([("add", 0, 1), ("none",), ("add", 1, 4)], workers=2)
        tests.same("a batch", [batch[0].reply, batch[1].number, batch[2].reply], [[1], 601, [4]])
        tests.same("replies", db.batch([("add", 0, 0), ("add", 2, 0)]).replies(), [[1], [10]])
        tests.same("a seal", db.seal(), 0)
        tests.same("a call behind it", db.call("add", 0, 1), treedb.Answer(0, [2], 1))
    with raises(treedb.Disconnected):
        db.call("add", 0, 1)
    with treedb.Client(port=it.port) as db:
        tests.same("a record", db.read(0)[0], 2)
    tests.same("the tree", left(it.end())[0][0], 2)


def test_refusals(tests, server):
    with treedb.Client(port=server(tree=THREE, connections=1).port, timeout=PATIENCE) as db:
        db.register("add", ADD)
        with raises(treedb.Refused, r"\[611\].*registered before") as refused:
            db.register("add", ADD)
        tests.same("what to do", refused[0].advice, "choose another name")
        with raises(treedb.Refused, r"\[408, 2\].*\(line 7\)"):
            db.register("bad", "arity 0\n; a comment\n\nset v0 0\nfirst n0 v0 else out\nout:\nret\n")
        with raises(treedb.Refused, r"\[251, 2\].*\(line 2\)"):
            db.register("bad", "arity 0\nfoo\n")
        with raises(treedb.Refused, r"\[501\]"):
            db.call("add", 1)
        with raises(treedb.Refused, r"\[901\]"):
            db.grow(treedb.Names([0], [""]), ["north"])


def test_reading(tests, server):
    with treedb.Client(port=server(tree=THREE, connections=1).port, timeout=PATIENCE) as db:
        tests.same("a record", db.read(2), [7, 0, 0, 0, 0, 0, 0, 0])
        tests.same("records", [record[0] for record in db.read_all([0, 1, 2] * 100)], [0, 0, 7] * 100)
        with raises(IndexError, "no node 3"):
            db.read(3)


def test_texts_of_the_language(tests, server):
    async def run(port):
        async with await treedb.AsyncClient.connect(port=port, timeout=PATIENCE) as db:
            return [*await db.register_text("proc one() { emit 1; }")], (await db.call("one")).reply

    it = server(tree="examples/stock/tree.json", connections=None)
    with treedb.Client(port=it.port, timeout=PATIENCE) as db:
        bounds = db.register_file(tests.path("examples/stock/stock.tdb"))
        tests.same("the locks", {name: each.locks for name, each in bounds.items()}, {"shift": 5, "transfer": 9, "visit": 4, "stock": 2113})
        tests.same("a reply", db.call("shift", 10, 5, 0, 1).reply, [10])
        with raises(treedb.Refused, r"\[281, 2, 10\] the node isn't held.*\(line 2, column 10\)"):
            db.register_text("field pieces = 0; proc two(at) { lock n = node(at); free n;\n    emit n.pieces; }")
    tests.same("asyncio's", asyncio.run(run(it.port)), (["one"], [1]))
    with treedb.Client(port=server(connections=1).port, timeout=PATIENCE) as db, raises(treedb.Refused, r"\[901\]"):
        db.register_file(tests.path("examples/stock/stock.tdb"))


EVERY = """version 2
arity 8
set v0 -2147483648
copy v15 v0
add v1 v2 v3 else end
sub v1 v2 v3 else end
mul v1 v2 v3 else end
div v1 v2 v3 else end
jlt v0 v1 next
jeq v0 v1 next
next:
rep 3
repv v0 65535
end
end
jmp on
on:
first n7 v0 else end
child n0 n7 v0 else end
move n1 n0
get v0 n1 7
put n1 7 v0
kids v0 n1
emit v0
rel n1
end:
ret
"""


def test_files_of_procedures(tests, server):
    """A container is sent as the text that the program makes of it."""
    tests.path("every.asm").write_text(EVERY)
    tests.path("last.asm").write_text("arity 0\njmp end\nend:\n")
    for name in ("every", "last"):
        tests.run("asm", f"{name}.asm", f"{name}.tlp")
    for name in ("every.tlp", "last.tlp", "examples/add.tlp", "examples/walk.tlp"):
        tests.same(f"the text of {name}", treedb.texts.assembler_text(tests.bytes(name)), tests.run("dis", name).out)
    with treedb.Client(port=server(tree=THREE, connections=1).port, timeout=PATIENCE) as db:
        tests.same("a container", db.register_file(tests.path("examples/add.tlp")), {"add": treedb.Bounds(steps=7, locks=1, emits=1)})
        tests.same("an assembler text", [*db.register_file(tests.path("examples/add.asm"), "more")], ["more"])
        tests.same("calls", db.batch([("add", 2, 1), ("more", 2, 1)]).replies(), [[8], [9]])


def test_a_client_that_seals_on_a_server_that_lasts(tests, server):
    it = server(connections=None)
    with treedb.Client(port=it.port, timeout=PATIENCE, seals=True) as db:
        db.register("add", ADD)
        replies = [reply for _ in range(20) for reply in db.batch([("add", 0, 1)] * 241).replies()]
        tests.same("the replies", replies, [[6 + call] for call in range(4_820)])
        tests.same("one more", db.call("add", 0, 1).reply, [6 + 4_820])
    treedb.stop(port=it.control)
    tests.same("the tree", left(it.end())[0][0], 5 + 4_821)


def test_keys(tests, server):
    it = server("--store", "things.db", connections=None)
    with treedb.Client(port=it.port, timeout=PATIENCE) as db:
        db.register("add", ADD)
        first, again = db.call("add", 0, 1, key="one"), db.call("add", 0, 1, key="one")
        tests.same("a call, and the same again", (first, again, type(first), type(again)), (treedb.Answer(0, [6]), treedb.Recalled(0, [6], 0), treedb.Answer, treedb.Recalled))
    it.kill()
    it = server("--store", "things.db", connections=None, tree=None)
    with treedb.Client(port=it.port, timeout=PATIENCE) as db:
        tests.same("after the next start", (db.call("add", 0, 1, key="one"), db.call("add", 0, 1, key="two")), (treedb.Recalled(0, [6], 0), treedb.Answer(0, [7])))
    with treedb.Client(port=server(connections=None).port, timeout=PATIENCE) as db, raises(treedb.Refused, r"\[1015\].*no store"):
        db.call("add", 0, 1, key="one")


def test_a_call_that_is_run_once_beside_a_kill(tests, server):
    """It is asked for while no server is there, and run by the next start, once."""
    it = server("--store", "things.db", connections=None)
    with treedb.Pool(port=it.port, timeout=PATIENCE) as pool, treedb.Client(port=it.port, timeout=PATIENCE) as db:
        db.register("add", ADD)
        tests.same("a call", pool.call_once("add", 0, 1, key="one").reply, [6])
        it.kill()
        said = []
        later = Threads(*((lambda by=by: said.append(by.call_once("add", 0, 1, key="one", patience=PATIENCE)),) for by in (pool, db)))
        server("--store", "things.db", connections=None, tree=None, port=it.port)
        later.join()
        tests.same("after the next start", said, [treedb.Recalled(0, [6], 0)] * 2)
        tests.same("the record", db.read(0)[0], 6)


def python(tests, *words, typed=""):
    """The exit status of a program of the package, what it prints, and what it says to people."""
    done = subprocess.run([sys.executable, "-m", *map(str, words)], cwd=tests.folder, env={"PYTHONPATH": str(PYTHON)}, input=typed, capture_output=True, text=True, timeout=PATIENCE, check=False)
    return done.returncode, done.stdout, done.stderr


def test_the_shell(tests, server):
    tests.path("names.json").write_text(json.dumps(["", "north", "aisle 1"]))
    it = server(tree=THREE, connections=None)
    words = ["treedb.shell", "--port", it.port, "--control", it.control, "--tree", THREE, "--names", "names.json"]
    tests.same("a script", python(tests, *words, typed='register examples/add.asm\ncall add "north/aisle 1" 3\nls north\n'),
               (0, "add(..)  at most 7 steps, 1 locks, 1 emitted numbers\n[10]\n2 aisle 1  [10, 0, 0, 0, 0, 0, 0, 0]\n", ""))
    tests.same("a refusal", python(tests, *words, "--json", typed="call none\ncall add 0 1\n"), (1, '{"error":[601]}\n', ""))
    tests.same("the status", [json.loads(python(tests, *words, "--json", "-c", "status")[1])[name] for name in ("nodes", "procedures")], [3, 2])
    tests.same("growth and a stop", python(tests, *words, "-c", "grow south", "-c", "call add south 2", "-c", "stop"), (0, "3 south\n[2]\nthe server is stopping\n", ""))
    tests.same("no server", (it.end().status, python(tests, "treedb.shell", "--port", it.port, "-c", "call add 0 1")[0]), (0, 3))


def test_stubs(tests, server):
    """The module of each example's text does its calls."""
    for text in sorted(tests.folder.rglob("*.tdb")):
        made = {"__name__": "made"}
        exec(compile(python(tests, "treedb.stubs", text)[1], str(text), "exec"), made)
        tests.same(f"the procedures of {text.name}", set(treedb.reading.declared_in(text.read_text()).procedures) != set(), True)
        if text.name == "stock.tdb":
            with treedb.Client(port=server(tree="examples/stock/tree.json", connections=None).port, timeout=PATIENCE) as db:
                db.register_file(text)
                stock = made["Stock"](db)
                tests.same("a call", stock.shift(amount=10, aisle=5, from_=0, onto=1).reply, [10])
                tests.same("a record", stock.record(16).pieces, db.read(16)[0])


def test_unix_sockets(tests, server):
    async def run(path):
        async with await treedb.AsyncClient.connect(path=path, timeout=PATIENCE) as db:
            return await db.call("add", 0, 1)

    it, path, control = server(connections=None, port="socket", control="control", tree=THREE), tests.path("socket"), tests.path("control")
    with treedb.Client(path=path, timeout=PATIENCE) as db:
        db.register("add", ADD)
        tests.same("a call", db.call("add", 0, 1).reply, [1])
        tests.same("the status", treedb.status(path=control), treedb.Status(epoch=0, generation=0, calls=1, connections=1, nodes=3, procedures=1, places=256))
    tests.same("a call of asyncio's", asyncio.run(run(path)).reply, [2])
    treedb.stop(path=control)
    tests.same("the tree", left(it.end())[0][0], 2)


def test_status(tests, server):
    it = server(connections=None)
    with treedb.Client(port=it.port, timeout=PATIENCE) as db:
        db.register("add", ADD)
        db.batch([("add", 0, 1)] * 3)
        tests.same("the status", treedb.status(port=it.control), treedb.Status(0, 0, 3, 1, 1, 1, 0, 256))
    with raises(treedb.Refused, "901"):
        treedb.status(port=server(connections=1).control)


def test_asyncio(tests, server):
    async def run(port):
        async with await treedb.AsyncClient.connect(port=port, timeout=PATIENCE) as db:
            await db.register("add", ADD)
            answers = await asyncio.gather(*(db.call("add", 0, 1) for _ in range(5_000)))
            batches = await asyncio.gather(*(db.batch([("add", 0, 1)] * 100) for _ in range(20)))
            return [answer.reply[0] for answer in answers], [reply for batch in batches for reply, in batch.replies()], await db.read(0)

    calls, batched, record = asyncio.run(run(server(connections=None).port))
    tests.same("calls and batches", (calls, batched, record[0]), ([*range(6, 5_006)], [*range(5_006, 7_006)], 7_005))


def test_growth(tests, server):
    with treedb.Client(port=server(tree=THREE, connections=None).port, timeout=PATIENCE) as db:
        names = treedb.Names([0, 0, 1], ["", "north", "aisle 1"])
        tests.same("nodes on two levels", db.grow(names, ["north/aisle 2/shelf 1", "south"]), [5, 3])
        tests.same("more nodes", db.grow(names, ["west", "north/aisle 3"]), [6, 7])
        db.register("add", ADD)
        tests.same("calls", db.batch([("add", names["west"], 1), ("add", 8, 1)]).replies(), [[1], []])
        tests.same("records", [record[0] for record in db.read_all(range(8))], [0, 0, 7, 0, 0, 0, 1, 0])
        with raises(treedb.Refused, r"\[102\]"):
            db.grow(names, [f"place {number}" for number in range(4_096)])
        tests.same("the names", len(names), 8)


def test_trees_and_tables(tests):
    def run(*words):
        return python(tests, "treedb", *words)

    tests.path("goods.csv").write_text(TABLE)
    tests.same("a tree of a table", run("tree", "goods.csv", "tree.json", "names.json"), (0, "6 nodes\n", ""))
    alone = tests.run("alone", "--tree", "tree.json", "--proc", "examples/add.tlp", "--args", "[3,1]")
    tests.same("a call on it", alone.out.split("\n")[0], '{"reply":[8],"steps":7}')
    tests.same("a node of it", run("show", "tree.json", "2", "--names", "names.json")[1].split("\n")[0], "2 aisle 1  [0, 0, 0, 0, 0, 0, 0, 0]")
    tests.same("a table of it", run("table", "tree.json", "names.json", "again.csv", "--fields", "pieces,visits")[0], 0)
    tests.same("a row of that", tests.path("again.csv").read_text().split("\n")[4], "north/aisle 1/shelf 1,7,0")
    tests.same("a node that isn't there", run("show", "tree.json", "9"), (1, "", "treedb-tables: no node 9\n"))
    tests.same("a table that isn't there", run("tree", "none.csv", "t", "n")[0], 1)


# ---- the client for Node.js

# Runs where the package is: it is imported by its name.
ON_A_SERVER = """
import { Client, Refused, Disconnected } from "treedb-client";
import { readFileSync } from "node:fs";
const db = await Client.connect({ port: Number(process.argv[2]), timeout: 60_000 });
const said = [];
said.push(await db.register("add", readFileSync(process.argv[3], "utf8")));
said.push((await db.call("add", 0, 9007199254740993n)).reply.map(String));
const many = await Promise.all([db.call("add", 0, 1), db.call("add", 0, 1n)]);
said.push(many.map((it) => [it.call, String(it.reply[0]), it.epoch]));
const batch = await db.batch([["add", 0, 1], ["none"]], 2);
said.push([String(batch[0].reply[0]), batch[1] instanceof Refused, batch[1].number]);
try { await db.call("add", 1); } catch (refused) { said.push(refused.numbers); }
said.push((await db.read(0)).map(String));
said.push(await db.seal());
said.push((await db.call("add", 0, 0)).epoch);
await db.close();
try { await db.call("add", 0, 0); } catch (end) { said.push(end instanceof Disconnected); }
console.log(JSON.stringify(said));
"""
FIRST = 5 + 9_007_199_254_740_993
SAID = [{"emits": 1, "locks": 1, "steps": 7}, [str(FIRST)], [[1, str(FIRST + 1), 0], [2, str(FIRST + 2), 0]], [str(FIRST + 3), True, 601], [501],
        [str(FIRST + 3)] + ["0"] * 7, 0, 1, True]


def said_on_a_server(server, folder):
    """What the script says, run by Node.js in this folder."""
    script = pathlib.Path(folder, "script.mjs")
    script.write_text(ON_A_SERVER)
    done = subprocess.run(["node", script, str(server(connections=1).port), TOP / "examples/add.asm"], capture_output=True, text=True, timeout=PATIENCE, check=False)
    return json.loads(done.stdout) if done.returncode == 0 else done.stderr


@alone
def test_the_tests_of_the_client_for_node():
    tool("node")
    done = subprocess.run(["node", "--test"], cwd=JAVASCRIPT, capture_output=True, text=True, timeout=PATIENCE, check=False)
    assert done.returncode == 0, done.stdout + done.stderr


def test_the_client_for_node_on_a_server(tests, server):
    tool("node")
    tests.path("node_modules").mkdir()
    tests.path("node_modules/treedb-client").symlink_to(JAVASCRIPT)
    tests.same("what it says", said_on_a_server(server, tests.folder), SAID)


# What a server that lasts is asked by the client for Node.js, and the texts of these containers.
FILES_ON_A_SERVER = """
import { Client } from "treedb-client";
const [, , port, ...files] = process.argv;
const db = await Client.connect({ port: Number(port), timeout: 60_000 });
const said = [];
for (const file of files) said.push(Object.keys(await db.registerFile(file)));
said.push((await db.call("shift", 10, 5, 0, 1)).reply.map(String));
try { await db.registerText("proc"); } catch (refused) { said.push(refused.numbers); }
await db.close();
console.log(JSON.stringify(said));
"""


def test_files_of_procedures_in_node(tests, server):
    tool("node")
    tests.path("node_modules").mkdir(exist_ok=True)
    if not tests.path("node_modules/treedb-client").exists():
        tests.path("node_modules/treedb-client").symlink_to(JAVASCRIPT)
    tests.path("every.asm").write_text(EVERY)
    tests.run("asm", "every.asm", "every.tlp")
    shown = subprocess.run(["node", "--input-type=module", "-e", f"""
        import {{ readFileSync }} from "node:fs";
        import {{ assemblerText }} from "{JAVASCRIPT}/containers.mjs";
        process.stdout.write(assemblerText(readFileSync("every.tlp")));"""], cwd=tests.folder, capture_output=True, text=True, timeout=PATIENCE, check=False)
    tests.same("the text of a container", shown.stdout, tests.run("dis", "every.tlp").out)
    tests.path("files.mjs").write_text(FILES_ON_A_SERVER)
    files = ["examples/stock/stock.tdb", "examples/add.asm", "examples/walk.tlp"]
    done = subprocess.run(["node", "files.mjs", str(server(tree="examples/stock/tree.json", connections=None).port), *files], cwd=tests.folder, capture_output=True, text=True, timeout=PATIENCE, check=False)
    tests.same("what it says", done.stdout, json.dumps([["shift", "transfer", "visit", "stock"], ["add"], ["walk"], ["10"], [273, 1, 5]], separators=(",", ":")) + "\n")


def test_the_client_in_go(tests):
    """Its own tests, which need no server and no module of another's."""
    folder, env = TOP / "clients/go", {**os.environ, "GOFLAGS": "-mod=mod", "GOPROXY": "off", "CGO_ENABLED": "0", "GOCACHE": str(tests.path("go"))}
    for words in (["vet", "./..."], ["test", "-count=1", f"-timeout={PATIENCE:.0f}s", "./..."]):
        done = subprocess.run([tool("go"), *words], cwd=folder, env=env, capture_output=True, text=True, timeout=PATIENCE, check=False)
        tests.check(f"go {words[0]}", done.returncode == 0, done.stdout + done.stderr)
    formatted = subprocess.run([tool("gofmt"), "-l", "."], cwd=folder, capture_output=True, text=True, timeout=PATIENCE, check=False)
    tests.same("gofmt", formatted.stdout, "")


# ---- packages: they install into an empty environment and an empty folder, without an index and without a registry

# An index and a registry that nobody serves.
NO_INDEX = {"PIP_INDEX_URL": "http://127.0.0.1:9/", "npm_config_registry": "http://127.0.0.1:9/"}


class Packages:
    """The packages that tools/package makes, and a folder to install them in."""

    def __init__(self, folder):
        self.folder = pathlib.Path(folder)
        made = subprocess.run([TOP / "tools/package", folder], capture_output=True, text=True, check=True).stdout.split()
        self.wheel, self.archive = made[:2]

    def done(self, *words, folder=None):
        """What a command prints, which has to succeed."""
        done = subprocess.run(words, cwd=folder or self.folder, env=NO_INDEX | {"HOME": str(self.folder), "PATH": os.environ["PATH"]}, capture_output=True, text=True, timeout=PATIENCE, check=False)
        assert done.returncode == 0, done.stdout + done.stderr
        return done.stdout

    def environment(self, name):
        """An empty environment: the folder of its programs."""
        made = subprocess.run([sys.executable, "-m", "venv", self.folder / name], capture_output=True, text=True, check=False)
        if made.returncode != 0:
            skip("there is no venv with pip")
        return self.folder / name / "bin"


@fixture(scope="module")
def packages():
    with tempfile.TemporaryDirectory() as folder:
        yield Packages(folder)


def test_the_same_sources_give_the_same_bytes(packages):
    again = packages.folder / "again"
    packages.done(TOP / "tools/package", again)
    for path in (packages.wheel, packages.archive):
        assert (again / pathlib.Path(path).name).read_bytes() == pathlib.Path(path).read_bytes()


def test_the_wheel(tests, server, packages):
    programs = packages.environment("wheel")
    packages.done(programs / "pip", "install", "--no-index", packages.wheel)
    tests.same("the version", packages.done(programs / "treedb-tables", "--version"), f"{treedb.__version__}\n")
    for name in ("shell", "stubs"):
        tests.same(f"treedb-{name}", packages.done(programs / f"treedb-{name}", "--version"), f"{treedb.__version__}\n")
    tests.check("it has no program treedb", not (programs / "treedb").exists(), "it is there")
    called = f"import treedb; db = treedb.Client(port={server(connections=None).port}); print(db.read(0), treedb.__file__.startswith({str(packages.folder)!r})); db.close()"
    tests.same("a record", packages.done(programs / "python", "-c", called), "[5, 0, 0, 0, 0, 0, 0, 0] True\n")


def test_the_folder(packages):
    if sys.version_info < (3, 11):
        skip("a build before Python 3.11 needs tomli")
    programs, copy = packages.environment("sources"), packages.folder / "copy"
    shutil.copytree(PYTHON, copy, ignore=shutil.ignore_patterns("__pycache__"))
    packages.done(programs / "pip", "install", "--no-index", copy)
    packages.done(programs / "python", "-c", "import treedb")
    made = "import sys; sys.path.insert(0, 'build_backend'); import treedb_build; print(treedb_build.build_sdist(sys.argv[1]))"
    archive = packages.done(programs / "python", "-c", made, packages.folder, folder=copy).strip()
    for source in ([packages.folder / archive], ["--editable", copy]):
        packages.done(programs / "pip", "uninstall", "--yes", "treedb-client")
        packages.done(programs / "pip", "install", "--no-index", *source)
        packages.done(programs / "python", "-c", "import treedb")


def test_the_archive(tests, server, packages):
    tool("npm")
    folder = packages.folder / "node"
    folder.mkdir()
    packages.done("npm", "install", "--offline", "--no-audit", "--no-fund", packages.archive, folder=folder)
    tests.same("its files", sorted(it.name for it in (folder / "node_modules/treedb-client").iterdir()),
               ["LICENSE-APACHE", "LICENSE-MIT", "README.md", "containers.mjs", "faults.mjs", "package.json", "treedb.d.mts", "treedb.mjs"])
    tests.same("what it says", said_on_a_server(server, folder), SAID)


def test_the_archive_of_the_program(tests, packages):
    """It has all that somebody without the kit needs."""
    archive = pathlib.Path(packages.done(TOP / "tools/package", packages.folder, "--program", tests.program).split()[2])
    first = archive.read_bytes()
    tests.same("its name", archive.name, f"treedb-{treedb.__version__}-linux-x86_64.tar.gz")
    packages.done(TOP / "tools/package", packages.folder, "--program", tests.program)
    tests.check("the same files give the same bytes", archive.read_bytes() == first, archive)
    prefix = packages.folder / "prefix"
    prefix.mkdir()
    packages.done("tar", "-xzf", archive, "--strip-components=1", "-C", prefix)
    tests.check("the program runs", packages.done(prefix / "bin/treedb", "--version").startswith(f"treedb {treedb.__version__} "), prefix)
    found = {str(path.relative_to(prefix / "share")) for path in (prefix / "share").rglob("*")}
    wanted = {"treedb/viewer/index.html", "doc/treedb/README.md", "doc/treedb/docs/use/guide.md", "doc/treedb/LICENSE-MIT", "treedb/clients/python/treedb/client.py",
              f"treedb/packages/{pathlib.Path(packages.wheel).name}", f"treedb/packages/{pathlib.Path(packages.archive).name}"}
    tests.same("what it lacks", wanted - found, set())
