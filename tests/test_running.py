"""Tests the tests: a test that hangs is cut off and says where, a server that doesn't start is told of, and whatever ends a run, no server and no folder of it is left."""

import os
import pathlib
import re
import signal
import subprocess
import sys
import time

from running import PROCESSORS, TOP, Counts, Hangs, at_once, fixture, raises, until

# A program whose server says that it serves, writes its number into a file, and does nothing more.
SILENT = """#!{python}
import os, pathlib, sys, time
if sys.argv[1] == "serve":
    pathlib.Path("{told}").write_text(str(os.getpid()))
    print("treedb: listening on a port\\ntreedb: treedb stop ends it", file=sys.stderr, flush=True)
    time.sleep(600)
"""
REFUSED = """#!{python}
import sys
print('{{"error":[1003,3]}}')
sys.exit(1)
"""
# It writes its words into a file, a line each time.
TELLING = """#!{python}
import sys
print(*sys.argv[1:], file=open("{told}", "a"))
sys.exit(1)
"""
HANGS = """
import sys, threading
sys.path.insert(0, {here!r})
import running
running.LIMIT = 0.5
def somewhere():
    threading.Event().wait()
with running.limited("a test"):
    somewhere()
"""


@fixture
def tests():
    return Counts()


def program(folder, text):
    path = folder / "program"
    path.write_text(text.format(python=sys.executable, told=folder / "told"))
    path.chmod(0o755)
    return path


def begun(folder, text, *words, **environment):
    """A run of the tests on that program, whose folders are in one of their own."""
    (folder / "temporary").mkdir()
    return subprocess.Popen([TOP / "tests/run", "--program", program(folder, text), *words], env={**os.environ, "TMPDIR": str(folder / "temporary"), **environment}, text=True,
                            stdout=subprocess.PIPE, stderr=subprocess.STDOUT)


def is_there(number):
    """Whether a process runs; one that has ended and wasn't asked for doesn't."""
    try:
        return pathlib.Path(f"/proc/{number}/stat").read_text().rpartition(") ")[2][0] != "Z"
    except FileNotFoundError:
        return False


def test_a_test_that_hangs(tests):
    done = subprocess.run([sys.executable, "-c", HANGS.format(here=str(TOP / "tests"))], capture_output=True, text=True, timeout=60, check=False)
    tests.check("it is cut off", done.returncode == 1 and "a test hadn't ended after" in done.stderr, done)
    tests.check("it says where each thread was", "in somewhere" in done.stderr and "most recent call first" in done.stderr, done.stderr)


def test_a_server_that_hangs(tests, folder):
    it = begun(folder, SILENT, "--limit", "16", "stopping::nobody")
    out, _ = it.communicate(timeout=120)
    tests.check("a server that doesn't end", it.returncode == 1 and "it hadn't ended after 8 s" in out and out.endswith("3 failed\n"), out)


def test_a_server_that_does_not_start(tests, folder):
    it = begun(folder, REFUSED, "keys::kills_under_load")
    out, _ = it.communicate(timeout=120)
    tests.check("a server that doesn't start", it.returncode == 1 and "the server didn't start: status 1, out '{\"error\":[1003,3]}" in out, out)


def test_a_tool_that_is_required(tests, folder):
    for words, wanted in (([], "skipped: failing::start: there is no cc"), (["--require", "node,cc"], "failed: failing::start: there is no cc, which this machine shall have")):
        place = folder / f"with {len(words)}"
        place.mkdir()
        it = begun(place, REFUSED, *words, "failing::start", CC="/no compiler")
        out, _ = it.communicate(timeout=120)
        tests.check(f"a tool that isn't there {words}", wanted in out and it.returncode == (1 if words else 0), out)


def test_several_files_at_once(tests, folder):
    """Each in a process of its own; what they come to is added, with what was skipped, and one that tells nothing has failed."""
    it = begun(folder, REFUSED, "--jobs", "2", "edits", "keys::kills_under_load", "failing::start", CC="/no compiler")
    out, _ = it.communicate(timeout=120)
    passed = int(next(line for line in out.splitlines() if line.startswith("edits: ")).split()[1])
    tests.check("a file that passes, one that fails and one that is skipped", it.returncode == 1 and passed > 1000 and out.endswith(f"\n{passed} passed, 1 failed, 1 skipped\n"), out[-500:])
    tests.check("what failed is shown", "the server didn't start: status 1" in out and "skipped: failing::start: there is no cc" in out, out[-500:])
    tests.same("the files in their order, at the end", re.findall(r"^(\w+): \d+ passed, in ", out, re.MULTILINE), ["edits", "failing", "keys"])
    place = folder / "ends"
    place.mkdir()
    program(place, "#!{python}\nimport os, signal\nos.kill(os.getppid(), signal.SIGKILL)\n")
    it = begun(place, (place / "program").read_text(), "--jobs", "2", "texts", "edits")
    out, _ = it.communicate(timeout=120)
    tests.check("a process that tells nothing", it.returncode == 1 and "failed: texts: its tests ended with status -9, and told no counts" in out and out.endswith(" passed, 1 failed\n"), out[-500:])


def test_a_test_that_is_alone(tests, folder):
    """It comes when all others have ended, also where its file has others."""
    it = begun(folder, TELLING, "--jobs", "3", "stopping::silence", "stopping::nobody", "command_line::options", "explaining")
    it.communicate(timeout=120)
    told = [line.split() for line in (folder / "told").read_text().splitlines()]
    alone = [line for line in told if "--idle" in line]
    tests.check("it begins behind all others", alone != [] and told[-len(alone):] == alone and len(told) > len(alone) + 3, told)


def test_rows_at_once(tests):
    """What comes of rows stands in their order, and what one of them raises is raised."""
    tests.same("in their order", at_once(lambda row: (time.sleep((9 - row) / 100), row)[1], range(9)), [*range(9)])
    done = []

    def work(row):
        if row == 3:
            raise Hangs("row 3")
        done.append(row)

    with raises(Hangs, "row 3"):
        at_once(work, range(40))
    tests.same("the others are done", sorted(done), [row for row in range(40) if row != 3] if PROCESSORS > 1 else [0, 1, 2])


def test_what_is_left(tests, folder):
    """A run that is asked to end puts everything away, and the servers of one that is killed end with it; also where files are run at once."""
    for sent, jobs in ((signal.SIGTERM, "1"), (signal.SIGKILL, "1"), (signal.SIGTERM, "2"), (signal.SIGKILL, "2")):
        place = folder / f"{sent.name} {jobs}"
        place.mkdir()
        it = begun(place, SILENT, "--jobs", jobs, "stopping::nobody")
        until(lambda place=place: (place / "told").exists() and (place / "told").read_text(), "no server")
        server = int((place / "told").read_text())
        tests.check(f"{sent.name}: a server runs", is_there(server), server)
        it.send_signal(sent)
        it.communicate(timeout=60)
        until(lambda server=server: not is_there(server), f"{sent.name}: the server goes on")
        left = [*(place / "temporary").iterdir()] if sent == signal.SIGTERM else []
        tests.check(f"{sent.name}: nothing is left", left == [], left)
