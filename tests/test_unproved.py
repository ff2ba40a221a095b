"""Tests `treedb --unproved`, as a newcomer uses it: it is built once, and what it is told to write is there afterwards. The build is left out: tests/unproved.py has a kit that runs what was built before."""

import os
import subprocess

from running import PATIENCE, TOP, fixture, free_port, until
from serving import Peer
from unproved import environment

TEXT = "field pieces = 0;\natomic proc sell(shelf, amount) { lock s = node(shelf); require s.pieces >= amount; s.pieces -= amount; emit s.pieces; } else { emit -1; }\n"


@fixture
def unproved(tests):
    """Runs `treedb --unproved` in the folder of the tests, or begins it."""
    env = {**os.environ, **environment(tests.folder, tests.program)}
    began = []

    def run(*words, is_begun=False):
        streams = {"cwd": tests.folder, "env": env, "stdin": subprocess.DEVNULL, "stdout": subprocess.PIPE, "stderr": subprocess.PIPE, "text": True}
        command = [TOP / "treedb", "--unproved", *map(str, words)]
        if is_begun:
            began.append(subprocess.Popen(command, **streams, start_new_session=True))
            return began[-1]
        done = subprocess.run(command, **streams, timeout=PATIENCE, check=False)
        return done.returncode, done.stdout

    yield run
    for process in began:
        if process.poll() is None:
            os.killpg(process.pid, 9)
        process.communicate()


def test_a_store(tests, unproved):
    """The store stands where the newcomer said, also where its name has no ending and no folder."""
    tests.path("sell.tdb").write_text(TEXT)
    tests.same("a check", unproved("check", "sell.tdb")[0], 0)
    for store in ("things.db", "things"):
        port, control = free_port(), free_port()
        server = unproved("serve", "--store", store, "--tree", "examples/stock/tree.json", "--proc", "sell.tdb", "--port", port, "--control", control, "--save", "left", is_begun=True)
        peers = []

        def is_there():
            try:
                peers.append(Peer(port))
            except OSError:
                return False
            return True

        until(is_there, "the server listens")
        tests.same("a call", peers[0].ask('{"op":"call","proc":"sell","args":[16,2]}'), '{"call":0,"reply":[28]}\n')
        peers[0].close()
        tests.same("a stop", unproved("stop", "--port", control), (0, '{"stopping":true}\n'))
        tests.same("the server's end", (server.wait(PATIENCE), tests.path(store).is_file(), tests.path("left").is_file()), (0, True, True))
        tests.same("an audit", unproved("audit", store), (0, '{"orders":[[0],[]]}\n'))


def test_it_is_built_once(tests, unproved):
    """The first run builds it, and a later one only where a source is newer; two at once build it once, and one that isn't built says so."""
    told = tests.path("kit/told")
    both = [unproved("explain", "611", is_begun=True) for _ in range(2)]
    tests.same("two at once", [process.communicate(timeout=PATIENCE)[0] for process in both], [tests.run("explain", "611").out] * 2)
    tests.same("a build", told.read_text().splitlines(), ["serve"])
    tests.path("unproved/built").write_text("0")
    tests.same("another run", (unproved("explain", "611")[0], told.read_text().splitlines()), (0, ["serve", "serve"]))
    tests.path("unproved/built").write_text("0")
    tests.path("kit/rt").write_text("#!/usr/bin/env bash\nexit 1\n")
    tests.same("one that isn't built", unproved("explain", "611"), (70, ""))


def test_words(tests, unproved):
    """Words that name files are taken as they are, in the folder of the newcomer; options without a word, sockets and streams work as with a proved one."""
    tests.path("sell.tdb").write_text(TEXT)
    tests.same("a container", (unproved("compile", "sell.tdb", "out", "--proc", "sell")[0], tests.path("out").is_file()), (0, True))
    tests.same("a procedure by its name", unproved("alone", "--tree=examples/stock/tree.json", "--proc", "sell.tdb", "--name", "sell", "--args", "[16,2]", "--save", "after")[0], 0)
    tests.check("the tree afterwards", tests.path("after").is_file(), "it isn't there")
    tests.same("a folder", (tests.path("logs").mkdir(), unproved("audit", "--explain", "logs")[0])[1], tests.run("audit", "logs").status)
    tests.same("NAME=FILE", unproved("run", "--tree", "examples/stock/tree.json", "--workers", "1", "--proc", "sell=sell.tdb", "none.json"), (3, '{"error":[31]}\n'))
    tests.same("a number", unproved("explain", "611")[0], 0)
    server = unproved("serve", "--frozen", "--store", "frozen.db", "--tree", "examples/one-node.json", "--proc", "sell.tdb", "--socket", "calls", "--control-socket", "control", is_begun=True)
    until(lambda: tests.path("control").exists(), "the server listens")
    tests.path("other.tdb").write_text("proc one() { emit 1; }")
    tests.same("a text for a server", unproved("register", "other.tdb", "--socket", "control")[0], 0)
    tests.same("a stop", unproved("stop", "--socket", "control")[0], 0)
    tests.same("the server's end, and its store", (server.wait(PATIENCE), tests.path("frozen.db").is_file()), (0, True))
    tests.check("the version", "not proved" in unproved("--version")[1], "it says that it is proved")


def test_the_tour(tests):
    """The front page's example at once."""
    done = subprocess.run([TOP / "tools/tour", tests.program], cwd=tests.folder, capture_output=True, text=True, timeout=PATIENCE, check=False)
    tests.check("what it prints", done.returncode == 0 and "\n[28]\n" in done.stdout and done.stdout.endswith('audit stock.db\n{"orders":[[0],[]]}\n'), done)
