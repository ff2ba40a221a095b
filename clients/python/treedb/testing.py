"""Servers for tests of procedures: each on a tree and in a folder of its own, and ended with the test.

In a project's `conftest.py`:

    from treedb.testing import server  # noqa: F401

and in a test of pytest:

    def test_sell(server):
        shop = server("sell.tdb", tree=tree_of({"shelf": [5]}))
        assert shop.call("sell", 1, 2) == [3]
        assert shop.stop()["records"][1][0] == 3

Without pytest, `with Server("sell.tdb", tree=..) as shop:` is the same, and `alone` runs one call without a server. The program is the one that the environment variable
TREEDB_PROGRAM names, or `treedb` on the path.
"""

from __future__ import annotations

import contextlib
import json
import os
import pathlib
import select
import shutil
import subprocess
import tempfile
import time
from collections.abc import Iterable, Iterator, Mapping
from typing import Any, Callable, NamedTuple

from . import control
from .client import Client
from .names import SEPARATOR

__all__ = ["Alone", "Server", "alone", "program", "server", "tree_of"]

WIDTH = 8
# How many seconds a server may take to begin, and to end.
PATIENCE = 60.0


class Alone(NamedTuple):
    """What a call did that ran alone."""

    reply: list[int]
    steps: int
    records: list[list[int]]


class Failed(Exception):
    """The program refused something, or didn't do it in time: what it said."""


def program() -> str:
    """The program `treedb`."""
    found = os.environ.get("TREEDB_PROGRAM") or shutil.which("treedb")
    if not found:
        raise FileNotFoundError("there is no program treedb: put it on the path, or name it by TREEDB_PROGRAM")
    return found


def tree_of(records: Mapping[str, Iterable[int]]) -> dict[str, Any]:
    """The tree with these paths below its root, in their order, each with the first fields of its record; the others are 0. Nodes above that aren't named are made."""
    parents, nodes, table = [0], {"": 0}, [[0] * WIDTH]
    for path, fields in records.items():
        parts = path.split(SEPARATOR) if path else []
        for depth in range(1, len(parts) + 1):
            above = SEPARATOR.join(parts[:depth])
            if above not in nodes:
                parents.append(nodes[SEPARATOR.join(parts[: depth - 1])])
                nodes[above] = len(table)
                table.append([0] * WIDTH)
        given = [*fields]
        table[nodes[path]] = given + [0] * (WIDTH - len(given))
    return {"parents": parents, "records": table}


class Server:
    """A server on a tree, with the procedures of these files, which listens on sockets in a folder of its own. With `store` it has a store."""

    def __init__(self, *files: str | os.PathLike[str], tree: Mapping[str, Any] | str | os.PathLike[str], store: bool = False, options: Iterable[str] = ()) -> None:
        self._ended = contextlib.ExitStack()
        self.folder = pathlib.Path(self._ended.enter_context(tempfile.TemporaryDirectory(prefix="treedb-")))
        self.socket, self.control, self.store = self.folder / "calls", self.folder / "control", self.folder / "store.db"
        logs = ["--store", str(self.store)] if store else ["--trails", str(self.folder / "trails")]
        (self.folder / "trails").mkdir()
        words = ["serve", "--tree", _tree_file(self.folder, tree), *logs, "--socket", str(self.socket), "--control-socket", str(self.control), *options]
        for file in files:
            words += ["--proc", os.path.abspath(file)]
        try:
            self._process = subprocess.Popen([program(), *words], stdin=subprocess.DEVNULL, stdout=subprocess.PIPE, stderr=subprocess.PIPE)
            self._ended.callback(self._kill)
            self._wait_until_it_listens()
            self._client = Client(path=self.socket)
            self._ended.callback(self._client._connection.close)
        except BaseException:
            self._ended.close()
            raise

    def client(self) -> Client:
        """A connection of its own; the test closes it."""
        return Client(path=self.socket)

    def call(self, procedure: str, *arguments: int) -> list[int]:
        """The reply of a call, on the connection that the server's own calls share."""
        return self._client.call(procedure, *arguments).reply

    def record(self, node: int) -> list[int]:
        """The record of a node."""
        return self._client.read(node)

    def stop(self) -> dict[str, Any]:
        """Ends the server, has its log audited, and returns the tree that it leaves."""
        control.stop(path=self.control)
        try:
            out, err = self._process.communicate(timeout=PATIENCE)
        except subprocess.TimeoutExpired:
            self._process.kill()
            raise Failed(f"the server hadn't ended after {PATIENCE:.0f} s") from None
        if self._process.returncode != 0:
            raise Failed((out + err).decode(errors="replace"))
        log = self.store if self.store.exists() else self.folder / "trails"
        _ran("audit", str(log))
        tree: dict[str, Any] = json.loads(out.splitlines()[-1])
        return tree

    def close(self) -> None:
        """Ends the server where it is, and removes its folder."""
        self._ended.close()

    def __enter__(self) -> Server:
        return self

    def __exit__(self, *_: Any) -> None:
        self.close()

    def _wait_until_it_listens(self) -> None:
        """A server that doesn't begin says why."""
        assert self._process.stderr is not None
        said, end = b"", time.monotonic() + PATIENCE
        while b"listening on " not in said or not said.endswith(b"ends it\n"):
            if not select.select([self._process.stderr], [], [], max(end - time.monotonic(), 0))[0]:
                raise Failed(f"the server didn't begin in {PATIENCE:.0f} s: {said.decode(errors='replace')}")
            part = os.read(self._process.stderr.fileno(), 65_536)
            if not part:
                raise Failed(f"the server didn't begin: {said.decode(errors='replace')}")
            said += part

    def _kill(self) -> None:
        self._process.kill()
        self._process.communicate()


def alone(file: str | os.PathLike[str], name: str, *arguments: int, tree: Mapping[str, Any] | str | os.PathLike[str]) -> Alone:
    """Runs one call of a procedure of a file alone on a tree, without a server."""
    with tempfile.TemporaryDirectory(prefix="treedb-") as folder:
        out = _ran("alone", "--tree", _tree_file(pathlib.Path(folder), tree), "--proc", os.path.abspath(file), "--name", name, "--args", json.dumps(arguments))
    told, left = map(json.loads, out.splitlines())
    return Alone(told["reply"], told["steps"], left["records"])


def _tree_file(folder: pathlib.Path, tree: Mapping[str, Any] | str | os.PathLike[str]) -> str:
    if not isinstance(tree, Mapping):
        return os.path.abspath(tree)
    path = folder / "tree.json"
    path.write_text(json.dumps(tree))
    return str(path)


def _ran(*words: str) -> str:
    done = subprocess.run([program(), *words], stdin=subprocess.DEVNULL, capture_output=True, text=True, timeout=PATIENCE, check=False)
    if done.returncode != 0:
        raise Failed(f"treedb {words[0]}: {done.stdout}{done.stderr}")
    return done.stdout


def _servers() -> Iterator[Callable[..., Server]]:
    """Starts servers, as `Server` does. They are ended with the test."""
    with contextlib.ExitStack() as started:
        yield lambda *files, **words: started.enter_context(Server(*files, **words))


try:
    import pytest
except ImportError:
    # Whoever has no pytest uses `Server`.
    pass
else:
    server = pytest.fixture(_servers, name="server")
