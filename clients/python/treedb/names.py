"""Names for nodes.

A tree's nodes have numbers alone. Names stay outside of the database: a file has them, a JSON list of texts by node number, and a client maps them.
"""

from __future__ import annotations

import json
import os
from collections.abc import Iterable, Iterator, Mapping
from typing import Any

try:
    import fcntl
except ImportError:
    # Not every system has it: there one program alone adds names.
    fcntl = None  # type: ignore[assignment]

__all__ = ["SEPARATOR", "Names", "Turn", "printable"]

SEPARATOR = "/"


def printable(name: str) -> str:
    """A name for a terminal, which takes some characters for commands."""
    return "".join(letter if letter.isprintable() else f"\\u{ord(letter):04x}" for letter in name)


class Names(Mapping[str, int]):
    """The numbers of a tree's nodes by their paths. A path has the names from the root's children down, as `north/aisle 1/shelf 2`; the root's is empty.

    A node whose name is empty, and each node below it, has no path; the root has one.
    """

    def __init__(self, parents: list[int], names: list[str], file: str | os.PathLike[str] | None = None) -> None:
        """`parents` are the tree's, and `names` has a text for each node, empty where it has no name. Two children of one node can't have one name.

        Names that are added are written to `file`, if there is one.
        """
        if len(parents) != len(names):
            raise ValueError(f"{len(names)} names for {len(parents)} nodes")
        self.parents, self.names, self.file = list(parents), list(names), file
        # Which state of the file is known.
        self._known = _state_of(file)
        self._paths: list[str | None] = []
        self._nodes: dict[str, int] = {}
        for node in range(len(names)):
            self._add(node)

    @classmethod
    def load(cls, tree: str | os.PathLike[str], names: str | os.PathLike[str]) -> Names:
        """The names of two files: a tree, and a list of names. The second file gets the names that are added later, and a file beside it, whose name ends with `.parents`, the parents of all nodes: so
        both may be loaded again, though the tree's file hasn't the nodes that were added. Programs of one machine may share the files: each finds what another one adds."""
        known = _state_of(names)
        with open(tree, encoding="utf-8") as tree_file, open(names, encoding="utf-8") as names_file:
            parents, listed = json.load(tree_file)["parents"], json.load(names_file)
        if len(listed) > len(parents) and os.path.exists(_parents_file(names)):
            with open(_parents_file(names), encoding="utf-8") as parents_file:
                grown = json.load(parents_file)
            if grown[: len(parents)] != parents:
                raise ValueError(f"{_parents_file(names)} is of another tree")
            parents = grown[: len(listed)]
        loaded = cls(parents, listed, names)
        loaded._known = known
        return loaded

    def refresh(self) -> bool:
        """Takes what another program has added to the files. Returns whether there was anything. A path that isn't known is looked for so too."""
        known = _state_of(self.file)
        if self.file is None or known == self._known:
            return False
        # The parents are there before the names are.
        with open(self.file, encoding="utf-8") as names_file:
            listed = json.load(names_file)
        had, self._known = len(self.names), known
        if len(listed) <= had:
            return False
        with open(_parents_file(self.file), encoding="utf-8") as parents_file:
            parents = json.load(parents_file)
        if parents[:had] != self.parents:
            raise ValueError(f"{self.file} is of another tree")
        self.parents += parents[had : len(listed)]
        self.names += listed[had:]
        for node in range(had, len(listed)):
            self._add(node)
        return True

    def turn(self) -> Turn:
        """The right to add names, for a `with`."""
        return Turn(self)

    def path(self, node: int) -> str:
        """The path of a node. The root's is empty. A node that isn't there, or has no path, is a `ValueError`."""
        path = self._paths[node] if 0 <= node < len(self._paths) else None
        if path is None:
            raise ValueError(f"node {node} has no name")
        return path

    def __getitem__(self, path: str) -> int:
        """The number of the node with this path."""
        if path not in self._nodes:
            self.refresh()
        return self._nodes[path]

    def __iter__(self) -> Iterator[str]:
        """The paths, by rising number of their nodes."""
        return iter(self._nodes)

    def __len__(self) -> int:
        """How many nodes have a path."""
        return len(self._nodes)

    def missing(self, paths: Iterable[str]) -> list[list[str]]:
        """What has to be added so that these paths are there, those above them first: of each list, every path is below one that is there by then.

        A path that is there already, or stands twice, or has an empty name, is a `ValueError`.
        """
        levels: dict[int, dict[str, None]] = {}
        told = set(self)
        for path in paths:
            if path in told:
                raise ValueError(f"{path!r} is there already")
            told.add(path)
            parts = path.split(SEPARATOR)
            if "" in parts:
                raise ValueError(f"{path!r} has an empty name")
            for depth in range(1, len(parts) + 1):
                above = SEPARATOR.join(parts[:depth])
                if above not in self:
                    levels.setdefault(depth, {})[above] = None
        return [list(levels[depth]) for depth in sorted(levels)]

    def parents_of(self, paths: Iterable[str]) -> list[int]:
        """The numbers of the nodes right above these paths."""
        return [self[path.rpartition(SEPARATOR)[0]] for path in paths]

    def append(self, first: int, paths: Iterable[str]) -> None:
        """Names new nodes, which are numbered from `first` on, and writes the file. Nodes before `first` that are new here have no name: another client has
        added them, and names them in its own file.

        Both files are replaced as a whole, so they never have a part, and the names last, so there are never more of them than parents.
        """
        if first < len(self.names):
            raise ValueError(f"node {first} is there already")
        unknown = first - len(self.names)
        added = list(paths)
        self.parents += [0] * unknown + self.parents_of(added)
        self.names += [""] * unknown + [path.rpartition(SEPARATOR)[2] for path in added]
        for node in range(len(self._paths), len(self.names)):
            self._add(node)
        if self.file is not None:
            _write(_parents_file(self.file), self.parents)
            _write(os.fspath(self.file), self.names)
            self._known = _state_of(self.file)

    def _add(self, node: int) -> None:
        """Takes up the path of the next node."""
        path = self._path_of(node)
        if path in self._nodes:
            raise ValueError("two nodes have one path")
        self._paths.append(path)
        if path is not None:
            self._nodes[path] = node

    def _path_of(self, node: int) -> str | None:
        """The path of a node whose parent's is known."""
        name, parent = self.names[node], self.parents[node]
        if node == 0:
            return ""
        if not 0 <= parent < node:
            raise ValueError(f"node {node} has no parent of a lower number")
        above = self._paths[parent]
        if above is None or not name:
            return None
        return f"{above}{SEPARATOR}{name}" if above else name


class Turn:
    """The right to add names to a file, which one program has at a time: so each knows those of all before it adds its own. Names without a file need none."""

    def __init__(self, names: Names) -> None:
        self._names = names
        self._lock = None if names.file is None else open(f"{os.fspath(names.file)}.lock", "a")

    def is_taken(self, waits: bool = False) -> bool:
        """Whether it is this one's turn now; it comes if one waits."""
        if self._lock is not None and fcntl is not None:
            try:
                fcntl.flock(self._lock, fcntl.LOCK_EX | (0 if waits else fcntl.LOCK_NB))
            except BlockingIOError:
                return False
        self._names.refresh()
        return True

    def __enter__(self) -> Turn:
        return self

    def __exit__(self, *_: Any) -> None:
        if self._lock is not None:
            self._lock.close()


def _state_of(file: str | os.PathLike[str] | None) -> tuple[int, int] | None:
    """Which state of a file is there: each one that is written is a file of its own."""
    try:
        found = None if file is None else os.stat(file)
    except FileNotFoundError:
        return None
    return None if found is None else (found.st_ino, found.st_mtime_ns)


def _parents_file(names: str | os.PathLike[str]) -> str:
    return f"{os.fspath(names)}.parents"


def _write(file: str, value: list[int] | list[str]) -> None:
    part = f"{file}.part"
    with open(part, "w", encoding="utf-8") as written:
        json.dump(value, written, ensure_ascii=False)
        written.write("\n")
        written.flush()
        os.fsync(written.fileno())
    os.replace(part, file)
