"""Names in the file of a store, for whoever looks into it with SQLite. The server reads none of them."""

from __future__ import annotations

import contextlib
import os
import pathlib
from collections.abc import Iterable

from .names import Names

__all__ = ["write_names"]


def write_names(store: str | os.PathLike[str], names: Iterable[str], patience: float = 5) -> int:
    """Writes the paths of a store's nodes into its table `name`, in the place of those that are there, and returns how many there are. `names` has a text
    for each node, empty where it has no name; nodes that came later may be left out.

    No server may have the file open; it is waited for as many seconds as `patience` says. A file that is no store, or is in use, is a `ValueError`, and stays
    as it is.
    """
    # Not every Python has it.
    import sqlite3

    try:
        with contextlib.closing(sqlite3.connect(f"{pathlib.Path(store).absolute().as_uri()}?mode=rw", uri=True, timeout=patience)) as base, base:
            parents = [parent for (parent,) in base.execute("select parent from node order by number")]
            rows = _rows(parents, list(names))
            base.execute("delete from name")
            base.executemany("insert into name(node, path) values (?, ?)", rows)
    except sqlite3.Error as fault:
        raise ValueError(f"{store}: {fault}") from fault
    return len(rows)


def _rows(parents: list[int], names: list[str]) -> list[tuple[int, str]]:
    """A row for each node that has a path."""
    if len(names) > len(parents):
        raise ValueError(f"{len(names)} names for {len(parents)} nodes")
    return [(node, path) for path, node in Names(parents[: len(names)], names).items()]
