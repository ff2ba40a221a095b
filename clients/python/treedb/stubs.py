"""Typed procedures of a text: treedb-stubs stock.tdb > stock.py, or python3 -m treedb.stubs."""

from __future__ import annotations

import argparse
import keyword
import pathlib
import sys
import textwrap

from . import __version__
from .reading import Declared, Procedure, declared_in

# The names that a class of procedures has besides them.
OWN = {"record"}
WIDTH = 8

HEAD = '''"""The procedures of {file}, with types. Written by `treedb-stubs`: don't edit."""

from __future__ import annotations

from typing import NamedTuple, Protocol

from treedb import Answer


class Caller(Protocol):
    """What calls are made by: a `{client}`{pool}."""

    {asynchronous}def call(self, procedure: str, /, *arguments: int, key: str | None = None) -> Answer: ...

    {asynchronous}def read(self, node: int, /) -> list[int]: ...


class Record(NamedTuple):
    """A node's record."""

{record}


class {kind}:
    """The procedures of {file}."""

    def __init__(self, db: Caller) -> None:
        self._db = db
'''
PROCEDURE = '''
    {asynchronous}def {method}(self{arguments}, *, key: str | None = None) -> Answer:
        {words}
        return {waits}self._db.call({name!r}{given}, key=key)
'''
RECORD = '''
    {asynchronous}def record(self, node: int) -> Record:
        """The record of a node."""
        return Record(*({waits}self._db.read(node)))
'''


def stubs_of(declared: Declared, file: str, is_async: bool = False) -> str:
    """The module with a class of the procedures that a text declares."""
    words = {"asynchronous": "async " if is_async else "", "waits": "await " if is_async else ""}
    kind = "".join(part.capitalize() for part in pathlib.Path(file).stem.replace("-", "_").split("_")) or "Procedures"
    head = HEAD.format(file=file, kind=_safe(kind if kind[0].isalpha() else f"_{kind}"), client="AsyncClient" if is_async else "Client",
                       pool="" if is_async else " or a `Pool`", record=_record(declared), **words)
    methods = [_method(procedure, words) for procedure in declared.procedures]
    return head + RECORD.format(**words) + "".join(methods)


def _method(procedure: Procedure, words: dict[str, str]) -> str:
    names = [_safe(name) for name in procedure.arguments]
    said = " ".join(filter(None, [procedure.words, "It is atomic." if procedure.is_atomic else ""])) or f"Calls `{procedure.name}`."
    return PROCEDURE.format(method=_safe(procedure.name), arguments="".join(f", {name}: int" for name in names), given="".join(f", {name}" for name in names),
                            name=procedure.name, words=_docstring(said), **words)


def _record(declared: Declared) -> str:
    """The fields of a record: those of the text by their names."""
    names = [f"field_{number}" for number in range(WIDTH)]
    for name, number in declared.fields.items():
        # Names of tuples begin with no `_`; of two names of one field the first holds.
        if names[number] == f"field_{number}" and not name.startswith("_") and name not in (*names, "count", "index"):
            names[number] = _safe(name)
    return "\n".join(f"    {name}: int" for name in names)


def _docstring(said: str) -> str:
    lines = textwrap.wrap(said.replace("\\", "\\\\").replace('"', "'"), 100)
    return '"""' + "\n        ".join(lines) + '"""' if len(lines) == 1 else '"""' + "\n        ".join(lines) + '\n        """'


def _safe(name: str) -> str:
    """The name, or another one where Python has a word of it."""
    return f"{name}_" if keyword.iskeyword(name) or name in OWN or name in ("self", "key") else name


def parser() -> argparse.ArgumentParser:
    words = argparse.ArgumentParser(prog="treedb-stubs", description="Prints a Python module with the procedures of a text of the procedure language, with types.")
    words.add_argument("--version", action="version", version=__version__)
    words.add_argument("--async", dest="is_async", action="store_true", help="for AsyncClient")
    words.add_argument("text", help="a file of the procedure language, as stock.tdb")
    return words


def main() -> int:
    words = parser().parse_args()
    try:
        declared = declared_in(pathlib.Path(words.text).read_text(encoding="utf-8"))
        if not declared.procedures:
            raise ValueError(f"{words.text} declares no procedure")
    except (OSError, ValueError) as fault:
        print(f"treedb-stubs: {fault}", file=sys.stderr)
        return 1
    print(stubs_of(declared, pathlib.Path(words.text).name, words.is_async), end="")
    return 0


if __name__ == "__main__":
    sys.exit(main())
