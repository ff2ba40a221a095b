"""Trees from tables, and tables and pictures of trees.

A table (CSV) of paths and fields becomes a tree with a list of names, and a tree with names becomes a table again.
"""

from __future__ import annotations

import csv
from collections.abc import Iterable, Iterator
from typing import Any, TextIO

from .names import SEPARATOR, Names, printable

__all__ = ["USUAL_NODES", "read_table", "shown", "write_table"]

WIDTH = 8
# So many a tree has at most, with the option `--nodes`; without it so many.
MAX_NODES, USUAL_NODES = 65_535, 4_096


def read_table(table: TextIO) -> tuple[dict[str, Any], list[str]]:
    """The tree of a table, and its names.

    The first row has the names of the columns: a path, and up to eight fields. Each further row is a node: its path, with `/` between names, and its
    fields, integers; a field that is empty or missing is 0. A node that only stands in others' paths has zeros. The row with an empty path is the root's. Nodes are
    numbered as they come, each after its parent; so children keep the order of their rows.
    """
    rows = csv.reader(table)
    head = next(rows, None)
    if not head or len(head) > WIDTH + 1:
        raise ValueError(f"the first row has to name a path and at most {WIDTH} fields")
    parents, names, records = [0], [""], [[0] * WIDTH]
    nodes, told = {"": 0}, set()
    for row in rows:
        if not row:
            continue
        path, fields = row[0].strip(SEPARATOR), row[1:]
        if path and "" in path.split(SEPARATOR):
            raise ValueError(f"line {rows.line_num}: a name in {path!r} is empty")
        if path in told:
            raise ValueError(f"line {rows.line_num}: {path or 'the root'} stands twice")
        told.add(path)
        node = _node_of(path, nodes, parents, names, records)
        if len(fields) > WIDTH:
            raise ValueError(f"line {rows.line_num}: a record has at most {WIDTH} fields")
        for field, text in enumerate(fields):
            records[node][field] = _number(text, rows.line_num)
    return {"parents": parents, "records": records}, names


def _node_of(path: str, nodes: dict[str, int], parents: list[int], names: list[str], records: list[list[int]]) -> int:
    """The node of a path. It is made with those above it where they aren't there."""
    missing = []
    while path not in nodes:
        above, _, name = path.rpartition(SEPARATOR)
        missing.append((path, name))
        path = above
    node = nodes[path]
    for below, name in reversed(missing):
        if len(parents) == MAX_NODES:
            raise ValueError(f"a tree has at most {MAX_NODES} nodes")
        nodes[below] = len(parents)
        parents.append(node)
        names.append(name)
        records.append([0] * WIDTH)
        node = nodes[below]
    return node


def _number(text: str, line: int) -> int:
    try:
        number = int(text) if text.strip() else 0
    except ValueError:
        raise ValueError(f"line {line}: {text!r} is no integer") from None
    if not -(2**63) <= number < 2**63:
        raise ValueError(f"line {line}: {number} doesn't fit 64 bits")
    return number


def write_table(table: TextIO, tree: dict[str, Any], names: list[str], fields: Iterable[str] = ()) -> None:
    """Writes the table of a tree with these names: the row of columns, then a row for each node, in the order of their numbers.

    A node without a name is a `ValueError`.
    """
    columns = [*fields] or [f"field {field}" for field in range(WIDTH)]
    named = Names(tree["parents"], names)
    rows = csv.writer(table, lineterminator="\n")
    rows.writerow(["path", *columns])
    for node, record in enumerate(tree["records"]):
        rows.writerow([named.path(node), *record[: len(columns)]])


def shown(tree: dict[str, Any], names: list[str] | None = None, top: int = 0) -> Iterator[str]:
    """The lines of a tree for people: each node below its parent and indented, with its number, its name and its record."""
    children: list[list[int]] = [[] for _ in tree["parents"]]
    for node, parent in enumerate(tree["parents"]):
        if node:
            children[parent].append(node)
    waiting = [(top, 0)]
    while waiting:
        node, depth = waiting.pop()
        name = f" {printable(names[node])}" if names and names[node] else ""
        fields = ", ".join(map(str, tree["records"][node]))
        yield f"{'  ' * depth}{node}{name}  [{fields}]"
        waiting.extend((child, depth + 1) for child in reversed(children[node]))
