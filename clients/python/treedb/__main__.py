"""Trees and tables: treedb-tables --help, or python3 -m treedb --help."""

from __future__ import annotations

import argparse
import json
import sys
from typing import Any

from . import __version__
from .stores import write_names
from .tables import USUAL_NODES, read_table, shown, write_table


def from_table(words: argparse.Namespace) -> None:
    with open(words.table, encoding="utf-8", newline="") as table:
        tree, names = read_table(table)
    with open(words.tree, "w", encoding="utf-8") as file:
        json.dump(tree, file, separators=(",", ":"))
        file.write("\n")
    with open(words.names, "w", encoding="utf-8") as file:
        json.dump(names, file, ensure_ascii=False)
        file.write("\n")
    print(f"{len(names)} nodes")
    if len(names) > USUAL_NODES:
        print(f"treedb-tables: treedb takes trees of more than {USUAL_NODES} nodes with --nodes {len(names)}", file=sys.stderr)


def to_table(words: argparse.Namespace) -> None:
    tree, names = loaded(words.tree), loaded(words.names)
    with open(words.table, "w", encoding="utf-8", newline="") as table:
        write_table(table, tree, names, words.fields.split(",") if words.fields else ())


def show(words: argparse.Namespace) -> None:
    tree, names = loaded(words.tree), loaded(words.names) if words.names else None
    if not 0 <= words.node < len(tree["parents"]):
        raise ValueError(f"no node {words.node}")
    for line in shown(tree, names, words.node):
        print(line)


def name(words: argparse.Namespace) -> None:
    print(f"{write_names(words.store, loaded(words.names))} names")


def loaded(path: str) -> Any:
    with open(path, encoding="utf-8") as file:
        return json.load(file)


def parser() -> argparse.ArgumentParser:
    words = argparse.ArgumentParser(prog="treedb-tables", description="Trees and tables, with names for nodes.")
    words.add_argument("--version", action="version", version=__version__)
    commands = words.add_subparsers(required=True, metavar="COMMAND")

    command = commands.add_parser("tree", help="make a tree and its names of a table (CSV) of paths and fields")
    for argument in ("table", "tree", "names"):
        command.add_argument(argument)
    command.set_defaults(do=from_table)

    command = commands.add_parser("table", help="make a table (CSV) of a tree and its names")
    for argument in ("tree", "names", "table"):
        command.add_argument(argument)
    command.add_argument("--fields", help="the names of the fields, with commas between")
    command.set_defaults(do=to_table)

    command = commands.add_parser("show", help="print a tree, or what is below a node, indented")
    command.add_argument("tree")
    command.add_argument("node", nargs="?", type=int, default=0)
    command.add_argument("--names")
    command.set_defaults(do=show)

    command = commands.add_parser("name", help="write the names of nodes into the file of a store, for SQLite")
    for argument in ("store", "names"):
        command.add_argument(argument)
    command.set_defaults(do=name)
    return words


def main() -> int:
    words = parser().parse_args()
    try:
        words.do(words)
    except (OSError, ValueError, KeyError) as fault:
        print(f"treedb-tables: {fault}", file=sys.stderr)
        return 1
    return 0


if __name__ == "__main__":
    sys.exit(main())
