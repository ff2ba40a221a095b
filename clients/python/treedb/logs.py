"""What the log of a server has: treedb-logs summary trails, or python3 -m treedb.logs. It looks things up and adds them up; whether a log is right, `treedb audit` says."""

from __future__ import annotations

import argparse
import collections
import hashlib
import json
import pathlib
import sys
from collections.abc import Iterable, Iterator
from typing import Any

from . import __version__

Trail = dict[str, Any]


class Wrong(Exception):
    """What was looked for isn't in the log, or is another."""


def files_of(paths: Iterable[pathlib.Path]) -> list[pathlib.Path]:
    """The files of a log: those that are named, and of a folder `0.json` and so on, by their numbers."""
    files: list[pathlib.Path] = []
    for path in paths:
        files += sorted((file for file in path.glob("*.json") if file.stem.isdigit()), key=lambda file: int(file.stem)) if path.is_dir() else [path]
    if not files:
        raise Wrong("there is no file of a log")
    return files


def gaps(files: list[pathlib.Path]) -> Iterator[str]:
    """Which files of a server's folder aren't there, as far as their numbers tell: nothing tells of those after the last."""
    numbers = [int(file.stem) for file in files if file.stem.isdigit()]
    if numbers and numbers[0] > 0:
        yield f"the log begins with {files[0].name}: what came before isn't here"
    for one, other in zip(numbers, numbers[1:]):
        if other != one + 1:
            yield f"between {one}.json and {other}.json files are missing"


def trails_in(file: pathlib.Path) -> tuple[list[Trail], str]:
    """The trails of a file, one for each epoch, and the file's sum (SHA-256)."""
    data = file.read_bytes()
    try:
        value = json.loads(data)
    except ValueError as fault:
        raise Wrong(f"{file} is no log: {fault}") from None
    trails = value if isinstance(value, list) else [value]
    if not trails or not all(isinstance(trail, dict) and {"calls", "end", "procs", "tree"} <= trail.keys() for trail in trails):
        raise Wrong(f"{file} is no log: a trail has calls, an end, procedures and a tree")
    return trails, hashlib.sha256(data).hexdigest()


def sum_of_tree(parents: list[int], records: list[list[int]]) -> str:
    """The sum (SHA-256) of the tree's file, as `--save` writes it."""
    return hashlib.sha256((json.dumps({"parents": parents, "records": records}, separators=(",", ":")) + "\n").encode()).hexdigest()


def summary(file: pathlib.Path) -> dict[str, Any]:
    """What a file has, in numbers."""
    trails, total = trails_in(file)
    called = collections.Counter(name for trail in trails for name, _, _ in trail["calls"])
    first, last = trails[0], trails[-1]
    return {
        "file": file.name,
        "sha256": total,
        "epochs": len(trails),
        "calls": sum(called.values()),
        "unfinished": sum(reply is None for trail in trails for _, _, reply in trail["calls"]),
        "procedures": dict(sorted(called.items())),
        "nodes": len(last["tree"]["parents"]),
        "first_tree": sum_of_tree(first["tree"]["parents"], first["tree"]["records"]),
        "last_tree": sum_of_tree(last["tree"]["parents"], last["end"]),
    }


def found(receipt: dict[str, Any], files: list[pathlib.Path]) -> dict[str, Any]:
    """The call that an answer of the server names by its number and its epoch."""
    if missing := next(gaps(files), None):
        raise Wrong(f"{missing}; epochs are counted from 0.json")
    epoch, number = receipt.get("epoch", 0), receipt["call"]
    before = 0
    for file in files:
        trails, _ = trails_in(file)
        if epoch < before + len(trails):
            calls = trails[epoch - before]["calls"]
            if not 0 <= number < len(calls):
                raise Wrong(f"epoch {epoch}, in {file.name}, has {len(calls)} calls")
            name, arguments, reply = calls[number]
            if "reply" in receipt and receipt["reply"] != reply:
                raise Wrong(f"the log has another reply: {json.dumps(reply)}")
            return {"file": file.name, "trail": epoch - before, "procedure": name, "args": arguments, "reply": reply}
        before += len(trails)
    raise Wrong(f"the log has {before} epochs")


def compared(printed: list[list[str]], file: pathlib.Path) -> Iterator[tuple[str, str]]:
    """Of each procedure of a text, and of each other one that was called in a file, whether the file has the text's instructions."""
    trails, _ = trails_in(file)
    texts, called = dict(printed), {name for trail in trails for name, _, _ in trail["calls"]}
    logged = dict(trails[-1]["procs"])
    for name in sorted({*texts, *called}):
        if name not in logged:
            yield name, "not in the log"
        elif name not in texts:
            yield name, "called, and not in the text"
        else:
            yield name, "the same" if logged[name] == texts[name] else "other instructions"


def parser() -> argparse.ArgumentParser:
    words = argparse.ArgumentParser(prog="treedb-logs", description="Says what the log of a server has. Whether it is right, `treedb audit` says.")
    words.add_argument("--version", action="version", version=__version__)
    commands = words.add_subparsers(dest="command", required=True)
    for name, text in (
        ("summary", "prints a line of JSON for each file: its sum, epochs and calls, and the sums of its first and last tree"),
        ("receipt", "prints the call that an answer names"),
        ("procedures", "compares the procedures of the last file with those of a text"),
    ):
        command = commands.add_parser(name, description=text, help=text)
        if name == "receipt":
            command.add_argument("receipt", type=json.loads, help='an answer, as {"call":17,"epoch":300,"reply":[5]}')
        if name == "procedures":
            command.add_argument("printed", type=pathlib.Path, help="the file of what `treedb procs` printed of the text")
        command.add_argument("log", type=pathlib.Path, nargs="+", help="files of trails, or a folder of them")
    return words


def run(words: argparse.Namespace) -> Iterator[dict[str, Any]]:
    """What a command prints, a line each."""
    files = files_of(words.log)
    if words.command == "summary":
        lines = [summary(file) for file in files]
        yield from lines
        yield {"files": len(lines), "epochs": sum(line["epochs"] for line in lines), "calls": sum(line["calls"] for line in lines)}
        if missing := "; ".join(gaps(files)):
            raise Wrong(missing)
    elif words.command == "receipt":
        yield found(words.receipt, files)
    else:
        answers = dict(compared(json.loads(words.printed.read_text(encoding="utf-8")), files[-1]))
        yield answers
        if other := [name for name, answer in answers.items() if answer in ("other instructions", "called, and not in the text")]:
            raise Wrong(f"the log isn't of this text: {', '.join(other)}")


def main(words: list[str] | None = None) -> int:
    try:
        for line in run(parser().parse_args(words)):
            print(json.dumps(line, separators=(",", ":")))
    except (OSError, KeyError, TypeError, ValueError, Wrong) as fault:
        print(f"treedb-logs: {fault}", file=sys.stderr)
        return 1
    return 0


if __name__ == "__main__":
    sys.exit(main())
