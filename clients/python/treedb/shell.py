"""A shell for a server: treedb-shell --port 7878, or python3 -m treedb.shell.

    treedb> register stock.tdb
    treedb> call sell "north/aisle 1/shelf 2" 2
    [1]

Its commands come from a terminal, from standard input or a file, a line each, or from `-c`. Where they come from no terminal, the first one that fails ends the shell.
The exit status is 0, 1 where a command failed, 2 for the command line's faults, and 3 where no server answers.
"""

from __future__ import annotations

import argparse
import difflib
import glob
import json
import os
import re
import shlex
import sys
from collections.abc import Iterable, Iterator
from dataclasses import dataclass, replace
from typing import Any, Callable, NoReturn

from . import __version__, control
from .client import Client
from .connection import TIMEOUT, until_answered
from .errors import Error, Refused, Unanswered
from .faults import FAULTS
from .names import SEPARATOR, Names, printable
from .protocol import Bounds
from .reading import Declared, Procedure, declared_in

__all__ = ["Shell", "main"]

PROMPT = "treedb> "
HISTORY = "~/.treedb_history"
NUMBER = re.compile(r"[+-]?[0-9][0-9_]*")
# What a path begins with that looks like a number.
PATH_SIGN = "@"
WIDTH = 8


class Wrong(Exception):
    """A command that can't be done, with what is wrong with it."""


class Left(Exception):
    """The shell is to end."""


@dataclass(frozen=True)
class Known:
    """What the shell knows of a procedure."""

    procedure: Procedure
    bounds: Bounds | None = None

    def __str__(self) -> str:
        told = "" if self.bounds is None else f"  at most {self.bounds.steps} steps, {self.bounds.locks} locks, {self.bounds.emits} emitted numbers"
        return f"{'atomic ' * self.procedure.is_atomic}{self.procedure.name}({', '.join(self.procedure.arguments)}){told}"


@dataclass(frozen=True)
class Where:
    """Where a server listens, or its control, in the words of `Client`."""

    port: int | None = None
    path: str | None = None

    def words(self, purpose: str) -> dict[str, Any]:
        if self.port is None and self.path is None:
            raise Wrong(f"the shell knows no {purpose}; treedb-shell --help says how it is named")
        return {"port": self.port} if self.path is None else {"path": self.path}


class Shell:
    """The state of a shell, and its commands."""

    def __init__(self, server: Where, its_control: Where, names: Names | None, is_json: bool = False, timeout: float | None = TIMEOUT,
                 wait: float = 0) -> None:
        """`wait` is for how many seconds a server is waited for that doesn't answer yet."""
        self.server, self.control, self.names, self.is_json, self.timeout, self.wait = server, its_control, names, is_json, timeout, wait
        self.known: dict[str, Known] = {}
        self.fields: dict[str, int] = {}
        self._client: Client | None = None

    # ---- what it does with a line

    def do(self, line: str) -> None:
        """Does a command. One that can't be done is a `Wrong`; what the server refuses, or doesn't answer, is an `Error`."""
        try:
            words = shlex.split(line, comments=True)
        except ValueError as reason:
            raise Wrong(str(reason)) from None
        if not words:
            return
        command = COMMANDS.get(words[0])
        if command is None:
            raise Wrong(f"there is no command {words[0]}{_like(words[0], COMMANDS)}; help lists them")
        if not command.least <= len(words) - 1 <= command.most:
            raise Wrong(f"usage: {command.usage}")
        command.does(self, words[1:])

    def say(self, text: str | Iterable[str], value: Any) -> None:
        """Prints what came of a command: a text for people, or a value as JSON."""
        if self.is_json:
            print(json.dumps(value, ensure_ascii=False, separators=(",", ":")), flush=True)
        else:
            for line in [text] if isinstance(text, str) else text:
                print(line, flush=True)

    def close(self) -> None:
        if self._client is not None:
            client, self._client = self._client, None
            try:
                client.close()
            except Unanswered:
                pass

    @property
    def client(self) -> Client:
        """A connection, which is made when it is first needed, and anew where it was lost."""
        if self._client is None or not self._client.is_idle():
            words = self.server.words("server")
            self._client = until_answered(lambda: Client(**words, timeout=self.timeout), self.wait)
        return self._client

    # ---- nodes

    def node(self, word: str) -> int:
        """The number of a node: a number, or a path."""
        if NUMBER.fullmatch(word):
            return int(word)
        if self.names is None:
            raise Wrong(f"{word!r} is no number, and the shell knows no names; they come by --tree and --names")
        path = word[len(PATH_SIGN) :] if word.startswith(PATH_SIGN) and word not in self.names else word
        if path.strip(SEPARATOR) not in self.names:
            raise Wrong(f"no node has the path {printable(path)!r}{_like(path, self.names)}")
        return self.names[path.strip(SEPARATOR)]

    def tree_of(self) -> Names:
        if self.names is None:
            raise Wrong("the shell knows no tree; it comes by --tree, and names by --names")
        return self.names

    def below(self, top: int, depth: int) -> list[tuple[int, int]]:
        """The nodes from one on down to a depth, each after its parent, with how far below it is."""
        children: dict[int, list[int]] = {}
        for node, parent in enumerate(self.tree_of().parents):
            if node:
                children.setdefault(parent, []).append(node)
        if not 0 <= top < len(self.tree_of().parents):
            raise Wrong(f"no node {top}")
        found, waiting = [], [(top, 0)]
        while waiting:
            node, level = waiting.pop()
            found.append((node, level))
            if level < depth:
                waiting.extend((child, level + 1) for child in reversed(children.get(node, [])))
        return found

    def record_line(self, record: list[int]) -> str:
        """A record for people: by the names of its fields, as far as a text that was registered has told them, and else as a list."""
        if not self.fields:
            return str(record)
        names = {number: name for name, number in self.fields.items()}
        return ", ".join(f"{names.get(number, f'field {number}')} {value}" for number, value in enumerate(record) if number in names or value)

    def show(self, nodes: list[tuple[int, int]]) -> None:
        """Prints nodes with their records, indented by their levels."""
        records = self.client.read_all(node for node, _ in nodes)
        names = self.tree_of()
        lines = [f"{'  ' * level}{node} {printable(names.names[node])}  {self.record_line(record)}" for (node, level), record in zip(nodes, records)]
        self.say(lines, [{"node": node, "name": names.names[node], "level": level, "record": record} for (node, level), record in zip(nodes, records)])

    # ---- procedures

    def learn(self, declared: Declared, bounds: dict[str, Bounds] | None = None) -> None:
        """Remembers what a text declares."""
        told = bounds or {}
        self.fields.update(declared.fields)
        for procedure in declared.procedures:
            before = self.known.get(procedure.name)
            self.known[procedure.name] = Known(procedure, told.get(procedure.name, before.bounds if before else None))

    def registered(self, path: str, bounds: dict[str, Bounds]) -> None:
        """Remembers and prints the procedures that a file has brought."""
        self.learn(_declared_by(path), bounds)
        for name, its_bounds in bounds.items():
            known = self.known.setdefault(name, Known(Procedure(name, ("..",))))
            self.known[name] = replace(known, bounds=its_bounds)
        self.say([str(self.known[name]) for name in bounds], {name: its_bounds._asdict() for name, its_bounds in bounds.items()})

    # ---- completion

    def completing(self, line: str) -> tuple[int, list[str]]:
        """From where on a line may be completed, and by what."""
        start, before = _last_word(line)
        word = line[start:]
        if not before:
            return start, [name for name in COMMANDS if name.startswith(word)]
        command = COMMANDS.get(before[0])
        if command is None or len(before) > command.most:
            return start, []
        kind = command.completed[min(len(before) - 1, len(command.completed) - 1)] if command.completed else ""
        plain = word.lstrip("\"'")
        return start, [_quoted(each, word[:1] in ("'", '"')) for each in self.words_of(kind, plain) if each.startswith(plain)]

    def words_of(self, kind: str, begun: str) -> list[str]:
        """The words of a kind that one that is begun may become."""
        if kind == "procedure":
            return sorted(self.known)
        if kind == "node":
            return [path for path in self.names or () if path.count(SEPARATOR) == begun.count(SEPARATOR)]
        if kind == "file":
            return [f"{path}/" if os.path.isdir(path) else path for path in sorted(glob.glob(f"{glob.escape(begun)}*"))]
        if kind == "command":
            return [*COMMANDS]
        return [str(number) for number in FAULTS] if kind == "number" else []


# ---- the commands


@dataclass(frozen=True)
class Command:
    """A command: what it takes, how many words, and what each of them may be; the last kind is that of all further ones."""

    usage: str
    words: str
    does: Callable[[Shell, list[str]], None]
    completed: tuple[str, ...] = ()

    @property
    def least(self) -> int:
        return sum(word[0].isupper() for word in self.usage.split()[1:])

    @property
    def most(self) -> int:
        parts = self.usage.split()[1:]
        return sys.maxsize if any(part.endswith("..") or part.endswith("..]") for part in parts) else len(parts)


def call(shell: Shell, words: list[str]) -> None:
    answer = shell.client.call(words[0], *map(shell.node, words[1:]))
    shell.say(str(answer.reply), answer._asdict())


def record(shell: Shell, words: list[str]) -> None:
    nodes = [shell.node(word) for word in words]
    records = shell.client.read_all(nodes)
    shell.say([shell.record_line(each) for each in records], records if len(records) > 1 else records[0])


def tree(shell: Shell, words: list[str]) -> None:
    depth = int(words[1]) if len(words) > 1 and words[1].isdecimal() else sys.maxsize
    if len(words) > 1 and not words[1].isdecimal():
        raise Wrong(f"{words[1]!r} is no depth")
    shell.show(shell.below(shell.node(words[0]) if words else 0, depth))


def ls(shell: Shell, words: list[str]) -> None:
    shell.show([(node, 0) for node, level in shell.below(shell.node(words[0]) if words else 0, 1) if level])


def procedures(shell: Shell, _: list[str]) -> None:
    lines = [str(known) for _, known in sorted(shell.known.items())]
    shell.say(lines or ["none that this shell knows: --text FILE and register tell it of those of a file"],
              {name: {"arguments": known.procedure.arguments, "bounds": known.bounds._asdict() if known.bounds else None} for name, known in shell.known.items()})


def register(shell: Shell, words: list[str]) -> None:
    try:
        shell.registered(words[0], shell.client.register_file(words[0]))
    except Refused as refusal:
        # A name that is taken: most often this file was registered before. Its names are known from here on, whatever code they have.
        if refusal.number == 611:
            shell.learn(_declared_by(words[0]))
        raise


def replace_file(shell: Shell, words: list[str]) -> None:
    shell.registered(words[0], shell.client.replace_text(_text_of(words[0])))


def grow(shell: Shell, words: list[str]) -> None:
    nodes = shell.client.grow(shell.tree_of(), words)
    shell.say([f"{node} {printable(word)}" for node, word in zip(nodes, words)], dict(zip(words, nodes)))


def explain(shell: Shell, words: list[str]) -> None:
    fault = FAULTS.get(int(words[0])) if words[0].isdecimal() else None
    if fault is None:
        raise Wrong(f"no fault has the number {words[0]}")
    shell.say([fault.meaning, f"what to do: {fault.advice}"], fault._asdict())


def status(shell: Shell, _: list[str]) -> None:
    told = control.status(**shell.control.words("control"), timeout=shell.timeout)
    shell.say([f"{name} {value}" for name, value in told._asdict().items()], told._asdict())


def snapshot(shell: Shell, words: list[str]) -> None:
    control.snapshot(words[0], **shell.control.words("control"), timeout=None)
    shell.say(words[0], {"snapshot": words[0]})


def volume(shell: Shell, _: list[str]) -> None:
    number = control.volume(**shell.control.words("control"), timeout=None)
    shell.say(f"volume {number}", {"volume": number})


def stop(shell: Shell, _: list[str]) -> None:
    control.stop(**shell.control.words("control"), timeout=shell.timeout)
    shell.say("the server is stopping", {"stopping": True})


def help_with(shell: Shell, words: list[str]) -> None:
    if words and words[0] not in COMMANDS:
        raise Wrong(f"there is no command {words[0]}{_like(words[0], COMMANDS)}")
    chosen = [COMMANDS[words[0]]] if words else [*COMMANDS.values()]
    width = max(len(command.usage) for command in chosen)
    shell.say([f"{command.usage:{width}}  {command.words}" for command in chosen], {command.usage: command.words for command in chosen})


def leave(_: Shell, __: list[str]) -> NoReturn:
    raise Left


COMMANDS: dict[str, Command] = {command.usage.split()[0]: command for command in (
    Command("call PROCEDURE [argument..]", "runs a call and prints its reply; an argument is a number, or the path of a node, with @ before one that looks like a number", call, ("procedure", "node")),
    Command("record NODE [node..]", "prints the records of nodes", record, ("node",)),
    Command("ls [node]", "prints the children of a node with their records", ls, ("node",)),
    Command("tree [node] [depth]", "prints what is below a node with its records", tree, ("node",)),
    Command("grow PATH [path..]", "adds nodes, and writes their names into the file of names", grow, ("node",)),
    Command("procedures", "prints the procedures that this shell knows of", procedures),
    Command("register FILE", "registers the procedures of a file", register, ("file",)),
    Command("replace FILE", "puts the procedures of a file in the place of those with their names", replace_file, ("file",)),
    Command("explain NUMBER", "prints what the number of a refusal means, and what to do", explain, ("number",)),
    Command("status", "prints what the server says of itself, by its control", status),
    Command("snapshot NAME", "has the server copy its store, by its control", snapshot),
    Command("volume", "has the server go on in a new volume of its store, by its control", volume),
    Command("stop", "has the server end, by its control", stop),
    Command("help [command]", "prints the commands", help_with, ("command",)),
    Command("quit", "ends the shell", leave),
)}


IN_SESSIONS = "this server is in session mode (--connections), which has no such request"
# What to do where the server doesn't know what a command asks for.
UNKNOWN = {"volume": "start the server with --store FOLDER/: this one's store has no volumes", "snapshot": "start the server with --store and --snapshots: this one makes no copies", **dict.fromkeys(("register", "replace", "grow", "status"), IN_SESSIONS)}


# ---- words


def _like(word: str, known: Iterable[str]) -> str:
    found = difflib.get_close_matches(word, [*known], 1)
    return f"; did you mean {printable(found[0])!r}?" if found else ""


def _last_word(line: str) -> tuple[int, list[str]]:
    """Where the last word of a line begins, and the words before it."""
    start, quote = 0, ""
    for place, letter in enumerate(line):
        if quote:
            quote = "" if letter == quote else quote
        elif letter in "\"'":
            quote = letter
        elif letter.isspace():
            start = place + 1
    try:
        return start, shlex.split(line[:start])
    except ValueError:
        return start, []


def _quoted(word: str, is_begun: bool) -> str:
    """A word as it is typed, behind a quotation mark where it needs one, or has one: it may go on, so the second one is left to who types."""
    if is_begun or not re.fullmatch(r"[\w./@:+,-]*", word):
        return '"' + word.replace("\\", "\\\\").replace('"', '\\"')
    return word


def _text_of(path: str) -> str:
    with open(path, encoding="utf-8") as file:
        return file.read()


def _declared_by(path: str) -> Declared:
    """What a text of the procedure language declares; another file declares nothing."""
    return declared_in(_text_of(path)) if path.endswith(".tdb") else Declared()


# ---- the program


def parser() -> argparse.ArgumentParser:
    words = argparse.ArgumentParser(prog="treedb-shell", description="A shell for a treedb server. Its command `help` lists the others.",
                                    epilog="The exit status is 1 where a command failed, and 3 where no server answers.")
    words.add_argument("--version", action="version", version=__version__)
    server, its_control = words.add_mutually_exclusive_group(), words.add_mutually_exclusive_group()
    server.add_argument("--port", type=int, help="the server's port")
    server.add_argument("--socket", metavar="PATH", help="the server's socket")
    its_control.add_argument("--control", type=int, metavar="PORT", help="the port of its control, for status, snapshot and stop")
    its_control.add_argument("--control-socket", metavar="PATH", help="the socket of its control")
    words.add_argument("--tree", metavar="FILE", help="the file of its tree, for ls, tree and paths")
    words.add_argument("--names", metavar="FILE", help="the file of its nodes' names")
    words.add_argument("--text", metavar="FILE", action="append", default=[], help="a text whose procedures are registered already, for completion and the names of fields")
    words.add_argument("--timeout", type=float, default=TIMEOUT, metavar="SECONDS", help="how long an answer may take, %(default)s s if nothing is said; 0 for any time")
    words.add_argument("--wait", type=float, default=0, metavar="SECONDS", help="for how long to wait for a server that doesn't answer yet")
    words.add_argument("--json", action="store_true", help="print what comes of each command as a line of JSON")
    words.add_argument("--keep-going", action="store_true", help="go on where a command fails, also without a terminal")
    words.add_argument("-c", dest="commands", metavar="COMMAND", action="append", help="do this command; may be repeated")
    words.add_argument("file", nargs="?", metavar="FILE", help="a file of commands, in the place of standard input")
    return words


def names_of(tree: str | None, names: str | None) -> Names | None:
    """The names of a tree's file and a file of names; without the second no node has one."""
    if tree is None:
        if names is not None:
            raise ValueError("--names needs --tree")
        return None
    if names is not None:
        return Names.load(tree, names)
    parents = json.loads(_text_of(tree))["parents"]
    return Names(parents, [""] * len(parents))


def commands_of(words: argparse.Namespace, shell: Shell) -> tuple[Iterator[str], bool]:
    """The lines of commands, and whether somebody types them."""
    if words.commands is not None:
        return iter(words.commands), False
    if words.file is not None:
        return iter(_text_of(words.file).splitlines()), False
    if sys.stdin.isatty() and sys.stdout.isatty():
        from .lines import History, typed

        return typed(PROMPT, History(os.environ.get("TREEDB_HISTORY", HISTORY)), shell.completing), True
    return iter(sys.stdin), False


def run(shell: Shell, lines: Iterable[str], goes_on: bool) -> int:
    """Does the commands of these lines, and returns the exit status."""
    worst = 0
    for line in lines:
        try:
            shell.do(line)
        except Left:
            break
        except KeyboardInterrupt:
            worst = _told(shell, "interrupted; a call under way may have been done", 1)
        except Refused as refusal:
            worst = max(worst, _told(shell, f"{refusal}\n  what to do: {_advice(refusal, line)}", 1, {"error": refusal.numbers}))
        except Unanswered as lost:
            worst = max(worst, _told(shell, str(lost), 3))
        except (Wrong, Error, OSError, ValueError, OverflowError) as fault:
            worst = max(worst, _told(shell, str(fault), 1))
        if worst and not goes_on:
            break
    return worst


def _advice(refusal: Refused, line: str) -> str:
    """What to do after a refusal of a command: a server that doesn't know the request was started without what it takes."""
    return UNKNOWN.get(line.split()[0], refusal.advice) if refusal.number == 901 else refusal.advice


def _told(shell: Shell, said: str, exit_status: int, value: Any = None) -> int:
    """Says what went wrong."""
    if shell.is_json:
        shell.say("", {"failed": said} if value is None else value)
    else:
        print(f"treedb-shell: {said}", file=sys.stderr, flush=True)
    return exit_status


def main() -> int:
    words = parser().parse_args()
    try:
        shell = Shell(Where(words.port, words.socket), Where(words.control, words.control_socket), names_of(words.tree, words.names), words.json, words.timeout or None, words.wait)
        for text in words.text:
            shell.learn(_declared_by(text))
        lines, is_typed = commands_of(words, shell)
    except (OSError, ValueError, KeyError) as fault:
        print(f"treedb-shell: {fault}", file=sys.stderr)
        return 2
    try:
        worst = run(shell, lines, is_typed or words.keep_going)
    except KeyboardInterrupt:
        # As a program does that Ctrl-C ends.
        worst = 130
    finally:
        shell.close()
    return 0 if is_typed else worst


if __name__ == "__main__":
    sys.exit(main())
