"""What a text of the procedure language declares, as far as a client needs it: names, arguments and fields. Whether the text is right says the server."""

from __future__ import annotations

import re
from dataclasses import dataclass, field

__all__ = ["Declared", "Procedure", "declared_in"]

COMMENT = re.compile(r"//(.*)")
PROCEDURE = re.compile(r"\b(?P<atomic>atomic\s+)?proc\s+(?P<name>\w+)\s*\((?P<arguments>[^()]*)\)")
FIELD = re.compile(r"\bfield\s+(\w+)\s*=\s*([0-7])\s*;")


@dataclass(frozen=True)
class Procedure:
    """A procedure, and the comment right above it."""

    name: str
    arguments: tuple[str, ...]
    is_atomic: bool = False
    words: str = ""


@dataclass(frozen=True)
class Declared:
    """The procedures of a text, in its order, and its fields by their names."""

    procedures: tuple[Procedure, ...] = ()
    fields: dict[str, int] = field(default_factory=dict)


def declared_in(text: str) -> Declared:
    """What a text declares."""
    # Comments become spaces, so that places stay what they were.
    code = COMMENT.sub(lambda it: " " * len(it[0]), text)
    procedures = tuple(Procedure(found["name"], _names(found["arguments"]), found["atomic"] is not None, _words_above(text, found.start())) for found in PROCEDURE.finditer(code))
    return Declared(procedures, {name: int(number) for name, number in FIELD.findall(code)})


def _names(arguments: str) -> tuple[str, ...]:
    return tuple(filter(None, map(str.strip, arguments.split(","))))


def _words_above(text: str, place: int) -> str:
    """The comment whose lines end right above the line of a place."""
    said: list[str] = []
    for line in reversed(text[:place].split("\n")[:-1]):
        comment = re.fullmatch(r"\s*//\s*(.*?)\s*", line)
        if comment is None:
            break
        said.append(comment[1])
    return " ".join(filter(None, reversed(said)))
