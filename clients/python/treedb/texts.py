"""Files of procedures, and scripts."""

from __future__ import annotations

import json
import os
import pathlib
import struct
from collections.abc import Iterable
from typing import Any

from .protocol import Call, register_request, text_request, wanted

__all__ = ["script"]

# The texts of a container's instructions by their opcodes. `docs/use/formats.md` has the operands x, y, z and w.
INSTRUCTIONS = {
    1: "set v{x} {w}",
    2: "copy v{x} v{y}",
    3: "add v{x} v{y} v{z} else L{w}",
    4: "sub v{x} v{y} v{z} else L{w}",
    5: "mul v{x} v{y} v{z} else L{w}",
    6: "div v{x} v{y} v{z} else L{w}",
    7: "jmp L{w}",
    8: "jlt v{x} v{y} L{w}",
    9: "jeq v{x} v{y} L{w}",
    10: "rep {w}",
    11: "end",
    12: "first n{x} v{y} else L{w}",
    13: "child n{x} n{y} v{z} else L{w}",
    14: "move n{x} n{y}",
    15: "rel n{x}",
    16: "get v{x} n{y} {z}",
    17: "put n{x} {y} v{z}",
    18: "kids v{x} n{y}",
    19: "emit v{x}",
    20: "ret",
    21: "repv v{x} {w}",
}
HEADS = {b"TLP1": "", b"TLP2": "version 2\n"}


def file_request(path: str | os.PathLike[str], name: str | None) -> dict[str, Any]:
    """The request that registers the procedures of a file."""
    file = pathlib.Path(path)
    if file.suffix == ".tdb":
        if name is not None:
            raise ValueError(f"{file}: a text of the procedure language names its procedures itself")
        return text_request(file.read_text(encoding="utf-8"))
    text = assembler_text(file.read_bytes()) if file.suffix == ".tlp" else file.read_text(encoding="utf-8")
    return register_request(file.stem if name is None else name, text)


def assembler_text(container: bytes) -> str:
    """The assembler text of a container, whose targets are positions of its instructions. What has another form is a `ValueError`."""
    if container[:4] not in HEADS or len(container) < 8 or len(container) % 8 != 0:
        raise ValueError("no container of a procedure")
    code = [(opcode, {"x": x, "y": y, "z": z, "w": w}) for opcode, x, y, z, w in struct.iter_unpack(">4Bi", container[8:])]
    if not all(opcode in INSTRUCTIONS for opcode, _ in code):
        raise ValueError("no container of a procedure")
    targets = {operands["w"] for opcode, operands in code if "L{w}" in INSTRUCTIONS[opcode]}
    lines = [INSTRUCTIONS[opcode].format(**operands) + "\n" for opcode, operands in code] + [""]
    labelled = [f"L{position}:\n{line}" if position in targets else line for position, line in enumerate(lines)]
    return f"{HEADS[container[:4]]}arity {container[4]}\n" + "".join(labelled)


def script(procedures: dict[str, str], calls: Iterable[Call]) -> str:
    """The text of a script for `treedb run`: procedures as {name: assembler text}, calls as [(procedure, argument, ..), ..]. With
    `--proc FILE.tdb` it needs none."""
    return json.dumps({"calls": wanted(calls), "procs": list(procedures.items())}, indent=2) + "\n"
