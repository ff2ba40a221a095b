"""What a server with a store has stored, row by row, for whoever keeps a copy of it. `docs/use/following.md` has the line."""

from __future__ import annotations

import os
import socket
from typing import Any, NamedTuple

from .connection import LOOPBACK, address_of, connected
from .errors import Disconnected, TimedOut
from .protocol import answer_of, line_of

__all__ = ["Follower", "Position", "Rows"]

# How many seconds an answer may take: the first one has the whole tree.
PATIENCE = 120.0


class Position(NamedTuple):
    """A place in what is stored: a volume, and how many rows of each of its tables are before it."""

    volume: int
    """how many epochs the volumes before it have; 0 of a store in one file"""
    nodes: int = 0
    procedures: int = 0
    calls: int = 0
    turns: int = 0
    replies: int = 0
    seals: int = 0


class Rows(NamedTuple):
    """The rows between two positions of one volume. Epochs are those of the volume, and a row's number is that of `first` and its place here."""

    first: Position
    to: Position
    node: list[tuple[int, int]]
    """parent, and the epoch at whose beginning the node was there first"""
    procedure: list[tuple[str, bytes]]
    """name, container"""
    call: list[tuple[int, int, str, str, str | None]]
    """epoch, number there, procedure, arguments as JSON, key"""
    turn: list[tuple[int, bytes]]
    """epoch, and the call of each turn in two bytes"""
    reply: list[tuple[int, int, str]]
    """epoch, call, reply as JSON"""
    seal: list[tuple[int, int, int, int]]
    """how many procedures, calls, turns and replies there were"""
    record: list[list[int]] | None
    """the record of each node at the last seal before `to`, if it came"""
    opening: list[list[int]] | None
    """the record of each node of the volume's first tree, at its beginning"""


class Follower:
    """A connection to a server's address for followers."""

    def __init__(self, host: str = LOOPBACK, port: int | None = None, *, path: str | os.PathLike[str] | None = None, timeout: float = PATIENCE, holds: bool = False) -> None:
        """With `holds` each request tells the server that everything before its position is kept for good, so that answers to callers can wait for it."""
        self._peer = connected(address_of(host, port, path), timeout)
        self._lines = self._peer.makefile("rb")
        self._op = "hold" if holds else "follow"

    def __enter__(self) -> Follower:
        return self

    def __exit__(self, *_: object) -> None:
        self.close()

    def close(self) -> None:
        self._lines.close()
        self._peer.close()

    def rows(self, at: Position | None = None, records: int | None = None, wait: int = 0) -> Rows:
        """The rows behind a position: up to the next seal, or, where none is behind it, all that are stored; without a position those of the first volume. If there is none yet, the server
        waits up to `wait` milliseconds. `records` says after how many seals of the volume the caller's records are; others come where they are those of the last seal. At the end of a closed
        volume there are no rows, and `to` is the beginning of the next one. `Refused` with 1021 where the position isn't one of the store."""
        asked = {"from": None if at is None else list(at), "op": self._op, "records": records, "wait": wait}
        try:
            self._peer.sendall(line_of(asked))
            line = self._lines.readline()
        except socket.timeout as late:
            raise TimedOut("no answer in time") from late
        except OSError as lost:
            raise Disconnected(f"the connection is lost: {lost}") from lost
        if not line.endswith(b"\n"):
            raise Disconnected("the server ended the connection")
        return _rows_of(at, answer_of(line))


def _rows_of(at: Position | None, answer: dict[str, Any]) -> Rows:
    to = Position(*answer["to"])
    return Rows(
        at if at is not None and at.volume == to.volume else Position(to.volume),
        to,
        answer["node"],
        [(name, bytes.fromhex(container)) for name, container in answer["procedure"]],
        answer["call"],
        [(epoch, bytes.fromhex(calls)) for epoch, calls in answer["turn"]],
        answer["reply"],
        answer["seal"],
        answer["record"],
        answer["opening"],
    )
