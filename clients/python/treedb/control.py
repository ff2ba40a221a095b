"""The control port of a server: what it says of itself, how it is ended, and how its store is copied."""

from __future__ import annotations

import os
from typing import Any, NamedTuple

from .connection import LOOPBACK, TIMEOUT, Address, Connection, address_of
from .protocol import answer_of

__all__ = ["Status", "snapshot", "status", "stop"]


class Status(NamedTuple):
    """What a server says of itself."""

    epoch: int
    """the number of the current epoch"""
    generation: int
    """the number of the current generation, from 0"""
    calls: int
    """the calls that were answered"""
    connections: int
    """the connections that are open"""
    nodes: int
    """the nodes of the tree"""
    procedures: int
    """the procedures that there are"""
    refusals: int = 0
    """the requests and calls that were refused"""
    places: int = 0
    """how many connections may be open at once"""
    browsers: int = 0
    """the connections that a browser opened, which were ended"""
    volume: int = 0
    """the number of the live volume of its store: how many epochs the volumes before it have; 0 of a store in one file, and without one"""


def status(host: str = LOOPBACK, port: int | None = None, *, path: str | os.PathLike[str] | None = None, timeout: float | None = TIMEOUT) -> Status:
    """What a server says of itself, asked on its control port or control socket. In session mode it refuses with 901."""
    answer = _told("status", address_of(host, port, path), timeout)
    return Status(**{field: answer[field] for field in Status._fields if field in answer})


def snapshot(name: str, host: str = LOOPBACK, port: int | None = None, *, path: str | os.PathLike[str] | None = None, timeout: float | None = TIMEOUT) -> None:
    """Has a server with a store copy it into the file of that name, in the folder of its `--snapshots`: 1 to 64 ASCII letters, digits, `_` or `-`, and then `.db`. The copy is whole when
    this returns. A name that isn't such, or that a file has, is refused with 1010, and a server that makes no copies with 901."""
    if "\n" in name:
        raise ValueError("a copy's name is one line")
    _told(f"snapshot {name}", address_of(host, port, path), timeout)


def volume(host: str = LOOPBACK, port: int | None = None, *, path: str | os.PathLike[str] | None = None, timeout: float | None = TIMEOUT) -> int:
    """Has a server go on in a new volume of its store, which is a folder: the number of the live one. The volumes before it never change again. A server whose store is one file, or that has
    none, refuses with 901."""
    return int(_told("volume", address_of(host, port, path), timeout)["volume"])


def stop(host: str = LOOPBACK, port: int | None = None, *, path: str | os.PathLike[str] | None = None, timeout: float | None = TIMEOUT) -> None:
    """Asks a server to end, on its control port or control socket. It answers what it has read, and then ends."""
    _told("stop", address_of(host, port, path), timeout)


def _told(word: str, address: Address, timeout: float | None) -> dict[str, Any]:
    """The answer to a word on the control port."""
    connection = Connection(address, timeout)
    try:
        return answer_of(connection.ask(f"{word}\n".encode()))
    finally:
        connection.close()
