"""A store that is made of a mirror, for a server to take up. `docs/use/store-format.md` says what its tables are."""

from __future__ import annotations

import contextlib
import hashlib
import os
import pathlib
import sqlite3
from collections.abc import Iterator
from typing import Any, Callable, NamedTuple

from .follow import Position

__all__ = ["Unfinished", "restore"]

FIELDS = ", ".join(f"f{field}" for field in range(8))
RECORD = FIELDS.replace(",", " INTEGER NOT NULL,") + " INTEGER NOT NULL"
# The tables of a store's file, and which form they have.
STORE = [
    "PRAGMA user_version = 1",
    "CREATE TABLE node(number INTEGER PRIMARY KEY, parent INTEGER NOT NULL, epoch INTEGER NOT NULL)",
    f"CREATE TABLE record(node INTEGER PRIMARY KEY, {RECORD})",
    "CREATE TABLE procedure(number INTEGER PRIMARY KEY, name TEXT NOT NULL, container BLOB NOT NULL)",
    "CREATE TABLE call(id INTEGER PRIMARY KEY, epoch INTEGER NOT NULL, number INTEGER NOT NULL, procedure TEXT NOT NULL, arguments TEXT NOT NULL, key TEXT)",
    "CREATE TABLE turn(id INTEGER PRIMARY KEY, epoch INTEGER NOT NULL, calls BLOB NOT NULL)",
    "CREATE TABLE reply(id INTEGER PRIMARY KEY, epoch INTEGER NOT NULL, call INTEGER NOT NULL, reply TEXT NOT NULL)",
    "CREATE TABLE seal(epoch INTEGER PRIMARY KEY, procedures INTEGER NOT NULL, calls INTEGER NOT NULL, turns INTEGER NOT NULL, replies INTEGER NOT NULL)",
    f"CREATE TABLE opening(node INTEGER PRIMARY KEY, {RECORD})",
    "CREATE TABLE name(node INTEGER PRIMARY KEY, path TEXT NOT NULL)",
]
# What a volume has in each table; lists are written as the server writes them, without blanks.
OF_VOLUME = {
    "procedure": "select id, name, container from procedure where volume = %(volume)s order by id",
    "call": "select id, epoch, number, procedure, replace(arguments::text, ' ', ''), key from call where volume = %(volume)s order by id",
    "turn": "select id, epoch, calls from turn where volume = %(volume)s order by id",
    "reply": "select id, epoch, call, replace(reply::text, ' ', '') from reply where volume = %(volume)s order by id",
    "seal": "select id, procedures, calls, turns, replies from seal where volume = %(volume)s order by id",
    "opening": f"select node, {FIELDS} from opening where volume = %(volume)s order by node",
}
# Of the last volume all nodes, the records at its last seal, and the names; of another one what the next begins with.
LAST = {
    "node": "select id, parent, greatest(epoch - %(volume)s, 0) from node order by id",
    "record": f"select id, {FIELDS} from node order by id",
    "name": "select id, name from node where name is not null order by id",
}
CLOSED = {
    "node": "select id, parent, greatest(epoch - %(volume)s, 0) from node where id in (select node from opening where volume = %(next)s) order by id",
    "record": f"select node, {FIELDS} from opening where volume = %(next)s order by node",
}
MANY = 10_000


class Unfinished(Exception):
    """No store is made: the mirror hasn't all that one needs."""


class Volume(NamedTuple):
    """A volume, and the one behind it, if there is one."""

    number: int
    next: int | None


def restore(connect: Callable[[], Any], schema: str, owner: str, store: str) -> Position:
    """Makes a store of a mirror, for a server to take up, and gives the mirror to that server: a file of the volume that was live, or a folder of all volumes if the path ends with `/`. What is
    there already isn't replaced. Returns the position up to which it goes."""
    path = pathlib.Path(store)
    if path.exists():
        raise FileExistsError(f"{store}: there is such a file")
    with contextlib.closing(connect()) as base, base.transaction():
        # From here on the mirror of the server before can't commit, so no answer that waits for it leaves.
        given = base.execute(f'update "{schema}".position set term = term + 1, owner = %s where owner <> %s', [owner, owner])
        if given.rowcount != 1:
            raise ValueError(f"the mirror is that of {owner} already: another server needs another name")
    with contextlib.closing(connect()) as base, base.transaction():
        base.execute("set transaction isolation level repeatable read")
        base.execute(f'set local search_path to "{schema}"')
        at, volumes = _position_of(base), _volumes_of(base)
        part = path.with_name(f"{path.name}.part")
        if store.endswith("/"):
            _write_folder(base, part, at, volumes)
        else:
            _write_volume(base, part, volumes[-1])
    part.rename(path)
    _sync(path.parent)
    return at


def _position_of(base: Any) -> Position:
    found, records = base.execute("select at, records from position").fetchone()
    if found is None:
        raise Unfinished("the mirror has nothing yet")
    at = Position(*found)
    if records != at.volume + at.seals:
        raise Unfinished(f"the mirror was more than an epoch behind: it has the calls up to epoch {at.volume + at.seals}, and the records as they were at epoch {records}")
    return at


def _volumes_of(base: Any) -> list[Volume]:
    """Those with rows, rising."""
    numbers = [number for (number,) in base.execute("select volume from opening where node = 0 order by volume").fetchall()]
    return [Volume(number, behind) for number, behind in zip(numbers, [*numbers[1:], None])]


def _write_folder(base: Any, folder: pathlib.Path, at: Position, volumes: list[Volume]) -> None:
    """Writes a file for each volume, and the sums of those that are closed. Where the position is the beginning of one without rows, all are, and a server goes on behind the last one."""
    folder.mkdir(mode=0o700, exist_ok=True)
    for left in folder.iterdir():
        left.unlink()
    sums = ""
    for volume in volumes:
        file = folder / f"{volume.number}.db"
        _write_volume(base, file, volume)
        if volume.number != at.volume:
            sums += f"{_sum_of(file)}  {file.name}\n"
    if sums:
        (folder / "SHA256SUMS").write_text(sums, encoding="ascii")
        _sync(folder / "SHA256SUMS")
    _sync(folder)


def _write_volume(base: Any, path: pathlib.Path, volume: Volume) -> None:
    """Writes a volume's file, which nobody else may read."""
    path.unlink(missing_ok=True)
    path.touch(mode=0o600)
    queries = {**OF_VOLUME, **(LAST if volume.next is None else CLOSED)}
    with contextlib.closing(sqlite3.connect(path, isolation_level=None)) as file:
        # The file is nobody's before it is whole.
        file.execute("pragma journal_mode = off")
        file.execute("begin")
        for table in STORE:
            file.execute(table)
        for table, query in queries.items():
            for rows in _rows_of(base, table, query, volume):
                marks = ", ".join("?" * len(rows[0]))
                file.executemany(f"insert into {table} values ({marks})", rows)
        file.execute("commit")


def _rows_of(base: Any, table: str, query: str, volume: Volume) -> Iterator[list[Any]]:
    """The rows of a table, some at a time: there may be more of them than memory."""
    with base.cursor(name="restoring") as cursor:
        cursor.execute(query, {"volume": volume.number, "next": volume.next})
        while rows := cursor.fetchmany(MANY):
            yield rows if table != "call" else [(*row, None if key is None else key.decode()) for *row, key in rows]


def _sum_of(file: pathlib.Path) -> str:
    sum_of = hashlib.sha256()
    with file.open("rb") as read:
        while part := read.read(2**20):
            sum_of.update(part)
    return sum_of.hexdigest()


def _sync(path: pathlib.Path) -> None:
    """Has a file, or the names in a folder, on the disk."""
    handle = os.open(path, os.O_RDONLY)
    try:
        os.fsync(handle)
    finally:
        os.close(handle)
