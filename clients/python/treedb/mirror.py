"""A mirror of a server's store in PostgreSQL, for queries and for a second machine: `treedb-mirror`. `docs/use/mirror.md` shows it."""

from __future__ import annotations

import argparse
import contextlib
import json
import pathlib
import re
import sys
import threading
import time
from collections.abc import Iterable, Iterator
from typing import Any, Callable

from .client import Client
from .errors import Error, Refused, Unanswered
from .follow import Follower, Position, Rows
from .names import Names
from .reading import declared_in
from .restoring import Unfinished, restore

__all__ = ["Fenced", "Mirror", "OtherStore", "follow_on", "main", "name_nodes", "show_fields"]

WIDTH = 8
FIELDS = [f"f{field}" for field in range(WIDTH)]
# The tables whose rows are numbered in a volume, and the columns that a follower is told.
COLUMNS = {
    "procedure": "name, container",
    "call": "epoch, number, procedure, arguments, key",
    "turn": "epoch, calls",
    "reply": "epoch, call, reply",
    "seal": "procedures, calls, turns, replies",
}
# A key may have any character, which a text of PostgreSQL may not: so it is the bytes of its UTF-8.
TABLES = f"""
create table position(one boolean primary key default true check (one), at bigint[], before bigint[], records bigint, owner text not null, term bigint not null default 0, moved timestamptz not null default now());
create table node(id integer primary key, parent integer not null, name text, {", ".join(f"{field} bigint not null default 0" for field in FIELDS)}, epoch bigint not null) with (fillfactor = 70);
create table opening(volume bigint, node integer, {", ".join(f"{field} bigint not null" for field in FIELDS)}, primary key (volume, node));
create table procedure(volume bigint, id bigint, name text not null, container bytea not null, primary key (volume, id));
create table call(volume bigint, id bigint, epoch bigint not null, number integer not null, procedure text not null, arguments jsonb not null, key bytea, primary key (volume, id), unique (volume, epoch, number));
create table turn(volume bigint, id bigint, epoch bigint not null, calls bytea not null, primary key (volume, id));
create table reply(volume bigint, id bigint, epoch bigint not null, call integer not null, reply jsonb not null, primary key (volume, id), unique (volume, epoch, call));
create table seal(volume bigint, id bigint, procedures bigint not null, calls bigint not null, turns bigint not null, replies bigint not null, primary key (volume, id));
create view calls as
    select call.volume + call.epoch as epoch, call.number, call.procedure, call.arguments, reply.reply
    from call left join reply on reply.volume = call.volume and reply.epoch = call.epoch and reply.call = call.number;
"""
# For how many seconds a mirror waits before it tries again, and for how many milliseconds a server waits for rows.
PAUSE, WAIT = 0.2, 1_000
# Refusals behind which the same server may answer: its store fails, and it ends; or it had no memory.
PASSING = {1011, 1090, 990}


class Fenced(Exception):
    """The tables belong to another server's mirror."""


class Moved(Exception):
    """The position isn't the one that the mirror knows: it was moved by a connection that was lost before its answer, or by another mirror. Or it isn't known whether a standby has it."""


class OtherStore(Exception):
    """The server's store isn't the one that was mirrored."""


class Mirror:
    """The tables of one schema of a database, for the server that owns them. The first owner takes them; from then on only `restore` gives them to another. So a mirror
    that starts again, or whose connection broke, never takes them back."""

    def __init__(self, connect: Callable[[], Any], schema: str = "treedb", owner: str = "first", term: int | None = None) -> None:
        """With `term` only if the tables were never another's since that term."""
        self._base = connect()
        self._warnings: list[str] = []
        self._base.add_notice_handler(self._hear)
        try:
            at, before, records, own_term = self._found(schema, owner, term)
        except BaseException:
            self._base.close()
            raise
        self.at, self._before, self.term = _position(at), _position(before), int(own_term)
        # The records are those at the beginning of this epoch of all volumes.
        self.records: int | None = records

    def _found(self, schema: str, owner: str, term: int | None) -> Any:
        """What the tables say of themselves; they are made where there are none."""
        with self._base.transaction(), self._base.cursor() as cursor:
            cursor.execute("select pg_advisory_xact_lock(hashtext(%s))", [schema])
            cursor.execute("select 1 from information_schema.tables where table_schema = %s and table_name = 'position'", [schema])
            if cursor.fetchone() is None:
                cursor.execute(f'create schema if not exists "{schema}"')
                cursor.execute(f'set local search_path to "{schema}"')
                cursor.execute(TABLES)
                cursor.execute("insert into position(owner) values (%s)", [owner])
            found = self._taken_up(cursor, schema, owner, term)
        self._check_warnings()
        return found

    def _taken_up(self, cursor: Any, schema: str, owner: str, term: int | None) -> Any:
        """Takes the tables up, for their owner alone. What is read may be committed and not yet where a synchronous standby has it: so this is a commit too, which waits for that."""
        cursor.execute("select set_config('synchronous_commit', 'on', false) where current_setting('synchronous_commit') in ('off', 'local', 'remote_write')")
        cursor.execute("select set_config('search_path', %s, false)", [schema])
        cursor.execute("update position set moved = moved where owner = %s and term = coalesce(%s, term) returning at, before, records, term", [owner, term])
        found = cursor.fetchone()
        if found is None:
            cursor.execute("select owner from position")
            raise Fenced(f"the tables are those of {cursor.fetchone()[0]} now")
        return found

    def close(self) -> None:
        self._base.close()

    def _hear(self, told: Any) -> None:
        if told.severity_nonlocalized == "WARNING":
            self._warnings.append(told.message_primary)

    def _check_warnings(self) -> None:
        """A commit that waits for a standby and is broken off ends with a warning alone. So nothing is held behind one, before another commit had none."""
        if self._warnings:
            raise Moved(self._warnings.pop())

    def records_of_volume(self) -> int | None:
        """After how many seals of the volume the records are; none if they are those of a volume before."""
        if self.at is None or self.records is None or self.records < self.at.volume:
            return None
        return self.records - self.at.volume

    def take(self, rows: Rows) -> None:
        """Puts rows into the tables, and moves the position behind them, all in one transaction. Whatever happens, all of it is there, or nothing."""
        before, records = self._before if rows.to == self.at else self.at, self.records
        if rows.record is not None:
            records = rows.to.volume + rows.to.seals
        elif rows.opening is not None:
            records = rows.to.volume
        with self._base.transaction(), self._base.cursor() as cursor:
            cursor.execute(
                "update position set at = %s::bigint[], before = %s::bigint[], records = %s, moved = now() where term = %s and at is not distinct from %s::bigint[]",
                [list(rows.to), _listed(before), records, self.term, _listed(self.at)],
            )
            if cursor.rowcount != 1:
                raise Moved("the tables have moved on")
            _put_rows(cursor, rows)
            _put_records(cursor, rows.record if rows.record is not None else rows.opening)
        self._check_warnings()
        self._before, self.at, self.records = before, rows.to, records

    def is_continued_by(self, follower: Follower) -> bool:
        """Whether the server's store has the rows that came last, where the mirror has them."""
        before, at = self._before, self.at
        if before is None or at is None or before.volume != at.volume:
            return True
        rows = follower.rows(before, self.records_of_volume())
        with self._base.transaction(), self._base.cursor() as cursor:
            checked: list[tuple[str, list[Any], int, int]] = [("call", _with_bytes(rows.call), before.calls, at.calls), ("turn", [*rows.turn], before.turns, at.turns), ("reply", [*rows.reply], before.replies, at.replies)]
            for table, told, first, to in checked:
                columns = re.sub(r"arguments|reply$", lambda column: f"replace({column[0]}::text, ' ', '')", COLUMNS[table])
                cursor.execute(f"select {columns} from {table} where volume = %s and id >= %s and id < %s order by id", [at.volume, first, to])
                if cursor.fetchall() != [tuple(row) for row in told[: to - first]]:
                    return False
        return True


def _position(found: list[int] | None) -> Position | None:
    return None if found is None else Position(*found)


def _listed(at: Position | None) -> list[int] | None:
    return None if at is None else list(at)


def _put_rows(cursor: Any, rows: Rows) -> None:
    """Puts rows where their volume and their number say. Nodes are the same in each volume: those that are there are passed over."""
    volume, first = rows.first.volume, rows.first
    cursor.execute("select coalesce(max(id) + 1, 0) from node")
    (known,) = cursor.fetchone()
    _copy(cursor, "node(id, parent, epoch)", ((node, parent, volume + epoch) for node, (parent, epoch) in enumerate(rows.node, first.nodes) if node >= known))
    if rows.opening is not None:
        _copy(cursor, f"opening(volume, node, {', '.join(FIELDS)})", _numbered(volume, 0, rows.opening))
    counted: list[tuple[str, Iterable[Any], int]] = [
        ("procedure", rows.procedure, first.procedures),
        ("call", _with_bytes(rows.call), first.calls),
        ("turn", rows.turn, first.turns),
        ("reply", rows.reply, first.replies),
        ("seal", rows.seal, first.seals),
    ]
    for table, told, number in counted:
        _copy(cursor, f"{table}(volume, id, {COLUMNS[table]})", _numbered(volume, number, told))


def _put_records(cursor: Any, records: list[list[int]] | None) -> None:
    if records is None:
        return
    cursor.execute(f"create temp table if not exists fresh(id integer, {', '.join(f'{field} bigint' for field in FIELDS)}) on commit delete rows")
    _copy(cursor, f"fresh(id, {', '.join(FIELDS)})", ((node, *record) for node, record in enumerate(records)))
    own, new = ", ".join(f"node.{field}" for field in FIELDS), ", ".join(f"fresh.{field}" for field in FIELDS)
    cursor.execute(f"update node set ({', '.join(FIELDS)}) = row({new}) from fresh where fresh.id = node.id and ({own}) is distinct from ({new})")


def _numbered(volume: int, first: int, rows: Iterable[Any]) -> Iterator[tuple[Any, ...]]:
    for number, row in enumerate(rows, first):
        yield (volume, number, *row)


def _copy(cursor: Any, table: str, rows: Iterator[tuple[Any, ...]]) -> None:
    """Puts rows into a table. Their text is made here: with what psycopg makes of rows a mirror took three times as long."""
    text = "".join("\t".join(map(_cell, row)) + "\n" for row in rows)
    if text:
        with cursor.copy(f"copy {table} from stdin") as copy:
            copy.write(text)


def _cell(value: int | str | bytes | None) -> str:
    """A value as COPY reads it. A text is JSON of integers or a procedure's name, which have nothing that COPY takes for more."""
    if value is None:
        return "\\N"
    return f"\\\\x{value.hex()}" if isinstance(value, bytes) else str(value)


def _with_bytes(calls: Iterable[tuple[int, int, str, str, str | None]]) -> list[tuple[int, int, str, str, bytes | None]]:
    """Calls with the bytes of their keys."""
    return [(epoch, number, procedure, arguments, None if key is None else key.encode()) for epoch, number, procedure, arguments, key in calls]


class Sealer:
    """Asks a server for a seal once calls came, so that the records in the mirror are no older than so many seconds. It has a thread of its own: where answers wait for a mirror, that of a seal
    waits for this one."""

    def __init__(self, seconds: float, port: int | None, path: str | None) -> None:
        self._seconds, self._port, self._path = seconds, port, path
        self._has_calls = threading.Event()
        threading.Thread(target=self._run, daemon=True).start()

    def see(self, rows: Rows) -> None:
        """Calls behind a seal want another one."""
        if rows.seal:
            self._has_calls.clear()
        elif rows.call:
            self._has_calls.set()

    def _run(self) -> None:
        while self._has_calls.wait():
            self._has_calls.clear()
            try:
                with Client(port=self._port, path=self._path) as db:
                    db.seal()
            except Error as fault:
                _say(fault)
                self._has_calls.set()
            time.sleep(self._seconds)


def name_nodes(base: Any, schema: str, names: list[str]) -> None:
    """Gives nodes their paths. Those that came later have none."""
    with base.transaction(), base.cursor() as cursor:
        cursor.execute(f'select parent from "{schema}".node order by id')
        parents = [parent for (parent,) in cursor.fetchall()]
        paths = Names(parents[: len(names)], names)
        cursor.executemany(f'update "{schema}".node set name = %s where id = %s', list(paths.items()))


def show_fields(base: Any, schema: str, view: str, fields: dict[str, int]) -> None:
    """A view of the nodes whose columns have the names of fields."""
    if view == "calls" or '"' in view:
        raise ValueError(f"no view can have the name {view}")
    shown = "".join(f', f{field} as "{name}"' for name, field in fields.items())
    with base.transaction(), base.cursor() as cursor:
        cursor.execute(f'drop view if exists "{schema}"."{view}"')
        cursor.execute(f'create view "{schema}"."{view}" as select id, parent, name{shown}, epoch from "{schema}".node')


def follow_on(connect: Callable[[], Any], meet: Callable[[], Follower], schema: str, owner: str, once: bool = False, see: Callable[[Rows], None] | None = None) -> None:
    """Mirrors a server, through restarts of both sides. Ends where another mirror takes the tables over, where the server has another store, or with `once` as soon as all is there."""
    import psycopg

    mirror: Mirror | None = None
    term: int | None = None
    while True:
        try:
            mirror = mirror or Mirror(connect, schema, owner, term)
            term = mirror.term
            with meet() as follower:
                if not mirror.is_continued_by(follower):
                    raise OtherStore("the server's store isn't the one that was mirrored")
                _take_all(mirror, follower, once, see)
                return
        except Refused as refused:
            if refused.number not in PASSING:
                raise
            fault: Exception = refused
        except (Unanswered, OSError) as lost:
            fault = lost
        except (psycopg.OperationalError, Moved) as lost:
            # What was committed is read again.
            fault = lost
            if mirror is not None:
                with contextlib.suppress(psycopg.Error):
                    mirror.close()
            mirror = None
        _say(fault)
        time.sleep(PAUSE)


def _take_all(mirror: Mirror, follower: Follower, once: bool, see: Callable[[Rows], None] | None) -> None:
    """Takes what comes; with `once` until nothing is behind the position."""
    while True:
        rows = follower.rows(mirror.at, mirror.records_of_volume(), wait=0 if once else WAIT)
        is_new = rows.to != mirror.at or rows.record is not None
        if is_new:
            mirror.take(rows)
            if see is not None:
                see(rows)
        elif once:
            return


def _say(fault: Exception) -> None:
    print(f"treedb-mirror: {fault}", file=sys.stderr, flush=True)


def _schema(name: str) -> str:
    if not re.fullmatch(r"[a-z_][a-z0-9_]*", name):
        raise argparse.ArgumentTypeError(f"{name!r} isn't a schema's name: small letters, digits and _")
    return name


def parser() -> argparse.ArgumentParser:
    words = argparse.ArgumentParser(prog="treedb-mirror", description="Mirrors the store of a server in PostgreSQL, and makes a store of the mirror again.")
    words.add_argument("--database", required=True, help="as libpq takes it, as 'host=/run/postgresql dbname=things'")
    words.add_argument("--schema", type=_schema, default="treedb", help="the schema of the tables (treedb)")
    words.add_argument("--owner", help="the server that the mirror belongs to; each server has a name of its own (first)")
    commands = words.add_subparsers(dest="command", required=True)
    following = commands.add_parser("follow", help="mirrors what the server stores, until a signal ends it")
    server = following.add_mutually_exclusive_group(required=True)
    server.add_argument("--port", type=int, help="the server's --follow")
    server.add_argument("--socket", help="the server's --follow-socket")
    following.add_argument("--hold", action="store_true", help="answers of a server with --wait-for 1 leave once they are in the mirror")
    following.add_argument("--once", action="store_true", help="ends as soon as all that is stored is there")
    following.add_argument("--fresh", type=float, metavar="SECONDS", help="asks the server for a seal that often, where calls came")
    following.add_argument("--calls-port", type=int, metavar="PORT", help="the server's --port, for --fresh")
    following.add_argument("--calls-socket", metavar="PATH", help="the server's --socket, for --fresh")
    restoring = commands.add_parser("restore", help="gives the mirror to another server, and makes its store")
    restoring.add_argument("store", help="the file for the volume that was live; with / at its end a folder for all volumes")
    naming = commands.add_parser("name", help="gives the nodes their paths")
    naming.add_argument("names", help="a list of names by node number, as `treedb-tables` writes it")
    showing = commands.add_parser("fields", help="makes a view of the nodes with names for the fields")
    showing.add_argument("text", type=pathlib.Path, help="a text of the procedure language, which names the fields; the view has the file's name")
    return words


def connecting(database: str) -> Callable[[], Any]:
    """What connects to a database. The client needs psycopg here alone."""
    import psycopg

    return lambda: psycopg.connect(database)


def run(given: argparse.Namespace) -> None:
    connect = connecting(given.database)
    if given.command == "follow":
        see = None if given.fresh is None else Sealer(given.fresh, given.calls_port, given.calls_socket).see
        follow_on(connect, lambda: Follower(port=given.port, path=given.socket, holds=given.hold), given.schema, given.owner or "first", given.once, see)
    elif given.command == "restore":
        print(json.dumps(restore(connect, given.schema, given.owner, given.store), separators=(",", ":")))
    else:
        with contextlib.closing(connect()) as base:
            if given.command == "name":
                name_nodes(base, given.schema, json.loads(pathlib.Path(given.names).read_text(encoding="utf-8")))
            else:
                show_fields(base, given.schema, given.text.stem, declared_in(given.text.read_text(encoding="utf-8")).fields)


def main(words: list[str] | None = None) -> int:
    asked = parser()
    given = asked.parse_args(words)
    if given.command == "restore" and given.owner is None:
        asked.error("restore needs --owner: the name of the server that takes the mirror over")
    if given.command == "follow" and given.fresh is not None and (given.fresh <= 0 or (given.calls_port is None) == (given.calls_socket is None)):
        asked.error("--fresh needs some seconds, and --calls-port or --calls-socket")
    try:
        import psycopg
    except ImportError as missing:
        _say(missing)
        return 2
    try:
        run(given)
    except (Error, Fenced, OtherStore, Unfinished, OSError, ValueError, psycopg.Error) as fault:
        _say(fault)
        return 1
    return 0


if __name__ == "__main__":
    sys.exit(main())
