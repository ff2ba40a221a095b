"""A client that waits for each answer."""

from __future__ import annotations

import os
import time
from collections.abc import Iterable
from typing import Any

from .connection import LOOPBACK, PATIENCE, TIMEOUT, Connection, address_of, until_answered
from .errors import Disconnected, Exhausted, Refused
from .names import Names
from .protocol import (MAX_BATCH, NAME_TAKEN, READER, READER_TEXT, Answer, Batch, Bounds, Call, Outcome, answer_of, batch_in, batch_request, call_in,
                       call_request, grow_request, line_of, new_key, records_in, register_request, registered_in, replace_request, text_request, wanted, with_place)
from .texts import file_request

__all__ = ["Client"]

# The last call of an epoch: there are 4,096.
LAST_CALL = 4_095
# How many seconds a client waits for the seal of another one, and how long it waits before it asks once more.
SEAL_PATIENCE = 5.0
PAUSE = 0.01


class Client:
    """A connection to a server. It can be used in a `with`, which closes it. One thread uses it at a time."""

    def __init__(self, host: str | int = LOOPBACK, port: int | str | None = None, timeout: float | None = TIMEOUT, seals: bool = False,
                 *, path: str | os.PathLike[str] | None = None) -> None:
        """Connects to a port, or to the Unix socket of a path. A server that can't be reached is `Disconnected`.

        `timeout` is in seconds, for each answer as a whole; None waits as long as it takes. After a `TimedOut`, and after any other exception that comes between a
        request and its answer, as Ctrl-C does, the connection is closed, since the late answer would be taken for that of the next request.

        `seals` is for a server in session mode (`--connections`), which leaves it to its clients to seal an epoch. The client that gets the last call of an epoch
        seals it. Exactly one client gets it, so no two seal at once where all clients of a server do so. A client that finds an epoch full
        waits for that, and asks again. Where nobody seals for seconds, or the epoch has room for calls but not for all that this one may do,
        it seals the epoch itself. Outside of session mode a server never refuses a call for a full epoch, so `seals` changes none of its answers.
        """
        self._seals = seals
        self._reads = False
        self._address, self._timeout = address_of(host, port, path), timeout
        self._is_closed = False
        self._connection = Connection(self._address, timeout)

    def register(self, name: str, text: str) -> Bounds:
        """Registers an assembler text under a name, and returns its `Bounds`."""
        return self._register(register_request(name, text))[name]

    def register_text(self, text: str) -> dict[str, Bounds]:
        """Registers all procedures of a text of the procedure language, or none, and returns their `Bounds` by name, in the order of the text.

        In session mode (`--connections`) a server doesn't take such texts: 901.
        """
        return self._register(text_request(text))

    def register_file(self, path: str | os.PathLike[str], name: str | None = None) -> dict[str, Bounds]:
        """Registers the procedures of a file, and returns their `Bounds` by name.

        Of a file `.tdb` they are those of its text, as `register_text` has it. A container (`.tlp`), and an assembler text in any other file, has one procedure,
        which is registered under `name`, or else the file's name without its ending.
        """
        return self._register(file_request(path, name))

    def replace_text(self, text: str) -> dict[str, Bounds]:
        """Puts all procedures of a text of the procedure language in the place of those with their names, or none, and returns their `Bounds` by name.

        Calls that are answered before run the old code, and calls that are asked for after the answer run the new one. It is 601 if one of the names has no
        procedure yet. In session mode a server refuses with 901.
        """
        return self._register(replace_request(text))

    def call(self, procedure: str, *arguments: int, key: str | None = None) -> Answer:
        """Runs a call to its end, and returns its `Answer`.

        With a `key`, a text of 1 to 64 bytes that no other call has, it can be asked for again after a `Disconnected` or a `TimedOut`, on a new connection and after
        the server's next start: the call is run once. Where that was done before, the answer is a `Recalled`. A server without a store refuses it with 1015.
        """
        request = call_request(procedure, arguments, key)
        began = time.monotonic()
        while True:
            try:
                answer = call_in(self._ask(request))
            except Refused as refusal:
                if not self._is_to_seal(refusal):
                    raise
                self._go_on(refusal, began)
            else:
                self._seal_behind([answer])
                return answer

    def call_once(self, procedure: str, *arguments: int, key: str | None = None, patience: float = PATIENCE) -> Answer:
        """Runs a call to its end once, also where its answer is lost, and returns its `Answer`.

        It has a key, a new one where none is given. After a `Disconnected` or a `TimedOut` the client connects again, with growing pauses, and asks again with the same key: for
        `patience` seconds, and then it raises the last of them. A server without a store refuses it with 1015.
        """
        wanted_key = new_key() if key is None else key

        def ask() -> Answer:
            if not self.is_open:
                self.reconnect()
            return self.call(procedure, *arguments, key=wanted_key)

        return until_answered(ask, patience)

    def batch(self, calls: Iterable[Call], workers: int = 1) -> Batch:
        """Runs 1 to 256 calls, given as (procedure, argument, ..), on 1 to 16 threads at once.

        Returns a list with an `Answer` for each, in order, or a `Refused` where one was refused; its `replies()` raises the first refusal instead. Where the
        last epoch is full, an `Exhausted` stands in the place of each call for which there was no room.
        """
        asked = wanted(calls)
        outcomes = self._batch(asked, workers)
        began = time.monotonic()
        while places := [place for place, outcome in enumerate(outcomes) if self._is_to_seal(outcome)]:
            try:
                self._go_on(outcomes[places[0]], began)
                later = self._batch([asked[place] for place in places], workers)
            except Exhausted as end:
                later = Batch([end] * len(places))
            for place, outcome in zip(places, later):
                outcomes[place] = outcome
        return outcomes

    def read(self, node: int) -> list[int]:
        """The record of a node, eight integers. It registers the procedure `treedb_read` when it is first asked, and is a call as others are.

        A node that isn't there is a `MissingNode`, which is an `IndexError`.
        """
        return self.read_all([node])[0]

    def read_all(self, nodes: Iterable[int]) -> list[list[int]]:
        """The records of these nodes, each read by a call of its own: what others write meanwhile may stand in a later one and not in an earlier one."""
        self._register_reader()
        asked, records = list(nodes), []
        for start in range(0, len(asked), MAX_BATCH):
            some = asked[start : start + MAX_BATCH]
            records += records_in(some, self.batch([(READER, node) for node in some]).answers())
        return records

    def grow(self, names: Names, paths: Iterable[str]) -> list[int]:
        """Adds a node for each of these paths, as `north/aisle 9`, and for each one above it that isn't there. Returns their numbers, in order.

        The new records are zeros. `names` gets the new names after the answer, and so does the file that they were loaded from; programs that share the file take turns. In session mode a server
        refuses with 901. A path that stands there already is a `ValueError`, and nothing is asked then. If the connection
        ends before the answer, nodes may be there that have no name.

        It is one request for the paths of each depth, since the numbers of new nodes are known by the answer alone. Each is a generation of its own, so
        add many nodes at once.
        """
        asked = list(paths)
        with names.turn() as turn:
            turn.is_taken(waits=True)
            for level in names.missing(asked):
                names.append(self._ask(grow_request(names.parents_of(level)))["grown"], level)
        return [names[path] for path in asked]

    def seal(self) -> int:
        """Seals the current epoch, and returns its number. Calls go on in the next one, on the tree as it is.

        In session mode a server refuses it with 606 while a call is unfinished, and with 808 in the last epoch.
        """
        sealed: int = self._ask({"op": "seal"})["sealed"]
        return sealed

    @property
    def is_open(self) -> bool:
        """Whether there is a connection, as far as this client knows."""
        return self._connection.is_open

    def is_idle(self) -> bool:
        """Whether there is a connection that the server hasn't ended, and no answer on it that nobody has asked for."""
        return self._connection.is_idle()

    def reconnect(self) -> None:
        """Connects anew to where the client was made for. After `close` it doesn't: that is a `ValueError`."""
        if self._is_closed:
            raise ValueError("the client is closed")
        self._connection.close()
        self._connection = Connection(self._address, self._timeout)

    def close(self) -> None:
        """Ends the connection. A client that is closed stays so."""
        self._is_closed = True
        if self._connection.is_open:
            try:
                self._ask({"op": "close"})
            finally:
                self._connection.close()

    def __enter__(self) -> Client:
        return self

    def __exit__(self, kind: Any, value: Any, trace: Any) -> None:
        # After another exception the connection may be in the middle of a line.
        if kind is None:
            self.close()
        else:
            self._is_closed = True
            self._connection.close()

    def _register(self, request: dict[str, Any]) -> dict[str, Bounds]:
        try:
            return registered_in(request, self._ask(request))
        except Refused as refusal:
            raise with_place(refusal, request) from None

    def _register_reader(self) -> None:
        if self._reads:
            return
        try:
            self.register(READER, READER_TEXT)
        except Refused as refusal:
            # Another client has registered it.
            if refusal.number != NAME_TAKEN:
                raise
        self._reads = True

    def _batch(self, asked: list[tuple[str, list[int]]], workers: int) -> Batch:
        outcomes = batch_in(self._ask(batch_request(asked, workers)))
        self._seal_behind(outcomes)
        return outcomes

    def _is_to_seal(self, outcome: Outcome) -> bool:
        """Whether the request was refused since the epoch is full, and this client seals."""
        return self._seals and isinstance(outcome, Refused) and outcome.number in (603, 605)

    def _go_on(self, refusal: Any, began: float) -> None:
        """Waits for the seal of the client that got the epoch's last call, or seals the epoch."""
        if refusal.number == 603 and time.monotonic() < began + SEAL_PATIENCE:
            time.sleep(PAUSE)
            return
        try:
            self.seal()
        except Refused as unsealed:
            if unsealed.number == 808:
                raise Exhausted("the last epoch of the server is full") from unsealed
            if unsealed.number != 606:
                raise
            time.sleep(PAUSE)

    def _seal_behind(self, outcomes: Iterable[Outcome]) -> None:
        """Seals the epoch where one of these calls was its last, once the calls of others are done."""
        is_last = any(isinstance(outcome, Answer) and outcome.call == LAST_CALL for outcome in outcomes)
        while self._seals and is_last:
            try:
                self.seal()
                return
            except Refused as unsealed:
                # The next call says that the last epoch is full.
                if unsealed.number == 808:
                    return
                if unsealed.number != 606:
                    raise
                time.sleep(PAUSE)

    def _ask(self, request: dict[str, Any]) -> dict[str, Any]:
        """Sends a request, and returns its answer; raises `Refused` for a refusal. After any other failure there is no connection."""
        answer = self._connection.ask(line_of(request))
        try:
            return answer_of(answer)
        except Disconnected:
            self._connection.close()
            raise
