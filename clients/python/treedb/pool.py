"""Connections that threads share."""

from __future__ import annotations

import contextlib
import os
import threading
from collections.abc import Iterable, Iterator
from typing import Any

from .client import Client
from .connection import LOOPBACK, PATIENCE, TIMEOUT, until_answered
from .errors import Disconnected, TimedOut
from .protocol import Answer, Batch, Call, new_key

__all__ = ["Pool"]


class Pool:
    """Up to `size` connections to a server, for any number of threads.

        with Pool(port=7878, size=4) as pool:
            pool.call("sell", 16, 2)
            with pool.client() as db:
                db.register_file("stock.tdb")

    A connection is made when it is first needed. One that is lost is left out, and so is one that the server has ended while nobody used it: the next request has a new one.
    A server has places for as many connections as its `--at-once` says, 8 if it says nothing.
    """

    def __init__(self, host: str = LOOPBACK, port: int | None = None, *, path: str | os.PathLike[str] | None = None, size: int = 4,
                 timeout: float | None = TIMEOUT, seals: bool = False) -> None:
        """`timeout` is in seconds, for each answer, and for a connection of the pool that is free. The other words are those of `Client`."""
        if size < 1:
            raise ValueError("a pool has one connection at least")
        self._address: dict[str, Any] = {"host": host, "port": port} if path is None else {"path": path, "port": port}
        self._timeout, self._seals = timeout, seals
        self._places = threading.Semaphore(size)
        self._lock = threading.Lock()
        self._idle: list[Client] = []
        self._is_closed = False

    @contextlib.contextmanager
    def client(self) -> Iterator[Client]:
        """A client for the block alone. Where none is free in time, it is a `TimedOut`."""
        if not self._places.acquire(timeout=self._timeout):
            raise TimedOut("no connection of the pool was free in time")
        try:
            lent = self._taken()
            try:
                yield lent
            finally:
                self._put_back(lent)
        finally:
            self._places.release()

    def call(self, procedure: str, *arguments: int, key: str | None = None) -> Answer:
        """As `Client.call`."""
        with self.client() as db:
            return db.call(procedure, *arguments, key=key)

    def call_once(self, procedure: str, *arguments: int, key: str | None = None, patience: float = PATIENCE) -> Answer:
        """As `Client.call_once`: also where the server can't be reached at first."""
        wanted_key = new_key() if key is None else key
        return until_answered(lambda: self.call(procedure, *arguments, key=wanted_key), patience)

    def batch(self, calls: Iterable[Call], workers: int = 1) -> Batch:
        """As `Client.batch`."""
        with self.client() as db:
            return db.batch(calls, workers)

    def read(self, node: int) -> list[int]:
        """As `Client.read`."""
        with self.client() as db:
            return db.read(node)

    def close(self) -> None:
        """Ends the connections that nobody uses, and each other one when its block ends."""
        with self._lock:
            self._is_closed = True
            ended, self._idle = self._idle, []
        for client in ended:
            _end(client)

    def __enter__(self) -> Pool:
        return self

    def __exit__(self, *_: Any) -> None:
        self.close()

    def _taken(self) -> Client:
        with self._lock:
            if self._is_closed:
                raise Disconnected("the pool is closed")
            found = self._idle.pop() if self._idle else None
        if found is None:
            return Client(**self._address, timeout=self._timeout, seals=self._seals)
        if not found.is_idle():
            found.reconnect()
        return found

    def _put_back(self, client: Client) -> None:
        with self._lock:
            if client.is_open and not self._is_closed:
                self._idle.append(client)
                return
        _end(client)


def _end(client: Client) -> None:
    # The server may be gone.
    with contextlib.suppress(Disconnected, TimedOut):
        client.close()
