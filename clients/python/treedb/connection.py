"""Where a server listens, a connection to it, and how long to wait before another try."""

from __future__ import annotations

import operator
import os
import random
import socket
import time
import warnings
from collections.abc import Iterator
from typing import Callable, TypeVar, Union

from .errors import Disconnected, Error, TimedOut, Unanswered

LOOPBACK = "127.0.0.1"
# How many seconds an answer may take where nothing else is said, and for how many a call is asked for again.
TIMEOUT = 30.0
PATIENCE = 60.0
# A longer line is none that a server answers.
MAX_ANSWER = 2**24
# The first pause before another try, and the longest.
FIRST_PAUSE, LONGEST_PAUSE = 0.05, 2.0

Value = TypeVar("Value")

# Where a server listens: a host and a port, or the path of a Unix socket.
Address = Union["tuple[str, int]", str]


def address_of(host: str | int, port: int | str | None, path: str | os.PathLike[str] | None) -> Address:
    """Where a server listens. Once the port came before the host; that order is still taken, with a warning."""
    if isinstance(host, int):
        warnings.warn("the host comes first: write Client(host, port), or Client(port=..)", DeprecationWarning, stacklevel=3)
        host, port = port if isinstance(port, str) else LOOPBACK, host
    if path is not None and port is None:
        return os.fspath(path)
    if path is not None or port is None:
        raise TypeError("a client needs a port or a path, and not both")
    if isinstance(port, str):
        raise TypeError(f"{port!r} is no port")
    return host, operator.index(port)


def spoken(address: Address) -> str:
    """The address in a message."""
    return address if isinstance(address, str) else f"{address[0]}:{address[1]}"


class Connection:
    """A connection to a server, a line each way.

    Where a request has no answer, for whatever reason, the connection is closed: after Ctrl-C too, so that a late answer is never taken for that of a later request.
    """

    def __init__(self, address: Address, timeout: float | None) -> None:
        """Connects. `timeout` is in seconds, for connecting and for each answer as a whole; None waits as long as it takes."""
        self._timeout = timeout
        self._socket: socket.socket | None = connected(address, timeout)
        self._rest = bytearray()

    @property
    def is_open(self) -> bool:
        return self._socket is not None

    def ask(self, line: bytes) -> bytes:
        """Sends a line, and returns the one that answers it."""
        if self._socket is None:
            raise Disconnected("the connection is closed")
        is_answered = False
        try:
            answer = self._exchange(self._socket, line)
            is_answered = True
            return answer
        except Error:
            raise
        except socket.timeout as late:
            raise TimedOut("no answer in time", may_have_run=True) from late
        except OSError as lost:
            raise Disconnected(f"the connection is lost: {lost}", may_have_run=True) from lost
        finally:
            if not is_answered:
                self.close()

    def is_idle(self) -> bool:
        """Whether the connection is open, and nothing came on it that nobody has asked for."""
        if self._socket is None or self._rest:
            return False
        self._socket.settimeout(0)
        try:
            self._socket.recv(1, socket.MSG_PEEK)
        except BlockingIOError:
            return True
        except OSError:
            pass
        return False

    def close(self) -> None:
        """Ends the connection. One that is closed stays so."""
        if self._socket is not None:
            self._socket.close()
            self._socket = None

    def _exchange(self, peer: socket.socket, line: bytes) -> bytes:
        end = None if self._timeout is None else time.monotonic() + self._timeout
        peer.settimeout(self._timeout)
        peer.sendall(line)
        searched = 0
        while (found := self._rest.find(b"\n", searched)) < 0:
            searched = len(self._rest)
            if searched > MAX_ANSWER:
                raise Disconnected("the answer is too long", may_have_run=True)
            peer.settimeout(None if end is None else max(end - time.monotonic(), 0.001))
            part = peer.recv(65_536)
            if not part:
                raise Disconnected("the server ended the connection", may_have_run=True)
            self._rest += part
        answer = bytes(self._rest[: found + 1])
        del self._rest[: found + 1]
        return answer


def pauses(patience: float) -> Iterator[float]:
    """How many seconds to wait before each further try, until `patience` seconds are over: each time up to twice as long, and by chance less, so that many clients of a server don't all come at once."""
    end, longest = time.monotonic() + patience, FIRST_PAUSE
    while (left := end - time.monotonic()) > 0:
        yield min(random.uniform(longest / 2, longest), left)
        longest = min(2 * longest, LONGEST_PAUSE)


def until_answered(ask: Callable[[], Value], patience: float) -> Value:
    """What a request gives that may be asked for again: it is, where it has no answer, until `patience` seconds are over."""
    waits, may_have_run = pauses(patience), False
    while True:
        try:
            return ask()
        except Unanswered as lost:
            lost.may_have_run = may_have_run = may_have_run or lost.may_have_run
            pause = next(waits, None)
            if pause is None:
                raise
        time.sleep(pause)


def connected(address: Address, timeout: float | None) -> socket.socket:
    """A socket that is connected to this address, with this time limit in seconds."""
    try:
        return _unix_socket(address, timeout) if isinstance(address, str) else _tcp_socket(address, timeout)
    except socket.timeout as late:
        raise TimedOut(f"{spoken(address)}: no connection in time") from late
    except OSError as failed:
        raise Disconnected(f"{spoken(address)}: {failed}") from failed


def _tcp_socket(address: tuple[str, int], timeout: float | None) -> socket.socket:
    peer = socket.create_connection(address, timeout=timeout)
    peer.setsockopt(socket.IPPROTO_TCP, socket.TCP_NODELAY, 1)
    return peer


def _unix_socket(path: str, timeout: float | None) -> socket.socket:
    peer = socket.socket(socket.AF_UNIX)
    try:
        peer.settimeout(timeout)
        peer.connect(path)
    except BaseException:
        peer.close()
        raise
    return peer
