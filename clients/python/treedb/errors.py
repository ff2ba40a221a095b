"""What can go wrong between a program and a server. Each exception of this package is an `Error`."""

from __future__ import annotations

from collections.abc import Iterable

from .faults import FAULTS

__all__ = ["Disconnected", "Error", "Exhausted", "MissingNode", "Refused", "TimedOut", "Unanswered"]


class Error(Exception):
    """The base of all exceptions of this package."""


class Refused(Error):
    """The server refused a request, and nothing was changed.

    `numbers` are the fault's number and then its parts, as `[405, 3, 1]`; `number` is the first, `meaning` says when it is answered, and `advice` what
    to do. Where a text was refused, `line` is the number of its line, from 1, and of the procedure language `column` the place in it.
    """

    def __init__(self, numbers: Iterable[int], line: int | None = None, column: int | None = None) -> None:
        self.numbers = list(numbers)
        self.number = self.numbers[0]
        fault = FAULTS.get(self.number)
        self.meaning = fault.meaning if fault else "a number that this client doesn't know"
        self.advice = fault.advice if fault else "see docs/use/faults.md of the server's version"
        self.line, self.column = line, column
        parts = "".join(f", {part}" for part in self.numbers[1:])
        where = "" if line is None else f" (line {line})" if column is None else f" (line {line}, column {column})"
        super().__init__(f"[{self.number}{parts}] {self.meaning}{where}")


class Exhausted(Error):
    """The last epoch of the server is full: it takes no further call. End it, and start the next one on the tree that it prints. A server that isn't
    in session mode goes on by itself."""


class Unanswered(Error):
    """The base of `Disconnected` and `TimedOut`: a request has no answer.

    `may_have_run` says whether the request may have been done all the same. Where it is False, nothing was sent, and asking again does no harm.
    """

    def __init__(self, reason: str, may_have_run: bool = False) -> None:
        super().__init__(reason)
        self.reason, self.may_have_run = reason, may_have_run

    def __str__(self) -> str:
        return f"{self.reason} ({'it may have been done' if self.may_have_run else 'nothing was sent'})"


class Disconnected(Unanswered, ConnectionError):
    """There is no connection: the server can't be reached, or the connection ended before the answer."""


class TimedOut(Unanswered, TimeoutError):
    """The answer didn't come in time."""


class MissingNode(Error, IndexError):
    """The tree has no node of this number."""
