"""The server's lines, as both clients write and read them. `docs/use/server.md` has them all."""

from __future__ import annotations

import json
import operator
import secrets
from collections.abc import Iterable, Sequence
from typing import Any, NamedTuple, Union

from .errors import Disconnected, Exhausted, MissingNode, Refused

# The procedure by which a client reads records: it emits the eight fields of a node.
READER = "treedb_read"
READER_TEXT = "version 2\narity 1\nfirst n0 v0 else L18\n" + "".join(f"get v1 n0 {field}\nemit v1\n" for field in range(8)) + "rel n0\nL18:\nret\n"
# A procedure of this name was registered before.
NAME_TAKEN = 611
# How many calls a batch has at most.
MAX_BATCH = 256
# How many bytes of UTF-8 a key has at most.
MAX_KEY = 64
# Refusals that name the place of a fault in a text: by its line, or by the position of its instruction.
BY_LINE = {251, 252, 253}
BY_POSITION = {301, 302, 303, 304, 401, 402, 403, 404, 405, 406, 407, 408, 409}

# A call as (procedure, argument, ..).
Call = Sequence[Any]


class Bounds(NamedTuple):
    """What a registered procedure does at most on any tree."""

    steps: int
    locks: int
    emits: int


class Answer(NamedTuple):
    """A call that was admitted and is done: its number among the calls of its epoch, its reply, and the number of the epoch."""

    call: int
    reply: list[int]
    epoch: int = 0


class Recalled(Answer):
    """What came of the call that had the key before. `epoch` is the number of its epoch in the server's store, which counts them through all starts."""

    __slots__ = ()


# What became of a call of a batch.
Outcome = Union[Answer, Refused, Exhausted]


class Batch(list[Outcome]):
    """What became of a batch: for each of its calls, in their order, an `Answer`, or the exception that says why it was refused."""

    def answers(self) -> list[Answer]:
        """The answers, if each call has one; otherwise raises the first refusal. The other calls of the batch were done all the same."""
        return [_answered(outcome) for outcome in self]

    def replies(self) -> list[list[int]]:
        """The replies, if each call has one; otherwise raises the first refusal. The other calls of the batch were done all the same."""
        return [answer.reply for answer in self.answers()]

    def refusals(self) -> list[Refused | Exhausted]:
        """The refusals alone."""
        return [outcome for outcome in self if not isinstance(outcome, Answer)]


def line_of(request: dict[str, Any]) -> bytes:
    """A request's line."""
    text = json.dumps(request, separators=(",", ":"), ensure_ascii=False, allow_nan=False)
    return text.encode("utf-8", "surrogatepass") + b"\n"


def answer_of(line: bytes) -> dict[str, Any]:
    """The answer of a line; raises `Refused` for a refusal, and `Disconnected` where it is no answer."""
    try:
        answer: dict[str, Any] = json.loads(line)
        if "error" in answer:
            raise Refused(map(operator.index, answer["error"]))
    except (ValueError, TypeError, IndexError, RecursionError) as wrong:
        raise Disconnected("the server's answer isn't one", may_have_run=True) from wrong
    if not isinstance(answer, dict):
        raise Disconnected("the server's answer isn't one", may_have_run=True)
    return answer


def new_key() -> str:
    """A key for a call that no other call has: 128 bits by chance."""
    return secrets.token_hex(16)


def arguments_of(arguments: Iterable[Any]) -> list[int]:
    """Arguments as the server takes them: integers of 64 bits. Anything else is a `TypeError` or an `OverflowError`."""
    integers = [operator.index(argument) for argument in arguments]
    for integer in integers:
        if not -(2**63) <= integer < 2**63:
            raise OverflowError(f"{integer} doesn't fit 64 bits")
    return integers


def register_request(name: str, text: str) -> dict[str, Any]:
    return {"op": "register", "name": name, "asm": text}


def text_request(text: str) -> dict[str, Any]:
    return {"op": "register", "text": text}


def replace_request(text: str) -> dict[str, Any]:
    return {"op": "replace", "text": text}


def call_request(procedure: str, arguments: Iterable[Any], key: str | None = None) -> dict[str, Any]:
    request = {"op": "call", "proc": procedure, "args": arguments_of(arguments)}
    return request if key is None else {**request, "key": _key_of(key)}


def wanted(calls: Iterable[Call]) -> list[tuple[str, list[int]]]:
    """The calls of a batch's line."""
    return [(procedure, arguments_of(arguments)) for procedure, *arguments in calls]


def batch_request(calls: Iterable[tuple[str, list[int]]], workers: int) -> dict[str, Any]:
    return {"op": "batch", "workers": workers, "calls": list(calls)}


def grow_request(parents: list[int]) -> dict[str, Any]:
    return {"op": "grow", "parents": parents}


def registered_in(request: dict[str, Any], answer: dict[str, Any]) -> dict[str, Bounds]:
    """The procedures that were registered or replaced, by their names."""
    if "text" in request:
        return {each["name"]: _bounds(each["bounds"]) for each in answer["replaced" if request["op"] == "replace" else "registered"]}
    return {request["name"]: _bounds(answer["bounds"])}


def call_in(answer: dict[str, Any]) -> Answer:
    if "stored" in answer:
        return Recalled(answer["call"], answer["reply"], answer["stored"])
    return Answer(answer["call"], answer["reply"], answer.get("epoch", 0))


def batch_in(answer: dict[str, Any]) -> Batch:
    return Batch(Refused(each["error"]) if "error" in each else call_in(each) for each in answer["batch"])


def records_in(nodes: Iterable[int], answers: Iterable[Answer]) -> list[list[int]]:
    """The records of these nodes, from the answers of calls of `READER`."""
    records = []
    for node, answer in zip(nodes, answers):
        if not answer.reply:
            raise MissingNode(f"no node {node}")
        records.append(answer.reply)
    return records


def with_place(refusal: Refused, request: dict[str, Any]) -> Refused:
    """The refusal of a registration, with the place that it names. Of a text of the procedure language it is a line and a column; of an assembler text a line, by
    its number or by the position of its instruction."""
    if "text" in request:
        return Refused(refusal.numbers, *refusal.numbers[1:])
    return Refused(refusal.numbers, _line(request["asm"], refusal.numbers))


def _line(text: str, numbers: list[int]) -> int | None:
    if numbers[0] in BY_LINE:
        return numbers[1]
    if numbers[0] not in BY_POSITION:
        return None
    said = [line.partition(";")[0].split() for line in text.split("\n")]
    instructions = [number for number, words in enumerate(said, 1) if words and words[0] not in ("version", "arity") and not words[0].endswith(":")]
    return instructions[numbers[1]] if numbers[1] < len(instructions) else None


def _key_of(key: str) -> str:
    """A key as the server takes it. Anything else is a `TypeError` or a `ValueError`."""
    if not isinstance(key, str):
        raise TypeError(f"{key!r} is no text")
    if not 0 < len(key.encode()) <= MAX_KEY:
        raise ValueError(f"{key!r} isn't of 1 to {MAX_KEY} bytes")
    return key


def _bounds(told: dict[str, int]) -> Bounds:
    return Bounds(told["steps"], told["locks"], told["emits"])


def _answered(outcome: Outcome) -> Answer:
    if not isinstance(outcome, Answer):
        raise outcome
    return outcome
