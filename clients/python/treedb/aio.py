"""A client for asyncio. Its requests may be sent one after another without waiting: their answers come in the same order."""

from __future__ import annotations

import asyncio
import collections
import contextlib
import os
from collections.abc import Iterable
from typing import Any

from .connection import LOOPBACK, MAX_ANSWER, PATIENCE, TIMEOUT, Address, address_of, pauses, spoken
from .errors import Disconnected, Refused, TimedOut, Unanswered
from .names import Names
from .protocol import (MAX_BATCH, NAME_TAKEN, READER, READER_TEXT, Answer, Batch, Bounds, Call, answer_of, batch_in, batch_request, call_in, call_request,
                       grow_request, line_of, new_key, records_in, register_request, registered_in, replace_request, text_request, wanted, with_place)
from .texts import file_request

__all__ = ["AsyncClient"]

# After how many seconds it is asked again whether names may be added.
PAUSE = 0.01


class AsyncClient:
    """A connection to a server, for one event loop. Many tasks may use it at once.

        async with await AsyncClient.connect(port=7878) as db:
            answers = await asyncio.gather(*(db.call("add", 0, 1) for _ in range(100)))

    It doesn't seal by a rule as `Client(.., seals=True)` does: that is for servers with `--connections`.
    """

    def __init__(self, reader: asyncio.StreamReader, writer: asyncio.StreamWriter, timeout: float | None = TIMEOUT, address: Address | None = None) -> None:
        """Takes over the streams of a connection; `connect` makes them, and says where they lead."""
        self._timeout, self._address, self._is_closed = timeout, address, False
        self._opening = asyncio.Lock()
        self._take_over(reader, writer)

    def _take_over(self, reader: asyncio.StreamReader, writer: asyncio.StreamWriter) -> None:
        self._reader, self._writer = reader, writer
        # The requests that were sent and aren't answered, in their order.
        self._waiting: collections.deque[asyncio.Future[bytes]] = collections.deque()
        self._writing = asyncio.Lock()
        # Why no further request can be sent.
        self._ended: str | None = None
        self._reads: asyncio.Future[None] | None = None
        self._reading = asyncio.ensure_future(self._take_answers())

    @classmethod
    async def connect(cls, host: str = LOOPBACK, port: int | None = None, *, path: str | os.PathLike[str] | None = None,
                      timeout: float | None = TIMEOUT) -> AsyncClient:
        """Connects to a port, or to the Unix socket of a path. A server that can't be reached is `Disconnected`.

        `timeout` is in seconds, for each answer; None waits as long as it takes. After a `TimedOut` the connection goes on: the late answer is passed over.
        """
        address = address_of(host, port, path)
        return cls(*await _opened(address, timeout), timeout, address)

    async def reconnect(self) -> None:
        """Connects anew to where the client was made for, if there is no connection. After `close` it doesn't: that is a `ValueError`."""
        async with self._opening:
            if self._is_closed or self._address is None:
                raise ValueError("the client is closed, or was made without an address")
            if self._ended is not None:
                self._take_over(*await _opened(self._address, self._timeout))

    async def register(self, name: str, text: str) -> Bounds:
        """Registers an assembler text under a name, and returns its `Bounds`."""
        return (await self._register(register_request(name, text)))[name]

    async def register_text(self, text: str) -> dict[str, Bounds]:
        """Registers all procedures of a text of the procedure language, or none, as `Client.register_text` does."""
        return await self._register(text_request(text))

    async def register_file(self, path: str | os.PathLike[str], name: str | None = None) -> dict[str, Bounds]:
        """Registers the procedures of a file, as `Client.register_file` does."""
        return await self._register(await _in_thread(file_request, path, name))

    async def replace_text(self, text: str) -> dict[str, Bounds]:
        """Puts all procedures of a text in the place of those with their names, or none, as `Client.replace_text` does."""
        return await self._register(replace_request(text))

    async def call(self, procedure: str, *arguments: int, key: str | None = None) -> Answer:
        """Runs a call to its end, and returns its `Answer`. With a `key` it is run once, as by `Client.call`."""
        return call_in(await self._ask(call_request(procedure, arguments, key)))

    async def call_once(self, procedure: str, *arguments: int, key: str | None = None, patience: float = PATIENCE) -> Answer:
        """Runs a call to its end once, also where its answer is lost, as `Client.call_once` does."""
        wanted_key, waits, may_have_run = new_key() if key is None else key, pauses(patience), False
        while True:
            try:
                if self._ended is not None:
                    await self.reconnect()
                return await self.call(procedure, *arguments, key=wanted_key)
            except Unanswered as lost:
                lost.may_have_run = may_have_run = may_have_run or lost.may_have_run
                pause = next(waits, None)
                if pause is None:
                    raise
            await asyncio.sleep(pause)

    async def batch(self, calls: Iterable[Call], workers: int = 1) -> Batch:
        """Runs 1 to 256 calls, given as (procedure, argument, ..), on 1 to 16 threads at once, as `Client.batch` does."""
        return batch_in(await self._ask(batch_request(wanted(calls), workers)))

    async def read(self, node: int) -> list[int]:
        """The record of a node, as `Client.read` returns it."""
        return (await self.read_all([node]))[0]

    async def read_all(self, nodes: Iterable[int]) -> list[list[int]]:
        """The records of these nodes, each read by a call of its own."""
        await self._register_reader()
        asked = list(nodes)
        parts = [asked[start : start + MAX_BATCH] for start in range(0, len(asked), MAX_BATCH)]
        batches = await asyncio.gather(*(self.batch([(READER, node) for node in part]) for part in parts))
        return [record for part, batch in zip(parts, batches) for record in records_in(part, batch.answers())]

    async def grow(self, names: Names, paths: Iterable[str]) -> list[int]:
        """Adds a node for each of these paths, as `Client.grow` does."""
        asked = list(paths)
        with names.turn() as turn:
            while not turn.is_taken():
                await asyncio.sleep(PAUSE)
            for level in names.missing(asked):
                names.append((await self._ask(grow_request(names.parents_of(level))))["grown"], level)
        return [names[path] for path in asked]

    async def seal(self) -> int:
        """Seals the current epoch, and returns its number."""
        sealed: int = (await self._ask({"op": "seal"}))["sealed"]
        return sealed

    async def close(self) -> None:
        """Ends the connection once all requests before are answered. A client that is closed stays so."""
        self._is_closed = True
        try:
            if self._ended is None:
                await self._ask({"op": "close"})
        finally:
            await self._hang_up()

    async def __aenter__(self) -> AsyncClient:
        return self

    async def __aexit__(self, kind: Any, value: Any, trace: Any) -> None:
        if kind is None:
            await self.close()
        else:
            self._is_closed = True
            await self._hang_up()

    async def _register(self, request: dict[str, Any]) -> dict[str, Bounds]:
        try:
            return registered_in(request, await self._ask(request))
        except Refused as refusal:
            raise with_place(refusal, request) from None

    async def _register_reader(self) -> None:
        # Tasks that read at the same time wait for the same registration.
        if self._reads is None:
            self._reads = asyncio.ensure_future(self._registered_reader())
        try:
            await asyncio.shield(self._reads)
        except Exception:
            self._reads = None
            raise

    async def _registered_reader(self) -> None:
        try:
            await self.register(READER, READER_TEXT)
        except Refused as refusal:
            # Another client has registered it.
            if refusal.number != NAME_TAKEN:
                raise

    async def _hang_up(self) -> None:
        self._end("the connection is closed")
        self._reading.cancel()
        self._writer.close()
        await asyncio.gather(self._reading, self._writer.wait_closed(), return_exceptions=True)

    async def _ask(self, request: dict[str, Any]) -> dict[str, Any]:
        """Sends a request, and returns its answer; raises `Refused` for a refusal."""
        if self._ended is not None:
            raise Disconnected(self._ended)
        line = line_of(request)
        answer: asyncio.Future[bytes] = asyncio.get_running_loop().create_future()
        self._waiting.append(answer)
        self._writer.write(line)
        try:
            answered = await asyncio.wait_for(self._sent(answer), self._timeout)
        except asyncio.TimeoutError as late:
            raise TimedOut("no answer in time", may_have_run=True) from late
        try:
            return answer_of(answered)
        except Disconnected as wrong:
            self._end(wrong.reason)
            self._writer.close()
            raise

    async def _sent(self, answer: asyncio.Future[bytes]) -> bytes:
        """The answer, once the request is on its way."""
        async with self._writing:
            with contextlib.suppress(OSError):
                # That the connection is lost is said by its reader.
                await self._writer.drain()
        return await answer

    async def _take_answers(self) -> None:
        """Hands each line to the request that is waiting for it longest."""
        reason = "the server ended the connection"
        try:
            while (line := await self._reader.readline()).endswith(b"\n"):
                if not self._waiting:
                    reason = "the server answers what nobody has asked"
                    break
                answer = self._waiting.popleft()
                # One that isn't waited for any more is passed over.
                if not answer.done():
                    answer.set_result(line)
        except (OSError, ValueError) as failed:
            reason = f"the connection is lost: {failed}"
        self._end(reason)
        self._writer.close()

    def _end(self, reason: str) -> None:
        """From now on each request fails for this reason, also those that are waiting."""
        self._ended = self._ended or reason
        for answer in self._waiting:
            if not answer.done():
                answer.set_exception(Disconnected(reason, may_have_run=True))
        self._waiting.clear()


async def _opened(address: Address, timeout: float | None) -> tuple[asyncio.StreamReader, asyncio.StreamWriter]:
    """The streams of a new connection."""
    opening = (asyncio.open_unix_connection(address, limit=MAX_ANSWER) if isinstance(address, str)
               else asyncio.open_connection(*address, limit=MAX_ANSWER))
    try:
        return await asyncio.wait_for(opening, timeout)
    except asyncio.TimeoutError as late:
        raise TimedOut(f"{spoken(address)}: no connection in time") from late
    except OSError as failed:
        raise Disconnected(f"{spoken(address)}: {failed}") from failed


async def _in_thread(do: Any, *arguments: Any) -> Any:
    return await asyncio.get_running_loop().run_in_executor(None, do, *arguments)
