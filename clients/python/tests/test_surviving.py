"""Connections that break: what a client says then, that it never takes a late answer for another one's, and that it goes on."""

from __future__ import annotations

import asyncio
import contextlib
import socket
import threading
import time
import unittest
from collections.abc import Iterator
from unittest import mock

import treedb
import treedb.connection
from treedb import Answer, AsyncClient, Client, Disconnected, Pool, Recalled, Refused, TimedOut, Unanswered, new_key

from .fake import END, answers, echo, serving

# What a test waits for at most.
DEADLINE = 20.0


def nobody() -> int:
    """A port where nobody listens."""
    with socket.socket() as free:
        free.bind(("127.0.0.1", 0))
        port: int = free.getsockname()[1]
        return port


@contextlib.contextmanager
def quick() -> Iterator[None]:
    """Pauses before another try are short."""
    with mock.patch.multiple(treedb.connection, FIRST_PAUSE=0.001, LONGEST_PAUSE=0.01):
        yield


class TimeLimits(unittest.TestCase):
    def test_there_is_one_unless_none_is_asked_for(self):
        with serving(echo) as server:
            for words, limit in (({}, 30.0), ({"timeout": 2}, 2.0), ({"timeout": None}, None)):
                with Client(port=server.port, **words) as db:
                    db.call("add")
                    self.assertEqual(db._timeout, limit)

    def test_it_is_for_the_answer_as_a_whole(self):
        """A server that sends a byte now and then doesn't hold a client for longer."""
        stopped = threading.Event()

        def drip(listener: socket.socket) -> None:
            peer, _ = listener.accept()
            with peer, contextlib.suppress(OSError):
                while not stopped.wait(0.05):
                    peer.sendall(b" ")

        with socket.socket() as listener:
            listener.bind(("127.0.0.1", 0))
            listener.listen()
            thread = threading.Thread(target=drip, args=(listener,), daemon=True)
            thread.start()
            began = time.monotonic()
            with Client(port=listener.getsockname()[1], timeout=0.4) as db:
                with self.assertRaises(TimedOut):
                    db.call("add")
                self.assertLess(time.monotonic() - began, DEADLINE)
            stopped.set()
            thread.join(DEADLINE)

    def test_an_answer_of_any_length_is_none(self):
        with mock.patch.object(treedb.connection, "MAX_ANSWER", 100_000), serving(lambda request: b"1" * 300_000) as server, Client(port=server.port) as db:
            with self.assertRaisesRegex(Disconnected, "too long"):
                db.call("add")


class WhatMayHaveBeenDone(unittest.TestCase):
    def test_nothing_was_sent(self):
        with self.assertRaisesRegex(Disconnected, "nothing was sent") as lost:
            Client(port=nobody())
        self.assertFalse(lost.exception.may_have_run)
        with serving(echo) as server:
            db = Client(port=server.port)
            db.close()
            with self.assertRaises(Unanswered) as lost:
                db.call("add")
        self.assertFalse(lost.exception.may_have_run)

    def test_a_call_that_was_sent(self):
        for answering in (lambda request: END, lambda request: b"no JSON\n", lambda request: b"[]\n", lambda request: b'{"error":[]}\n', lambda request: None):
            with serving(answering) as server:
                db = Client(port=server.port, timeout=0.3)
                with self.assertRaisesRegex(Unanswered, "may have been done") as lost:
                    db.call("add")
                self.assertTrue(lost.exception.may_have_run)
                self.assertFalse(db.is_open)

    def test_asyncio(self):
        async def run(port: int) -> None:
            db = await AsyncClient.connect(port=port)
            with self.assertRaises(Disconnected) as lost:
                await db.call("add")
            self.assertTrue(lost.exception.may_have_run)
            with self.assertRaises(Disconnected) as lost:
                await db.call("add")
            self.assertFalse(lost.exception.may_have_run)
            await db._hang_up()

        for answer in (END, b"no JSON\n"):
            with serving(lambda request, answer=answer: answer) as server:
                asyncio.run(run(server.port))


class Interrupted(unittest.TestCase):
    def test_a_late_answer_is_never_a_later_ones(self):
        """Ctrl-C comes while an answer is waited for: the answer to the next call isn't the one that came late."""
        heard, go_on = threading.Event(), threading.Event()

        def answering(request):
            if request.get("args") == [2]:
                heard.set()
                go_on.wait(DEADLINE)
            return echo(request)

        def interrupted(_: socket.socket, line: bytes) -> bytes:
            peer = db._connection._socket
            assert peer is not None
            peer.sendall(line)
            heard.wait(DEADLINE)
            raise KeyboardInterrupt

        with serving(answering) as server:
            db = Client(port=server.port)
            with mock.patch.object(db._connection, "_exchange", interrupted), self.assertRaises(KeyboardInterrupt):
                db.call("get", 2)
            go_on.set()
            with self.assertRaises(Disconnected):
                db.call("get", 3)
            db.reconnect()
            self.assertEqual(db.call("get", 3).reply, [3])
            db.close()


class Once(unittest.TestCase):
    def test_it_is_asked_for_again_with_the_same_key(self):
        left = [END, END, {"call": 7, "reply": [5], "stored": 2}]
        with quick(), serving(lambda request: {"closed": True} if request["op"] == "close" else left.pop(0)) as server, Client(port=server.port) as db:
            self.assertEqual(db.call_once("add", 0, 5), Recalled(7, [5], 2))
        calls = [request for request in server.heard if request["op"] == "call"]
        self.assertEqual((len(calls), {request["key"] for request in calls}), (3, {calls[0]["key"]}))
        self.assertEqual(len(calls[0]["key"]), 32)

    def test_a_refusal_isnt_asked_again(self):
        with quick(), serving(answers({"error": [1015]})) as server, Client(port=server.port) as db, self.assertRaisesRegex(Refused, "1015"):
            db.call_once("add", 0, 5, key="order 17")
        self.assertEqual(server.heard[0]["key"], "order 17")

    def test_it_ends(self):
        with quick(), serving(lambda request: END) as server:
            db = Client(port=server.port)
            began = time.monotonic()
            with self.assertRaises(Disconnected) as lost:
                db.call_once("add", 0, 5, patience=0.3)
            self.assertLess(time.monotonic() - began, DEADLINE)
            self.assertTrue(lost.exception.may_have_run)
        self.assertGreater(len(server.heard), 2)

    def test_what_the_first_try_did_is_remembered(self):
        """The server is gone at the second try, which sent nothing; but the first one did."""
        with quick():
            with serving(lambda request: END) as server:
                db = Client(port=server.port)
                with self.assertRaises(Disconnected):
                    db.call("add")
            lost = Disconnected("gone", may_have_run=True)
            outcomes = iter([lost, Disconnected("refused")])

            def ask() -> None:
                raise next(outcomes)

            with mock.patch.object(treedb.connection, "pauses", lambda patience: iter([0.0])), self.assertRaisesRegex(Disconnected, "refused .*may have been done"):
                treedb.connection.until_answered(ask, 1)

    def test_a_client_that_is_closed_stays_so(self):
        with serving(echo) as server:
            db = Client(port=server.port)
            db.close()
            for again in (db.reconnect, lambda: db.call_once("add")):
                with self.assertRaises(ValueError):
                    again()

    def test_pauses_grow_and_end(self):
        waits = [wait for wait, _ in zip(treedb.connection.pauses(1_000), range(12))]
        self.assertLessEqual(max(waits), treedb.connection.LONGEST_PAUSE)
        self.assertLess(waits[0], waits[-1])
        self.assertEqual([*treedb.connection.pauses(0)], [])

    def test_keys_differ(self):
        self.assertEqual(len({new_key() for _ in range(100)}), 100)

    def test_asyncio(self):
        left = [END, {"call": 7, "reply": [5], "stored": 2}]

        async def run(port: int) -> Answer:
            async with await AsyncClient.connect(port=port) as db:
                return await db.call_once("add", 0, 5)

        with quick(), serving(lambda request: {"closed": True} if request["op"] == "close" else left.pop(0)) as server:
            self.assertEqual(asyncio.run(run(server.port)), Recalled(7, [5], 2))
        self.assertEqual(server.heard[0], server.heard[1])

    def test_asyncio_closed(self):
        async def run(port: int) -> None:
            db = await AsyncClient.connect(port=port)
            await db.close()
            with self.assertRaises(ValueError):
                await db.call_once("add")

        with serving(echo) as server:
            asyncio.run(run(server.port))


class Pools(unittest.TestCase):
    def test_threads_share_the_connections(self):
        inside, most, lock = 0, 0, threading.Lock()

        def answering(request):
            nonlocal inside, most
            with lock:
                inside += 1
                most = max(most, inside)
            time.sleep(0.01)
            with lock:
                inside -= 1
            return echo(request)

        with serving(answering) as server, Pool(port=server.port, size=3) as pool:
            replies: list[int] = []
            threads = [threading.Thread(target=lambda number=number: replies.append(pool.call("add", number).reply[0])) for number in range(12)]
            for thread in threads:
                thread.start()
            for thread in threads:
                thread.join(DEADLINE)
        self.assertEqual(sorted(replies), [*range(12)])
        self.assertLessEqual(most, 3)

    def test_a_connection_that_is_lost_is_left_out(self):
        left = [{"call": 0, "reply": [1]}, END, {"call": 1, "reply": [2]}]
        with serving(lambda request: {"closed": True} if request["op"] == "close" else left.pop(0)) as server, Pool(port=server.port, size=1) as pool:
            self.assertEqual(pool.call("add").reply, [1])
            with self.assertRaises(Disconnected):
                pool.call("add")
            self.assertEqual(pool.call("add").reply, [2])

    def test_a_connection_that_ended_while_nobody_used_it(self):
        """`--idle` of the server: the next request has a new connection."""
        peers: list[socket.socket] = []
        with serving(echo) as server, Pool(port=server.port, size=1) as pool:
            pool.call("add", 1)
            with pool.client() as db:
                peers.append(db._connection._socket)
                peers[0].shutdown(socket.SHUT_RDWR)
            self.assertEqual(pool.call("add", 2).reply, [2])

    def test_each_is_in_use(self):
        with serving(echo) as server, Pool(port=server.port, size=1, timeout=0.2) as pool, pool.client():
            with self.assertRaisesRegex(TimedOut, "nothing was sent"):
                pool.call("add")

    def test_once(self):
        """Also where the server can't be reached at first."""
        with quick(), serving(answers({"call": 0, "reply": [1]})) as server, Pool(port=server.port) as pool:
            tries = iter([Disconnected("refused"), None])
            made = Client

            def client(**words):
                if (failed := next(tries, None)) is not None:
                    raise failed
                return made(**words)

            with mock.patch("treedb.pool.Client", client):
                self.assertEqual(pool.call_once("add").reply, [1])

    def test_closed(self):
        with serving(echo) as server:
            pool = Pool(port=server.port)
            with pool.client() as db:
                pool.close()
                self.assertEqual(db.call("add", 1).reply, [1])
            self.assertFalse(db.is_open)
            with self.assertRaises(Disconnected):
                pool.call("add")
        with self.assertRaises(ValueError):
            Pool(port=1, size=0)


if __name__ == "__main__":
    unittest.main()
