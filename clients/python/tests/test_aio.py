from __future__ import annotations

import asyncio
import pathlib
import tempfile
import threading
import unittest

from treedb import Answer, AsyncClient, Bounds, Disconnected, MissingNode, Names, Recalled, Refused, TimedOut

from .fake import END, answers, echo, serving


class Async(unittest.IsolatedAsyncioTestCase):
    async def test_calls_one_by_one(self):
        with serving(echo) as server:
            async with await AsyncClient.connect("127.0.0.1", server.port) as db:
                self.assertEqual(await db.call("add", 1, 2), Answer(0, [1, 2]))
                self.assertEqual((await db.batch([("add", 3), ("add", 4)])).replies(), [[3], [4]])

    async def test_a_key(self):
        with serving(answers({"call": 0, "reply": [1], "stored": 3})) as server:
            async with await AsyncClient.connect(port=server.port) as db:
                self.assertIsInstance(await db.call("add", 1, key="once"), Recalled)
        self.assertEqual(server.heard[0], {"op": "call", "proc": "add", "args": [1], "key": "once"})

    async def test_requests_go_out_before_answers_come(self):
        """The server answers nothing until it has heard a hundred requests."""
        held: list[bytes] = []

        def answering(request):
            if request["op"] == "close":
                return {"closed": True}
            held.append(b'{"call":%d,"reply":[%d]}\n' % (len(held), request["args"][0]))
            return b"".join(held) if len(held) == 100 else None

        with serving(answering) as server:
            async with await AsyncClient.connect(port=server.port, timeout=30) as db:
                found = await asyncio.gather(*(db.call("add", number) for number in range(100)))
        self.assertEqual([answer.reply for answer in found], [[number] for number in range(100)])

    async def test_large_requests_do_not_block(self):
        with serving(echo) as server:
            async with await AsyncClient.connect(port=server.port, timeout=60) as db:
                batches = await asyncio.gather(*(db.batch([("add", 1)] * 256) for _ in range(200)))
        self.assertEqual({len(batch.replies()) for batch in batches}, {256})

    async def test_a_refusal_is_of_its_request(self):
        with serving(answers({"call": 0, "reply": [1]}, {"error": [601]}, {"call": 1, "reply": [2]})) as server:
            async with await AsyncClient.connect(port=server.port) as db:
                found = await asyncio.gather(db.call("add", 0), db.call("none"), db.call("add", 0), return_exceptions=True)
        self.assertEqual((found[0], found[2]), (Answer(0, [1]), Answer(1, [2])))
        self.assertIsInstance(found[1], Refused)

    async def test_a_late_answer_is_passed_over(self):
        heard, go_on = threading.Event(), threading.Event()

        def answering(request):
            if request["op"] == "call" and request["args"] == [1]:
                heard.set()
                go_on.wait(10)
            return echo(request)

        with serving(answering) as server:
            async with await AsyncClient.connect(port=server.port, timeout=0.3) as db:
                with self.assertRaises(TimedOut):
                    await db.call("add", 1)
                self.assertTrue(heard.is_set())
                go_on.set()
                self.assertEqual((await db.call("add", 2)).reply, [2])

    async def test_a_task_that_is_cancelled(self):
        with serving(lambda request: None if request.get("args") == [1] else echo(request)) as server:
            db = await AsyncClient.connect(port=server.port)
            task = asyncio.ensure_future(db.call("add", 1))
            await asyncio.sleep(0.05)
            task.cancel()
            with self.assertRaises(asyncio.CancelledError):
                await task
            await db._hang_up()

    async def test_a_lost_connection_fails_all_that_wait(self):
        with serving(lambda request: END) as server:
            db = await AsyncClient.connect(port=server.port)
            found = await asyncio.gather(*(db.call("add", number) for number in range(5)), return_exceptions=True)
            self.assertEqual({type(each) for each in found}, {Disconnected})
            with self.assertRaises(ConnectionError):
                await db.call("add", 1)
            await db.close()

    async def test_closed(self):
        with serving(echo) as server:
            db = await AsyncClient.connect(port=server.port)
            calls = [asyncio.ensure_future(db.call("add", number)) for number in range(3)]
            await asyncio.sleep(0)
            await db.close()
            self.assertEqual([(await call).reply for call in calls], [[0], [1], [2]])
            with self.assertRaisesRegex(Disconnected, "closed"):
                await db.call("add", 1)

    async def test_nobody_listens(self):
        with self.assertRaises(Disconnected):
            await AsyncClient.connect(path="/there is no such socket")

    async def test_a_unix_socket(self):
        with tempfile.TemporaryDirectory() as folder:
            path = str(pathlib.Path(folder, "socket"))
            with serving(echo, path):
                async with await AsyncClient.connect(path=path) as db:
                    self.assertEqual((await db.call("add", 7)).reply, [7])

    async def test_readers_share_one_registration(self):
        record = [1] * 8
        read = {"batch": [{"call": 0, "reply": record}]}
        none = {"batch": [{"call": 0, "reply": []}]}
        with serving(answers({"bounds": {"emits": 8, "locks": 1, "steps": 19}}, read, read, none)) as server:
            async with await AsyncClient.connect(port=server.port) as db:
                self.assertEqual(await asyncio.gather(db.read(0), db.read(0)), [record, record])
                with self.assertRaises(MissingNode):
                    await db.read(5)
        self.assertEqual([request["op"] for request in server.heard], ["register", "batch", "batch", "batch", "close"])

    async def test_texts(self):
        bounds = {"emits": 1, "locks": 2, "steps": 3}
        with serving(answers({"registered": [{"bounds": bounds, "name": "one"}]}, {"bounds": bounds}, {"error": [273, 2, 5]})) as server, \
                tempfile.TemporaryDirectory() as folder:
            file = pathlib.Path(folder, "two.asm")
            file.write_text("ret\n")
            async with await AsyncClient.connect(port=server.port) as db:
                self.assertEqual(await db.register_text("proc"), {"one": Bounds(3, 2, 1)})
                self.assertEqual(await db.register_file(file), {"two": Bounds(3, 2, 1)})
                with self.assertRaisesRegex(Refused, "line 2, column 5"):
                    await db.register_text("proc")
        self.assertEqual(server.heard[1], {"op": "register", "name": "two", "asm": "ret\n"})

    async def test_growth(self):
        names = Names([0], [""])
        with serving(answers({"grown": 1}, {"grown": 2})) as server:
            async with await AsyncClient.connect(port=server.port) as db:
                self.assertEqual(await db.grow(names, ["north/aisle 1"]), [2])
        self.assertEqual(names["north/aisle 1"], 2)

    async def test_growth_by_two_at_once(self):
        """They take turns: neither holds up the loop, and the second finds what the first has added."""
        with tempfile.TemporaryDirectory() as folder:
            tree, file = pathlib.Path(folder, "tree.json"), pathlib.Path(folder, "names.json")
            tree.write_text('{"parents":[0],"records":[]}')
            file.write_text('[""]')
            one, other = Names.load(tree, file), Names.load(tree, file)
            with serving(answers({"grown": 1}, {"grown": 2}, {"grown": 3})) as server:
                async with await AsyncClient.connect(port=server.port) as db:
                    self.assertEqual(await asyncio.gather(db.grow(one, ["a/b"]), db.grow(other, ["a/c"])), [[2], [3]])
            self.assertEqual((one["a/c"], other["a/b"], server.heard[2]["parents"]), (3, 2, [1]))


if __name__ == "__main__":
    unittest.main()
