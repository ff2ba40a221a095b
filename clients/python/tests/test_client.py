from __future__ import annotations

import pathlib
import socket
import tempfile
import threading
import unittest
from unittest import mock

import treedb
import treedb.client
from treedb import Answer, Batch, Bounds, Client, Disconnected, Error, Exhausted, MissingNode, Names, Recalled, Refused, TimedOut

from .fake import END, answers, echo, serving

CLOSED = {"closed": True}


class Addresses(unittest.TestCase):
    def test_the_host_comes_first(self):
        with serving(echo) as server, Client("127.0.0.1", server.port) as db:
            self.assertEqual(db.call("add", 1, 2).reply, [1, 2])

    def test_a_port_alone(self):
        with serving(echo) as server, Client(port=server.port) as db:
            self.assertEqual(db.call("add").reply, [])

    def test_the_old_order_warns(self):
        with serving(echo) as server:
            for old in ((server.port,), (server.port, "127.0.0.1")):
                with self.assertWarns(DeprecationWarning) as warned, Client(*old) as db:
                    self.assertEqual(db.call("add", 5).reply, [5])
                self.assertEqual(pathlib.Path(warned.filename).name, "test_client.py")

    def test_a_unix_socket(self):
        with tempfile.TemporaryDirectory() as folder:
            path = pathlib.Path(folder, "socket")
            with serving(echo, str(path)), Client(path=path) as db:
                self.assertEqual(db.call("add", 7).reply, [7])

    def test_a_port_or_a_path(self):
        for words in ({}, {"port": 1, "path": "socket"}):
            with self.assertRaises(TypeError):
                Client(**words)

    def test_nobody_listens(self):
        with socket.socket() as free:
            free.bind(("127.0.0.1", 0))
            port = free.getsockname()[1]
        with self.assertRaisesRegex(Disconnected, f"127.0.0.1:{port}"):
            Client(port=port)
        with self.assertRaises(ConnectionError):
            Client(path="/there is no such socket")


class Requests(unittest.TestCase):
    def test_what_is_sent(self):
        with serving(answers({"bounds": {"emits": 1, "locks": 2, "steps": 3}}, {"call": 4, "epoch": 5, "reply": [6]}, {"sealed": 7})) as server, \
                Client(port=server.port) as db:
            self.assertEqual(db.register("é", "arity 0\nret\n"), Bounds(steps=3, locks=2, emits=1))
            self.assertEqual(db.call("add", 2**63 - 1, -(2**63)), Answer(4, [6], 5))
            self.assertEqual(db.seal(), 7)
        self.assertEqual(server.heard, [{"op": "register", "name": "é", "asm": "arity 0\nret\n"},
                                        {"op": "call", "proc": "add", "args": [2**63 - 1, -(2**63)]}, {"op": "seal"}, {"op": "close"}])

    def test_a_key(self):
        with serving(answers({"call": 4, "epoch": 5, "reply": [6]}, {"call": 4, "reply": [6], "stored": 7}, {"error": [1015]})) as server, Client(port=server.port) as db:
            first, again = db.call("add", 6, key="é"), db.call("add", 6, key="é")
            self.assertEqual((first, again), (Answer(4, [6], 5), Answer(4, [6], 7)))
            self.assertEqual((type(first), type(again)), (Answer, Recalled))
            with self.assertRaisesRegex(Refused, "store"):
                db.call("add", 6, key="x" * 64)
            for key, kind in (("", ValueError), ("x" * 65, ValueError), ("é" * 33, ValueError), (b"x", TypeError), (1, TypeError)):
                with self.assertRaises(kind):
                    db.call("add", 6, key=key)
        self.assertEqual(server.heard[:2], [{"op": "call", "proc": "add", "args": [6], "key": "é"}] * 2)
        self.assertEqual(len(server.heard), 4)

    def test_arguments_are_integers_of_64_bits(self):
        with serving(echo) as server, Client(port=server.port) as db:
            for argument, kind in ((1.0, TypeError), ("1", TypeError), (2**63, OverflowError), (float("nan"), TypeError)):
                with self.assertRaises(kind):
                    db.call("add", argument)
                with self.assertRaises(kind):
                    db.batch([("add", 1), ("add", argument)])
        self.assertEqual(server.heard, [{"op": "close"}])

    def test_a_refused_text_has_its_line(self):
        text = "arity 0\n; a comment\n\nset v0 0\nfirst n0 v0 else out\nout:\nret\n"
        for numbers, line in (([408, 2], 7), ([251, 2], 2), ([611], None), ([401, 9], None)):
            with serving(answers({"error": numbers})) as server, Client(port=server.port) as db:
                with self.assertRaises(Refused) as refused:
                    db.register("bad", text)
                self.assertEqual((refused.exception.numbers, refused.exception.line), (numbers, line))

    def test_a_refusal_says_what_to_do(self):
        refused = Refused([611])
        self.assertEqual((refused.number, refused.advice), (611, "choose another name"))
        self.assertEqual(str(refused), "[611] a procedure of this name was registered before")
        self.assertIn("doesn't know", str(Refused([999])))

    def test_records_are_read(self):
        record = [5, 0, 0, 0, 0, 0, 0, 0]
        read = {"batch": [{"call": 0, "reply": record}]}
        with serving(answers({"bounds": {"emits": 8, "locks": 1, "steps": 19}}, read, read, {"batch": [{"call": 2, "reply": []}]})) as server, \
                Client(port=server.port) as db:
            self.assertEqual((db.read(0), db.read(0)), (record, record))
            with self.assertRaisesRegex(MissingNode, "no node 9"):
                db.read(9)
        self.assertEqual([request["op"] for request in server.heard], ["register", "batch", "batch", "batch", "close"])

    def test_another_client_has_registered_the_reader(self):
        with serving(answers({"error": [611]}, {"batch": [{"error": [690]}]})) as server, Client(port=server.port) as db:
            with self.assertRaisesRegex(Refused, "690"):
                db.read(0)


class Batches(unittest.TestCase):
    def test_replies(self):
        with serving(echo) as server, Client(port=server.port) as db:
            batch = db.batch([("add", 1), ("add", 2, 3)], workers=4)
            self.assertEqual(batch, [Answer(0, [1], 1), Answer(1, [2, 3], 1)])
            self.assertEqual((batch.replies(), batch.answers(), batch.refusals()), ([[1], [2, 3]], list(batch), []))
        self.assertEqual(server.heard[0], {"op": "batch", "workers": 4, "calls": [["add", [1]], ["add", [2, 3]]]})

    def test_the_first_refusal_is_raised(self):
        with serving(answers({"batch": [{"call": 0, "reply": [1]}, {"error": [601]}, {"error": [501]}]})) as server, Client(port=server.port) as db:
            batch = db.batch([("add", 1), ("none",), ("add",)])
        self.assertEqual((batch[0], [refusal.number for refusal in batch.refusals()]), (Answer(0, [1]), [601, 501]))
        for take in (batch.replies, batch.answers):
            with self.assertRaisesRegex(Refused, "601"):
                take()

    def test_an_empty_one(self):
        self.assertEqual(Batch([]).replies(), [])


class Failures(unittest.TestCase):
    def test_all_are_errors(self):
        for kind, other in ((Refused, Exception), (Disconnected, ConnectionError), (TimedOut, TimeoutError), (MissingNode, IndexError),
                            (Exhausted, Exception)):
            self.assertTrue(issubclass(kind, Error) and issubclass(kind, other), kind)

    def test_the_server_ends_the_connection(self):
        for answer in (END, b'{"call":0,'):
            with serving(lambda request, answer=answer: answer) as server:
                db = Client(port=server.port, timeout=0.5)
                with self.assertRaises((Disconnected, TimedOut)):
                    db.call("add", 0, 1)
                with self.assertRaisesRegex(Disconnected, "closed"):
                    db.call("add", 0, 1)
                db.close()

    def test_the_connection_is_reset(self):
        with serving(echo) as server:
            db = Client(port=server.port)
            db._connection._socket.shutdown(socket.SHUT_WR)
            with self.assertRaises(ConnectionError) as lost:
                db.call("add", 0, 1)
            self.assertIsInstance(lost.exception, Error)

    def test_no_answer_in_time(self):
        """The client hangs up, so no later answer is taken for another request's."""
        with socket.socket() as listener:
            listener.bind(("127.0.0.1", 0))
            listener.listen()
            heard = []

            def take():
                peer, _ = listener.accept()
                with peer, peer.makefile("rb") as lines:
                    heard.append(lines.read())

            taker = threading.Thread(target=take)
            taker.start()
            db = Client(port=listener.getsockname()[1], timeout=0.2)
            with self.assertRaises(TimeoutError):
                db.call("add", 0, 1)
            with self.assertRaises(Disconnected):
                db.call("add", 0, 1)
            taker.join(timeout=10)
            self.assertEqual([line.count(b"\n") for line in heard], [1])

    def test_after_an_exception_nothing_is_sent(self):
        with serving(echo) as server:
            with self.assertRaises(ZeroDivisionError), Client(port=server.port):
                raise ZeroDivisionError
            self.assertEqual(server.heard, [])


class Seals(unittest.TestCase):
    LAST = {"call": 4_095, "reply": [1]}

    def test_the_last_call_of_an_epoch_seals_it(self):
        with serving(answers(self.LAST, {"error": [606, 7]}, {"sealed": 0})) as server, Client(port=server.port, seals=True) as db:
            self.assertEqual(db.call("add", 0, 1).call, 4_095)
        self.assertEqual([request["op"] for request in server.heard], ["call", "seal", "seal", "close"])

    def test_without_it_nothing_is_sealed(self):
        with serving(answers(self.LAST, {"error": [603]})) as server, Client(port=server.port) as db:
            db.call("add", 0, 1)
            with self.assertRaises(Refused):
                db.call("add", 0, 1)
        self.assertEqual([request["op"] for request in server.heard], ["call", "call", "close"])

    def test_a_client_waits_for_the_seal_of_another(self):
        with serving(answers({"error": [603]}, {"call": 0, "epoch": 1, "reply": [2]})) as server, Client(port=server.port, seals=True) as db:
            self.assertEqual(db.call("add", 0, 1), Answer(0, [2], 1))
        self.assertEqual([request["op"] for request in server.heard], ["call", "call", "close"])

    def test_the_last_epoch_is_full(self):
        with mock.patch.object(treedb.client, "SEAL_PATIENCE", 0), serving(answers({"error": [603]}, {"error": [808]})) as server, \
                Client(port=server.port, seals=True) as db:
            with self.assertRaises(Exhausted):
                db.call("add", 0, 1)

    def test_a_batch_goes_on_in_the_next_epoch(self):
        first = {"batch": [{"call": 4_094, "reply": [1]}, {"error": [605]}]}
        second = {"batch": [{"call": 0, "epoch": 1, "reply": [2]}]}
        with serving(answers(first, {"sealed": 0}, second)) as server, Client(port=server.port, seals=True) as db:
            self.assertEqual(db.batch([("add", 0), ("walk", 0)]).replies(), [[1], [2]])
        self.assertEqual(server.heard[2]["calls"], [["walk", [0]]])


class Growth(unittest.TestCase):
    def names(self, folder: str) -> Names:
        file = pathlib.Path(folder, "names.json")
        file.write_text('["", "north", "aisle 1"]')
        return Names([0, 0, 1], ["", "north", "aisle 1"], file)

    def test_names_come_with_the_answer(self):
        with tempfile.TemporaryDirectory() as folder:
            names = self.names(folder)
            with serving(answers({"grown": 3}, {"grown": 5})) as server, Client(port=server.port) as db:
                self.assertEqual(db.grow(names, ["north/aisle 9", "south/aisle 1"]), [5, 6])
            self.assertEqual([request.get("parents") for request in server.heard], [[0], [1, 3], None])

    def test_paths_by_their_depth(self):
        with tempfile.TemporaryDirectory() as folder:
            names = self.names(folder)
            with serving(answers({"grown": 3}, {"grown": 4})) as server, Client(port=server.port) as db:
                self.assertEqual(db.grow(names, ["north/aisle 9/shelf 1", "north/aisle 9"]), [4, 3])
            self.assertEqual([request.get("parents") for request in server.heard], [[1], [3], None])
            self.assertEqual(pathlib.Path(folder, "names.json").read_text(), '["", "north", "aisle 1", "aisle 9", "shelf 1"]\n')
            self.assertEqual(names["north/aisle 9/shelf 1"], 4)

    def test_names_are_loaded_again(self):
        """Beside the file of the tree as it was, which hasn't the nodes that were added."""
        with tempfile.TemporaryDirectory() as folder:
            tree = pathlib.Path(folder, "tree.json")
            tree.write_text('{"parents": [0, 0, 1], "records": []}')
            names = self.names(folder)
            with serving(answers({"grown": 4}, {"grown": 5})) as server, Client(port=server.port) as db:
                db.grow(names, ["north/aisle 9/shelf 1"])
            again = Names.load(tree, pathlib.Path(folder, "names.json"))
            self.assertEqual((again.names, dict(again)), (names.names, dict(names)))
            tree.write_text('{"parents": [0, 0, 0], "records": []}')
            with self.assertRaisesRegex(ValueError, "another tree"):
                Names.load(tree, pathlib.Path(folder, "names.json"))

    def test_another_client_has_grown_the_tree(self):
        names = Names([0, 0], ["", "north"])
        with serving(answers({"grown": 4})) as server, Client(port=server.port) as db:
            self.assertEqual(db.grow(names, ["south"]), [4])
        self.assertEqual((names.names, names.path(4), list(names)), (["", "north", "", "", "south"], "south", ["", "north", "south"]))
        with self.assertRaises(ValueError):
            names.path(3)

    def test_a_refusal_leaves_the_names(self):
        with tempfile.TemporaryDirectory() as folder:
            names = self.names(folder)
            with serving(answers({"error": [102]})) as server, Client(port=server.port) as db:
                with self.assertRaisesRegex(Refused, "102"):
                    db.grow(names, ["south"])
            self.assertEqual((len(names), pathlib.Path(folder, "names.json").read_text()), (3, '["", "north", "aisle 1"]'))

    def test_a_path_that_is_there(self):
        with serving(answers()) as server, Client(port=server.port) as db:
            for paths in (["north"], ["south", "south"], ["south//aisle"], [""]):
                with self.assertRaises(ValueError):
                    db.grow(Names([0, 0], ["", "north"]), paths)
        self.assertEqual(server.heard, [{"op": "close"}])


if __name__ == "__main__":
    unittest.main()
