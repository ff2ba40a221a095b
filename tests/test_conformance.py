"""Sends the requests of `clients/conformance`, which all clients replay, to a server, and compares what it answers with what stands there."""

import json

from running import TOP, parametrize
from serving import Peer

FILES = sorted((TOP / "clients/conformance").glob("*.json"))


@parametrize("file", FILES, ids=[file.stem for file in FILES])
def test_lines(tests, server, tree, file):
    told = json.loads(file.read_text(encoding="utf-8"))
    its = told["server"]
    words = ["--store", "things.db"] if its.get("store") else []
    peer = Peer(server(*words, tree=tree(its["tree"]), connections=1 if its.get("session") else None).port)
    for place, step in enumerate(told["steps"]):
        tests.same(f"{place}: {step['request']}", json.loads(peer.ask(step["request"])), json.loads(step["answer"]))
