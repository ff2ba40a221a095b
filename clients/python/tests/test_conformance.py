"""Replays the lines of `clients/conformance`, which all clients replay: each request is the one that stands there, and its answer gives what stands there."""

from __future__ import annotations

import json
import pathlib
import unittest
from typing import Any

from treedb import Answer, Client, Recalled, Refused

from .fake import serving

FOLDER = pathlib.Path(__file__).resolve().parent.parent.parent / "conformance"


def spoken(outcome: Any) -> dict[str, Any]:
    """An answer as the files have it."""
    if isinstance(outcome, Refused):
        return {"refused": outcome.numbers}
    assert isinstance(outcome, Answer)
    return {"call": outcome.call, "reply": [*map(str, outcome.reply)], "stored" if isinstance(outcome, Recalled) else "epoch": outcome.epoch}


def done(db: Client, step: dict[str, Any]) -> Any:
    """What a step gives."""
    word = step["do"]
    if word == "register":
        return {"bounds": db.register(step["name"], step["text"])._asdict()}
    if word in ("register text", "replace text"):
        return {"bounds by name": {name: each._asdict() for name, each in (db.register_text if word == "register text" else db.replace_text)(step["text"]).items()}}
    if word == "call":
        return spoken(db.call(step["procedure"], *map(int, step["arguments"]), key=step.get("key")))
    if word == "batch":
        return {"batch": [*map(spoken, db.batch([(procedure, *map(int, arguments)) for procedure, arguments in step["calls"]], step["workers"]))]}
    if word == "grow":
        # `Client.grow` takes names; this is its line.
        return {"grown": db._ask({"op": "grow", "parents": step["parents"]})["grown"]}
    if word == "seal":
        return {"sealed": db.seal()}
    assert word == "close"
    db.close()
    return {"closed": True}


@unittest.skipUnless(FOLDER.is_dir(), "there are no lines to replay")
class Conformance(unittest.TestCase):
    def test_lines(self):
        files = sorted(FOLDER.glob("*.json"))
        self.assertGreater(len(files), 3)
        for file in files:
            steps = json.loads(file.read_text(encoding="utf-8"))["steps"]
            answers = [step["answer"].encode() + b"\n" for step in steps]
            with serving(lambda request, answers=answers: answers.pop(0)) as server:
                db = Client(port=server.port)
                for place, step in enumerate(steps):
                    with self.subTest(file.name, step=place):
                        try:
                            gives = done(db, step)
                        except Refused as refusal:
                            gives = spoken(refusal)
                        self.assertEqual(gives, step["gives"])
                        self.assertEqual(server.heard[place], json.loads(step["request"]))


if __name__ == "__main__":
    unittest.main()
