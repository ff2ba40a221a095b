"""Runs random texts of the procedure language: each compiles, and does what `texts` says that it means. `fuzz/texts` runs as many as it is let."""

import collections
import json
import random

import texts

# So many texts of this seed.
COUNT, SEED = 200, "the gate's"


def tried(tests, seed):
    """One text on a random tree; what it came to."""
    chance = random.Random(seed)
    made = texts.Texts(chance)
    for make in (made.constant, made.constant, made.part, made.part):
        make()
    procedure = made.procedure()
    text = texts.written(made.constants, made.parts, procedure)
    parents = [0] + [chance.randrange(max(0, node - 4), node) for node in range(1, chance.randrange(1, 25))]
    records = [[chance.randrange(-5, 20), chance.randrange(3), chance.choice([0, 1, texts.GREATEST, texts.LEAST]), *[0] * 5] for _ in parents]
    arguments = [chance.choice([0, 1, 2, 3, chance.randrange(len(parents)), -1, texts.GREATEST, texts.LEAST]) for _ in procedure.arguments]
    tests.path("text.tdb").write_text(text)
    tests.path("tree.json").write_text(json.dumps({"parents": parents, "records": records}))
    run = tests.run("alone", "--tree", "tree.json", "--proc", "text.tdb", "--args", json.dumps(arguments))
    if run.status != 0:
        number = json.loads(run.out or '{"error":[0]}')["error"][0]
        tests.check(f"text {seed}: it compiles", number in texts.TOO_MUCH, (run, text))
        return "too much for the registers or the bounds"
    reply = texts.Meaning(made.constants, parents, records).call(procedure, arguments)
    answer, left = map(json.loads, run.out.splitlines())
    tests.check(f"text {seed}: what it does", (answer["reply"], left["records"]) == (reply, records), (answer, reply, arguments, text))
    return "atomic, and run" if procedure.atomic else "run"


def test_texts(tests):
    came_to = collections.Counter(tried(tests, f"{SEED} {number}") for number in range(COUNT))
    tests.check("most texts are run, and some of them are atomic", came_to["run"] > COUNT / 2 and came_to["atomic, and run"] > COUNT / 20, came_to)
