"""Runs each procedure of examples/cookbook on small trees: what it answers, and which records it changes.

A node of a tree is its parent and the fields that aren't 0 behind it, as (0, 10, 20). A row of a table is one call: what is tried, the call, its reply, and the records that are others
afterwards, by their nodes; {} where all records stay. Each call begins with the table's tree: those that change something are alone on it, and the others come one after another.
"""

import json
import pathlib
import re

from running import TOP

GREATEST = 2**63 - 1
ONE, NOTHING = [1], []


def record(*fields):
    return [*fields, *[0] * (8 - len(fields))]


def tried(tests, tree, text, nodes, rows, *options):
    """The calls of these rows, of procedures of that text, on the tree of these nodes."""
    records = [record(*fields) for _, *fields in nodes]
    file = tree({"parents": [parent for parent, *_ in nodes], "records": records})
    alone, quiet = [[row] for row in rows if row[3]], [row for row in rows if not row[3]]
    for together in [*alone, quiet] if quiet else alone:
        names = [f"{text}: {name}" for name, *_ in together]
        calls = [[procedure, args] for _, (procedure, *args), _, _ in together]
        tests.path("calls.json").write_text(json.dumps({"calls": calls}))
        run = tests.run("run", "--tree", file, "--proc", f"examples/cookbook/{text}.tdb", "--workers", "1", *options, "calls.json")
        assert run.status == 0, f"{names}: {run}"
        answers, _, left = map(json.loads, run.out.splitlines())
        for number, (name, answer, row) in enumerate(zip(names, answers["batch"], together, strict=True)):
            tests.same(f"{name}: the answer", answer, {"call": number, "reply": row[2]})
        changed = {node: fields for node, fields in enumerate(left["records"]) if fields != records[node]}
        tests.same(f"{', '.join(names)}: the changed records", changed, {node: record(*fields) for node, fields in together[0][3].items()})


def test_audit(tests, tree):
    """The branch 1 agrees with its accounts, 2 has more than its account, 3 has no accounts; of 4 the sum doesn't fit 64 bits, of 5 the difference."""
    nodes = [(0,), (0, 100), (0, 7), (0, 9), (0, 8), (0, GREATEST), (1, 60), (1, -5), (1, 45), (2, 3), (4, GREATEST), (4, 1), (5, -1)]
    tried(tests, tree, "audit", nodes, [
        ("a branch that agrees", ("audit", 1), [100, 0], {}),
        ("a branch that has more", ("audit", 2), [3, 4], {}),
        ("no accounts", ("audit", 3), [0, 9], {}),
        ("a sum that doesn't fit", ("audit", 4), NOTHING, {}),
        ("a difference that doesn't fit", ("audit", 5), NOTHING, {}),
        ("no such branch", ("audit", 13), NOTHING, {}),
        ("a number below 0", ("audit", -1), NOTHING, {}),
    ])
    tried(tests, tree, "audit", [(0, 4_000), *[(0, 1)] * 4_095], [("4,095 accounts", ("audit", 0), [4_095, -95], {})])
    tried(tests, tree, "audit", [(0, 4_000), *[(0, 1)] * 4_096], [("4,096 accounts", ("audit", 0), NOTHING, {})], "--nodes", "5000")


def test_bill_of_materials(tests, tree):
    """The product 1 has the assemblies 2 and 3, these the parts 4 and 5, and 6; the parts 4 and 5 have pieces. The fields are cost, count and work."""
    nodes = [(0,), (0, 99, 0, 10), (1, 99, 2, 3), (1, 99, 1, 1), (2, 99, 3, 2), (2, 99, 1, 0), (3, 99, 5, 4), (4, 5, 2), (4, 1, 4), (5, 7, 1)]
    costs = {
        4: [2 + 5 * 2 + 1 * 4, 3, 2],
        5: [0 + 7 * 1, 1, 0],
        6: [4, 5, 4],
        2: [3 + 16 * 3 + 7 * 1, 2, 3],
        3: [1 + 4 * 5, 1, 1],
        1: [10 + 58 * 2 + 21 * 1, 0, 10],
    }
    tried(tests, tree, "bill_of_materials", nodes, [
        ("a product", ("roll_up", 1), [147], costs),
        ("no such product", ("roll_up", 10), NOTHING, {}),
    ])
    # The second of two parts costs too much: the first one and its assembly have their new costs, and the product keeps its own.
    nodes = [(0, 50, 0, 1), (0, 1, 1, 1), (0, 1, 1, 1), (1, 1, 1, 1), (2, 1, 1, 1), (3, 2, 3), (4, GREATEST, 2)]
    tried(tests, tree, "bill_of_materials", nodes, [("a cost that doesn't fit", ("roll_up", 0), NOTHING, {3: [7, 1, 1], 1: [8, 1, 1]})])
    assemblies = {0: [15], **{node: [1, 1, 1] for node in range(1, 16)}}
    tried(tests, tree, "bill_of_materials", [(0,), *[(0, 0, 1, 1)] * 15], [("15 assemblies", ("roll_up", 0), [15], assemblies)])
    tried(tests, tree, "bill_of_materials", [(0,), *[(0, 0, 1, 1)] * 16], [("16 assemblies", ("roll_up", 0), NOTHING, {})])
    tried(tests, tree, "bill_of_materials", [(0,), (0, 0, 1, 1), *[(1, 0, 1, 1)] * 16], [("16 parts", ("roll_up", 0), NOTHING, {})])
    tried(tests, tree, "bill_of_materials", [(0,), (0, 0, 1, 1), (1, 0, 1, 1), *[(2, 1, 1)] * 16], [("16 pieces", ("roll_up", 0), NOTHING, {})])
    run = tests.run("check", "examples/cookbook/bill_of_materials.tdb")
    tests.check("bill_of_materials: three loops of 15", '"locks":3616,' in run.out, run)
    path = tests.path("examples/cookbook/bill_of_materials.tdb")
    path.write_text(path.read_text().replace("at most 15", "at most 16"))
    run = tests.run("check", "examples/cookbook/bill_of_materials.tdb")
    tests.check("bill_of_materials: three loops of 16", run.status == 1 and run.out.startswith('{"error":[296,'), run)


def test_cascade(tests, tree):
    """Below the node 1 are 2 and 3, below 2 is 4, below that 5, and below that 6, which is a level too deep."""
    tried(tests, tree, "cascade", [(0,), (0,), (1,), (1, 7), (2,), (4,), (5,), (0,)], [
        ("a subtree", ("cascade", 1, 9), ONE, {1: [9], 2: [9], 3: [9], 4: [9], 5: [9]}),
        ("a node without children", ("cascade", 7, 9), ONE, {7: [9]}),
        ("no such node", ("cascade", 8, 9), NOTHING, {}),
    ])
    # The node 2 has 16 children.
    tried(tests, tree, "cascade", [(0,), (0,), (0,), (0,), (1,), *[(2,)] * 16], [
        ("too many children below", ("cascade", 0, 9), NOTHING, {0: [9], 1: [9], 4: [9], 2: [9]}),
        ("too many children", ("cascade", 2, 9), NOTHING, {2: [9]}),
    ])
    # The nodes 1 to 3 are below one another, and the last of them has 15 children, then 16.
    chain = [(0,), (0,), (1,)]
    tried(tests, tree, "cascade", [*chain, *[(2,)] * 15], [("15 children", ("cascade", 0, 9), ONE, {node: [9] for node in range(18)})])
    tried(tests, tree, "cascade", [*chain, *[(2,)] * 16], [("16 children at the end", ("cascade", 0, 9), NOTHING, {0: [9], 1: [9], 2: [9]})])


def test_greatest(tests, tree):
    least = -(2**63)
    tried(tests, tree, "greatest", [(0,), (0,), (0, 3), (0, 5), *[(1, value) for value in (4, 9, 2, 9, 7, least)], (2, -8)], [
        ("six children, two of them equal", ("greatest", 1), [1, 9, 3, 9, 4, 7], {}),
        ("three children", ("greatest", 0), [2, 5, 1, 3, 0, 0], {}),
        ("one child", ("greatest", 2), [0, -8, -1, least, -1, least], {}),
        ("no child", ("greatest", 3), [-1, least, -1, least, -1, least], {}),
        ("no such node", ("greatest", 11), [-2], {}),
    ])
    tried(tests, tree, "greatest", [(0,), *[(0, value) for value in range(1_000)]], [("1,000 children", ("greatest", 0), [999, 999, 998, 998, 997, 997], {})])
    tried(tests, tree, "greatest", [(0,), *[(0, value) for value in range(1_001)]], [("1,001 children", ("greatest", 0), [-5], {})])


def test_path_counter(tests, tree):
    """From the root to its second child 2, to the second child 5 of that, and to the only child 6 of that: the digits 0, 1 and 1."""
    nodes = [(0, 10), (0,), (0, 4), (0, GREATEST), (2,), (2,), (5, 7)]
    path = 0 * 64 * 64 + 1 * 64 + 1
    tried(tests, tree, "path_counter", nodes, [
        ("three steps", ("count_path", path, 3), [8], {0: [11], 2: [5], 5: [1], 6: [8]}),
        ("two steps", ("count_path", path, 2), [1], {0: [11], 2: [5], 5: [1]}),
        ("no step", ("count_path", path, 0), [11], {0: [11]}),
        ("a path that ends before", ("count_path", path, 4), NOTHING, {0: [11], 2: [5], 5: [1], 6: [8]}),
        ("a place that isn't there", ("count_path", 2 * 64 + 1, 2), NOTHING, {0: [11], 2: [5]}),
        ("a count that doesn't fit", ("count_path", 2, 1), NOTHING, {0: [11]}),
        ("eleven steps", ("count_path", path, 11), NOTHING, {0: [11]}),
    ])
    # Nodes below one another, of which the tenth has two children.
    chain = [(0,), *[(node,) for node in range(9)], (9,), (9,)]
    tried(tests, tree, "path_counter", chain, [("ten steps", ("count_path", 64**9, 10), ONE, {**{node: [1] for node in range(10)}, 11: [1]})])
    # The last of 64 children.
    tried(tests, tree, "path_counter", [(0,), *[(0,)] * 64], [("the greatest place", ("count_path", 63, 1), ONE, {0: [1], 64: [1]})])


def test_posting(tests, tree):
    """The branch 1 has the accounts 2 to 5, with their balances and what these are at least."""
    zero, nodes = [0], [(0,), (0,), (1, 100), (1, 50, -20), (1, 10, 5), (1, GREATEST)]
    tried(tests, tree, "posting", nodes, [
        ("three lines", ("post_three", 1, 0, -30, 1, 20, 2, 10), ONE, {2: [70], 3: [70, -20], 4: [20, 5]}),
        ("the first down to its least", ("post_three", 1, 0, -100, 1, 60, 2, 40), ONE, {2: [0], 3: [110, -20], 4: [50, 5]}),
        ("the second down to its least", ("post_three", 1, 0, 60, 1, -70, 2, 10), ONE, {2: [160], 3: [-20, -20], 4: [20, 5]}),
        ("the third down to its least", ("post_three", 1, 0, 1, 1, 4, 2, -5), ONE, {2: [101], 3: [54, -20], 4: [5, 5]}),
        ("the first below its least", ("post_three", 1, 0, -101, 1, 61, 2, 40), zero, {}),
        ("the second below its least", ("post_three", 1, 0, 61, 1, -71, 2, 10), zero, {}),
        ("the third below its least", ("post_three", 1, 0, 2, 1, 4, 2, -6), zero, {}),
        ("lines that add up to 1", ("post_three", 1, 0, -30, 1, 20, 2, 11), zero, {}),
        ("lines that add up to -1", ("post_three", 1, 0, -30, 1, 20, 2, 9), zero, {}),
        ("lines whose sum doesn't fit", ("post_three", 1, 0, GREATEST, 1, 1, 2, -GREATEST), zero, {}),
        ("a balance that doesn't fit", ("post_three", 1, 0, -1, 1, 0, 3, 1), zero, {}),
        ("one account twice", ("post_three", 1, 0, -30, 1, 20, 1, 10), zero, {}),
        ("places that fall", ("post_three", 1, 1, 20, 0, -30, 2, 10), zero, {}),
        ("no such account", ("post_three", 1, 0, -30, 1, 20, 4, 10), zero, {}),
        ("a place below 0", ("post_three", 1, -1, -30, 1, 20, 2, 10), zero, {}),
        ("no such branch", ("post_three", 6, 0, -30, 1, 20, 2, 10), zero, {}),
    ])


def test_quota_path(tests, tree):
    """Directories and files; the fields are size, used and quota. The root 0 has 10 bytes left, the directory 1 below it 5, the directory 5 a level deeper 7, and the directory 8 below that 3. The
    others have no quota."""
    nodes = [(0, 0, 90, 100), (0, 0, 50, 55), (0, 0, 40), (0,), (1, 0, 50), (2, 0, 40, 47), (3,), (4, 0, 50), (5, 0, 30, 33), (5, 0, 10), (6,), (7, 50), (8, 30), (9, 10), (10,)]
    zero = [0]
    tried(tests, tree, "quota_path", nodes, [
        ("as much as the root has left", ("grow", 10, 2, 0, 0, 0), ONE, {0: [0, 100, 100], 3: [0, 10], 6: [0, 10], 10: [0, 10], 14: [10]}),
        ("more than the root has left", ("grow", 11, 2, 0, 0, 0), zero, {}),
        ("as much as the first has left", ("grow", 5, 0, 0, 0, 0), ONE, {0: [0, 95, 100], 1: [0, 55, 55], 4: [0, 55], 7: [0, 55], 11: [55]}),
        ("more than the first has left", ("grow", 6, 0, 0, 0, 0), zero, {}),
        ("as much as the second has left", ("grow", 7, 1, 0, 1, 0), ONE, {0: [0, 97, 100], 2: [0, 47], 5: [0, 47, 47], 9: [0, 17], 13: [17]}),
        ("more than the second has left", ("grow", 8, 1, 0, 1, 0), zero, {}),
        ("as much as the third has left", ("grow", 3, 1, 0, 0, 0), ONE, {0: [0, 93, 100], 2: [0, 43], 5: [0, 43, 47], 8: [0, 33, 33], 12: [33]}),
        ("more than the third has left", ("grow", 4, 1, 0, 0, 0), zero, {}),
        ("no byte", ("grow", 0, 0, 0, 0, 0), ONE, {}),
        ("a byte less", ("grow", -1, 0, 0, 0, 0), zero, {}),
        ("a sum that doesn't fit", ("grow", GREATEST, 2, 0, 0, 0), zero, {}),
        ("no such directory", ("grow", 1, 3, 0, 0, 0), zero, {}),
        ("no such directory in it", ("grow", 1, 0, 1, 0, 0), zero, {}),
        ("no such directory in that", ("grow", 1, 0, 0, 1, 0), zero, {}),
        ("no such file", ("grow", 1, 0, 0, 0, 1), zero, {}),
    ])
    # Without quotas only the size of the file doesn't fit.
    chain = [(0,), (0,), (1,), (2,), (3, GREATEST)]
    tried(tests, tree, "quota_path", chain, [("a size that doesn't fit", ("grow", 1, 0, 0, 0, 0), zero, {})])


def test_reorder(tests, tree):
    """The warehouse 1 has four shelves, of which the second has 4 pieces too few and the third 1; the warehouse 2 has none."""
    tried(tests, tree, "reorder", [(0,), (0,), (0,), (1, 5, 5), (1, 2, 6), (1, 0, 1), (1, 9, 3)], [
        ("from the first on", ("reorder", 1, 0), [1, 4, 2, 1, -1], {}),
        ("from the third on", ("reorder", 1, 2), [2, 1, -1], {}),
        ("from the last on", ("reorder", 1, 3), [-1], {}),
        ("behind the last", ("reorder", 1, 4), [-1], {}),
        ("far behind the last", ("reorder", 1, 1_000), [-1], {}),
        ("no shelves", ("reorder", 2, 0), [-1], {}),
        ("a place below 0", ("reorder", 1, -1), NOTHING, {}),
        ("no such warehouse", ("reorder", 7, 0), NOTHING, {}),
    ])
    # Each shelf has as many pieces too few as its place says, and 1.
    fifteen = [number for place in range(15) for number in (place, place + 1)]
    tried(tests, tree, "reorder", [(0,), *[(0, 0, place + 1) for place in range(15)]], [("15 shelves", ("reorder", 0, 0), [*fifteen, -1], {})])
    tried(tests, tree, "reorder", [(0,), *[(0, 0, place + 1) for place in range(17)]], [
        ("17 shelves, the first page", ("reorder", 0, 0), [*fifteen, 15], {}),
        ("17 shelves, the second page", ("reorder", 0, 15), [15, 16, 16, 17, -1], {}),
    ])
    # Only the last shelf is short.
    tried(tests, tree, "reorder", [(0,), *[(0, 5, 5)] * 254, (0, 2, 5)], [("254 shelves before it", ("reorder", 0, 0), [254, 3, -1], {})])
    tried(tests, tree, "reorder", [(0,), *[(0, 5, 5)] * 255, (0, 2, 5)], [
        ("255 shelves before it", ("reorder", 0, 0), [255], {}),
        ("the page behind 255 shelves", ("reorder", 0, 255), [255, 3, -1], {}),
    ])


def test_reservation(tests, tree):
    """The row 1 has the seats 3 to 5: held up to 50, held up to 90, and free. The row 2 has none, and the seats of 6 were reserved as often as they can be."""
    nodes = [(0,), (0,), (0,), (1, 7, 50, 4), (1, 8, 90, 2), (1,), (0,), (6, 0, 0, GREATEST)]
    tried(tests, tree, "reservation", nodes, [
        ("a seat whose time is over", ("reserve", 1, 42, 50, 10), [0, 0, 5], {3: [42, 60, 5]}),
        ("a free seat", ("reserve", 1, 42, 49, 10), [0, 2, 1], {5: [42, 59, 1]}),
        ("no customer", ("reserve", 1, 0, 50, 10), [1], {}),
        ("no time", ("reserve", 1, 42, 50, 0), [2], {}),
        ("a time that doesn't fit", ("reserve", 1, 42, GREATEST, 1), [-1], {}),
        ("no such row", ("reserve", 8, 42, 50, 10), [-2], {}),
        ("a row without seats", ("reserve", 2, 42, 50, 10), [3], {}),
        ("a token that doesn't fit", ("reserve", 6, 42, 50, 10), [-1], {}),
        ("giving a seat back", ("release", 1, 1, 2), [0], {4: [0, 90, 2]}),
        ("giving back with an old token", ("release", 1, 0, 3), [4], {}),
        ("giving back what is free", ("release", 1, 2, 0), [4], {}),
        ("giving back no seat", ("release", 1, 3, 1), [-3], {}),
        ("giving back in no row", ("release", 9, 0, 1), [-2], {}),
    ])
    held = [(0,), *[(0, 7, 90, 1)] * 500]
    tried(tests, tree, "reservation", held, [("a full row", ("reserve", 0, 42, 50, 10), [3], {}), ("the first of a full row, later", ("reserve", 0, 42, 90, 10), [0, 0, 2], {1: [42, 100, 2]})])
    tried(tests, tree, "reservation", [*held, (0,)], [("a row of 501 seats", ("reserve", 0, 42, 50, 10), [-5], {})])


def test_search(tests, tree):
    """The children of the node 1 have the keys 30, 10, 20, 10 and -1, and values; those of 2 have none of these keys."""
    nodes, none = [(0,), (0,), (0,), (1, 30, GREATEST), (1, 10, 100), (1, 20, -6), (1, 10, 111), (1, -1, -1), (2, 1, 1)], [-1]
    tried(tests, tree, "search", nodes, [
        ("a key", ("find", 1, 20), [2, -6], {}),
        ("a key of two children", ("find", 1, 10), [1, 100], {}),
        ("the key -1", ("find", 1, -1), [4, -1], {}),
        ("a key that none has", ("find", 2, 20), none, {}),
        ("a node without children", ("find", 8, 1), none, {}),
        ("no such node", ("find", 9, 20), none, {}),
        ("adding", ("find_and_add", 1, 10, 5), [1, 105], {4: [10, 105]}),
        ("adding up to -1", ("find_and_add", 1, 20, 5), [2, -1], {5: [20, -1]}),
        ("adding to a key that none has", ("find_and_add", 2, 20, 5), none, {}),
        ("adding below no such node", ("find_and_add", 9, 20, 5), none, {}),
        ("adding a sum that doesn't fit", ("find_and_add", 1, 30, 1), none, {}),
    ])
    many = [(0,), *[(0, key, 7) for key in range(1_000)]]
    tried(tests, tree, "search", many, [
        ("the last of 1,000", ("find", 0, 999), [999, 7], {}),
        ("adding to the last of 1,000", ("find_and_add", 0, 999, 1), [999, 8], {1_000: [999, 8]}),
    ])
    tried(tests, tree, "search", [*many, (0, 1_000, 7)], [
        ("one of 1,001", ("find", 0, 0), none, {}),
        ("adding to one of 1,001", ("find_and_add", 0, 0, 1), none, {}),
    ])


def test_seats(tests, tree):
    """The row 1 has five seats, 2 to 6, of which the second, the third and the fifth are free."""
    tried(tests, tree, "seats", [(0,), (0, 3), (1, 0, 7), (1,), (1,), (1, 0, 8), (1,)], [
        ("two seats", ("reserve", 1, 42, 2), [1, 2], {1: [1], 3: [0, 42], 4: [0, 42]}),
        ("all free seats", ("reserve", 1, 42, 3), [1, 2, 4], {1: [0], 3: [0, 42], 4: [0, 42], 6: [0, 42]}),
        ("too few free seats", ("reserve", 1, 42, 4), NOTHING, {}),
        ("no seat", ("reserve", 1, 42, 0), NOTHING, {}),
        ("a number below 0", ("reserve", 1, 42, -1), NOTHING, {}),
        ("no customer", ("reserve", 1, 0, 2), NOTHING, {}),
        ("no such row", ("reserve", 7, 42, 2), NOTHING, {}),
    ])
    eight = {0: [24], **{seat: [0, 42] for seat in range(1, 9)}}
    tried(tests, tree, "seats", [(0, 32), *[(0,)] * 32], [
        ("eight of 32 seats", ("reserve", 0, 42, 8), [0, 1, 2, 3, 4, 5, 6, 7], eight),
        ("nine of 32 seats", ("reserve", 0, 42, 9), NOTHING, {}),
    ])
    tried(tests, tree, "seats", [(0, 1), *[(0, 0, 7)] * 31, (0,)], [("the last of 32 seats", ("reserve", 0, 42, 1), [31], {0: [0], 32: [0, 42]})])
    tried(tests, tree, "seats", [(0, 33), *[(0,)] * 33], [("a row of 33 seats", ("reserve", 0, 42, 1), NOTHING, {})])


def test_transfer(tests, tree):
    """The bank 0 has the accounts 1 to 4, of which the third is closed, and the last one has as much as fits."""
    tried(tests, tree, "transfer", [(0,), (0, 10), (0, 5), (0, 7, 1), (0, GREATEST)], [
        ("a transfer", ("transfer", 0, 10, 0, 1), [0], {1: [0], 2: [15]}),
        ("to the left", ("transfer", 0, 5, 1, 0), [0], {1: [15], 2: [0]}),
        ("too much", ("transfer", 0, 11, 0, 1), [2], {}),
        ("from a closed account", ("transfer", 0, 1, 2, 0), [1], {}),
        ("to a closed account", ("transfer", 0, 1, 0, 2), [1], {}),
        ("too much from a closed account", ("transfer", 0, 8, 2, 0), [1], {}),
        ("nothing", ("transfer", 0, 0, 0, 1), [3], {}),
        ("less than nothing", ("transfer", 0, -1, 0, 1), [3], {}),
        ("a sum that doesn't fit", ("transfer", 0, 1, 0, 3), [-1], {}),
        ("no such bank", ("transfer", 5, 1, 0, 1), [-2], {}),
        ("no such account", ("transfer", 0, 1, 0, 4), [-3], {}),
        ("one account", ("transfer", 0, 1, 1, 1), [-3], {}),
    ])


def test_transfer_any(tests, tree):
    """The company 0 has the warehouses 1 and 2; 1 has the aisles 3 and 4, 2 has 5 and 6. The shelves are 7 and 8 in 3, 9 in 4, 10 and 11 in 5, 12 in 6."""
    zero, nodes = [0], [(0,), (0,), (0,), (1,), (1,), (2,), (2,), (3, 10), (3, 20), (4, 30), (5, GREATEST), (5, 1), (6, 5)]
    tried(tests, tree, "transfer_any", nodes, [
        ("in an aisle", ("transfer_any", 4, 0, 0, 0, 0, 0, 1), [4], {7: [6], 8: [24]}),
        ("in an aisle, to the left", ("transfer_any", 20, 0, 0, 1, 0, 0, 0), [20], {7: [30], 8: [0]}),
        ("in a warehouse", ("transfer_any", 10, 0, 0, 0, 0, 1, 0), [10], {7: [0], 9: [40]}),
        ("in a warehouse, to the left", ("transfer_any", 7, 0, 1, 0, 0, 0, 1), [7], {8: [27], 9: [23]}),
        ("between warehouses", ("transfer_any", 3, 0, 1, 0, 1, 0, 1), [3], {9: [27], 11: [4]}),
        ("between warehouses, to the left", ("transfer_any", 5, 1, 1, 0, 0, 0, 1), [5], {8: [25], 12: [0]}),
        ("no piece", ("transfer_any", 0, 0, 0, 0, 1, 0, 1), zero, {}),
        ("a piece less", ("transfer_any", -1, 0, 0, 0, 0, 0, 1), zero, {}),
        ("too few in an aisle", ("transfer_any", 11, 0, 0, 0, 0, 0, 1), zero, {}),
        ("too few in a warehouse", ("transfer_any", 11, 0, 0, 0, 0, 1, 0), zero, {}),
        ("too few between warehouses", ("transfer_any", 11, 0, 0, 0, 1, 0, 1), zero, {}),
        ("a sum in an aisle that doesn't fit", ("transfer_any", 1, 1, 0, 1, 1, 0, 0), zero, {}),
        ("a sum in a warehouse that doesn't fit", ("transfer_any", 1, 1, 1, 0, 1, 0, 0), zero, {}),
        ("a sum between warehouses that doesn't fit", ("transfer_any", 1, 0, 0, 0, 1, 0, 0), zero, {}),
        ("one shelf", ("transfer_any", 1, 0, 0, 0, 0, 0, 0), zero, {}),
        ("no such shelf in the aisle", ("transfer_any", 1, 0, 0, 0, 0, 0, 2), zero, {}),
        ("no such shelf in the warehouse", ("transfer_any", 1, 0, 0, 0, 0, 1, 1), zero, {}),
        ("no such shelf in the other warehouse", ("transfer_any", 1, 0, 0, 0, 1, 1, 1), zero, {}),
        ("no such aisle", ("transfer_any", 1, 0, 2, 0, 0, 2, 1), zero, {}),
        ("no such aisle in the other warehouse", ("transfer_any", 1, 0, 0, 0, 1, 2, 0), zero, {}),
        ("no such warehouse", ("transfer_any", 1, 2, 0, 0, 2, 0, 1), zero, {}),
        ("no such other warehouse", ("transfer_any", 1, 0, 0, 0, 2, 0, 0), zero, {}),
        ("nothing to take from", ("transfer_any", 1, -1, 0, 0, 1, 0, 1), zero, {}),
    ])


def test_no_text_is_left_out(tests):
    """Each text has a test of its name, and each procedure of it is called here."""
    here = pathlib.Path(__file__).read_text()
    for path in sorted((TOP / "examples/cookbook").glob("*.tdb")):
        tests.check(f"{path.name}: it has a test", f"def test_{path.stem}(tests" in here, path.stem)
        procedures = re.findall(r"^(?:atomic )?proc (\w+)", path.read_text(), re.MULTILINE)
        tests.check(f"{path.name}: it has procedures", procedures != [], procedures)
        tests.same(f"{path.name}: its procedures that aren't called", [name for name in procedures if f'("{name}", ' not in here], [])
