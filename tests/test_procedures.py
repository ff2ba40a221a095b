"""Texts of the procedure language that people would write, in tests/procedures: which are taken, at which place the others are refused, and what some of them do on a small tree."""

import json

import hostile
from running import TOP

FOLDER = TOP / "tests/procedures"
TAKEN = """
    atomic_bulk_write atomic_bulk_write_by_try bom_one_level codes constant_as_field_or_bound lease least_number_behind_an_operator ledger_two_subtrees part_and_a_later_constant part_that_gives_nothing_back queue_ring quota_any_depth
    reservation_expiry search_by_while search_found search_sorted sum_behind_a_condition three_way_split top3_one_pass top_k_in_passes
    transfer_with_reasons versioned
""".split()
# The number of the fault, its line and its column.
REFUSED = {
    "bom_recursive": [275, 4, 39],
    "break_with_through_a_loop": [288, 4, 24],
    "break_with_too_few": [279, 3, 20],
    "break_with_without_found": [288, 3, 20],
    "children_listed": [297, 4, 44],
    "code_by_an_old_name": [276, 2, 38],
    "code_of_64_bits": [271, 3, 21],
    "code_of_an_if": [273, 2, 31],
    "code_that_is_computed": [273, 2, 21],
    "follow_a_reference": [282, 10, 14],
    "one_field_twice": [298, 4, 19],
    "part_named_while": [273, 1, 6],
    "part_with_a_later_field": [275, 1, 20],
    "pick_order_four_lines": [279, 2, 53],
    "place_of_299": [299, 5, 5],
    "search_natural": [297, 6, 30],
    "three_way_split_nine_arguments": [279, 2, 51],
}
# Large texts, and their faults: blocks in one another, also in 1, 2 and 4 parts, and many names with many uses of parts.
LARGE = {
    "deep": (hostile.deep, [0], [294, 2, 6]),
    "deep, in a part": (hostile.deep, [1], [274, 2, 2124]),
    "deep, in two parts": (hostile.deep, [2], [274, 3, 2124]),
    "deep, in four parts": (hostile.deep, [4], [274, 5, 2124]),
    "many names": (hostile.many_names, [], [294, 3, 1226]),
}
# Where a loop may not go through all children, and `check` says so.
WARNED = {"codes": "line 55, column 90", "sum_behind_a_condition": "line 7, column 5", "top_k_in_passes": "line 9, column 9"}
# The arguments, the reply, and the fields of the records that are others afterwards. The node 0 has three children, whose first field is 5, 9 and 7.
CALLS = [
    ("atomic_bulk_write", [0, 4], [1], {1: [4], 2: [4], 3: [4]}),
    ("atomic_bulk_write_by_try", [0, 4], [1], {1: [4], 2: [4], 3: [4]}),
    ("least_number_behind_an_operator", [1], [-2147483647], {}),
    ("part_that_gives_nothing_back", [50], [50], {}),
    ("search_by_while", [0, 7], [2], {}),
    ("sum_behind_a_condition", [0, 0], [21], {}),
    # The first child is held, so the loop can't lock it: it fails, and the call ends there.
    ("sum_behind_a_condition", [0, 1], [], {1: [5, 1]}),
    ("top3_one_pass", [0], [1, 9, 2, 7, 0, 5], {}),
    ("top_k_in_passes", [0, 1], [1, 9], {}),
    # The second pass can't lock the children again.
    ("top_k_in_passes", [0, 3], [1, 9], {}),
    ("transfer_with_reasons", [4, 0, 2], [0], {1: [1], 3: [11]}),
    ("transfer_with_reasons", [6, 0, 2], [2], {}),
    ("transfer_with_reasons", [0, 0, 2], [3], {}),
    ("transfer_with_reasons", [4, 0, 3], [-3], {}),
]
# What the procedures of `codes` answer: the code of the failure last.
GREATEST = 2**63 - 1
CODES = [
    ("plain", [], [0]), ("named", [], [10]), ("negative", [], [-7]), ("given", [5], [5]), ("given", [GREATEST], [GREATEST]),
    ("short", [6], [6]), ("short", [5], [10]), ("required", [6], [6]), ("required", [5], [0]), ("computed", [1], [-1]), ("computed", [-GREATEST], [10]), ("computed", [0], [0]),
    ("overflow", [3], [9]), ("overflow", [GREATEST], [-1]), ("quotient", [0], [-1]), ("quotient", [2], [3]), ("chosen", [0], [-1]), ("chosen", [1], [3]), ("chosen", [7], [4]),
    ("no_node", [1], [5]), ("no_node", [4], [-2]), ("no_node", [-1], [-2]), ("no_child", [1], [9]), ("no_child", [3], [-3]), ("passed", [], [-3]), ("same_two", [], [-3]),
    ("down", [2], [7]), ("down", [3], [-3]), ("often", [2], [1, 1]), ("often", [4], [-4]), ("looping", [3], [3]), ("looping", [4], [-4]),
    ("many", [], [-5]), ("held", [0], [5, 9, 7]), ("held", [1], [5, -5]), ("later", [], [14, -5]), ("turns", [2], [5, 9, 20]), ("turns", [3], [5, 9, 7, 0]), ("stale", [1], [2, 0]),
    ("own", [1], [-1, 1]), ("own", [0], [GREATEST]), ("own_let", [0], [-1]), ("own_let", [1], [1]), ("own_lock", [9], [-2]), ("own_lock", [1], [5]),
    ("own_require", [5], [21, 5]), ("own_require", [6], [6]), ("own_fail", [5], [23]), ("own_fail", [6], [6]),
    ("inner", [], [3, 4]), ("handled", [0], [1, -1]), ("handled", [7], [1, 1]), ("again", [0], [1, 5]), ("again", [1], []), ("whole", [0], [11]), ("whole", [1], [1]),
    ("through", [0], [12]), ("through", [1], [1]), ("told", [0], [12]), ("told", [1], [1]), ("given_number", [0], [-1]), ("given_number", [8], [12]), ("given_number", [7], [1]),
    ("own_use", [0], [12, 2]), ("own_use", [1], [2]), ("unread", [0], [9]), ("unread", [1], [1]),
]


def test_each_text_is_judged(tests):
    names = {path.stem for path in FOLDER.glob("*.tdb")}
    tests.same("each text has a row", {*TAKEN, *REFUSED}, names)
    for name in sorted(names):
        run = tests.run("check", FOLDER / f"{name}.tdb")
        answer = json.loads(run.out)
        if name in REFUSED:
            tests.check(f"{name} is refused", (run.status, answer) == (1, {"error": REFUSED[name]}), run)
        else:
            tests.check(f"{name} is taken", run.status == 0 and isinstance(answer, list), run)
            tests.check(f"{name}: the warnings of loops", (": the loop may not go through all" in run.err) == (name in WARNED) and WARNED.get(name, "") in run.err, run)


def test_large_texts(tests):
    for name, (text, arguments, fault) in LARGE.items():
        tests.path("large.tdb").write_text(text(*arguments))
        run = tests.run("check", "large.tdb")
        tests.check(f"{name} is refused", (run.status, run.out) == (1, json.dumps({"error": fault}, separators=(",", ":")) + "\n"), run)


def test_what_they_do(tests):
    tree = json.loads((FOLDER / "tree.json").read_text())
    for name, arguments, reply, changed in CALLS:
        run = tests.run("alone", "--tree", FOLDER / "tree.json", "--proc", FOLDER / f"{name}.tdb", "--args", json.dumps(arguments))
        answer, left = map(json.loads, run.out.splitlines())
        records = [[*changed.get(node, []), *record[len(changed.get(node, [])):]] for node, record in enumerate(tree["records"])]
        tests.check(f"{name} {arguments}", run.status == 0 and answer["reply"] == reply and left["records"] == records, run)


def test_codes(tests):
    for name, arguments, reply in CODES:
        run = tests.run("alone", "--tree", FOLDER / "tree.json", "--proc", FOLDER / "codes.tdb", "--name", name, "--args", json.dumps(arguments))
        tests.check(f"{name} {arguments}", run.status == 0 and json.loads(run.out.splitlines()[0])["reply"] == reply, run)


# What the procedures of `search_found` answer: of the node 0, whose children have the keys 5, 9 and 7.
FOUND = [
    ("find", [0, 9], [1, 10]), ("find", [0, 5], [0, 6]), ("find", [0, 7], [2, 8]), ("find", [0, 8], [-1]), ("find", [1, 5], [-1]), ("find", [9, 5], []),
    ("without_else", [0, 7], [2, 9]), ("without_else", [0, 8], [9]), ("whether", [0, 9], [1]), ("whether", [0, 8], [0]),
    ("up_to", [0, 9, 7], [1]), ("up_to", [0, 7, 9], [-1]), ("up_to", [0, 4, 4], [-1]), ("counted", [20], [8]), ("counted", [7], [-7]), ("counted", [0], [0]),
    ("pairs", [13], [0, 8]), ("pairs", [18], [1, 9]), ("pairs", [22], [-1]), ("failing", [1], [1]), ("failing", [0], [-1]),
    ("twice", [0, 2, 3], [2, 3]), ("twice", [0, 2, 9], [2, 0]), ("twice", [0, 9, 1], [0, 1]), ("named", [4], [7]),
]


def test_found(tests):
    for name, arguments, reply in FOUND:
        run = tests.run("alone", "--tree", FOLDER / "tree.json", "--proc", FOLDER / "search_found.tdb", "--name", name, "--args", json.dumps(arguments))
        tests.check(f"{name} {arguments}", run.status == 0 and json.loads(run.out.splitlines()[0])["reply"] == reply, run)


def test_nothing_reads_a_code(tests):
    """Where no `else` has a name, codes cost nothing: the text becomes what it becomes without them."""
    text = "part q(x) {{ require x > 2{code}; }} proc p(a, b) {{ require a > b{code}; q(a); try {{ let c = a + b; if c > 9 {{ fail{word}; }} emit c; }} else {{ emit 1; }} }} else {{ emit 2; }}"
    made = []
    for code, word in [("", ""), (" : 7", " 8")]:
        tests.path("text.tdb").write_text(text.format(code=code, word=word))
        made.append(tests.run("procs", "text.tdb"))
    tests.check("the instructions", made[0].status == 0 and made[0].out == made[1].out, made)
