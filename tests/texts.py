"""Random texts of the procedure language, and what they mean by docs/use/language.md: an oracle that shares nothing with the product.

A statement is a tuple whose first word says which. `Texts` makes those that keep the rules of the page, `written` writes them, and `Meaning` does what they say.
"""

LEAST, GREATEST = -(2**63), 2**63 - 1
FIELDS = 3
# What may be in scope at once, so that registers suffice: a statement that needs more is refused with 291 to 293, and what is too large with 294 to 297.
VALUES, NODES, LOOPS, EMITS = 8, 4, 3, 8
TOO_MUCH = range(291, 298)
NUMBERS = [*[0, 1, 2, 3] * 3, 7, 10, 100, 2**31 - 1, -1, -5, -(2**31)]
RELATIONS = {"<": lambda a, b: a < b, "<=": lambda a, b: a <= b, ">": lambda a, b: a > b, ">=": lambda a, b: a >= b, "==": lambda a, b: a == b, "!=": lambda a, b: a != b}


# The codes of failures to which a text gives none.
NUMBER, NODE, CHILD, BOUND, CHILDREN = -1, -2, -3, -4, -5


class Fails(Exception):
    """Control goes to the innermost else, which may read the code."""

    def __init__(self, code=0):
        self.code = code


class Breaks(Exception):
    """Control leaves the innermost loop, with numbers or without."""

    def __init__(self, numbers=None):
        self.numbers = numbers


class Returns(Exception):
    """Control leaves the procedure."""


# ---- texts that keep the rules


class Scope:
    """The names that are known at a place, and what may be done there."""

    def __init__(self, values, nodes=(), in_part=False, writes=True):
        self.values, self.nodes, self.fixed, self.in_part, self.writes = list(values), list(nodes), set(), in_part, writes
        # The loops around the place, how many values may be emitted behind it, the nodes whose children were locked, and how many loops were around each node's lock.
        self.loops, self.emits, self.used, self.depths = 0, [EMITS], set(nodes), dict.fromkeys(nodes, 0)
        # How many numbers the innermost loop may be left with.
        self.found = 0

    def inner(self):
        other = Scope(self.values, self.nodes, self.in_part, self.writes)
        other.fixed, other.loops, other.emits, other.used, other.depths = set(self.fixed), self.loops, self.emits, self.used, dict(self.depths)
        other.found = self.found
        return other

    def assignable(self):
        return [name for name in self.values if name not in self.fixed]

    def lock(self, name, parent=None):
        self.nodes.append(name)
        self.depths[name] = self.loops
        if parent is not None:
            self.used.add(parent)


class Texts:
    """Makes constants, parts and procedures by chance."""

    def __init__(self, chance):
        self.chance, self.count, self.constants, self.parts = chance, 0, {}, []

    def name(self, kind):
        self.count += 1
        return f"{kind}{self.count}"

    def often(self, share):
        return self.chance.random() < share

    # -- numbers and conditions

    def number(self, scope, depth=2):
        kind = self.chance.randrange(8)
        if depth == 0 or kind < 2:
            return self.chance.choice(
                [("number", self.chance.choice(NUMBERS)), *(("constant", name) for name in self.constants), *[("value", name) for name in scope.values] * 2,
                 *[("field", node, self.chance.randrange(FIELDS)) for node in scope.nodes] * 2, *(("kids", node) for node in scope.nodes)])
        if kind == 2:
            return ("minus", self.number(scope, depth - 1))
        return (self.chance.choice("+-*/+-"), self.number(scope, depth - 1), self.number(scope, depth - 1))

    def place(self, scope):
        """A number of a node or a child, which is often there."""
        return ("number", self.chance.randrange(3)) if self.often(0.6) else self.number(scope, 1)

    def condition(self, scope, depth=2):
        kind = self.chance.randrange(6)
        if depth == 0 or kind < 3:
            return ("compare", self.chance.choice([*RELATIONS]), self.number(scope, 1), self.number(scope, 1))
        if kind == 3:
            return ("not", self.condition(scope, depth - 1))
        return (self.chance.choice(["and", "or"]), self.condition(scope, depth - 1), self.condition(scope, depth - 1))

    # -- statements

    def code(self, scope):
        """The code of a failure, or None."""
        if self.often(0.4):
            return None
        return self.chance.choice([("number", self.chance.choice(NUMBERS)), *(("constant", name) for name in self.constants), *(("value", name) for name in scope.values)])

    def leave(self, scope):
        words = ["fail", "fail", *([] if scope.in_part else ["return"]), *(["break"] if scope.loops else []), *(["break with"] * 4 if scope.found else [])]
        word = self.chance.choice(words)
        if word == "break with":
            return ("leave", word, [self.number(scope, 1) for _ in range(scope.found)])
        return ("leave", word, self.code(scope) if word == "fail" else None)

    def heard(self, scope, made):
        """A block, and the name that has the code of the failure in it, or None."""
        if len(scope.values) >= VALUES or self.often(0.5):
            return made(scope), None
        inner, why = scope.inner(), self.name("w")
        inner.values.append(why)
        return made(inner), why

    def own_else(self, scope, leaves=False):
        """The `else` of a statement, or None. That of a declaration doesn't reach its end."""
        if self.often(0.6):
            return None
        if self.often(0.3):
            return self.leave(scope)
        return ("block", *self.heard(scope, lambda inner: [*self.block(inner, 0, 1), self.leave(inner)] if leaves else self.block(inner, 1, 1)))

    def block(self, scope, depth, most=4, may_leave=False):
        inner = scope.inner()
        statements = [self.statement(inner, depth) for _ in range(self.chance.randrange(most + 1))]
        own = [node for node in inner.nodes if node not in scope.nodes]
        if may_leave and self.often(0.3):
            statements.append(self.leave(inner))
        elif own and self.often(0.3):
            statements.append(("free", own[-1]))
        return statements

    def loop(self, scope, depth, found=0, **names):
        """A block that is a loop's, in which these names are known too, and which may be left with so many numbers."""
        inner = scope.inner()
        inner.loops += 1
        inner.found = found
        if "child" in names:
            inner.lock(names["child"])
        if "place" in names:
            inner.values.append(names["place"])
            inner.fixed.add(names["place"])
        left = [("if", self.condition(inner, 1), [self.leave(inner)], None)] if found else []
        return [*self.block(inner, depth, 3), *left]

    def searched(self, scope, depth, made):
        """A loop, which may have a `found` behind it."""
        count = self.chance.randrange(1, 3) if self.often(0.4) and len(scope.values) + 3 <= VALUES else 0
        loop = made(count)
        if count == 0:
            return loop
        inner, names = scope.inner(), [self.name("r") for _ in range(count)]
        inner.values += names
        return ("found", loop, names, self.block(inner, depth), self.block(scope, depth) if self.often(0.7) else None)

    def statement(self, scope, depth):
        kinds = [self.declared, self.assigned, self.assigned, self.written_fields, self.written_fields, self.emitted, self.required]
        if depth > 0:
            kinds += [self.chosen, self.tried, self.nested, self.repeated, self.repeated, self.repeated_while, self.locked, self.locked_two, self.each_child, self.chosen_by_lock, self.used_part]
        made = self.chance.choice(kinds)(scope, depth - 1)
        return made or ("require", ("compare", "<", ("number", 0), ("number", 1)), None, None)

    def declared(self, scope, _):
        if len(scope.values) >= VALUES:
            return None
        number, other, name = self.number(scope), self.own_else(scope, leaves=True), self.name("v")
        scope.values.append(name)
        return ("let", name, number, other)

    def assigned(self, scope, _):
        if not scope.assignable():
            return None
        return ("assign", self.chance.choice(scope.assignable()), self.chance.choice(["=", "+=", "-="]), self.number(scope), self.own_else(scope))

    def written_fields(self, scope, _):
        if not scope.nodes or not scope.writes:
            return None
        writes = [(self.chance.choice(scope.nodes), self.chance.randrange(FIELDS), self.chance.choice(["=", "+=", "-="]), self.number(scope, 1)) for _ in range(self.chance.choice([1, 1, 1, 2, 3]))]
        return ("write", once_each(writes), self.own_else(scope))

    def emitted(self, scope, _):
        count = self.chance.choice([1, 1, 2])
        if scope.loops > 1 or scope.emits[0] < count:
            return None
        scope.emits[0] -= count
        return ("emit", [self.number(scope) for _ in range(count)], self.own_else(scope))

    def required(self, scope, _):
        return ("require", self.condition(scope, 1), self.code(scope), self.own_else(scope))

    def chosen(self, scope, depth):
        return ("if", self.condition(scope), self.block(scope, depth, may_leave=True), self.block(scope, depth) if self.often(0.5) else None)

    def tried(self, scope, depth):
        return ("try", self.block(scope, depth), *self.heard(scope, lambda inner: self.block(inner, depth)))

    def nested(self, scope, depth):
        return ("block", self.block(scope, depth))

    def repeated(self, scope, depth):
        if scope.loops >= LOOPS:
            return None
        bound, often = self.chance.randrange(1, 5), self.number(scope, 1) if self.often(0.5) else None
        return self.searched(scope, depth, lambda found: ("repeat", bound, often, self.loop(scope, depth, found)))

    def repeated_while(self, scope, depth):
        if scope.loops >= LOOPS:
            return None
        return ("while", self.condition(scope, 1), self.chance.randrange(1, 6), self.loop(scope, depth))

    def locked(self, scope, _):
        if not scope.nodes or len(scope.nodes) > NODES:
            return None
        parent, place, other, name = self.chance.choice(scope.nodes), self.place(scope), self.own_else(scope, leaves=True), self.name("n")
        scope.lock(name, parent)
        return ("lock", name, parent, place, other)

    def locked_two(self, scope, _):
        if not scope.nodes or len(scope.nodes) >= NODES or len(scope.values) >= VALUES:
            return None
        parent, places, other = self.chance.choice(scope.nodes), (self.place(scope), self.place(scope)), self.own_else(scope, leaves=True)
        names = self.name("n"), self.name("n")
        for name in names:
            scope.lock(name, parent)
        return ("two", names, parent, places, other)

    def each_child(self, scope, depth):
        free = [node for node in scope.nodes if node not in scope.used and scope.depths[node] == scope.loops]
        if scope.loops >= LOOPS or len(scope.nodes) > NODES or not free:
            return None
        parent, child, place = self.chance.choice(free), self.name("n"), self.name("i") if self.often(0.5) else None
        scope.used.add(parent)
        names = {"child": child, **({"place": place} if place else {})}
        return self.searched(scope, depth, lambda found: ("each", child, place, parent, self.chance.randrange(1, 9), self.loop(scope, depth, found, **names)))

    def chosen_by_lock(self, scope, depth):
        if not scope.nodes or len(scope.nodes) > NODES:
            return None
        parent, place, name, inner = self.chance.choice(scope.nodes), self.place(scope), self.name("n"), scope.inner()
        inner.lock(name, parent)
        return ("if lock", name, parent, place, self.block(inner, depth), self.block(scope, depth) if self.often(0.5) else None)

    def used_part(self, scope, _):
        parts = [part for part in self.parts if len(part.nodes) <= len(scope.nodes) and part.loops + scope.loops <= LOOPS and (scope.writes or not part.writes)]
        if not parts or len(scope.nodes) > 2 or len(scope.values) > 4:
            return None
        part = self.chance.choice(parts)
        nodes = self.chance.sample(scope.nodes, len(part.nodes))
        scope.used.update(nodes)
        return ("use", part, nodes, [self.number(scope, 1) for _ in part.values], self.own_else(scope))

    # -- what a file has

    def constant(self):
        self.constants[self.name("C")] = self.chance.choice(NUMBERS)

    def part(self):
        part = Part(self.name("q"), [self.name("x") for _ in range(self.chance.randrange(3))], [self.name("m") for _ in range(self.chance.randrange(3))], self.often(0.6))
        scope = Scope(part.values, part.nodes, in_part=True, writes=part.writes)
        # What a part emits counts at each use.
        scope.emits = [1]
        part.body = [self.statement(scope, 1) for _ in range(self.chance.randrange(1, 4))]
        part.loops = loops_of(part.body)
        self.parts.append(part)

    def procedure(self):
        """A procedure that enters the tree. An atomic one writes once, behind all that may fail."""
        arguments, atomic = [self.name("a") for _ in range(self.chance.randrange(4))], self.often(0.25)
        scope = Scope(arguments, writes=not atomic)
        body = [self.statement(scope, 0) for _ in range(self.chance.randrange(3))]
        node = self.name("n")
        body.append(("enter", node, self.place(scope), None))
        scope.lock(node)
        body += [self.statement(scope, 3) for _ in range(self.chance.randrange(1, 7))]
        if self.often(0.2):
            body.append(("descend", node, self.place(scope), None))
        if atomic:
            scope.writes = True
            writes = [(node, self.chance.randrange(FIELDS), "=", self.number(scope, 1)) for _ in range(self.chance.randrange(1, 4))]
            body += [("write", once_each(writes), None), ("emit", [("field", node, 0)], None)]
        other = None
        if self.often(0.6):
            last = Scope(arguments, writes=not atomic)
            last.emits = scope.emits
            other = ("block", *self.heard(last, lambda inner: self.block(inner, 2)))
        return Procedure(arguments, body, other, atomic)


def once_each(writes):
    """The writes of a statement, which may write each field of a node once."""
    return [*{write[:2]: write for write in writes}.values()]


class Part:
    def __init__(self, name, values, nodes, writes):
        self.name, self.values, self.nodes, self.writes, self.body, self.loops = name, values, nodes, writes, [], 0


class Procedure:
    def __init__(self, arguments, body, other, atomic):
        self.arguments, self.body, self.other, self.atomic = arguments, body, other, atomic


def loops_of(body):
    """How many loops are in one another there at most."""
    def depth(it):
        if isinstance(it, Part):
            return it.loops
        if not isinstance(it, (list, tuple)):
            return 0
        inner = max(map(depth, it), default=0)
        return inner + (isinstance(it, tuple) and it[:1] in (("repeat",), ("while",), ("each",)))

    return depth(body)


# ---- how they are written


def number_text(number):
    kind = number[0]
    if kind in ("number", "constant", "value"):
        return str(number[1])
    if kind == "field":
        return f"{number[1]}.f{number[2]}"
    if kind == "kids":
        return f"kids({number[1]})"
    if kind == "minus":
        return f"-({number_text(number[1])})"
    return f"({number_text(number[1])} {kind} {number_text(number[2])})"


def condition_text(condition):
    kind = condition[0]
    if kind == "compare":
        return f"{number_text(condition[2])} {condition[1]} {number_text(condition[3])}"
    if kind == "not":
        return f"not ({condition_text(condition[1])})"
    return f"({condition_text(condition[1])}) {kind} ({condition_text(condition[2])})"


def leave_text(word, code):
    if word == "break with":
        return f"{word} {', '.join(map(number_text, code))};"
    return f"{word};" if code is None else f"{word} {number_text(code)};"


def else_of(block, why):
    return f" else {f'({why}) ' if why else ''}{block_text(block)}"


def tail(other):
    if other is None:
        return ";"
    return f" else {leave_text(*other[1:])}" if other[0] == "leave" else else_of(*other[1:])


def block_text(statements):
    return "{ " + " ".join(WRITTEN[each[0]](*each[1:]) for each in statements) + " }"


def else_text(block):
    return "" if block is None else f" else {block_text(block)}"


WRITTEN = {
    "let": lambda name, number, other: f"let {name} = {number_text(number)}{tail(other)}",
    "assign": lambda name, sign, number, other: f"{name} {sign} {number_text(number)}{tail(other)}",
    "write": lambda writes, other: ", ".join(f"{node}.f{field} {sign} {number_text(number)}" for node, field, sign, number in writes) + tail(other),
    "emit": lambda numbers, other: f"emit {', '.join(map(number_text, numbers))}{tail(other)}",
    "require": lambda condition, code, other: f"require {condition_text(condition)}{'' if code is None else f' : {number_text(code)}'}{tail(other)}",
    "if": lambda condition, one, two: f"if {condition_text(condition)} {block_text(one)}{else_text(two)}",
    "try": lambda one, two, why: f"try {block_text(one)}{else_of(two, why)}",
    "block": block_text,
    "repeat": lambda bound, often, body: f"repeat {bound if often is None else f'{number_text(often)} at most {bound}'} {block_text(body)}",
    "found": lambda loop, names, one, two: f"{WRITTEN[loop[0]](*loop[1:])} found ({', '.join(names)}) {block_text(one)}{else_text(two)}",
    "while": lambda condition, bound, body: f"while {condition_text(condition)} at most {bound} {block_text(body)}",
    "enter": lambda name, number, other: f"lock {name} = node({number_text(number)}){tail(other)}",
    "lock": lambda name, parent, place, other: f"lock {name} = child({parent}, {number_text(place)}){tail(other)}",
    "two": lambda names, parent, places, other: f"lock {', '.join(f'{name} = child({parent}, {number_text(place)})' for name, place in zip(names, places))}{tail(other)}",
    "each": lambda child, place, parent, bound, body: f"for each child {child}{f' ({place})' if place else ''} of {parent} at most {bound} {block_text(body)}",
    "if lock": lambda name, parent, place, one, two: f"if lock {name} = child({parent}, {number_text(place)}) {block_text(one)}{else_text(two)}",
    "use": lambda part, nodes, numbers, other: f"{part.name}({', '.join([*nodes, *map(number_text, numbers)])}){tail(other)}",
    "descend": lambda node, place, other: f"descend {node} to child({number_text(place)}){tail(other)}",
    "free": lambda node: f"free {node};",
    "leave": leave_text,
}


def written(constants, parts, procedure):
    """The text of a file with one procedure, `p`."""
    lines = [f"field f{number} = {number};" for number in range(FIELDS)]
    lines += [f"const {name} = {value};" for name, value in constants.items()]
    lines += [f"part {part.name}({', '.join([*(f'node {name}' for name in part.nodes), *part.values])}) {block_text(part.body)}" for part in parts]
    lines.append(f"{'atomic ' * procedure.atomic}proc p({', '.join(procedure.arguments)}) {block_text(procedure.body)}{'' if procedure.other is None else else_of(*procedure.other[1:])}")
    return "\n".join(lines) + "\n"


# ---- what they mean


class Meaning:
    """A call of a procedure on records, which it changes."""

    def __init__(self, constants, parents, records):
        self.constants, self.records, self.reply, self.names, self.nodes = constants, records, [], {}, {}
        self.children = [[child for child in range(1, len(parents)) if parents[child] == node] for node in range(len(parents))]
        # The place from which on each node's children can be locked.
        self.next = {}

    def call(self, procedure, arguments):
        self.names = dict(zip(procedure.arguments, arguments))
        before = [list(record) for record in self.records]
        try:
            try:
                self.block(procedure.body)
            except Fails as failure:
                assert not procedure.atomic or self.records == before, "an atomic procedure fails behind a write"
                self.handle(failure, procedure.other)
        except (Fails, Returns):
            pass
        return self.reply

    # -- numbers and conditions

    def number(self, number):
        kind = number[0]
        if kind == "number":
            return number[1]
        if kind == "constant":
            return self.constants[number[1]]
        if kind == "value":
            return self.names[number[1]]
        if kind == "field":
            return self.records[self.nodes[number[1]]][number[2]]
        if kind == "kids":
            return len(self.children[self.nodes[number[1]]])
        if kind == "minus":
            return fits(-self.number(number[1]))
        left, right = self.number(number[1]), self.number(number[2])
        if kind == "/":
            if right == 0:
                raise Fails(NUMBER)
            return fits(abs(left) // abs(right) * (1 if (left < 0) == (right < 0) else -1))
        return fits({"+": left + right, "-": left - right, "*": left * right}[kind])

    def holds(self, condition):
        kind = condition[0]
        if kind == "compare":
            left = self.number(condition[2])
            return RELATIONS[condition[1]](left, self.number(condition[3]))
        if kind == "not":
            return not self.holds(condition[1])
        if kind == "and":
            return self.holds(condition[1]) and self.holds(condition[2])
        return self.holds(condition[1]) or self.holds(condition[2])

    # -- statements

    def block(self, statements):
        for kind, *words in statements:
            getattr(self, kind.replace(" ", "_") + "_")(*words)

    def or_else(self, does, other):
        """Does that; where it fails, control goes to the `else`, or on to the one around."""
        try:
            does()
        except Fails as failure:
            self.handle(failure, other)

    def handle(self, failure, other):
        if other is None:
            raise failure
        if other[0] == "leave":
            self.leave_(*other[1:])
        else:
            block, why = other[1:]
            self.names[why] = failure.code
            self.block(block)

    def coded(self, code, does):
        """Does that; where it fails, the failure has this code."""
        try:
            return does()
        except Fails:
            raise Fails(code) from None

    def computed(self, old, sign, number):
        return number if sign == "=" else fits(old + number if sign == "+=" else old - number)

    def let_(self, name, number, other):
        self.or_else(lambda: self.names.update({name: self.number(number)}), other)

    def assign_(self, name, sign, number, other):
        self.or_else(lambda: self.names.update({name: self.computed(self.names[name], sign, self.number(number))}), other)

    def write_(self, writes, other):
        def write():
            wanted = [(self.nodes[node], field, self.computed(self.records[self.nodes[node]][field], sign, self.number(number))) for node, field, sign, number in writes]
            for node, field, value in wanted:
                self.records[node][field] = value

        self.or_else(write, other)

    def emit_(self, numbers, other):
        def emit():
            for number in numbers:
                self.reply.append(self.number(number))

        self.or_else(emit, other)

    def require_(self, condition, code, other):
        def require():
            if not self.holds(condition):
                raise Fails(0 if code is None else self.number(code))

        self.or_else(require, other)

    def if_(self, condition, one, two):
        self.block(one if self.holds(condition) else two or [])

    def try_(self, one, two, why):
        self.or_else(lambda: self.block(one), ("block", two, why))

    def block_(self, statements):
        self.block(statements)

    def turns(self, turns, body):
        """Answers the numbers that the loop was left with, or None."""
        try:
            for turn in turns:
                body(turn)
        except Breaks as left:
            return left.numbers

    def found_(self, loop, names, one, two):
        numbers = getattr(self, f"{loop[0]}_")(*loop[1:])
        if numbers is None:
            return self.block(two or [])
        self.names.update(zip(names, numbers))
        return self.block(one)

    def repeat_(self, bound, often, body):
        count = bound if often is None else self.coded(BOUND, lambda: self.number(often))
        if count > bound:
            raise Fails(BOUND)
        return self.turns(range(count), lambda _: self.block(body))

    def while_(self, condition, bound, body):
        def turn(_):
            if not self.holds(condition):
                raise Breaks
            self.block(body)

        self.turns(range(bound), turn)
        if self.holds(condition):
            raise Fails(BOUND)

    def entered(self, name, node):
        self.nodes[name], self.next[node] = node, 0

    def enter_(self, name, number, other):
        def enter():
            node = self.coded(NODE, lambda: self.number(number))
            if not 0 <= node < len(self.records):
                raise Fails(NODE)
            self.entered(name, node)

        self.or_else(enter, other)

    def lock_child(self, name, parent, place):
        node = self.nodes[parent]
        if not self.next[node] <= place < len(self.children[node]):
            raise Fails(CHILD)
        self.next[node] = place + 1
        self.entered(name, self.children[node][place])

    def lock_(self, name, parent, place, other):
        self.or_else(lambda: self.lock_child(name, parent, self.coded(CHILD, lambda: self.number(place))), other)

    def two_(self, names, parent, places, other):
        def lock():
            numbers = [self.coded(CHILD, lambda: self.number(place)) for place in places]
            for place, name in sorted(zip(numbers, names)):
                self.lock_child(name, parent, place)

        self.or_else(lock, other)

    def descend_(self, node, place, other):
        self.or_else(lambda: self.lock_child(node, node, self.coded(CHILD, lambda: self.number(place))), other)

    def if_lock_(self, name, parent, place, one, two):
        try:
            self.lock_child(name, parent, self.number(place))
        except Fails:
            return self.block(two or [])
        return self.block(one)

    def each_(self, child, place, parent, bound, body):
        count = len(self.children[self.nodes[parent]])
        if count > bound:
            raise Fails(CHILDREN)

        def turn(at):
            self.coded(CHILDREN, lambda: self.lock_child(child, parent, at))
            if place:
                self.names[place] = at
            self.block(body)

        return self.turns(range(count), turn)

    def use_(self, part, nodes, numbers, other):
        def use():
            given = [self.number(number) for number in numbers]
            self.names.update(zip(part.values, given))
            self.nodes.update({inner: self.nodes[outer] for inner, outer in zip(part.nodes, nodes)})
            self.block(part.body)

        self.or_else(use, other)

    def free_(self, _):
        pass

    def leave_(self, word, code):
        if word == "fail":
            raise Fails(0 if code is None else self.number(code))
        if word == "break with":
            raise Breaks([self.number(number) for number in code])
        raise {"break": Breaks, "return": Returns}[word]


def fits(number):
    if not LEAST <= number <= GREATEST:
        raise Fails(NUMBER)
    return number
