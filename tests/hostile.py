"""Texts of the procedure language as nobody would write them: those of the examples with changes, deep ones, wide ones, some near each bound, and bytes without a sense."""

import itertools
import re
import string

from running import TOP

# How many a text may have of something, so that one more is refused: loops and parts in one another, arguments, fields, nodes, values, emits, levels, blocks with those of parts, procedures,
# instructions, locks. And how many words, or statements, with those of parts at each use.
BOUNDS, MOST_USED = [4, 8, 16, 32, 64, 80, 256, 1_024, 4_096], 262_144
# Numbers at which a number, a field or a bound is another one.
NUMBERS = [*range(10), 15, 16, 17, 31, 32, 33, 63, 64, 65, 255, 256, 65_535, 65_536, 2**31 - 1, 2**31, 2**32, 2**63, 10**30]
RESERVED = "and break child const descend else emit fail field for free if kids let lock node not or proc repeat require return try".split()
WORDS = [*RESERVED, *"at atomic each found most of part to while with".split(), *"a b c f n p x _".split(), *"{ } ( ) ; , . = += -= + - * / < <= > >= == != % ! // 0 1 7 1_000 01 # é".split(), "\n"]
# What opens a level, and what closes it again.
LEVELS = {
    "statement": [("{", "}"), ("if x < 1 {", "}"), ("if x < 1 {} else {", "}"), ("repeat 1 {", "}"), ("try {", "} else {}"), ("try {} else {", "}"), ("while x < 1 at most 1 {", "}"),
                  ("x = 1 else {", "}"), ("if lock m = child(n, 0) {", "}"), ("for each child c of n at most 1 {", "}"), ("repeat 1 { break with 1; } found (y) {", "}")],
    "number": [("(", ")"), ("-", ""), ("1 + ", ""), ("2 * (", ")"), ("", " - 1"), ("- -", "")],
    "condition": [("not ", ""), ("(", ")"), ("x < 1 and ", ""), ("x < 1 or (", ")")],
}
INNERMOST = {"statement": "x = 1;", "number": "1", "condition": "x < 1"}
# What stands in a text once or many times, {} being its number; and what stands around.
WIDE = [
    ("proc p() {{ {} }}", "let v{} = 1;", ""), ("proc p(x) {{ {} }}", "x = {};", ""), ("proc p(x) {{ {} }}", "x += 1 else {{}}", ""), ("proc p(x) {{ emit {}; }}", "{}", ", "), ("proc p({}) {{}}", "a{}", ", "),
    ("proc p(x) {{ x = {}; }}", "x", " + "), ("proc p(x) {{ require {}; }}", "x < {}", " and "), ("proc p(x) {{ {} }}", "if x == {} {{ emit x; }} else", " "), ("{}", "proc p{}() {{}}", "\n"),
    ("{}", "const C{} = 1;", "\n"), ("{}", "field f{} = 0;", "\n"), ("field f = 0; proc p() {{ lock n = node(0); {} }}", "lock m{} = child(n, 0);", ""), ("part q(x) {{ x = 1; }} proc p(x) {{ {} }}", "q(x);", ""),
    ("part q({}) {{}} proc p() {{}}", "a{}", ", "), ("field f = 0; proc p() {{ lock n = node(0); {}; }}", "n.f = {}", ", "), ("proc p(x) {{ {} }}", "repeat {} {{ x = 1; }}", ""), ("proc p() {{ lock n = node(0); {} }}", "{{ lock m = child(n, {}); }}", ""),
    ("proc p(x) {{ repeat 1 {{ break with {}; }} found (a) {{}} }}", "{}", ", "), ("proc p(x) {{ repeat 1 {{ break with x; }} found ({}) {{}} }}", "a{}", ", "),
]


def examples():
    return [path.read_bytes() for folder in ("examples", "tests/procedures") for path in sorted((TOP / folder).rglob("*.tdb"))]


def nested(level, depth, innermost=None):
    """So many of a level in one another."""
    opens, closes = level
    return opens * depth + (innermost or "") + closes * depth


def deep(parts):
    """A procedure with 63 blocks in one another, and as many in each of these parts, of which one stands in the other."""
    opens, innermost, text = "x=1;" * 32 + "try{", "x=1;", "field f = 0;\n"
    for part in range(parts):
        text += f"part p{part}(x){{{nested((opens, '}else{}'), 63, innermost)}}}\n"
        innermost = f"p{part}(x);"
    return text + f"proc p(x){{{nested((opens, '}else{}'), 63, innermost)}}}\n"


def many_names(names=13_500, inner=1_000, outer=43):
    """A part with so many names, and a procedure that uses a part so often which uses an empty one so often."""
    words = ("".join(each) for each in itertools.product(string.ascii_letters + string.digits, repeat=3))
    given = ",".join(itertools.islice((word for word in words if word not in RESERVED), names))
    return f"part z({given}){{}}\npart a(){{}}\npart b(){{{'a();' * inner}}}\nproc p(){{{'b();' * outer}}}\n"


class Hostile:
    """Makes texts by chance, of so many bytes at most."""

    def __init__(self, chance, most):
        self.chance, self.most, self.kept = chance, most, examples()

    def text(self):
        """A text, and the name of its kind."""
        kind = self.chance.choice([self.mutated, self.mutated, self.deep, self.wide, self.wide, self.bounded, self.used, self.soup, self.noise])
        return kind.__name__, kind()[: self.most]

    def near(self):
        """How many there are of something: near a bound, or any number; both so that most fit."""
        if self.chance.random() < 0.6:
            return self.chance.choice([bound for bound in BOUNDS if bound <= self.most // 8]) + self.chance.randrange(-1, 2)
        return self.chance.randrange(self.most // 8)

    def mutated(self):
        data = self.chance.choice(self.kept)
        change = self.chance.choice([self.changed, self.reworded, self.reworded])
        for _ in range(self.chance.choice([1, 1, 2, 3, 8])):
            data = change(data)
        return data

    def reworded(self, data):
        """A word or a number in the place of another one, or a line more, less or elsewhere: mostly still a text by the grammar."""
        lines, words = data.splitlines(keepends=True), [*re.finditer(rb"\b\w+\b", data)]
        if self.chance.random() < 0.3 or not words:
            line = lines.pop(self.chance.randrange(len(lines))) if lines else b""
            for _ in range(self.chance.randrange(3)):
                lines.insert(self.chance.randrange(len(lines) + 1), line)
            return b"".join(lines)
        word = self.chance.choice(words)
        put = str(self.chance.choice(NUMBERS)).encode() if word[0].isdigit() else self.chance.choice(words)[0]
        return data[: word.start()] + put + data[word.end() :]

    def changed(self, data):
        first, last = sorted(self.chance.randrange(len(data) + 1) for _ in range(2))
        last = self.chance.choice([last, min(first + self.chance.randrange(1, 12), len(data))])
        other = self.chance.choice(self.kept)
        start = self.chance.randrange(len(other))
        put = self.chance.choice([
            b"", data[first:last] * 2, bytes([self.chance.randrange(256)]), str(self.chance.choice(NUMBERS)).encode(), b" " + self.chance.choice(WORDS).encode() + b" ",
            other[start : start + self.chance.randrange(1, 200)], bytes(data[first:last]).swapcase(),
        ])
        if self.chance.random() < 0.5:
            first, last = self.word(data, first)
        return data[:first] + put + data[last:]

    @staticmethod
    def word(data, at):
        """The place of the word or the number around a place, which may be empty."""
        first = last = at
        while first > 0 and data[first - 1 : first].isalnum():
            first -= 1
        while last < len(data) and data[last : last + 1].isalnum():
            last += 1
        return first, last

    def deep(self):
        """Levels of one kind, or of many, which may stand in parts too."""
        kind = self.chance.choice([*LEVELS, "statement"])
        chosen = self.chance.choice([[self.chance.choice(LEVELS[kind])], LEVELS[kind]])
        texts, inner = ["field f = 0;"], INNERMOST[kind]
        for part in range(self.chance.choice([0, 0, 1, 2, 4, 5]) if kind == "statement" else 0):
            texts.append(f"part q{part}(node n, x) {{ {self.levels(chosen, self.chance.randrange(24), inner)} }}")
            inner = f"q{part}(n, x);"
        body = self.levels(chosen, self.chance.choice([self.chance.randrange(70), self.near()]), inner)
        body = {"statement": body, "number": f"x = {body};", "condition": f"require {body};"}[kind]
        return "\n".join([*texts, f"proc p(x) {{ lock n = node(0); {body} }}"]).encode()

    def levels(self, chosen, depth, inner):
        opened = [self.chance.choice(chosen) for _ in range(min(depth, self.most // 2))]
        closed = "".join(closes for _, closes in reversed(opened))
        # Some aren't closed.
        return "".join(opens for opens, _ in opened) + inner + (closed if self.chance.random() < 0.9 else closed[: len(closed) // 2])

    def wide(self):
        around, one, between = self.chance.choice(WIDE)
        return around.format(between.join(one.format(number) for number in range(self.near()))).encode()

    def used(self):
        """Parts that are used so often that what is counted at each use is near what it may be, or is below."""
        names, often = self.chance.randrange(self.most // 16), self.most // 64
        inner = self.chance.randrange(1, often)
        wanted = MOST_USED // (inner * self.chance.choice([1, 4, 5, 4 + names // 16])) + self.chance.randrange(-1, 2)
        return many_names(names, inner, min(max(wanted, 1), self.chance.randrange(1, often))).encode()

    def bounded(self):
        """A number, a name or the bounds of loops near what they may be."""
        number, name = self.chance.choice(NUMBERS), "n" * self.chance.choice([1, 31, 32, 33, 64, 1_000])
        bounds = [self.chance.choice([*NUMBERS, 100, 1_000, 4_096, 10_000]) for _ in range(self.chance.randrange(1, 6))]
        inner = self.chance.choice(["x += 1;", "emit x;", "n.f = 1;", "lock m = child(n, x);", ""])
        return self.chance.choice([
            f"proc p(x) {{ x = {number}; }}", f"proc p(x) {{ x = -{number}; }}", f"const C = {number} * {self.chance.choice(NUMBERS)} - 1; proc p() {{ repeat C {{}} }}", f"field f = {number}; proc p() {{}}",
            f"proc {name}({name}x) {{ {name}x = 1; }}", f"field f = 0; proc p(x) {{ lock n = node(0); {''.join(f'repeat {bound} {{ ' for bound in bounds)}{inner}{'}' * len(bounds)} }}",
            f"proc p(x) {{ {''.join(f'repeat x at most {bound} {{ ' for bound in bounds)}{inner}{'}' * len(bounds)} }}",
        ]).encode()

    def soup(self):
        return " ".join(self.chance.choice(WORDS) for _ in range(self.chance.randrange(self.most // 8))).encode()

    def noise(self):
        """Bytes, or signs that most tokens are made of."""
        count = self.chance.choice([self.chance.randrange(40), self.chance.randrange(self.most)])
        return self.chance.choice([self.chance.randbytes(count), bytes(self.chance.choices(string.printable.encode(), k=count)), b"//" + self.chance.randbytes(count // 2)])
