"""Which functions of the crates a command may come to, by their names: no types are looked at, so it is more than are called, and never less.

A free function is called in its own file, in one that imports it, or by a path; a method behind a dot or by a path. A call leads to a crate that the line of the calling crate in crates.txt names, or, by a trait, to one
above it.
"""

import collections
import re
from typing import NamedTuple

HEAD = re.compile(r"( *)(pub(?:\(\w+\))? )?(?:const )?fn (\w+)")
USE = re.compile(r"^ *(?:pub )?use (\w+)([^;]*);", re.MULTILINE)
METHOD = re.compile(r"(?:\.|::)([a-z_]\w*)")
FREE = re.compile(r"(?<![\w.:])([a-z_]\w*)\b")


class Function(NamedTuple):
    """A function of a crate: its file, its name, the lines of its body, and what it is. A law has an empty body."""

    crate: str
    path: str
    name: str
    body: str
    is_public: bool
    is_free: bool
    lines: int

    @property
    def is_law(self):
        return not self.body.strip()


def functions(path, text):
    """The functions of a file that aren't tests. The layout is that of `rt fmt`, so a body ends with a brace below its first word."""
    lines, is_test = [line.partition("//")[0] for line in text.splitlines()], False
    for start, line in enumerate(lines):
        is_test = is_test or line.strip().startswith("#[test]")
        found = HEAD.match(line)
        if not found:
            continue
        indent = found[1]
        begins = next((place for place in range(start, len(lines)) if lines[place] in (indent + "{", indent + "{}") or re.match(rf"{indent}(?:fn|pub|\)|where).*(?:{{|;|{{}})$", lines[place])), None)
        if begins is None or lines[begins].endswith(";"):
            continue
        ends = begins if lines[begins].endswith("{}") else next((place for place in range(begins, len(lines)) if lines[place] == indent + "}"), begins)
        if not is_test:
            yield Function(path.split("/")[1], path, found[3], "\n".join(lines[begins + 1:ends]), found[2] == "pub ", not indent, ends - begins + 1)
        is_test = False


def imports(path, text):
    found = collections.defaultdict(set)
    for root, rest in USE.findall(text):
        for name in re.findall(r"\w+", rest):
            found[name].add(path.split("/")[1] if root in ("crate", "super", "self") else root)
    return found


class Program:
    """The functions of all crates but those of tests and of the benchmark, and what each crate stands on."""

    def __init__(self, sources, crates):
        self.crates = crates
        self.functions = [function for path, text in sources.items() if not path.startswith(("crates/tl_test_", "crates/tl_bench")) for function in functions(path, text)]
        self.named = collections.defaultdict(list)
        for function in self.functions:
            self.named[function.name].append(function)
        # Of each file the crates from which it imports a name.
        self.imported = {path: imports(path, text) for path, text in sources.items()}

    def sees(self, one, other):
        return one == other or other in self.crates.get(one, ()) or one in self.crates.get(other, ())

    def called(self, caller):
        """What a function may call."""
        methods, free, imported = set(METHOD.findall(caller.body)), set(FREE.findall(caller.body)), self.imported[caller.path]
        for name in methods | free:
            named = [function for function in self.named.get(name, ()) if self.sees(caller.crate, function.crate)]
            # What is imported is of the crate that the import names, unless that one has it from another.
            of_import = [function for function in named if function.crate in imported.get(name, ())] or named
            for function in named:
                if name in methods or (function.is_free and (function.path == caller.path or (name in imported and function in of_import))):
                    yield function

    def reached(self, crate, name):
        """All that a function of that crate may come to."""
        found, coming = set(), [function for function in self.named[name] if function.crate == crate]
        while coming:
            function = coming.pop()
            if function not in found:
                found.add(function)
                coming += self.called(function)
        return found
