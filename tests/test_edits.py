"""Reads the edits and the planted bugs that show what tests and proofs notice: each still fits the sources that it changes, and names tests that are there. What they show takes hours, and is no part of this."""

import functools
import re

from running import TOP, Counts, fixture

CRATES = TOP / "crates"
KEYS = {"name", "file", "only", "old", "new", "new:"}
TEST = re.compile(r"#\[test\]\s*(?:#\[[^\]]*\]\s*)*(?:pub )?fn (\w+)")


@fixture
def tests():
    """What was checked: no program is run."""
    return Counts()


def lines_of(path, parted="\n\n"):
    """The keys and values of each block of a file."""
    for block in path.read_text().split(parted) if parted else [path.read_text()]:
        if block.strip():
            yield [line.partition(": ")[::2] for line in block.strip("\n").split("\n") if line]


def values(lines, key):
    return [value for name, value in lines if name == key]


def tests_of(crate):
    """The names of a crate's tests, as `rt test` prints them."""
    sources = CRATES / crate / "src"
    return {f"{'::'.join(path.relative_to(sources).with_suffix('').parts)}::{name}" for path in sources.rglob("*.rt") for name in TEST.findall(path.read_text())}


@functools.cache
def tests_of_the_program():
    """The names of the tests of `tests/run`, without rows."""
    return {f"{path.stem.removeprefix('test_')}::{name}" for path in (TOP / "tests").glob("test_*.py") for name in re.findall(r"^def test_(\w+)", path.read_text(), re.MULTILINE)}


def fits(tests, name, source, lines):
    """Each old text stands in the source once, after the pairs before it."""
    old, pairs = None, 0
    for key, value in lines:
        value = value.replace("\\n", "\n")
        if key == "old":
            old = value
        elif key.rstrip(":") == "new" and old is not None:
            tests.check(f"{name}: its old text stands once", source.count(old) == 1, (source.count(old), old))
            source, pairs = source.replace(old, value), pairs + 1
    tests.check(f"{name}: it changes something", pairs == len(values(lines, "old")) > 0, lines)


def literal(lines):
    """The texts of an edit, where a backslash stands for itself."""
    return [(key, value.replace("\\n", "\\\\n")) for key, value in lines if key.rstrip(":") in ("old", "new")]


def test_edits_that_tests_catch(tests):
    for path in sorted(CRATES.glob("*/must-fail-tests/*.edit")):
        (lines,) = lines_of(path, parted=None)
        name = f"{path.parent.parent.name}/{path.stem}"
        source = path.parent.parent / values(lines, "file")[0]
        fits(tests, name, source.read_text(), literal(lines))
        if crate := values(lines, "tests"):
            named, there = values(lines, "fails"), tests_of(crate[0])
        else:
            named, there = values(lines, "runs"), tests_of_the_program()
        missing = sorted(set(named) - there)
        tests.check(f"{name}: the tests that it names are there", named and not missing, missing)
        tests.check(f"{name}: no test is named twice", len(set(named)) == len(named), named)


def test_edits_that_the_prover_refuses(tests):
    for path in sorted(CRATES.glob("*/must-fail/*.edit")):
        (lines,) = lines_of(path, parted=None)
        fits(tests, f"{path.parent.parent.name}/{path.stem}", (path.parent.parent / values(lines, "file")[0]).read_text(), literal(lines))


def test_planted_bugs(tests):
    """Each name stands once in its list, so that a row of the results is of one bug."""
    for path in sorted((TOP / "mutants/bugs").glob("*.txt")):
        names = []
        for lines in lines_of(path):
            words = dict(lines)
            names.append(words["name"])
            tests.check(f"{path.stem}/{words['name']}: each line is read", set(words) <= KEYS, set(words) - KEYS)
            fits(tests, f"{path.stem}/{words['name']}", (CRATES / path.stem / words["file"]).read_text(), lines)
        tests.same(f"{path.stem}: a name for each bug", len(set(names)), len(names))
