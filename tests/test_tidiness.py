"""Tests that the repository stays tidy: what is too long, or called by nobody, stands in tests/tidiness.json with a reason, and that list only gets shorter."""

import collections
import functools
import json
import re

from running import TOP
from walking import Program
from walking import functions as functions_of

# How many lines a function's body and a file may have, how many columns a line of a contract, and how many words a sentence of a page for users.
MOST_LINES, MOST_OF_A_FILE, MOST_COLUMNS, MOST_WORDS = 42, 500, 160, 35
LISTED = json.loads((TOP / "tests/tidiness.json").read_text(encoding="utf-8"))
PAGES = ["README.md", *sorted(str(page.relative_to(TOP)) for page in (TOP / "docs/use").glob("*.md"))]


def sources():
    """The code of each crate, by its path."""
    return {str(path.relative_to(TOP)): path.read_text(encoding="utf-8") for path in sorted((TOP / "crates").glob("*/src/**/*.rt"))}


def sentences(text):
    """The sentences of a page, without code and headings. In a cell of a table a semicolon parts them too."""
    text = re.sub(r"```.*?```", "", text, flags=re.DOTALL)
    for row in re.findall(r"^\|(.*)\|$", text, re.MULTILINE):
        for cell in re.split(r"(?<!\\)\|", row):
            yield from re.split(r"(?<=;)\s+|(?<=[.!?:])\s+(?=[A-Z`*\[(])", cell.strip())
    text = re.sub(r"^(?: {4}|\||#).*$", "", text, flags=re.MULTILINE)
    for part in re.split(r"\n\s*\n|\n- |\n\d+\. ", text):
        yield from re.split(r"(?<=[.!?:;])\s+(?=[A-Z`*\[(])", " ".join(part.split()))


def lengths(path, text):
    """The names of a file's functions, and how many lines the body of each has."""
    return [(function.name, function.lines) for function in functions_of(path, text)]


def compare(tests, kind, found):
    """What was found is what the list has: nothing more, and nothing that was mended meanwhile, so that it can't come back."""
    listed = {name: count for name, (count, reason) in LISTED[kind].items() if reason}
    tests.same(f"each has a reason: {kind}", len(listed), len(LISTED[kind]))
    for name, count in found.items():
        tests.check(f"{kind}: {name} is no longer than it was", count <= listed.get(name, 0), (count, listed.get(name)))
    for name, count in listed.items():
        tests.check(f"{kind}: {name} is as the list has it; make the list shorter", found.get(name, 0) == count, (found.get(name, 0), count))


def test_functions(tests):
    compare(tests, "functions", {f"{path}::{name}": lines for path, text in sources().items() for name, lines in lengths(path, text) if lines > MOST_LINES})


def test_files(tests):
    compare(tests, "files", {path: count for path, text in sources().items() if (count := text.count("\n")) > MOST_OF_A_FILE})


def test_clauses(tests):
    """Lines of contracts that are too wide, by crate. A law is a theorem, whose lines are its hypotheses."""
    wide = collections.Counter()
    for path, text in sources().items():
        if path.endswith("/laws.rt"):
            continue
        wide[path.split("/")[1]] += sum(len(line) > MOST_COLUMNS and re.match(r"\s*(?:ensures|requires|→|×)", line) is not None for line in text.splitlines())
    compare(tests, "clauses", {crate: count for crate, count in wide.items() if count})


def test_sentences(tests):
    long = {page: sum(len(sentence.split()) > MOST_WORDS for sentence in sentences((TOP / page).read_text(encoding="utf-8"))) for page in PAGES}
    compare(tests, "sentences", {page: count for page, count in long.items() if count})


def crates():
    """The crates that each line of crates.txt names: a crate, and those that it stands on."""
    lines = [line for line in (TOP / "crates.txt").read_text(encoding="utf-8").splitlines() if line and not line.startswith("#")]
    return {line.split()[0].rstrip(":"): set(line.partition(":")[2].split()) for line in lines}


@functools.cache
def program():
    """The functions of the program's crates, and those that a command may come to."""
    walked = Program(sources(), crates())
    return [function for function in walked.functions if function.crate in {"tl_cli", *crates()["tl_cli"]}], walked.reached("tl_cli", "main")


def uncalled_by_page():
    """What the page of each crate says no command calls: the words, and the functions that begin a sentence of them."""
    for page in sorted((TOP / "crates").glob("*/README.md")):
        found = re.search(r"^## Called by no command\n(.*?)(?=^## |^What it promises|\Z)", page.read_text(encoding="utf-8"), re.MULTILINE | re.DOTALL)
        if found:
            begun = re.findall(r"(?:^|\. )((?:`(?:\w+::)?\w+`(?:, | and )?)+)", found[1], re.MULTILINE)
            yield page.parent.name, found[1], re.findall(r"(\w+)`", " ".join(begun))


def test_public_functions(tests):
    """Public functions that no command comes to, and whose page doesn't say so. A law has no body, and is called by nobody."""
    told = {(crate, name) for crate, _, names in uncalled_by_page() for name in names}
    of_program, reached = program()
    tests.check("there are functions", len(of_program) > 2000 and 0 < len(reached) < len(of_program), (len(of_program), len(reached)))
    compare(tests, "uncalled", collections.Counter(f"{it.path}::{it.name}" for it in of_program if it.is_public and not it.is_law and it not in reached and (it.crate, it.name) not in told))


def test_called_by_no_command(tests):
    """What a crate's page says no command calls: of all of a crate, the program doesn't stand on it; of functions, no command comes to them."""
    (of_program, reached), called = program(), collections.Counter()
    for crate, words, names in uncalled_by_page():
        if "All of it" in words:
            tests.check(f"{crate}: the program doesn't stand on it", crate not in {"tl_cli", *crates()["tl_cli"]}, words)
        for name in names:
            functions = [it for it in of_program if (it.crate, it.name) == (crate, name)]
            tests.check(f"{crate}: there is `{name}`", functions, words)
            called[f"{crate}::{name}"] = sum(it in reached for it in functions)
    compare(tests, "called", +called)
