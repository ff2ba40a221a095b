"""Tests docs/trust/what-to-read.md: its tables are those of the sources, and have what the theorem stands on and nothing that only proofs need."""

import re
import subprocess

from running import TOP, Counts, fixture
from test_tidiness import program

PAGE = TOP / "docs/trust/what-to-read.md"
# By the file's crate and name.
READ = {"tl_tree_locking World": ["Legal", "alone_of", "Genuine"], "tl_tree_locking Obeys": ["Obeys"], "tl_tree_locking Alone": ["serial", "Outcome"], "tl_machine Alone": ["effect", "alone"], "tl_budget Loops": ["budget"],
        "tl_audit Verdict": ["IsVerdict"], "tl_store_laws Growing": ["IsLedgerOf"], "tl_ledger News": ["after_news"], "tl_ledger Contents": ["Holds"],
        "tl_table Tables": ["IsChain"], "tl_meaning Meaning": ["behaviour"], "tl_meaning Calls": ["DoesCall", "WritesNothing"], "tl_syntax Text": ["IsText"]}
# Invariants of types, which proofs carry.
UNREAD = ["IsWholeCore", "IsWhole"]


@fixture
def tests():
    """What was checked: no program is run."""
    return Counts()


def trusted(word):
    """What `tools/trusted` answers: its status, what it prints, and what it says."""
    done = subprocess.run([TOP / "tools/trusted", word], capture_output=True, text=True, check=False)
    return done.returncode, done.stdout, done.stderr


def rows():
    """Of each file of the page its definitions, with their lines."""
    for path, _, names in re.findall(r"^\| `(crates/\S+)` \| (\d+) \| (.*) \|$", PAGE.read_text(), re.MULTILINE):
        yield path, [(name, int(line)) for name, line in re.findall(r"`(\S+)` (\d+)", names)]


def test_the_tables(tests):
    tests.same("tools/trusted --check", trusted("--check"), (0, "", ""))


def test_the_counts(tests):
    """The lines are those that an auditor finds: of each part the sum of its files, and of all files those that `wc` counts."""
    page = PAGE.read_text()
    for title, definitions, lines in re.findall(r"^\| ([^|`]+) \| (\d+) \| (\d+) \|$", page, re.MULTILINE):
        here = page if title == "all of these" else page.partition(f"\n## {title}\n")[2].partition("\n## ")[0]
        found = re.findall(r"^\| `crates/\S+` \| (\d+) \| (.*) \|$", here, re.MULTILINE)
        tests.same(title, (sum(names.count("` ") for _, names in found), sum(int(count) for count, _ in found)), (int(definitions), int(lines)))
    for kind, told in zip(("specs", "proofs"), re.search(r"have ([\d,]+) lines, and those of `proofs/`, .*, ([\d,]+)\.", page).groups(), strict=True):
        counted = subprocess.run(f"find {TOP}/crates/*/{kind} -name '*.antt' -exec cat {{}} + | wc -l", shell=True, capture_output=True, text=True, check=True).stdout
        tests.same(f"the lines of {kind}", int(told.replace(",", "")), int(counted))


def test_what_is_called(tests):
    """The clauses are of functions that the program calls, and of laws: what nothing calls says nothing of a run."""
    of_program, reached = program()
    for function, path in re.findall(r"`(\w+)` in `crates/(\S+)`", "\n".join(re.findall(r"^By .*$", PAGE.read_text(), re.MULTILINE))):
        found = [it for it in of_program if (it.path, it.name) == (f"crates/{path}", function)]
        tests.check(f"{function} of {path}", found and all(it.is_law or it in reached for it in found), found)


def test_the_text(tests):
    """It has each definition of the page, whole, and the clauses."""
    status, text, said = trusted("--text")
    tests.same("tools/trusted --text", (status, said), (0, ""))
    for path, names in rows():
        lines = (TOP / path).read_text().splitlines()
        missing = [name for name, number in names if f"\n{lines[number - 1]}\n" not in text]
        tests.same(f"what of {path} is missing", missing, [])
    tests.check("a clause", "\n    ensures { IsVerdict trail.now result }\n" in text, text[:2000])
    tests.check("what a function requires", "\n    requires { IsChain chain.now }\n" in text, text[:2000])


def test_each_definition(tests):
    """It stands in the file that is named, in that line."""
    for path, names in rows():
        lines = (TOP / path).read_text().splitlines()
        for name, number in names:
            tests.check(f"{name} in {path}", number <= len(lines) and re.match(rf" *(?:(?:abbrev|unfoldable|pub|record|data) )+{re.escape(name)}\b", lines[number - 1]), lines[number - 1:number])


def test_what_is_read(tests):
    """The definitions that carry the statements are among them, and those that only invariants name aren't."""
    found = {f"{path.split('/')[1]} {path.rpartition('/')[2].removesuffix('.antt')}": [name for name, _ in names] for path, names in reversed([*rows()])}
    every = [name for _, names in rows() for name, _ in names]
    for file, names in READ.items():
        for name in names:
            tests.check(f"{name} of {file}", name in every and name in found.get(file, []), found.get(file))
    for name in UNREAD:
        tests.check(f"{name} is none of them", name not in every, name)
    tests.check("no definition twice", len({(path, name) for path, names in rows() for name, _ in names}) == len(every), len(every))
