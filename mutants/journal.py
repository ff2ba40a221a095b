"""What `plant` and `must-fail-tests` share: a journal of verdicts, by which a run goes on where another was broken off, and the tables of results.md."""

import datetime
import hashlib
import json
import pathlib
import signal
import subprocess
import sys

HERE = pathlib.Path(__file__).resolve().parent
TOP = HERE.parent
RESULTS = HERE / "results.md"
JOURNAL = HERE / "out/journal.jsonl"
PLANTED, CAUGHT = "## Bugs that the prover has to refuse", "## Edits that tests have to catch"
HEAD = """# What became of the planted bugs

`mutants/nightly` writes these tables: a row a crate, with the commit that its bugs were planted on. A crate without a row wasn't tried by it yet.
"""
COLUMNS = {PLANTED: ("Crate", "Commit", "Date", "Tried", "Refused by the prover", "Not refused"), CAUGHT: ("Crate", "Commit", "Date", "Tried", "Caught by the tests that they name", "Not caught")}


def git(*words):
    return subprocess.run(["git", *words], cwd=TOP, capture_output=True, text=True, check=True).stdout.strip()


def end_in_order():
    """Has a SIGTERM put back what was changed."""
    signal.signal(signal.SIGTERM, lambda *_: sys.exit(1))


def verdict(kind, name, text, judge):
    """The verdict on a bug or an edit of that text: the one of an earlier run on this commit, or the one that `judge` comes to, which is kept."""
    key = hashlib.sha256("\0".join([git("rev-parse", "HEAD"), kind, name, text]).encode()).hexdigest()
    lines = JOURNAL.read_text().splitlines() if JOURNAL.exists() else []
    known = {row["key"]: row["verdict"] for row in map(json.loads, lines)}
    if key not in known:
        known[key] = judge()
        # What had no verdict is tried again.
        if (known[key] or "").startswith("no verdict"):
            return known[key]
        JOURNAL.parent.mkdir(exist_ok=True)
        with JOURNAL.open("a") as journal:
            journal.write(json.dumps({"key": key, "kind": kind, "name": name, "verdict": known[key]}) + "\n")
    return known[key]


def recorded():
    """The rows of each table, by crate."""
    rows, heading = {PLANTED: {}, CAUGHT: {}}, None
    for line in RESULTS.read_text().splitlines() if RESULTS.exists() else []:
        heading = line if line in rows else heading
        if line.startswith("| `"):
            rows[heading][line.split("`")[1]] = line
    return rows


def record(heading, crate, tried, right, others):
    """Writes a crate's row of a table anew."""
    rows = recorded()
    rows[heading][crate] = f"| `{crate}` | `{git('rev-parse', '--short', 'HEAD')}` | {datetime.date.today()} | {tried} | {right} | {', '.join(f'`{name}`' for name in others) or 'none'} |"
    tables = [f"\n{title}\n\n| {' | '.join(COLUMNS[title])} |\n{'|---' * len(COLUMNS[title])}|\n" + "".join(f"{rows[title][name]}\n" for name in sorted(rows[title])) for title in COLUMNS]
    RESULTS.write_text(HEAD + "".join(tables))


def is_unchanged(heading, crate, *more):
    """Whether nothing that the crate's row is of has changed since its commit."""
    row = recorded()[heading].get(crate)
    if row is None:
        return False
    paths = [f"crates/{crate}/src", f"crates/{crate}/specs", f"crates/{crate}/proofs", *more]
    return subprocess.run(["git", "diff", "--quiet", row.split("`")[3], "--", *paths], cwd=TOP).returncode == 0
