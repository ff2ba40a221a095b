"""Tests `tools/build` on crates of a kit of its own, whose proofs take a moment: the order of the crates, what is said, and a crate that isn't proved."""

import contextlib
import importlib.machinery
import importlib.util
import io
import os
import re
import tempfile
from pathlib import Path
from unittest import mock

from running import TOP, Counts, alone, fixture

CRATES = {"tl_width": [], "tl_tree": ["tl_width", "serde_json"], "tl_core": ["tl_tree", "tl_width"], "tl_cli": ["tl_core", "tl_tree", "tl_width"], "tl_test": ["tl_core"]}
# It says which crate it proves, for a moment; one that is told in a file beside the sources isn't proved.
RT = """#!/usr/bin/env bash
crate="$(basename "$PWD")"
echo "$crate $*" >> {told}
echo "what rt says of $crate"
sleep 0.25
[[ ! -e ../../refused || "$(cat ../../refused)" != "$crate" ]]
"""


@fixture
def tests():
    """What was checked: no program is run."""
    return Counts()


@fixture
def build():
    """`tools/build` in a folder of its own, with a kit: its status, what it said, and what the kit was told to prove."""
    with tempfile.TemporaryDirectory() as name:
        folder, told = Path(name), Path(name, "told")
        (folder / "crates.txt").write_text("".join(f"{crate}: {' '.join(libraries)}\n" for crate, libraries in CRATES.items()))
        (folder / "HANDLES").write_text("")
        for crate in CRATES:
            (folder / "crates" / crate / "src").mkdir(parents=True)
            (folder / "crates" / crate / "src/lib.rt").write_text("a source\n")
        (folder / "kit").mkdir()
        (folder / "kit/rt").write_text(RT.format(told=told))
        (folder / "kit/rt").chmod(0o755)

        def run(refused=None, lanes=2, **changed):
            loader = importlib.machinery.SourceFileLoader("build", str(TOP / "tools/build"))
            module = importlib.util.module_from_spec(importlib.util.spec_from_loader("build", loader))
            loader.exec_module(module)
            told.write_text("")
            (folder / "refused").write_text(refused or "")
            said = io.StringIO()
            changed = {"TOP": folder, "lanes": lambda: lanes, "EVERY": 0.1, **changed}
            with mock.patch.multiple(module, **changed), mock.patch.dict(os.environ, PATH=f"{folder}/kit:{os.environ['PATH']}"), contextlib.redirect_stderr(said):
                status = module.main()
            return status, said.getvalue().splitlines(), told.read_text().splitlines()

        run.folder = folder
        yield run


@alone
def test_what_is_said(tests, build):
    """At first what it wants, each `EVERY` seconds what it does, and of each crate that it is done."""
    status, said, told = build()
    tests.same("the status", status, 0)
    tests.check("what it wants", re.fullmatch(r"treedb: 4 crates are proved, 2 at once\. That wants 8 GB of memory, of which this machine has \d+, and if nothing is proved yet about 70 minutes, more on slow processors", said[0]), said[0])
    tests.same("what is proved, the lowest first, and no test", [line.split()[0] for line in told], ["tl_width", "tl_tree", "tl_core", "tl_cli"])
    tests.same("what is done", [found[1] for line in said if (found := re.fullmatch(r"treedb: (\d of 4, \w+), after 0 min 0\d s", line))], ["1 of 4, tl_width", "2 of 4, tl_tree", "3 of 4, tl_core", "4 of 4, tl_cli"])
    doing = [found.groups() for line in said if (found := re.fullmatch(r"treedb: (\d) of 4 are done after 0 min 0\d s; now (\w+) \(0 min 00 s\)", line))]
    tests.check("what it does, again and again", doing.count(("0", "tl_width")) >= 1 and doing.count(("3", "tl_cli")) >= 1, said)
    tests.check("how long all will take", any(re.fullmatch(r"treedb: all will take about \d+ minutes if nothing is proved yet", line) for line in said), said)
    tests.same("what rt says of a crate", (build.folder / "crates/tl_core/out/build.log").read_text(), "what rt says of tl_core\n")


def test_a_machine_with_little_memory(tests, build):
    said = build(lanes=1, memory=lambda: 6)[1]
    tests.check("what it wants", "1 at once. That wants 8 GB of memory, of which this machine has 6," in said[0] and "about 140 minutes" in said[0], said[0])
    tests.same("a warning", said[1], "treedb: the last crate wants 8 GB: with less, the machine swaps or the build ends there")


def test_a_crate_that_is_not_proved(tests, build):
    """Nothing that stands on it is begun."""
    refusal = build.folder / "refused"
    # In a copy of the sources the file isn't there: so there is one lane, the checkout itself.
    status, said, told = build(refused="tl_tree", lanes=1)
    tests.same("the status", (status, said[-1]), (1, "treedb: tl_tree was not built: see crates/tl_tree/out/build.log"))
    tests.same("what was begun", [line.split()[0] for line in told], ["tl_width", "tl_tree"])
    tests.check("the kit was asked", refusal.read_text() == "tl_tree", "it wasn't")


def test_the_crates_of_the_repository(tests):
    """What the estimate stands on is there: the crate that is measured, and stands on none of the others."""
    loader = importlib.machinery.SourceFileLoader("build", str(TOP / "tools/build"))
    module = importlib.util.module_from_spec(importlib.util.spec_from_loader("build", loader))
    loader.exec_module(module)
    named = module.libraries()
    crates = module.crates_below(named)
    tests.check("the measured crate", module.MEASURED in crates and not set(named[module.MEASURED]) & set(named), named[module.MEASURED])
    tests.same("the last", crates[-1], module.PROGRAM)
