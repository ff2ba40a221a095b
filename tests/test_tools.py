"""Runs the tools that look at what isn't Rattle: ruff, mypy, shellcheck, the compiler of TypeScript and Cargo. Each test is skipped where its tool isn't there; `tests/run --require` names those that have to be."""

import pathlib
import subprocess
import sys
import tempfile

from running import REQUIRED, TOP, Counts, files_of_repository, fixture, skip, tool


@fixture
def tests():
    """What was checked: no program is run."""
    return Counts()


def scripts(word):
    """Those whose first line names that interpreter."""
    return [path for path in files_of_repository() if path.suffix not in (".png", ".tlp") and path.read_bytes().partition(b"\n")[0] in (f"#!/usr/bin/env {word}".encode(), f"#!/bin/{word}".encode())]


def says_nothing(tests, name, *words, folder=TOP):
    done = subprocess.run([*map(str, words)], cwd=folder, stdin=subprocess.DEVNULL, capture_output=True, text=True, check=False)
    tests.check(name, done.returncode == 0, done.stdout[-2000:] + done.stderr[-2000:])


def test_ruff(tests):
    python = [path for path in scripts("python3") if path.suffix != ".py"]
    says_nothing(tests, "ruff", tool("ruff"), "check", "tests", "fuzz", "tools", "mutants", "clients/python", *python)


def test_mypy(tests):
    """The client in Python is typed throughout, and so are the modules that it writes of texts."""
    words = [tool("mypy"), "--config-file", TOP / "pyproject.toml", "--strict"]
    client = TOP / "clients/python"
    with tempfile.TemporaryDirectory() as folder:
        says_nothing(tests, "mypy", *words, f"--cache-dir={folder}", "treedb", folder=client)
        for option in ([], ["--async"]):
            made = subprocess.run([sys.executable, "-m", "treedb.stubs", *option, TOP / "examples/stock/stock.tdb"], cwd=client, stdin=subprocess.DEVNULL, capture_output=True, text=True, check=True)
            stub = pathlib.Path(folder, f"stock{len(option)}.py")
            stub.write_text(made.stdout)
            says_nothing(tests, f"mypy of stubs {option}", *words, f"--cache-dir={folder}", stub, folder=client)


def test_shellcheck(tests):
    shell = [*scripts("bash"), *scripts("sh")]
    tests.check("there are shell scripts", len(shell) >= 3, shell)
    says_nothing(tests, "shellcheck", tool("shellcheck"), "--severity", "warning", *shell)


def test_types_of_the_client_for_node(tests):
    says_nothing(tests, "tsc", tool("tsc"), "--noEmit", "--strict", "--target", "esnext", "--module", "nodenext", "--moduleResolution", "nodenext", "--skipLibCheck", "treedb.d.mts", folder=TOP / "clients/javascript")


def test_bench(tests):
    """The tests of the benchmarks, without those of their rounds, which measure how long work takes. `rt lib` makes the library that they are linked with."""
    library = TOP / "crates/tl_bench/out/libtl_bench.a"
    if not library.is_file():
        skip("there is no crates/tl_bench/out/libtl_bench.a, which `rt lib` makes there")
    words = [tool("cargo"), "test", "--offline", "--quiet"]
    built = subprocess.run([*words, "--no-run"], cwd=TOP / "bench", stdin=subprocess.DEVNULL, capture_output=True, text=True, check=False)
    if built.returncode != 0 and "cargo" not in REQUIRED:
        skip("cargo doesn't build the benchmark here: " + (built.stderr.splitlines() or [""])[-1])
    says_nothing(tests, "cargo test", *words, "--", "--skip", "rounds::", folder=TOP / "bench")


def test_sources_of_the_client_for_node(tests):
    """Node.js reads each source."""
    for path in files_of_repository():
        if path.suffix == ".mjs":
            says_nothing(tests, f"node --check {path.relative_to(TOP)}", tool("node"), "--check", path)


def test_sources_of_python(tests):
    """Python reads each source."""
    for path in [*scripts("python3"), *(path for path in files_of_repository() if path.suffix == ".py")]:
        try:
            compile(path.read_text(), str(path), "exec", dont_inherit=True)
            found = ""
        except SyntaxError as wrong:
            found = str(wrong)
        tests.check(f"{path.relative_to(TOP)}", found == "", found)
