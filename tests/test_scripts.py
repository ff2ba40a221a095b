"""Runs the tests of tests/language, a script of its own, whose functions share a folder: it is one test here. tests/language PROGRAM NAME.. runs functions of it."""

import contextlib
import runpy
from unittest import mock

import running
from running import TOP


def all_of(script, tests):
    """Runs each function that the script hands to `running.main`, in its order."""
    groups = []
    with mock.patch.object(running, "main", lambda _, handed: groups.extend(handed)), contextlib.suppress(SystemExit):
        runpy.run_path(str(TOP / "tests" / script), run_name="__main__")
    assert groups, f"tests/{script} has no tests"
    for group in groups:
        group(tests)


def test_language(tests):
    all_of("language", tests)
