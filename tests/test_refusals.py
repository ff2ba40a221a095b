"""Refuses memory to the program of `crates/tl_test_memory`, at each of its allocations in turn.

The program asks for all that takes memory, and asks once more where it is refused. What it prints depends on all that the calls
before have left.

- Where one allocation is refused, it prints what it prints with ample memory, to the byte: the call that was refused has changed
  nothing, and asked again it answers what it would have answered at first.
- Where an allocation and all behind it are refused, it ends with status 4, and has printed the beginning of the same. Where that says
  that calls were admitted, it also says that all their steps are done: from an admission to the last step nothing takes memory.

The program is crates/tl_test_memory/out/tl_test_memory, or the one that the environment variable TREEDB_MEMORY names. Memory is refused by `refusing`;
where there is no C compiler, these tests are skipped.
"""

import pathlib
import subprocess
import tempfile

import refusing
from running import PATIENCE, TOP, Counts, fixture, program_named
from unproved import without_proofs

ADMITTED, DONE = "all calls are admitted\n", "all steps are done"
NO_MEMORY = 4


class Checks(Counts):
    """The program, and what was checked."""

    def __init__(self, program):
        super().__init__()
        self.program = program

    def run(self, env=None, pass_fds=()):
        """Runs the program, and returns its status and what it prints."""
        done = subprocess.run([self.program], stdin=subprocess.DEVNULL, stdout=subprocess.PIPE, env=env, pass_fds=pass_fds,
                              timeout=PATIENCE, check=False)
        return done.returncode, done.stdout.decode()


@fixture
def tests():
    without_proofs()
    return Checks(program_named("TREEDB_MEMORY", "tl_test_memory", "rt run in crates/tl_test_memory"))


@fixture(scope="module")
def library():
    """The C library that refuses memory."""
    with tempfile.TemporaryDirectory() as folder:
        yield refusing.library(pathlib.Path(folder))


def ends_well(run, plain):
    """The run has status 4 and printed the beginning of what the plain run did. Where calls were admitted, their steps are done."""
    status, out = run
    _, admitted, rest = out.rpartition(ADMITTED)
    return status == NO_MEMORY and plain[1].startswith(out) and (not admitted or rest.startswith(DONE))


def refused(tests, library, all_from):
    """Refuses each allocation in turn, alone or with all behind it."""
    plain, number = tests.run(), 0
    while True:
        number += 1
        run, was_refused = refusing.refused(library, number, all_from, tests.run)
        if not was_refused:
            tests.check(f"{number - 1} allocations, none of them refused", run == plain, run)
            return
        holds = ends_well(run, plain) if all_from else run == plain
        status, out = run
        tests.check(f"allocation {number} refused{' and all behind' * all_from}", holds, (status, out[-300:]))


def test_with_memory(tests):
    tests.same("with memory", tests.run(), (0, (TOP / "crates/tl_test_memory/stdout").read_text()))


def test_each_allocation(tests, library):
    refused(tests, library, False)


def test_each_allocation_and_all_behind_it(tests, library):
    refused(tests, library, True)
