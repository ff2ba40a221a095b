"""A kit whose `rt try` runs a program that was built before, so that tests may use `treedb --unproved` as a newcomer does: what is built is kept in a folder of theirs."""

import os
import pathlib
import re

from running import skip

# It runs the program, as `rt try` does, and writes down that it was asked to.
RT = """#!/usr/bin/env bash
while [[ "$1" != "--" ]]; do shift; done
shift
echo "$1" >> {told}
{program} "$@"
"""


# What a script of tools/unproved has: the program that it runs has a sanitizer.
SANITIZED = b"\nexport ASAN_OPTIONS="


def without_proofs():
    """Skips what an unproved program can't do: no memory can be refused to it, and it takes more addresses than there may be."""
    program = os.environ.get("TREEDB_PROGRAM")
    if program and SANITIZED in pathlib.Path(program).read_bytes()[:4096]:
        skip("a program that is built without proofs takes all the memory that it wants")


def environment(folder, program):
    """What tests run `treedb --unproved` with: this kit, which stands in a folder of its own. `kit/told` has a line for each build."""
    kit = folder / "kit"
    kit.mkdir(exist_ok=True)
    # A script of tools/unproved names itself `treedb`: a kit runs the program by its path.
    script = program.read_bytes()[:4096]
    words = re.search(rb'^exec -a treedb (.*) "\$@"$', script, re.MULTILINE) if script.startswith(b"#!") else None
    run = f"ASAN_OPTIONS=verify_asan_link_order=0:detect_leaks=0 exec {words[1].decode()}" if words else f"exec {program}"
    (kit / "rt").write_text(RT.format(program=run, told=kit / "told"))
    (kit / "rt").chmod(0o755)
    return {"PATH": f"{kit}:{os.environ['PATH']}", "TREEDB_UNPROVED": str(folder / "unproved")}
