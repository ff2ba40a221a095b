"""What tests have found in the program and nobody has mended yet: a row for each, with the words that `tests/run` prints where a check finds it.

A check that a row names doesn't fail the gate. A row that is always met does where its test runs and meets it no more: whoever mends the defect takes the row out.
"""

import re
from typing import NamedTuple


class Row(NamedTuple):
    """A test, as `failing::first_start`; a pattern for the names of its checks; what is wrong; and whether the test always meets it, or by chance."""

    test: str
    checks: str
    words: str
    is_always_met: bool = True


ROWS: list[Row] = [
    Row("lasting::hand_over_without_memory", r"^allocation \d+ of a server refused: it answers, and stops$", "a server to which memory was refused where it begins may answer at its control no more, so that `treedb stop` waits", is_always_met=False),
    Row("power::cuts", r"^a power cut of a first start: a store is made or none is there$", "a first start that a power cut breaks off leaves a file that no start takes", is_always_met=False),
]


def row_of(check):
    """The row that names a check, if there is one."""
    return next((row for row in ROWS if re.search(row.checks, check)), None)
