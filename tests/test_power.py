"""Cuts the power of a server: a store has every answer that had left, whatever of its unsynced writes is on the disk. `fuzz/power` tries thousands of cuts."""

import disk
import power
from running import chance

COUNT, EARLY = 50, 10


def test_cuts(tests):
    power.cuts(tests, disk.library(tests.folder), chance("power cuts"), COUNT, EARLY)
