"""Runs of the program whose disk fails, waits or is looked at: `disk.c` stands between the two, compiled by `cc`, or by the command that CC names."""

import contextlib
import pathlib
import struct
from typing import NamedTuple

from running import compiled

ENTRY = struct.Struct("=c3xIIQ")
# What a disk that fails tells the program, and what a server says then.
FAILURES = {"EIO": 1011, "ENOSPC": 1012}


class Entry(NamedTuple):
    """A call: w a write, t a cut, b the begin of a sync, s its end, r a new name, u a name that is taken away, > what goes to a socket."""

    op: str
    path: str
    offset: int
    data: bytes


def library(folder):
    """The C library; what needs it is skipped where there is no compiler."""
    return compiled(pathlib.Path(__file__).with_name("disk.c"), folder)


class Disk:
    """The disk of one run of the program; `env` is for that run."""

    def __init__(self, built, folder, name="disk"):
        self.hold, self.log, self.count, self.begin = (folder / f"{name}.{what}" for what in ("hold", "log", "count", "begin"))
        self.env = {"LD_PRELOAD": str(built), "DISK_HOLD": str(self.hold), "DISK_COUNT": str(self.count)}

    def failing(self, number, what, later=False, reads=False):
        """The environment in which the disk fails, or kills the program, at its call of that number; counted from `now` on where it is later."""
        for path in (self.count, self.begin):
            path.unlink(missing_ok=True)
        return self.env | {"DISK_AT": str(number), "DISK_DO": what} | ({"DISK_FROM": str(self.begin)} if later else {}) | ({"DISK_READS": "1"} if reads else {})

    def now(self):
        self.begin.write_text("")

    def calls(self):
        """How many calls were counted."""
        told = self.count.read_bytes() if self.count.exists() else b""
        return int.from_bytes(told, "little")

    def recording(self):
        return self.env | {"DISK_LOG": str(self.log)}

    def recorded(self):
        """The entries of the log, in their order."""
        data, at, found = self.log.read_bytes(), 0, []
        while at + ENTRY.size <= len(data):
            op, name, length, offset = ENTRY.unpack_from(data, at)
            at += ENTRY.size
            path, at = data[at:at + name].decode(), at + name
            has_data = op in b"w>r"
            body, at = (data[at:at + length], at + length) if has_data else (b"", at)
            found.append(Entry(op.decode(), path, offset, body))
        return found

    @contextlib.contextmanager
    def held(self):
        """No sync begins meanwhile. What is lent says whether one waits."""
        waits = pathlib.Path(f"{self.hold}.held")
        waits.unlink(missing_ok=True)
        self.hold.write_text("")
        try:
            yield waits.exists
        finally:
            self.hold.unlink()
