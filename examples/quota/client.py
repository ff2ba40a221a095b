"""Moves files over a server: python3 examples/quota/client.py PORT. The package `treedb` of clients/python has to be installed, or on Python's path."""

import pathlib
import sys

from treedb import Client

QUOTA = pathlib.Path(__file__).resolve().parent / "quota.tdb"

with Client(port=int(sys.argv[1]), timeout=60) as db:
    db.register_file(QUOTA)

    # Both files of the first directory, into the same free place of the second one, at once: one of them is too large for it.
    batch = db.batch([("move_file", 0, 0, 1, 1), ("move_file", 0, 1, 1, 1)], workers=2)
    print("moved", [reply[0] for reply in batch.replies()])

    for directory in (1, 2, 3):
        used, left = db.call("check_quota", directory).reply
        print(f"directory {directory}: {used} used,", "no limit" if left < 0 else f"{left} left")
