"""Posts in a ledger over a server: python3 examples/ledger/client.py PORT. The package `treedb` of clients/python has to be installed, or on Python's path."""

import pathlib
import sys

from treedb import Client

LEDGER = pathlib.Path(__file__).resolve().parent / "ledger.tdb"
BRANCH = 1
DONE = 1

with Client(port=int(sys.argv[1]), timeout=60) as db:
    db.register_file(LEDGER)

    # Two hundred postings at once, on four threads: to and fro between the same two accounts.
    batch = db.batch([("post", 1, BRANCH, 0, 1), ("post", 1, BRANCH, 1, 0)] * 100, workers=4)
    print("posted", sum(reply[0] == DONE for reply in batch.replies()))

    agrees, difference = db.call("check", BRANCH).reply
    print("the branch agrees with its accounts" if agrees else f"the branch is off by {difference}")
