"""Moves stock over a server: python3 examples/stock/client.py PORT. The package `treedb` of clients/python has to be installed, or on Python's path."""

import pathlib
import sys

from treedb import Client, Refused

HERE = pathlib.Path(__file__).resolve().parent
# A procedure of this name was registered before: this script has run on the server already.
NAME_TAKEN = 611


def register(db):
    try:
        for name, bounds in db.register_file(HERE / "stock.tdb").items():
            print(f"{name} locks at most {bounds.locks} nodes")
    except Refused as refusal:
        if refusal.number != NAME_TAKEN:
            raise


with Client(port=int(sys.argv[1]), timeout=60) as db:
    register(db)

    # Eight calls at once, on four threads.
    batch = db.batch(
        [
            ("transfer", 5, 0, 0, 0, 1, 0, 0),
            ("transfer", 3, 2, 1, 0, 0, 0, 1),
            ("shift", 10, 5, 0, 1),
            ("shift", 2, 12, 2, 0),
            ("transfer", 1000, 1, 0, 0, 2, 2, 2),
            ("transfer", 8, 1, 2, 2, 2, 2, 1),
            ("shift", 1, 10, 0, 2),
            ("shift", 4, 8, 0, 1),
        ],
        workers=4,
    )
    print("moved", [reply[0] for reply in batch.replies()])

    total = sum(db.call("stock", warehouse).reply[0] for warehouse in (1, 2, 3))
    print("in stock", total)

    try:
        db.call("stock", 1, 2)
    except Refused as refusal:
        print("refused:", refusal)
