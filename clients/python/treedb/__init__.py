"""A client of a treedb server. It needs nothing but Python's standard library.

    from treedb import Client, Refused

    with Client("127.0.0.1", 7878) as db:
        db.register_file("examples/stock/stock.tdb")
        answer = db.call("transfer", 5, 0, 0, 0, 1, 0, 0)
        print(answer.call, answer.reply)
        print(db.batch([("transfer", 5, 0, 0, 0, 1, 0, 0), ("transfer", 3, 2, 1, 0, 0, 0, 1)], workers=2).replies())

`Client(path="/run/treedb/socket")` connects to a Unix socket. `AsyncClient` is the same for asyncio, and sends requests without waiting for the answers of those before.

What a server refuses or breaks off is an `Error`. A refusal raises `Refused`, which has the numbers and says what they mean and what to do; within a batch it
stands in the place of the answer. The connection stays open after a refusal. `Disconnected` is a `ConnectionError`, `TimedOut` a `TimeoutError`.

After one of these nobody knows whether a call was done. `call(.., key=..)` can be asked again: a server with a store runs it once.

A server seals its epochs by itself. In session mode (`--connections`) it leaves that to its clients: `Client(.., seals=True)` seals where it has to be
done, until `Exhausted` says that the server has no epoch left. `docs/use/server.md` has the lines that go to and fro, so that a client in another
language can do the same; `docs/use/faults.md` has all numbers.
"""

from .aio import AsyncClient
from .client import Client
from .control import Status, snapshot, status, stop, volume
from .errors import Disconnected, Error, Exhausted, MissingNode, Refused, TimedOut, Unanswered
from .faults import FAULTS
from .names import Names
from .pool import Pool
from .protocol import Answer, Batch, Bounds, Recalled, new_key
from .stores import write_names
from .texts import script

__all__ = ["FAULTS", "Answer", "AsyncClient", "Batch", "Bounds", "Client", "Disconnected", "Error", "Exhausted", "MissingNode", "Names", "Pool", "Recalled",
           "Refused", "Status", "TimedOut", "Unanswered", "new_key", "script", "snapshot", "status", "stop", "volume", "write_names"]
__version__ = "0.1.0"
