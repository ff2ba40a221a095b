"""A server that answers as a test says."""

from __future__ import annotations

import contextlib
import json
import socket
import threading
from collections.abc import Callable, Iterator
from typing import Any, Union

# What is answered to a request: an answer, bytes as they are, or nothing.
Answering = Callable[[Any], Union[dict, bytes, None]]


class FakeServer:
    """Its port, or the path of its Unix socket; and what it has heard."""

    def __init__(self, answering: Answering, path: str | None = None) -> None:
        self.answering, self.path = answering, path
        self.heard: list[Any] = []
        self.listener = socket.socket(socket.AF_UNIX if path else socket.AF_INET)
        self.listener.bind(path or ("127.0.0.1", 0))
        self.listener.listen()
        self.port = None if path else self.listener.getsockname()[1]
        threading.Thread(target=self.accept, daemon=True).start()

    def accept(self) -> None:
        with contextlib.suppress(OSError):
            while True:
                peer, _ = self.listener.accept()
                threading.Thread(target=self.serve, args=(peer,), daemon=True).start()

    def serve(self, peer: socket.socket) -> None:
        with peer, peer.makefile("rb") as lines, contextlib.suppress(OSError):
            for line in lines:
                request = json.loads(line) if line.startswith(b"{") else line
                self.heard.append(request)
                answer = self.answering(request)
                if answer is END:
                    return
                if answer is not None:
                    peer.sendall(answer if isinstance(answer, bytes) else json.dumps(answer).encode() + b"\n")


# Ends the connection.
END = b""


@contextlib.contextmanager
def serving(answering: Answering, path: str | None = None) -> Iterator[FakeServer]:
    server = FakeServer(answering, path)
    try:
        yield server
    finally:
        # Without it the thread that accepts would wait for ever, and keep a descriptor for its next peer.
        with contextlib.suppress(OSError):
            server.listener.shutdown(socket.SHUT_RDWR)
        server.listener.close()


def echo(request: Any) -> dict:
    """Answers a call with its arguments, a batch with those of its calls, and a close."""
    if request["op"] == "call":
        return {"call": 0, "reply": request["args"]}
    if request["op"] == "batch":
        return {"batch": [{"call": call, "epoch": 1, "reply": arguments} for call, (_, arguments) in enumerate(request["calls"])]}
    return {"closed": True}


def answers(*wanted: Any) -> Answering:
    """Answers the first request with the first of these, and so on; a close at any time."""
    left = list(wanted)
    return lambda request: {"closed": True} if isinstance(request, dict) and request["op"] == "close" else left.pop(0)
