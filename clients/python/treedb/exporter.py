"""What a server says of itself, for Prometheus: `treedb-exporter`."""

from __future__ import annotations

import argparse
import http.server
import sys
from typing import NamedTuple

from .connection import LOOPBACK
from .control import Status, status
from .errors import Error

__all__ = ["exposition", "main"]

PORT = 9178
# How many seconds a server has for its answer.
PATIENCE = 5.0
CONTENT = "text/plain; version=0.0.4; charset=utf-8"


class Metric(NamedTuple):
    """A metric: its name, whether it only rises, and what it says."""

    name: str
    kind: str
    help: str


METRICS = {
    "epoch": Metric("treedb_epoch", "gauge", "The number of the current epoch."),
    "generation": Metric("treedb_generation", "gauge", "The number of the current generation."),
    "calls": Metric("treedb_calls_total", "counter", "The calls that were answered with a receipt since the start."),
    "connections": Metric("treedb_connections", "gauge", "The connections that are open."),
    "nodes": Metric("treedb_nodes", "gauge", "The nodes of the tree."),
    "procedures": Metric("treedb_procedures", "gauge", "The procedures that there are."),
    "refusals": Metric("treedb_refusals_total", "counter", "The requests and calls that were refused since the start."),
    "places": Metric("treedb_places", "gauge", "How many connections may be open at once."),
    "browsers": Metric("treedb_browsers_total", "counter", "The connections that a browser opened, which were ended."),
    "volume": Metric("treedb_volume", "gauge", "The number of the live volume of the store."),
}
UP = Metric("treedb_up", "gauge", "Whether the server answers at its control.")


def _lines(metric: Metric, value: int) -> str:
    return f"# HELP {metric.name} {metric.help}\n# TYPE {metric.name} {metric.kind}\n{metric.name} {value}\n"


def exposition(found: Status | None) -> str:
    """The text that Prometheus reads, of a server's status, or of a server that doesn't answer."""
    if found is None:
        return _lines(UP, 0)
    return _lines(UP, 1) + "".join(_lines(METRICS[field], getattr(found, field)) for field in Status._fields)


class Exporter(http.server.ThreadingHTTPServer):
    """Answers `/metrics` with the status of the server at this control."""

    daemon_threads = True

    def __init__(self, listen: int, port: int | None, path: str | None) -> None:
        self.control_port, self.control_path = port, path
        super().__init__((LOOPBACK, listen), Handler)

    def metrics(self) -> str:
        try:
            return exposition(status(port=self.control_port, path=self.control_path, timeout=PATIENCE))
        except Error:
            return exposition(None)


class Handler(http.server.BaseHTTPRequestHandler):
    """Answers a scrape."""

    server: Exporter

    def do_GET(self) -> None:
        if self.path.partition("?")[0] != "/metrics":
            self.send_error(404)
            return
        text = self.server.metrics().encode()
        self.send_response(200)
        self.send_header("Content-Type", CONTENT)
        self.send_header("Content-Length", str(len(text)))
        self.end_headers()
        self.wfile.write(text)

    def log_message(self, *_words: object) -> None:
        """Says nothing of each scrape."""


def main(words: list[str] | None = None) -> int:
    parser = argparse.ArgumentParser("treedb-exporter", description="Answers Prometheus at /metrics with what a server says of itself at its control.")
    control = parser.add_mutually_exclusive_group(required=True)
    control.add_argument("--port", type=int, help="the server's control port")
    control.add_argument("--socket", help="the file of the server's control socket")
    parser.add_argument("--listen", type=int, default=PORT, help=f"the port of this machine that Prometheus asks; {PORT} if not given, and 0 takes one that is free")
    asked = parser.parse_args(words)
    with Exporter(asked.listen, asked.port, asked.socket) as exporter:
        print(f"treedb-exporter: http://{LOOPBACK}:{exporter.server_address[1]}/metrics", file=sys.stderr, flush=True)
        try:
            exporter.serve_forever()
        except KeyboardInterrupt:
            return 0
    return 0


if __name__ == "__main__":
    sys.exit(main())
