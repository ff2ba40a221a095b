"""What the scripts of tests/ share that serve: a server, and the connections to it."""

import contextlib
import json
import os
import select
import socket
import subprocess
import time

from running import PATIENCE, Run, before_program, free_port

ADD = json.dumps({"op": "register", "name": "add", "asm": "arity 2\nfirst n0 v0 else L\nget v2 n0 0\nadd v2 v2 v1 else F\nput n0 0 v2\nF:\nemit v2\nrel n0\nL:\nret\n"})
# A million steps, and then what was counted.
LONG = json.dumps({"op": "register", "name": "long", "asm": "arity 0\nset v1 1\nrep 65000\nadd v0 v0 v1 else L\nadd v0 v0 v1 else L\nadd v0 v0 v1 else L\nend\nL:\nemit v0\nret\n"})
CALL = json.dumps({"op": "call", "proc": "add", "args": [0, 3]})
# What a server says before it serves, in no order, and one without a control.
READY, LISTENING = ("listening on ", "ends it\n"), ("listening on ",)
# What is answered where an address is taken.
TAKEN = '{"error":[33]}\n'


def named(where, port, socket_file):
    """The option for an address: the one for a port, or the one for the path of a socket's file."""
    return [port, str(where)] if isinstance(where, int) else [socket_file, where]


class NotStarted(Exception):
    """A server ended before it served; `run` is what it came to."""

    def __init__(self, run):
        super().__init__(f"the server didn't start: {run}")
        self.run = run


class Process:
    """The program as it serves: it is there once it says that it listens, and ends with the process that started it."""

    def __init__(self, program, words, ready=READY, folder=None, env=None, pass_fds=(), out=subprocess.PIPE):
        self.process = subprocess.Popen([program, *map(str, words)], cwd=folder, text=True, pass_fds=pass_fds, env=None if env is None else {**os.environ, **env},
                                        stdin=subprocess.DEVNULL, stdout=out, stderr=subprocess.PIPE, preexec_fn=before_program())
        self.said = ""
        if not self.says(lambda said: all(each in said for each in ready) and said.endswith("\n")):
            raise NotStarted(self.end())

    def says(self, holds):
        """Reads what it says to people until that holds. Where it says nothing more, the answer is no; where it says nothing in time, it is ended too."""
        end = time.monotonic() + PATIENCE
        while not holds(self.said):
            if not select.select([self.process.stderr], [], [], max(end - time.monotonic(), 0))[0]:
                self.process.kill()
            part = os.read(self.process.stderr.fileno(), 65536).decode()
            if not part:
                return False
            self.said += part
        return True

    def end(self):
        """What it came to."""
        try:
            printed, more = self.process.communicate(timeout=PATIENCE)
        except subprocess.TimeoutExpired:
            self.process.kill()
            printed, more = self.process.communicate()
            more += f"it hadn't ended after {PATIENCE:.0f} s\n"
        return Run(self.process.returncode, printed or "", self.said + more)

    def kill(self):
        """Ends it where it is, and waits until it is gone."""
        self.process.kill()
        self.process.communicate()


class Server(Process):
    """A server on a tree, of one node if no other is named, or on a store alone, with a control. Where no number of connections is given, it is one that lasts. Each of its two addresses is a
    port, or the path of a socket's file in the folder of the tests."""

    def __init__(self, tests, *words, connections=100, port=None, control=None, tree="examples/one-node.json", env=None, pass_fds=()):
        self.tests = tests
        served = [] if connections is None else ["--connections", str(connections)]
        begins = [] if tree is None else ["--tree", tree]
        for is_last in (False, False, True):
            self.port, self.control = port or free_port(), control or free_port()
            options = [*named(self.port, "--port", "--socket"), *named(self.control, "--control", "--control-socket"), *served, *words]
            try:
                super().__init__(tests.program, ["serve", *begins, *options], folder=tests.folder, env=env, pass_fds=pass_fds)
                return
            except NotStarted as refused:
                # Another process may have taken a port that was free.
                if is_last or (port and control) or refused.run.out != TAKEN:
                    raise

    def stop(self):
        return self.tests.run("stop", *named(self.control, "--port", "--socket"))

    def status(self):
        return self.tests.run("status", *named(self.control, "--port", "--socket"))


@contextlib.contextmanager
def serving(tests, *words, **named):
    server = Server(tests, *words, **named)
    try:
        yield server
    finally:
        server.kill()


class Peer:
    """A connection to a port, or to a socket's file, a line each."""

    def __init__(self, where, buffer=None):
        is_port = isinstance(where, int)
        self.socket = socket.socket(socket.AF_INET if is_port else socket.AF_UNIX)
        self.socket.settimeout(PATIENCE)
        if buffer:
            self.socket.setsockopt(socket.SOL_SOCKET, socket.SO_RCVBUF, buffer)
        self.socket.connect(("127.0.0.1", where) if is_port else str(where))
        self.lines = self.socket.makefile("r", encoding="utf-8", newline="\n")

    def send(self, *lines):
        self.socket.sendall("".join(line + "\n" for line in lines).encode())

    def ask(self, line):
        self.send(line)
        return self.lines.readline()

    def close(self):
        # The other end may be gone.
        with contextlib.suppress(OSError):
            self.socket.shutdown(socket.SHUT_RDWR)

    def rest(self):
        """What is answered up to the end of the connection. A connection that is reset has ended too."""
        with contextlib.suppress(ConnectionResetError):
            return self.lines.read()
        return ""
