"""Who may do what on a server: browsers nothing, clients calls, operators at the control the rest."""

import contextlib
import json
import os
import re
import socket
import subprocess
import sys
import urllib.request

from running import PATIENCE, TOP, before_program, free_port, tool
from serving import ADD, CALL, Peer, serving
from test_lasting import lines, tree

METHODS = ["GET", "POST", "PUT", "HEAD", "OPTIONS", "DELETE", "PATCH", "CONNECT", "TRACE"]
TEXT = "field pieces = 0;\nproc put(shelf, n) { lock s = node(shelf); s.pieces = n; emit s.pieces; }\n"
OTHER = TEXT.replace("= n;", "= n + 1;")
REGISTER = json.dumps({"op": "register", "text": TEXT})
REPLACE = json.dumps({"op": "replace", "text": OTHER})
GROW, SEAL = '{"op":"grow","parents":[0]}', '{"op":"seal"}'
PUT = json.dumps({"op": "call", "proc": "put", "args": [0, 7]})
NO_REQUEST, FROZEN = lines({"error": [901]}), lines({"error": [1101]})
WORDS = "treedb: a browser sent a request; its connection was ended, and nothing of it was done\n"


def request(method, *body):
    """What a browser sends: a head, and a body of lines that would be requests."""
    body = "".join(line + "\n" for line in body)
    return f"{method} / HTTP/1.1\r\nHost: 127.0.0.1\r\nContent-Length: {len(body)}\r\n\r\n{body}"


def sent(where, text):
    """What is answered to that up to the end of the connection."""
    peer = Peer(where)
    with contextlib.suppress(ConnectionError):
        peer.socket.sendall(text.encode())
        peer.socket.shutdown(socket.SHUT_WR)
    return peer.rest()


def test_browsers(tests):
    """The first line of a browser ends its connection, of each method, and what stands behind it isn't done; standard error says so once."""
    with serving(tests, connections=None) as server:
        peer = Peer(server.port)
        peer.ask(ADD)
        for method in METHODS:
            told = sent(server.port, request(method, CALL, ADD.replace('"add"', '"other"')))
            tests.check(f"a browser's {method}", told == NO_REQUEST, told)
        told = sent(server.port, f"{CALL}\nHost: 127.0.0.1\n{CALL}\n")
        tests.check("a line that names the host ends a connection at any time", told == lines({"call": 0, "reply": [8]}, {"error": [901]}), told)
        told = sent(server.port, f"{CALL}\nGET / HTTP/1.1\n{CALL}\n")
        tests.check("behind the first line a method is no request, and no more", told == lines({"call": 1, "reply": [11]}, {"error": [901]}, {"call": 2, "reply": [14]}), told)
        for line in ("GET", "get / HTTP/1.1", " GET /", "GETS /", "host: 127.0.0.1", "Host"):
            told = sent(server.port, f"{line}\n{CALL}\n")
            tests.check(f"{line!r} is no browser's", told.startswith(NO_REQUEST) and '"reply"' in told, told)
        told = sent(server.port, "POST " + "a" * 70000 + "\n" + CALL + "\n")
        tests.check("a browser's line that is too long", told == NO_REQUEST, told)
        status = json.loads(server.status().out)
        tests.check("browsers are counted", (status["browsers"], status["procedures"], status["calls"]) == (11, 1, 9), status)
        server.stop()
        run = server.end()
    tests.check("standard error says it once", run.status == 0 and run.err.count(WORDS) == 1, run)


def test_browsers_of_a_socket_and_of_sessions(tests):
    """The same on a Unix socket, on the control, and on a server whose clients seal."""
    with serving(tests, port="browsed", control="browsed.control", connections=None) as server:
        for where in ("browsed", "browsed.control"):
            told = sent(tests.path(where), request("POST", ADD, CALL, "stop"))
            # The control reads five bytes; those that are left in the end may end the connection before its answer is read.
            tests.check(f"a browser at {where}", told == NO_REQUEST or (told == "" and where.endswith("control")), told)
        status = json.loads(server.status().out)
        tests.check("nothing is done there", (status["calls"], status["procedures"]) == (0, 0), status)
    with serving(tests, connections=2) as server:
        told = [sent(server.port, request("POST", ADD, CALL)), sent(server.port, f"{ADD}\n{CALL}\n")]
        tests.check("a browser at a server whose clients seal", told[0] == NO_REQUEST and told[1].endswith(lines({"call": 0, "reply": [8]})), told)
        run = server.end()
        tests.check("its end", (run.status, run.out) == (0, lines({"order": [0]}, tree(8))), run)


def test_a_page(tests):
    """A page in a browser of this machine asks the server's port by `fetch`, and changes nothing."""
    browser = tool("chromium")
    with serving(tests, connections=None) as server:
        Peer(server.port).ask(ADD)
        script = f"fetch('http://127.0.0.1:{server.port}/', {{method: 'POST', mode: 'no-cors', body: {json.dumps(CALL + chr(10))}}}).catch(() => 0).then(() => document.title = 'asked')"
        tests.path("page.html").write_text(f"<script>{script}</script>")
        words = [browser, "--headless", "--no-sandbox", "--disable-gpu", "--virtual-time-budget=3000", "--dump-dom", tests.path("page.html").as_uri()]
        subprocess.run(words, stdin=subprocess.DEVNULL, stdout=subprocess.DEVNULL, stderr=subprocess.DEVNULL, timeout=PATIENCE, check=False)
        status = json.loads(server.status().out)
        tests.check("a page's fetch", status["calls"] == 0 and status["browsers"] > 0, status)


def test_frozen(tests):
    """A frozen server refuses at its port what an operator may do, runs calls, and does the rest at its control."""
    with serving(tests, "--frozen", connections=None) as server:
        peer = Peer(server.port)
        told = [peer.ask(line) for line in (ADD, REGISTER, REPLACE, GROW, SEAL)]
        tests.check("the port refuses", told == [FROZEN] * 5, told)
        status = json.loads(server.status().out)
        tests.check("nothing was done", (status["procedures"], status["nodes"], status["epoch"]) == (0, 1, 0), status)
        for line, wanted in ((REGISTER, r'\{"registered":\[.*"name":"put"\}\]\}\n'), (GROW, r'\{"grown":1\}\n'), (SEAL, r'\{"sealed":\d+\}\n')):
            told = Peer(server.control).ask(line)
            tests.check(f"the control does {line[:18]}", re.fullmatch(wanted, told) is not None, told)
        tests.check("a call", peer.ask(PUT).endswith('"reply":[7]}\n'), "")
        for line in (CALL, '{"op":"close"}', "{", '{"op":"stop"}'):
            told = Peer(server.control).ask(line)
            tests.check(f"the control has no {line}", told == NO_REQUEST, told)
        status = json.loads(server.status().out)
        tests.check("what there is then", (status["procedures"], status["nodes"]) == (1, 2), status)
        server.stop()
        tests.check("its end", server.end().status == 0, "")
    words = ["serve", "--tree", "examples/one-node.json", "--port", str(free_port()), "--connections", "1", "--frozen"]
    run = tests.run(*words)
    tests.check("a server whose clients seal isn't frozen", (run.status, run.out) == (2, "") and "--frozen" in run.err, run)


def test_commands_of_operators(tests):
    """`treedb register` and `treedb replace` at the control of a frozen server; with a store its next start has the procedures."""
    tests.path("put.tdb").write_text(TEXT)
    tests.path("other.tdb").write_text(OTHER)
    tests.path("wrong.tdb").write_text("proc put( {\n")
    with serving(tests, "--frozen", "--store", "ruled.db", connections=None) as server:
        control = ["--port", str(server.control)]
        run = tests.run("register", "put.tdb", *control)
        tests.check("register", run.status == 0 and json.loads(run.out)["registered"][0]["name"] == "put" and run.err == "", run)
        run = tests.run("register", "put.tdb", *control)
        tests.check("register twice", (run.status, run.out) == (1, lines({"error": [611]})) and "the server refuses that" in run.err, run)
        peer = Peer(server.port)
        tests.check("the procedure", peer.ask(PUT).endswith('"reply":[7]}\n'), "")
        run = tests.run("replace", "other.tdb", *control)
        tests.check("replace", run.status == 0 and json.loads(run.out)["replaced"][0]["name"] == "put", run)
        tests.check("the other procedure", peer.ask(PUT).endswith('"reply":[8]}\n'), "")
        run = tests.run("register", "wrong.tdb", *control)
        tests.check("a text with a fault isn't sent", run.status == 1 and json.loads(run.out)["error"][0] == 273 and "wrong.tdb:1" in run.err, run)
        run = tests.run("register", "none.tdb", *control)
        tests.check("a file that isn't there", (run.status, run.out) == (3, lines({"error": [31]})), run)
        server.kill()
    with serving(tests, "--store", "ruled.db", connections=None, tree=None) as server:
        told = Peer(server.port).ask(PUT)
        tests.check("the next start has it", told.endswith('"reply":[8]}\n'), told)
    run = tests.run("register", "put.tdb", *control)
    tests.check("nobody is there", (run.status, run.out) == (3, lines({"error": [33]})), run)


def test_status_counts_procedures(tests):
    """The procedures of `--proc` and of a store are counted, as those that clients register; refusals too."""
    tests.path("put.tdb").write_text(TEXT)
    for words in (["--proc", "put.tdb", "--store", "counted.db"], ["--store", "counted.db"]):
        with serving(tests, *words, connections=None, tree="examples/one-node.json" if "--proc" in words else None) as server:
            status = json.loads(server.status().out)
            tests.check(f"status of {' '.join(words)}", (status["procedures"], status["refusals"], status["places"]) == (1, 0, 256), status)
            peer = Peer(server.port)
            for line in (REGISTER, CALL, PUT):
                peer.ask(line)
            status = json.loads(server.status().out)
            tests.check("refusals", (status["procedures"], status["refusals"], status["calls"]) == (1, 2, 1), status)


def test_places(tests):
    """Where all places are taken, standard error says so once."""
    with serving(tests, "--at-once", "2", connections=None) as server:
        peers = [Peer(server.port) for _ in range(3)]
        said = server.says(lambda said: "2 connections are open, so the next one waits (--at-once)" in said)
        tests.check("standard error says that a connection waits", said, server.said)
        for peer in peers:
            peer.close()
        server.stop()
        run = server.end()
        tests.check("once", run.err.count("so the next one waits") == 1, run)


def test_exporter(tests):
    """`treedb-exporter` answers Prometheus with the server's status, and with `treedb_up 0` where it is gone."""
    with serving(tests, connections=None) as server:
        peer = Peer(server.port)
        for line in (ADD, CALL, CALL, PUT):
            peer.ask(line)
        words = [sys.executable, "-m", "treedb.exporter", "--port", str(server.control), "--listen", "0"]
        with subprocess.Popen(words, env={**os.environ, "PYTHONPATH": str(TOP / "clients/python")}, stderr=subprocess.PIPE, text=True, preexec_fn=before_program()) as exporter:
            address = exporter.stderr.readline().split()[-1]
            scraped = []
            for _ in range(2):
                with urllib.request.urlopen(address, timeout=PATIENCE) as answer:
                    scraped.append((answer.headers["Content-Type"], answer.read().decode()))
                server.stop()
                server.end()
            exporter.kill()
    kind, text = scraped[0]
    found = dict(line.split() for line in text.splitlines() if not line.startswith("#"))
    wanted = {"treedb_up": "1", "treedb_calls_total": "2", "treedb_refusals_total": "1", "treedb_procedures": "1", "treedb_nodes": "1", "treedb_connections": "1", "treedb_browsers_total": "0"}
    tests.check("a scrape", kind.startswith("text/plain") and all(found.get(name) == value for name, value in wanted.items()), text)
    tests.check("each metric has its type", text.count("# TYPE ") == len(found), text)
    tests.check("a scrape of a server that is gone", scraped[1][1].endswith("treedb_up 0\n"), scraped[1])


def test_a_slow_peer_of_the_control(tests):
    """A peer that sends a byte now and then doesn't keep the control: after ten seconds it has no more time."""
    with serving(tests, connections=None) as server:
        slow = Peer(server.control)
        slow.socket.sendall(b"snapshot ")
        with contextlib.suppress(socket.timeout, ConnectionError):
            slow.socket.settimeout(0.8)
            for _ in range(40):
                slow.socket.sendall(b"a")
                if slow.socket.recv(64):
                    break
        told = server.status()
        tests.check("the control answers behind a slow peer", told.status == 0, told)


# Adds nodes to the tree of a server, below a node that each program wants, and reads what the others have added.
GROWING = """
import sys, time, treedb
port, who, many = int(sys.argv[1]), sys.argv[2], int(sys.argv[3])
names = treedb.Names.load("shared.json", "shared.names")
with treedb.Client(port=port) as db:
    for number in range(many):
        db.grow(names, [f"all/shop {who}/shelf {number}"])
    end = time.monotonic() + 60
    while not all(f"all/shop {other}/shelf {many - 1}" in names for other in "abc") and time.monotonic() < end:
        time.sleep(0.01)
    print(sorted(names[f"all/shop {other}/shelf {number}"] for other in "abc" for number in range(many)))
"""


def test_programs_that_share_names(tests, tree):
    """Programs that share the files of a tree's names add nodes at once: each finds those of all, and the file has them."""
    many = 4
    tests.path("shared.names").write_text('[""]')
    with serving(tests, connections=None, tree=tree({"parents": [0], "records": [[0] * 8]}, "shared.json")) as server:
        env = {**os.environ, "PYTHONPATH": str(TOP / "clients/python")}
        programs = [subprocess.Popen([sys.executable, "-c", GROWING, str(server.port), who, str(many)], cwd=tests.folder, env=env, stdout=subprocess.PIPE, stderr=subprocess.PIPE, text=True, preexec_fn=before_program())
                    for who in "abc"]
        said = [program.communicate(timeout=PATIENCE) for program in programs]
        nodes = json.loads(server.status().out)["nodes"]
        server.stop()
        left = json.loads(server.end().out.splitlines()[-1])
    tests.check("each finds those of all", len(set(said)) == 1 and said[0][1] == "", said)
    names, parents = json.loads(tests.bytes("shared.names")), json.loads(tests.bytes("shared.names.parents"))
    tests.same("the nodes", (len(names), parents), (nodes, left["parents"]))
    tests.same("the names", sorted(names), sorted(["", "all", *(f"shop {who}" for who in "abc"), *(f"shelf {number}" for number in range(many) for _ in "abc")]))


def test_the_control_from_node(tests):
    """The client for Node.js asks the control: the status, a copy that this server doesn't make, and the end."""
    node = tool("node")
    with serving(tests, connections=None) as server:
        Peer(server.port).ask(ADD)
        script = f"""
            import {{ Client }} from "{TOP}/clients/javascript/treedb.mjs";
            const to = {{ port: {server.control} }}, {{ procedures, nodes }} = await Client.status(to);
            const refused = await Client.snapshot("copy.db", to).catch((reason) => reason.number);
            await Client.stop(to);
            console.log(JSON.stringify([procedures, nodes, refused]));"""
        done = subprocess.run([node, "--input-type=module", "-e", script], stdin=subprocess.DEVNULL, capture_output=True, text=True, timeout=PATIENCE, check=False)
        tests.same("what it says", (done.stdout, done.stderr), ("[1,1,901]\n", ""))
        tests.same("the server's end", server.end().status, 0)


def waiting(tests, control):
    """A `status --wait` that waits, and what it says in the end."""
    words = [tests.program, "status", "--wait", "--port", str(control)]
    return subprocess.Popen(words, text=True, stdin=subprocess.DEVNULL, stdout=subprocess.PIPE, stderr=subprocess.PIPE, preexec_fn=before_program())


def test_waiting(tests):
    """`status --wait` answers once there is a server, as `status` does; another program is none."""
    control = free_port()
    it = waiting(tests, control)
    try:
        with serving(tests, connections=None, control=control) as server:
            out, err = it.communicate(timeout=PATIENCE)
            tests.check("there is a server", (it.returncode, err) == (0, "") and out.startswith('{"epoch":0,"generation":0,"calls":0,'), (it.returncode, out, err))
            server.stop()
            server.end()
    finally:
        it.kill()
    with socket.create_server(("127.0.0.1", 0)) as other:
        it = waiting(tests, other.getsockname()[1])
        peer, _ = other.accept()
        with peer:
            peer.sendall(b"220 another program\r\n")
            peer.shutdown(socket.SHUT_WR)
            out, err = it.communicate(timeout=PATIENCE)
    tests.check("another program", (it.returncode, out) == (3, lines({"error": [33]})), (it.returncode, out, err))
