"""Tests servers on Unix sockets: who is let in, which files are replaced and which stay, and that they end as servers on ports do."""

import json
import os
import socket
import stat

from running import free_port, skip
from serving import ADD, CALL, LISTENING, Peer, Process, serving

STOPPING = '{"stopping":true}\n'
BOUNDS = '{"bounds":{"emits":1,"locks":1,"steps":7}}\n'
# A user who isn't the server's.
NOBODY = 65534


def lines(*values):
    return "".join(json.dumps(value, separators=(",", ":")) + "\n" for value in values)


def tree(value):
    return {"parents": [0], "records": [[value, 0, 0, 0, 0, 0, 0, 0]]}


def mode(path):
    return stat.S_IMODE(os.lstat(path).st_mode)


def is_socket(path):
    return path.exists() and stat.S_ISSOCK(os.lstat(path).st_mode)


def connected_as_nobody(path):
    """What a connection of that user comes to: 0 if it is let in, 1 if the file's permissions refuse it. Only root can find out."""
    child = os.fork()
    if child == 0:
        os.setgroups([])
        os.setgid(NOBODY)
        os.setuid(NOBODY)
        try:
            socket.socket(socket.AF_UNIX).connect(str(path))
        except PermissionError:
            os._exit(1)
        except OSError:
            os._exit(2)
        os._exit(0)
    return os.waitstatus_to_exitcode(os.waitpid(child, 0)[1])


def test_both_kinds(tests):
    """Each mix of a port and a socket, for the server that lasts and for one that serves so many connections."""
    for connections, left in ((None, {"generations": 1}), (100, {"order": [0, 1]})):
        for port, control in (("s", "c"), ("s", None), (None, "c")):
            name = f"connections {connections}, {port}, {control}"
            with serving(tests, connections=connections, port=port, control=control) as server:
                where = tests.path(port) if port else server.port
                one, two = Peer(where), Peer(where)
                answers = one.ask(ADD), one.ask(CALL), two.ask(CALL)
                tests.check(f"{name}: the answers", answers == (BOUNDS, '{"call":0,"reply":[8]}\n', '{"call":1,"reply":[11]}\n'), answers)
                status = server.status()
                wanted = (0, lines({"epoch": 0, "generation": 0, "calls": 2, "connections": 2, "nodes": 1, "procedures": 1, "refusals": 0, "places": 256, "browsers": 0, "volume": 0})) if connections is None else (3, lines({"error": [33]}))
                tests.check(f"{name}: the status", (status.status, status.out) == wanted, status)
                asking = Peer(tests.path(control) if control else server.control)
                found = asking.ask("status" if connections else "end it")
                tests.check(f"{name}: another word", found == '{"error":[901]}\n', found)
                two.send(CALL[:-5])
                two.socket.shutdown(socket.SHUT_WR)
                tests.check(f"{name}: a line that isn't whole", two.rest() == '{"error":[901]}\n', "")
                run = server.stop()
                tests.check(f"{name}: it is asked to stop", (run.status, run.out, run.err) == (0, STOPPING, ""), run)
                tests.check(f"{name}: the other one ends", one.rest() == "", "")
                run = server.end()
                tests.check(f"{name}: the end", (run.status, run.out) == (0, lines(left, tree(11))), run)
                said = f"listening on {port or f'127.0.0.1:{server.port}'}\ntreedb: treedb stop {f'--socket {control}' if control else f'--port {server.control}'} ends it\n"
                tests.check(f"{name}: what it says", run.err == f"treedb: {said}", run)
                tests.check(f"{name}: no file is left", not tests.path("s").exists() and not tests.path("c").exists(), "")


def test_by_themselves(tests):
    """The files are removed too where the connections end by themselves."""
    for more in ([], ["--seal", "itself"]):
        with serving(tests, *more, connections=1, port="s", control="c") as server:
            peer = Peer(tests.path("s"))
            peer.close()
            run = server.end()
            tests.check(f"by themselves {more}", run.status == 0 and not tests.path("s").exists() and not tests.path("c").exists(), run)
    words = ["serve", "--tree", "examples/one-node.json", "--socket", "s", "--connections", "1"]
    server = Process(tests.program, words, LISTENING, folder=tests.folder)
    Peer(tests.path("s")).close()
    run = server.end()
    tests.check("without a control", run.status == 0 and not tests.path("s").exists(), run)


def test_modes(tests):
    """The files have mode 600, or what is asked for, whatever the umask."""
    for umask in (0o000, 0o022, 0o777):
        for words, wanted in (([], 0o600), (["--mode", "660"], 0o660), (["--mode", "666"], 0o666), (["--mode", "000"], 0)):
            before = os.umask(umask)
            try:
                with serving(tests, *words, port="s", control="c") as server:
                    found = mode(tests.path("s")), mode(tests.path("c"))
                    tests.check(f"umask {umask:o}, {words}", found == (wanted, wanted), found)
                    for name in ("s", "c"):
                        tests.path(name).chmod(0o600)
                    server.stop()
                    server.end()
            finally:
                os.umask(before)


def test_strangers(tests):
    """Another user of the machine is let in where the file's mode says so."""
    if os.geteuid() != 0:
        skip("only root can find out who is let in")
    os.chmod(tests.folder, 0o755)
    for words, wanted in (([], 1), (["--mode", "660"], 1), (["--mode", "666"], 0)):
        with serving(tests, *words, port="s", control="c") as server:
            for name in ("s", "c"):
                found = connected_as_nobody(tests.path(name))
                tests.check(f"a stranger at {name}, {words}", found == wanted, found)
            server.stop()
            server.end()


def test_left_over(tests):
    """The files of a server that was killed are replaced."""
    with serving(tests, port="s", control="c") as server:
        server.process.kill()
        server.process.wait()
        tests.check("files that are left over", is_socket(tests.path("s")) and is_socket(tests.path("c")), "")
    run = tests.run("stop", "--socket", "c")
    tests.check("nobody answers at a file that is left over", (run.status, run.out) == (3, lines({"error": [33]})) and run.err.startswith("treedb: no server answers on the control socket c: "), run)
    with serving(tests, port="s", control="c") as server:
        tests.check("they are replaced", Peer(tests.path("s")).ask(ADD) == BOUNDS and server.stop().status == 0, "")
        run = server.end()
        tests.check("a server after one that was killed", run.status == 0 and not tests.path("s").exists(), run)


def refused(tests, name, *words):
    run = tests.run("serve", "--tree", "examples/one-node.json", "--connections", "1", *words)
    tests.check(name, (run.status, run.out) == (3, lines({"error": [33]})) and "can't be opened" in run.err, run)


def test_files_that_stay(tests):
    """A file that is no socket, and the socket of a server that listens, are not replaced."""
    tests.path("file").write_text("text")
    tests.path("folder").mkdir()
    tests.path("link").symlink_to("nowhere")
    with socket.socket(socket.AF_UNIX) as other:
        other.bind(str(tests.path("other")))
        other.listen()
        for name in ("file", "folder", "link", "other"):
            refused(tests, f"a socket at a {name}", "--socket", name)
            refused(tests, f"a control socket at a {name}", "--port", str(free_port()), "--control-socket", name)
        kept = tests.path("file").read_text() == "text" and tests.path("folder").is_dir() and tests.path("link").is_symlink() and is_socket(tests.path("other"))
        tests.check("they stay", kept, "")
    with serving(tests, port="s", control="c") as server:
        refused(tests, "a socket of a server that listens", "--socket", "s")
        refused(tests, "a control socket of a server that listens", "--socket", "t", "--control-socket", "c")
        refused(tests, "a socket of a server that listens, with a control socket", "--socket", "s", "--control-socket", "d")
        tests.check("the control's file goes where the server's can't be made", not tests.path("d").exists() and not tests.path("t").exists(), "")
        tests.check("it goes on", Peer(tests.path("s")).ask(ADD) == BOUNDS and server.stop().status == 0, "")
        tests.check("it ends", server.end().status == 0, "")
    refused(tests, "a path that is too long", "--socket", "x" * 108)
    refused(tests, "no path", "--socket", "")
    refused(tests, "a folder that isn't there", "--socket", "nowhere/s")


def test_files_that_go(tests):
    """A server ends when it is asked to, also where its file has gone, and leaves a file that has taken its place."""
    for connections in (None, 100):
        with serving(tests, connections=connections, port="s", control="c") as server:
            peer = Peer(tests.path("s"))
            peer.ask(ADD)
            tests.path("s").unlink()
            server.stop()
            run = server.end()
            tests.check(f"a file that has gone, {connections}", run.status == 0, run)
        with serving(tests, connections=connections, port="s", control="c") as server:
            tests.path("s").unlink()
            with socket.socket(socket.AF_UNIX) as other:
                other.bind(str(tests.path("s")))
                server.stop()
                run = server.end()
                tests.check(f"another file in its place, {connections}", run.status == 0 and is_socket(tests.path("s")), run)
                tests.path("s").unlink()


def test_silence(tests):
    """A connection that sends nothing is ended here too."""
    with serving(tests, "--idle", "1", connections=2, port="s", control="c") as server:
        silent = Peer(tests.path("s"))
        tests.check("a silent peer is ended", silent.rest() == "", "")
        busy = Peer(tests.path("s"))
        tests.check("another one is served", busy.ask(ADD) == BOUNDS, "")
        busy.close()
        tests.check("silence: the end", server.end().status == 0, "")


def test_mistakes(tests):
    """Options that don't go together."""
    serve = ["serve", "--tree", "examples/one-node.json", "--connections", "1"]
    for words in (serve, [*serve, "--port", "1", "--socket", "s"], [*serve, "--socket", "s", "--control", "1", "--control-socket", "c"], [*serve, "--port", "1", "--mode", "600"],
                  [*serve, "--port", "1", "--control", "2", "--mode", "600"], *([*serve, "--socket", "s", "--mode", each] for each in ("0600", "60", "680", "+60", "", "rw-", "6 0")),
                  serve[:3] + ["--socket", "s"], ["stop"], ["stop", "--port", "1", "--socket", "s"], ["status"], ["status", "--port", "1", "--socket", "s"]):
        run = tests.run(*words)
        tests.check(f"mistake: {words}", (run.status, run.out) == (2, "") and run.err.startswith("error: "), run)
    tests.check("no file is made", not tests.path("s").exists(), "")
