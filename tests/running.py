"""What the tests share: a run of the built program, the checks of a test, and what a test that isn't run by pytest has in its place.

A test checks many things, and goes on where one of them fails. `tests/run` counts the checks. Under pytest a test with a check that failed has failed.
"""

import collections
import contextlib
import ctypes
import faulthandler
import functools
import itertools
import os
import pathlib
import random
import re
import resource
import shutil
import signal
import socket
import subprocess
import sys
import tempfile
import threading
import time
import unittest

import known_defects

TOP = pathlib.Path(__file__).resolve().parent.parent
# After so many seconds a test hangs, and after half of them an answer that doesn't come. A machine that is busy with other work takes long.
LIMIT = float(os.environ.get("TREEDB_TEST_SECONDS", "600"))
PATIENCE = LIMIT / 2
PROCESSORS = len(os.sched_getaffinity(0))
# How many seconds a test that was cut off has to end what it began.
LAST_WORDS = 60
# The tools that this machine shall have: what needs one of them fails where it isn't there.
REQUIRED = set(filter(None, os.environ.get("TREEDB_REQUIRE", "").split(",")))
# The names under which a tool may be there.
TOOLS = {
    "cc": [os.environ.get("CC", "cc")],
    "chromium": ["chromium", "chromium-browser", "google-chrome"],
    # Debian has it where no path leads.
    "postgres": ["postgres", *map(str, sorted(pathlib.Path("/usr/lib/postgresql").glob("*/bin/postgres"), reverse=True))],
}
DIES_WITH_ITS_PARENT = 1
PRCTL = getattr(ctypes.CDLL(None), "prctl", None)

if "_pytest" in sys.modules:
    from pytest import fixture, mark

    parametrize = mark.parametrize
else:
    def parametrize(name, values, ids):
        """Has a test run once with each of these values for the parameter of that name. An id stands behind the test's name, as in `requests[a call]`."""
        def mark(test):
            test.rows = name, dict(zip(ids, values, strict=True))
            return test

        return mark

    def fixture(made=None, *, scope="function"):
        """Marks a function as one that makes what the tests of its name are given, for `tests/run`."""
        if made is None:
            return functools.partial(fixture, scope=scope)
        made.scope = scope
        return made


def alone(test):
    """Marks a test that looks at how long something takes: `tests/run` has no other beside it."""
    test.is_alone = True
    return test


class MissingProgram(Exception):
    """The program to test isn't built."""


def program_named(variable, crate, built_by):
    """The program that an environment variable names, or the one that is built in a crate."""
    program = pathlib.Path(os.environ.get(variable) or TOP / f"crates/{crate}/out/{crate}").resolve()
    if not program.is_file():
        raise MissingProgram(f"there is no program {program}; {built_by} builds it")
    return program


class Hangs(Exception):
    """Something didn't come to its end in time."""


def skip(reason):
    """Leaves the rest of a test out, and says why."""
    raise unittest.SkipTest(reason)


def tool(name):
    """The path of a tool. What needs it is skipped where there is none, or fails where `--require` names it."""
    for each in TOOLS.get(name, [name]):
        if path := shutil.which(each):
            return path
    if name in REQUIRED:
        raise MissingProgram(f"there is no {name}, which this machine shall have")
    return skip(f"there is no {name}")


def compiled(source, folder):
    """The library that a source in C makes, which a program may load before its own; what needs it is skipped where there is no compiler."""
    built = pathlib.Path(folder, source.stem + ".so")
    subprocess.run([tool("cc"), "-shared", "-fPIC", "-O1", "-Wall", "-o", built, source, "-ldl", "-lpthread"], check=True)
    return built


def files_of_repository(*patterns):
    """Its files of these patterns, without what is built; also where it is no checkout, or another user's."""
    words = ["git", "-c", "safe.directory=*", "ls-files", "--cached", "--others", "--exclude-standard", *patterns]
    listed = subprocess.run(words, cwd=TOP, capture_output=True, text=True, check=False).stdout.splitlines() if shutil.which("git") else []
    built = {".git", "__pycache__", "node_modules", "out", "target"}
    return [TOP / name for name in listed if (TOP / name).is_file()] or [path for pattern in patterns or ["*"] for path in TOP.rglob(pattern) if path.is_file() and not built & {*path.parts}]


@functools.cache
def seed():
    """The seed of what this run leaves to chance. It is printed when it is made, and TREEDB_SEED gives it again."""
    if given := os.environ.get("TREEDB_SEED"):
        return int(given)
    number = time.time_ns() % 1_000_000
    print(f"what is left to chance: TREEDB_SEED={number}")
    return number


def chance(name):
    """The chances of that name: with the same seed, the same."""
    return random.Random(f"{seed()} {name}")


@contextlib.contextmanager
def limited(name):
    """What is done within comes to its end in time, or `Hangs` is raised there and standard error says where each thread is. If even that doesn't end it, the whole run ends."""
    def cut_off(*_):
        faulthandler.dump_traceback(sys.__stderr__, all_threads=True)
        raise Hangs(f"{name} hadn't ended after {LIMIT:.0f} s")

    before = signal.signal(signal.SIGALRM, cut_off)
    signal.setitimer(signal.ITIMER_REAL, LIMIT)
    faulthandler.dump_traceback_later(LIMIT + LAST_WORDS, exit=True, file=sys.__stderr__)
    try:
        yield
    finally:
        faulthandler.cancel_dump_traceback_later()
        signal.setitimer(signal.ITIMER_REAL, 0)
        signal.signal(signal.SIGALRM, before)


def until(holds, what, patience=None):
    """Waits until that holds."""
    end = time.monotonic() + (patience or PATIENCE)
    while not holds():
        if time.monotonic() > end:
            raise Hangs(f"after {patience or PATIENCE:.0f} s: {what}")
        time.sleep(0.01)


class Threads:
    """Calls on threads of their own, which end with the run."""

    def __init__(self, *works):
        self.threads = [threading.Thread(target=self.work, args=work, daemon=True) for work in works]
        self.failed = []
        for thread in self.threads:
            thread.start()

    def work(self, function, *arguments):
        try:
            function(*arguments)
        except Exception as reason:
            self.failed.append(reason)

    def wait(self, patience):
        """Waits for all, and answers whether they have ended."""
        end = time.monotonic() + patience
        for thread in self.threads:
            thread.join(max(end - time.monotonic(), 0))
        return not any(thread.is_alive() for thread in self.threads)

    def join(self, patience=PATIENCE):
        """Waits for all, and raises what one of them raised."""
        if not self.wait(patience):
            raise Hangs(f"a thread of {len(self.threads)} hadn't ended after {patience:.0f} s")
        if self.failed:
            raise self.failed[0]


def at_once(work, rows):
    """What that work comes to for each row, in their order. As many are worked on at once as there are processors: so rows have nothing to do with each other, and write no file of the same name."""
    rows, done, is_over = [*rows], {}, threading.Event()
    places = iter(range(len(rows)))

    def take():
        while not is_over.is_set() and (place := next(places, None)) is not None:
            done[place] = work(rows[place])

    threads = Threads(*[(take,)] * min(PROCESSORS, len(rows)))
    try:
        # All of them have the time of a test.
        threads.join(LIMIT)
    finally:
        # Where this is broken off, what is under way ends before its folder goes.
        is_over.set()
        threads.wait(LAST_WORDS / 2)
    return [done[place] for place in range(len(rows))]


def before_program(memory=None):
    """What a process does before it becomes the program: it ends with the one that started it, and may have so many bytes of addresses. Signals mean to it what they do in a terminal."""
    def prepare():
        for each in (signal.SIGHUP, signal.SIGINT, signal.SIGTERM):
            signal.signal(each, signal.SIG_DFL)
        if PRCTL:
            PRCTL(DIES_WITH_ITS_PARENT, signal.SIGKILL)
        if memory:
            resource.setrlimit(resource.RLIMIT_AS, (memory, memory))

    return prepare


@contextlib.contextmanager
def raises(kind, pattern=""):
    """What is done within raises such an exception, whose message has this pattern. The list that is lent has the exception afterwards."""
    raised = []
    try:
        yield raised
    except kind as found:
        assert re.search(pattern, str(found)), f"{found} has no {pattern}"
        raised.append(found)
    else:
        raise AssertionError(f"nothing was raised in the place of {kind.__name__}")


class Run:
    """What a run of the program came to."""

    def __init__(self, status, out, err):
        self.status, self.out, self.err = status, out, err

    def __repr__(self):
        return f"status {self.status}, out {self.out[-300:]!r}, err {self.err[-300:]!r}"


class Counts:
    """How many checks passed, failed and were skipped, and how often each known defect was met."""

    def __init__(self):
        self.passed = self.failed = self.skipped = 0
        self.known = collections.Counter()
        self.lock = threading.Lock()

    def check(self, name, holds, found):
        """Counts a check, and tells what was found if it failed. Threads may check at once."""
        with self.lock:
            if holds:
                self.passed += 1
            elif row := known_defects.row_of(name):
                self.known[row] += 1
            else:
                self.failed += 1
                print(f"failed: {name}: {found!r}")

    def judge(self):
        """Ends a test: it has failed if one of its checks has."""
        assert self.failed == 0, f"{self.failed} of {self.passed + self.failed} checks failed"

    def same(self, name, found, wanted):
        """Counts a check of two values."""
        self.check(name, found == wanted, Found(found, wanted))

    def end(self):
        """Prints the last line, and returns the exit status."""
        print(f"{self.passed} passed, {self.failed} failed" + (f", {self.skipped} skipped" if self.skipped else ""))
        return 1 if self.failed else 0


class Found:
    """What was found in the place of what was wanted."""

    def __init__(self, found, wanted):
        self.found, self.wanted = found, wanted

    def __repr__(self):
        return f"{self.found!r:.300} in the place of {self.wanted!r:.300}"


class Tests(Counts):
    """The program, a folder with the examples to run it in, and how many checks passed."""

    def __init__(self, program, folder):
        super().__init__()
        self.program, self.folder = program, folder

    def run(self, *words, out=None, err=None, env=None, pass_fds=(), memory=None, user=None):
        """Runs the program with these words, in so many bytes of addresses, as another user if one is named. A stream that has a path goes there, and else into the answer."""
        streams = [open(path, "wb") if path else subprocess.PIPE for path in (out, err)]
        done = subprocess.run([self.program, *words], cwd=self.folder, stdin=subprocess.DEVNULL, stdout=streams[0], stderr=streams[1],
                              env=env, pass_fds=pass_fds, preexec_fn=before_program(memory), timeout=PATIENCE, check=False, user=user)
        for stream in streams:
            if stream != subprocess.PIPE:
                stream.close()
        return Run(done.returncode, (done.stdout or b"").decode(), (done.stderr or b"").decode())

    def runs(self, *commands, **named):
        """What runs with these words come to, in their order: see `at_once`."""
        return at_once(lambda words: self.run(*words, **named), commands)

    def answers(self, name, words, status, out, err=None):
        """The run has this status, prints this, and says this to people, which may be a pattern."""
        self.judged(name, self.run(*words), status, out, err)

    def judged(self, name, run, status, out, err=None):
        """That run has this status, and has printed and said this."""
        said = err is None or (err.search(run.err) if isinstance(err, re.Pattern) else run.err == err)
        self.check(name, run.status == status and run.out == out and said, run)

    def path(self, name):
        return self.folder / name

    def bytes(self, name):
        """What a file holds; nothing where it isn't there."""
        return self.path(name).read_bytes() if self.path(name).is_file() else b""


def ports():
    """Ports, one after another, of those that no connection has for its own end, from one on that is left to chance: so two runs of tests hardly come to the same."""
    try:
        highest = min(32_000, int(pathlib.Path("/proc/sys/net/ipv4/ip_local_port_range").read_text().split()[0]))
    except OSError:
        highest = 32_000
    lowest = min(12_000, highest - 1)
    first = random.randrange(lowest, highest)
    yield from itertools.cycle([*range(first, highest), *range(lowest, first)])


PORTS, TAKING = ports(), threading.Lock()


def free_port():
    """A port that nobody listens on."""
    while True:
        with TAKING:
            port = next(PORTS)
        with contextlib.suppress(OSError), socket.socket() as peer:
            peer.bind(("127.0.0.1", port))
            return port


def asked(port, lines):
    """What is answered to these lines, on a connection of their own."""
    with socket.create_connection(("127.0.0.1", port), timeout=PATIENCE) as peer:
        peer.sendall(lines)
        peer.shutdown(socket.SHUT_WR)
        answers = b""
        while part := peer.recv(65536):
            answers += part
    return answers.decode()


def main(name, groups):
    """The end of a script of tests: runs these groups of tests, or those that the command line names, on the program that it names, in a folder with the examples. Returns the exit status."""
    known = {group.__name__: group for group in groups}
    chosen = [known.get(word, word) for word in sys.argv[2:]] or groups
    if unknown := [group for group in chosen if isinstance(group, str)]:
        print(f"tests/{name}: there is no {', '.join(unknown)}; there are {', '.join(known)}", file=sys.stderr)
        return 2
    program = pathlib.Path(sys.argv[1] if len(sys.argv) > 1 else TOP / "crates/tl_cli/out/tl_cli").resolve()
    if not program.is_file():
        print(f"tests/{name}: there is no program {program}; ./treedb --help builds it", file=sys.stderr)
        return 1
    with tempfile.TemporaryDirectory() as folder:
        tests = Tests(program, pathlib.Path(folder))
        shutil.copytree(TOP / "examples", tests.path("examples"))
        for group in chosen:
            with limited(group.__name__):
                group(tests)
        return tests.end()
