"""Tests how the threads of a program share work: none is started or kept awake for nothing, and a call that waits for a node gets it as soon as that is free."""

import contextlib
import json
import os
import pathlib
import time

from running import alone, compiled, skip
from serving import LONG, Peer, Server, serving

# Writes into the file that STARTED names how many threads the program has started.
SOURCE = r"""
#define _GNU_SOURCE
#include <dlfcn.h>
#include <pthread.h>
#include <stdio.h>
#include <stdlib.h>

static int started;

int pthread_create(pthread_t *thread, const pthread_attr_t *how, void *(*work)(void *), void *given) {
    __typeof__(&pthread_create) real = (__typeof__(&pthread_create)) dlsym(RTLD_NEXT, "pthread_create");
    FILE *told = fopen(getenv("STARTED"), "w");
    if (told) {
        fprintf(told, "%d", __atomic_add_fetch(&started, 1, __ATOMIC_SEQ_CST));
        fclose(told);
    }
    return real(thread, how, work, given);
}
"""
# A chain of nodes, on each of which a call works twice as long as on the one above.
NODES = 8
CHAIN = {"parents": [0, *range(NODES - 1)], "records": [[0] * 8] * NODES}
WORK = [f"repeat 3 {{ repeat {256 << depth} {{ x += 1; }} }}" for depth in range(NODES)]
DOWN = "proc down() { lock n0 = node(0); let x = 0; " + " ".join(f"{WORK[depth]} lock n{depth + 1} = child(n{depth}, 0); free n{depth};" for depth in range(NODES - 1)) + WORK[-1] + " }"
ROUNDS = 60


def batch(procedure, count, workers=4):
    return json.dumps({"op": "batch", "calls": [[procedure, []]] * count, "workers": workers})


@contextlib.contextmanager
def on_one_processor():
    """What is started meanwhile has one."""
    processors = os.sched_getaffinity(0)
    os.sched_setaffinity(0, {min(processors)})
    try:
        yield
    finally:
        os.sched_setaffinity(0, processors)


@alone
def test_no_more_workers_than_calls(tests):
    """Where no threads stay, a batch starts others: at most so many as it has calls beside the first."""
    source, told = tests.path("started.c"), tests.path("started")
    source.write_text(SOURCE)
    library = compiled(source, tests.folder)
    with on_one_processor():
        server = Server(tests, connections=None, env={"LD_PRELOAD": str(library), "STARTED": str(told)})
    try:
        peer, counts = Peer(server.port), []
        peer.ask(LONG)
        for calls in (None, 1, 3):
            if calls:
                peer.ask(batch("long", calls, workers=16))
            counts.append(int(told.read_text()))
    finally:
        server.kill()
    one, three = (count - counts[0] for count in counts[1:])
    # The third call may be done before a thread was started for it.
    tests.check("sixteen workers for one call and for three", one == 0 and three in (1, 2), counts)


def tasks(server):
    return pathlib.Path(f"/proc/{server.process.pid}/task").iterdir()


def awakenings(server):
    """How often its threads have gone to sleep."""
    return sum(int(line.partition(":")[2]) for task in tasks(server) for line in (task / "status").read_text().splitlines() if line.startswith("voluntary_ctxt_switches"))


@alone
def test_an_idle_server(tests):
    """Nobody wakes in a server that has nothing to do, also behind a batch with which others helped."""
    with serving(tests, connections=None) as server:
        peer = Peer(server.port)
        peer.ask(LONG)
        answers = json.loads(peer.ask(batch("long", 8)))["batch"]
        tests.check("a batch", all("reply" in each for each in answers), answers[:3])
        time.sleep(0.1)
        before = awakenings(server)
        time.sleep(1)
        found = awakenings(server) - before
    tests.check("an idle server", found < 300, found)


def went_down(tests):
    """Two calls at once, again and again: of how many pairs the second one began while the first one was still in the upper nodes, and of how many of these it had locked the last node but one before the
    first one ended."""
    with serving(tests, "--trail", "trail.json", tree="chain.json", connections=2) as server:
        one, two = Peer(server.port), Peer(server.port)
        one.ask(json.dumps({"op": "register", "name": "down", "asm": json.loads(tests.run("procs", "down.tdb").out)[0][1]}))
        line = json.dumps({"op": "call", "proc": "down", "args": []})
        for _ in range(ROUNDS):
            one.send(line)
            two.send(line)
            one.lines.readline(), two.lines.readline()
        for peer in (one, two):
            peer.close()
        run = server.end()
    tests.check("the calls are done", run.status == 0 and sorted(json.loads(run.out.splitlines()[0])["order"]) == [*range(2 * ROUNDS)], run)
    places = {tuple(event[:3]): place for place, event in enumerate(json.loads(tests.bytes("trail.json"))["events"])}
    began = [first for first in range(0, 2 * ROUNDS, 2) if places["a", first + 1] < places["l", first, 5]]
    return len(began), sum(places["l", first + 1, NODES - 2] < places["d", first] for first in began)


@alone
def test_a_node_that_is_freed(tests):
    """Of two calls down the same nodes, the second one follows the first, and doesn't wait for its end: at least now and then, since a busy machine may hold it up."""
    tests.path("chain.json").write_text(json.dumps(CHAIN))
    tests.path("down.tdb").write_text(DOWN)
    began = followed = 0
    for _ in range(3):
        more, others = went_down(tests)
        began, followed = began + more, followed + others
        if began >= 5:
            tests.check("the second call follows the first", followed * 4 >= began, (began, followed))
            return
    skip("no two calls come at once on this machine")


# So many calls come before, by which a server learns that they are short; and so many batches of them are looked at.
LEARNT, LOOKED_AT = 16, 40
SHORT = json.dumps({"op": "register", "name": "short", "asm": "arity 0\nset v1 1\nrep 10\nadd v0 v0 v1 else L\nend\nL:\nemit v0\nret\n"})


def times(server):
    """How long each of its threads has had a processor, in nanoseconds."""
    return {task.name: int((task / "schedstat").read_text().split()[0]) for task in tasks(server)}


def done_by_others(server, peer):
    """The part of the time of batches of short calls that other threads than the batches' own take."""
    before = times(server)
    for _ in range(LOOKED_AT):
        peer.ask(batch("short", 256))
    took = [time - before.get(thread, 0) for thread, time in times(server).items()]
    return 1 - max(took) / sum(took)


@alone
def test_short_calls(tests):
    """Others help with a batch where that pays: with short calls one thread is as fast as several, also when a server has done many of them. On a busy machine others may help now and then."""
    with serving(tests, connections=None) as server:
        if not (next(tasks(server)) / "schedstat").exists():
            skip("the system doesn't tell how long threads have a processor")
        peer = Peer(server.port)
        peer.ask(SHORT)
        for _ in range(LEARNT):
            peer.ask(batch("short", 256))
        found = []
        while len(found) < 3 and (not found or found[-1] > 1 / 3):
            found.append(done_by_others(server, peer))
    tests.check("others do little of batches of short calls", found[-1] <= 1 / 3, found)
