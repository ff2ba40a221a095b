"""Tests that a server gives back the memory of an epoch that it has sealed, as far as the epoch's history doesn't need it. No contract can say so, since a block of memory may stay as large as it was."""

import json

from running import compiled, skip
from serving import Peer, serving
from test_limits import CHILDREN, WALK, WIDE

# Writes into the file that HELD names how many bytes the program holds, at each change.
SOURCE = r"""
#define _GNU_SOURCE
#include <dlfcn.h>
#include <errno.h>
#include <fcntl.h>
#include <malloc.h>
#include <stdlib.h>
#include <sys/mman.h>
#include <unistd.h>

static long none, *held = &none;

__attribute__((constructor)) static void begin(void) {
    int file = open(getenv("HELD"), O_RDWR | O_CREAT, 0600);
    if (file < 0 || ftruncate(file, sizeof none) < 0) _exit(70);
    long *shared = mmap(0, sizeof none, PROT_READ | PROT_WRITE, MAP_SHARED, file, 0);
    if (shared == MAP_FAILED) _exit(70);
    *shared = none;
    held = shared;
    close(file);
}

#define REAL(name) ((__typeof__(&name)) dlsym(RTLD_NEXT, #name))

static void *got(void *block) {
    __atomic_add_fetch(held, malloc_usable_size(block), __ATOMIC_SEQ_CST);
    return block;
}

void *malloc(size_t size) { return got(REAL(malloc)(size)); }
void *calloc(size_t count, size_t size) { return got(REAL(calloc)(count, size)); }
void *aligned_alloc(size_t align, size_t size) { return got(REAL(aligned_alloc)(align, size)); }

int posix_memalign(void **to, size_t align, size_t size) {
    int refused = REAL(posix_memalign)(to, align, size);
    if (!refused) got(*to);
    return refused;
}

void *realloc(void *block, size_t size) {
    size_t before = malloc_usable_size(block);
    void *other = REAL(realloc)(block, size);
    if (other || !size) {
        __atomic_sub_fetch(held, before, __ATOMIC_SEQ_CST);
        got(other);
    }
    return other;
}

void free(void *block) {
    __atomic_sub_fetch(held, malloc_usable_size(block), __ATOMIC_SEQ_CST);
    REAL(free)(block);
}
"""
# The room of a history is doubled from that of one walk on. So many walks fill it, and some more leave nearly half of it empty.
FULL, MORE = 128, 136
EPOCHS = 6
# What one event takes is above this.
EVENT = 16


def bytes_of_a_walk(tests, built, walks):
    """How many bytes a server in session mode holds for each walk of an epoch that it has sealed."""
    held = tests.path("held")
    with serving(tests, connections=1, tree="wide.json", env={"LD_PRELOAD": str(built), "HELD": str(held)}) as server:
        if held.read_bytes() == bytes(8):
            skip("the program has an allocator of its own")
        peer = Peer(server.port)
        peer.ask(json.dumps({"op": "register", "name": "walk", "asm": json.loads(tests.run("procs", "walk.tdb").out)[0][1]}))
        found = []
        for _ in range(EPOCHS):
            answers = json.loads(peer.ask(json.dumps({"op": "batch", "calls": [["walk", []]] * walks, "workers": 1})))["batch"]
            tests.check(f"{walks} walks", all(each.get("reply") == [CHILDREN] for each in answers), answers[:2])
            peer.ask('{"op":"seal"}')
            found.append(int.from_bytes(held.read_bytes(), "little"))
        peer.close()
        tests.check(f"{walks} walks: the end", server.end().status == 0, server.said)
    # The first epochs are left out: what else a server keeps has its size by then.
    return (found[-1] - found[1]) / (EPOCHS - 2) / walks


def test_sealed_epochs(tests):
    tests.path("held.c").write_text(SOURCE)
    tests.path("walk.tdb").write_text(WALK)
    tests.path("wide.json").write_text(json.dumps(WIDE))
    built = compiled(tests.path("held.c"), tests.folder)
    full, more = bytes_of_a_walk(tests, built, FULL), bytes_of_a_walk(tests, built, MORE)
    tests.check("an epoch whose history was full", full > 2 * CHILDREN * EVENT, full)
    tests.check("an epoch whose history had room for more", more < 1.3 * full, (full, more))
