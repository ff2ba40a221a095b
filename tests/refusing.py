"""Runs of a program in which allocations are refused.

A refusal is made by a small C library in the place of `malloc`, which is compiled by `cc`, or by the command that CC names.
"""

import os

from running import compiled
from unproved import without_proofs

# Refuses the allocation whose number REFUSE gives, counted from 1, and each one behind it where REFUSE_ALL is set. It tells
# on the file descriptor REFUSE_TO whether it came to that.
SOURCE = r"""
#define _GNU_SOURCE
#include <dlfcn.h>
#include <errno.h>
#include <stdlib.h>
#include <unistd.h>

static long asked, from, all, to;

__attribute__((constructor)) static void begin(void) {
    const char *number = getenv("REFUSE");
    from = number ? atol(number) : 0;
    all = getenv("REFUSE_ALL") != 0;
    to = number ? atol(getenv("REFUSE_TO")) : 0;
    asked = 0;
}

static int refused(void) {
    asked++;
    if (from == 0 || asked < from || (asked > from && !all)) return 0;
    if (asked == from && write(to, "r", 1) < 0) _exit(70);
    errno = ENOMEM;
    return 1;
}

#define REAL(name) (__typeof__(&name)) dlsym(RTLD_NEXT, #name)

void *malloc(size_t size) { return refused() ? 0 : (REAL(malloc))(size); }
void *calloc(size_t count, size_t size) { return refused() ? 0 : (REAL(calloc))(count, size); }
void *realloc(void *old, size_t size) { return refused() ? 0 : (REAL(realloc))(old, size); }
void *aligned_alloc(size_t align, size_t size) { return refused() ? 0 : (REAL(aligned_alloc))(align, size); }
int posix_memalign(void **to, size_t align, size_t size) {
    return refused() ? ENOMEM : (REAL(posix_memalign))(to, align, size);
}
"""


def library(folder):
    """The C library that refuses allocations; what needs it is skipped where there is no compiler, and where the program isn't proved."""
    without_proofs()
    source = folder / "refusing.c"
    source.write_text(SOURCE)
    return compiled(source, folder)


def refused(built, number, all_from, run):
    """What `run(env=.., pass_fds=..)` comes to where the allocation of that number is refused, or each from it on; and whether
    it came to that."""
    told, teller = os.pipe()
    env = {"LD_PRELOAD": str(built), "REFUSE": str(number), "REFUSE_TO": str(teller)} | ({"REFUSE_ALL": "1"} if all_from else {})
    done = run(env=env, pass_fds=(teller,))
    os.close(teller)
    with os.fdopen(told, "rb") as pipe:
        return done, pipe.read() != b""
