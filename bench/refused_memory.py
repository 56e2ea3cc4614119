#!/usr/bin/env python3
"""Refuses requests for memory, and looks at what a run leaves.

Runs `generate_c_source`, `check` and `exec`. Where each request from one on is refused, the run must exit with 6, report
nothing and leave every file as it was. Where one request alone is refused, it must do the same, or find room otherwise and end as if
nothing had happened. It wants gcc, for a small library that stands before malloc. Build the program
first (./run).
"""
import os
import shutil
import subprocess
import sys
import tempfile
from typing import NamedTuple

from program import PROGRAM, TOP, want_program

SHIM = r"""
#define _GNU_SOURCE
#include <dlfcn.h>
#include <errno.h>
#include <stdio.h>
#include <stdlib.h>

static long requests, refused = -1;
static int all;

static int refuses(void)
{
    if (refused < 0) {
        const char *at = getenv("REFUSE_AT");
        refused = at ? atol(at) : 0;
        all = getenv("REFUSE_ALL") != NULL;
    }
    requests++;
    if (!refused || requests < refused || (requests > refused && !all)) return 0;
    errno = ENOMEM;
    return 1;
}

void *malloc(size_t size)
{
    static void *(*next)(size_t);
    if (!next) *(void **)&next = dlsym(RTLD_NEXT, "malloc");
    return refuses() ? NULL : next(size);
}

void *realloc(void *old, size_t size)
{
    static void *(*next)(void *, size_t);
    if (!next) *(void **)&next = dlsym(RTLD_NEXT, "realloc");
    return refuses() ? NULL : next(old, size);
}

int posix_memalign(void **to, size_t alignment, size_t size)
{
    static int (*next)(void **, size_t, size_t);
    if (!next) *(void **)&next = dlsym(RTLD_NEXT, "posix_memalign");
    return refuses() ? ENOMEM : next(to, alignment, size);
}

void *aligned_alloc(size_t alignment, size_t size)
{
    static void *(*next)(size_t, size_t);
    if (!next) *(void **)&next = dlsym(RTLD_NEXT, "aligned_alloc");
    return refuses() ? NULL : next(alignment, size);
}

__attribute__((destructor)) static void tell(void)
{
    const long made = requests; /* fopen makes one more */
    const char *path = getenv("COUNT_INTO");
    FILE *to = path ? fopen(path, "w") : NULL;
    if (to) {
        fprintf(to, "%ld\n", made);
        fclose(to);
    }
}
"""
OLD = b"an older header\n"
SOURCE = b"""#include <stdint.h>
#include <string.h>
struct s { int a; uint8_t b; };
static int add(int a, int b) { return a + b; }
int f(uint8_t *p, struct s *q, int v) {
    int x = add(v, 1);
    memset(p, 0, 2);
    { uint8_t y = q->b; p[1] |= y; }
    switch (v) { case 1: q->a = add(x, 2); break; default: return 3; }
    return q->a;
}
"""
FILES = {"can.h": OLD, "can.c": OLD, "f.h": b"", "f.c": SOURCE}
COMMANDS = {
    "generate_c_source can.dbc": b"can.h\ncan.c\n",
    "check f.h f.c": b"ok\n",
    "exec f.h f.c lp64 f raw:3 struct:b=7 int:1": b"return 4\narg 1: 0007--\narg 2: a=4 b=7\n",
}


class Run(NamedTuple):
    """The status of a run, its report and the files after it."""

    status: int
    report: bytes
    files: dict


def run(command, shim, refuse_at, refuse_all=False):
    """Runs the program in a folder of its own, and counts its requests."""
    with tempfile.TemporaryDirectory() as folder:
        shutil.copy(os.path.join(TOP, "examples", "can.dbc"), folder)
        for name, content in FILES.items():
            with open(os.path.join(folder, name), "wb") as f:
                f.write(content)
        count = os.path.join(folder, "count")
        env = {"LD_PRELOAD": shim, "REFUSE_AT": str(refuse_at), "COUNT_INTO": count}
        if refuse_all:
            env["REFUSE_ALL"] = "1"
        done = subprocess.run([PROGRAM, *command.split()], cwd=folder, env=env, capture_output=True, check=False)
        files = {}
        for name in FILES:
            with open(os.path.join(folder, name), "rb") as f:
                files[name] = f.read()
        # Where no memory is left, the shim cannot open the file either.
        requests = int(open(count, encoding="ascii").read()) if os.path.exists(count) else -1
    return Run(done.returncode, done.stdout, files), requests


def refuse_in_turn(command, report, shim):
    """How many refusals of a command went wrong."""
    done, requests = run(command, shim, 0)
    if (done.status, done.report) != (0, report) or requests <= 0:
        sys.exit(f"{command} with memory enough went wrong: {done.status} {done.report!r} after {requests} requests")
    nothing = Run(6, b"", FILES)
    wrong = recovered = 0
    for at in range(1, requests + 1):
        one, every = run(command, shim, at)[0], run(command, shim, at, refuse_all=True)[0]
        recovered += one == done
        if one not in (nothing, done) or every != nothing:
            wrong += 1
            print(f"{command}: request {at} of {requests} refused: {one[:2]}; it and each later one: {every[:2]}")
    print(f"{command}: {requests} requests refused in turn: {recovered} found room otherwise, {wrong} wrong")
    return wrong


def main():
    if shutil.which("gcc") is None:
        print("skipped: there is no gcc")
        return
    want_program()
    with tempfile.TemporaryDirectory() as folder:
        source, shim = os.path.join(folder, "shim.c"), os.path.join(folder, "shim.so")
        with open(source, "w", encoding="ascii") as f:
            f.write(SHIM)
        subprocess.run(["gcc", "-shared", "-fPIC", "-O1", "-o", shim, source, "-ldl"], check=True)
        wrong = sum(refuse_in_turn(command, report, shim) for command, report in COMMANDS.items())
    sys.exit(1 if wrong else 0)


if __name__ == "__main__":
    main()
