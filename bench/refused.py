#!/usr/bin/env python3
"""Runs the program that `--program` names, or that `./elvm` would run, with one allocation refused, for each allocation in turn,
and with all from that one on.

Each run must answer 9, or the status that it has with ample memory, and what it writes must begin what is written then (with
that status: be it). It needs cc: a small library stands before the C library's `malloc`. It prints for each row how many
allocations there are and how often which status came, and fails where a run did something else.
"""
import collections
import concurrent.futures
import os
import shutil
import subprocess
import sys
import tempfile

from program import TOP, program

LIBRARY = r"""
#define _GNU_SOURCE
#include <dlfcn.h>
#include <errno.h>
#include <stdio.h>
#include <stdlib.h>

static unsigned long asked, refused, from;

__attribute__((constructor)) static void begin(void) {
    const char *text = getenv("REFUSED");
    refused = text ? strtoul(text, 0, 10) : 0;
    text = getenv("REFUSED_FROM");
    from = text ? strtoul(text, 0, 10) : 0;
    asked = 0;
}

static int is_refused(void) {
    asked++;
    if (asked == refused || (from && asked >= from)) { errno = ENOMEM; return 1; }
    return 0;
}

void *malloc(size_t size) {
    static void *(*next)(size_t);
    if (!next) next = dlsym(RTLD_NEXT, "malloc");
    return is_refused() ? 0 : next(size);
}

void *realloc(void *old, size_t size) {
    static void *(*next)(void *, size_t);
    if (!next) next = dlsym(RTLD_NEXT, "realloc");
    return is_refused() ? 0 : next(old, size);
}

__attribute__((destructor)) static void end(void) {
    const char *path = getenv("ASKED");
    FILE *file;
    from = 0;
    refused = 0;
    unsigned long count = asked;
    if (path && (file = fopen(path, "w"))) { fprintf(file, "%lu\n", count); fclose(file); }
}
"""
# of a row with more allocations so many are refused, spread over all of them
MOST = 3000


def run(library, words, given, room, **refusal):
    environment = {"LD_PRELOAD": library, **{name: str(value) for name, value in refusal.items()}}
    made = subprocess.run([program(), *words], input=given, capture_output=True, env=environment, cwd=room, timeout=600)
    return made.returncode, made.stdout


def is_right(ample, got):
    return got == ample or (got[0] == 9 and ample[1].startswith(got[1]))


def show(library, words, given, room):
    path = os.path.join(room, "asked")
    ample = run(library, words, given, room, ASKED=path)
    count = int(open(path).read())
    step = max(1, count // MOST)
    places = range(1, count + 1, step)
    jobs = [(name, place) for place in places for name in ("REFUSED", "REFUSED_FROM")]
    seen, wrong = collections.Counter(), []
    with concurrent.futures.ThreadPoolExecutor(os.cpu_count()) as pool:
        for (name, place), got in zip(jobs, pool.map(lambda job: run(library, words, given, room, **{job[0]: job[1]}), jobs)):
            seen[got[0]] += 1
            if not is_right(ample, got):
                wrong.append((name, place, got[0]))
    statuses = ", ".join(f"{status}: {times}" for status, times in sorted(seen.items()))
    print(f"{' '.join(words)}: {count} allocations, status {ample[0]}; refused {len(jobs)} times, {statuses}{'  WRONG ' + str(wrong[:5]) if wrong else ''}", flush=True)
    return not wrong


def rows(room):
    """The words of each row, with the input; the files that they name are written to the room."""
    for folder in (os.path.join(TOP, "examples"), os.path.join(TOP, "examples", "c")):
        for name in os.listdir(folder):
            if os.path.isfile(os.path.join(folder, name)):
                shutil.copy(os.path.join(folder, name), room)
    yield ("eir", "hi.eir"), b""
    yield ("eir", "copy.eir"), b"hello"
    yield ("eir", "collatz.eir"), b""
    yield ("opt", "upper.eir"), b""
    for target in ("brainfuck", "whitespace", "subleq", "piet", "wasm"):
        yield ("emit", "--target", target, "copy.eir"), b""
        text = subprocess.run([program(), "emit", "--target", target, "copy.eir"], capture_output=True, cwd=room).stdout
        with open(os.path.join(room, target), "wb") as file:
            file.write(text)
        yield ("run", "--target", target, target), b"hello"
    for name in ("hello.c", "sort.c", "life.c"):
        yield ("c", name), b""
    yield ("c", "calc.c"), b"2*(3+4)-1\n"
    yield ("sample", "3"), b""
    yield ("sample", "20000"), b""
    yield ("eir", "none.eir"), b""
    yield ("emit", "copy.eir"), b""


def main():
    cc = shutil.which("cc")
    if not cc:
        print("cc is not here: nothing was run")
        return 0
    program()
    with tempfile.TemporaryDirectory() as room:
        source, library = os.path.join(room, "refuse.c"), os.path.join(room, "refuse.so")
        with open(source, "w") as file:
            file.write(LIBRARY)
        subprocess.run([cc, "-O2", "-shared", "-fPIC", "-o", library, source, "-ldl"], check=True)
        held = [show(library, words, given, room) for words, given in rows(room)]
    print(f"{sum(held)} of {len(held)} rows as stated")
    return 0 if all(held) else 1


if __name__ == "__main__":
    sys.exit(main())
