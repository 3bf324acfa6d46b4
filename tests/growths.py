#!/usr/bin/env python3
"""Growths of memory that are refused, one after another, against a built adactl: it says `host memory` and ends by status 5.

    growths.py PATH_OF_ADACTL

A growth is a call of malloc, calloc, realloc, posix_memalign or aligned_alloc. Each job is done whole, which counts its growths,
then with the N-th growth refused for each N (past the first 1,000 in equal steps), once it alone and once with all that come after
it, and at last with one refused that never comes. A job may end as usual only where a growth is refused alone and is asked for
again, as a reservation is that came too early: then it comes to more growths. The calls are counted by a shared object, which gcc
makes of the C text below and the loader puts before libc. Where there is no gcc, the address space of the process is limited
instead, in rising steps: that refuses the growths that take pages.

One line for each run that ends otherwise; the last line is `N passed, M failed`."""
import functools
import multiprocessing
import os
import resource
import shutil
import subprocess
import sys
import tempfile

from answers import tell

EXAMPLES = os.path.join(os.path.dirname(os.path.dirname(os.path.abspath(__file__))), "examples")

REFUSED = "procedure Main is begin X := 1; end Main;"

# a file of examples/, or none for the text that is refused; and the words around it
JOBS = [
    ("hello.adb", ["check"], []),
    ("hello.adb", ["run"], []),
    ("two_objects.adb", ["run"], ["--trace"]),
    ("two_objects.adb", ["run"], ["--order", "oldest", "--trace"]),
    ("refused_copy.adb", ["run"], []),
    ("rolled_back.adb", ["run"], ["--trace"]),
    ("freed_list.adb", ["run"], ["--trace"]),
    ("measured_calls.adb", ["run"], ["--trace"]),
    ("counting_pool.adb", ["run"], ["--trace"]),
    (None, ["check"], []),
    (None, ["run"], []),
]

# of a job with more growths than this, those past it are refused in equal steps, this many at most
MOST = 1_000

# how long one run may take, in seconds, and how many bytes a limited address space grows by
LIMIT, STEP = 60, 65_536

COUNTER = r"""
#include <errno.h>
#include <stdio.h>
#include <stdlib.h>

void *__libc_malloc(size_t), *__libc_calloc(size_t, size_t), *__libc_realloc(void *, size_t), *__libc_memalign(size_t, size_t);

static long counted, first, last;
static int counts;

__attribute__((constructor)) static void begin(void) {
    first = atol(getenv("GROWTHS_FIRST")), last = atol(getenv("GROWTHS_LAST")), counts = 1;
}
__attribute__((destructor)) static void end(void) {
    counts = 0;
    dprintf(atoi(getenv("GROWTHS_TOLD_TO")), "%ld", counted);
}
static int refused(void) { return counts && (counted++, first <= counted && counted <= last); }

void *malloc(size_t n) { return refused() ? (errno = ENOMEM, NULL) : __libc_malloc(n); }
void *calloc(size_t k, size_t n) { return refused() ? (errno = ENOMEM, NULL) : __libc_calloc(k, n); }
void *realloc(void *p, size_t n) { return refused() ? (errno = ENOMEM, NULL) : __libc_realloc(p, n); }
void *aligned_alloc(size_t a, size_t n) { return refused() ? (errno = ENOMEM, NULL) : __libc_memalign(a, n); }
int posix_memalign(void **p, size_t a, size_t n) { return refused() || !(*p = __libc_memalign(a, n)) ? ENOMEM : 0; }
"""


def do(command, **how):
    return subprocess.run(command, stdin=subprocess.DEVNULL, capture_output=True, timeout=LIMIT, **how)


def counted(counter, command, first, last):
    """The job with the growths from the first to the last of these refused, and how many growths it came to."""
    read, write = os.pipe()
    told = {"LD_PRELOAD": counter, "GROWTHS_FIRST": str(first), "GROWTHS_LAST": str(last), "GROWTHS_TOLD_TO": str(write)}
    done = do(command, env={**os.environ, **told}, pass_fds=[write])
    os.close(write)
    with open(read, "rb") as count:
        return done, int(count.read() or 0)


def is_usual(done, whole):
    return (done.returncode, done.stdout, done.stderr) == (whole.returncode, whole.stdout, whole.stderr)


def is_refusal(done, whole):
    """Whether the end is told, and the output is the beginning of that of the whole job; a trace tells the end, too."""
    lines = done.stderr.decode(errors="replace").splitlines()
    others = [line for line in lines[:-1] if not line.startswith("adactl: picks ")]
    printed = done.stdout.removesuffix(b"end memory\n")
    return done.returncode == 5 and lines[-1:] == ["adactl: host memory"] and not others and whole.stdout.startswith(printed)


def refused_in_turn(counter, command):
    whole, count = counted(counter, command, 0, 0)
    step = max(1, -(-(count - MOST) // MOST))
    places = [*range(1, min(count, MOST) + 1), *range(MOST + step, count + 1, step)]
    if step > 1:
        print(f"{command}: {count} growths, of which every {step}th is refused past the first {MOST}")
    if count == 0 or whole.returncode == 5:
        yield f"{command}: {count} growths were counted: {whole}"
    runs = [(place, last) for place in places for last in (place, sys.maxsize)]
    with multiprocessing.Pool() as pool:
        answers = pool.starmap(functools.partial(counted, counter, command), runs, chunksize=16)
        for (place, last), (done, came) in zip(runs, answers):
            is_asked_again = last == place and came > count and is_usual(done, whole)
            is_so = is_asked_again or is_refusal(done, whole)
            yield None if is_so else f"{command}: growths {place} to {last} of {count}: {done}"
    done, _ = counted(counter, command, count + 1, sys.maxsize)
    yield None if is_usual(done, whole) else f"{command}: no growth refused: {done}"


def limited(adactl, command):
    """The job within so much address space, from what the program needs to start, in which it only tells its usage."""
    whole, space = do(command), 0
    while True:
        space += STEP
        within = {"preexec_fn": lambda: resource.setrlimit(resource.RLIMIT_AS, (space, space))}
        if do([adactl], **within).returncode != 64:
            continue
        done = do(command, **within)
        yield None if is_usual(done, whole) or is_refusal(done, whole) else f"{command}: within {space} bytes: {done}"
        if is_usual(done, whole):
            return


def complaints(adactl):
    with tempfile.TemporaryDirectory() as folder:
        refused, source, counter = (os.path.join(folder, name) for name in ("refused.adb", "counter.c", "counter.so"))
        for path, text in [(refused, REFUSED), (source, COUNTER)]:
            with open(path, "w", encoding="ascii") as file:
                file.write(text)
        can_count = shutil.which("gcc") is not None
        if can_count:
            subprocess.run(["gcc", "-shared", "-fPIC", "-O1", "-o", counter, source], check=True)
        else:
            print("no gcc: the address space is limited instead, so only growths that take pages are refused")
        for name, before, behind in JOBS:
            command = [adactl, *before, refused if name is None else os.path.join(EXAMPLES, name), *behind]
            yield from refused_in_turn(counter, command) if can_count else limited(adactl, command)


if __name__ == "__main__":
    sys.exit(tell(complaints(os.path.abspath(sys.argv[1]))))
