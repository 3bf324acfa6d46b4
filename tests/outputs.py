#!/usr/bin/env python3
"""Command lines, outputs and inputs that fail, against a built adactl: the exit status and the lines on standard error.

    outputs.py PATH_OF_ADACTL

One line for each case that is answered otherwise; the last line is `N passed, M failed`."""
import os
import shlex
import subprocess
import sys
import tempfile

from answers import tell

EMPTY = "procedure Main is begin null; end Main;"

PRINTS = "with Ada.Text_IO; use Ada.Text_IO; procedure Main is begin Put_Line (\"a\"); end Main;"

OVERFLOWS = "procedure Main is N : Integer := Integer'Last; begin N := N + 1; end Main;"

ENDLESS = "procedure Main is begin loop null; end loop; end Main;"

PRINTS_AND_RAISES = (
    "with Ada.Text_IO; use Ada.Text_IO; procedure Main is N : Integer := Integer'Last;"
    " begin Put_Line (\"a\"); N := N + 1; end Main;"
)

REFUSED = "procedure Main is begin X := 1; end Main;"

USAGE = [
    "usage: adactl check FILE",
    "       adactl run FILE [--trace] [--order newest|oldest] [--steps N]",
]

# a text, the words around its file, the exit status, and the lines on standard error
COMMANDS = [
    (EMPTY, ["check"], [], 0, []),
    (EMPTY, ["run"], [], 0, []),
    (EMPTY, ["run"], ["--trace"], 0, ["adactl: picks none"]),
    (EMPTY, ["run"], ["--order", "oldest", "--steps", "18446744073709551615"], 0, []),
    (EMPTY, ["run", "--steps=18446744073709551615", "--order=newest"], [], 0, []),
    (EMPTY, ["run", "--trace", "--"], [], 0, ["adactl: picks none"]),
    (OVERFLOWS, ["run"], [], 1, ["adactl: raised Constraint_Error"]),
    (REFUSED, ["check"], [], 2, ["adactl: 1:25: 20 UNKNOWN"]),
    (REFUSED, ["run"], [], 2, ["adactl: 1:25: 20 UNKNOWN"]),
    (ENDLESS, ["run"], ["--steps", "100"], 4, ["adactl: step limit"]),
    # what the command line does not take
    (EMPTY, ["run"], ["--help"], 64, USAGE),
    (EMPTY, ["walk"], [], 64, USAGE),
    (EMPTY, ["run"], ["--order", "random"], 64, USAGE),
    (EMPTY, ["run"], ["--order"], 64, USAGE),
    (EMPTY, ["run"], ["--steps", "18446744073709551616"], 64, USAGE),
    (EMPTY, ["run"], ["--steps", "-1"], 64, USAGE),
    (EMPTY, ["run"], ["--steps", "ten"], 64, USAGE),
    (EMPTY, ["run"], ["--loud"], 64, USAGE),
    (EMPTY, ["check"], ["--trace"], 64, USAGE),
    (EMPTY, ["run"], ["another"], 64, USAGE),
    # words that are not UTF-8
    (EMPTY, ["run"], [b"\xff"], 64, USAGE),
    (EMPTY, ["run"], ["--steps", b"1\xff"], 64, USAGE),
    (EMPTY, [b"\xc3\x28"], [], 64, USAGE),
]

# lines of words that ask for no job, with one blank between the words; no file is read
NO_JOBS = [
    "--help",
    "-h",
    "help",
    "help run",
    "--version",
    "walk a.adb",
    "check",
    "check a.adb b.adb",
    "check a.adb --trace",
    "check --help",
    "run",
    "run --trace",
    "run a.adb b.adb",
    "run a.adb --help",
    "run a.adb --order later",
    "run a.adb --order Newest",
    "run a.adb --order",
    "run a.adb --order newest --order oldest",
    "run a.adb --picks 1,0",
    "run a.adb --steps 18446744073709551616",
    "run a.adb --steps many",
    "run a.adb --steps -1",
    "run a.adb --steps",
    "run a.adb --trace=yes",
]

# where standard output and standard error go, the words around the file of PRINTS or PRINTS_AND_RAISES, the exit status, and
# the lines on standard error: how a run ended is not told where its output was lost
OUTPUTS = [
    (PRINTS, ">/dev/full", ["run"], [], 74, ["adactl: write failed"]),
    (PRINTS, ">/dev/full", ["run"], ["--trace"], 74, ["adactl: write failed"]),
    (PRINTS, ">/dev/full", ["check"], [], 74, ["adactl: write failed"]),
    (PRINTS_AND_RAISES, ">/dev/full", ["run"], [], 74, ["adactl: write failed"]),
    (PRINTS_AND_RAISES, ">/dev/full", ["run"], ["--trace"], 74, ["adactl: write failed"]),
    (PRINTS_AND_RAISES, ">/dev/full", ["run"], ["--steps", "4", "--trace"], 74, ["adactl: write failed"]),
    (PRINTS, ">&-", ["run"], [], 74, ["adactl: write failed"]),
    (PRINTS, ">&-", ["check"], [], 74, ["adactl: write failed"]),
    (PRINTS_AND_RAISES, ">/dev/null", ["run"], ["--trace"], 1, ["adactl: picks none", "adactl: raised Constraint_Error"]),
    # nothing is printed, so nothing is lost
    (OVERFLOWS, ">/dev/full", ["run"], [], 1, ["adactl: raised Constraint_Error"]),
    (REFUSED, ">/dev/full", ["run"], [], 2, ["adactl: 1:25: 20 UNKNOWN"]),
    (PRINTS, "2>&-", ["run"], [], 0, []),
    (PRINTS, "2>/dev/full", ["run"], ["--trace"], 0, []),
]


def told(done):
    """The exit status, and the lines on standard error."""
    return done.returncode, done.stderr.decode(errors="replace").splitlines()


def write(path, text):
    with open(path, "w", encoding="latin-1") as file:
        file.write(text)


def commands(adactl, folder):
    path = os.path.join(folder, "main.adb")
    for text, before, behind, status, lines in COMMANDS:
        write(path, text)
        done = subprocess.run([adactl, *before, path, *behind], stdin=subprocess.DEVNULL, capture_output=True, timeout=60)
        yield None if told(done) == (status, lines) else f"{before} {behind} of {text!r}: {told(done)}"


def names_of_files(adactl, folder):
    """A file whose name is not UTF-8 can be given by no word; one whose name is, beyond ASCII, can."""
    for name, status, lines in [(b"\xff.adb", 64, USAGE), ("\u00fc.adb".encode(), 0, [])]:
        path = os.path.join(os.fsencode(folder), name)
        write(path, EMPTY)
        done = subprocess.run([adactl, "run", path], stdin=subprocess.DEVNULL, capture_output=True, timeout=60)
        yield None if told(done) == (status, lines) else f"{name!r}: {told(done)}"


def no_jobs(adactl):
    """No words, and words that ask for no job."""
    for line in ["", *NO_JOBS]:
        done = subprocess.run([adactl, *line.split()], stdin=subprocess.DEVNULL, capture_output=True, timeout=60)
        yield None if told(done) == (64, USAGE) else f"{line!r}: {told(done)}"


def files(adactl, folder):
    """A file that is not there, and one that is a folder."""
    for path in [os.path.join(folder, "missing.adb"), folder]:
        done = subprocess.run([adactl, "run", path], stdin=subprocess.DEVNULL, capture_output=True, timeout=60)
        yield None if told(done) == (74, ["adactl: read failed"]) else f"{path}: {told(done)}"


def outputs(adactl, folder):
    """Outputs that take nothing, that are closed, or whose reader has gone."""
    path = os.path.join(folder, "prints.adb")
    for text, redirection, before, behind, status, lines in OUTPUTS:
        write(path, text)
        words = " ".join(shlex.quote(word) for word in [adactl, *before, path, *behind])
        done = subprocess.run(f"{words} {redirection}", shell=True, stdin=subprocess.DEVNULL, capture_output=True, timeout=60)
        yield None if told(done) == (status, lines) else f"{before} {behind} {redirection} of {text!r}: {told(done)}"
    write(path, PRINTS)
    from_pipe, into_pipe = os.pipe()
    os.close(from_pipe)
    done = subprocess.run([adactl, "run", path], stdin=subprocess.DEVNULL, stdout=into_pipe, stderr=subprocess.PIPE, timeout=60)
    os.close(into_pipe)
    yield None if told(done) == (74, ["adactl: write failed"]) else f"a closed pipe: {told(done)}"


def complaints(adactl):
    with tempfile.TemporaryDirectory() as folder:
        yield from commands(adactl, folder)
        yield from names_of_files(adactl, folder)
        yield from no_jobs(adactl)
        yield from files(adactl, folder)
        yield from outputs(adactl, folder)


if __name__ == "__main__":
    sys.exit(tell(complaints(os.path.abspath(sys.argv[1]))))
