#!/usr/bin/env python3
"""How the time that a built adactl takes grows with its text: each shape of text below at a quarter, half and the whole of 1 MiB.

    scale.py PATH_OF_ADACTL [SHAPE..]

Each text is accepted, and ends by itself in the default limit of steps. It is given to `check` and to `run`. Where the longer of two
texts takes over 0.2 s of processor time, twice the text may take at most 2.6 times as long; and no text may take more than 3 s.
Times that are too long are taken anew, since whatever else runs makes a program slower and never faster.

One line for each text that takes longer or is answered otherwise, with the times of all its lengths; the last line is `N passed, M failed`.
With names of shapes behind the path only these are asked for, and all their times are told."""
import itertools
import os
import resource
import subprocess
import sys
import tempfile
import time

from answers import tell

SIZES = [262_144, 524_288, 1_048_576]

# how much of the time of half a text the whole may take, from which time on in seconds, and what no text may take
MOST_GROWTH, FROM, MOST = 2.6, 0.2, 3.0

# how often a time is taken before it counts as too long, and how long one answer may take, in seconds
TRIES, LIMIT = 10, 60


def filled(size, before, each, after):
    """The parts for the numbers from 1 on, as many as fit into the size, between what stands before and behind them."""
    room, parts = size - len(before) - len(after), []
    for number in itertools.count(1):
        part = each(number)
        room -= len(part)
        if room < 0:
            return before + "".join(parts) + after
        parts.append(part)


def declared(each, context="", before=""):
    """A main procedure with such items."""
    return lambda size: filled(size, f"{context}procedure Main is {before}", each, "begin null; end Main;")


def stated(each, before="", context="", after=""):
    """A main procedure with such statements."""
    return lambda size: filled(size, f"{context}procedure Main is {before}begin ", each, f"{after}end Main;")


def continued(before, each, after, context=""):
    """One construct with parts of such a form."""
    return lambda size: filled(size, f"{context}procedure Main is {before}", each, after)


def paired(size, before, head, middle, tail, after):
    """A text in which each number comes twice: in a head before the middle, and in a tail behind it."""
    room, heads, tails = size - len(before) - len(middle) - len(after), [], []
    for number in itertools.count(1):
        room -= len(head(number)) + len(tail(number))
        if room < 0:
            return before + "".join(heads) + middle + "".join(tails) + after
        heads.append(head(number))
        tails.append(tail(number))


def twice(head, tail, before="", context="", middle="", after="begin null; end Main;"):
    return lambda size: paired(size, f"{context}procedure Main is {before}", head, middle, tail, after)


CONTROLLED = "with Ada.Finalization; use Ada.Finalization; "
FREE = "with Ada.Unchecked_Deallocation; "
POOLS = "with Block_Pools; use Block_Pools; "
TEXT_IO = "with Ada.Text_IO; use Ada.Text_IO; "
RECORD = "type T is record C : Integer; end record; "
LIST = "type N; type L is access N; type N is record C : L; end record; X : L; "

SHAPES = {
    # declarations
    "objects": declared(lambda n: f"X{n} : Integer := {n}; "),
    "names of an object declaration": continued("X", lambda n: f", X{n}", " : Integer; begin null; end Main;"),
    "names of an exception declaration": continued("X", lambda n: f", X{n}", " : exception; begin null; end Main;"),
    "constants of the one before": declared(lambda n: f"X{n} : constant Integer := X{n - 1}; ", before="X0 : constant Integer := 0; "),
    "exceptions": declared(lambda n: f"X{n} : exception; "),
    # record types
    "components": continued("type T is record ", lambda n: f"C{n} : Integer; ", "end record; X : T; begin null; end Main;"),
    "names of a component declaration": continued("type T is record C", lambda n: f", C{n}", " : Integer; end record; begin null; end Main;"),
    "selected components": twice(lambda n: f"C{n} : Integer; ", lambda n: f"X.C{n} := 1; ", before="type T is record ", middle="end record; X : T; begin ", after="end Main;"),
    "components with defaults": continued("type T is record ", lambda n: f"C{n} : Integer := {n}; ", "end record; begin null; end Main;"),
    "record types": declared(lambda n: f"type T{n} is record C : Integer; end record; "),
    "record types with objects": declared(lambda n: f"type T{n} is record C : Integer; end record; X{n} : T{n}; "),
    "records in records": declared(lambda n: f"type T{n} is record C : T{n - 1}; end record; ", before="type T0 is null record; "),
    "records in records with objects": declared(lambda n: f"type T{n} is record C : T{n - 1}; end record; X{n} : T{n}; ", before="type T0 is null record; "),
    "extensions of one type": declared(lambda n: f"type T{n} is new Controlled with null record; ", CONTROLLED),
    "chains of extensions": declared(lambda n: f"type T{n} is new T{n - 1} with null record; ", CONTROLLED, "type T0 is new Controlled with null record; "),
    "chains of extensions with components": declared(lambda n: f"type T{n} is new T{n - 1} with record C{n} : Integer; end record; ", CONTROLLED, "type T0 is new Controlled with null record; "),
    "chains of extensions with objects": declared(lambda n: f"type T{n} is new T{n - 1} with null record; X{n} : T{n}; ", CONTROLLED, "type T0 is new Controlled with null record; "),
    "controlled types with operations": twice(lambda n: f"type T{n} is new Controlled with null record; procedure Finalize (X : in out T{n}); ", lambda n: f"procedure Finalize (X : in out T{n}) is begin null; end Finalize; ", context=CONTROLLED),
    "record types before procedures": twice(lambda n: f"type T{n} is record C : Integer; end record; ", lambda n: f"procedure P{n} is begin null; end P{n}; "),
    "incomplete types": twice(lambda n: f"type T{n}; ", lambda n: f"type T{n} is null record; "),
    # access types
    "access types": declared(lambda n: f"type A{n} is access T; ", before=RECORD),
    "access types with objects": declared(lambda n: f"type A{n} is access T; X{n} : A{n}; ", before=RECORD),
    "access types with allocators": declared(lambda n: f"type A{n} is access T; X{n} : A{n} := new T; ", before=RECORD),
    "access types with a pool": declared(lambda n: f"type A{n} is access T; for A{n}'Storage_Pool use P; ", POOLS, RECORD + "P : Block_Pool (8, 1); "),
    "access types of incomplete types": declared(lambda n: f"type T{n}; type A{n} is access T{n}; type T{n} is record C : A{n}; end record; "),
    "instances": declared(lambda n: f"procedure F{n} is new Ada.Unchecked_Deallocation (T, A); ", FREE, RECORD + "type A is access T; "),
    # subprograms
    "procedures": declared(lambda n: f"procedure P{n} is begin null; end P{n}; "),
    "functions": declared(lambda n: f"function F{n} return Integer is begin return {n}; end F{n}; "),
    "declared procedures": twice(lambda n: f"procedure P{n}; ", lambda n: f"procedure P{n} is begin null; end P{n}; "),
    "declared procedures between objects": twice(lambda n: f"procedure P{n}; X{n} : Integer := {n}; ", lambda n: f"procedure P{n} is begin null; end P{n}; "),
    "formals": continued("procedure P (X0 : Integer", lambda n: f"; X{n} : Integer", ") is begin null; end P; begin null; end Main;"),
    "names of a formal": continued("procedure P (X0", lambda n: f", X{n}", " : Integer) is begin null; end P; begin null; end Main;"),
    "actuals": twice(lambda n: f", X{n}", lambda n: f", {n % 10}", before="procedure P (X0", middle=" : Integer) is begin null; end P; begin P (0", after="); end Main;"),
    # statements
    "assignments": stated(lambda n: f"X := {n}; ", "X : Integer; "),
    "assignments of records": stated(lambda n: "X := Y; ", RECORD + "X, Y : T; "),
    "calls": stated(lambda n: "P; ", "procedure P is begin null; end P; "),
    "blocks": stated(lambda n: f"declare X : Integer := {n}; begin null; end; "),
    "loops": stated(lambda n: "for I in 1 .. 2 loop null; end loop; "),
    "elsifs": continued("X : Integer := 0; begin if X = 1 then null; ", lambda n: f"elsif X = {n} then null; ", "end if; end Main;"),
    "handlers": twice(lambda n: f"E{n} : exception; ", lambda n: f"when E{n} => null; ", middle="begin null; exception ", after="end Main;"),
    "choices of a handler": twice(lambda n: f", E{n}", lambda n: f" | E{n}", before="E0", middle=" : exception; begin null; exception when E0", after=" => null; end Main;"),
    "blocks with handlers": stated(lambda n: "begin null; exception when others => null; end; "),
    # expressions
    "operators": continued("X : Integer := 1; begin X := 1", lambda n: " + X" if n % 2 else " - X", "; end Main;"),
    "conjunctions": continued("X : Boolean := True; begin X := X", lambda n: " and then X", "; end Main;"),
    "concatenations": continued('begin Put_Line ("x"', lambda n: ' & "x"', "); end Main;", TEXT_IO),
    "selectors": continued(LIST + "begin X := new N; X.C := X; X := X", lambda n: ".C", "; end Main;"),
    "dereferences": continued(LIST + "begin X := new N; X.C := X; X := X", lambda n: ".all.C", "; end Main;"),
    "conversions": continued("X : Integer := 0; begin ", lambda n: "X := Integer (X); ", "end Main;"),
    "comments": stated(lambda n: f"--{n}\n", after="null; "),
}


# these still take more than twice the time for twice the text, and are asked for by name alone
NOT_YET = {
    "selected components",
    "chains of extensions with components",
    "controlled types with operations",
    "record types before procedures",
    "access types",
    "access types with objects",
    "access types with allocators",
    "access types with a pool",
    "access types of incomplete types",
    "actuals",
}


def seconds(command):
    """The processor time that a command takes, its status, and the end of what it says on standard error."""
    before = resource.getrusage(resource.RUSAGE_CHILDREN)
    try:
        done = subprocess.run(command, stdin=subprocess.DEVNULL, stdout=subprocess.DEVNULL, stderr=subprocess.PIPE, timeout=LIMIT)
        status, said = done.returncode, done.stderr.decode(errors="replace").splitlines()[-1:]
    except subprocess.TimeoutExpired:
        status, said = None, f"no answer in {LIMIT} seconds"
    after = resource.getrusage(resource.RUSAGE_CHILDREN)
    return after.ru_utime + after.ru_stime - before.ru_utime - before.ru_stime, status, said


def is_too_long(times):
    """Whether one of these times is too long, by itself or for that of half the text."""
    grown = any(whole > FROM and whole > MOST_GROWTH * half for half, whole in zip(times, times[1:]))
    return grown or max(times) > MOST


def measured(commands):
    """The least time of each command, and what is wrong with them: they are taken in rounds, until none is too long."""
    times = [LIMIT] * len(commands)
    for tries in range(TRIES):
        if tries:
            time.sleep(1)
        for place, command in enumerate(commands):
            taken, status, said = seconds(command)
            if status != 0:
                return times, f"{' '.join(command)}: status {status}, {said}"
            times[place] = min(times[place], taken)
        if not is_too_long(times):
            return times, None
    return times, "too long"


def complaints(adactl, names):
    with tempfile.TemporaryDirectory() as folder:
        for name in names or [name for name in SHAPES if name not in NOT_YET]:
            paths = [os.path.join(folder, f"{size}.adb") for size in SIZES]
            for path, size in zip(paths, SIZES):
                with open(path, "w", encoding="ascii") as file:
                    file.write(SHAPES[name](size))
            for job in ("check", "run"):
                times, wrong = measured([[adactl, job, path] for path in paths])
                told = f"{job} of {name}: " + ", ".join(f"{each:.2f}" for each in times) + " s"
                if names:
                    print(told, flush=True)
                yield f"{told}: {wrong}" if wrong else None


if __name__ == "__main__":
    sys.exit(tell(complaints(os.path.abspath(sys.argv[1]), sys.argv[2:])))
