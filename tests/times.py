#!/usr/bin/env python3
"""How long a built adactl takes to read texts of 0.25, 0.5 and 1 MiB: processor time of `adactl check`, best of five, in seconds.

    times.py PATH_OF_ADACTL

Each text but the blanks is a program of the grammar. `declarations` and `statements` are refused behind it, at a name that nothing
declares; `operators`, `accepted_declarations` and `uses` are accepted. Blanks are no program, and are refused at their end."""
import os
import resource
import sys
import tempfile

from answers import answer

SIZES = [262_144, 524_288, 1_048_576]


def repeated(before, pattern, after, size):
    """The pattern as often as it fits into this size, between the two other parts."""
    count = (size - len(before) - len(after)) // len(pattern)
    return before + pattern * count + after


def declarations(size):
    return repeated("procedure Main is ", "A, B : constant T := 1; ", "begin null; end Main;", size)


def statements(size):
    return repeated("procedure Main is begin ", "A := B (1); ", "end Main;", size)


def operators(size):
    # 250,000 terms at 1 MiB
    terms = 250_000 * size // 1_048_576
    return "procedure Main is X : Integer; begin X := 1" + " + 1" * (terms - 1) + "; end Main;"


def padded(text, size):
    """The text with blanks behind it, up to this size."""
    return text + " " * (size - len(text))


def accepted_declarations(size):
    # 30,000 declarations in one part at 1 MiB
    count = 30_000 * size // 1_048_576
    lines = "".join(f"Declared_Object_{number:06} : Integer;\n" for number in range(count))
    return padded("procedure Main is\n" + lines + "begin\nnull;\nend Main;\n", size)


def uses(size):
    # 60,000 uses of 1,000 objects at 1 MiB, two in a statement
    statements = 60_000 * size // 1_048_576 // 2
    lines = "".join(f"Object_{number:04} : Integer;\n" for number in range(1_000))
    body = "".join(f"Object_{number % 1_000:04} := Object_{(number + 1) % 1_000:04};\n" for number in range(statements))
    return padded("procedure Main is\n" + lines + "begin\n" + body + "end Main;\n", size)


def blanks(size):
    return " " * size


def seconds(adactl, path):
    before = resource.getrusage(resource.RUSAGE_CHILDREN)
    said = answer(adactl, path)
    after = resource.getrusage(resource.RUSAGE_CHILDREN)
    return after.ru_utime + after.ru_stime - before.ru_utime - before.ru_stime, said


def main(adactl):
    with tempfile.TemporaryDirectory() as folder:
        path = os.path.join(folder, "text.adb")
        for make in (declarations, statements, operators, accepted_declarations, uses, blanks):
            for size in SIZES:
                with open(path, "w", encoding="latin-1") as file:
                    file.write(make(size))
                best, said = min(seconds(adactl, path) for _ in range(5))
                print(f"{make.__name__}: {os.path.getsize(path)} bytes, {best:.3f} s, {said}")
    return 0


if __name__ == "__main__":
    sys.exit(main(sys.argv[1]))
