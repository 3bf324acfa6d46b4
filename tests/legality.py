#!/usr/bin/env python3
"""Texts for every rule of legality, checked by a built adactl.

    legality.py PATH_OF_ADACTL [--only WORD]

`--only` takes the files whose names have this word.

A file `legality/NN_name.txt` has the cases of the rule with the number NN; `pairs.txt` has texts that break two rules at one token, of
which the smaller number is told, and `subset.txt` those of docs/subset.md. A case is a line `-- what it shows`, and its text up to the next such line at a line's beginning. The
mark ▸ stands just before the character where the fault is told, and is no part of the text; a case without a mark is accepted. A fault
with another number than the file's is named first in its line: `-- 30: what it shows`. A case that begins `-- left out: what it shows` is
legal, and is told 12 at its mark, as this version does not run it. A case that begins `-- not yet: what it shows` is one that is still
judged otherwise; where it no longer is, that is told.

A text stands in a frame: all with and use clauses of the library, on one line, and a main procedure. It is the part of
the main procedure and, behind a line `begin`, its statements. Behind a line `[whole]` texts stand as they are; behind
`[framed]` they stand in the frame again.

One line for each case that is judged otherwise; the last line is `N passed, M failed`."""
import argparse
import os
import re
import sys
import tempfile

from answers import answer, fault_told, tell

HERE = os.path.dirname(os.path.abspath(__file__))

# what is said of a text that is accepted
LEGAL = "legal"

MARK = "▸"

NOT_YET = "not yet: "

# what the line of a case begins with whose text breaks no rule and is not run
LEFT_OUT = "left out: "

UNITS = """Ada.Finalization Ada.Text_IO Ada.Unchecked_Deallocation Ada.Unchecked_Deallocate_Subpool System System.Storage_Elements
System.Storage_Pools.Subpools Block_Pools MR_Pools""".split()

GENERICS = ["Ada.Unchecked_Deallocation", "Ada.Unchecked_Deallocate_Subpool"]

CONTEXT = " ".join([f"with {unit};" for unit in UNITS] + [f"use {unit};" for unit in UNITS if unit not in GENERICS])


class Case:
    """A text, and where a fault is told its number, line and column."""

    def __init__(self, file, what, lines, framed):
        self.name = f"{file}: {what}"
        self.is_open = what.startswith(NOT_YET)
        marked = framed_text(lines) if framed else "\n".join(lines) + "\n"
        before, mark, after = marked.partition(MARK)
        self.text = before + after
        number = number_of(file, what.removeprefix(NOT_YET))
        self.fault = (number, before.count("\n") + 1, len(before) - before.rfind("\n")) if mark else None

    def complaint(self, said):
        """What differs in this answer, or None."""
        wanted = LEGAL
        if self.fault is not None:
            number, line, column = self.fault
            wanted = f"adactl: {fault_told(line, column, number)}"
        if self.is_open:
            return f"{self.name}: {said!r}, as it should be" if said == wanted else None
        return None if said == wanted else f"{self.name}: {said!r}, not {wanted!r}"


def number_of(file, what):
    """The number of the fault that the line of a case names, or that its file is named after."""
    if what.startswith(LEFT_OUT):
        return 12
    number = re.match(r"(\d+): ", what) or re.match(r"(\d+)_", file)
    return int(number[1]) if number else None


def framed_text(lines):
    """The lines of a part, and of the statements behind `begin`, as a whole text."""
    statements = [] if "begin" in lines else ["begin", "   null;"]
    return "\n".join([CONTEXT, "procedure Main is"] + lines + statements + ["end Main;"]) + "\n"


def cases_of(file):
    """The cases of one file."""
    framed, what, lines = True, None, []
    with open(os.path.join(HERE, "legality", file), encoding="utf-8") as opened:
        for line in opened.read().splitlines() + ["-- "]:
            is_frame = line in ("[whole]", "[framed]")
            if line.startswith("-- ") or is_frame:
                if what is not None:
                    yield Case(file, what, lines, framed)
                what, lines = (None, []) if is_frame else (line[3:], [])
                framed = line == "[framed]" if is_frame else framed
            elif line.strip():
                lines.append(line)


def verdict(adactl, path, text):
    """What adactl says of a text, which it reads from this file: LEGAL, or the fault."""
    with open(path, "w", encoding="utf-8") as file:
        file.write(text)
    status, said = answer(adactl, path)
    return LEGAL if status == 0 else said


def main():
    parser = argparse.ArgumentParser(description=__doc__, formatter_class=argparse.RawDescriptionHelpFormatter)
    parser.add_argument("adactl")
    parser.add_argument("--only", default="")
    words = parser.parse_args()
    files = sorted(file for file in os.listdir(os.path.join(HERE, "legality")) if words.only in file)
    with tempfile.TemporaryDirectory() as folder:
        path = os.path.join(folder, "main.adb")
        cases = (case for file in files for case in cases_of(file))
        return tell(case.complaint(verdict(words.adactl, path, case.text)) for case in cases)


if __name__ == "__main__":
    sys.exit(main())
