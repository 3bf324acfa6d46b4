#!/usr/bin/env python3
"""The stored programs of programs/ against a built adactl: the trace of each, its choices and its end, as `stored.py` has them.

    programs.py PATH_OF_ADACTL [WORD]

A folder of programs/ is a subject, and the first comment of each program says what it shows. With WORD, only programs whose paths have it
are run. One line for each run that is otherwise; the last line is `N passed, M failed`."""
import os
import sys

from answers import tell
from stored import programs_of, strays_of, traced

PROGRAMS = os.path.join(os.path.dirname(os.path.abspath(__file__)), "programs")


def complaints(adactl, word):
    subjects = [os.path.join(PROGRAMS, subject) for subject in sorted(os.listdir(PROGRAMS))]
    programs = [stem for subject in subjects for stem in programs_of(subject) if word in os.path.relpath(stem, PROGRAMS)]
    if not programs:
        yield f"no such programs in {PROGRAMS}"
    for subject in subjects:
        yield from strays_of(subject)
    for stem in programs:
        yield from traced(adactl, stem)


if __name__ == "__main__":
    sys.exit(tell(complaints(os.path.abspath(sys.argv[1]), sys.argv[2] if len(sys.argv) > 2 else "")))
