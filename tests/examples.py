#!/usr/bin/env python3
"""The stored programs of examples/ against a built adactl: each is accepted, what it prints, and its trace, its choices and its end, as
`stored.py` has them.

    examples.py PATH_OF_ADACTL

Beside `NAME.adb` stands what it prints, `NAME.out`. One line for each run that is otherwise; the last line is `N passed, M failed`."""
import os
import sys

from answers import tell
from stored import asked, printed, programs_of, strays_of, traced

EXAMPLES = os.path.join(os.path.dirname(os.path.dirname(os.path.abspath(__file__))), "examples")


def complaints(adactl):
    programs = programs_of(EXAMPLES)
    if not programs:
        yield f"no examples in {EXAMPLES}"
    yield from strays_of(EXAMPLES)
    for stem in programs:
        yield asked(adactl, ["check", stem + ".adb"], (0, "ok\n", ""))
        yield printed(adactl, stem)
        yield from traced(adactl, stem)


if __name__ == "__main__":
    sys.exit(tell(complaints(os.path.abspath(sys.argv[1]))))
