#!/usr/bin/env python3
"""The programs of examples/ under GNAT: each is compiled with the package of this folder, run, and what it prints compared with its `.out`.

    compare.py [NAME | PATH ..]

Without words, each program of examples/ whose run ends by itself and without a stop. A PATH, which ends in `.adb`, is that of any other
program; where no `.out` stands beside it, what it prints is shown. One line for each; the last line counts them. Where there is no gnatmake
it says so, and succeeds. DIFFERS has the programs of which GNAT makes another run, with the reason; they are run too."""
import os
import shutil
import subprocess
import sys
import tempfile

HERE = os.path.dirname(os.path.abspath(__file__))
EXAMPLES = os.path.dirname(HERE)

# seconds for a compilation, and for a run
LIMIT = 60

UNSET = "a component without a default begins with 0 in adactl; in Ada it has any value"
ORDER = "the order of the components is open, and GNAT takes another"
INCOMPLETE = "GNAT 12 finalizes an object whose Initialize or Adjust raised, too"
DIFFERS = {
    "connections": UNSET,
    "family": INCOMPLETE,
    "refused_copy": INCOMPLETE,
    "scoped_locks": ORDER,
    "shared_styles": ORDER,
    "tickets": UNSET,
}


def read(path):
    with open(path, "rb") as file:
        return file.read()


def names_of_all():
    """Those whose trace says that the run was done, or ended by an exception: others are erroneous for Ada, or have no end."""
    for name in sorted(os.listdir(EXAMPLES)):
        if name.endswith(".adb"):
            stem = name.removesuffix(".adb")
            if read(os.path.join(EXAMPLES, stem + ".trace")).splitlines()[-1].split()[1] in (b"done", b"raised"):
                yield stem


def stem_of(word):
    """The path of a program that is named, or whose path is given, without its ending."""
    return os.path.abspath(word.removesuffix(".adb")) if word.endswith(".adb") else os.path.join(EXAMPLES, word)


def printed(stem, folder):
    """What the program prints, or why there is nothing to compare."""
    source = stem + ".adb"
    program = os.path.join(folder, os.path.basename(stem))
    made = subprocess.run(
        ["gnatmake", "-q", "-gnat2012", "-gnatws", f"-I{HERE}", source, "-o", program], cwd=folder, capture_output=True, timeout=LIMIT
    )
    if made.returncode:
        return None, made.stderr.decode(errors="replace").strip()
    done = subprocess.run([program], stdin=subprocess.DEVNULL, capture_output=True, timeout=LIMIT)
    return done.stdout, done.stderr.decode(errors="replace").strip()


def verdict(stem, folder):
    try:
        got, said = printed(stem, folder)
    except subprocess.TimeoutExpired:
        return f"no end in {LIMIT} seconds"
    if got is None:
        return f"not compiled: {said}"
    if not os.path.exists(stem + ".out"):
        return f"printed {got!r}; {said}"
    return "same" if got == read(stem + ".out") else f"printed {got!r}; {said}"


def kind_of(word, stem, said):
    """How what GNAT said of a program is counted."""
    if said == "same":
        return said
    if word in DIFFERS:
        return "known to differ"
    return "different" if os.path.exists(stem + ".out") or not said.startswith("printed") else "shown"


def main(words):
    if shutil.which("gnatmake") is None:
        print("no gnatmake here: nothing is compared")
        return 0
    counts = {"same": 0, "known to differ": 0, "shown": 0, "different": 0}
    with tempfile.TemporaryDirectory() as folder:
        for word in words or names_of_all():
            stem = stem_of(word)
            said = verdict(stem, folder)
            kind = kind_of(word, stem, said)
            counts[kind] += 1
            print(f"{word}: {kind}" + ("" if kind == "same" else f": {DIFFERS.get(word, said)}"))
    print(", ".join(f"{count} {kind}" for kind, count in counts.items()))
    return 1 if counts["different"] else 0


if __name__ == "__main__":
    sys.exit(main(sys.argv[1:]))
