"""Programs that stand in files, with what their runs show, asked of a built adactl.

Beside `NAME.adb` stand its trace, `NAME.trace`, and the choices of that run, `NAME.picks`, where it has any: `2,1`. Where
`NAME.oldest.trace` stands there too, the program is run by the order `oldest` as well, with its choices in `NAME.oldest.picks`. A line of
its first comment, `--steps N`, gives its limit. The exit status, and what standard error says of the end, are those that the last line of
the trace says."""
import os
import re
import subprocess

# how long one run may take, in seconds
LIMIT = 60

# the exit status and the line on standard error by the word behind `end` in the last line of a trace; a name that follows ends the line
ENDS = {"done": (0, None), "raised": (1, "raised"), "stopped": (3, "stopped"), "limit": (4, "step limit")}

# what a trace by each order has before its ending
ORDERS = {"newest": "", "oldest": ".oldest"}

ENDINGS = ["adb", "out", "trace", "picks", "oldest.trace", "oldest.picks"]


def read(path):
    with open(path, "rb") as file:
        return file.read().decode("latin-1")


def programs_of(folder):
    """The paths of all programs in a folder, without their endings."""
    return sorted(os.path.join(folder, name.removesuffix(".adb")) for name in os.listdir(folder) if name.endswith(".adb"))


def strays_of(folder):
    """A complaint for each file of a folder that no program there has."""
    programs = set(programs_of(folder))
    for name in sorted(os.listdir(folder)):
        path = os.path.join(folder, name)
        stem, _, ending = name.partition(".")
        if os.path.isfile(path) and (ending not in ENDINGS or os.path.join(folder, stem) not in programs):
            yield f"{path}: no program has it"


def limit_of(source):
    """The words that give a run its limit of steps, where the first comment has them."""
    comment = re.match(r"(--.*\n)*", source)[0]
    found = re.search(r"--steps (\d+)", comment)
    return ["--steps", found[1]] if found else []


def end_of(trace):
    """The exit status of a run with this trace, and what standard error says of its end."""
    word, *name = trace.splitlines()[-1].split(" ")[1:]
    status, said = ENDS[word]
    return status, "adactl: " + " ".join([said, *name]) + "\n" if said else ""


def picks_of(stem):
    """The line of the choices that are stored there."""
    picks = read(stem + ".picks").strip() if os.path.exists(stem + ".picks") else "none"
    return f"adactl: picks {picks}\n"


def asked(adactl, words, wanted):
    """What differs in the exit status, the output or the standard error of adactl with these words, or None."""
    done = subprocess.run([adactl, *words], stdin=subprocess.DEVNULL, capture_output=True, timeout=LIMIT)
    got = (done.returncode, done.stdout.decode("latin-1"), done.stderr.decode("latin-1"))
    return None if got == wanted else f"{' '.join(words)}: {got}, not {wanted}"


def printed(adactl, stem):
    """What differs in a run of a program from what it is to print, or None."""
    status, end = end_of(read(stem + ".trace"))
    words = ["run", stem + ".adb", *limit_of(read(stem + ".adb"))]
    return asked(adactl, words, (status, read(stem + ".out"), end))


def traced(adactl, stem):
    """For each order by which a program is run, what differs in its trace, its choices or its end, or None."""
    for order, mark in ORDERS.items():
        # each program has a trace by the order newest
        if order == "newest" or os.path.exists(stem + mark + ".trace"):
            trace = read(stem + mark + ".trace")
            status, end = end_of(trace)
            words = ["run", stem + ".adb", "--trace", "--order", order, *limit_of(read(stem + ".adb"))]
            yield asked(adactl, words, (status, trace, picks_of(stem + mark) + end))
