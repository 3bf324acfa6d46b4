#!/usr/bin/env python3
"""How fast a built adactl runs the loops of `speed/`, beside Lua and CPython where these are found.

    speed.py PATH_OF_ADACTL [--turns N] [--rounds N] [--only WORD] [--page]

Each program has `TURNS` where the number of turns of its loop stands, and does the same in Ada, Lua and Python. One line for each
program and runner: machine instructions a turn, as valgrind counts them (the difference of two runs, and so nothing of what a run
costs once; `-` where valgrind is not found), and seconds for N turns, the best of five rounds or as many as are asked for, in each of
which the runners take turns.

`--page` writes a table of all of this into docs/performance.md, between the lines PAGE, with the commit of the tree and the machine. The
program has to be the one that was built of that commit."""
import argparse
import os
import re
import shutil
import subprocess
import tempfile
import time

HERE = os.path.dirname(os.path.abspath(__file__))
FOLDER = os.path.join(HERE, "speed")
PAGE = os.path.join(os.path.dirname(HERE), "docs", "performance.md")

# the lines of the page around the table
FIRST, LAST = "<!-- written by tests/speed.py --page -->", "<!-- to here -->"

# how many turns the two counted runs have
COUNTED = 20_000, 60_000

STEPS = str(2**63)


def runners(adactl):
    """Each runner that is found: its name, the ending of its programs, and the words around a program."""
    lua = shutil.which("lua5.4") or shutil.which("lua")
    found = [("adactl", ".adb", [adactl, "run"], ["--steps", STEPS])]
    if lua:
        found.append(("Lua", ".lua", [lua], []))
    found.append(("CPython", ".py", [shutil.which("python3.11") or "python3"], []))
    return found


def written(program, ending, turns, folder):
    """The path of a program with so many turns."""
    with open(os.path.join(FOLDER, program + ending), encoding="utf-8") as file:
        text = file.read().replace("TURNS", str(turns))
    path = os.path.join(folder, f"{program}_{turns}{ending}")
    with open(path, "w", encoding="utf-8") as file:
        file.write(text)
    return path


def counted(words):
    """The machine instructions of a run."""
    with tempfile.NamedTemporaryFile() as out:
        done = subprocess.run(
            ["valgrind", "--tool=callgrind", f"--callgrind-out-file={out.name}"] + words, capture_output=True, check=True
        )
    return int(re.search(rb"Collected : (\d+)", done.stderr)[1])


def instructions_a_turn(program, runner, folder):
    if not shutil.which("valgrind"):
        return None
    name, ending, before, behind = runner
    few, many = (counted(before + [written(program, ending, turns, folder)] + behind) for turns in COUNTED)
    return (many - few) / (COUNTED[1] - COUNTED[0])


def seconds(words):
    start = time.perf_counter()
    subprocess.run(words, stdout=subprocess.DEVNULL, stderr=subprocess.DEVNULL, check=True)
    return time.perf_counter() - start


def measure(program, all_runners, turns, rounds, folder):
    """Of each runner the instructions a turn, or None, and the seconds; and prints a line for it."""
    words = [before + [written(program, ending, turns, folder)] + behind for _, ending, before, behind in all_runners]
    taken = [[seconds(run) for run in words] for _ in range(rounds)]
    measured = {}
    for runner, times in zip(all_runners, zip(*taken)):
        count = instructions_a_turn(program, runner, folder)
        measured[runner[0]] = count, min(times)
        print(f"{program:18} {runner[0]:8} {counted_text(count):>7} instructions a turn {min(times):8.3f} s", flush=True)
    return measured


def counted_text(count):
    return "-" if count is None else f"{count:,.0f}"


def said_by(*words):
    """What a command says on one line, or a dash where there is no such command."""
    found = shutil.which(words[0])
    return subprocess.run(words, capture_output=True, text=True, cwd=HERE).stdout.strip() if found else "-"


def machine():
    """The processors and the memory of this machine."""
    with open("/proc/cpuinfo", encoding="utf-8") as file:
        model = re.search(r"model name\s*: (.*)", file.read())
    memory = os.sysconf("SC_PAGE_SIZE") * os.sysconf("SC_PHYS_PAGES") / 2**30
    return f"{os.cpu_count()} processors ({model[1] if model else '-'}), {memory:.0f} GiB"


def page_of(results, turns, rounds):
    """The lines of the page: how this was measured, and a row for each program."""
    names = ["adactl", "Lua", "CPython"]
    changed = " with changes" if said_by("git", "status", "--porcelain", "--untracked-files=no") else ""
    yield f"Commit {said_by('git', 'rev-parse', '--short=8', 'HEAD')}{changed}, {machine()}: instructions a turn, and the seconds of"
    yield f"{turns:,} turns, the best of {rounds} rounds in turn."
    yield ""
    yield "| Loop | " + " | ".join([f"{name}, instructions" for name in names] + [f"{name}, s" for name in names]) + " |"
    yield "|---|" + "---|" * 6
    for program, measured in results.items():
        found = [measured.get(name, (None, None)) for name in names]
        times = ["-" if time is None else f"{time:.3f}" for _, time in found]
        yield f"| `{program}` | " + " | ".join([counted_text(count) for count, _ in found] + times) + " |"


def write_page(lines):
    """Puts these lines into the page, in place of those that stand there."""
    with open(PAGE, encoding="utf-8") as file:
        before, rest = file.read().split(FIRST + "\n")
    behind = rest.split(LAST)[1]
    with open(PAGE, "w", encoding="utf-8") as file:
        file.write("\n".join([before + FIRST, *lines, LAST + behind]))


def main():
    parser = argparse.ArgumentParser(description=__doc__, formatter_class=argparse.RawDescriptionHelpFormatter)
    parser.add_argument("adactl")
    parser.add_argument("--turns", type=int, default=1_000_000)
    parser.add_argument("--rounds", type=int, default=5)
    parser.add_argument("--only", default="")
    parser.add_argument("--page", action="store_true")
    words = parser.parse_args()
    programs = sorted(file.removesuffix(".adb") for file in os.listdir(FOLDER) if file.endswith(".adb"))
    with tempfile.TemporaryDirectory() as folder:
        results = {
            program: measure(program, runners(words.adactl), words.turns, words.rounds, folder)
            for program in programs
            if words.only in program
        }
    if words.page:
        write_page(page_of(results, words.turns, words.rounds))


if __name__ == "__main__":
    main()
