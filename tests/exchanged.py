#!/usr/bin/env python3
"""Texts made of the programs of tests/ by exchanges, checked and run by a built adactl.

    exchanged.py PATH_OF_ADACTL [--count N] [--seed S]

A text is a program of programs/, texts/, speed/ or examples/ in which one to three things are exchanged: a name, an operator, a literal, a
mode, or an item or a statement of whole lines takes the place of another one of its kind, of the same program or of another; two of the
same program may change places. `check` answers a text with `ok` or with one fault, and `run --steps 10000` tells the same fault, or ends
with one of the other statuses of a run: 0, 1, 3 or 4. The N texts of a seed are always the same ones.

One line for each text that is answered otherwise, with the place where it stands now; the last line is `N passed, M failed`."""
import argparse
import concurrent.futures
import glob
import os
import random
import re
import subprocess
import sys
import tempfile

from answers import FAULTS, LIMIT, tell

HERE = os.path.dirname(os.path.abspath(__file__))

SOURCES = ["programs/*", "texts", "speed", "../examples"]

RESERVED = set(
    """abs access aliased all and begin constant declare else elsif end exception exit for function if in is limited loop mod new not
    null or others out overriding procedure raise record rem return reverse tagged then type use when while with xor""".split()
)

OPERATORS = set("+ - * / & = /= < <= > >= and or xor mod rem".split())

LITERALS = {"null", "true", "false"}

# comments, strings, words and numbers, and delimiters
TOKEN = re.compile(r'--.*|"[^"\n]*"|\w+|=>|:=|/=|>=|<=|\.\.|[^\s\w]')

MODE = re.compile(r"(?<=: )(in out|in|out)\b")

# how the line of an item, or of a component, begins
ITEM = re.compile(r" *(type|procedure|function|overriding|for \w+'|\w+(, \w+)* *:[^=])")

# how a run ends that no fault refuses
ENDED = {0, 1, 3, 4}

KINDS = ["name", "name", "name", "operator", "literal", "mode", "item", "item", "statement"]


def kind_of(token):
    """What is exchanged for tokens like this one, or None."""
    word = token.lower()
    if word in OPERATORS:
        return "operator"
    if word in LITERALS or word[0] in '"0123456789':
        return "literal"
    return "name" if word[0].isalpha() and word not in RESERVED else None


def constructs(text):
    """The places of the items and statements of whole lines: each line that is one, and lines up to an `end` under the first of them."""
    lines = text.splitlines(keepends=True)
    starts = [sum(map(len, lines[:number])) for number in range(len(lines) + 1)]
    for first, line in enumerate(lines):
        margin = re.match(" +(?=[A-Za-z])", line)
        if margin is None:
            continue
        last = first
        if not line.endswith(";\n"):
            ends = (number for number in range(first + 1, len(lines)) if re.match(margin[0] + r"end\b.*;\n", lines[number]))
            last = next(ends, None)
        if last is not None:
            yield starts[first], starts[last + 1]


def places(kind, text):
    """Where the things of one kind stand in a text."""
    if kind in ("item", "statement"):
        return [(start, end) for start, end in constructs(text) if bool(ITEM.match(text, start)) == (kind == "item")]
    if kind == "mode":
        return [found.span() for found in MODE.finditer(text)]
    return [found.span() for found in TOKEN.finditer(text) if kind_of(found[0]) == kind]


def exchange(chance, text, programs):
    """The text with one thing exchanged, where it has one of the kind that chance takes."""
    kind = chance.choice(KINDS)
    other = text if chance.random() < 0.8 else chance.choice(programs)
    here, there = places(kind, text), places(kind, other)
    if not here or not there:
        return text
    (start, end), (first, last) = chance.choice(here), chance.choice(there)
    if other is text and end <= first and chance.random() < 0.5:
        return text[:start] + text[first:last] + text[end:first] + text[start:end] + text[last:]
    return text[:start] + other[first:last] + text[end:]


def programs_here():
    """The programs of which texts are made."""
    paths = sorted(path for source in SOURCES for path in glob.glob(os.path.join(HERE, source, "*.adb")))
    for path in paths:
        with open(path, encoding="latin-1") as file:
            yield file.read()


def exchanged(seed, number, programs):
    """The text with this number of a seed."""
    chance = random.Random(f"{seed} {number}")
    text = chance.choice(programs)
    for _ in range(chance.randint(1, 3)):
        text = exchange(chance, text, programs)
    return text


def asked(adactl, *words):
    """The exit status, the output and the standard error of adactl; a text where it has no end in time."""
    try:
        done = subprocess.run([adactl, *words], stdin=subprocess.DEVNULL, capture_output=True, timeout=LIMIT)
    except subprocess.TimeoutExpired:
        return f"no end in {LIMIT} seconds"
    return done.returncode, done.stdout.decode("latin-1"), done.stderr.decode("latin-1")


def is_refusal(answer):
    """Whether one fault is told, and nothing else."""
    found = re.fullmatch(r"adactl: [1-9]\d*:[1-9]\d*: (\d+) (\w+)\n", answer[2])
    return answer[:2] == (2, "") and found is not None and FAULTS.get(int(found[1])) == found[2]


def complaint(adactl, path, text):
    """What is otherwise in the answers to a text, which stands in this file from then on, or None."""
    with open(path, "w", encoding="latin-1") as file:
        file.write(text)
    checked, run = asked(adactl, "check", path), asked(adactl, "run", path, "--steps", "10000")
    is_as_told = run == checked if is_refusal(checked) else checked == (0, "ok\n", "") and run[0] in ENDED
    if is_as_told:
        os.remove(path)
        return None
    return f"{path}: checked {checked}, run {run}"


def main():
    parser = argparse.ArgumentParser(description=__doc__, formatter_class=argparse.RawDescriptionHelpFormatter)
    parser.add_argument("adactl")
    parser.add_argument("--count", type=int, default=1000)
    parser.add_argument("--seed", default="1")
    words = parser.parse_args()
    adactl, programs = os.path.abspath(words.adactl), list(programs_here())
    folder = tempfile.mkdtemp()

    def told(number):
        return complaint(adactl, os.path.join(folder, f"{number}.adb"), exchanged(words.seed, number, programs))

    with concurrent.futures.ThreadPoolExecutor(os.cpu_count()) as threads:
        status = tell(threads.map(told, range(words.count)))
    if status == 0:
        os.rmdir(folder)
    return status


if __name__ == "__main__":
    sys.exit(main())
