#!/usr/bin/env python3
"""What the pages say, looked up in the tree and asked of a built adactl.

    pages.py PATH_OF_ADACTL

Each file, folder and crate that a page of docs/ or a README names is there. Each name in a table, `File.name`, is a definition of a
specs/File.antt, and what the tables of proved.md name is a word of the sources of their crate. No page has more words than LIMITS says. The
texts that subset.md names are cases of tests/legality with the number of their row. The programs that a page names are stored ones, and
those of trace.md and pools.md show what their row says. trace.md has each fault, cause and stop, and each text of it with a mark is told as
its row says, at the mark. performance.md has each loop of tests/speed. The trace of README.md is the stored one.

One line for each that is otherwise; the last line is `N passed, M failed`."""
import glob
import os
import re
import sys
import tempfile

from answers import FAULTS, answer, fault_told, tell
from legality import cases_of
from stored import read

ROOT = os.path.dirname(os.path.dirname(os.path.abspath(__file__)))

PAGES = ["README.md", *sorted(f"docs/{name}" for name in os.listdir(os.path.join(ROOT, "docs")))]
READMES = sorted(os.path.relpath(path, ROOT) for path in glob.glob(os.path.join(ROOT, "crates/*/README.md")))

# the most words of a page, and of all of docs/ but those that are looked up and not read
LIMITS = {"docs/DECISIONS.md": 4_000, "docs/performance.md": 1_500, "docs/proved.md": 4_000}
LOOKED_UP = ["docs/manual.md", "docs/subset.md", "docs/trace.md"]
LIMIT = 30_000

# a name in a page that begins so is that of a file or a folder of the repository
FOLDERS = ("crates/", "docs/", "examples/", "tests/", "tools/", ".ci/")

MARK = "▸"


def codes_of(text):
    """What stands between single quotes of code."""
    return re.findall(r"`([^`\n]+)`", text)


def rows_of(page):
    """The cells of each row of the page's tables."""
    for line in read(page).splitlines():
        if line.startswith("| "):
            yield [cell.strip() for cell in re.split(r"(?<!\\)\|", line)[1:-1]]


def exists(path):
    """Whether there is such a path, in which NAME and NN stand for any name and number."""
    return bool(glob.glob(os.path.join(ROOT, re.sub("NAME|NN_name|NN", "*", path))))


def files_named(page):
    """A complaint for each path of a page, or crate, that is not there, and None for each that is."""
    for code in codes_of(read(os.path.join(ROOT, page))):
        path = code.split(" ")[0].split(":")[0]
        if path.startswith(FOLDERS) or path.endswith(".md"):
            beside = os.path.join(os.path.dirname(page), path)
            yield None if exists(path) or exists(beside) else f"{page}: no file {path}"
        elif re.fullmatch(r"ctl_\w+", path):
            yield None if exists(f"crates/{path}") else f"{page}: no crate {path}"


def definitions():
    """The names that each file of the definitions has, by the file's name."""
    found = {}
    for path in glob.glob(os.path.join(ROOT, "crates/*/specs/*.antt")):
        names = re.findall(r"^(?:unfoldable |abbrev |pub |data |record )*([\w-]+)\b.*?[:{]", read(path), re.MULTILINE)
        found.setdefault(os.path.basename(path).removesuffix(".antt"), set()).update(names)
    return found


def names_in_tables(page, defined):
    """The names `File.name` in the tables of a page; a name alone behind one is of the same file."""
    for cells in rows_of(os.path.join(ROOT, page)):
        for cell in cells:
            file = None
            for code in codes_of(cell):
                named = re.fullmatch(r"([A-Z]\w+)\.([a-z]\w*)", code)
                file, name = named.groups() if named else (file, code)
                if file in defined and re.fullmatch(r"[a-z]\w*", name) and name not in ("rt", "antt"):
                    yield None if name in defined[file] else f"{page}: no {name} in a specs/{file}.antt"


def contracts_named():
    """Whether what the last column of a table of proved.md names is a word of the crate in the first column, or in that of a row above."""
    crate = None
    for cells in rows_of(os.path.join(ROOT, "docs/proved.md")):
        crates = re.findall(r"`(\w+)`", cells[0])
        crate = crates[0] if crates and exists(f"crates/{crates[0]}") else crate
        if crate is None or len(cells) < 3:
            continue
        sources = glob.glob(os.path.join(ROOT, f"crates/{crate}/src/**/*.rt"), recursive=True)
        specs = glob.glob(os.path.join(ROOT, f"crates/{crate}/specs/*.antt"))
        words = {word for path in sources + specs for word in re.findall(r"\w+", read(path))}
        for code in codes_of(cells[-1]):
            if re.fullmatch(r"[\w:]+", code) and not exists(f"crates/{code}"):
                name = code.split("::")[-1]
                yield None if name in words else f"docs/proved.md: no {name} in {crate}"


def words_counted():
    """A complaint for each page, and for the pages together, with too many words."""
    counts = {page: len(read(os.path.join(ROOT, page)).split()) for page in PAGES if page.startswith("docs/")}
    for page, limit in LIMITS.items():
        yield None if counts[page] <= limit else f"{page}: {counts[page]} words, not {limit}"
    total = sum(count for page, count in counts.items() if page not in LOOKED_UP)
    yield None if total <= LIMIT else f"docs: {total} words, not {LIMIT}"


def cases_named():
    """The cases that a row of subset.md names: a file of tests/legality, and words of the case's line."""
    for cells in rows_of(os.path.join(ROOT, "docs/subset.md")):
        for file, words in re.findall(r'`(\w+\.txt)`, "([^"]+)"', cells[-1]):
            if not exists(f"tests/legality/{file}"):
                yield f"docs/subset.md: no file {file}"
                continue
            found = [case for case in cases_of(file) if words in case.name]
            told = [case.fault[0] if case.fault else None for case in found]
            wanted = int(cells[2]) if len(cells) == 5 and cells[2].isdigit() else None
            yield None if told == [wanted] else f"docs/subset.md: {file}, {words!r}: {told}, not one case with {wanted}"


def stem_of(name):
    """The path of the stored program of this name, without its ending."""
    places = ["tests", "tests/programs", "examples", ""]
    found = [os.path.join(ROOT, place, name) for place in places if exists(os.path.join(place, name + ".adb"))]
    return found[0] if found else None


def programs_named(page):
    """The programs that the tables of a page name."""
    for cells in rows_of(os.path.join(ROOT, page)):
        for code in codes_of(cells[-1]):
            if re.fullmatch(r"[a-z_]+(/[a-z_]+){1,2}|[a-z_]+\.adb", code):
                name = code.removesuffix(".adb").removeprefix("examples/")
                yield None if stem_of(name) else f"{page}: no program {code}"


def line_of(page, first):
    """What a line of the trace looks like of which a row speaks, whose first cell is this; None where it speaks of none."""
    code = codes_of(first)
    if re.fullmatch(r"[A-Z_]{4,}", first):
        return rf"end stopped {first}"
    if page != "docs/trace.md" or not code:
        return None
    if re.fullmatch(r"scope|collection|free|assign|failed|subpool", code[0]):
        return rf"finalize \S+ {code[0]}"
    return re.sub(r"[A-Z]{2,}|(?<= [mc])[MC]", r".+", code[0].replace("..", ".+"))


def lines_shown(page):
    """Whether the trace of each program of a row has the line of which the row speaks."""
    for cells in rows_of(os.path.join(ROOT, page)):
        wanted = line_of(page, cells[0])
        stems = [stem_of(code.removesuffix(".adb")) for code in codes_of(cells[-1])] if wanted else []
        for stem in filter(None, stems):
            shown = re.search(rf"^{wanted}$", read(stem + ".trace"), re.MULTILINE)
            yield None if shown else f"{page}: {os.path.relpath(stem, ROOT)} has no line {wanted}"


def faults_told(adactl, folder):
    """Whether each text of trace.md with a mark is told as its row says."""
    path = os.path.join(folder, "main.adb")
    with open(os.path.join(ROOT, "docs/trace.md"), encoding="utf-8") as file:
        rows = re.findall(rf"^\| (\d+) [A-Z_]+ \|.*`([^`]*{MARK}[^`]*)` \|$", file.read(), re.MULTILINE)
    for number, marked in rows:
        before, _, behind = marked.partition(MARK)
        with open(path, "w", encoding="utf-8") as file:
            file.write(before + behind + "\n")
        said = answer(adactl, path)[1]
        wanted = f"adactl: {fault_told(1, len(before) + 1, int(number))}"
        yield None if said == wanted else f"docs/trace.md: {marked!r}: {said!r}, not {wanted!r}"


def words_shown():
    """Whether trace.md has each fault, cause and stop."""
    page = read(os.path.join(ROOT, "docs/trace.md"))
    words = re.findall(r"=> \"(\w+)\"", read(os.path.join(ROOT, "crates/ctl_text/src/words.rt")))
    for row in [f"{number} {name}" for number, name in FAULTS.items()] + words:
        yield None if re.search(rf"^\| `?{row}`? \|", page, re.MULTILINE) else f"docs/trace.md: no row for {row}"


def trace_shown():
    """Whether the trace that README.md has, without its notes, is the stored one."""
    block = re.search(r"Its trace, .*\n\n((?:    .*\n)+)", read(os.path.join(ROOT, "README.md")))
    lines = [re.split(r"  +", line.strip())[0] for line in block[1].splitlines()] if block else []
    stored = read(os.path.join(ROOT, "examples/two_objects.trace")).splitlines()
    yield None if lines == stored else f"README.md: the trace {lines}, not {stored}"


def loops_shown():
    """Whether the table of performance.md has each loop of tests/speed, and no other."""
    rows = re.findall(r"^\| `(\w+)` \| [\d,]+ \|", read(os.path.join(ROOT, "docs/performance.md")), re.MULTILINE)
    loops = sorted(name.removesuffix(".adb") for name in os.listdir(os.path.join(ROOT, "tests/speed")) if name.endswith(".adb"))
    yield None if sorted(rows) == loops else f"docs/performance.md: the loops {rows}, not {loops}"


def complaints(adactl, folder):
    defined = definitions()
    for page in PAGES + READMES:
        yield from files_named(page)
    for page in PAGES:
        yield from names_in_tables(page, defined)
    yield from contracts_named()
    yield from words_counted()
    yield from cases_named()
    for page in ["docs/manual.md", "docs/pools.md", "docs/subset.md", "docs/trace.md"]:
        yield from programs_named(page)
        yield from lines_shown(page)
    yield from words_shown()
    yield from loops_shown()
    yield from faults_told(adactl, folder)
    yield from trace_shown()


def main():
    with tempfile.TemporaryDirectory() as folder:
        return tell(complaints(os.path.abspath(sys.argv[1]), folder))


if __name__ == "__main__":
    sys.exit(main())
