#!/usr/bin/env python3
"""Proves the crates that the program adactl is made of, and builds it; `./adactl` calls this where it has to. Says on standard output how
many of the crates are proved, and how long the rest takes by reckoning; all that the prover says goes to crates/adactl/out/build.log. Ends
with status 1, and the end of that log, where a crate is not proved or the program is not built.

It calls the prover as `rt ci` does: from nothing, and for a library that only states what it proves. Over the libraries that `rt` keeps for
the work on a crate, which hold each proof, a check of one of the last crates takes minutes to read them. Of the crates that can be begun,
that with the longest chain of others behind it comes first, as many side by side as there are processors. A library stays in
crates/adactl/out/rlib, and is used until its sources, or those below it, are others; so does the program. Where this is ended by SIGTERM,
what is proved by then is kept."""

import contextlib
import fcntl
import hashlib
import os
import pathlib
import signal
import subprocess
import sys
import time
from concurrent.futures import FIRST_COMPLETED, ThreadPoolExecutor, wait

ROOT = pathlib.Path(__file__).resolve().parent.parent
PROGRAM = "adactl"
OUT = ROOT / "crates" / PROGRAM / "out"
# Where `rt` lets a crate have files of the prover's.
LIBRARIES = OUT / "rlib"
TARGET = "x86_64-unknown-linux-gnu"
# What a check of a crate reads in its folder.
PARTS = ("src", "specs", "proofs")
# Where a machine says which memory it gives in large pages.
PAGES = pathlib.Path("/sys/kernel/mm/transparent_hugepage/enabled")
# How much memory a check takes at most, in bytes.
CHECK_MEMORY = 4 * 1024**3
# With how many processors a check is still faster than with fewer.
MOST_JOBS = 8
# How many lines of code take as long to prove as it takes to read what stands below a crate.
READING = 300
# A chain of crates is late that takes so many times as long as all that is left would, over all processors.
LATE = 1.6
# How many processors a late crate has at least, though others have them too.
LATE_JOBS = 3
# How many lines of code take as long to prove as it takes to compile and link the program.
BUILDING = 1000
# How many processors a chain of crates uses, one behind the other.
CHAIN_PROCESSORS = 1.35
# What is said of a crate whose library was there before.
THERE = b"its library is there\n"
# Of how many parts of the work one has to be done before the time left is reckoned.
PARTS_OF_WORK = 10
# How many lines of the log are shown where the program is not built.
SHOWN = 20


class Crate:
    """A crate of the repository: the toolchain's libraries and the crates that it names, and all the crates below it."""

    def __init__(self, name, kit, named, below):
        self.name, self.named, self.below = name, named, below
        self.folder = ROOT / "crates" / name
        self.of_kit = ["std", *kit]
        self.library = LIBRARIES / f"{name}.rlib"

    def work(self):
        """Reckons how long a check takes, in lines of code."""
        return READING + sum(it.read_bytes().count(b"\n") for it in (self.folder / "src").rglob("*.rt"))

    def stamp(self, kit, stamps):
        """Answers what tells its library from that of other sources, by those of the crates below, and notes it among them."""
        found = hashlib.sha256(repr((kit, self.name, self.of_kit, [stamps[it.name] for it in self.named])).encode())
        for part in PARTS:
            for file in sorted(it for it in (self.folder / part).rglob("*") if it.is_file()):
                found.update(repr((str(file.relative_to(self.folder)), file.read_bytes())).encode())
        stamps[self.name] = found.hexdigest()
        return stamps[self.name]


def read_crates():
    """Reads crates.txt: gives the crates that the program is made of, each behind those below it."""
    lines = (ROOT / "crates.txt").read_text(encoding="utf-8").splitlines()
    rows = [it.partition("#")[0].partition(":") for it in lines]
    uses = {name.split()[0]: words.split() for name, colon, words in rows if colon}
    found = {}

    def reach(name):
        if name not in found:
            named = [reach(it) for it in uses[name] if it in uses]
            below = {it.name: it for one in named for it in [*one.below, one]}
            found[name] = Crate(name, [it for it in uses[name] if it not in uses], named, [*below.values()])
        return found[name]

    reach(PROGRAM)
    return [*found.values()]


class Kit:
    """The toolchain, and how it is called."""

    def __init__(self):
        page = subprocess.run(["rt", "doc"], stdout=subprocess.PIPE, check=True, text=True).stdout
        self.folder = pathlib.Path(page.strip()).parent
        self.name = subprocess.run(["rt", "version"], stdout=subprocess.PIPE, check=True, text=True).stdout

    def call(self, program, *words, folder):
        """Calls one of its programs in a folder; gives what it says, and whether all was well."""
        words = [str(it) for it in (self.folder / "bin" / program, *words)]
        ran = subprocess.run(words, cwd=folder, stdin=subprocess.DEVNULL, stdout=subprocess.PIPE, stderr=subprocess.STDOUT, check=False)
        return ran.stdout, ran.returncode == 0

    def sources(self, crate):
        """Answers the words that say what a crate is, and what it is checked over."""
        root = "src/main.rt" if crate.name == PROGRAM else "src/lib.rt"
        words = ["--crate-name", crate.name, root, "--links", f"{crate.name}=", "--antt-project", self.folder / "rattle/logic/antt-project.json"]
        for name in crate.of_kit:
            words += ["--extern", f"{name}={self.folder}/rlibs/{name}.rlib"]
        for it in crate.named:
            words += ["--extern", f"{it.name}={it.library}"]
        return [*words, "-L", f"dependency={self.folder}/rlibs", "-L", f"dependency={LIBRARIES}"]

    def check(self, command, crate, jobs, *more):
        """Proves a crate with so many processors, and makes what the command makes of it."""
        proving = ["--logic-built", self.folder / "logic_built", "--jobs", jobs]
        return self.call("rattle", command, *self.sources(crate), *proving, *more, folder=crate.folder)


class Schedule:
    """Which crates are still to be proved, and which is begun next, with how many processors."""

    def __init__(self, crates, processors):
        self.processors = processors
        # The work of a crate and of the longest chain of crates that wait for it.
        self.behind = {}
        for crate in reversed(crates):
            above = [self.behind[it] for it in self.behind if crate in it.named]
            self.behind[crate] = crate.work() + max(above, default=0)
        self.left = sorted(crates, key=lambda it: -self.behind[it])
        self.under_way, self.proved = {}, set()
        self.begun, self.work_done = time.monotonic(), 0

    def is_late(self, crate):
        """Tells whether processors would idle behind a crate: its chain takes longer than all that is left, over all of them."""
        left = sum(it.work() for it in [*self.left, *self.under_way])
        return self.behind[crate] * self.processors > LATE * left

    def begin(self):
        """Takes out the crate that is begun next, and gives it with its share of the processors: of the idle ones, and where it is late of all;
        None where none can be begun."""
        ready = [it for it in self.left if self.proved.issuperset(it.named)]
        if not ready or len(self.under_way) == self.processors:
            return None
        crate, idle = ready[0], max(self.processors - sum(self.under_way.values()), 0)
        least = min(LATE_JOBS, self.processors) if self.is_late(crate) else min(idle, 1)
        if not least:
            return None
        share = min(max(idle // len(ready), least), MOST_JOBS)
        self.left.remove(crate)
        self.under_way[crate] = share
        return crate, share

    def end(self, crate, was_there):
        """Notes that a crate is proved, and whether its library was there before."""
        del self.under_way[crate]
        self.proved.add(crate)
        if not was_there:
            self.work_done += crate.work()

    def time_left(self):
        """Says how long the rest takes, by what was proved since the start; nothing where that was little."""
        under_way = sum(it.work() for it in self.under_way) / 2
        left = sum(it.work() for it in self.left) + under_way
        if not self.work_done or self.work_done * PARTS_OF_WORK < self.work_done + left:
            return ""
        pace = (time.monotonic() - self.begun) / (self.work_done + under_way)
        chain = max((self.behind[it] for it in [*self.left, *self.under_way]), default=0) * self.processors / CHAIN_PROCESSORS
        return f", about {max(1, round(pace * (max(left, chain) + BUILDING) / 60))} min left"


def prove(crate, jobs, kit, stamps):
    """Proves a crate, and makes its library, where it is not there. Gives the crate with what was said, and whether it is proved."""
    stamp, kept = crate.stamp(kit.name, stamps), crate.library.with_suffix(".stamp")
    if kept.is_file() and kept.read_text(encoding="ascii") == stamp:
        return crate, THERE, True
    kept.unlink(missing_ok=True)
    said, is_proved = kit.check("build", crate, jobs, "--statements", "-o", crate.library)
    if is_proved:
        kept.write_text(stamp, encoding="ascii")
    return crate, said, is_proved


def prove_all(schedule, kit, stamps, log):
    """Proves all crates, and tells whether they are; begins no further one where one is not."""
    count, running, is_well = len(schedule.left), set(), True
    with ThreadPoolExecutor(schedule.processors) as pool:
        while True:
            while is_well and (next_one := schedule.begin()):
                running.add(pool.submit(prove, *next_one, kit, stamps))
            if not running:
                return is_well
            ended, running = wait(running, return_when=FIRST_COMPLETED)
            for crate, said, is_proved in (it.result() for it in ended):
                log.write(f"== {crate.name}\n".encode() + said)
                log.flush()
                is_well = is_well and is_proved
                schedule.end(crate, said == THERE)
                more = schedule.time_left() if is_proved else " is not proved"
                print(f"adactl: {len(schedule.proved)} of {count}: {crate.name}{more}", flush=True)


def build(program, processors, kit, log):
    """Proves the program's own crate, compiles the program and links it; tells whether it is built."""
    checked, made, tools = LIBRARIES / "checked", OUT / f"{PROGRAM}.o", ["--toolchain", kit.folder / "toolchain"]
    steps = [
        lambda: kit.check("check", program, min(processors, MOST_JOBS), "-o", checked),
        lambda: kit.call("rattle", "build", *kit.sources(program), "--crate-checked", checked, *tools, "--backend", "llvm", "-o", made,
                         folder=program.folder),
        lambda: kit.call("rattle-link", "--target", TARGET, *tools, "-o", OUT / PROGRAM, made, kit.folder / "c/libos_c.a",
                         kit.folder / "c/liblibc_c.a", folder=program.folder),
    ]
    for step in steps:
        said, is_well = step()
        log.write(said)
        log.flush()
        if not is_well:
            return False
    return True


def build_where_needed(program, processors, kit, stamps, log):
    """Builds the program where it is not the one that was built of these sources; tells whether it is there."""
    built, kept = OUT / PROGRAM, LIBRARIES / f"{PROGRAM}.stamp"
    stamp = program.stamp(kit.name, stamps)
    if built.is_file() and kept.is_file() and kept.read_text(encoding="ascii") == f"{stamp} {sum_of(built)}":
        return True
    print("adactl: building", flush=True)
    kept.unlink(missing_ok=True)
    if not build(program, processors, kit, log):
        return False
    kept.write_text(f"{stamp} {sum_of(built)}", encoding="ascii")
    return True


def sum_of(file):
    """Gives the checksum of a file."""
    return hashlib.sha256(file.read_bytes()).hexdigest()


@contextlib.contextmanager
def log_of_build():
    """Gives the log, empty, once no other build in this checkout goes on."""
    LIBRARIES.mkdir(parents=True, exist_ok=True)
    with open(OUT / "build.log", "ab") as log:
        try:
            fcntl.flock(log, fcntl.LOCK_EX | fcntl.LOCK_NB)
        except BlockingIOError:
            print("adactl: waiting for another build in this checkout", flush=True)
            fcntl.flock(log, fcntl.LOCK_EX)
        log.truncate(0)
        yield log


@contextlib.contextmanager
def large_pages():
    """Asks for large pages for its time, with which provers take a tenth less, and sets back what was set before, also where it is ended by
    SIGTERM. It is a setting of the whole machine: who may not ask for it does without."""
    try:
        before = PAGES.read_text(encoding="ascii").partition("[")[2].partition("]")[0]
    except OSError:
        before = ""
    if not before or not os.access(PAGES, os.W_OK):
        yield
        return

    def ask(word):
        with contextlib.suppress(OSError):
            PAGES.write_text(word, encoding="ascii")

    def end(number, _frame):
        ask(before)
        signal.signal(number, signal.SIG_DFL)
        signal.raise_signal(number)

    ended_by = signal.signal(signal.SIGTERM, end)
    try:
        ask("always")
        yield
    finally:
        ask(before)
        signal.signal(signal.SIGTERM, ended_by)


def free_memory():
    """Gives the free memory, in bytes."""
    with open("/proc/meminfo", encoding="ascii") as file:
        found = [line.split()[1] for line in file if line.startswith("MemAvailable:")]
    return int(found[0]) * 1024


def prove_and_build(log):
    """Proves and builds the program; tells whether it is built."""
    kit, crates = Kit(), read_crates()
    *libraries, program = crates
    processors = max(1, min(len(os.sched_getaffinity(0)), free_memory() // CHECK_MEMORY))
    print(f"adactl: proving the {len(libraries)} libraries of the program, and then building it: twenty minutes to an hour on a new machine"
          " with four processors", flush=True)
    stamps = {}
    return prove_all(Schedule(libraries, processors), kit, stamps, log) and build_where_needed(program, processors, kit, stamps, log)


def main():
    """Proves and builds the program, and says how that went wrong where it did."""
    try:
        with log_of_build() as log, large_pages():
            if prove_and_build(log):
                # It is newer than its sources from now on, so that `./adactl` runs it at once.
                (OUT / PROGRAM).touch()
                return 0
    except OSError as error:
        print(f"adactl: the program cannot be proved and built in {OUT}: {error}", flush=True)
        return 1
    said = (OUT / "build.log").read_text(encoding="utf-8", errors="replace").splitlines()
    print(*said[-SHOWN:], f"adactl: the program was not built: {OUT / 'build.log'} has all that was said", sep="\n", flush=True)
    return 1


if __name__ == "__main__":
    sys.exit(main())
