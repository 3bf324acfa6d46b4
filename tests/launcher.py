#!/usr/bin/env python3
"""The script `adactl`, its first answer and tools/release, over a toolchain that is a stand-in (`stand_ins.py`): what they say, their
statuses, and that nothing goes on behind them.

    launcher.py PATH_OF_ADACTL

One line for each case that is answered otherwise; the last line is `N passed, M failed`."""
import os
import pathlib
import stat
import subprocess
import sys
import tarfile
import tempfile

from answers import tell
from stand_ins import ROOT, Checkout

EXAMPLE = "examples/two_objects.adb"
RUN = ["run", EXAMPLE, "--trace"]
TRACE = (ROOT / "examples" / "two_objects.trace").read_text(encoding="utf-8")
BEFORE_PROOF = "this answer comes from the sources before their proof was checked here"
SAME = "the proved program gives the same answer"
OTHERWISE = "the proved program answers OTHERWISE"
BUILDING = "adactl: building\n"
GOES_ON = "a later call goes on from there"
PROVED = ["low", "middle", "adactl", "adactl"]


def wrong(name, told, status, out, said, unsaid=()):
    """What is otherwise about a call than it should be, or None."""
    if told.status != status:
        return f"{name}: status {told.status}, not {status}: {told.err!r}"
    if told.out != out:
        return f"{name}: standard output is {told.out!r}"
    missing = [it for it in said if it not in told.err] + [f"not {it}" for it in unsaid if it in told.err]
    return f"{name}: {missing} of {told.err!r}" if missing else None


def left(name, checkout):
    """Whether anything goes on behind a call."""
    found = checkout.left()
    return f"{name}: processes go on: {found}" if found else None


def same_answer(checkout):
    told = checkout.begin(*RUN, PROOF_WAITS="1").end()
    yield wrong("a first answer", told, 0, TRACE, [BEFORE_PROOF, "2 of 2: middle", BUILDING, SAME, "adactl: picks none"])
    yield left("a first answer", checkout)
    told = checkout.begin(*RUN).end()
    yield wrong("the call behind it", told, 0, TRACE, ["adactl: picks none"], [BEFORE_PROOF, "1 of 2"])
    os.utime(checkout.folder / "crates.txt")
    told = checkout.call(*RUN)
    yield wrong("sources that are only newer", told, 0, TRACE, ["2 of 2"], [BUILDING])
    yield None if checkout.done() == ["tried", *PROVED] else f"what was done: {checkout.done()}"


def other_answer(checkout):
    told = checkout.begin(*RUN, PROOF_WAITS="1", TRY_ADDS="more").end()
    yield wrong("another answer", told, 70, TRACE + "more\n", [BEFORE_PROOF, OTHERWISE, "they differ in standard output;"], [SAME])
    yield left("another answer", checkout)


def no_first_answer(checkout):
    told = checkout.begin(*RUN, PROOF_WAITS="1", TRY_FAILS="1").end()
    yield wrong("no first answer", told, 0, TRACE, ["came to no answer", "more than 1 MiB"], [BEFORE_PROOF, SAME])


def proof_first(checkout):
    told = checkout.begin(*RUN, TRY_SECONDS="1000").end()
    yield wrong("a proof that comes first", told, 0, TRACE, [BUILDING], [BEFORE_PROOF, SAME])
    yield left("a proof that comes first", checkout)


def no_terminal(checkout):
    told = checkout.call(*RUN)
    yield wrong("no terminal", told, 0, TRACE, ["1 of 2: low", BUILDING], [BEFORE_PROOF])
    yield None if checkout.done() == PROVED else f"no terminal: what was done: {checkout.done()}"


def proved_only(checkout):
    told = checkout.begin(*RUN, ADACTL_PROVED_ONLY="1").end()
    yield wrong("ADACTL_PROVED_ONLY", told, 0, TRACE, [BUILDING], [BEFORE_PROOF])
    yield None if checkout.done() == PROVED else f"ADACTL_PROVED_ONLY: what was done: {checkout.done()}"


def other_words(checkout):
    """A usage fault, a check, and a text in a file elsewhere, that of a name like one of the crate's, and one from a pipe."""
    (checkout.folder / "crates" / "adactl" / "there.adb").write_text("", encoding="ascii")
    elsewhere = checkout.folder.parent / "elsewhere.adb"
    elsewhere.write_bytes((ROOT / EXAMPLE).read_bytes())
    cases = [([], 64, "", "usage: adactl"), (["check", EXAMPLE], 0, "ok\n", SAME), (["check", "there.adb"], 74, "", "adactl: read failed"),
             (["check", str(elsewhere)], 0, "ok\n", SAME), (["check", "../elsewhere.adb"], 0, "ok\n", SAME)]
    cases += [(["run", "/dev/stdin", "--trace"], 0, TRACE, SAME)]
    for count, (words, status, out, said) in enumerate(cases, 1):
        (checkout.folder / "crates" / "low" / "src" / "lib.rt").write_text(f"{words}", encoding="ascii")
        with open(elsewhere, "rb") as given:
            told = checkout.begin(*words, given=given, PROOF_WAITS=str(count)).end()
        yield wrong(f"{words}", told, status, out, [BEFORE_PROOF, said, SAME])


def interrupted(checkout):
    """Ctrl-C before the answer, behind it and while the program is built; what was proved is not proved again."""
    call = checkout.begin(*RUN, TRY_SECONDS="1000", PROOF_STOPS="middle").wait_for("1 of 2: low").interrupt()
    yield wrong("Ctrl-C before the answer", call.end(), 130, "", [GOES_ON], [BEFORE_PROOF])
    yield left("Ctrl-C before the answer", checkout)
    call = checkout.begin("check", EXAMPLE, PROOF_STOPS="middle").wait_for("1 of 2: low").wait_for("Ctrl-C ends that").interrupt()
    yield wrong("Ctrl-C behind the answer", call.end(), 0, "ok\n", [BEFORE_PROOF, GOES_ON], [SAME])
    yield left("Ctrl-C behind the answer", checkout)
    call = checkout.begin(PROOF_STOPS="adactl").wait_for("adactl: building\r\n").wait_for("Ctrl-C ends that").interrupt()
    yield wrong("Ctrl-C in the build", call.end(), 64, "", ["usage: adactl", GOES_ON])
    yield left("Ctrl-C in the build", checkout)
    yield wrong("the call behind these", checkout.begin(*RUN).end(), 0, TRACE, [])
    crates = [it for it in checkout.done() if it != "tried"]
    yield None if crates == PROVED else f"proved again: {crates}"


def twice_at_once(checkout):
    calls = [checkout.begin(*RUN, PROOF_WAITS="2") for _ in range(2)]
    calls = [it.end() for it in calls]
    for told in calls:
        yield wrong("two calls at once", told, 0, TRACE, [BEFORE_PROOF, SAME])
    waited = [it for it in calls if "waiting for another build" in it.err]
    crates = sorted(it for it in checkout.done() if it != "tried")
    yield None if len(waited) == 1 and crates == sorted(PROVED) else f"two calls at once: {len(waited)} waited, {crates}"


def not_built(checkout):
    told = checkout.begin(*RUN, NOT_PROVED="middle", TRY_SECONDS="1000").end()
    yield wrong("a crate that is not proved", told, 70, "", ["2 of 2: middle is not proved", "said of middle", "was not built"])
    yield left("a crate that is not proved", checkout)
    out = checkout.folder / "crates" / "adactl" / "out"
    out.rename(out.with_name("moved"))
    out.write_text("no folder", encoding="ascii")
    for told in (checkout.begin(*RUN, TRY_SECONDS="1000").end(), checkout.call(*RUN)):
        yield wrong("no place to build", told, 70, "", ["cannot be proved and built in"], [BEFORE_PROOF])
    os.remove(checkout.kit / "rt")
    told = checkout.call(*RUN, PATH="/usr/bin:/bin")
    yield wrong("no toolchain", told, 70, "", ["the command rt of the Rattle toolchain is needed"])


def git(folder, *words):
    """Calls git in a folder."""
    words = ["git", "-c", "user.name=a", "-c", "user.email=a@example.org", *words]
    return subprocess.run(words, cwd=folder, stdout=subprocess.PIPE, check=True).stdout.decode().strip()


def release(checkout):
    """An archive is made of a clean work tree alone; unpacked elsewhere, where there is no toolchain, the program runs."""
    git(checkout.folder, "init", "-q")
    make = [checkout.folder / "tools" / "release", checkout.folder.parent]
    ran = subprocess.run(make, env=checkout.environment(), capture_output=True, check=False)
    yield None if ran.returncode == 1 and b"not that of a commit" in ran.stderr else f"a release of changes: {ran}"
    git(checkout.folder, "add", "-A")
    git(checkout.folder, "commit", "-q", "-m", "all")
    ran = subprocess.run(make, env=checkout.environment(), capture_output=True, check=False)
    if ran.returncode:
        yield f"no release: {ran}"
        return
    commit = git(checkout.folder, "rev-parse", "HEAD")
    top = f"adactl-{commit[:12]}-linux-x86_64"
    with tempfile.TemporaryDirectory() as elsewhere:
        with tarfile.open(checkout.folder.parent / f"{top}.tar.gz") as archive:
            archive.extractall(elsewhere)
        yield from unpacked(pathlib.Path(elsewhere) / top, commit)


def unpacked(folder, commit):
    """What an unpacked archive has, and that it runs."""
    names = {str(it.relative_to(folder)) for it in folder.rglob("*") if it.is_file()}
    for name in ("README.md", "docs/pools.md", "examples/gnat/compare.py", "crates/adactl/README.md", EXAMPLE):
        yield None if name in names else f"a release has no {name}"
    sums = subprocess.run(["sha256sum", "-c", "--quiet", "SHA256SUMS"], cwd=folder, capture_output=True, check=False)
    listed = {it.split("  ")[1] for it in (folder / "SHA256SUMS").read_text(encoding="ascii").splitlines()}
    yield None if sums.returncode == 0 and listed | {"SHA256SUMS"} == names else f"sums of a release: {sums}, {names ^ listed}"
    about = (folder / "RELEASE").read_text(encoding="ascii")
    is_told = f"commit: {commit}\ntoolchain: stand-in 1\nneeds: Linux on x86-64; " in about
    yield None if is_told else f"what a release says of itself: {about}"
    is_program = (folder / "adactl").stat().st_mode & stat.S_IXUSR
    ran = subprocess.run(["./adactl", *RUN], cwd=folder, env={}, stdin=subprocess.DEVNULL, capture_output=True, check=False)
    answered = (ran.returncode, ran.stdout.decode(), ran.stderr) == (0, TRACE, b"adactl: picks none\n")
    yield None if is_program and answered else f"the program of a release: {ran}"


CASES = [same_answer, other_answer, no_first_answer, proof_first, no_terminal, proved_only, other_words, interrupted, twice_at_once, not_built,
         release]


def complaints(program):
    for case in CASES:
        with tempfile.TemporaryDirectory() as folder:
            checkout = Checkout(folder, program)
            yield from case(checkout)
            yield None if checkout.are_pages_as_before() else f"{case.__name__}: large pages are not set back"


if __name__ == "__main__":
    sys.exit(tell(complaints(os.path.abspath(sys.argv[1]))))
