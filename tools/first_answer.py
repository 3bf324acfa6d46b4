#!/usr/bin/env python3
"""Answers a call of `./adactl` before the program is proved on this machine; `./adactl` calls this where that has to be proved and built
and standard error is a terminal.

Two things go on side by side: the program is built without proof and asked (`rt try`), and it is proved and built (tools/build.py), which
leaves the processors to the first. Once it is built, it is asked the same, and the two answers are compared. Where the proof is done
first, or the unproved program comes to no answer, the proved one alone answers. Ctrl-C ends all, with the status of the answer where one
was given; what is proved by then is kept.

    first_answer.py WORD..

The status is that of the answer, or 70 where the program is not built or the two answers differ."""

import contextlib
import os
import pathlib
import signal
import subprocess
import sys
import tempfile

from children import Child, Ended, Signals, first_ended
from copies import Copies
from unproved import Answer, Attempt

ROOT = pathlib.Path(__file__).resolve().parent.parent
CRATE = ROOT / "crates" / "adactl"
PROGRAM = CRATE / "out" / "adactl"
# How the proof is begun: it stands back behind the first answer and all else.
PROOF = ["nice", "-n", "10", sys.executable, "-B", str(ROOT / "tools" / "build.py")]
# The status of a call that fails before the program answers, or whose answers differ.
FAILED = 70
# The status of the program where standard output cannot be written.
WRITE_FAILED = 74


class Unwritten(Exception):
    """Standard output cannot be written."""


def put(descriptor, text):
    """Writes bytes."""
    while text:
        text = text[os.write(descriptor, text):]


def say(line):
    """Says a line on standard error, where there still is one."""
    with contextlib.suppress(OSError):
        put(2, f"adactl: {line}\n".encode())


def tell(answer):
    """Passes an answer on."""
    try:
        put(1, answer.out)
    except OSError as error:
        raise Unwritten from error
    with contextlib.suppress(OSError):
        put(2, answer.err)


def told_first(attempt):
    """Passes on the answer of the unproved program, and says what it is; gives it, or None where there is none."""
    answer, said = attempt.answer()
    if answer is None:
        say(f"the build without proof was asked:\n{said.rstrip()}")
        say("the build without proof came to no answer (it has a minute, and 1 MiB of output): the proved program will answer")
        return None
    tell(answer)
    say("this answer comes from the sources before their proof was checked here. The proof goes on, and then the answer is compared;")
    say(f"Ctrl-C ends that with the answer's status, {answer.status}, and a later call goes on from there")
    return answer


def proved_answer(copies):
    """Asks the proved program."""
    ran = subprocess.run([PROGRAM, *copies.words], cwd=copies.folder, stdin=subprocess.DEVNULL, capture_output=True, check=False)
    return Answer(ran.returncode if ran.returncode >= 0 else 128 - ran.returncode, ran.stdout, ran.stderr)


def compared(first, proved):
    """Says whether the proved program answers what was told before; gives the status of the call."""
    if proved == first:
        say("the proof is checked, and the proved program gives the same answer")
        return first.status
    parts = [name for name, one, other in zip(("exit status", "standard output", "standard error"), first, proved) if one != other]
    say("ERROR: the proved program answers OTHERWISE than the build without proof, whose answer stands above.")
    say(f"ERROR: they differ in {' and '.join(parts)}; the proved program's exit status is {proved.status}. Call again for its answer,")
    say("ERROR: and please report this: the program was built wrong in one of the two ways")
    return FAILED


def answered(copies, proof, attempt, given):
    """Gives the status of the call; notes the first answer among those given."""
    if first_ended([attempt, proof]) is attempt:
        given += [it for it in [told_first(attempt)] if it]
    if proof.wait() or not PROGRAM.is_file():
        return FAILED
    proved = proved_answer(copies)
    if given:
        return compared(given[0], proved)
    tell(proved)
    return proved.status


def answer_first(folder, words):
    """Does what this is for, with a folder for copies; gives the status of the call."""
    say("the program is not proved on this machine yet. A first answer comes from a build without proof, in two to four minutes;")
    say("the proof goes on beside it (ADACTL_PROVED_ONLY=1 waits for that alone)")
    children, given, signals = [], [], Signals()
    try:
        copies = Copies(folder, words, CRATE)
        with signals.held():
            children.append(Child(PROOF, stdout=sys.stderr))
            children.append(Attempt(copies, CRATE))
        return answered(copies, *children, given)
    except Ended as ended:
        say("ended before the proof was done; a later call goes on from there")
        return given[0].status if given and ended.number == signal.SIGINT else 128 + ended.number
    finally:
        signals.is_held = True
        for child in children:
            child.end()


def main(words):
    """Answers the words of a call."""
    try:
        with tempfile.TemporaryDirectory(prefix="adactl-") as folder:
            return answer_first(pathlib.Path(folder), words)
    except Unwritten:
        say("write failed")
        return WRITE_FAILED
    except OSError as error:
        say(f"no answer can be prepared: {error}")
        return FAILED


if __name__ == "__main__":
    sys.exit(main(sys.argv[1:]))
