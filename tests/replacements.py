#!/usr/bin/env python3
"""Broken texts against a built adactl: each is answered, and with what may be answered.

    replacements.py PATH_OF_ADACTL [--every]

Each proper prefix of the texts in texts/ is refused with a fault of lexis or grammar, 1 to 13. Each text that has one byte of
texts/finalized_in_reverse.adb replaced is accepted or refused: by a byte of each class of the lexis, or, with --every, by each
of the 255 other bytes. One line for each text that is answered otherwise; the last line is `N passed, M failed`."""
import multiprocessing
import os
import sys
import tempfile

from answers import answer, tell

HERE = os.path.dirname(os.path.abspath(__file__))
TEXTS = ["finalized_in_reverse.adb", "storage_used_again.adb"]

# a blank, each line end, letters, digits, an underscore, each first byte of a delimiter, quotation marks, bytes that begin
# nothing, control bytes, and bytes past ASCII
CLASSES = b" \t\n\r\x0b\x0cazZ09_&'()*+,-./:;<=>|\"!#$%?@[\\]^`{}~\x00\x01\x7f\x80\x85\xff"


def answer_of_text(job):
    adactl, text = job
    with tempfile.NamedTemporaryFile(suffix=".adb", dir="/dev/shm" if os.path.isdir("/dev/shm") else None) as file:
        file.write(text)
        file.flush()
        return answer(adactl, file.name)


def code_of(line):
    parts = line.split(" ")
    return int(parts[2]) if len(parts) == 4 and parts[0] == "adactl:" and parts[2].isdigit() else 0


def is_refused_early(status, line):
    return status == 2 and code_of(line) in (1, 2, 3, 4, 5, 10, 11, 12, 13)


def is_answered(status, line):
    return (status == 0 and not line) or (status == 2 and code_of(line) not in (0, 9))


def jobs(every):
    for name in TEXTS:
        text = read(name)
        for length in range(len(text)):
            yield f"{name}, its first {length} bytes", text[:length], is_refused_early
    text = read(TEXTS[0])
    for place, old in enumerate(text):
        for new in range(256) if every else CLASSES:
            if new != old:
                yield f"{TEXTS[0]}, byte {place} replaced by {new}", text[:place] + bytes([new]) + text[place + 1 :], is_answered


def read(name):
    with open(os.path.join(HERE, "texts", name), "rb") as file:
        return file.read()


def complaints(adactl, every):
    all_jobs = list(jobs(every))
    with multiprocessing.Pool() as pool:
        answers = pool.imap(answer_of_text, ((adactl, text) for _, text, _ in all_jobs), chunksize=64)
        for (title, _, is_good), (status, line) in zip(all_jobs, answers):
            yield None if is_good(status, line) else f"{title}: {status} {line!r}"


if __name__ == "__main__":
    sys.exit(tell(complaints(sys.argv[1], "--every" in sys.argv[2:])))
