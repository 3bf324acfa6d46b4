"""What a built adactl answers to texts, and how many answers are as they should be."""
import subprocess


# how long one answer may take, in seconds
LIMIT = 60

# the name that each fault has behind its number
FAULTS = {
    1: "BAD_BYTE",
    2: "BAD_NUMBER",
    3: "OPEN_STRING",
    4: "BAD_IDENTIFIER",
    5: "TOO_LONG",
    9: "MEMORY",
    10: "UNEXPECTED",
    11: "TOO_DEEP",
    12: "LEFT_OUT",
    13: "END_NAME",
    20: "UNKNOWN",
    21: "DUPLICATE",
    22: "NO_BODY",
    23: "ORDER",
    24: "ELAB",
    25: "NOT_WITHED",
    26: "LATE_PRIMITIVE",
    30: "TYPE",
    31: "MODE",
    32: "LIMITED",
    33: "OVERRIDE",
    34: "RANGE",
    35: "RETURN",
    36: "POOL",
    37: "SELF_CONTAINED",
    40: "LEVEL",
    41: "SUBPOOL_LEVEL",
}


def fault_told(line, column, number):
    """How a fault is told, with its place, number and name."""
    return f"{line}:{column}: {number} {FAULTS[number]}"


def answer(adactl, path):
    """The exit status of a check of the text in this file, and the last line on standard error. No status where it has no end in time."""
    try:
        done = subprocess.run([adactl, "check", path], stdin=subprocess.DEVNULL, capture_output=True, timeout=LIMIT)
    except subprocess.TimeoutExpired:
        return None, f"no answer in {LIMIT} seconds"
    lines = done.stderr.decode(errors="replace").splitlines()
    return done.returncode, lines[-1] if lines else ""


def tell(complaints):
    """Prints a line for each complaint, where None is an answer as it should be, and then the counts. The exit status."""
    passed = failed = 0
    for complaint in complaints:
        if complaint is None:
            passed += 1
        else:
            failed += 1
            print(complaint)
    print(f"{passed} passed, {failed} failed")
    return 1 if failed else 0
