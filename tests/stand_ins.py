"""A checkout whose toolchain is a stand-in that proves nothing: `./adactl` and tools/ are those of this repository, the crates are three
empty ones, and what is linked is a built adactl. So what stands around a proof can be tried in seconds."""
import fcntl
import os
import pathlib
import pty
import shutil
import signal
import subprocess
import termios
import time

ROOT = pathlib.Path(__file__).resolve().parent.parent

# how long one call may take, in seconds
LIMIT = 60

# where a machine says which memory it gives in large pages, and what it says
PAGES = "/sys/kernel/mm/transparent_hugepage/enabled"
PAGES_BEFORE = "always [madvise] never\n"

CRATES = {"low": "", "middle": "low", "adactl": "low middle"}

# Each notes its process number. A try takes TRY_SECONDS, fails for TRY_FAILS, and prints TRY_ADDS behind the answer.
RT = """#!/usr/bin/env bash
kit=$(dirname "$0")
echo $$ >> "$kit/processes"
case $1 in
doc) echo "$kit/START-HERE.md"; exit ;;
version) echo "stand-in 1"; exit ;;
esac
shift
folder=$(mktemp -d)
trap 'rm -rf "$folder"; [ -z "${waits:-}" ] || kill "$waits"; exit 143' TERM
while [ $# -gt 0 ] && [ "$1" != -- ]; do
    [ "$1" = --data ] && mkdir -p "$(dirname "$folder/${2%%=*}")" && cp "${2#*=}" "$folder/${2%%=*}"
    shift 2
done
shift
sleep "${TRY_SECONDS:-0}" & waits=$!
echo $waits >> "$kit/processes"
wait $waits
waits=
if [ -n "${TRY_FAILS:-}" ]; then
    echo "checked: no-answer: more than 1 MiB" >&2
    echo "run=no-answer proved=no" >&2
    echo tried >> "$kit/done"
    exit 6
fi
cd "$folder" && "$kit/program" "$@"
status=$?
[ -z "${TRY_ADDS:-}" ] || echo "$TRY_ADDS"
printf 'checked: ended status=%s\\nrun=ended status=%s runners=1 proved=no\\n' $status $status >&2
rm -rf "$folder"
echo tried >> "$kit/done"
exit $status
"""

# A check begins behind as many tries as PROOF_WAITS gives, has no end for the crate PROOF_STOPS, and fails for NOT_PROVED.
RATTLE = """#!/usr/bin/env bash
kit=$(dirname "$0")/..
echo $$ >> "$kit/processes"
crate= out=
while [ $# -gt 0 ]; do
    case $1 in
    --crate-name) crate=$2 ;;
    -o) out=$2 ;;
    esac
    shift
done
touch "$kit/done"
until [ "$(grep -c tried "$kit/done")" -ge "${PROOF_WAITS:-0}" ]; do sleep 0.05; done
[ "$crate" = "${PROOF_STOPS:-}" ] && sleep 1000
echo "said of $crate"
[ "$crate" = "${NOT_PROVED:-}" ] && exit 1
echo "$crate" >> "$kit/done"
echo "$crate" > "$out"
"""

LINK = """#!/usr/bin/env bash
while [ "$1" != -o ]; do shift; done
cp "$(dirname "$0")/../program" "$2"
"""


def write_program(path, text):
    """Writes a script that can be run."""
    path.parent.mkdir(parents=True, exist_ok=True)
    path.write_text(text, encoding="ascii")
    path.chmod(0o755)


class Told:
    """What a call came to: its exit status, its standard output and its standard error."""

    def __init__(self, status, out, err):
        self.status, self.out, self.err = status, out, err


class Checkout:
    """Such a checkout, with its toolchain beside it."""

    def __init__(self, folder, program):
        self.folder, self.kit = pathlib.Path(folder) / "checkout", pathlib.Path(folder) / "kit"
        self.call_file = self.folder / "adactl"
        for name in ("tools", "examples", "docs"):
            shutil.copytree(ROOT / name, self.folder / name, ignore=shutil.ignore_patterns("__pycache__"))
        for name in ("adactl", "README.md", ".gitignore"):
            shutil.copy(ROOT / name, self.folder / name)
        (self.folder / "crates.txt").write_text("".join(f"{name}: {uses}\n" for name, uses in CRATES.items()), encoding="ascii")
        for name in CRATES:
            (self.folder / "crates" / name / "src").mkdir(parents=True)
            (self.folder / "crates" / name / "src" / "lib.rt").write_text("", encoding="ascii")
            shutil.copy(ROOT / "crates" / "adactl" / "README.md", self.folder / "crates" / name / "README.md")
        for name, text in (("rt", RT), ("bin/rattle", RATTLE), ("bin/rattle-link", LINK)):
            write_program(self.kit / name, text)
        shutil.copy(program, self.kit / "program")
        self.pages = self.kit / "pages"
        self.pages.write_text(PAGES_BEFORE, encoding="ascii")
        build = self.folder / "tools" / "build.py"
        build.write_text(build.read_text(encoding="utf-8").replace(PAGES, str(self.pages)), encoding="utf-8")

    def environment(self, **more):
        """The environment of a call, in which the stand-in is the toolchain."""
        return {**os.environ, "PATH": f"{self.kit}:{os.environ['PATH']}", "PYTHONDONTWRITEBYTECODE": "1", **more}

    def done(self):
        """What the stand-in did so far: the crates that were proved, and `tried`."""
        file = self.kit / "done"
        return file.read_text(encoding="ascii").split() if file.is_file() else []

    def are_pages_as_before(self):
        """Whether the file that stands for the machine's setting of large pages says what it said."""
        return self.pages.read_text(encoding="ascii") in (PAGES_BEFORE, "madvise")

    def left(self):
        """The stand-in's processes that still go on, once they had a while to end."""
        numbers = (self.kit / "processes").read_text(encoding="ascii").split()
        ends = time.monotonic() + 5
        while (found := [it for it in numbers if is_alive(it)]) and time.monotonic() < ends:
            time.sleep(0.05)
        return found

    def call(self, *words, **more):
        """Calls `./adactl` with these words, where standard error is no terminal."""
        ran = subprocess.run([self.call_file, *words], env=self.environment(**more), cwd=self.folder, stdin=subprocess.DEVNULL,
                             capture_output=True, timeout=LIMIT, check=False)
        return Told(ran.returncode, ran.stdout.decode(), ran.stderr.decode())

    def begin(self, *words, given=subprocess.DEVNULL, **more):
        """Begins a call of `./adactl` at a terminal, where standard output is a file."""
        return AtTerminal([self.call_file, *words], self.folder, self.environment(**more), given)


def is_alive(number):
    """Whether the process of this number goes on."""
    try:
        state = pathlib.Path(f"/proc/{number}/stat").read_text(encoding="ascii").rpartition(")")[2].split()[0]
    except OSError:
        return False
    return state != "Z"


class AtTerminal:
    """A call whose standard error is a terminal of its own."""

    def __init__(self, words, folder, environment, given):
        self.terminal, there = pty.openpty()
        self.said = b""

        def take_terminal():
            os.setsid()
            fcntl.ioctl(2, termios.TIOCSCTTY, 0)

        self.ran = subprocess.Popen(words, cwd=folder, env=environment, stdin=given, stdout=subprocess.PIPE, stderr=there,
                                    preexec_fn=take_terminal)
        os.close(there)

    def read(self):
        """Reads what the terminal has got since; whether there can be more."""
        try:
            more = os.read(self.terminal, 65536)
        except OSError:
            return False
        self.said += more
        return bool(more)

    def wait_for(self, words):
        """Waits until the terminal shows these words."""
        while words.encode() not in self.said:
            if not self.read():
                raise AssertionError(f"{words!r} is not said, but {self.said.decode()!r}")
        return self

    def interrupt(self):
        """Types Ctrl-C at the terminal."""
        os.write(self.terminal, b"\x03")
        return self

    def end(self):
        """Waits until the call has ended; what it came to."""
        alarm = signal.signal(signal.SIGALRM, lambda *_: self.ran.kill())
        signal.alarm(LIMIT)
        while self.read():
            pass
        out = self.ran.stdout.read()
        status = self.ran.wait()
        signal.alarm(0)
        signal.signal(signal.SIGALRM, alarm)
        os.close(self.terminal)
        return Told(status, out.decode(), self.said.decode().replace("\r\n", "\n"))
