"""Programs that a call of `./adactl` starts beside itself, and how they are ended with all that they started."""

import contextlib
import os
import signal
import subprocess
import time

# How long one has to end by itself once it is asked to, in seconds.
GRACE = 15
# How often it is asked whether one has ended, in seconds.
PAUSE = 0.2


class Ended(Exception):
    """A signal ends the call."""

    def __init__(self, number):
        super().__init__(number)
        self.number = number


class Signals:
    """The signals that end a call: the first raises `Ended`, at once or behind what must not be cut off; any further one does nothing."""

    def __init__(self):
        self.is_held, self.first = False, None
        for number in (signal.SIGINT, signal.SIGTERM, signal.SIGHUP):
            signal.signal(number, self.meet)

    def meet(self, number, _frame):
        """Notes the first signal."""
        if self.first is None:
            self.first = number
            if not self.is_held:
                raise Ended(number)

    @contextlib.contextmanager
    def held(self):
        """Keeps a signal from cutting something off."""
        self.is_held = True
        yield
        self.is_held = False
        if self.first is not None:
            raise Ended(self.first)


class Child:
    """A program in a session of its own, so that Ctrl-C at the terminal does not reach it."""

    def __init__(self, words, **how):
        self.ran = subprocess.Popen(words, stdin=subprocess.DEVNULL, start_new_session=True, **how)

    def has_ended(self):
        """Tells whether it has ended by now."""
        return self.ran.poll() is not None

    def wait(self):
        """Waits until it has ended, and gives its exit status."""
        return self.ran.wait()

    def end(self):
        """Asks it and all that it started to end, and ends what is still there after a while."""
        self.ask(signal.SIGTERM)
        try:
            self.ran.wait(GRACE)
        except subprocess.TimeoutExpired:
            pass
        self.ask(signal.SIGKILL)
        self.ran.wait()

    def ask(self, number):
        """Sends a signal to its session, where anything of that is left."""
        with contextlib.suppress(ProcessLookupError):
            os.killpg(self.ran.pid, number)


def first_ended(children):
    """Waits until one of them has ended, and gives that."""
    while True:
        for child in children:
            if child.has_ended():
                return child
        time.sleep(PAUSE)
