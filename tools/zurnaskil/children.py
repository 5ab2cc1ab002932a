"""Programs that a tool runs, each in a process group of its own, which ends with the tool."""
import contextlib
import os
import signal
import subprocess
import sys
import time

LEFT = 5  # seconds in which a group that was asked to end may do so


class Signals:
    """At TERM, HUP and INT the tool ends: at once, or, while a program is being started, as soon as it is known which one has to end too."""

    is_starting, came = False, None

    def get(self, number, _):
        self.came = number
        self.obey()

    def obey(self):
        if self.came and not self.is_starting:
            sys.exit(128 + self.came)


SIGNALS = Signals()


def end_with_signals():
    for number in (signal.SIGTERM, signal.SIGHUP, signal.SIGINT):
        signal.signal(number, SIGNALS.get)


def signal_group(group, number):
    """Signals a process group, if any of it is left."""
    with contextlib.suppress(ProcessLookupError):
        os.killpg(group, number)


def end(child):
    """Asks the group of a child to end, and ends it after a while."""
    asked_at = time.monotonic()
    signal_group(child.pid, signal.SIGTERM)
    while child.poll() is None and time.monotonic() < asked_at + LEFT:
        time.sleep(0.02)
    signal_group(child.pid, signal.SIGKILL)
    child.wait()


@contextlib.contextmanager
def started(words, **how):
    """A program that runs, and of which nothing runs any more at the end."""
    child, SIGNALS.is_starting = None, True
    try:
        child = subprocess.Popen(words, start_new_session=True, **how)
        SIGNALS.is_starting = False
        SIGNALS.obey()
        yield child
    finally:
        SIGNALS.is_starting = False
        if child:
            end(child)


def ran(words, every, tell, **how):
    """The status of a program, run to its end; every so many seconds it is told for how many it has run."""
    began = time.monotonic()
    with started(words, **how) as child:
        while True:
            try:
                return child.wait(every)
            except subprocess.TimeoutExpired:
                tell(round(time.monotonic() - began))
