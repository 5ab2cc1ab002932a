"""Runs of the program for `run-job`, one at a time, and the signals that ask for an end."""
import signal
import subprocess
import time

from .job_folder import Ended

REQUESTS = (signal.SIGTERM, signal.SIGINT)
UNHEARD = (*REQUESTS, signal.SIGHUP)  # by the program, which is left to end with its report


class Refused(Exception):
    """The program refuses the document: the word that it was run by, and its line."""

    def __init__(self, word, said):
        super().__init__(word, said)
        self.word, self.said = word, said


def leave_unheard():
    """Of a process that is about to become the program."""
    for number in UNHEARD:
        signal.signal(number, signal.SIG_IGN)


class Runner:
    """Runs the program, in rounds as its pace says, until an end is asked for."""

    def __init__(self, program, pace):
        self.program, self.pace = program, pace
        self.process = None
        self.is_stopping = self.is_interrupted = self.is_measuring = False
        for number in REQUESTS:
            signal.signal(number, self.stop)

    def stop(self, number, _):
        """TERM may come twice, by a scheduler and by a script that passes it on. A second INT is typed, and ends the run at once."""
        is_again = self.is_interrupted and number == signal.SIGINT
        self.is_stopping, self.is_interrupted = True, self.is_interrupted or number == signal.SIGINT
        if self.process is not None and (is_again or self.is_measuring):
            self.process.kill()

    def measure(self, word, content):
        """A run of no round, for what reading and printing takes; a request to end kills it, since nothing is lost by that."""
        self.is_measuring = True
        _, output, seconds = self.ran(word, content, 0)
        self.is_measuring = False
        if not self.is_stopping:
            self.pace.measured(seconds, len(content) + len(output))

    def run(self, word, content):
        """The status and the text of the report, and how many seconds the run took."""
        return self.ran(word, content, self.pace.rounds)

    def ran(self, word, content, rounds):
        """The program has a session of its own and doesn't hear TERM: neither a terminal's signal nor a scheduler's, to all processes of the job,
        reaches it."""
        began = time.monotonic()
        try:
            streams = dict.fromkeys(("stdin", "stdout", "stderr"), subprocess.PIPE)
            words = [self.program, word, "--rounds", str(rounds)]
            self.process = subprocess.Popen(words, start_new_session=True, preexec_fn=leave_unheard, **streams)
        except OSError as fault:
            raise Ended(4, f"{self.program} can't be run: {fault.strerror}; tools/build-program builds it") from None
        output, error = self.process.communicate(content)
        status, said = self.process.returncode, error.decode(errors="replace").strip()
        if status < 0 and self.is_measuring and self.is_stopping:
            return status, output, 0
        if status < 0:
            raise Ended(2 if self.is_stopping else 4, f"signal {-status} ended the program; what it did since the last report is lost")
        if status == 3:
            raise Refused(word, said)
        if status > 2:
            raise Ended(status, said)
        return status, output, time.monotonic() - began
