"""The scripts of the gate, before `rt ci` and after it, with how long each takes."""
import contextlib
import dataclasses
import os
import pathlib
import shlex
import shutil
import subprocess
import tempfile
import time

from .. import children

PROGRAM, PAYROLL = "crates/batchrun/out/batchrun", "crates/payroll/out/payroll"
BUILDS = ("", ".by-rattle")  # of a program, by the two compilers
SMALL = "python3 tests/small.py"
PYTHON = pathlib.Path("/usr/bin/python3")
NO_COMPILER = "NO POWER WAS CUT, NO CALL FAILED AND NO REQUEST FOR MEMORY WAS REFUSED: no C compiler (cc) is here"
NO_PYTHON = f"NO SCRIPT WAS RUN BY DEBIAN'S PYTHON: there is no {PYTHON}"


@dataclasses.dataclass(frozen=True)
class Script:
    """A script, its arguments, and what it says is wrong if it fails. One that measures time runs alone."""

    words: str
    fault: str
    alone: bool = False
    needs: str = ""  # a program of Debian's without which it isn't run
    undone: str = ""  # what the last line then says
    quiet: bool = False  # what it prints is shown if it fails
    after: str = ""  # the words of a script that has to end before it begins, as it would wait for what that makes


PAGES = [
    Script("tests/pyflakes", "the Python files by pyflakes", needs="pyflakes3", undone="NO PYTHON FILE WAS READ BY PYFLAKES: no pyflakes3 is here"),
    Script("tests/links", "links between the pages"),
    Script("tests/prose", "sentences of a page (tests/prose)", quiet=True),
    Script("tests/page-numbers", "numbers, names or blocks of code on the pages"),
    Script("tests/turns", "the rule by which must-fail edits take turns"),
]


def of_builds():
    """The scripts that try each build of a program."""
    for build in BUILDS:
        yield Script(f"tests/run-cases {PROGRAM}{build}", "the program on the cases")
        yield Script(f"tests/printed-plans {PROGRAM}{build}", "the program on the plans that it prints")
        yield Script(f"tests/stopped-jobs {PROGRAM}{build}", "the program on jobs that are stopped and restarted")
        yield Script(f"tests/no-worker {PROGRAM}{build}", "the program where no thread can be made")
        yield Script(f"tests/payrolls {PAYROLL}{build}", "the payroll")
        yield Script(f"tests/damaged-files {PAYROLL}{build}", "the payroll on full disks and damaged files")


def of_payroll_builds():
    """The scripts that let everything go wrong around each build of the payroll, with a third of the tries for the second one."""
    for build, few in zip(BUILDS, ("", "--few ")):
        given = f"{few}{PAYROLL}{build}"
        how = {"needs": "cc", "undone": NO_COMPILER}
        yield Script(f"tests/power-cuts --whole {given}", "the payroll when the power is cut", **how)
        yield Script(f"tests/failing-calls --whole {given}", "the payroll when calls go wrong", **how)
        yield Script(f"tests/surroundings --whole --pairs 60 {given}", "the payroll in odd surroundings", **how)


AFTER = [
    Script(SMALL, "the payroll of short slices, which is built with nothing proved"),
    *of_builds(),
    Script(f"tests/damaged-documents {' '.join(PROGRAM + build for build in BUILDS)}", "the program on damaged documents"),
    Script("tests/limited-stack --unproved batchrun", "a program whose stack or address space is limited, or which gets no thread"),
    Script("tests/closed-streams", "the programs with closed streams"),
    Script(f"tests/noticing {PROGRAM}", "a script on what it has to notice"),
    Script("tests/current-build", "./batchrun on sources that change"),
    Script("tests/run-cases tools/answer-words words/help words/unknown", "words that are answered before the program is built"),
    Script(f"tests/answered-words {PROGRAM}", "the program on made-up words, which tools/answer-words answers as it does"),
    Script("tests/run-pace", "the pace of run-job", alone=True),
    Script("tests/replayed-faults", "the faults that run-job works out of reports"),
    Script("tests/tool-limits", "the limits that the tools know"),
    Script("tests/touches", "the files that tools/touches lists"),
    Script("tests/metrics", "the metrics that job-status and report-table write"),
    Script("tests/named-refusals", "the names of refusals in docs/FORMATS.md"),
    Script("tests/document-names", "keys, refusals or statuses in docs/FORMATS.md and the schemas"),
    Script("tests/no-deadlock", "the model of the mailboxes between a caller and its workers", quiet=True),
    Script("tests/counted-definitions", "how much has to be believed, as docs/PROOFS.md has it"),
    Script("tests/trusted-functions", "the C functions that docs/PROOFS.md says are trusted"),
    Script("tests/page-commands", "commands of the pages"),
    Script(f"tests/bounds {PROGRAM}", "what documents take at most", alone=True, after=SMALL),
    Script(f"tests/near-limits {PROGRAM}", "the program near the limits of a step"),
    Script("tests/bench-compiles", "the programs of bench/"),
    Script("tests/new-job", "jobs that tools/new-job makes"),
    Script(f"tests/operating {PAYROLL} {PROGRAM}", "the commands of docs/OPERATING.md"),
    Script("tests/sliced-payrolls", "payrolls by short slices", after=SMALL),
    Script("tests/killed-payrolls --kills 60", "payrolls that are killed", after=SMALL),
    Script("tests/power-cuts", "payrolls whose power is cut", needs="cc", undone=NO_COMPILER, after=SMALL),
    Script("tests/failing-calls", "payrolls whose calls go wrong", needs="cc", undone=NO_COMPILER, after=SMALL),
    Script("tests/surroundings", "payrolls with closed streams, jumping clocks or another run", needs="cc", undone=NO_COMPILER, after=SMALL),
    *of_payroll_builds(),
    Script("tests/refused-memory", "a program or a test of which requests for memory are refused", needs="cc", undone=NO_COMPILER, after=SMALL),
]


def by_debian():
    """The environment of a script: Debian's own Python runs it, as cron does, whichever comes first on the caller's path."""
    return os.environ | ({"PATH": f"{PYTHON.parent}:{os.environ.get('PATH', '')}"} if PYTHON.exists() else {})


class Running:
    """A script that runs, and what it prints."""

    def __init__(self, script, top, stack):
        self.script, self.began, self.printed = script, time.monotonic(), stack.enter_context(tempfile.TemporaryFile())
        streams = {"stdin": subprocess.DEVNULL, "stdout": self.printed, "stderr": subprocess.STDOUT}
        self.child = stack.enter_context(children.started(shlex.split(script.words), cwd=top, env=by_debian(), **streams))

    def end(self):
        """Whether it passed, and its seconds; what it printed is shown."""
        seconds = time.monotonic() - self.began
        self.printed.seek(0)
        text = self.printed.read().decode(errors="replace")
        if not self.script.quiet or self.child.returncode:
            print(text, end="")
        return self.child.returncode == 0, seconds


def ready_of(left, running):
    """The first of these scripts that comes after none of them and of those that run; None if there is none."""
    waited = {one.words for one in [*left, *running]}
    return next((one for one in left if one.after not in waited), None)


class Scripts:
    """Runs scripts, so many at a time, and says of each how long it took, beside what it took before."""

    def __init__(self, top, lanes, kept):
        self.top, self.lanes, self.kept = top, lanes, kept
        self.seconds, self.failed = {}, []
        self.undone = [] if PYTHON.exists() else [NO_PYTHON]

    def run(self, scripts):
        """Runs all of them, also after one that fails: first those that others come after, then the longest. Those that run alone come last, one
        after another. Whether none failed."""
        left = []
        for script in scripts:
            if script.needs and shutil.which(script.needs) is None:
                self.undone.append(script.undone)
            else:
                left.append(script)
        first = {one.after for one in left}
        left.sort(key=lambda one: (one.words not in first, -self.kept.scripts.get(one.words, 0)))
        for lanes, some in ((self.lanes, [one for one in left if not one.alone]), (1, [one for one in left if one.alone])):
            self.run_in(lanes, some)
        return not self.failed

    def run_in(self, lanes, left):
        with contextlib.ExitStack() as stack:
            running = []
            while running or left:
                while len(running) < lanes and (ready := ready_of(left, [one.script for one in running])):
                    left.remove(ready)
                    running.append(Running(ready, self.top, stack))
                time.sleep(0.05)
                for one in [one for one in running if one.child.poll() is not None]:
                    running.remove(one)
                    self.end(one)

    def end(self, one):
        passed, seconds = one.end()
        words = one.script.words
        self.seconds[words] = round(seconds, 1)
        before = f" ({self.kept.scripts[words]:.0f} before)" if words in self.kept.scripts else ""
        print(f"check: {words}: {'passed' if passed else 'FAILED'}, {seconds:.0f} seconds{before}", flush=True)
        if not passed:
            self.failed.append(one.script.fault)
