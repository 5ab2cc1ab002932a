"""Runs of a payroll under hostile-calls.c, which reports its calls of files, streams, clocks and chance, and lets some of them go wrong. Each run
looks at the same clocks and gets the same random bytes, so the calls of one thread are the same in each run."""
import argparse
import collections
import concurrent.futures
import contextlib
import dataclasses
import functools
import os
import pathlib
import random
import re
import struct
import subprocess
import sys
import tempfile

import durable
import small

SOURCE = pathlib.Path(__file__).with_name("hostile-calls.c")
REPORT = struct.Struct("<I12sQqQqIIIi")  # the head of a report
TICK = 600_000_000  # nanoseconds by which each look moves the clock: an interval of a slice takes one round then
CLOCK = 1_700_000_000  # seconds
CHANGING = {"write", "cut", "rename", "unlink", "mkdir", "sync"}  # and an open that makes or empties a file
MADE, EMPTIED = 1, 2  # by an open
LAST = 2**63  # the number of no call
FOLDER, OUTPUT, SKIPPED = "job", "out.csv", "skipped.csv"
TOLD = re.compile(rb"slice (\d+): (\d+) time sheets done")
MOST_LINES = 20  # that are printed
FEW = 3  # with --few there is one try for so many


# ---- calls


@dataclasses.dataclass
class Call:
    """A call as it was made: what it answered, or an errno as a negative number. `node` is the file's number in its file system."""

    number: int
    kind: str
    answer: int
    node: int
    at: int
    descriptor: int
    path: str
    other: str
    written: bytes

    def makes(self):
        return self.kind == "open" and self.at & MADE

    def changes(self):
        """Whether it changed what a disk has, or will have."""
        return self.answer >= 0 and (self.kind in CHANGING or self.kind == "open" and bool(self.at & (MADE | EMPTIED)))

    def tells(self):
        """Whether it wrote on standard error."""
        return self.kind == "print" and self.descriptor == 2


@dataclasses.dataclass
class Hostile:
    """Which calls go wrong, and how: hostile-calls.c says what these are."""

    how: str
    first: int = 1
    last: int = LAST
    kind: str = "*"
    end: str = "*"

    def text(self):
        return f"{self.first} {self.last} {self.kind} {self.end} {self.how}"


@contextlib.contextmanager
def library():
    """The path of hostile-calls.c, compiled."""
    with tempfile.TemporaryDirectory(dir=durable.IN_MEMORY) as room:
        place = os.path.join(room, "hostile-calls.so")
        subprocess.run(["cc", "-O1", "-shared", "-fPIC", "-fno-builtin", "-o", place, SOURCE], check=True)
        yield place


def environment_of(place, *hostile, **more):
    """What makes the library let these calls go wrong, and turns its clocks."""
    wrong = ";".join(each.text() for each in hostile)
    given = {"LD_PRELOAD": place, "TICK": TICK, "CLOCK": CLOCK, "CHANCE": 1} | ({"HOSTILE": wrong} if wrong else {}) | more
    return {name: str(value) for name, value in given.items()}


def calls_in(content):
    """The calls that were reported."""
    at, found = 0, []
    while at < len(content):
        size, kind, number, answer, node, place, *lengths, descriptor = REPORT.unpack_from(content, at)
        parts, begin = [], at + REPORT.size
        for length in lengths:
            parts.append(content[begin : begin + length])
            begin += length
        path, other, written = os.fsdecode(parts[0]), os.fsdecode(parts[1]), parts[2]
        found.append(Call(number, kind.rstrip(b"\0").decode(), answer, node, place, descriptor, path, other, written))
        at += size
    return found


# ---- a payroll


@dataclasses.dataclass
class Payroll:
    """A payroll: its name, its time sheets and its job; whether it writes files or standard output, which files are there before, and its folder."""

    name: str
    sheets: durable.Sheets
    job: dict
    has_files: bool = True
    older: dict = dataclasses.field(default_factory=dict)
    folder: str = FOLDER

    def words(self, program, root):
        files = ["--output", f"{root}/{OUTPUT}", "--skipped", f"{root}/{SKIPPED}"] if self.has_files else []
        return durable.words_of(program, f"{root}/{self.folder}", files, 1)

    @contextlib.contextmanager
    def input(self):
        """Its time sheets as a file: of a pipe, each read may give another part."""
        with tempfile.TemporaryFile(dir=durable.IN_MEMORY) as file:
            file.write(self.sheets.text)
            file.seek(0)
            yield file

    def output(self):
        """What it writes on standard output."""
        return b"" if self.has_files else self.sheets.slips()

    @functools.cached_property
    def files(self):
        """The files that it leaves, by their names."""
        if not self.has_files:
            return {}
        lines = enumerate(self.sheets.lines())
        skipped = [b"%d,%d,no pay slip,%b" % (at, at + 1, line) for at, line in lines if self.sheets.pairs[at][1] is None]
        return {OUTPUT: self.sheets.slips(), SKIPPED: b"".join(skipped)}

    def run(self, program, place, root, *hostile, passed=(), **more):
        """How a run below a root ended, in which these calls go wrong. One that takes too long is killed, and has no status."""
        words, environment = self.words(program, root), durable.environment_of(self.job) | environment_of(place, *hostile, **more)
        with self.input() as sheets:
            streams = {"stdin": sheets, "capture_output": True, "pass_fds": passed}
            try:
                return subprocess.run(words, env=environment, timeout=durable.LONGEST, **streams)
            except subprocess.TimeoutExpired as late:
                return subprocess.CompletedProcess(words, None, late.stdout or b"", late.stderr or b"")

    def reported_run(self, program, place, root, *hostile):
        """The same, and its calls."""
        with tempfile.TemporaryFile(dir=durable.IN_MEMORY) as reports:
            done = self.run(program, place, root, *hostile, CALLS=reports.fileno(), passed=[reports.fileno()])
            reports.seek(0)
            return done, calls_in(reports.read())

    def faults_of_end(self, done, root):
        """A line for each thing that is wrong with a run that should have ended well."""
        if (done.returncode, done.stdout) != (0, self.output()):
            yield durable.told(done)
        found = files_in(root)
        yield from (f"{name} isn't whole" for name, content in self.files.items() if found.get(name) != content)

    def faults_of_told(self, error, kept):
        """A line for each slice of which more was told on standard error than its checkpoints have."""
        length = self.job["slice_length"]
        for number, done in {int(number): int(done) for number, done in TOLD.findall(error)}.items():
            found = done_in(kept, number)
            if found < done - number * length:
                yield f"slice {number}: {done - number * length} records were told, and {found} are there"

    def faults_of_files(self, found, before, has_ended):
        """A line for each file that is neither whole nor as it was before, or isn't whole though its run had ended."""
        for name, content in self.files.items():
            here = found.get(name)
            if here != content and (has_ended or here != before.get(name)):
                yield f"{name} has {'no' if here is None else len(here)} bytes, and must have {len(content)}"


def files_in(root):
    """What the files of a folder have, by their names."""
    return {path.name: path.read_bytes() for path in pathlib.Path(root).iterdir() if path.is_file()}


def done_in(kept, number):
    """How many records of a slice are done by its checkpoints."""
    rows = durable.slice_by(durable.rows_of(kept[number]))[0].rows if number in kept else []
    return sum(row.at - row.lo for row in rows)


def payrolls(seed, is_whole):
    """One in a new folder, and one in a folder that is there, with older files in the place of its own. They go by short slices, or by one slice, as
    the payroll is built."""
    chance = random.Random(seed)
    older = {FOLDER: None, OUTPUT: b"before\n", f"{OUTPUT}.part": chance.randbytes(5_000), SKIPPED: b"", f"{SKIPPED}.part": b"1,2,no pay slip\n"}
    jobs = [{"slice_length": 10, "partitions": 2, "item_count": 2}, {"slice_length": 20, "partitions": 3, "item_count": 5}]
    if is_whole:
        jobs = 2 * [{"slice_length": 100_000}]
    made = [durable.made_up(chance, 3_000 if is_whole else 25) for _ in jobs]
    return Payroll("new", made[0], jobs[0]), Payroll("older", made[1], jobs[1], older=older)


# ---- what the scripts have in common


class Tries:
    """What was tried of a program, and a line for each thing that is otherwise."""

    def __init__(self, program, place, seed):
        self.program, self.library, self.seed = program, place, seed
        self.lines, self.counts = [], collections.Counter()

    def chance(self, name):
        return random.Random(f"{self.seed} {name}")

    def check(self, what, faults):
        self.lines += [f"{what}: {fault}" for fault in faults]

    def end(self, counted, is_enough):
        """Prints what is otherwise, and the counts; ends the script."""
        print(*self.lines[:MOST_LINES], sep="\n", end="\n" if self.lines else "")
        print(f"{counted}; {len(self.lines)} wrong{'' if is_enough else ', TOO FEW'}")
        sys.exit(1 if self.lines or not is_enough else 0)


def parser_of(document):
    """What their command lines have in common."""
    parser = argparse.ArgumentParser(description=document, formatter_class=argparse.RawDescriptionHelpFormatter)
    parser.add_argument("--seed", type=int, default=1, metavar="N")
    parser.add_argument("--only", metavar="NAME")
    parser.add_argument("--whole", action="store_true")
    parser.add_argument("--few", action="store_true")
    parser.add_argument("program", nargs="?")
    return parser


def many(asked, number):
    """So many tries, or a third of them."""
    return number // FEW if asked.few else number


def program_of(asked):
    return os.path.abspath(asked.program) if asked.program else small.built()


def side_by_side(tries):
    """Makes these tries, some at a time."""
    with concurrent.futures.ThreadPoolExecutor(os.cpu_count()) as pool:
        waiting = set()
        for each in tries:
            waiting.add(pool.submit(each))
            if len(waiting) > 2 * os.cpu_count():
                done, waiting = concurrent.futures.wait(waiting, return_when=concurrent.futures.FIRST_COMPLETED)
                for ended in done:
                    ended.result()
        for ended in waiting:
            ended.result()
