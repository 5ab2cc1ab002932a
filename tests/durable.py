"""What the scripts on the payroll have in common: made-up time sheets with the pay slips that they have, runs of the payroll with the moment at
which one is killed, and what the files of its slices have to keep."""
import contextlib
import csv
import functools
import io
import os
import pathlib
import re
import sqlite3
import subprocess
import sys
import tempfile

TOP = pathlib.Path(__file__).resolve().parent.parent
sys.path.append(str(TOP / "tools"))
from zurnaskil import checkpoints, job_slices as slices

PAYROLL = TOP / "crates" / "payroll" / "out" / "payroll"
JOB_STATUS = TOP / "tools" / "job-status"
TABLE = "CREATE TABLE checkpoint (number INTEGER PRIMARY KEY, saved TEXT NOT NULL, results BLOB NOT NULL, link BLOB NOT NULL) STRICT"
COMPLETED, FAILED, STOPPED, REFUSED, LATER, WORDS = 0, 1, 2, 3, 4, 5  # exit statuses
LONGEST = 120  # seconds of a run
IN_MEMORY = "/dev/shm" if os.access("/dev/shm", os.W_OK) else None  # a run waits for the disk at each checkpoint, and here it needn't
if IN_MEMORY:
    tempfile.tempdir = os.environ["TMPDIR"] = IN_MEMORY  # for copies of files too, and for tools that are run
KNOWN = 256  # lists of checkpoints of which it is known what they say
NAMED = re.compile(rb"[A-Z][A-Za-z]+(\([A-Za-z0-9() ]+\))?: [^\n]+\n")  # the line of a refusal, on standard error
THREADS = [1, 2, 3, 4, 8, 64]
LENGTHS = [254, 255, 256, 509, 510, 511]  # of names, in bytes: about those at which a size takes one byte more


# ---- made-up payrolls


def sheet(chance, number):
    """A time sheet and its pay slip, if it has one. Each name is another, so that a slip that stands twice is seen."""
    name, hours, rate = f"n{number}", chance.randint(0, 200), chance.randint(1, 9_999)
    kind = chance.random()
    if kind < 0.04:
        return f"{name},forty,{rate}", None  # it has no pay slip: skipped
    if kind < 0.06:
        return f"{name},{hours}", None
    if kind > 0.98:
        name = f'"{name}, jr"'
    elif kind > 0.97:
        name = f'"{name}, ""jr"""'
    elif kind > 0.96:
        name = name.ljust(chance.choice(LENGTHS), "x")
    return f"{name},{hours},{rate}", f"{name},{hours * rate}"


class Sheets:
    """The time sheets of a payroll, and of each its pay slip, or None if it has none: both are worked out here, not by the program."""

    def __init__(self, pairs):
        self.pairs = list(pairs)
        self.text = text_of(line for line, _ in self.pairs)
        self.all_slips = text_of(slip for _, slip in self.pairs if slip is not None)

    def __len__(self):
        return len(self.pairs)

    def slips(self, count=None):
        """The pay slips of the first time sheets, as the program writes them."""
        return self.all_slips if count is None else text_of(slip for _, slip in self.pairs[:count] if slip is not None)

    def skips(self, count=None):
        return sum(slip is None for _, slip in self.pairs[:count])

    def lines(self):
        return self.text.splitlines(keepends=True)


def made_up(chance, sheets):
    return Sheets(sheet(chance, number) for number in range(sheets))


def text_of(lines):
    return "".join(f"{line}\n" for line in lines).encode()


# ---- runs


def words_of(program, folder, words, threads):
    return [str(program), "--threads", str(threads), *words, str(folder)]


def environment_of(job):
    """The environment by which the payroll of small.py takes another job: `skip_limit=3` is JOB_SKIP_LIMIT=3."""
    return os.environ | {f"JOB_{name.upper()}": str(value) for name, value in job.items() if value is not None}


def run(program, folder, sheets, *words, threads=2, job=None, **given):
    """A whole run of the payroll, by so many threads; with `job`, of another job."""
    given |= {"env": environment_of(job)} if job else {}
    return subprocess.run(words_of(program, folder, words, threads), input=sheets, capture_output=True, timeout=LONGEST, **given)


@contextlib.contextmanager
def started(program, folder, sheets, *words, threads=2, job=None, output=subprocess.PIPE):
    """A run that was started. The time sheets come from this file: none waits in a pipe."""
    streams = {"stdout": output, "stderr": subprocess.PIPE, "env": environment_of(job or {})}
    with open(sheets, "rb") as given, subprocess.Popen(words_of(program, folder, words, threads), stdin=given, **streams) as child:
        yield child


def killed_run(program, folder, sheets, seconds, *words, **how):
    """A run that is killed after so many seconds, if it hasn't ended by then."""
    with started(program, folder, sheets, *words, **how) as child:
        try:
            output, error = child.communicate(timeout=seconds)
        except subprocess.TimeoutExpired:
            child.kill()
            output, error = child.communicate()
    return subprocess.CompletedProcess(child.args, child.returncode, output, error)


def last_line(done):
    return done.stderr.splitlines(keepends=True)[-1] if done.stderr else b""


def is_refusal(done, slips=b""):
    """Whether it ended with a named refusal, and wrote no more than a front of these pay slips."""
    return done.returncode in (REFUSED, LATER) and slips.startswith(done.stdout) and bool(NAMED.fullmatch(last_line(done)))


def told(done):
    """A run that ended otherwise, on one line."""
    return f"status {done.returncode}, {len(done.stdout)} bytes {done.stdout[:40]!r}, {done.stderr[-240:]!r}"


# ---- what the files keep


def kept_by(file):
    """The checkpoints of a copy of a slice's file and its log: (number, saved, results, link). None of them if there is no table yet."""
    try:
        with checkpoints.refusing(file), checkpoints.opened(str(file)) as base:
            if base.execute("PRAGMA integrity_check").fetchall() != [("ok",)]:
                raise checkpoints.Refused("Damaged", f"{file} isn't sound")
            if base.execute("SELECT count(*) FROM sqlite_master").fetchone() == (0,):
                return []
            return base.execute("SELECT number, CAST(saved AS BLOB), results, link FROM checkpoint ORDER BY number").fetchall()
    except checkpoints.Refused as refused:
        if refused.name in ("NoFile", "Empty"):
            return []
        raise


def kept_in(folder):
    """The checkpoints of each slice of a folder, by its number, as far as it has some."""
    found = {number: kept_by(slices.path_of(folder, number)) for number in slices.numbers_in(folder)} if os.path.isdir(folder) else {}
    return {number: kept for number, kept in found.items() if kept}


def faults_of(folder, before):
    """What a folder keeps after a run, and a line for each thing that is wrong with it. `before`: what it kept before that run."""
    try:
        after = kept_in(folder)
        lines = [line for number, kept in after.items() for line in faults_in(number, kept, before.get(number, []))]
    except checkpoints.Refused as refused:
        return before, [str(refused)]
    return after, lines + [f"slice {number} has no checkpoint any more" for number in before.keys() - after.keys()]


def faults_in(number, kept, before):
    """A line for each thing that is wrong with the checkpoints of a slice."""
    if [place for place, *_ in kept] != list(range(1, len(kept) + 1)):
        yield f"the checkpoints of slice {number} aren't numbered from 1 on"
    if kept[: len(before)] != before:
        yield f"slice {number} had {len(before)} checkpoints, and has others now: {len(kept)}"
    link = checkpoints.NO_LINK
    for place, saved, results, own in kept:
        link = checkpoints.link_of(link, place, saved, results)
        if own != link:
            yield f"checkpoint {place} of slice {number} has another link than it must have"
    try:
        found, is_whole = slice_by(rows_of(kept))
        if found.header["slice"] != number or not is_whole:
            yield f"the results of slice {number} aren't as many packed records as its rows say, or it is another slice"
    except checkpoints.Refused as refused:
        yield f"slice {number}: {refused}"


def rows_of(kept):
    """Of each checkpoint its text and its results."""
    return tuple(row[1:3] for row in kept)


@functools.lru_cache(KNOWN)
def slice_by(rows):
    """The slice that these checkpoints say, and whether it has its results. Most runs end with checkpoints that others had."""
    found = slices.slice_in(rows)
    return found, has_results(found, rows)


def has_results(found, rows):
    """Whether each partition has as many results, over all checkpoints, as its row has written, and each is a packed record."""
    news = [slices.news_of(coded, found.header["partitions"])[1] for _, coded in rows[1:]]
    if any(slices.fields_in(packed) is None for new in news for results, _, _ in new for packed in results):
        return False
    written = [sum(len(new[place][0]) for new in news) for place in range(len(found.rows))]
    are_skips = [len(faults) == row.PROCESS_SKIP for faults, row in zip(found.skips, found.rows)]
    return [row.written for row in found.rows] == written and all(are_skips)


def slips_in(folder):
    """All pay slips that a folder has, slice by slice, as lines of CSV."""
    return b"".join(slips_by(rows_of(kept)) for _, kept in sorted(kept_in(folder).items()))


@functools.lru_cache(KNOWN)
def slips_by(rows):
    """The pay slips of a slice with these checkpoints."""
    return lines_of(map(slices.fields_in, slices.results_in(rows)))


def lines_of(records):
    """The lines of these records, as Python's csv writes them. A byte is a character."""
    text = io.StringIO()
    csv.writer(text, lineterminator="\n").writerows([field.decode("latin-1") for field in fields] for fields in records)
    return text.getvalue().encode("latin-1")


# ---- files that are made here


def remove(file):
    """Removes a slice's file and its log."""
    for part in ("", checkpoints.LOG):
        pathlib.Path(f"{file}{part}").unlink(missing_ok=True)


def make_file(file, kept):
    """A slice's file with these checkpoints, and no log: of each its text and its results. Their numbers and links are as they have to be."""
    remove(file)
    with contextlib.closing(sqlite3.connect(file)) as base:
        base.execute(TABLE)
        link = checkpoints.NO_LINK
        for number, (saved, results) in enumerate(kept, 1):
            link = checkpoints.link_of(link, number, saved, results)
            base.execute("INSERT INTO checkpoint VALUES (?, ?, ?, ?)", (number, saved.decode(), results, link))
        base.commit()


def with_header(kept, **changed):
    """The checkpoints of a slice under a header in which this is another: `slice_length=5`. `digest` may be one of them."""
    tree, lists = slices.header_in(*kept[0]), slices.lists_in(kept[0][1])
    digest = changed.pop("digest", lists[0][0])
    tree |= {name.replace("_", "-"): value for name, value in changed.items()}
    return [(slices.text_of(tree), slices.coded(slices.lists_of_header(tree, digest))), *kept[1:]]


def cut_back(file, most):
    """Takes all checkpoints of a slice but so many away, as an older copy has them."""
    make_file(file, [row[1:3] for row in kept_by(file)][:most])
