#!/usr/bin/env python3
"""The payroll beside programs that do the same: its step in memory, one in Rust over its crate `csv`, two in Python over its module `csv`.

    bench/job.py [--sheets N] [--program PATH] [--plain] [--runs N] [--folder PATH]

Each reads N time sheets (1,000,000 if it isn't given), lines as `N0,37,4512`, and writes their pay slips. `payroll` runs on one thread and
on four, in slices of 100,000 with their checkpoints in files; it is the gate's, or the one that PAYROLL or --program names. `unkept` is one step
of all of them in memory, by the same function, and keeps nothing; programs.py proves and builds it, unless BENCH_BUILT names a folder that has it. `plain Rust`
(job/main.rs) and `Python` (job/plain.py) run on one thread, and keep nothing. `Python, kept` (job/kept.py) keeps each second's work in a file
by `sqlite3`, as `payroll` does. First their pay slips are compared, of the time sheets and of the payroll's stored run; where they differ, the
script ends.

| Column | What it has |
|---|---|
| instructions | for one time sheet, all threads together, by callgrind: the difference of two sizes, so that no start is in it |
| cpu s | user and system, all threads together: the least of some runs, whose output goes to the null device |
| wall s | the least of the same runs |
| peak MB | the most memory held at once (VmHWM), read at each page of the output |
| first byte s | from the start until the first byte of output: the least of some runs |

The two sizes are a twentieth and a tenth of N, up to 50,000 and 100,000; for Python up to 10,000 and 20,000, which callgrind slows down most.
Under callgrind a program works for more seconds, so a little more of its checkpoints is counted.

--plain leaves `payroll` and `unkept` out. --folder says where the files are: on another disk a checkpoint takes another time. The table is Markdown, as
docs/SCALING.md has it. The plain program in Rust needs `cargo` and Debian's librust-csv-dev; the counts need valgrind. No number here
decides the gate.
"""
import argparse
import dataclasses
import glob
import itertools
import os
import re
import shutil
import subprocess
import sys
import tempfile
import time

import csv_program
import programs
from durable import PAYROLL
from measure import BENCH, TOP, instructions, measure

MILLION = 1_000_000
PAGE = 4_096
MOST_COUNTED, MOST_COUNTED_OF_PYTHON = 50_000, 10_000
STORED = os.path.join(TOP, "crates/payroll")


@dataclasses.dataclass
class Job:
    """A program: what it is called, its words, whether the name of a file or folder that isn't there yet goes after them, how many time
    sheets callgrind runs at most."""

    name: str
    words: list
    is_kept: bool = False
    most_counted: int = MOST_COUNTED

    def command(self, files):
        return [*self.words, next(files)] if self.is_kept else self.words


def write_sheets(path, count):
    with open(path, "w", encoding="utf-8") as file:
        file.writelines(f"N{number},{number * 37 % 59 + 1},{number * 7_919 % 8_000 + 1_000}\n" for number in range(count))


def new_files(folder):
    """Names of files or folders that aren't there, since one whose run is completed has its pay slips already. The one before is removed."""
    for number in itertools.count():
        path = os.path.join(folder, f"kept-{number}")
        yield path
        shutil.rmtree(path, ignore_errors=True)
        for part in glob.glob(path + "*"):
            os.unlink(part)


# ---- the programs


def plain_rust(room):
    ran, program = csv_program.cargo("build", room)
    if ran.returncode:
        sys.exit(f"{ran.stderr}the plain program isn't built")
    return program


def on_threads(name, words, is_kept):
    for threads in (1, 4):
        yield Job(f"{name}, {threads} thread{'s' if threads > 1 else ''}", [*words, str(threads)], is_kept)


def jobs_of(asked, room):
    if lacking := csv_program.lacking():
        sys.exit(f"the plain program in Rust needs {lacking}, which isn't here")
    if not asked.plain:
        if not os.access(asked.program, os.X_OK):
            sys.exit(f"no program {asked.program}: tools/build-program payroll builds it")
        yield from on_threads("`payroll`", [os.path.abspath(asked.program), "--threads"], True)
        yield from on_threads("`unkept`", [programs.build("unkept", os.path.join(room, "unkept"))], False)
    python = [sys.executable, "-B"]
    yield Job("plain Rust", [plain_rust(room)])
    yield Job("Python", [*python, os.path.join(BENCH, "job/plain.py")], most_counted=MOST_COUNTED_OF_PYTHON)
    yield Job("Python, kept", [*python, os.path.join(BENCH, "job/kept.py")], True, MOST_COUNTED_OF_PYTHON)


# ---- what is measured


def slips_of(command, sheets):
    with open(sheets, "rb") as given:
        ran = subprocess.run(command, stdin=given, stdout=subprocess.PIPE, stderr=subprocess.DEVNULL)
    if ran.returncode:
        sys.exit(f"{' '.join(command)} ended with status {ran.returncode}")
    return ran.stdout


def compare(jobs, sheets, files):
    """Ends the script where a program's pay slips differ from the first one's, or from those of the stored run."""
    with open(os.path.join(STORED, "stdout"), "rb") as file:
        stored = file.read()
    first = slips_of(jobs[0].command(files), sheets)
    for job in jobs:
        if slips_of(job.command(files), os.path.join(STORED, "stdin")) != stored:
            sys.exit(f"{job.name} doesn't write the pay slips of the stored run")
        if slips_of(job.command(files), sheets) != first:
            sys.exit(f"{job.name} and {jobs[0].name} don't write the same pay slips")


def highest_water(pid):
    """The most memory in MB that a process has held at once so far; 0 if it has ended."""
    with open(f"/proc/{pid}/status", encoding="utf-8") as file:
        found = re.search(r"VmHWM:\s+(\d+) kB", file.read())
    return int(found[1]) / 1024 if found else 0


def watched(command, sheets):
    """Gives (seconds until the first byte of output, peak memory in MB). The pipe has one page, so that the program waits at each page that
    it has written until its memory is read. So the peak has no part of this script's memory, as that of `wait4` has."""
    with open(sheets, "rb") as given:
        begun = time.monotonic()
        with subprocess.Popen(command, stdin=given, stdout=subprocess.PIPE, stderr=subprocess.DEVNULL, bufsize=0, pipesize=PAGE) as child:
            some = child.stdout.read(1)
            first, peak = time.monotonic() - begun, 0
            while some:
                peak = max(peak, highest_water(child.pid))
                some = child.stdout.read(PAGE)
    if child.returncode:
        sys.exit(f"{' '.join(command)} ended with status {child.returncode}")
    return first, peak


def instructions_each(job, asked, files, room):
    least = min(asked.sheets // 20, job.most_counted)
    small, large = (os.path.join(room, f"counted-{count}") for count in (least, 2 * least))
    for path, count in ((small, least), (large, 2 * least)):
        write_sheets(path, count)
    return (instructions(job.command(files), large) - instructions(job.command(files), small)) / least


def cells(job, asked, sheets, files, room):
    yield f"{instructions_each(job, asked, files, room):,.0f}"
    taken = [measure(job.command(files), sheets, subprocess.DEVNULL) for _ in range(asked.runs)]
    if any(status for status, *_ in taken):
        sys.exit(f"{job.name} failed")
    yield f"{min(cpu for _, _, cpu, _ in taken):.2f}"
    yield f"{min(wall for _, wall, _, _ in taken):.2f}"
    seen = [watched(job.command(files), sheets) for _ in range(asked.runs)]
    yield f"{max(peak for _, peak in seen):.1f}"
    yield f"{min(first for first, _ in seen):.3f}"


def main():
    parser = argparse.ArgumentParser(description=__doc__, formatter_class=argparse.RawDescriptionHelpFormatter)
    parser.add_argument("--sheets", type=int, default=MILLION)
    parser.add_argument("--program", default=PAYROLL)
    parser.add_argument("--plain", action="store_true")
    parser.add_argument("--runs", type=int, default=3)
    parser.add_argument("--folder")
    asked = parser.parse_args()
    if asked.sheets < 1_000:
        parser.error("--sheets: at least 1,000, so that a run has more than one page of output")
    with tempfile.TemporaryDirectory(dir=asked.folder) as room:
        sheets, files = os.path.join(room, "sheets"), new_files(room)
        write_sheets(sheets, asked.sheets)
        jobs = [*jobs_of(asked, room)]
        compare(jobs, sheets, files)
        print(f"| {asked.sheets:,} time sheets | instructions | cpu s | wall s | peak MB | first byte s |\n|---|---|---|---|---|---|")
        for job in jobs:
            print(f"| {job.name} |", end="", flush=True)
            for cell in cells(job, asked, sheets, files, room):
                print(f" {cell} |", end="", flush=True)
            print()


if __name__ == "__main__":
    main()
