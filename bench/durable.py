#!/usr/bin/env python3
"""What it costs a run to keep its checkpoints in a file.

    bench/durable.py [--records N] [--runs N] [--threads N..] [--folder PATH]

First a checkpoint by itself: 500 of them, fewer of the largest ones, each with the saved text of eight rows and with results of so many
bytes, by the program `checkpoint`: microseconds of processor time, and of wall time the least and the median, which a busy machine makes many
times longer; and the bytes that FILE has for each at the end. Then a payroll of 1,000,000 time sheets in slices of 100,000, eight partitions
and chunks of 100, with a checkpoint for about each second's work, beside one step of all of them in memory alone, by the program `unkept`, which
is built of the payroll's own function: their pay slips are compared, they take turns, and `cpu s` is the least processor time of some runs of
each, all threads together. `to unkept` is the one by the other. `checkpoints` and `bytes kept` are those of all slices.

The programs are no part of the gate (programs.py); the payroll is the gate's, `crates/payroll/out/payroll`, or the one that PAYROLL names. The
files stand in the temporary folder, or in PATH: on another disk a checkpoint takes another time. No number here decides the gate.
"""
import argparse
import glob
import os
import random
import statistics
import subprocess
import sys
import tempfile

from measure import TOP, measure
from programs import build

sys.path.append(os.path.join(TOP, "tools"))
from zurnaskil import checkpoints

PAYROLL = os.environ.get("PAYROLL") or os.path.join(TOP, "crates/payroll/out/payroll")
MILLION = 1_000_000
TIMES, MOST_BYTES = 500, 100_000_000
BYTES = (100, 2_000, 20_000, 200_000, 2_000_000)
THREADS = (1, 4)


def write_sheets(path, count):
    """Time sheets, of which one in fifty has no pay slip."""
    chance = random.Random(1)
    with open(path, "w", encoding="utf-8") as file:
        for number in range(count):
            hours = "forty" if number % 50 == 7 else chance.randint(0, 200)
            file.write(f"n{number},{hours},{chance.randint(1, 9_999)}\n")


def asked_of(path, question):
    """The number that a database answers, once all of its log is in it."""
    with checkpoints.opened(path) as base:
        return base.execute(question).fetchone()[0]


def bytes_kept(path):
    return asked_of(path, "SELECT page_count * page_size FROM pragma_page_count, pragma_page_size")


def checkpoints_kept(path):
    return asked_of(path, "SELECT count(*) FROM checkpoint")


def print_checkpoints(program, folder):
    print(f"{'bytes of results':>16} {'cpu us':>8} {'least us':>9} {'median us':>10} {'bytes kept':>11}")
    for size in BYTES:
        path = os.path.join(folder, f"{size}.db")
        times = min(TIMES, MOST_BYTES // size)
        with subprocess.Popen([program, path, str(times), str(size)], stdout=subprocess.PIPE) as child:
            taken = sorted(map(int, child.stdout.read().split()))
            _, status, used = os.wait4(child.pid, 0)
            child.returncode = os.waitstatus_to_exitcode(status)
        if child.returncode:
            sys.exit(f"checkpoint ended with status {child.returncode}")
        cpu = (used.ru_utime + used.ru_stime) / times * 1e6
        cells = f"{cpu:>8.0f} {taken[0]:>9} {statistics.median(taken):>10.0f} {bytes_kept(path) // times:>11,}"
        print(f"{size:>16,} {cells}", flush=True)
        for part in (path, path + checkpoints.LOG):
            if os.path.exists(part):
                os.unlink(part)


def slips_of(command, sheets):
    with open(sheets, "rb") as given:
        return subprocess.run(command, stdin=given, stdout=subprocess.PIPE, stderr=subprocess.DEVNULL, check=True).stdout


def cpu_of(command, sheets):
    status, _, cpu, _ = measure(command, sheets)
    if status:
        sys.exit(f"{' '.join(command)} ended with status {status}")
    return cpu


def print_payrolls(unkept, folder, asked):
    sheets = os.path.join(folder, "sheets")
    write_sheets(sheets, asked.records)
    print(f"\n{'':<40} {'unkept cpu s':>13} {'kept cpu s':>11} {'to unkept':>10} {'checkpoints':>12} {'bytes kept':>11}")
    for threads in asked.threads:
        payroll = [PAYROLL, "--threads", str(threads)]
        jobs = [os.path.join(folder, f"{threads}-{run}") for run in range(asked.runs + 1)]
        if slips_of([*payroll, jobs[-1]], sheets) != slips_of([unkept, str(threads)], sheets):
            sys.exit("the payroll and the step in memory don't write the same")
        turns = [(cpu_of([unkept, str(threads)], sheets), cpu_of([*payroll, job], sheets)) for job in jobs[:-1]]
        without, kept = map(min, zip(*turns))
        slices = glob.glob(os.path.join(jobs[0], "slice-*.db"))
        count, size = sum(map(checkpoints_kept, slices)), sum(map(bytes_kept, slices))
        what = f"{asked.records:,} time sheets, {threads} thread{'s' if threads > 1 else ''}"
        print(f"{what:<40} {without:>13.2f} {kept:>11.2f} {kept / without:>10.2f} {count:>12} {size:>11,}", flush=True)


def main():
    parser = argparse.ArgumentParser(description=__doc__, formatter_class=argparse.RawDescriptionHelpFormatter)
    parser.add_argument("--records", type=int, default=MILLION)
    parser.add_argument("--runs", type=int, default=3)
    parser.add_argument("--threads", type=int, nargs="+", default=THREADS, metavar="N")
    parser.add_argument("--folder")
    asked = parser.parse_args()
    with tempfile.TemporaryDirectory(dir=asked.folder) as folder:
        rooms = [os.path.join(folder, name) for name in ("checkpoint", "unkept")]
        for room in rooms:
            os.mkdir(room)
        print_checkpoints(build("checkpoint", rooms[0]), folder)
        print_payrolls(build("unkept", rooms[1]), folder, asked)


if __name__ == "__main__":
    main()
