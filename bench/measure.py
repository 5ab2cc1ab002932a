"""Runs a command on a document and measures it: wall time, processor time and peak memory of that process alone, or its
instructions."""
import multiprocessing
import os
import re
import subprocess
import sys
import time

BENCH = os.path.dirname(os.path.abspath(__file__))
TOP = os.path.dirname(BENCH)
PROGRAM = os.environ.get("BATCHRUN") or os.path.join(TOP, "crates/batchrun/out/batchrun")
PYTHON = [sys.executable, "-c", "import json, sys; sys.stdout.write(json.dumps(json.load(sys.stdin), separators=(',', ':')))"]


def built():
    """Builds the program where it isn't built, unless BATCHRUN names another: ./batchrun does so before its first run."""
    if "BATCHRUN" in os.environ:
        return
    ran = subprocess.run([os.path.join(TOP, "batchrun"), "plan"], input=b'{"counts":[],"threads":1}', stdout=subprocess.DEVNULL)
    if ran.returncode:
        sys.exit("the program isn't built")


def in_a_process(work, *given):
    """Does it in a process of its own: a child's peak memory is never below that of the process that started it."""
    process = multiprocessing.Process(target=work, args=given)
    process.start()
    process.join()
    if process.exitcode:
        sys.exit(f"{work.__name__} failed")


def measure(command, document, stderr=None):
    """Gives (status, wall seconds, processor seconds, peak memory in MB) of one run, whose output goes nowhere; what it says on standard error
    goes where `stderr` says, as for `subprocess`."""
    with open(document, "rb") as given, open(os.devnull, "wb") as taken:
        begun = time.monotonic()
        child = subprocess.Popen(command, stdin=given, stdout=taken, stderr=stderr)
        _, status, used = os.wait4(child.pid, 0)
        wall = time.monotonic() - begun
        child.returncode = os.waitstatus_to_exitcode(status)
    return child.returncode, wall, used.ru_utime + used.ru_stime, used.ru_maxrss / 1024


def instructions(command, document=os.devnull):
    """How many instructions a run takes, all threads together, counted by valgrind's callgrind."""
    counted = ["valgrind", "--tool=callgrind", "--callgrind-out-file=/dev/null", *map(str, command)]
    # Python orders its sets by chance where its seed isn't given.
    seeded = os.environ | {"PYTHONHASHSEED": "0"}
    with open(document, "rb") as given:
        ran = subprocess.run(counted, stdin=given, stdout=subprocess.DEVNULL, stderr=subprocess.PIPE, text=True, check=True, env=seeded)
    return int(re.search(r"Collected : (\d+)", ran.stderr)[1])


def report(rows):
    """Prints measured rows as a table; a row is its name, its document and a list of (what ran, measure's answer)."""
    print(f"{'what':<44} {'input MB':>8}  {'by':<9} {'status':>6} {'wall s':>8} {'cpu s':>8} {'peak MB':>8}")
    for name, document, runs in rows:
        begin = f"{name:<44} {os.path.getsize(document) / 1e6:>8.1f}"
        for by, (status, wall, cpu, peak) in runs:
            print(f"{begin}  {by:<9} {status:>6} {wall:>8.2f} {cpu:>8.2f} {peak:>8.0f}")
            begin = " " * len(begin)
