#!/usr/bin/env python3
"""What reading and writing a saved text takes, of 16 and of 1,024 rows.

The rows are those of partitions that were stopped at a checkpoint, with counts of several digits. A program over the library
`jb_saved` reads the text 1,000 times, or reads it once and writes its rows 1,000 times: `us` is the processor time of one time, in
microseconds, the least of five runs, less that of a run that reads the text once. 1,024 rows should take about 64 times what 16
take. `python3` is the same by Python's module `json`, which knows no rows and checks none. The program `saved` is no part of the
gate (programs.py), and no number here decides it.
"""
import json
import os
import sys
import tempfile
import time

from measure import measure
from programs import build

ROWS = (16, 1_024)
TIMES = 1_000
RUNS = 5


def saved(rows):
    """Partitions of 39,000 records each, stopped at a checkpoint, with some of each kind of count."""
    row = lambda lo: [lo, lo + 39_000, lo + 12_345, lo + 12_400, 37, 12_100, 12_340, 12_100, 131, 41, 5, 140, 100, 0, 12, "waiting"]
    return {"rows": [row(39_000 * place) for place in range(rows)], "step": "pay", "version": 2}


def least(program, path, way, times):
    """The least processor seconds of some runs."""
    ran = [measure([program, way, str(times)], path) for _ in range(RUNS)]
    if any(status for status, *_ in ran):
        sys.exit(f"{way} of {path} ended with a status that isn't 0")
    return min(cpu for _, _, cpu, _ in ran)


def by_python(work):
    """The least processor seconds of some runs of the work, each so many times."""
    spent = []
    for _ in range(RUNS):
        begun = time.process_time()
        for _ in range(TIMES):
            work()
        spent.append(time.process_time() - begun)
    return min(spent)


def main():
    with tempfile.TemporaryDirectory() as room:
        program = build("saved", room)
        print(f"{'what':<44} {'bytes':>7}  {'jb_saved us':>12} {'python3 us':>12}")
        for rows in ROWS:
            tree = saved(rows)
            text = json.dumps(tree, separators=(",", ":"))
            path = os.path.join(room, f"{rows}.json")
            with open(path, "w", encoding="utf-8") as file:
                file.write(text + "\n")
            once = least(program, path, "read", 1)
            python = {"read": lambda: json.loads(text), "write": lambda: json.dumps(tree, separators=(",", ":"))}
            for way, work in python.items():
                library = (least(program, path, way, TIMES) - once) / TIMES
                name = f"{way} a saved text of {rows} rows"
                print(f"{name:<44} {len(text):>7}  {library * 1e6:>12.1f} {by_python(work) / TIMES * 1e6:>12.1f}", flush=True)


if __name__ == "__main__":
    main()
