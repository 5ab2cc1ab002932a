#!/usr/bin/env python3
"""What 10,000 to 1,000,000 events of a repository take, on 1,024 partitions and 64 lanes.

`events/src/main.rt.in` applies them by the library `jb_repo` and asks for a snapshot after each round. The program is no part of
the gate (programs.py). Each row has ten times the events of the one before it and should take about ten times as long, since an event costs
the same however long the history is; the history itself is kept, so the peak memory grows with it. No number here decides
the gate.
"""
import os
import tempfile

from measure import measure, report
from programs import build

SIZES = (10_000, 100_000, 1_000_000)


def main():
    with tempfile.TemporaryDirectory() as room:
        program = build("events", room)
        rows = []
        for size in SIZES:
            path = os.path.join(room, f"{size}.txt")
            with open(path, "w", encoding="utf-8") as file:
                file.write(f"{size}\n")
            rows.append((f"{size:,} events", path, [("jb_repo", measure([program], path))]))
        report(rows)


if __name__ == "__main__":
    main()
