#!/usr/bin/env python3
"""How the program ends where its address space is limited.

    bench/limited.py [--runs N]

Three documents, of three records, of 64 partitions on 64 threads and of 100,000 records, are run under so many limits each, evenly from the
least to 43 MB, where most requests are refused at one time or another, and under as many more up to 8 GB, each by the same factor larger. A
line counts how the runs ended: as without a limit, with status 4 ('no memory' or 'no worker'), by the loader, which had no room to begin, by
SIGSEGV, for want of stack, or otherwise; for the last two it names limits, in bytes. No number here decides the gate. It needs
`prlimit` (util-linux).
"""
import argparse
import collections
import concurrent.futures
import json
import os
import signal
import subprocess
import tempfile

import documents
from measure import PROGRAM, TOP, built

LEAST, DENSE, MOST = 4_000_000, 43_000_000, 8_000_000_000
SHOWN, LONGEST = 5, 60  # limits of a kind; seconds of a run
NO_ROOM = (127, 126)
DOCUMENTS = {
    "three records": lambda: json.load(open(os.path.join(TOP, "examples/three-records.json"), encoding="utf-8")),
    "64 partitions, 64 threads": lambda: documents.threaded(documents.short, 64, 6_400, 10, 64),
    "100,000 records, 8 partitions": lambda: documents.short(100_000, 100),
}


def ended(path, limit=None):
    """How a run ends, as a status and its two streams."""
    words = ["prlimit", f"--as={limit}", "--core=0"] if limit else []
    with open(path, "rb") as given:
        try:
            ran = subprocess.run([*words, PROGRAM, "run"], stdin=given, capture_output=True, timeout=LONGEST)
        except subprocess.TimeoutExpired:
            return None, b"", b""
    return ran.returncode, ran.stdout, ran.stderr


def kind_of(whole, found):
    status, output, error = found
    if found == whole:
        return "as ever"
    if status == 4 and not output and error in (b"no memory\n", b"no worker\n"):
        return "status 4"
    if status == -signal.SIGSEGV and not output:
        return "SIGSEGV"
    return "no loader" if status in NO_ROOM and not output else "otherwise"


def limits_of(runs):
    factor = (MOST / DENSE) ** (1 / max(runs - 1, 1))
    yield from (LEAST + (DENSE - LEAST) * place // runs for place in range(runs))
    yield from (int(DENSE * factor**place) for place in range(runs))


def main():
    parser = argparse.ArgumentParser(description=__doc__, formatter_class=argparse.RawDescriptionHelpFormatter)
    parser.add_argument("--runs", type=int, default=400)
    asked = parser.parse_args()
    built()
    with tempfile.TemporaryDirectory() as room, concurrent.futures.ThreadPoolExecutor(os.cpu_count()) as pool:
        for name, make in DOCUMENTS.items():
            path, places = os.path.join(room, "document.json"), collections.defaultdict(list)
            documents.write_here(path, make)
            whole, limits = ended(path), list(limits_of(asked.runs))
            for limit, found in zip(limits, pool.map(lambda limit: ended(path, limit), limits)):
                places[kind_of(whole, found)].append(limit)
            counts = ", ".join(f"{len(found):,} {kind}" for kind, found in sorted(places.items()))
            shown = [f"{kind} at {', '.join(map(str, places[kind][:SHOWN]))}" for kind in ("SIGSEGV", "otherwise") if places[kind]]
            print(f"{name}: {len(limits):,} runs: {counts}{'; ' if shown else ''}{'; '.join(shown)}", flush=True)


if __name__ == "__main__":
    main()
