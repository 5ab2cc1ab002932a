#!/usr/bin/env python3
"""What a lane costs a round: rounds of 2 to 64 works over one pool of workers, with threads of each round's own, and on one thread.

    bench/rounds.py [--runs N] [--looks N..]

A work is a chunk of 10 to 1,000 records, at each of which the processor works for 0 to 100 microseconds; the records are filtered, so what is
left is the work and the round: the works' turns of the lock, the threads that it starts or the workers that it asks, one fewer than it has
works, and the gathering. A cell is `cpu / wall`, both in microseconds a lane and round: the least processor time of all threads, and the least
wall time, of some runs, less those of a run that makes the works and runs none. Behind the tables stand a bare thread, started and joined, and,
by the works of 0 microseconds in chunks of 10, what a lane takes more than on one thread: by a thread of the round's own, by the pool, and the
second by the first. The tables are Markdown, as docs/SCALING.md has them.

With --looks it is the pool alone, whose waiting threads look for their work so many times before they sleep: in chunks of 10, with works of 0 and of
10 microseconds a record. For each number `jb_workers` is proved once more, in a copy.

The program `rounds` is no part of the gate (programs.py), and no number here decides it; on a busy machine read the processor time.
"""
import argparse
import os
import pathlib
import re
import tempfile

from measure import measure
from programs import build

LANES = (2, 4, 8, 64)
ITEM_COUNTS = (10, 100, 1_000)
WORKS = (0, 1, 10, 100)  # microseconds a record
LOOKED_WORKS = (0, 10)
A_RUN = 100_000  # microseconds of work that a run has at least
MOST_RECORDS, MOST_ROUNDS, TURNS, BARE = 4_000_000, 4_000, 100_000, 10_000
LOOKS = re.compile(r"const LOOKS: u32 = [\d_]+;")
SIGNAL = "crates/jb_workers/src/pool/signal.rt"


def least(program, runs, *words):
    """The least processor and wall seconds of some runs."""
    ran = [measure([program, *map(str, words)], os.devnull) for _ in range(runs)]
    if any(status for status, *_ in ran):
        raise SystemExit(f"rounds {' '.join(map(str, words))} ended with a status that isn't 0")
    return min(cpu for _, _, cpu, _ in ran), min(wall for _, wall, _, _ in ran)


def turns_for(program, runs):
    """How many turns of the processor take a microsecond."""
    with_turns, without = (least(program, runs, "each", 1, 1, 100, turns)[0] for turns in (TURNS, 0))
    return 100 * TURNS / ((with_turns - without) * 1e6)


def a_lane(program, runs, way, lanes, item_count, work, a_microsecond):
    """Processor and wall microseconds a lane and round. On one thread a round has one work."""
    each = item_count * (work + 0.1) + 10
    rounds = max(1, min(MOST_ROUNDS, round(A_RUN / (each * lanes)), MOST_RECORDS // (item_count * lanes)))
    shape = (rounds * lanes, 1) if way == "one" else (rounds, lanes)
    given = (*shape, item_count, round(work * a_microsecond))
    runs = runs if each * lanes < 1e6 else 1
    whole, begin = least(program, runs, "each" if way == "one" else way, *given), least(program, runs, "made", *given)
    return [(more - less) / (rounds * lanes) * 1e6 for more, less in zip(whole, begin)]


def cell(taken):
    return " / ".join(f"{us:,.1f}" if us < 100 else f"{us:,.0f}" for us in taken)


def print_ways(program, runs):
    a_microsecond, empty = turns_for(program, runs), {}
    heads = [f"{lanes} lanes: {way}" for lanes in LANES for way in ("own threads", "pool")]
    print(f"| Records of a chunk | us each | one thread | {' | '.join(heads)} |\n|{'---|' * (len(heads) + 3)}")
    for item_count in ITEM_COUNTS:
        for work in WORKS:
            alone = a_lane(program, runs, "one", 1, item_count, work, a_microsecond)
            print(f"| {item_count:,} | {work} | {cell(alone)} |", end="", flush=True)
            for lanes in LANES:
                for way in ("each", "pool"):
                    taken = a_lane(program, runs, way, lanes, item_count, work, a_microsecond)
                    print(f" {cell(taken)} |", end="", flush=True)
                    if (item_count, work) == (ITEM_COUNTS[0], 0):
                        empty[lanes, way] = taken[0] - alone[0]
            print(flush=True)
    print("\n| Lanes | own threads: cpu more a lane | pool: cpu more a lane | pool to own threads |\n|---|---|---|---|")
    for lanes in LANES:
        own, pool = empty[lanes, "each"], empty[lanes, "pool"]
        print(f"| {lanes} | {own:.1f} | {pool:.1f} | {pool / own:.2f} |")
    bare = [(more - less) / BARE * 1e6 for more, less in zip(least(program, runs, "bare", BARE), least(program, runs, "bare", 0))]
    print(f"\na bare thread, started and joined: {cell(bare)}")


def changed(looks):
    """What sets the number of looks in a copy of the crates."""

    def change(room):
        file = pathlib.Path(room, SIGNAL)
        text, count = LOOKS.subn(f"const LOOKS: u32 = {looks};", file.read_text(encoding="utf-8"))
        if count != 1:
            raise SystemExit(f"{SIGNAL} doesn't say once how often a thread looks")
        file.write_text(text, encoding="utf-8")

    return change


def print_looks(numbers, runs):
    heads = [f"{lanes} lanes, {work} us" for work in LOOKED_WORKS for lanes in LANES]
    print(f"| Looks | {' | '.join(heads)} |\n|{'---|' * (len(heads) + 1)}")
    for looks in numbers:
        with tempfile.TemporaryDirectory() as room:
            program = build("rounds", room, changed(looks))
            a_microsecond = turns_for(program, runs)
            print(f"| {looks:,} |", end="", flush=True)
            for work in LOOKED_WORKS:
                for lanes in LANES:
                    print(f" {cell(a_lane(program, runs, 'pool', lanes, ITEM_COUNTS[0], work, a_microsecond))} |", end="", flush=True)
            print(flush=True)


def main():
    parser = argparse.ArgumentParser(description=__doc__, formatter_class=argparse.RawDescriptionHelpFormatter)
    parser.add_argument("--runs", type=int, default=5)
    parser.add_argument("--looks", type=int, nargs="+", metavar="N")
    asked = parser.parse_args()
    if asked.looks:
        return print_looks(asked.looks, asked.runs)
    with tempfile.TemporaryDirectory() as room:
        print_ways(build("rounds", room), asked.runs)


if __name__ == "__main__":
    main()
