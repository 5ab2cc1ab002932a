#!/usr/bin/env python3
"""What one step of 100,000 and 1,000,000 records takes on several threads, beside its partitions run alone, one after another.

The records have ten bytes, and no call fails. There are 8, 64, 256 or 1,024 even partitions, or eight of which the last one has a good half of
the records. `cpu s` is the processor time of all threads and `wall s` the time that passed, each the least of five runs, less that of a run that
makes the records and the artifacts and does no more. `to alone` is the step's processor time by that of `run_alone` over the same partitions. Ten
times the chunks should take about ten times as long.

    bench/step.py [--chunks | --pool | --instructions]

With `--chunks` it is a step of 1,000,000 records in 64 partitions, in chunks of 10 to 10,000, on 1 to 64 threads, and `more` is what its processor
time is more than on one thread, in microseconds a chunk: what threads cost. With `--pool` it is a step whose processor works 0 to 100
microseconds at each record, in chunks of 10 to 1,000, on one thread, and on 2 to 64, which each round starts for itself (`each`) or one pool
has for all (`pool`): processor and wall time, both in microseconds a chunk, and with chunks of one record from how much work a chunk on four
threads take less wall time than one. With `--instructions` it counts, by valgrind's callgrind, what the processor does at 100,000 records: a count that no load of the machine changes.
`a work` is the step's instructions by its chunks, each of which is one work of a round: on one thread a round has one work, on eight threads
eight, all of which but one go to the workers of a pool. It should be about the same whatever the number of partitions. The program `step` is no part
of the gate (programs.py), and no number here decides it; on a busy machine read `cpu s`.
"""
import os
import sys
import tempfile

from measure import instructions, measure
from programs import build

SIZES = (100_000, 1_000_000)
ITEM_COUNTS = (1_000, 10)
CHUNKS = (10, 100, 1_000, 10_000)
THREADS = (1, 2, 4, 16, 64)
SHAPES = ((8, "even"), (64, "even"), (256, "even"), (1_024, "even"), (8, "long"))
RUNS = 5
POOL_CHUNKS = (10, 100, 1_000)
POOL_THREADS = (2, 4, 8, 64)
WORKS = (0, 1, 10, 100)
BREAK_EVEN = (0, 1, 2, 4, 6, 8, 10, 15, 20, 30, 40)
PARTITIONS = 64
TURNS = 1_000_000


def least(program, *words):
    """The least processor and wall seconds of some runs."""
    ran = [measure([program, *map(str, words)], os.devnull) for _ in range(RUNS)]
    if any(status for status, *_ in ran):
        sys.exit(f"{' '.join(map(str, words))} ended with a status that isn't 0")
    return min(cpu for _, _, cpu, _ in ran), min(wall for _, wall, _, _ in ran)


def line(program, shape, partitions, records, item_count):
    """Prints a line: alone, and as a step on 1, 2 and 4 threads."""
    given = (shape, partitions, records, item_count)
    made_cpu, made_wall = least(program, "made", *given, 1, 0)
    alone_cpu, alone_wall = least(program, "alone", *given, 1, 0)
    alone = max(alone_cpu - made_cpu, 1e-9)
    cells = [f"{alone:>7.3f} {alone_wall - made_wall:>7.3f}"]
    for threads in (1, 2, 4):
        cpu, wall = least(program, "pool", *given, threads, 0)
        cells.append(f"{cpu - made_cpu:>7.3f} {wall - made_wall:>7.3f} {(cpu - made_cpu) / alone:>6.2f}")
    print(f"{named(*given):<62}  {'  '.join(cells)}", flush=True)


def by_threads(program, item_count):
    """Prints a line: a step of chunks of this size on each number of threads."""
    given = ("even", 64, max(SIZES), item_count)
    made_cpu, made_wall = least(program, "made", *given, 1, 0)
    taken = [least(program, "pool", *given, threads, 0) for threads in THREADS]
    cells = [f"{cpu - made_cpu:>7.3f} {wall - made_wall:>7.3f} {(cpu - taken[0][0]) / chunks(*given) * 1e6:>6.1f}" for cpu, wall in taken]
    print(f"chunks of {item_count:<7,}  {'  '.join(cells)}", flush=True)


def named(shape, partitions, records, item_count):
    return f"{records:,} records, {partitions:,} partitions, {shape}, chunks of {item_count:,}"


def chunks(shape, partitions, records, item_count):
    """How many chunks the partitions have: each of a partition's but the last is full."""
    even = records // partitions
    length = even // 2 if shape == "long" else even
    lengths = [length] * (partitions - 1) + [records - length * (partitions - 1)]
    return sum(-(-each // item_count) for each in lengths)


def count(program, shape, partitions, item_count):
    """Prints a line: instructions alone, and as a step on one thread and on eight."""
    given = (shape, partitions, min(SIZES), item_count)
    made, alone = (instructions([program, way, *given, 1, 0]) for way in ("made", "alone"))
    cells = [f"{alone - made:>14,}"]
    for threads in (1, 8):
        step = instructions([program, "pool", *given, threads, 0]) - made
        cells.append(f"{step:>14,} {step / (alone - made):>8.2f} {step // chunks(*given):>10,}")
    print(f"{named(*given):<62}  {'  '.join(cells)}", flush=True)


def turns_for(program):
    """How many turns of the processor take a microsecond."""
    given = ("alone", "even", 1, 200, 10, 1)
    with_turns, without = least(program, *given, TURNS // 10)[0], least(program, *given, 0)[0]
    return 200 * (TURNS // 10) / ((with_turns - without) * 1e6)


def a_chunk(program, way, item_count, threads, turns, count):
    """Processor and wall microseconds a chunk of a step of so many chunks, without those of making it."""
    given = ("even", PARTITIONS, count * item_count, item_count, threads, turns)
    made, ran = least(program, "made", *given), least(program, way, *given)
    return [(whole - begin) / count * 1e6 for whole, begin in zip(ran, made)]


def chunks_of(item_count, work):
    """How many chunks a line has: such as take some tenths of a second, and as many of each partition."""
    each = 400_000 / ((work + 0.3) * item_count + 20)
    return PARTITIONS * max(1, min(200, round(each / PARTITIONS)))


def pool_line(program, item_count, work, a_microsecond):
    """Prints a line: on one thread, and on each number of threads both ways."""
    count, turns = chunks_of(item_count, work), round(work * a_microsecond)
    cells = [f"{cpu:>9.1f}" for cpu in a_chunk(program, "pool", item_count, 1, turns, count)[:1]]
    for threads in POOL_THREADS:
        for way in ("step", "pool"):
            cpu, wall = a_chunk(program, way, item_count, threads, turns, count)
            cells.append(f"{cpu:>9.1f} {wall:>9.1f}")
    print(f"{item_count:>6,} records of {work:>3} us  {'  '.join(cells)}", flush=True)


def pays_from(program, way, a_microsecond):
    """The least work of these, in microseconds a chunk, at which four threads take less wall time than one."""
    for work in BREAK_EVEN:
        count, turns = chunks_of(1, work), round(work * a_microsecond)
        alone, four = (a_chunk(program, way, 1, threads, turns, count) for threads in (1, 4))
        if four[1] < alone[1]:
            return f"{alone[1]:.1f}"
    return "more"


def print_pool(program):
    a_microsecond = turns_for(program)
    print(f"{'':<24} {'one thread':>9}{''.join(f'{threads:>30} threads' for threads in POOL_THREADS)}")
    print(f"{'':<24} {'cpu':>9}  {'  '.join(['  each cpu      wall   pool cpu      wall'] * len(POOL_THREADS))}")
    for item_count in POOL_CHUNKS:
        for work in WORKS:
            pool_line(program, item_count, work, a_microsecond)
    for way, name in (("step", "each"), ("pool", "pool")):
        print(f"{name}: four threads take less wall time than one from {pays_from(program, way, a_microsecond)} microseconds a chunk on")


def print_chunks(program):
    print(f"{'':<17}  {'  '.join(f'{threads:>14} threads' for threads in THREADS)}")
    print(f"{'':<17}  {'  '.join(['  cpu s  wall s   more'] * len(THREADS))}")
    for item_count in CHUNKS:
        by_threads(program, item_count)


def print_instructions(program):
    print(f"{'':<62}  {'alone':>14}{'one thread':>36}{'eight threads':>36}")
    print(f"{'what':<62}  {'':>14}{'  instructions   to alone     a work' * 2}")
    for item_count in ITEM_COUNTS:
        for partitions, shape in SHAPES:
            count(program, shape, partitions, item_count)


def print_steps(program):
    print(f"{'':<62}  {'alone':>15}{'one thread':>24}{'two threads':>24}{'four threads':>24}")
    print(f"{'what':<62}  {'cpu s  wall s':>15}{'   cpu s  wall s to alone' * 3}")
    for item_count in ITEM_COUNTS:
        for partitions, shape in SHAPES:
            for records in SIZES:
                line(program, shape, partitions, records, item_count)


def main():
    ways = {(): print_steps, ("--chunks",): print_chunks, ("--pool",): print_pool, ("--instructions",): print_instructions}
    with tempfile.TemporaryDirectory() as room:
        ways[tuple(sys.argv[1:])](build("step", room))


if __name__ == "__main__":
    main()
