#!/usr/bin/env python3
"""`batchrun` beside Python's `json` and beside a plain program, on the same documents and in one run.

    bench/compare.py [--threads | --large | --bytes] [--records N] [--runs N]

`plain` is the program of the folder plain/, whose head says what it leaves out; it is built here by `rustc`, and its outputs are
compared with those of `batchrun`. `python3` reads a document of records into a tree by its module `json` and writes that tree again,
and does nothing else. All run on one thread (but see below), their output goes to the null device, and they take turns: `cpu s` is the least
processor time of some runs of each, `peak MB` the most memory that one held at once, never less than this script's own, about
15 MB. `instructions` are those for one record, or for one slot of a plan, counted by valgrind's callgrind, as the difference between a
document of 30,000 and one of 10,000: a count that no load of the machine changes. The table is Markdown, as README.md has it. No number
here decides the gate.

With --records there are so many short records in place of 1,000,000, and of the others so many fewer: ten times the records should take
about ten times as long.

With --threads both programs run the documents of short records, in chunks of 10 to 10,000, and that of faulty ones, on 1 to 64 threads:
`batchrun` moves its threads between partitions at their checkpoints, the plain program's pool takes partitions whole. A cell is `cpu / wall` in
seconds, the least of some runs of each, and below the table stands for each program where four threads took less wall time than one.

With --bytes the records have 4,096 bytes of one kind, and a cell is instructions for one byte of the document.

With --large both run, once, documents of 10,000,000 records with as many faults, and a cell is `cpu s, peak MB`; a document has some 300 MB.
"""
import argparse
import json
import os
import subprocess
import sys
import tempfile

import documents
from measure import BENCH, PROGRAM, PYTHON, built, in_a_process, instructions, measure

MILLION = 1_000_000


def records_of(make, *given):
    """Makes a document of so many records."""
    return lambda size: (make, size, *given)


def plan_of(partitions, threads):
    """Makes a load of so many slots, in that many partitions."""
    return lambda size: (documents.load, [size // partitions] * partitions, threads)


# What it is called, the word that runs it, how many records or slots it has at a million short records, and what makes it.
CASES = (
    ("{:,} records of ten bytes, chunks of 1,000, 8 partitions", "run", MILLION, records_of(documents.short, 1_000)),
    ("{:,} in chunks of 10", "run", MILLION, records_of(documents.short, 10)),
    ("{:,} in chunks of 10, one partition has half", "run", MILLION, records_of(documents.short, 10, 8, documents.skewed)),
    ("{:,} of 28 bytes, 1 in 50 faulty, chunks of 100, 64 partitions", "run", MILLION, records_of(documents.faulty, 100)),
    ("the same, the shaky ones repeated in place", "run", MILLION, records_of(documents.in_place, 100)),
    ("{:,} of 1,000 bytes, chunks of 1,000, 8 partitions", "run", 3 * MILLION // 10, records_of(documents.wide, 1_000)),
    ("{:,} of 30 bytes, 20 of them not ASCII, chunks of 1,000, 8 partitions", "run", MILLION, records_of(documents.foreign, 1_000)),
    ("{:,} of ten bytes, restarted half-way, chunks of 100, 64 partitions", "restart", MILLION, records_of(documents.half_done, 100)),
    ("the same, restarted when 99 of 100 were done", "restart", MILLION, records_of(documents.half_done, 100, 99)),
    ("plan of {:,} slots, 4,096 partitions on 63 threads", "plan", 8_192_000, plan_of(4_096, 63)),
    ("plan of {:,} slots, one partition on 64 threads", "plan", 10_000_000, plan_of(1, 64)),
)


# What is run on threads: what it is called, and what makes it of a number of records.
ON_THREADS = (
    *((f"chunks of {count:,}, 8 partitions", documents.short, count) for count in (10, 100, 1_000, 10_000)),
    ("1 in 50 faulty, chunks of 100, 64 partitions", documents.faulty, 100),
)
THREADS = (1, 2, 4, 8, 64)


def plain_program(room):
    """Builds the plain program in a folder and gives its path."""
    program = os.path.join(room, "plain")
    subprocess.run(["rustc", "--edition", "2024", "-C", "opt-level=3", os.path.join(BENCH, "plain/main.rs"), "-o", program], check=True)
    return program


def answer(command, path):
    with open(path, "rb") as document:
        return subprocess.run(command, stdin=document, stdout=subprocess.PIPE, check=True).stdout


def compare(word, program, plain, path):
    """Ends the script where the two commands don't print the same plan, or the same outputs and commits."""
    found, wanted = (answer(command, path) for command in (program, plain))
    if word != "plan":
        step, wanted = json.loads(found)["steps"][-1], json.loads(wanted)
        found = {"heard": step["heard"], "outputs": step["outputs"]}
    if found != wanted:
        sys.exit(f"batchrun and the plain program don't agree on {path}")


def taken_in_turns(commands, path, runs):
    """The least processor seconds and the peak of each command, which take turns."""
    taken = [[measure(command, path) for command in commands] for _ in range(runs)]
    if any(status for turn in taken for status, *_ in turn):
        sys.exit(f"a program failed on {path}")
    return [(min(cpu for _, _, cpu, _ in each), max(peak for *_, peak in each)) for each in zip(*taken)]


def cells(commands, word, size, make, runs, room):
    """For each command its instructions for one record more, its processor seconds and its peak."""
    # The counts of plans are divided by 4,096.
    least = 40_960 if word == "plan" else 10_000
    whole, small, large = (os.path.join(room, f"{it}.json") for it in ("whole", "small", "large"))
    for path, of in ((whole, size), (small, least), (large, 3 * least)):
        documents.write(path, *make(of))
    in_a_process(compare, word, commands[0], commands[1], whole)
    for command, (cpu, peak) in zip(commands, taken_in_turns(commands, whole, runs)):
        each = (instructions(command, large) - instructions(command, small)) / (2 * least)
        yield f"{each:,.0f}, {cpu:.2f}, {peak:.0f}"


def print_threads(plain, options, room):
    commands, path, pays = {"batchrun": [PROGRAM, "run"], "plain": [plain, "run"]}, os.path.join(room, "threads.json"), {"batchrun": [], "plain": []}
    heads = [f"`{by}`, {threads}" for by in commands for threads in THREADS]
    print(f"| {options.records:,} records, on so many threads | {' | '.join(heads)} |\n|{'---|' * (len(heads) + 1)}")
    for name, make, item_count in ON_THREADS:
        taken = {}
        for threads in THREADS:
            documents.write(path, documents.threaded, make, threads, options.records, item_count)
            in_a_process(compare, "run", *commands.values(), path)
            for by, command in commands.items():
                ran = [measure(command, path) for _ in range(options.runs)]
                taken[by, threads] = min(cpu for _, _, cpu, _ in ran), min(wall for _, wall, _, _ in ran)
        print(f"| {name} | {' | '.join(f'{cpu:.2f} / {wall:.2f}' for cpu, wall in (taken[by, it] for by in commands for it in THREADS))} |", flush=True)
        for by in commands:
            if taken[by, 4][1] < taken[by, 1][1]:
                pays[by].append(name)
    print()
    for by, names in pays.items():
        print(f"`{by}`: four threads took less wall time than one: {'; '.join(names) or 'nowhere'}")


# Documents of ten million records: what each is called, and its kind.
LARGE = (
    ("10,000,000 of one byte, each bad and skipped", "bad"),
    ("10,000,000 of one byte, each shaky and repeated in place, up to the retry limit", "shaky"),
    ("10,000,001 faults, refused", "refused"),
)


def print_large(plain, room):
    print("| What | `batchrun`: cpu s, peak MB | `plain`: the same |\n|---|---|---|")
    path = os.path.join(room, "large.json")
    for name, kind in LARGE:
        documents.write_large(path, kind)
        taken = [measure([program, "run"], path) for program in (PROGRAM, plain)]
        print(f"| {name} ({os.path.getsize(path) // 1_000_000} MB of document) | {' | '.join(f'{cpu:.1f}, {peak:,.0f}' for *_, cpu, peak in taken)} |", flush=True)


# Kinds of bytes: what each is called, and its characters.
KINDS = (
    ("ASCII", "x"),
    ("control characters, six bytes each in a document", "\1"),
    ("line feeds, two bytes each", "\n"),
    ("quotes and backslashes, two bytes each", '"\\'),
    ("a quote behind each letter", 'x"'),
    ("characters of two bytes", "é"),
    ("of three bytes", "€"),
    ("of four bytes", "😀"),
    ("a control character behind each of two bytes", "é\1"),
)


def print_kinds(plain, room):
    print("| 4,096 bytes of | `batchrun`: instructions for one byte of the document | `plain`: the same |\n|---|---|---|")
    commands = [PROGRAM, "run"], [plain, "run"]
    small, large = (os.path.join(room, f"{records}.json") for records in (200, 600))
    for name, characters in KINDS:
        for path, records in ((small, 200), (large, 600)):
            documents.write(path, documents.of_kind, records, characters)
        in_a_process(compare, "run", *commands, large)
        length = os.path.getsize(large) - os.path.getsize(small)
        each = ((instructions(command, large) - instructions(command, small)) / length for command in commands)
        print(f"| {name} | {' | '.join(f'{it:.1f}' for it in each)} |", flush=True)


def main():
    parser = argparse.ArgumentParser(description=__doc__, formatter_class=argparse.RawDescriptionHelpFormatter)
    parser.add_argument("--threads", action="store_true")
    parser.add_argument("--large", action="store_true")
    parser.add_argument("--bytes", action="store_true")
    parser.add_argument("--records", type=int, default=MILLION)
    parser.add_argument("--runs", type=int, default=3)
    options = parser.parse_args()
    built()
    if options.threads:
        with tempfile.TemporaryDirectory() as room:
            return print_threads(plain_program(room), options, room)
    if options.bytes:
        with tempfile.TemporaryDirectory() as room:
            return print_kinds(plain_program(room), room)
    if options.large:
        with tempfile.TemporaryDirectory() as room:
            return print_large(plain_program(room), room)
    print("| What | `batchrun`: instructions each, cpu s, peak MB | `plain`: the same | `python3`: the same |\n|---|---|---|---|")
    with tempfile.TemporaryDirectory() as room:
        plain = plain_program(room)
        for name, word, most, make in CASES:
            size = most * options.records // MILLION
            commands = [[PROGRAM, word], [plain, word]] + ([PYTHON] if word != "plan" else [])
            print(f"| {name.format(size)} |", end="", flush=True)
            for cell in cells(commands, word, size, make, options.runs, room):
                print(f" {cell} |", end="", flush=True)
            print("" if word != "plan" else " |")


if __name__ == "__main__":
    main()
