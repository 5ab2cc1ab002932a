"""Builds a measuring program of this folder over the crates. Its proofs are no part of the gate, which reads each .rt and .antt file of the
repository: so its files end in .in here, and the gate looks only whether it compiles (tests/bench-compiles). It is proved and built in a copy
of the crates that it stands on, which takes some minutes where these aren't built yet."""
import dataclasses
import os
import shutil
import subprocess
import sys

from measure import TOP


@dataclasses.dataclass
class Program:
    """What a program stands on; the words and the standard input of a first short run; the crate, if any, under whose name it is built, and
    the parts that it takes of it; the files of this folder that it shares with others."""

    stands_on: tuple
    words: tuple = ()
    given: bytes = b""
    like: str = None
    parts: tuple = ()
    shared: tuple = ()


ROUND = ("jb_base", "jb_rules", "jb_artifacts", "jb_chunk", "jb_cert", "jb_repo", "jb_workers")
STEP = ("jb_base", "jb_job", "jb_plan", "jb_rules", "jb_mapper", "jb_artifacts", "jb_chunk", "jb_repo", "jb_workers", "jb_collect", "jb_step")
RECORDS = ("jb_base", "jb_ready", "jb_rows", "jb_collect", "jb_records", "csv")
PAYROLL = ("src/clerk.rt", "src/sheet.rt", "specs/Sheets.antt")
SAVED = b'{"rows":[[0,39000,12345,12400,37,12100,12340,12100,131,41,5,140,100,0,12,"waiting"]],"step":"pay","version":2}\n'

PROGRAMS = {
    "checkpoint": Program(("jb_slice_file", "sqlite", "sqlite_disk"), ("first.db", "1", "1")),
    "events": Program(("jb_base", "jb_cert", "jb_repo", "jb_rules"), given=b"1\n"),
    "rounds": Program(ROUND, ("pool", "1", "2", "10", "10"), shared=("working.rt.in",)),
    "saved": Program(("jb_saved",), ("write", "1"), SAVED),
    "step": Program(STEP, ("pool", "even", "8", "1000", "10", "2", "10"), shared=("working.rt.in",)),
    "unkept": Program(RECORDS, ("1",), like="payroll", parts=PAYROLL),
}


def lines_of_crates():
    """The lines of crates.txt, each by the name of its crate."""
    with open(os.path.join(TOP, "crates.txt"), encoding="utf-8") as file:
        lines = [line.strip() for line in file if line.strip() and not line.startswith("#")]
    return {line.split(":")[0].split()[0]: line for line in lines}


def needed(lines, stands_on):
    """The crates of this repository that a program stands on, directly or not."""
    found, left = set(), list(stands_on)
    while left:
        name = left.pop()
        if name in lines and name not in found:
            found.add(name)
            left += lines[name].split(":")[1].split()
    return sorted(found)


def take(part, place):
    """Copies a file or a folder."""
    os.makedirs(os.path.dirname(place), exist_ok=True)
    (shutil.copytree if os.path.isdir(part) else shutil.copy)(part, place)


def lay_out(name, room, left_out=()):
    """Writes the program of the folder `name` into the folder `room`, as a crate beside those that it stands on, which are copied without
    the folders of the names in `left_out`. Gives the crate's folder."""
    program, lines = PROGRAMS[name], lines_of_crates()
    names, crate = needed(lines, program.stands_on), program.like or name
    for below in names:
        place = os.path.join(room, "crates", below)
        shutil.copytree(os.path.join(TOP, "crates", below), place, symlinks=True, ignore=shutil.ignore_patterns(*left_out))
    with open(os.path.join(room, "crates.txt"), "w", encoding="utf-8") as file:
        file.writelines(lines[below] + "\n" for below in names)
        file.write(f"{crate}: {' '.join(program.stands_on)}\n")
    shutil.copy(os.path.join(TOP, "HANDLES"), room)
    folder = os.path.join(room, "crates", crate)
    shutil.copytree(os.path.join(TOP, "bench", name), folder)
    for file in program.shared:
        take(os.path.join(TOP, "bench", file), os.path.join(folder, "src", file))
    for part in program.parts:
        take(os.path.join(TOP, "crates", program.like, part), os.path.join(folder, part))
    for place, _, files in os.walk(folder):
        for file in files:
            os.rename(os.path.join(place, file), os.path.join(place, file.removesuffix(".in")))
    return folder


def command(name):
    """The words that have `rt` prove and build the program and run it once, in its crate's folder."""
    return [shutil.which("rt") or "/opt/rattle/bin/rt", "run", "--", *PROGRAMS[name].words]


def build(name, room, change=None):
    """Proves and builds the program of the folder `name` in the folder `room`, runs it once, and gives its path. Before that, `change` may
    change the copies in that folder. Where BENCH_BUILT names a folder with a program of this name, it is that one."""
    kept = os.path.join(os.environ.get("BENCH_BUILT", ""), name)
    if change is None and os.path.isfile(kept) and "BENCH_BUILT" in os.environ:
        return kept
    program = PROGRAMS[name]
    crate = lay_out(name, room)
    if change:
        change(room)
    ran = subprocess.run(command(name), cwd=crate, input=program.given, capture_output=True)
    built = os.path.join(crate, "out", program.like or name)
    if ran.returncode or not os.path.exists(built):
        sys.exit(ran.stderr.decode(errors="replace") + f"the program {name} isn't built")
    return built
