"""What a payroll takes: its memory is one slice's, a call that resumes at the end does one slice, and files cost little beside the same step in
memory. tests/bounds holds it to that."""
import dataclasses
import math
import os
import pathlib
import random
import shutil
import subprocess
import tempfile
import time

import durable

SHORT = 200_000  # time sheets, and of a longer payroll a multiple
SLICE = 100_000  # time sheets of a slice
MOST_BYTES, MOST_GROWTH = 64_000_000, 1.2  # of a longer payroll; to the short one
MOST_RESUMED = 1.2  # to reading the input and one slice
MOST_KEPT = 8  # to the same step without files: 2.7 to 6.1 were read, most of it SHA-256, as docs/DECISIONS.md says
TURNS, MOST_TURNS = 5, 60  # each time that is compared is the least of so many
ROOM = 60  # bytes of disk for a time sheet


@dataclasses.dataclass
class Taken:
    """What a run took: its exit status, seconds of the processor and of the clock, and its peak memory in bytes."""

    status: int
    seconds: float
    clock: float
    peak: int


def measured(words, sheets, output, environment):
    """A run, of which the time sheets come from a file, and the pay slips go into one."""
    began = time.monotonic()
    with open(sheets, "rb") as given, open(output, "wb") as taken:
        child = subprocess.Popen(list(map(str, words)), stdin=given, stdout=taken, stderr=subprocess.DEVNULL, env=environment)
        _, status, used = os.wait4(child.pid, 0)
    child.returncode = os.waitstatus_to_exitcode(status)
    return Taken(child.returncode, used.ru_utime + used.ru_stime, time.monotonic() - began, used.ru_maxrss * 1_024)


class Bounds:
    """A payroll of so many time sheets, and a line for each thing that is otherwise."""

    def __init__(self, starting, program, small, room, count):
        self.starting, self.program, self.small, self.room, self.lines = starting, program, small, room, []
        self.count, self.sheets = count // SHORT * SHORT, durable.made_up(random.Random(1), SHORT)
        self.texts = {length: room / f"sheets-{length}" for length in (SLICE, SHORT, self.count)}
        self.texts[SLICE].write_bytes(b"".join(self.sheets.lines()[:SLICE]))
        for length in (SHORT, self.count):
            with open(self.texts[length], "wb") as file:
                for _ in range(length // SHORT):
                    file.write(self.sheets.text)

    def slips(self, length):
        return self.sheets.slips() * (length // SHORT) if length >= SHORT else self.sheets.slips(length)

    def run(self, length, folder, *words, program=None, job=None):
        """What a run takes; it has to be completed, and to write all pay slips, or none if it's a part."""
        output = self.room / "out"
        all_words = durable.words_of(program or self.program, self.room / folder, words, 1)
        taken = self.starting.apply(measured, (all_words, self.texts[length], output, durable.environment_of(job or {})))
        wanted = b"" if "--part" in words else self.slips(length)
        if taken.status or output.read_bytes() != wanted:
            self.lines.append(f"{' '.join([str(length), *words])}: status {taken.status}, {output.stat().st_size} bytes of {len(wanted)}")
        return taken

    def check(self, what, found, most, unit):
        """A number that is to be within a bound, in a line."""
        line = f"{what}: {found:.3g} {unit}, and at most {most:.3g}"
        if found > most:
            self.lines.append(line)
        return line

    def memory(self):
        short, long = self.run(SHORT, "short"), self.run(self.count, "long")
        yield self.check(f"a payroll of {self.count} time sheets", long.peak / 1e6, MOST_BYTES / 1e6, "MB")
        yield self.check(f"to one of {SHORT}", long.peak / short.peak, MOST_GROWTH, "times")
        yield f"a payroll of {self.count} time sheets: {long.clock:.1f} s, {long.seconds:.1f} s of the processor"

    def least(self, is_within, *runs):
        """Of each of some runs the least processor time. The runs take turns, so that what slows the machine for a while slows them alike. It only adds to a
        time. So while the least ones aren't within their bound, the runs take more turns."""
        least = [math.inf] * len(runs)
        for turn in range(1, MOST_TURNS + 1):
            least = [min(time, run().seconds) for time, run in zip(least, runs)]
            if turn >= TURNS and is_within(*least):
                break
        return least

    def anew(self, length, folder, **how):
        """A run of which no slice has begun."""
        shutil.rmtree(self.room / folder, ignore_errors=True)
        return self.run(length, folder, **how)

    def without_last(self, *words):
        """A run of the long payroll of which all slices are whole but the last one that has time sheets."""
        durable.remove(durable.slices.path_of(self.room / "long", self.count // SLICE - 1))
        return self.run(self.count, "long", *words)

    def resuming(self):
        """The last slice that has time sheets is run again: as a part of its own, and by a plain call."""
        last, parts = self.count // SLICE - 1, self.count // SLICE + 1

        def ratios(one, reading, collecting, part, whole):
            return part / (reading + one), whole / (collecting + one)

        one, reading, collecting, part, whole = times = self.least(
            lambda *times: max(ratios(*times)) <= MOST_RESUMED,
            lambda: self.anew(SLICE, "one"),
            lambda: self.run(self.count, "none", "--part", f"{parts}/{parts + 1}"),
            lambda: self.run(self.count, "long", "--collect"),
            lambda: self.without_last("--part", f"{last}/{parts}"),
            lambda: self.without_last(),
        )
        of_part, of_call = ratios(*times)
        yield self.check("the last slice, as a part", of_part, MOST_RESUMED, "times reading the input and one slice")
        yield self.check("the last slice, by a plain call", of_call, MOST_RESUMED, "times a collect and one slice")
        yield f"processor seconds: reading {reading:.2f}, a slice {one:.2f}, a collect {collecting:.2f}, a part {part:.2f}, a call {whole:.2f}"

    def files(self):
        """The same slices with their files and without."""
        kept, without = self.least(
            lambda kept, without: kept / without <= MOST_KEPT,
            lambda: self.anew(SHORT, "kept", program=self.small),
            lambda: self.run(SHORT, "kept", program=self.small, job={"unkept": 1}),
        )
        yield self.check(f"a payroll of {SHORT} time sheets", kept / without, MOST_KEPT, "times the same step without files")


def lines_of(starting, program, small, count):
    """What was measured, and the lines of what is otherwise."""
    with tempfile.TemporaryDirectory(dir=durable.IN_MEMORY if has_room(count) else None) as room:
        bounds = Bounds(starting, program, small, pathlib.Path(room), count)
        measures = [*bounds.memory(), *bounds.resuming(), *bounds.files()]
    return measures, bounds.lines


def has_room(count):
    """Whether the files of so many time sheets can be kept in memory, beside the rest."""
    return durable.IN_MEMORY is not None and shutil.disk_usage(durable.IN_MEMORY).free > 4 * ROOM * count
