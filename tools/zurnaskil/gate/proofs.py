"""`rt ci` over a copy of the tree, which has the must-fail edits of this turn: it tries every edit that it finds, and has no choice."""
import os
import pathlib
import re
import shutil
import subprocess
import time

from .. import children, trusted, unproved
from .costs import KINDS
from .meter import Meter

SAID = re.compile(r"rt: (\w+)(: its tests are)? (proved|NOT PROVED)\b")
MADE = ("{}", "{}.by-rattle", "{}_tests", "stdout", "stdout.by-rattle", trusted.LIST)  # what `rt ci` leaves in a crate's out/ that others run or read


def copy(top, room, crates):
    """A copy of the tree, without what was built, with the edits of these crates alone."""
    made = {top: [".git", "out"]} | {crate: ["out"] for crate in (top / "crates").iterdir()}
    shutil.copytree(top, room, symlinks=True, ignore=lambda folder, _: made.get(pathlib.Path(folder), []), dirs_exist_ok=True)
    (room / ".git").mkdir()  # it is the top of a repository
    for edits in (room / "crates").glob("*/must-fail"):
        if edits.parent.name not in crates:
            shutil.rmtree(edits)


class Gate:
    """A run of `rt ci` over a copy of a tree, and how far it is."""

    def __init__(self, top, room, crates, edits, kept):
        self.top, self.room, self.edits = top, room, edits
        self.tried = {crate: count for crate, count in edits.counts.items() if crate in crates}
        self.steps = [(crate, kind) for crate in edits.lines for kind in KINDS[:2]] + [(crate, "edits") for crate in self.tried]
        self.kept, self.ended, self.meter = kept, set(), None
        self.expected = sum(kept.of(*step) for step in self.steps)
        self.began = time.monotonic()

    def run(self, jobs):
        """The status of `rt ci`. What it says goes on, with this tree's paths."""
        words, how = [unproved.RT, "ci"], {"stdout": subprocess.PIPE, "stderr": subprocess.STDOUT, "encoding": "utf-8", "errors": "replace"}
        with children.started(words, cwd=self.room, env=os.environ | {"RT_JOBS": str(jobs)}, **how) as child:
            self.meter = Meter(child.pid, self.look_at_edits)
            self.meter.start()
            for line in child.stdout:
                print(line.replace(str(self.room), str(self.top)), end="", flush=True)
                if said := SAID.match(line):
                    self.end(said[1], "tests" if said[2] else "proof")
            self.meter.ended.set()
            self.meter.join()
            return child.wait()

    def look_at_edits(self):
        """`rt ci` says of edits how they ended when all is over. Each edit is a check, and so is the crate itself after several."""
        for crate, count in self.tried.items():
            taken = self.meter.edits_ended(crate)
            if (crate, "edits") not in self.ended and len(taken) >= count + (count > 1):
                self.end(crate, "edits", f" ({' '.join(f'{seconds:.0f}' for seconds in taken)} seconds)")

    def end(self, crate, kind, each=""):
        self.ended.add((crate, kind))
        taken = self.meter.seconds()
        done = sum(self.kept.of(*step) for step in self.ended)
        share = f"{100 * done / self.expected:.0f} %" if self.expected else "an unknown part"
        minutes = (time.monotonic() - self.began) / 60
        print(f"check: {crate}: {kind} ended, {taken[crate, kind] / 60:.1f} processor minutes{each}; {share} after {minutes:.0f} minutes, "
              f"{sum(taken.values()) / 60:.0f} processor minutes", flush=True)

    def list_trusted(self, name):
        """Lists what the proof of a program rests on, over the libraries that `rt ci` built. A script compares the list, if there is one."""
        with children.started([self.room / "tools/trusted", "--prove", name], cwd=self.room, stdin=subprocess.DEVNULL) as child:
            child.wait()

    def bring_back(self):
        """Puts what was built where it stands after `rt ci` in the tree itself."""
        for crate in self.edits.lines:
            for name in (made.format(crate) for made in MADE):
                path = pathlib.Path("crates", crate, "out", name)
                (self.top / path).unlink(missing_ok=True)
                if (self.room / path).is_file():
                    (self.top / path).parent.mkdir(exist_ok=True)
                    shutil.copy(self.room / path, self.top / path)

    def costs(self):
        """The seconds of processor of each crate, by kind."""
        rows = {crate: {} for crate in self.edits.lines}
        for (crate, kind), seconds in self.meter.seconds().items():
            if crate in rows and seconds >= 1:
                rows[crate][kind] = round(seconds, 1)
        return rows
