"""The proof of a program's crates, and its build, by `rt ci` over a copy of these crates alone.

`rt ci` proves each crate from nothing, as the gate does, and those above it load what it states. `rt check` keeps the proofs themselves for
the next check, and those above it load them too, which takes longer from nothing (docs/DECISIONS.md has both times). `rt ci` builds a program
whose crates are proved, and keeps what it proved beside the kit, if it may write there: a crate that doesn't change isn't proved again on
this machine.
"""
import os
import pathlib
import re
import shutil
import subprocess

from . import children, unproved

VERDICT = re.compile(r"rt: (\w+) (proved|is kept|NOT PROVED)\b(?!: its library)")  # rt's line on a crate
NOT_READ = shutil.ignore_patterns("out", "must-fail")


class Proof:
    """A call of `rt ci` over a copy in the folder `room`, and what it said of each crate."""

    def __init__(self, program, room):
        self.program, self.room, self.said, self.ended = program, pathlib.Path(room), {}, {}

    def copy(self):
        (self.room / ".git").mkdir()  # it is the top of a repository
        shutil.copy(self.program.top / "HANDLES", self.room)
        (self.room / "crates.txt").write_text("".join(self.program.lines[crate] + "\n" for crate in self.program.needed), encoding="utf-8")
        for crate in self.program.needed:
            shutil.copytree(self.program.top / "crates" / crate, self.room / "crates" / crate, ignore=NOT_READ)

    def run(self, log):
        """Proves and builds; `log` gets what is said."""
        section, streams = None, {"stdout": subprocess.PIPE, "stderr": subprocess.STDOUT, "encoding": "utf-8", "errors": "replace"}
        with open(log, "w", encoding="utf-8") as kept, children.started([unproved.RT, "ci"], cwd=self.room, **streams) as child:
            for line in child.stdout:
                line = line.replace(str(self.room), str(self.program.top))
                kept.write(line)
                kept.flush()
                section = line[3:].strip() if line.startswith("== ") else section
                self.said.setdefault(section, []).append(line)
                verdict = VERDICT.match(line)
                if verdict:
                    section = None
                    self.end(verdict[1], verdict[2], processor_minutes(child))

    def end(self, crate, verdict, minutes):
        self.ended[crate] = verdict
        self.program.say(f"{len(self.ended)} of {len(self.program.needed)} ended, {crate} the last; {minutes} processor minutes so far")

    def made(self):
        """The built program, if its crates are proved."""
        path = self.room / "crates" / self.program.name / "out" / self.program.name
        return path if self.ended.get(self.program.name) in ("proved", "is kept") and path.is_file() else None

    def last_words(self):
        """What was said last of the first crate that isn't proved; else what was said of no crate."""
        failed = next((crate for crate in self.program.needed if self.ended.get(crate) == "NOT PROVED"), None)
        return self.said.get(failed) or self.said.get(None, [])


def processor_minutes(process):
    """Of a process that runs, with those of its children that have ended."""
    fields = pathlib.Path(f"/proc/{process.pid}/stat").read_text(encoding="utf-8").rpartition(")")[2].split()
    return int(sum(map(int, fields[11:15])) / os.sysconf("SC_CLK_TCK") / 60)
