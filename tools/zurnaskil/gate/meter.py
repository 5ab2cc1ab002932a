"""What the checker's processes take, crate by crate, as `rt ci` runs them: read from /proc while they run."""
import collections
import dataclasses
import os
import pathlib
import threading

TICK = os.sysconf("SC_CLK_TCK")
EVERY = 0.5  # seconds between two looks
CHECKER, EDIT = "rattle", "rt-edit"  # the program, and how the folder begins in which an edit is tried
KINDS = ("proof", "tests", "edits")


@dataclasses.dataclass
class Seen:
    """A process of the checker: for which crate, for what and in which folder it runs, and how many seconds of processor it has taken."""

    crate: str
    kind: str
    folder: str
    seconds: float
    runs: bool = True


def read(process):
    """What a process of the checker does; None of another, or of one that has ended."""
    try:
        words = (process / "cmdline").read_bytes().decode(errors="replace").split("\0")
        if os.path.basename(words[0]) != CHECKER or "--crate-name" not in words:
            return None
        folder = os.readlink(process / "cwd")
        fields = (process / "stat").read_text().rpartition(")")[2].split()
    except OSError:
        return None
    is_edit = os.path.basename(folder).startswith(EDIT)
    kind = "edits" if is_edit else "tests" if "--test" in words else "proof"
    return fields[19], Seen(words[words.index("--crate-name") + 1], kind, folder, (int(fields[11]) + int(fields[12])) / TICK)


class Meter(threading.Thread):
    """Looks at the checker's processes of a session, and tells after each look, until it is told to end."""

    def __init__(self, session, tell):
        super().__init__(daemon=True)
        self.session, self.tell, self.seen, self.ended = session, tell, {}, threading.Event()

    def run(self):
        while not self.ended.wait(EVERY):
            self.look()
            self.tell()

    def look(self):
        found = set()
        for process in pathlib.Path("/proc").iterdir():
            if process.name.isdigit() and self.is_ours(process.name):
                one = read(process)
                if one:
                    key = process.name, one[0]
                    self.seen[key] = one[1]
                    found.add(key)
        for key, one in [*self.seen.items()]:
            one.runs = key in found

    def is_ours(self, process):
        try:
            return os.getsid(int(process)) == self.session
        except OSError:
            return False

    def seconds(self):
        """Of each crate and kind the seconds of processor so far."""
        sums = collections.Counter()
        for one in [*self.seen.values()]:
            sums[one.crate, one.kind] += one.seconds
        return sums

    def edits_ended(self, crate):
        """The seconds of each check of an edit of a crate that has ended, in the order in which they began. Each has a folder of its own."""
        taken, running = collections.Counter(), set()
        for one in [*self.seen.values()]:
            if (one.crate, one.kind) == (crate, "edits"):
                taken[one.folder] += one.seconds
                if one.runs:
                    running.add(one.folder)
        return [seconds for folder, seconds in taken.items() if folder not in running]
