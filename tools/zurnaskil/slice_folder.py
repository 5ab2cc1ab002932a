"""A job by slices as its folder has it: the state of each slice, and of the job. docs/FORMATS.md, "Checkpoints in a folder", describes the files."""
import collections
import dataclasses

from . import checkpoints, job_history, job_slices as slices
from .rules.rows import Row

STATES = ("refused", "failed", "unfinished", "running", "not begun", "missing", "whole")  # of slices, in the order in which they are listed
STATUSES = {"whole": "COMPLETED", "failed": "FAILED", "running": "STARTED", "unfinished": "STOPPED"}  # of a job that is one slice


@dataclasses.dataclass
class Entry:
    """A slice of a folder, or several that have no file: its numbers, its state, what its file says, or why that is refused; and the process that
    holds it."""

    first: int
    last: int
    state: str
    slice: slices.Slice | None = None
    refused: checkpoints.Refused | None = None
    holder: int | None = None


def entry_of(folder, number: int) -> Entry:
    """What the file of a slice says, or why it is refused."""
    path = slices.path_of(folder, number)
    try:
        found = slices.slice_of(path)
        checkpoints.checked(found.header["slice"] == number, "OtherSlice", f"{path} keeps slice {found.header['slice']}")
    except checkpoints.Refused as refused:
        holder = checkpoints.holder_of(path) if refused.name == "Empty" else None
        state = "refused" if refused.name != "Empty" else "not begun" if holder is None else "running"
        return Entry(number, number, state, refused=refused if state == "refused" else None, holder=holder)
    return Entry(number, number, found.state(), found, holder=found.holder)


def refuse_others(entries: list[Entry]) -> None:
    """Refuses the slices of another job than the first one."""
    own = next((entry.slice.header for entry in entries if entry.slice), None)
    for entry in entries:
        parts = [part for part in slices.IDENTITY if entry.slice and entry.slice.header[part] != own[part]]
        if parts:
            reason = f"it is of another job than slice {own['slice']}, which has another {'name' if parts[0] == 'job' else parts[0]}"
            entry.slice, entry.state, entry.refused = None, "refused", checkpoints.Refused("OtherJob", reason)


def entries_in(folder) -> list[Entry]:
    """All slices up to the last one that has a file."""
    found = [entry_of(folder, number) for number in slices.numbers_in(folder)]
    checkpoints.checked(found, "Empty", f"{folder} has no slice yet")
    refuse_others(found)
    nexts = [0, *(entry.last + 1 for entry in found)]
    gaps = [Entry(first, entry.first - 1, "missing") for first, entry in zip(nexts, found) if first < entry.first]
    return sorted([*found, *gaps], key=lambda entry: (STATES.index(entry.state), entry.first))


class Job:
    """A job by the slices of its folder."""

    def __init__(self, folder):
        self.folder, self.entries = folder, entries_in(folder)
        self.slices = [entry.slice for entry in self.entries if entry.slice]
        self.header = self.slices[0].header if self.slices else None
        self.count = collections.Counter()
        for entry in self.entries:
            self.count[entry.state] += entry.last - entry.first + 1

    def has_last(self):
        """Whether the last slice is there: the one that is shorter."""
        return any(found.header["items"] < found.header["slice-length"] for found in self.slices)

    def limit(self) -> int | None:
        """The limit of the job's skips, the highest by which a slice ran; None if there is none."""
        found = [each.limits["job-skip-limit"] for each in self.slices]
        return None if None in found else max(found, default=None)

    def has_too_many(self):
        skips = sum(len(found.all_skips()) for found in self.slices if found.state() == "whole")
        return self.limit() is not None and skips > self.limit()

    def status(self) -> str:
        if self.count["running"]:
            return "STARTED"
        if self.count["failed"] or self.has_too_many():
            return "FAILED"
        is_whole = self.count["whole"] == sum(self.count.values()) and self.has_last()
        return "COMPLETED" if is_whole else "STOPPED"

    def rows(self) -> list[Row]:
        return [row for found in self.slices for row in found.rows]

    def clock(self) -> tuple[float | None, float | None]:
        """When the job's first run began and its last one ended, in seconds since 1970, by the folder's history; None where it doesn't say so."""
        return job_history.clock_of(self.folder)
