"""Which faults of a document a partition met between two reports: those that were skipped, and the one at which it failed.

A report has counts and no record numbers; the faults stand in the document. So a partition's chunks are done again here, from its row in
the report before to its row in this one, those without a fault all at once. What was met is said only where that ends at this very row:
its checkpoint, retries, repeats, commits, rollbacks and skips of each kind.
"""
import bisect

from . import chunks, rows

COMPARED = ("at", "redo", "retries", "in_place", "COMMIT", "ROLLBACK", "READ_SKIP", "PROCESS_SKIP", "WRITE_SKIP")


class Replay(chunks.Partition):
    """A partition on its way from one row to another."""

    def leads_to(self, row):
        """Does the chunks again up to that row, and says whether they lead there. Each adds one to COMMIT or to ROLLBACK."""
        ends = row.COMMIT + row.ROLLBACK
        while self.row.COMMIT + self.row.ROLLBACK < ends and self.failure is None and self.row.at < self.row.hi:
            if not self.pass_clear_chunks(ends - self.row.COMMIT - self.row.ROLLBACK):
                self.attempt()
        has_numbers = all(getattr(self.row, name) == getattr(row, name) for name in COMPARED)
        return has_numbers and (self.failure is not None) == (row.state == "failed")

    def pass_clear_chunks(self, most):
        """Commits the chunks before the next record of which a call may fail, up to so many; says whether there was one."""
        at, hi, length = self.row.at, self.row.hi, self.chunk.item_count
        place = bisect.bisect_left(self.data.places, at)
        fault = self.data.places[place] if place < len(self.data.places) else hi
        if at < self.row.redo:
            length, hi = 1, self.row.redo
        clear = -(-(hi - at) // length) if fault >= hi else (fault - at) // length
        clear = min(clear, most)
        self.add(at=min(clear * length, hi - at), COMMIT=clear)
        return clear > 0


def passes_in_one_run(chunk, data, row, record):
    """Whether a partition that failed at this record would have passed it in one run. In a restart a shaky fault comes again where its
    record wasn't committed, and is retried once more."""
    replay = Replay(chunk, data, rows.begun(row.lo, row.hi))
    while replay.failure is None and replay.row.at <= record:
        if not replay.pass_clear_chunks(row.hi):
            replay.attempt()
    return replay.failure is None


def met(chunk, data, before, after):
    """The skips, and the failure or None, by which a partition came from one row to another; None where they don't lead there."""
    if (before.lo, before.hi) != (after.lo, after.hi):
        return None
    replay = Replay(chunk, data, before)
    try:
        return (replay.skipped, replay.failure) if replay.leads_to(after) else None
    except LookupError:
        return None
