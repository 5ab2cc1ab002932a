"""A partition's chunks, one after the other: which faults are met, and what becomes of them."""
import collections

from .data import KINDS
from .rows import skips_of

# A call that failed on a record. `dropped` are the records without a result by it: a write drops its whole list.
Fault = collections.namedtuple("Fault", "kind fault_class record dropped", defaults=[()])


class Failure(collections.namedtuple("Failure", "fault lo hi reason")):
    """The fault at which a partition failed, the records [lo,hi) of its chunk, and why it was neither skipped nor retried."""

    def is_at_limit(self):
        """Whether a limit was reached; else its class is neither skippable nor retryable."""
        return self.reason.endswith(" reached")


class Struck(Exception):
    """A call that ends its chunk: its fault, and `retry` where the chunk is rolled back, else why the partition fails."""


def block_of(row, item_count):
    """The records of the chunk at which a partition stands: single ones up to `redo`."""
    return row.at, row.at + 1 if row.at < row.redo else min(row.at + item_count, row.hi)


class Partition:
    """A partition on its way from a row on, by its step's `chunk` and `data`; one that failed waits again, and fault lists are read anew.
    `skipped` are the faults that were skipped since, and `failure` is the one at which it failed."""

    def __init__(self, chunk, data, row):
        self.chunk, self.data, self.row = chunk, data, row._replace(state="done" if row.at == row.hi else "waiting")
        self.skipped, self.failure = [], None
        self.met = collections.Counter()  # faults of a shaky entry, by the call's kind and record

    def add(self, **numbers):
        self.row = self.row._replace(**{name: getattr(self.row, name) + number for name, number in numbers.items()})

    def chunks_left(self):
        single = max(self.row.redo - self.row.at, 0)
        return 0 if self.failure else single + -(-(self.row.hi - self.row.at - single) // self.chunk.item_count)

    def attempt(self):
        """Does the next chunk: it commits, is rolled back for a retry, or fails. Whether it was committed."""
        before, skipped, (lo, hi) = self.row, len(self.skipped), block_of(self.row, self.chunk.item_count)
        try:
            self.calls(lo, hi)
        except Struck as struck:
            del self.skipped[skipped:]
            self.roll_back(before, hi, *struck.args)
            return False
        self.commit(hi, self.skipped[skipped:])
        return True

    def commit(self, end, _):
        """Ends the chunk at this record, with the faults that were skipped in it."""
        self.row = self.row._replace(at=end, COMMIT=self.row.COMMIT + 1, state="done" if end == self.row.hi else "waiting")

    def roll_back(self, before, end, fault, choice):
        """Drops the counts of the chunk, but for the retries that were used up in place."""
        self.row = before._replace(retries=self.row.retries, in_place=self.row.in_place, ROLLBACK=before.ROLLBACK + 1)
        if choice == "retry":
            self.row = self.row._replace(retries=self.row.retries + 1, redo=max(before.redo, end))
        else:
            self.row = self.row._replace(state="failed")
            self.failure = Failure(fault, before.at, end, choice)

    def calls(self, lo, hi):
        """Reads and processes the chunk's records, and writes their results. A call on a record of no fault list goes well."""
        places, gone = self.data.places_in(lo, hi), set()
        for record in places:
            for kind, count in (("read", "READ_SKIP"), ("process", "PROCESS_SKIP")):
                if record not in gone and (fault := self.called(kind, [record])):
                    self.skip(fault, count, [record])
                    gone.add(record)
        if fault := self.called("write", self.results_of(places, gone)):
            self.skip(fault, "WRITE_SKIP", self.results_of(range(lo, hi), gone))

    def results_of(self, records, gone):
        """Those of the records that have a result."""
        return [record for record in records if record not in gone and not self.data.is_filtered(record)]

    def skip(self, fault, count, dropped):
        self.skipped.append(fault._replace(dropped=tuple(dropped)))
        self.add(**{count: 1})

    def called(self, kind, records):
        """Makes a call, again where its fault is repeated in place: None where it went well, else its fault, which is skipped."""
        while fault := self.strike(kind, records):
            choice = self.choice(fault.fault_class)
            if choice == "skip":
                return fault
            if choice != "repeat":
                raise Struck(fault, choice)
            self.add(retries=1, in_place=1)
        return None

    def strike(self, kind, records):
        """The fault of the call, if it has one: a bad record's each time, each of a shaky one's once."""
        for record in records:
            fails, classes = self.data.faults[KINDS.index(kind)].get(record, ("shaky", ()))
            met = 0 if fails == "bad" else self.met[kind, record]
            if met < len(classes):
                self.met[kind, record] += 1
                return Fault(kind, classes[met], record)
        return None

    def choice(self, fault_class):
        """Whether a fault is skipped, retried by a rollback or repeated in place; else the limits that were reached."""
        chunk, ways = self.chunk, {}
        if fault_class in chunk.skippable:
            ways["skip"] = skips_of(self.row), chunk.skip_limit
        if fault_class in chunk.retryable:
            ways["retry"] = self.row.retries, chunk.retry_limit
        for way in ("skip", "retry") if self.row.at < self.row.redo else ("retry", "skip"):
            used, limit = ways.get(way, (0, 0))
            if limit is None or used < limit:
                return "repeat" if way == "retry" and fault_class in chunk.no_rollback else way
        reached = [f"{way} limit {limit} reached" for way, (_, limit) in ways.items()]
        return " and ".join(reached) or f"{fault_class} is neither skippable nor retryable"
