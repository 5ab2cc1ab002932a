"""A step's data: its records, what its artifacts do with them, and which calls fail."""
import bisect
import functools

from .. import limits

from .job import known_class
from .parts import Table, is_whole, items, listed, text

KINDS = ("read", "process", "write")


class Data:
    """`faults` has for each kind of call the faults of records, by their numbers: `bad` or `shaky`, and classes."""

    def __init__(self, records, prefix, drop, faults):
        self.records, self.prefix, self.drop, self.faults = records or [], prefix, drop, faults

    @functools.cached_property
    def places(self):
        """The records of which a call may fail."""
        return sorted(set().union(*self.faults))

    def places_in(self, lo, hi):
        return self.places[bisect.bisect_left(self.places, lo) : bisect.bisect_left(self.places, hi)]

    def is_filtered(self, record):
        return self.drop is not None and self.records[record].startswith(self.drop)


def records_of(part):
    records = items(0, limits.RECORDS, part)
    for place, record in enumerate(records):
        if not isinstance(record, str) or 4 * len(record) > limits.RECORD_BYTES:  # a character has at most four bytes
            text(0, limits.RECORD_BYTES)(part.at(place))
    part.reading.records = len(records)
    return records


def entries_of(part):
    """How calls fail, by the numbers of their records."""
    faults, before = {}, -1

    def read(entry):
        nonlocal before
        if not entry.shaped(isinstance(entry.tree, list) and len(entry.tree) == 3 and is_whole(entry.tree[0])):
            return
        (record, kind, _), place, classes, records = entry.tree, entry.at(0), entry.at(2), entry.reading.records
        entry.shaped((kind, type(classes.tree)) in [("bad", str), ("shaky", list)])
        place.shaped(record > before, f"record numbers rise, and the one before is {before}")
        place.ranged(record < records, f"there are {records} records, from 0")
        is_one = isinstance(classes.tree, str)
        names = [known_class(classes)] if is_one else listed(1, limits.ENTRY_CLASSES, known_class)(classes)
        faults[record], before = (kind, names), record

    listed(0, limits.ENTRIES, read)(part)
    return faults


FAULTS = Table(lambda *kinds: kinds, *((kind, entries_of, {}) for kind in KINDS))
DATA = Table(
    Data,
    ("records", records_of),
    ("prefix", text(0, limits.AFFIX_BYTES), ""),
    ("drop", text(1, limits.AFFIX_BYTES), None),
    ("faults", FAULTS, ({}, {}, {})),
)


def data_of(part):
    part.reading.records = 0
    return DATA(part)
