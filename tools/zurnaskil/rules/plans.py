"""A step's partition plan: into which ranges its records are divided, and on how many threads they are done."""
import itertools
from collections import namedtuple

from .. import limits

from .parts import Refused, Table, flag, is_whole, listed, number

MOST_PAIRS = 1_000  # of ranges with a record in common that are told


class Plan(namedtuple("Plan", "partitions threads override ranges")):
    """`ranges` is None where the records are divided evenly."""

    def ranges_of(self, records):
        """The ranges of so many records; the first fault of the plan is refused."""
        for name, *_ in self.faults(records):
            raise Refused(name)
        return even_ranges(records, self.partitions) if self.ranges is None else self.ranges

    def faults(self, records):
        """What is wrong with it for so many records, in the order in which the program looks: a name, a place in the plan, and a line."""
        key, asked = ("partitions", self.partitions) if self.ranges is None else ("ranges", len(self.ranges))
        if self.ranges == []:
            yield "NoPartition", [key], "there is no partition"
        if asked is not None and asked > limits.PARTITIONS:
            yield "TooMany", [key], f"there are more than {limits.PARTITIONS} partitions"
        pairs = {place: pair for place, pair in enumerate(self.ranges or []) if pair is not None}
        for place, (lo, hi) in pairs.items():
            if hi < lo:
                yield f"Reversed({place})", [key, place], "it ends before it begins"
            if hi > records:
                yield f"PastEnd({place})", [key, place], f"it ends behind the last of {records} records"
        for i, j, line in itertools.islice(overlaps(pairs), MOST_PAIRS):
            yield f"Overlap({i},{j})", [key, j], line


def even_ranges(records, partitions):
    """The first ones are longer by one record where they don't divide evenly."""
    length, longer = divmod(records, partitions)
    ends = [place * length + min(place, longer) for place in range(partitions + 1)]
    return list(zip(ends, ends[1:]))


def overlaps(pairs):
    """The places of any two ranges with a record in common, in the order in which the program looks for them, each with a line."""
    filled = {place: (lo, hi) for place, (lo, hi) in pairs.items() if lo < hi}
    in_order = sorted(filled.values())
    if any(before[1] > behind[0] for before, behind in zip(in_order, in_order[1:])):
        for (i, one), (j, other) in itertools.combinations(filled.items(), 2):
            if max(one[0], other[0]) < min(one[1], other[1]):
                yield i, j, f"it has record {max(one[0], other[0])} in common with range {i}"


def range_of(part):
    if not part.shaped(isinstance(part.tree, list) and len(part.tree) == 2 and all(map(is_whole, part.tree))):
        return None
    part.ranged(max(part.tree) <= limits.RECORDS)
    return tuple(part.tree)


def ranges_of(part):
    part.shaped("partitions" not in part.holder)
    return listed(0, limits.RANGES, range_of)(part)


PLAN = Table(
    Plan,
    ("partitions", number(1, limits.PARTITIONS_ASKED), 1),
    ("threads", number(0, limits.THREADS_ASKED), 0),
    ("override", flag, False),
    ("ranges", ranges_of, None),
)
ONE_PARTITION = Plan(1, 0, False, None)
PARTITION = Table(lambda plan: plan or ONE_PARTITION, ("plan", PLAN))
