"""A partition's row: its numbers, their rules, and how saved objects and reports list it."""
import collections

from .. import limits

from .parts import is_whole

Row = collections.namedtuple(
    "Row", "lo hi at redo retries written READ WRITE COMMIT ROLLBACK READ_SKIP PROCESS_SKIP FILTER WRITE_SKIP in_place state"
)
METRICS = Row._fields[Row._fields.index("READ") : Row._fields.index("in_place")]
SKIPS = ("READ_SKIP", "PROCESS_SKIP", "WRITE_SKIP")
STATES = ("done", "failed", "waiting")
VERSION, NUMBERS = 2, {1: 14, 2: 15}  # of the saved texts that are written; the numbers of a row by their version
RULES = {
    "lo <= at <= hi and lo <= redo <= hi": lambda row: row.lo <= row.at <= row.hi and row.lo <= row.redo <= row.hi,
    "the state is done exactly where at is hi": lambda row: (row.state == "done") == (row.at == row.hi),
    "READ + READ_SKIP = at - lo": lambda row: row.READ + row.READ_SKIP == row.at - row.lo,
    "WRITE = written": lambda row: row.WRITE == row.written,
    "WRITE + PROCESS_SKIP + FILTER <= READ, and as many where WRITE_SKIP is 0": lambda row: (
        (results := row.WRITE + row.PROCESS_SKIP + row.FILTER) <= row.READ and (row.WRITE_SKIP > 0 or results == row.READ)
    ),
    "WRITE_SKIP <= COMMIT <= at - lo, and a COMMIT where at > lo": lambda row: (
        max(row.WRITE_SKIP, int(row.at > row.lo)) <= row.COMMIT <= row.at - row.lo
    ),
    "in_place <= retries <= ROLLBACK + in_place": lambda row: row.in_place <= row.retries <= row.ROLLBACK + row.in_place,
}


def broken_rules(row):
    return [rule for rule, holds in RULES.items() if not holds(row)]


def is_within_limits(row):
    """What the schemas say of a row."""
    return row.hi <= limits.RECORDS and row.ROLLBACK <= limits.ROLLBACKS and row.in_place <= limits.IN_PLACE


def begun(lo, hi):
    """The row of a partition that begins."""
    return Row(lo, hi, lo, lo, *[0] * 11, "done" if lo == hi else "waiting")


def row_of(tree, version):
    """The row that a saved text of this version lists, or None where it is of another form. In version 1 no call was repeated in place."""
    numbers = NUMBERS.get(version) if type(version) is int else None
    is_row = isinstance(tree, list) and numbers is not None and len(tree) == numbers + 1
    if not (is_row and all(map(is_whole, tree[:-1])) and isinstance(tree[-1], str) and tree[-1] in STATES):
        return None
    return Row(*tree[: NUMBERS[1]], tree[NUMBERS[1]] if version > 1 else 0, tree[-1])


def skips_of(row):
    """How many faults of a partition were skipped: reads, results and write calls."""
    return sum(getattr(row, name) for name in SKIPS)
