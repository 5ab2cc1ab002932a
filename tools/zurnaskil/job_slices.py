"""A job by slices: what the checkpoints of a slice say, and the slices of a folder. docs/FORMATS.md, "Checkpoints in a folder", describes them."""
import dataclasses
import json
import os
import re
import struct

from . import checkpoints, limits, reports
from .checkpoints import Refused, checked
from .rules import plans, rows

FORM = 3  # the version of a header
NUMBERS = {
    "slice": (0, 2**64 - 1), "items": (0, limits.RECORDS), "slice-length": (1, limits.RECORDS), "partitions": (1, limits.PARTITIONS_ASKED),
    "item-count": (1, limits.ITEM_COUNT), "retry-limit": (0, limits.RETRY_LIMIT),
}
CLASS_LISTS = ("skippable", "retryable", "no-rollback")
LIMITS = ("skip-limit", "job-skip-limit")
KEYS = {"form", "job", "classes", "stamp", *NUMBERS, *CLASS_LISTS, *LIMITS}
IDENTITY = ("job", "slice-length", "partitions", "item-count", "classes", *CLASS_LISTS)  # what all slices of a job have in common
HEADER_LISTS, LISTS_OF_ALL, LISTS_OF_EACH = 10, 1, 3  # of a header; of an interval, and of each of its partitions
FAULT = 9  # bytes
NAME = re.compile(r"slice-(\d{6,20})\.db")


@dataclasses.dataclass
class Fault:
    """A fault: the number of its record in the job, the first being 0, and of its class."""

    record: int
    fault_class: int


@dataclasses.dataclass
class Slice:
    """A slice by its checkpoints: its header as a JSON tree, the limits of the last one, and of each partition its row, the faults that it
    skipped, and the one by which it failed, if it did. `earlier` has where the partitions were at each checkpoint before the last one. `holder`
    is the process that holds the file, if any."""

    header: dict
    checkpoints: int
    limits: dict[str, int | None]
    rows: list[rows.Row]
    skips: list[list[Fault]]
    stops: list[Fault | None]
    earlier: list[list[int]] = dataclasses.field(default_factory=list)
    holder: int | None = None

    def state(self):
        states = {row.state for row in self.rows}
        if states <= {"done"}:
            return "whole"
        if self.holder is not None:
            return "running"
        return "failed" if "waiting" not in states else "unfinished"

    def all_skips(self):
        return [fault for faults in self.skips for fault in faults]


def path_of(folder, number):
    """The path of a slice's file."""
    return os.path.join(folder, f"slice-{number:06d}.db")


def numbers_in(folder) -> list[int]:
    """The numbers of the slices that have a file in a folder."""
    try:
        names = os.listdir(folder)
    except OSError as fault:
        raise Refused("CannotOpen", f"{folder} can't be read: {fault.strerror}", checkpoints.NO_ANSWER) from None
    numbers = (int(match[1]) for name in names if (match := NAME.fullmatch(name)))
    return sorted(number for number in numbers if os.path.basename(path_of(folder, number)) in names)


# ---- the bytes of a checkpoint


def lists_in(coded: bytes) -> list[list[bytes]] | None:
    """The lists of strings that these bytes are the coding of: for each list how many strings it has, and for each its length and its bytes.
    A number has four bytes, the lowest first. None if they are no coding."""
    at, lists = 0, []
    try:
        while at < len(coded):
            count, = struct.unpack_from("<I", coded, at)
            at, strings = at + 4, []
            for _ in range(count):
                length, = struct.unpack_from("<I", coded, at)
                strings.append(coded[at + 4 : at + 4 + length])
                at += 4 + length
            lists.append(strings)
    except struct.error:
        return None
    return lists if at == len(coded) else None


def coded(lists: list[list[bytes]]) -> bytes:
    """The coding of lists of strings."""
    number = lambda value: struct.pack("<I", value)
    return b"".join(number(len(strings)) + b"".join(number(len(string)) + string for string in strings) for strings in lists)


def number_string(number: int | None) -> bytes:
    """A number as a string of a list; None, of a limit, is an empty one."""
    return b"" if number is None else struct.pack("<Q", number)


def number_in(string: bytes) -> int | None:
    return int.from_bytes(string, "little") if string else None


def fields_in(packed: bytes) -> list[bytes] | None:
    """The fields of a packed record, as the results of a job over CSV are: of each field its size, and then its bytes. A size is the sum of
    its bytes, of which the last one alone is below 255. None if the bytes are no whole fields."""
    at, fields = 0, []
    while at < len(packed):
        size = 0
        while at < len(packed) and packed[at] == 255:
            size, at = size + 255, at + 1
        if at == len(packed) or at + 1 + packed[at] + size > len(packed):
            return None
        size, at = size + packed[at], at + 1
        fields.append(packed[at : at + size])
        at += size
    return fields


# ---- a header


def are_texts(value):
    return isinstance(value, list) and all(map(reports.is_text, value))


def are_classes(value):
    return isinstance(value, list) and all(reports.is_number(each) and each < limits.CLASSES for each in value)


def is_header(tree):
    is_shaped = reports.has_keys(tree, KEYS) and reports.is_text(tree["job"]) and reports.is_text(tree["stamp"]) and are_texts(tree["classes"])
    if not (is_shaped and all(are_classes(tree[name]) for name in CLASS_LISTS)):
        return False
    are_limits = all(tree[name] is None or reports.is_number(tree[name]) for name in LIMITS)
    return are_limits and all(reports.is_number(tree[name]) and least <= tree[name] <= most for name, (least, most) in NUMBERS.items())


def text_of(tree: dict) -> bytes:
    """The text of a header."""
    return json.dumps(tree, ensure_ascii=False, separators=(",", ":")).encode()


def lists_of_header(tree: dict, digest: bytes) -> list[list[bytes]]:
    """The lists of a header, whose text is this tree, with the digest of its records."""
    bits = [number_string(sum(1 << number for number in tree[name])) for name in CLASS_LISTS]
    numbers = {name: [number_string(tree[name])] for name in NUMBERS}
    names = [name.encode() for name in tree["classes"]]
    some_limits = [number_string(tree[name]) for name in (*LIMITS, "retry-limit")]
    sizes = [numbers[name] for name in ("slice-length", "partitions", "item-count")]
    return [[digest], [tree["job"].encode()], *sizes, bits + names, [tree["stamp"].encode()], some_limits, numbers["slice"], numbers["items"]]


def header_in(saved: bytes, results: bytes) -> dict:
    """The header of a slice, which its first checkpoint keeps as a text, and once more as lists."""
    try:
        tree = reports.tree_of(saved, "checkpoint 1")
    except reports.Refused as refused:
        raise Refused("Header", refused) from None
    is_other = isinstance(tree, dict) and reports.is_number(tree.get("form")) and tree["form"] != FORM
    checked(not is_other, "Version", "checkpoint 1 is of another version")
    checked(is_header(tree), "Header", "checkpoint 1 isn't the header of a slice")
    lists = lists_in(results) or []
    is_digest = len(lists) == HEADER_LISTS and len(lists[0]) == 1 and len(lists[0][0]) == checkpoints.DIGEST
    checked(is_digest and lists == lists_of_header(tree, lists[0][0]), "Header", "checkpoint 1 has other lists than its text says")
    return tree


# ---- the intervals


def check_rows(header, place, tree, found):
    """The rules of rows, the job and the ranges of its partitions."""
    for partition, row in enumerate(found):
        for rule in rows.broken_rules(row):
            raise reports.Refused(f"{place}, rows[{partition}] breaks this rule of rows: {rule}")
    ranges = [(row.lo, row.hi) for row in begun_rows(header)]
    is_of_header = tree.get("step") == header["job"] and [(row.lo, row.hi) for row in found] == ranges
    reports.checked(is_of_header, f"{place} isn't of the job and the ranges of checkpoint 1")


def begun_rows(header: dict) -> list[rows.Row]:
    """The rows of a slice that begins."""
    return [rows.begun(lo, hi) for lo, hi in plans.even_ranges(header["items"], header["partitions"])]


def rows_in(header: dict, number: int, saved: bytes) -> list[rows.Row]:
    """The rows of a checkpoint after the first."""
    place = f"checkpoint {number}"
    try:
        tree = reports.tree_of(saved, place)
        reports.checked(reports.is_saved(tree), f"{place} isn't a saved object of version 1 or 2")
        found = reports.rows_of(tree["rows"], tree["version"], f"{place}, rows")
        check_rows(header, place, tree, found)
    except reports.Refused as refused:
        raise Refused("Saved", refused) from None
    return found


def faults_in(strings: list[bytes]) -> list[Fault]:
    """The faults of a list."""
    return [Fault(int.from_bytes(string[: FAULT - 1], "little"), string[FAULT - 1]) for string in strings]


def news_of(results: bytes, partitions: int) -> tuple[list[bytes], list[list[list[bytes]]]] | None:
    """What an interval has: its limits, and of each partition the new results, the new skips, and the stop, as lists of strings. None if the
    bytes are no such lists."""
    lists = lists_in(results) or []
    if len(lists) != LISTS_OF_ALL + LISTS_OF_EACH * partitions or len(lists[0]) != len(LIMITS) + 1:
        return None
    news = [lists[at : at + LISTS_OF_EACH] for at in range(LISTS_OF_ALL, len(lists), LISTS_OF_EACH)]
    are_faults = all(len(string) == FAULT for _, skips, stop in news for string in skips + stop)
    return (lists[0], news) if are_faults and all(len(stop) <= 1 for _, _, stop in news) else None


def slice_in(kept: list[tuple[bytes, bytes]], holder: int | None = None) -> Slice:
    """The slice of which these are the checkpoints: of each its text and its results."""
    header = header_in(*kept[0])
    first_limits = {name: header[name] for name in (*LIMITS, "retry-limit")}
    found = Slice(header, len(kept), first_limits, begun_rows(header), [], [], holder=holder)
    found.skips, found.stops = [[] for _ in found.rows], [None] * len(found.rows)
    for number, (saved, results) in enumerate(kept[1:], 2):
        found.earlier.append([row.at for row in found.rows])
        found.rows = rows_in(header, number, saved)
        news = news_of(results, len(found.rows))
        checked(news is not None, "Saved", f"checkpoint {number} isn't what an interval of so many partitions has")
        found.limits = dict(zip(found.limits, map(number_in, news[0])))
        for partition, (_, skips, stop) in enumerate(news[1]):
            found.skips[partition] += faults_in(skips)
            found.stops[partition] = faults_in(stop)[0] if stop else None
    return found


def slice_of(path) -> Slice:
    """The slice that a file keeps."""
    return slice_in(*checkpoints.kept_in(path))


def course_of(path) -> list[list[rows.Row]]:
    """The rows of each checkpoint that a file keeps; those of the first one begin."""
    kept, _ = checkpoints.kept_in(path)
    header = header_in(*kept[0])
    return [begun_rows(header), *(rows_in(header, number, saved) for number, (saved, _) in enumerate(kept[1:], 2))]


def results_in(kept: list[tuple[bytes, bytes]]) -> list[bytes] | None:
    """All results of a slice, those of one partition after those of the other. None if a checkpoint isn't an interval."""
    partitions = header_in(*kept[0])["partitions"]
    joined = [[] for _ in range(partitions)]
    for _, results in kept[1:]:
        news = news_of(results, partitions)
        if news is None:
            return None
        for found, (more, _, _) in zip(joined, news[1]):
            found += more
    return [result for found in joined for result in found]
