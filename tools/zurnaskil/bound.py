"""What a document takes at most, from its numbers: docs/SCALING.md, "What a document takes at most". The counts hold for every document,
whatever its texts and faults are; bytes and minutes are so many for each of them, with room for a slow machine and for the tools beside the
program."""
import dataclasses
import json
import math

from . import limits
from .rules.plans import even_ranges

A_TASK, MINUTES = 64_000_000, 5  # bytes of memory and minutes of any task
# Bytes of address space: for the thread of the work, and for each one more. Each has a stack, and 64 MiB that the C library reserves for it.
THE_WORK, A_THREAD = 80_000_000, 70_000_000
# Of what is counted: how many bytes of memory one takes, and how many of them are done in a minute.
BYTES_OF_ONE = {"bytes": 40, "records": 300, "values": 1_500, "entries": 400, "attempts": 700}
IN_A_MINUTE = {"bytes": 200_000_000, "records": 1_000_000, "values": 1_000_000, "attempts": 100_000, "repeated": 100_000_000}
# Of a first run: how long it may take, and what an attempt and a record of its chunk may, in microseconds.
A_FIRST_RUN, AN_ATTEMPT, A_RECORD = 3_000_000, 100, 2
UNSHAPED = (LookupError, TypeError, ValueError, AttributeError)  # of a tree that is no document


@dataclasses.dataclass(frozen=True)
class Numbers:
    """The numbers of a step: the lengths of its partitions' ranges; of its fault lists how many entries there are, how many tries the shaky ones
    name, and how many are bad; the retry limit, 0 where no class is retried; how many records saved rows have still to do one by one; and
    whether a write may be repeated in place."""

    lengths: list
    item_count: int
    retry_limit: int
    entries: int
    tries: int
    bad: int
    singly: int
    repeats_writes: bool

    @property
    def records(self):
        return sum(self.lengths)

    @property
    def chunks(self):
        return sum(-(-length // self.item_count) for length in self.lengths)

    @property
    def retries(self):
        """Rollbacks for a retry and repeats in place: each takes one of its partition's retries, and a fault that comes."""
        return min(len(self.lengths) * self.retry_limit, self.tries + self.bad * self.retry_limit)

    @property
    def rollbacks(self):
        """Those for a retry, and one for each partition that fails."""
        return self.retries + min(len(self.lengths), self.entries)

    @property
    def attempts(self):
        """At chunks. What is rolled back for a retry is done again record by record, each full chunk at most once."""
        return self.chunks + min(self.records, self.retries * self.item_count + self.singly) + self.rollbacks

    @property
    def repeated(self):
        """Results that are written again in place, a chunk's at each repeat."""
        return self.retries * min(self.item_count, max(self.lengths, default=0)) if self.repeats_writes else 0


def numbers_of(step, data, rows=()):
    """Those of a step and of its data, trees of a document; a step that goes on has the ranges of its saved rows."""
    chunk, plan, records = step["chunk"], step.get("partition", {}).get("plan", {}), len(data["records"])
    item_count, partitions = chunk.get("item-count", limits.ITEM_COUNT_IF_ABSENT), plan.get("partitions", 1)
    if min(item_count, partitions) < 1:
        raise ValueError(f"item-count {item_count}, partitions {partitions}")
    planned = plan["ranges"] if "ranges" in plan else even_ranges(records, min(partitions, limits.PARTITIONS_ASKED))
    goes_on = bool(rows) and not plan.get("override")
    faults = data.get("faults", {})
    entries = [entry for kind in faults.values() for entry in kind]
    names = lambda key: chunk.get(key, {}).get("include", [])
    is_retried = bool(names("retryable-exception-classes"))
    return Numbers(
        [hi - lo for lo, hi, *_ in (rows if goes_on else planned)],
        item_count,
        chunk.get("retry-limit", limits.RETRIES_IF_ABSENT) if is_retried else 0,
        len(entries),
        sum(len(entry[2]) for entry in entries if entry[1] == "shaky"),
        sum(entry[1] == "bad" for entry in entries),
        sum(max(redo - at, 0) for _, _, at, redo, *_ in rows) if goes_on else 0,
        bool(names("no-rollback-exception-classes")) and bool(faults.get("write")),
    )


def saved_of(document):
    """The saved object of a restart's document; else one of no step."""
    return document.get("resume", {}).get("saved", {"step": None, "rows": []})


def all_numbers(document):
    saved = saved_of(document)
    rows_of = lambda step: saved["rows"] if step["id"] == saved["step"] else ()
    return [numbers_of(step, data, rows_of(step)) for step, data in zip(document["job"]["step"], document["data"])]


def added_by_prefix(data):
    """How many bytes the prefix of a step's results adds to the report, at most."""
    written = json.dumps(data.get("prefix", ""), ensure_ascii=False).encode()
    return len(data["records"]) * (len(written) - 2)


def values_in(tree):
    """How many JSON values a tree has, itself among them."""
    parts = tree.values() if isinstance(tree, dict) else tree if isinstance(tree, list) else ()
    return 1 + sum(map(values_in, parts))


def replaced_in(text):
    """How many values of a JSON text have no place in its tree, since their key comes again."""
    replaced = 0

    def last_of_each(members):
        nonlocal replaced
        tree = dict(members)
        if len(tree) < len(members):
            replaced += 1 + sum(values_in(value) for _, value in members) - values_in(tree)
        return tree

    json.loads(text, object_pairs_hook=last_of_each)
    return replaced


def counts_of(document, length, replaced=0):
    """Of a document that is so many bytes long: how much there is at most of all that takes memory or time. Texts of a restart's outputs are
    counted like records."""
    steps, outputs = all_numbers(document), document.get("resume", {}).get("outputs", [])
    total = lambda name: sum(getattr(step, name) for step in steps)
    return {
        "bytes": length + sum(map(added_by_prefix, document["data"])),
        "records": sum(len(data["records"]) for data in document["data"]) + sum(map(len, outputs)),
        "values": values_in(document["job"]) + values_in(saved_of(document)) + replaced,
        **{name: total(name) for name in ("entries", "attempts", "repeated")},
    }


def bytes_of(counts):
    """Of memory."""
    return A_TASK + sum(each * counts[name] for name, each in BYTES_OF_ONE.items())


def space_on(threads, memory=A_TASK):
    """The bytes of address space under which the answer of a task of so much memory is whole."""
    return memory + THE_WORK + A_THREAD * (threads - 1)


def space_of(document, length):
    """That of a document."""
    threads = max(threads_of(step.get("partition", {}).get("plan", {})) for step in document["job"]["step"])
    return space_on(threads, bytes_of(counts_of(document, length)))


def minutes_of(counts):
    """Those of any task, and those for what is counted."""
    return MINUTES, sum(counts[name] / each for name, each in IN_A_MINUTE.items())


def asked_by(document, length):
    """The megabytes and the minutes that a task with this document asks for."""
    counts = counts_of(document, length)
    return -(-bytes_of(counts) // 1_000_000), math.ceil(sum(minutes_of(counts)))


def first_rounds(document):
    """How many rounds a first run has, so that it is short on a slow machine, too: a round has an attempt on each thread. One digit of the number
    is enough."""
    try:
        steps = [(numbers, step.get("partition", {}).get("plan", {})) for numbers, step in zip(all_numbers(document), document["job"]["step"])]
        of_rounds = [threads_of(plan) * (AN_ATTEMPT + A_RECORD * min(numbers.item_count, max(numbers.lengths, default=1))) for numbers, plan in steps]
        rounds = max(A_FIRST_RUN // max(of_rounds), 1)
    except UNSHAPED:
        return 1
    digit = 10 ** (len(str(rounds)) - 1)
    return rounds // digit * digit


def threads_of(plan):
    """The threads of a plan, where 0 stands for the number of its partitions."""
    return min(plan.get("threads", 0) or len(plan.get("ranges", [])) or plan.get("partitions", 1), limits.THREADS)
