"""What a restart goes on from: the rows that a run before has saved, and its outputs."""
from collections import namedtuple

from .. import limits

from .parts import Table, bytes_in, is_whole
from .plans import MOST_PAIRS, overlaps
from .rows import NUMBERS, broken_rules, is_within_limits, row_of


class Resume(namedtuple("Resume", "step rows outputs")):
    """The id of the step that goes on; its rows by their places, and the outputs of each."""

    def past_end(self, records):
        """Each row that ends behind so many records, with a line: it is looked at when the step's turn comes."""
        return [(place, f"it ends behind the last of {records} records") for place, row in self.rows.items() if row.hi > records]


def resume_of(part):
    outputs, (step, rows, listed) = RESUME(part)
    common = list(overlaps({place: (row.lo, row.hi) for place, row in rows.items()}))
    wrong = [place for place, row in rows.items() if broken_rules(row) or not is_within_limits(row)]
    if wrong := [*wrong, *(place for _, place, _ in common)]:
        part.refuse(f"Saved(Rows({min(wrong)}))")
    is_other_number = None not in (outputs, listed) and len(outputs) != listed
    if is_other_number:
        part.refuse("WrongShape(outputs)")
    for place, row in rows.items():
        tell_of_row(part, place, row, (outputs or [])[place : place + 1])
    for _, place, line in common[:MOST_PAIRS]:
        part.place("saved", "rows", place).tell(line)
    if is_other_number:
        part.place("outputs").tell(f"it has {len(outputs)} members, and there are {listed} rows")
    if step is not None and step not in [each.name for each in part.reading.steps]:
        part.place("saved", "step").refuse("Saved(Step)", "the job has no step of that id")
    return Resume(step, rows, outputs)


def tell_of_row(part, place, row, outputs):
    """The rules that a row breaks, and whether its list of outputs is too short."""
    for rule in broken_rules(row):
        part.place("saved", "rows", place).tell(f"it breaks this rule of rows: {rule}")
    for texts in outputs:
        if isinstance(texts, list) and len(texts) < row.written:
            line = f"it has {len(texts)} texts, and its row has {row.written} written"
            part.place("outputs", place).refuse("OutOfRange(outputs)", line)


def outputs_of(part):
    outputs = part.tree if isinstance(part.tree, list) else []
    are_lists = outputs is part.tree and all(isinstance(texts, list) for texts in outputs)
    part.shaped(are_lists and all(isinstance(text, str) for texts in outputs for text in texts))
    return outputs


def saved_of(part):
    """The id, the rows that are of their form, and how many are listed; None of what isn't there."""
    tree = part.tree if isinstance(part.tree, dict) else {}
    step, version = tree.get("step"), tree.get("version")
    listed = tree.get("rows") if isinstance(tree.get("rows"), list) else []
    rows = {place: row for place, each in enumerate(listed) if (row := row_of(each, version))}
    if is_whole(version) and version not in NUMBERS:
        part.refuse("Saved(Version)")
    is_named = isinstance(step, str) and 1 <= bytes_in(step) <= limits.ID_BYTES
    has_rows = 1 <= len(listed) <= limits.PARTITIONS and len(rows) == len(listed)
    if tree.keys() != {"rows", "step", "version"} or not (is_whole(version) and is_named and has_rows):
        part.refuse("Saved(Shape)")
    return step if isinstance(step, str) else None, rows, len(listed) if "rows" in tree else None


RESUME = Table(lambda outputs, saved: (outputs, saved or (None, {}, None)), ("outputs", outputs_of), ("saved", saved_of))
