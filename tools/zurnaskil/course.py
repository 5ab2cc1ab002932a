"""What became of a job's steps over all its reports: which records were skipped, at which a partition failed, and the lines on them."""
import json

from . import reports
from .rules import history, rows
from .rules.chunks import Fault
from .rules.documents import chunks_of

SHOWN = 5  # skips of a partition that are printed


class Course:
    """A step over all reports: its last one, the skips that could be worked out, by partition, and why partitions failed."""

    def __init__(self, chunk, data):
        self.chunk, self.data, self.step, self.skipped, self.failures = chunk, data, None, {}, {}

    def go_on(self, name, step, found_before):
        """Takes the step of the report of that name. Where the document was changed since, what was found before stands."""
        before = [rows.begun(row.lo, row.hi) for row in step.rows] if self.step is None else self.step.rows
        self.failures = {}
        for partition, (start, row) in enumerate(zip(before, step.rows)):
            skips = reports.skips_of(row) - reports.skips_of(start)
            if skips == 0 and row.state != "failed":
                continue
            met = history.met(self.chunk, self.data, start, row)
            skipped, failure = met or (found_before.get((name, step.name, partition), []), None)
            if len(skipped) == skips:
                self.skipped.setdefault(partition, []).extend((name, fault) for fault in skipped)
                self.failures[partition] = failure
        self.step = step


def courses_of(document, kept, found_before):
    """The course of each step that ran, in the order of the job, by the reports in their order, each with its name."""
    try:
        steps = zip(document["job"]["step"], document["data"])
        courses = {step["id"]: Course(*chunks_of(document["job"], step, data)) for step, data in steps}
    except (LookupError, TypeError, ValueError, AttributeError):
        raise reports.Refused("the document isn't one that the program takes") from None
    for name, report in kept:
        for step in report.steps:
            if step.name in courses:
                courses[step.name].go_on(name, step, found_before)
    return [course for course in courses.values() if course.step is not None]


def fault_text(fault):
    others = f" and {len(fault.dropped) - 1} more of its call" if len(fault.dropped) > 1 else ""
    return f"{fault.kind} fault {fault.fault_class} of record {fault.record}{others}"


def failed_lines(course, partition, row):
    """At which fault a partition failed, and whether a stop has used up its retries."""
    failure = course.failures.get(partition)
    if failure is None:
        yield f"partition {partition} failed; the document's faults don't lead to its counts"
        return
    yield f"partition {partition} failed in records {failure.lo}..{failure.hi - 1}: {failure.reason}, {fault_text(failure.fault)}"
    if failure.is_at_limit() and row.retries and history.passes_in_one_run(course.chunk, course.data, row, failure.fault.record):
        yield f"partition {partition} would pass there in one run: after a stop shaky faults come again, and use up retries once more"


def skipped_line(partition, count, skipped):
    shown = [fault_text(fault) for _, fault in skipped[:SHOWN]]
    if len(skipped) > SHOWN:
        shown.append(f"{len(skipped) - SHOWN} more in skipped.jsonl")
    if count > len(skipped):
        shown.append(f"{count - len(skipped)} to which the document's faults don't lead")
    return f"partition {partition} skipped {count}: {', '.join(shown)}"


def lines_of(course, is_only):
    """What is to be said of the partitions of a step that failed or skipped; the step is named where it isn't the job's only one."""
    of_step = "" if is_only else f"step {course.step.name}, "
    for partition, row in enumerate(course.step.rows):
        for line in failed_lines(course, partition, row) if row.state == "failed" else ():
            yield f"  {of_step}{line}"
    for partition, row in enumerate(course.step.rows):
        if reports.skips_of(row):
            yield f"  {of_step}{skipped_line(partition, reports.skips_of(row), course.skipped.get(partition, []))}"


def failures_of(course):
    """Of each partition that failed its failure, or None where it isn't known."""
    return [course.failures.get(partition) for partition, row in enumerate(course.step.rows) if row.state == "failed"]


def skipped_text(courses):
    """All skips, one a line."""
    for course in courses:
        for partition, faults in sorted(course.skipped.items()):
            for name, fault in faults:
                place = {"report": name, "step": course.step.name, "partition": partition, "record": fault.record}
                tree = place | {"fault": fault.kind, "class": fault.fault_class, "dropped": fault.dropped}
                yield json.dumps(tree, ensure_ascii=False, separators=(",", ":")).encode() + b"\n"


def skipped_in(path):
    """The skips that such a text has, by report, step and partition; none where it isn't there or is another text."""
    found = {}
    try:
        with open(path, "rb") as file:
            for tree in map(json.loads, file):
                fault = Fault(tree["fault"], tree["class"], tree["record"], tuple(tree["dropped"]))
                found.setdefault((tree["report"], tree["step"], tree["partition"]), []).append(fault)
    except (OSError, ValueError, LookupError, TypeError):
        return {}
    return found
