"""The metrics of a job as OpenMetrics text, for `job-status` and `report-table`. docs/FORMATS.md, "Metrics", lists them."""
import argparse
import collections
import dataclasses
import os
import re
import sys
from collections.abc import Iterator

from . import reports
from .rules.rows import METRICS, STATES, Row

STATUSES = ("COMPLETED", "FAILED", "STARTED", "STOPPED")
LABEL = re.compile(r"(?!__)[A-Za-z_][A-Za-z0-9_]*")
OWN_LABELS = {"job", "step", "partition", "slice", "state", "status", "class"}
HELPS = {  # of what a row counts; the eight metrics are named as Jakarta names them
    "READ": "READ_COUNT, the items that were read",
    "WRITE": "WRITE_COUNT, the results that were written",
    "COMMIT": "COMMIT_COUNT, the chunks that were committed",
    "ROLLBACK": "ROLLBACK_COUNT, the chunks that were rolled back",
    "READ_SKIP": "READ_SKIP_COUNT, the reads that were skipped",
    "PROCESS_SKIP": "PROCESS_SKIP_COUNT, the items that were skipped while they were processed",
    "FILTER": "FILTER_COUNT, the items that were filtered",
    "WRITE_SKIP": "WRITE_SKIP_COUNT, the write calls that were skipped",
    "in_place": "the calls that were repeated in place",
}


@dataclasses.dataclass
class Step:
    """A step: of each partition its rows, which are several if it has one in each slice; and how often each class was skipped, if that is known."""

    name: str
    status: str
    partitions: list[list[Row]]
    skips: collections.Counter | None = None


@dataclasses.dataclass
class Job:
    """What the metrics are of. `slices` are counts by their states, of a whole folder. The clock is in seconds since 1970; None: it isn't known.
    `labels` are those that each sample has besides its own."""

    name: str
    status: str
    steps: list[Step]
    checkpoints: int | None = None
    slices: dict[str, int] | None = None
    begin: float | None = None
    end: float | None = None
    labels: dict[str, str] = dataclasses.field(default_factory=dict)


@dataclasses.dataclass
class Family:
    """Samples of one name: of each its labels and its number. A counter's samples have `_total` after the name."""

    name: str
    kind: str
    help: str
    unit: str = ""
    samples: list[tuple[dict, float]] = dataclasses.field(default_factory=list)

    def add(self, number, **labels):
        self.samples.append((labels, number))


# ---- the families


def families_of(job: Job) -> Iterator[Family]:
    """All metrics of a job. A family without a sample isn't printed."""
    yield from families_of_rows(job)
    partitions = Family("partitions", "gauge", "partitions in each state; one of a slice is counted for each slice")
    skips = Family("skips", "counter", "skipped faults by their class")
    status = Family("step_status", "gauge", "1 for the status of the step, 0 for each other one")
    for step in job.steps:
        states = collections.Counter(row.state for rows in step.partitions for row in rows)
        for state in STATES:
            partitions.add(states[state], job=job.name, step=step.name, state=state)
        for name, count in sorted((step.skips or {}).items()):
            skips.add(count, job=job.name, step=step.name, **{"class": name})
        add_status(status, step.status, job=job.name, step=step.name)
    yield from (partitions, skips, status)
    yield from families_of_job(job)


def families_of_rows(job: Job) -> list[Family]:
    """What the rows count, by partition."""
    counters = {name: Family(name.lower(), "counter", HELPS[name]) for name in (*METRICS, "in_place")}
    done = Family("done_records", "gauge", "records before the checkpoint", "records")
    left = Family("left_records", "gauge", "records from the checkpoint on", "records")
    for step in job.steps:
        for partition, rows in enumerate(step.partitions):
            labels = {"job": job.name, "step": step.name, "partition": partition}
            for name, family in counters.items():
                family.add(sum(getattr(row, name) for row in rows), **labels)
            done.add(sum(row.at - row.lo for row in rows), **labels)
            left.add(sum(row.hi - row.at for row in rows), **labels)
    return [*counters.values(), done, left]


def families_of_job(job: Job) -> list[Family]:
    status = Family("job_status", "gauge", "1 for the status of the job, 0 for each other one")
    add_status(status, job.status, job=job.name)
    found = [status, Family("slices", "gauge", "slices in each state"), Family("checkpoints", "counter", "checkpoints that the files have")]
    for state, count in (job.slices or {}).items():
        found[1].add(count, job=job.name, state=state)
    numbers = [(found[2], job.checkpoints)]
    for name, text, seconds in (("begin", "when the first run began", job.begin), ("end", "when the last run ended", job.end)):
        found.append(Family(f"{name}_timestamp_seconds", "gauge", f"{text}, in seconds since 1970", "seconds"))
        numbers.append((found[-1], seconds))
    for family, number in numbers:
        if number is not None:
            family.add(number, job=job.name)
    return found


def add_status(family: Family, status: str, **labels) -> None:
    for each in dict.fromkeys((*STATUSES, status)):
        family.add(int(each == status), **labels, status=each)


# ---- the text


def escaped(text):
    return text.replace("\\", r"\\").replace("\n", r"\n").replace('"', r"\"")


def lines_of(family: Family, labels: dict[str, str]) -> Iterator[str]:
    name = f"zurnaskil_{family.name}"
    yield f"# TYPE {name} {family.kind}"
    if family.unit:
        yield f"# UNIT {name} {family.unit}"
    yield f"# HELP {name} {family.help}"
    for own, number in family.samples:
        inner = ",".join(f'{key}="{escaped(str(value))}"' for key, value in (own | labels).items())
        yield f"{name}{'_total' if family.kind == 'counter' else ''}{{{inner}}} {number}"


def text_of(job: Job) -> str:
    """The metrics as a text, which ends with its own last line."""
    lines = [line for family in families_of(job) if family.samples for line in lines_of(family, job.labels)]
    return "".join(f"{line}\n" for line in [*lines, "# EOF"])


# ---- the words of a tool


def label(text: str) -> tuple[str, str]:
    """A label of `--label`: its name and its value."""
    name, is_there, value = text.partition("=")
    if not is_there or not LABEL.fullmatch(name) or name in OWN_LABELS:
        raise argparse.ArgumentTypeError(f"{text!r} isn't NAME=TEXT with a label's name that is free")
    return name, value


def add_words(words):
    """Adds `--sums`, which tools have in place of these, and the words of metrics."""
    form = words.add_mutually_exclusive_group()
    form.add_argument("--sums", action="store_true")
    form.add_argument("--openmetrics", action="store_true")
    words.add_argument("--write", metavar="PATH")
    words.add_argument("--label", metavar="NAME=TEXT", type=label, action="append", default=[])


def parsed(words):
    """The words of the call."""
    given = words.parse_args()
    if not given.openmetrics and (given.write is not None or given.label):
        words.error("--write and --label need --openmetrics")
    return given


def hand_out(given: argparse.Namespace, job: Job) -> None:
    """Prints the metrics, or puts them into the file of `--write`; OSError if it can't be written."""
    job.labels = job.labels | dict(given.label)
    content = text_of(job).encode()
    if given.write is None:
        sys.stdout.buffer.write(content)
        sys.stdout.flush()
    elif os.path.lexists(given.write) and not os.path.isfile(given.write):
        raise OSError(None, "it is no regular file")
    else:
        reports.put_in_place(given.write, content)
