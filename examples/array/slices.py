"""The slices of a job's records, for the scripts beside this file: the document of each, in what one differs from the job's, their list
slices.json, and the lines that run some of them."""
import os
import shlex
import sys

import records
from zurnaskil import reports

ABSENT = object()
CHUNK, PLAN = "job.step[0].chunk", "job.step[0].partition.plan"
CLASSES = ("skippable-exception-classes", "retryable-exception-classes", "no-rollback-exception-classes")
# What an operator may mend, in a slice or in the job, so that a task can be completed.
MENDABLE = ["job.exception-classes", f"{PLAN}.threads", *(f"{CHUNK}.{key}" for key in ("skip-limit", "retry-limit", *CLASSES))]
SLICE_KEYS = {"from", "to", "records", "document", "megabytes", "minutes"}


class Slices:
    """What slices.json says of the slices in a folder. One of an earlier version has ranges alone."""

    def __init__(self, folder):
        tree = reports.tree_in(os.path.join(folder, "slices.json"))
        self.folder, self.is_earlier = folder, isinstance(tree, list)
        self.slices = [{"from": lo, "to": hi} for lo, hi in tree] if self.is_earlier else tree["slices"]
        self.threads = None if self.is_earlier else tree["threads"]
        self.ranges = [(each["from"], each["to"]) for each in self.slices]
        is_right = self.is_earlier or all(SLICE_KEYS <= each.keys() for each in self.slices)
        reports.checked(is_right and all(reports.is_number(end) for each in self.ranges for end in each), "another form")

    def document(self, task):
        return os.path.join(self.folder, f"task-{task}.json")

    def reports(self, task):
        return os.path.join(self.folder, f"task-{task}")

    def log(self, task):
        return os.path.join(self.folder, f"task-{task}.log")

    def asked(self, tasks):
        """The processors, the megabytes and the minutes that each of these tasks asks for."""
        return self.threads, *(max(self.slices[task][key] for task in tasks) for key in ("megabytes", "minutes"))


def slice_of(document, lo, hi):
    """The document of the job on the records from lo up to hi: of the faults those of its records, with numbers that count from lo."""
    data = document["data"][0]
    part = data | {"records": data["records"][lo:hi]}
    if "faults" in data:
        part["faults"] = {
            kind: [[number - lo, *fault] for number, *fault in entries if lo <= number < hi] for kind, entries in data["faults"].items()
        }
    return document | {"data": [part]}


def with_records(document, records):
    """The document with something else in the place of its records."""
    return document | {"data": [document["data"][0] | {"records": records}, *document["data"][1:]]}


def mended_in(document, part, lo, hi, digest):
    """The keys that were mended in a slice's document or in the job's since it was cut; Refused if it differs in any other. The job's records are
    known by a digest of the slice's."""
    own = with_records(slice_of(document, lo, hi), digest)
    other = with_records(part, records.digest_of([part["data"][0]["records"]]))
    keys = list(differences(without_empty_faults(own), without_empty_faults(other), ""))
    others = [key for key in keys if not is_mendable(key)]
    reports.checked(not others, f"its document isn't the job's in {', '.join(others)}")
    return keys


def is_mendable(key):
    return any(key == mendable or key.startswith(f"{mendable}.") for mendable in MENDABLE)


def without_empty_faults(document):
    """The document without the kinds of faults that have no entry, and without `faults` if none has one."""
    data = document["data"][0]
    faults = {kind: entries for kind, entries in data.get("faults", {}).items() if entries}
    rest = {key: value for key, value in data.items() if key != "faults"}
    return document | {"data": [rest | ({"faults": faults} if faults else {}), *document["data"][1:]]}


def differences(one, other, place):
    """The keys, by their paths, in which two trees differ. A key that only one of them has is compared with no value, and an object with
    one without members; a list is compared as a whole, unless both have so many objects."""
    members, others = members_of(one), members_of(other)
    if members is not None and others is not None and (members or others):
        for key in dict.fromkeys([*members, *others]):
            yield from differences(members.get(key, ABSENT), others.get(key, ABSENT), f"{place}.{key}" if place else key)
    elif are_objects(one) and are_objects(other) and len(one) == len(other):
        for number, pair in enumerate(zip(one, other)):
            yield from differences(*pair, f"{place}[{number}]")
    elif type(one) is not type(other) or one != other:
        yield place


def members_of(value):
    """The members of an object, none if it is absent; None if the value is no object."""
    if value is ABSENT:
        return {}
    return value if isinstance(value, dict) else None


def are_objects(value):
    return isinstance(value, list) and all(isinstance(each, dict) for each in value)


# ---- what to type


def beside(name):
    """A script beside the one that was called, as it is to be typed."""
    return shlex.quote(f"{os.path.dirname(sys.argv[0]) or '.'}/{name}")


def spans_of(tasks):
    """The tasks as ranges, the first and the last of each."""
    spans = []
    for task in tasks:
        if spans and spans[-1][1] == task - 1:
            spans[-1][1] = task
        else:
            spans.append([task, task])
    return spans


def lines_of(folder, tasks, threads, megabytes, minutes):
    """The lines that run these tasks, each of which asks for so much. Their logs go into the folder."""
    spans, task, place = spans_of(tasks), beside("task"), shlex.quote(folder)
    numbers = ",".join(f"{first}-{last}" if first < last else f"{first}" for first, last in spans)
    log = shlex.quote(os.path.join(folder, "task-%a.log"))
    yield "Slurm:"
    asked = f"--array={numbers} --cpus-per-task={threads} --mem={megabytes}M --time={minutes}"
    yield f"  sbatch --wait {asked} --output={log} --open-mode=append {beside('slurm.sh')} {task} {place}"
    yield "or GNU parallel, on this machine:"
    listed = "; ".join(f"seq {first} {last}" for first, last in spans)
    asked = f"--jobs {max(100 // threads, 1)}% --memfree {megabytes}M --timeout {60 * minutes}"
    run = f"{task} {place} {{}} >> {shlex.quote(os.path.join(folder, 'task-'))}{{}}.log 2>&1"
    yield f"  {listed if len(spans) == 1 else f'({listed})'} | parallel {asked} {shlex.quote(run)}"
