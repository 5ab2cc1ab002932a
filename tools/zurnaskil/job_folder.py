"""The folder in which `run-job` keeps a job's reports.

    report-7.json    the last reports, each put in its place whole
    earlier.jsonl    of each run a line with its begin and its end; and of each report before these, which are removed, a line with its rows
    data.json        what the records, the prefix and the drop of each step were: their number, a digest, the two texts
    skipped.jsonl    all skips, by record

One call at a time works in it: it holds a lock on the folder itself, which ends with the process.
"""
import fcntl
import hashlib
import json
import os
import re
import tempfile
import time

from . import reports

PARTIAL = re.compile(r"\.(report-\d+\.json|skipped\.jsonl|data\.json)\.\w{8}")  # what a killed call leaves of a file
DATA_PARTS = {"records": "other records", "prefix": "another prefix", "drop": "another drop"}


class Ended(Exception):
    """There is no report: the exit status, the line that says why, and what to type next, if that isn't this call."""

    def __init__(self, status, reason, next_line=None):
        super().__init__(status, reason)
        self.status, self.reason, self.next_line = status, reason, next_line


class Folder:
    """The reports of a job, each with its place, the last one last. What isn't a whole report is left out: `broken`. Of the removed ones
    and of all but the last one the rows alone stay in memory."""

    def __init__(self, path, job, most_kept):
        self.path, self.most_kept, self.kept, self.broken = path, most_kept, [], []
        self.was_made = not os.path.exists(path)
        os.makedirs(path, exist_ok=True)
        self.lock = locked(path)
        if self.lock is not None:
            self.remove_partial()
        found = reports.numbered_in(path)
        self.next = max([0, *(number for number, _ in found)]) + 1
        places = [place for _, place in found]
        for place, report in earlier_in(self.place("earlier.jsonl")):
            if self.place(place) not in places:
                self.kept.append((self.place(place), report))
                self.next = max(self.next, number_of(place) + 1)
        for place in places:
            self.read(place, job)
        has_last = not self.kept or self.kept[-1][0] in places
        only_earlier = f"{path} has no report to resume from, only the rows of removed ones; to start again, name another folder"
        reports.checked(has_last, only_earlier)

    def place(self, name):
        return os.path.join(self.path, name)

    def remove_partial(self):
        for name in filter(PARTIAL.fullmatch, os.listdir(self.path)):
            try:
                os.unlink(self.place(name))
            except OSError:
                pass  # of a reader who may not write here

    def leave(self):
        """Removes the folder where it was made by this call and has nothing."""
        if self.was_made and not os.listdir(self.path):
            os.rmdir(self.path)

    def read(self, place, job):
        with open(place, "rb") as file:
            content = file.read()
        try:
            report = reports.report_in(content)
        except reports.Refused as refused:
            self.broken.append(f"{place} is left out: {refused}")
            return
        reports.checked(report.job == job, f"{place} is of job {report.job}, and the document is of job {job}")
        self.add(place, report)

    def last(self):
        return self.kept[-1][1] if self.kept else None

    def last_place(self):
        return self.kept[-1][0] if self.kept else None

    def add(self, place, report):
        for step in self.last().steps if self.kept else []:
            step.tree = None
        self.kept.append((place, report))

    # ---- reports that are kept

    def keep(self, content, report):
        """Puts a report in its place, where no other call's may stand, and removes those before the last ones."""
        place = reports.place_of(self.path, self.next)
        try:
            reports.put_in_place(place, content, is_new=True)
        except FileExistsError:
            raise Ended(4, f"{place} was written meanwhile: another call is at work in this folder") from None
        except OSError as fault:
            raise not_written(place, fault) from None
        self.next += 1
        self.add(place, report)
        for earlier in self.kept[: -self.most_kept]:
            self.remove(*earlier)

    def keep_run(self, name, began, status, rounds):
        """Writes when a run began, which ends now; None is the name of one whose report isn't kept. If it can't be written, nothing else changes."""
        tree = {"run": name, "began": clock(began), "ended": clock(time.time()), "status": status, "rounds": rounds}
        try:
            append_line(self.place("earlier.jsonl"), json.dumps(tree, separators=(",", ":")).encode())
        except OSError:
            pass

    def check_writable(self):
        """Refuses a folder in which no file can be written, before a run."""
        try:
            with tempfile.NamedTemporaryFile(dir=self.path, prefix=".data.json.") as part:
                part.write(b"\n")
                part.flush()
                os.fsync(part.fileno())
        except OSError as fault:
            raise Ended(4, f"{self.path} can't be written: {fault.strerror}; nothing was run") from None

    def remove(self, place, report):
        """Removes a report, where it is still there, once its rows stand in earlier.jsonl; where they can't be written, it stays."""
        if not os.path.exists(place):
            return
        try:
            append_line(self.place("earlier.jsonl"), earlier_text(os.path.basename(place), report))
            os.unlink(place)
        except OSError:
            pass

    # ---- the data of the reports

    def other_data(self, data):
        """What is another in the document than it was for the reports, a text for each; None where the folder doesn't say."""
        if self.last() is None or data is None:
            return []
        try:
            return differences(reports.tree_in(self.place("data.json")), data)
        except (reports.Refused, LookupError, TypeError):
            return None

    def keep_data(self, data):
        if data is None:
            return
        place = self.place("data.json")
        try:
            self.put(place, json.dumps(data, separators=(",", ":")).encode() + b"\n")
        except OSError as fault:
            raise not_written(place, fault) from None

    def put(self, place, content):
        """Writes a file of the folder, unless it holds this already: who may not write reads a completed job all the same."""
        if not is_same(place, content):
            reports.put_in_place(place, content)


def not_written(place, fault):
    return Ended(4, f"{place} can't be written: {fault.strerror}; what was done since the last report is lost; the next call does it again")


def locked(path):
    """Holds the folder until this process ends; None where its file system has no such locks: then `keep` alone sees another's report."""
    folder = os.open(path, os.O_RDONLY)
    try:
        fcntl.flock(folder, fcntl.LOCK_EX | fcntl.LOCK_NB)
    except BlockingIOError:
        raise Ended(4, f"another call is at work in {path}, and this one does nothing") from None
    except OSError:
        return None
    return folder


def clock(seconds):
    """A time by the clock, of the world's day."""
    return time.strftime("%Y-%m-%dT%H:%M:%SZ", time.gmtime(seconds))


def is_same(place, content):
    """Whether the file holds this already."""
    try:
        with open(place, "rb") as file:
            return file.read() == content
    except OSError:
        return False


# ---- reports that were removed


def number_of(name):
    return int(re.fullmatch(r"report-([1-9]\d{0,8})\.json", name)[1])


def earlier_text(name, report):
    steps = [{"plans": step.plans, "rows": step.rows, "status": step.status, "step": step.name} for step in report.steps]
    tree = {"report": name, "job": report.job, "status": report.status, "steps": steps}
    return json.dumps(tree, ensure_ascii=False, separators=(",", ":")).encode()


def earlier_in(path):
    """The names of removed reports, and what is known of each; a line that was cut is of a report that is still there."""
    try:
        with open(path, "rb") as file:
            lines = file.read().split(b"\n")
    except FileNotFoundError:
        return
    for line in lines:
        try:
            tree = json.loads(line)
            name, steps = tree["report"], [step_of(step) for step in tree["steps"]]
            number_of(name)
            yield name, reports.Report(tree["job"], tree["status"], steps)
        except (reports.Refused, ValueError, LookupError, TypeError):
            continue


def step_of(tree):
    return reports.Step(tree["step"], tree["status"], tree["plans"], reports.rows_of(tree["rows"], 2, "rows"), None)


def append_line(path, line):
    """Writes a line behind the others, on one of its own also where a killed call left the front of one."""
    with open(path, "a+b") as file:
        end = file.tell()
        file.seek(max(end - 1, 0))
        is_cut = file.read(1) not in (b"", b"\n")
        file.write(b"\n" * is_cut + line + b"\n")
        file.flush()
        os.fsync(file.fileno())


# ---- the data of a document


def data_of(document):
    """What tells a document's data from another's, step by step; None where it is none that the program takes."""
    try:
        return [data_of_step(step["id"], data) for step, data in zip(document["job"]["step"], document["data"], strict=True)]
    except (LookupError, TypeError, ValueError, AttributeError):
        return None


def data_of_step(name, data):
    digest = hashlib.sha256(json.dumps(data["records"], separators=(",", ":")).encode()).hexdigest()
    return {"step": name, "count": len(data["records"]), "records": digest, "prefix": data.get("prefix"), "drop": data.get("drop")}


def differences(before, data):
    """What of the data is another than it was, a text for each step."""
    names = [[step["step"] for step in each] for each in (before, data)]
    if names[0] != names[1]:
        return [f"its steps are {', '.join(names[1])}, and were {', '.join(names[0])}"]
    parts = [[text for part, text in DATA_PARTS.items() if was[part] != step[part]] for was, step in zip(before, data)]
    return [f"step {step['step']} has {' and '.join(others)}" for step, others in zip(data, parts) if others]
