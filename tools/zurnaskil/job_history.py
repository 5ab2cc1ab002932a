"""The history of a folder's runs, as a job over CSV writes it: FOLDER/history.jsonl, a line for each begin and end of a run, each checkpoint and
each slice that ended. docs/FORMATS.md, "The history of a folder", describes it."""
import dataclasses
import json
import os
import time

NAME = "history.jsonl"
STOP = "stop"  # the file that stops a job
NUMBERS = {"begin": (), "checkpoint": ("slice", "records", "results"), "slice": ("slice", "failed"), "end": ("status",)}  # of a line of each kind


@dataclasses.dataclass
class LastRun:
    """The last run of a folder: how many there were before it, when it began, its last line's clock, its exit status if it has ended, and how many
    records it did between checkpoints, and in how many seconds."""

    before: int
    begun: int
    seen: int
    status: int | None = None
    records: int = 0
    first: int | None = None  # the clock of its first checkpoint, and of its last one
    last: int | None = None

    def elapsed(self):
        return self.seen - self.begun

    def rate(self):
        """Records a second, between its first checkpoint and its last one."""
        seconds = (self.last or 0) - (self.first or 0)
        return self.records / seconds if seconds > 0 else None


def is_number(value):
    return isinstance(value, int) and not isinstance(value, bool)


def events_in(folder):
    """Its lines. One that was cut, or isn't of this form, is left out."""
    try:
        with open(os.path.join(folder, NAME), encoding="utf-8", errors="replace") as file:
            lines = file.read().splitlines()
    except OSError:
        return
    for line in lines:
        try:
            event = json.loads(line)
        except ValueError:
            continue
        is_event = isinstance(event, dict) and event.get("what") in NUMBERS
        if is_event and all(is_number(event.get(key)) for key in ("clock", *NUMBERS[event["what"]])):
            yield event


def last_run_of(folder):
    """The last run that began, or None. Runs at the same time, as those of parts, are counted by the one that began last."""
    run, done = None, {}
    for event in events_in(folder):
        clock, what = event["clock"], event["what"]
        if what == "begin":
            run, done = LastRun(run.before + 1 if run else 0, clock, clock), {}
        if run is None:
            continue
        run.seen = max(run.seen, clock)
        if what == "end":
            run.status = event["status"]
        if what == "checkpoint":
            run.records += max(event["records"] - done.get(event["slice"], event["records"]), 0)
            done[event["slice"]] = event["records"]
            run.first, run.last = clock if run.first is None else run.first, clock
    return run


def clock_of(folder) -> tuple[int | None, int | None]:
    """When its first run began, and when its last one ended, if it has."""
    begin = next((event["clock"] for event in events_in(folder) if event["what"] == "begin"), None)
    last = last_run_of(folder)
    return begin, last.seen if last is not None and last.status is not None else None


def at(clock):
    return time.strftime("%Y-%m-%d %H:%M:%S", time.localtime(clock))


def lines_of(folder):
    """What is printed of a folder's last run, and of the file that stops it."""
    run = last_run_of(folder)
    if run is not None:
        rate = run.rate()
        end = f"was heard of last at {at(run.seen)}" if run.status is None else f"ended at {at(run.seen)} with status {run.status}"
        pace = f", {rate:.0f} records a second" if rate is not None else ""
        yield f"run {run.before + 1} began at {at(run.begun)} and {end}: {run.elapsed()} seconds{pace}"
    if is_stopped(folder):
        yield f"{os.path.join(folder, STOP)} is there: each run ends at its next checkpoint"


def is_stopped(folder):
    return os.path.exists(os.path.join(folder, STOP))
