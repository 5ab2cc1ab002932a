"""What the tools of this folder have in common: the words of a tool, reports of `batchrun run` and `restart` and what
`examples/array/join` prints, read and tested, their sums and tables, and files that are put in their place whole."""
import argparse
import dataclasses
import json
import os
import re
import signal
import subprocess
import sys
import tempfile

from .rules.parts import is_whole as is_number
from .rules.rows import METRICS, NUMBERS, STATES, Row, row_of, skips_of

TOP = os.path.dirname(os.path.dirname(os.path.dirname(os.path.realpath(__file__))))
PROGRAM = os.environ.get("BATCHRUN") or os.path.join(TOP, "crates/batchrun/out/batchrun")
UNPROVED = os.path.join(TOP, "crates/batchrun/out/unproved/quiet/batchrun")
HEADINGS = ["partition", "records", "at", "state", *METRICS, "in_place", "left"]
SUMMED = [*METRICS, "in_place", "left"]
SHOWN_LETTERS = 60  # of a value in a line
REPORT_KEYS, STEP_KEYS = {"job", "status", "steps"}, {"heard", "outputs", "plans", "reducer", "saved", "status", "step"}
JOINED_KEYS = {"job", "outputs", "rows", "step", "sums"}


class Refused(Exception):
    """A text or a file that isn't what a tool asks for, with the reason."""


class Words(argparse.ArgumentParser):
    """A tool's words. Its help is the text of its module; wrong words are refused by one line and this status."""

    def __init__(self, tool, text, status):
        super().__init__(prog=tool, allow_abbrev=False)
        self.text, self.status = text, status

    def add_unproved(self):
        self.add_argument("--unproved", action="store_true")

    def format_help(self):
        return self.text

    def error(self, message):
        refuse(self.prog, f"{message}; --help says which words there are", self.status)


def end_with_the_reader():
    """A tool that only prints ends silently where nobody reads on, or at INT."""
    for number in (signal.SIGPIPE, signal.SIGINT):
        signal.signal(number, signal.SIG_DFL)


def program_of(tool: str, is_unproved: bool) -> str:
    """The program that a tool runs. The unproved one is built here, if it isn't current, and the tool says so; Refused if that can't be."""
    if not is_unproved:
        return PROGRAM
    build = [os.path.join(TOP, "tools/build-program"), "--unproved"]
    if subprocess.run([*build, "--is-current"]).returncode != 0:
        checked(subprocess.run(build, stdin=subprocess.DEVNULL).returncode == 0, "there is no unproved program")
    print(f"{tool}: NOTHING of this run is proved", file=sys.stderr, flush=True)
    return UNPROVED


def refuse(tool, reason, status=1):
    print(f"{tool}: {reason}", file=sys.stderr)
    sys.exit(status)


def checked(is_right, reason):
    if not is_right:
        raise Refused(reason)


def tree_of(text, what):
    try:
        return json.loads(text)
    except (ValueError, RecursionError):
        raise Refused(f"{what} isn't JSON") from None


def content_of(path):
    try:
        with open(path, "rb") as file:
            return file.read()
    except OSError as fault:
        raise Refused(f"{path} can't be read: {fault.strerror}") from None


def tree_in(path):
    """The JSON tree in a file."""
    return tree_of(content_of(path), path)


def put_in_place(path: str, content: bytes, is_new: bool = False) -> None:
    """Writes a file beside its place and renames it, so that what stands there is whole, whenever this is killed. With `is_new` nothing may
    stand there: else FileExistsError is raised."""
    with tempfile.NamedTemporaryFile(dir=os.path.dirname(path) or ".", prefix=f".{os.path.basename(path)}.", delete=False) as part:
        try:
            part.write(content)
            part.flush()
            os.fsync(part.fileno())
            os.chmod(part.name, 0o644)
            (name_new if is_new else os.replace)(part.name, path)
        except BaseException:
            os.unlink(part.name)
            raise


def name_new(part, path):
    """Renames a file to a name that no other has, by a second name: a rename would take the place of another file."""
    try:
        os.link(part, path)
    except FileExistsError:
        raise
    except OSError:  # a file system without second names
        if os.path.lexists(path):
            raise FileExistsError(path) from None
        os.replace(part, path)
    else:
        os.unlink(part)


def shown(value: object) -> str:
    """A value of a JSON tree on one line, cut where it is long."""
    text = ""
    for part in json.JSONEncoder().iterencode(value):
        text += part
        if len(text) > SHOWN_LETTERS:
            return f"{text[:SHOWN_LETTERS]}.."
    return text


def numbered_in(folder: str) -> list[tuple[int, str]]:
    """The numbers and places of the reports that `run-job` keeps in a folder, the last one last."""
    names = os.listdir(folder) if os.path.exists(folder) else []
    numbers = sorted(int(match[1]) for name in names if (match := re.fullmatch(r"report-([1-9]\d{0,8})\.json", name)))
    return [(number, place_of(folder, number)) for number in numbers]


def place_of(folder, number):
    return os.path.join(folder, f"report-{number}.json")


# ---- reports


@dataclasses.dataclass
class Step:
    """A step of a report: its rows have the form of version 2, whichever they have there. `tree` is the step as it stands."""

    name: str
    status: str
    plans: list
    rows: list
    tree: dict


@dataclasses.dataclass
class Report:
    job: str
    status: str
    steps: list


def has_keys(value, keys):
    return isinstance(value, dict) and keys <= value.keys()


def is_text(value):
    """Whether it is a text that can be printed: JSON's escapes also write halves of characters."""
    return isinstance(value, str) and not any("\ud800" <= letter <= "\udfff" for letter in value)


def is_saved(saved):
    is_object = has_keys(saved, {"rows", "version"}) and isinstance(saved["rows"], list)
    return is_object and is_number(saved["version"]) and saved["version"] in NUMBERS


def is_plan(plan):
    return isinstance(plan, list) and len(plan) == 3 and is_text(plan[0]) and all(map(is_number, plan[1:]))


def rows_of(rows: list, version: int, place: str) -> list[Row]:
    found = [row_of(row, version) for row in rows]
    for partition, row in enumerate(found):
        checked(row is not None and row.lo <= row.at <= row.hi, f"{place}[{partition}] isn't a partition's row")
    return found


def step_of(tree: dict, place: str) -> Step:
    is_step = has_keys(tree, STEP_KEYS) and is_text(tree["step"]) and is_text(tree["status"])
    checked(is_step and isinstance(tree["plans"], list), f"{place} isn't a step of a report")
    checked(is_saved(tree["saved"]), f"{place}.saved isn't a saved object of version 1 or 2")
    rows = rows_of(tree["saved"]["rows"], tree["saved"]["version"], f"{place}.saved.rows")
    for number, plan in enumerate(tree["plans"]):
        checked(is_plan(plan), f"{place}.plans[{number}] isn't a plan with its rounds")
    return Step(tree["step"], tree["status"], tree["plans"], rows, tree)


def joined_of(tree: dict) -> Report:
    """What `join` prints, as the report of a job whose one step is completed; that all rows are done is what `join` looks at."""
    checked(is_text(tree["job"]) and is_text(tree["step"]) and isinstance(tree["rows"], list), "the text isn't what join prints")
    version = 1 if tree["rows"] and isinstance(tree["rows"][0], list) and len(tree["rows"][0]) == NUMBERS[1] + 1 else 2
    rows = rows_of(tree["rows"], version, "rows")
    for number, row in enumerate(rows):
        checked(row.state == "done", f"rows[{number}] isn't done, and join joins those that are")
    sums = {name: sum(getattr(row, name) for row in rows) for name in METRICS}
    checked(tree["sums"] == sums, "sums aren't those of the rows")
    return Report(tree["job"], "COMPLETED", [Step(tree["step"], "COMPLETED", [], rows, tree)])


def report_in(text: str | bytes, what: str = "the text") -> Report:
    """The report, or Refused with the place where it isn't one."""
    tree = tree_of(text, what)
    if has_keys(tree, JOINED_KEYS) and not has_keys(tree, REPORT_KEYS):
        return joined_of(tree)
    is_report = has_keys(tree, REPORT_KEYS) and is_text(tree["job"]) and is_text(tree["status"]) and isinstance(tree["steps"], list)
    checked(is_report, f"{what} isn't a report: job, status and steps")
    return Report(tree["job"], tree["status"], [step_of(step, f"steps[{number}]") for number, step in enumerate(tree["steps"])])


# ---- sums


def sums_of(steps: list[Step]) -> dict[str, int]:
    """The sums of these steps: records, skips, partitions by their states, plans and rounds, the metrics and the repeats in place."""
    rows, plans = [row for step in steps for row in step.rows], [plan for step in steps for plan in step.plans]
    return {
        "records": sum(row.hi - row.lo for row in rows),
        "done": sum(row.at - row.lo for row in rows),
        "left": sum(row.hi - row.at for row in rows),
        "skips": sum(map(skips_of, rows)),
        "partitions": len(rows),
        **{f"partitions_{state}": sum(row.state == state for row in rows) for state in STATES},
        "plans": len(plans),
        "rounds_planned": sum(plan[1] for plan in plans),
        "rounds_run": sum(plan[2] for plan in plans),
        **{name: sum(getattr(row, name) for row in rows) for name in (*METRICS, "in_place")},
    }


def in_words(sums: dict[str, int]) -> str:
    """How far the records are, and which partitions didn't get there."""
    failed = [f"{sums['partitions_failed']} of {sums['partitions']} partitions failed"] if sums["partitions_failed"] else []
    waiting = [f"{sums['partitions_waiting']} not at their end"] if failed and sums["partitions_waiting"] else []
    return ", ".join([*failed, *waiting, f"{sums['done']} of {sums['records']} records done", f"{sums['skips']} skipped"])


# ---- tables


def line_of(partition, row):
    numbers = [getattr(row, name) for name in (*METRICS, "in_place")]
    return [partition, f"[{row.lo},{row.hi})", row.at, row.state, *numbers, row.hi - row.at]


def table(rows: list[Row], sums: dict[str, int]) -> list[str]:
    """The lines of a table: one for each partition, and their sums."""
    lines = [line_of(partition, row) for partition, row in enumerate(rows)]
    cells = [HEADINGS, *lines, ["all", "", "", "", *(sums[name] for name in SUMMED)]]
    cells = [[str(cell) for cell in line] for line in cells]
    widths = [max(map(len, column)) for column in zip(*cells)]
    return ["  ".join(cell.rjust(width) for cell, width in zip(line, widths)) for line in cells]
