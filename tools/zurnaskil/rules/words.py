"""What `batchrun` answers to a word and a document."""
import json
import math

from . import rounds, steps
from .documents import DOCUMENTS, from_step
from .json_text import tree_of
from .parts import Part, Refused

STATUSES = ["COMPLETED", "FAILED", "STOPPED"]


def read(word, tree):
    """The document, where nothing is wrong with it."""
    part = Part(tree)
    document = DOCUMENTS[word](part)
    for name in part.reading.refusals:
        raise Refused(name)
    return document


def run(document, limit=math.inf):
    runs = []
    for step, data in from_step(document.resume, document.job.steps, document.data):
        runs.append(steps.begun(step, data) if runs or document.resume is None else steps.resumed(step, data, document.resume))
        runs[-1].run(limit)
        if runs[-1].status != "COMPLETED":
            break
    status = runs[-1].status
    report = {"job": document.job.name, "status": status, "steps": [each.report() for each in runs]}
    return STATUSES.index(status), json.dumps(report, ensure_ascii=False, separators=(",", ":"), sort_keys=True) + "\n"


def plan(load):
    certificate, turns = rounds.wrapped(load.counts, load.threads)
    lines = [" ".join("-" if slot is None else f"{slot[0]}.{slot[1]}" for slot in slots) for slots in turns]
    return 0, "".join([f"rounds {len(turns)} {certificate}\n", *(f"{turn}: {line}\n" for turn, line in enumerate(lines))])


def check(load):
    fault = rounds.first_fault(load.counts, load.threads, load.rounds)
    holds = rounds.holds(load.certificate, load.counts, load.threads, len(load.rounds))
    return int(fault is not None or not holds), f"plan {fault or 'lawful'}\ncertificate {'yes' if holds else 'no'}\n"


WORDS = {"run": run, "restart": run, "plan": plan, "check": check}


def answer(word, text, rounds=None):
    """The status, standard output and standard error of `batchrun WORD` on these bytes, with `--rounds` where a number is given."""
    try:
        status, output = WORDS[word](read(word, tree_of(text)), *([] if rounds is None else [rounds]))
    except Refused as refused:
        return 3, b"", f"refused: {refused}\n".encode()
    except steps.Broken as broken:
        return 4, b"", f"{broken}\n".encode()
    return status, output.encode(), b""
