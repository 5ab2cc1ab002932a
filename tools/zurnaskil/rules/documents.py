"""The documents of the words, and what no JSON Schema can say of one."""
from collections import namedtuple

from .. import limits

from .data import FAULTS, Data, data_of
from .job import CHUNK, JOB, classes_of
from .json_text import NUMBERS_END
from .parts import Part, Table, is_whole, listed, number
from .saved import resume_of

Load = namedtuple("Load", "counts threads rounds certificate", defaults=[None, None])
Document = namedtuple("Document", "job data resume", defaults=[None])


def data_list(part):
    """The data of each step."""
    tree, steps = part.tree if part.shaped(isinstance(part.tree, list)) else [], len(part.reading.steps)
    part.shaped(len(tree) == steps, f"it has {len(tree)} members, and the job {steps} steps")
    return [data_of(part.at(place)) for place in range(len(tree))]


def counts_of(part):
    counts = listed(0, limits.LOAD_PARTITIONS, number(0, limits.CHUNKS))(part)
    chunks = sum(count for count in part.tree if type(count) is int) if isinstance(part.tree, list) else 0
    part.ranged(chunks <= limits.CHUNKS, f"their sum is {chunks}, above {limits.CHUNKS}")
    return counts


def slot_of(part):
    """A lane, a partition and a chunk."""
    if part.shaped(isinstance(part.tree, list) and len(part.tree) == 3 and all(map(is_whole, part.tree))):
        part.ranged(max(part.tree[:2]) <= limits.PLACE)
    return part.tree


def certificate_of(part):
    """`Nothing`, `FullLoad`, or the number of the longest partition."""
    if not isinstance(part.tree, str):
        return number(0, limits.PLACE)(part)
    part.shaped(part.tree in ("Nothing", "FullLoad"))
    return part.tree


ANY = float("inf")
RUN = ("job", JOB), ("data", data_list)
LOAD = ("counts", counts_of), ("threads", number(1, limits.THREADS))
DOCUMENTS = {
    "run": Table(Document, *RUN),
    "restart": Table(Document, *RUN, ("resume", resume_of)),
    "plan": Table(Load, *LOAD),
    "check": Table(Load, *LOAD, ("rounds", listed(0, ANY, listed(0, ANY, slot_of))), ("certificate", certificate_of)),
}


def from_step(resume, steps, data):
    """The steps that are run, with their data: from the one on that goes on."""
    first = next((place for place, step in enumerate(steps) if resume is None or step.name == resume.step), len(steps))
    return list(zip(steps, data))[first:]


def chunks_of(job, step, data):
    """How a step does its chunks, and its data, as they stand in a document that may have faults."""
    part = Part({"job": job, "step": step, "data": data})
    if "exception-classes" in job:
        classes_of(part.at("job").at("exception-classes"))
    chunk, part.reading.records = CHUNK(part.at("step").at("chunk")), len(data["records"])
    faults = FAULTS(part.at("data").at("faults")) if "faults" in data else [{}, {}, {}]
    return chunk, Data(data["records"], data.get("prefix", ""), data.get("drop"), faults)


# ---- what no schema can say


def beyond_schema(word, tree):
    """Each fault of a word's document that its schema can't say: its path in the document, and a line."""
    part = Part(tree)
    document, lines, steps = DOCUMENTS[word](part), part.reading.lines, part.reading.steps
    yield from numbers(tree)
    yield from (each for each in lines if each[0][0] != "resume")
    if isinstance(document, Load):
        return
    for place, (step, data) in enumerate(zip(steps, document.data or [])):
        for _, where, line in step.plan.faults(len(data.records)):
            yield ("job", "step", place, "partition", "plan", *where), line
    yield from (each for each in lines if each[0][0] == "resume")
    for step, data in from_step(document.resume, steps, document.data or [])[:1] if document.resume else ():
        for place, line in () if step.plan.override else document.resume.past_end(len(data.records)):
            yield ("resume", "saved", "rows", place), line


def numbers(tree, path=()):
    """Numbers that a schema takes for whole ones, and the program doesn't."""
    if isinstance(tree, float) and tree.is_integer():
        yield path, "it is written with a fraction, an exponent or a sign, and so is no whole number"
    if type(tree) is int and tree >= NUMBERS_END:
        yield path, "it is above 2^64 - 1, and so is no number to the program"
    for key, part in tree.items() if isinstance(tree, dict) else enumerate(tree) if isinstance(tree, list) else ():
        if not isinstance(part, str):
            yield from numbers(part, (*path, key))
