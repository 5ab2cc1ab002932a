"""The job record: its fault classes, and how each of its steps does its chunks and is divided."""
from collections import namedtuple

from .. import limits

from .parts import Table, listed, number, text
from .plans import ONE_PARTITION, PARTITION

Job = namedtuple("Job", "name classes steps")
Step = namedtuple("Step", "name chunk plan")
Chunk = namedtuple("Chunk", "item_count skip_limit retry_limit skippable retryable no_rollback")
NAME = text(1, limits.ID_BYTES)


def class_name(part):
    part.ranged(part.tree != "*")
    return NAME(part)


def classes_of(part):
    names = listed(0, limits.CLASSES, class_name)(part)
    part.reading.classes = list(dict.fromkeys(name for name in names if name is not None))
    return part.reading.classes


def known_class(part):
    """The name of a class that the job declares."""
    if not part.shaped(isinstance(part.tree, str)):
        return None
    if part.tree not in part.reading.classes:
        part.refuse("UnknownClass", None if part.tree == "*" else "exception-classes doesn't declare it")
    return part.tree


def class_list(*every):
    def read(part):
        return part.reading.classes if part.tree in every else [known_class(part)]

    return lambda part: set().union(*listed(0, limits.CLASS_NAMES, read)(part))


def new_id(part):
    is_new = part.tree not in [step.name for step in part.reading.steps]
    part.shaped(is_new or not isinstance(part.tree, str), "it is the id of an earlier step")
    return NAME(part)


def steps_of(part):
    listed(1, limits.STEPS, lambda part: part.reading.steps.append(STEP(part)))(part)
    return part.reading.steps


CLASS_SET = Table(set.difference, ("include", class_list("*"), set()), ("exclude", class_list(), set()))
CHUNK = Table(
    Chunk,
    ("item-count", number(1, limits.ITEM_COUNT), limits.ITEM_COUNT_IF_ABSENT),
    ("skip-limit", number(0, limits.SKIP_LIMIT), None),
    ("retry-limit", number(0, limits.RETRY_LIMIT), limits.RETRIES_IF_ABSENT),
    ("skippable-exception-classes", CLASS_SET, set()),
    ("retryable-exception-classes", CLASS_SET, set()),
    ("no-rollback-exception-classes", CLASS_SET, set()),
)
STEP = Table(Step, ("id", new_id), ("chunk", CHUNK), ("partition", PARTITION, ONE_PARTITION))
JOB = Table(Job, ("id", NAME), ("exception-classes", classes_of, []), ("step", steps_of))
