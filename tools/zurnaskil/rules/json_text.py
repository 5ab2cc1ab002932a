"""JSON texts as the program reads them: bytes to trees, with None for what is of no kind that a document has."""
import json
import math

from .parts import Refused

NUMBERS_END, DEEPEST = 2**64, 127


class Members(dict):
    """An object: of a repeated key it has the last value, and `written` every key and value."""

    def __init__(self, pairs):
        super().__init__(pairs)
        self.written = [part for pair in pairs for part in pair]


def other_number(text):
    if not math.isfinite(float(text)):
        raise ValueError("outside the range of floats")


def whole_number(digits):
    other_number(digits)
    return int(digits) if digits != "-0" and 0 <= int(digits) < NUMBERS_END else None


def check(tree, depth=0):
    """Refuses lone surrogates and what is nested too deep."""
    if isinstance(tree, str):
        tree.encode()
    elif isinstance(tree, (list, Members)):
        if depth == DEEPEST:
            raise ValueError("too deep")
        for member in tree.written if isinstance(tree, Members) else tree:
            check(member, depth + 1)


def tree_of(text):
    """The tree of these bytes."""
    numbers = {"parse_int": whole_number, "parse_float": other_number, "parse_constant": other_number}
    try:
        tree = json.loads(text.decode(), object_pairs_hook=Members, **numbers)
        check(tree)
    except (ValueError, RecursionError):
        raise Refused("NotJson") from None
    return tree
