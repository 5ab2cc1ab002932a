"""The parts of a document, and the kinds of values that the tables of docs/FORMATS.md have.

What is wrong is kept, and the reading goes on: the first refusal is the program's answer, and a line is told of each fault that no JSON
Schema can say. A part of another form than its table's is read as an empty one, or as None.
"""


class Refused(Exception):
    """The first fault of a document."""


class Reading:
    """What was found so far: the names of what is wrong, in the order in which the program looks; lines, each with its path; and what
    later parts depend on: the classes that are declared, the steps, and how many records the last one has."""

    def __init__(self):
        self.refusals, self.lines = [], []
        self.classes, self.steps, self.records = [], [], 0


class Part:
    """A part of a document at its path, in an object or list."""

    def __init__(self, tree, path=(), reading=None, holder=None):
        self.tree, self.path, self.reading, self.holder = tree, path, reading or Reading(), holder

    def at(self, key):
        return Part(self.tree[key], (*self.path, key), self.reading, self.tree)

    def place(self, *keys):
        """The place of a part below, whether or not it is there."""
        return Part(None, (*self.path, *keys), self.reading)

    @property
    def field(self):
        """The key at which it stands, or the list that it is in."""
        return next((key for key in reversed(self.path) if isinstance(key, str)), "unknown")

    def tell(self, line):
        if line is not None:
            self.reading.lines.append((self.path, line))

    def refuse(self, name, line=None):
        self.reading.refusals.append(name)
        self.tell(line)

    def shaped(self, is_right, line=None):
        if not is_right:
            self.refuse(f"WrongShape({self.field})", line)
        return is_right

    def ranged(self, is_right, line=None):
        if not is_right:
            self.refuse(f"OutOfRange({self.field})", line)


class Table:
    """An object: a line for each key, with the kind of its value and what holds where it is absent; where nothing does, it is required."""

    def __init__(self, make, *lines):
        self.make, self.lines = make, lines

    def __call__(self, part):
        tree = part.tree if part.shaped(isinstance(part.tree, dict)) else {}
        if not tree.keys() <= {key for key, *_ in self.lines}:
            part.refuse("WrongShape(unknown)")
        return self.make(*(self.value(part, tree, *line) for line in self.lines))

    def value(self, part, tree, key, read, *absent):
        if key in tree:
            return read(part.at(key))
        if not absent:
            part.refuse(f"WrongShape({key})")
        return absent[0] if absent else None


def is_whole(tree):
    return type(tree) is int and tree >= 0


def number(low, high):
    def read(part):
        if not part.shaped(is_whole(part.tree)):
            return None
        part.ranged(low <= part.tree <= high)
        return part.tree

    return read


def bytes_in(text):
    return len(text.encode(errors="replace"))  # a tool also reads halves of characters


def text(low, high):
    def read(part):
        if not part.shaped(isinstance(part.tree, str)):
            return None
        length, is_beyond = bytes_in(part.tree), len(part.tree) <= high
        part.ranged(low <= length <= high, f"it has {length} bytes, and may have {high}" if length > high and is_beyond else None)
        return part.tree

    return read


def flag(part):
    part.shaped(isinstance(part.tree, bool))
    return part.tree is True


def items(low, high, part):
    """A list that has so many members, as it stands."""
    if not part.shaped(isinstance(part.tree, list)):
        return []
    if len(part.tree) > high:
        part.refuse(f"TooMany({part.field})")
    part.ranged(low <= len(part.tree))
    return part.tree


def listed(low, high, read):
    """A list of so many members of a kind."""
    return lambda part: [read(part.at(place)) for place in range(len(items(low, high, part)))]
