"""The items of a Rattle source: types, traits, impls and functions, with their clauses and their ghost members."""
import dataclasses
import pathlib
import re

from .antt import imported

HIDDEN = re.compile(r"//[^\n]*|/\*.*?\*/|b?\"(?:\\.|[^\"\\])*\"|b?'(?:\\[^']*|[^'\\\n])'", re.DOTALL)
BRACKET = re.compile(r"[()\[\]{}]")
ANGLE = re.compile(r"->|=>|<|>")
HEAD = re.compile(r"(pub(?:\([^)]*\))?\s+)?(?:(?:unsafe|final|const(?=\s+fn))\s+)*(ghost use|use|struct|enum|trait|impl|fn|type|const|static|mod|ghost)\b\s*(\w*)")
CLAUSE = re.compile(r"\s*(requires|ensures|ghost)\b\*?\s*([\w']*)\s*:?\s*(?=\{)")


@dataclasses.dataclass
class Function:
    """A function's signature and clauses. Places are those of the file's text."""

    name: str
    start: int
    end: int
    body: int  # where its body begins, or its end
    generics: str
    params: str
    result: str
    clauses: list[tuple[str, str, str]]  # the word, the clause's name, the fact


@dataclasses.dataclass
class Item:
    """A struct, an enum, an alias or a constant."""

    kind: str
    name: str
    start: int
    end: int
    generics: str
    body: str


@dataclasses.dataclass
class Block:
    """A trait or an impl: `trait` is its own name, or that of the trait of which it is an impl, if it is of one."""

    kind: str
    trait: str
    of: str  # the type of an impl, or the supertraits of a trait
    start: int
    end: int
    generics: str
    source: "Source"
    ghosts: dict[str, str] = dataclasses.field(default_factory=dict)
    types: dict[str, str] = dataclasses.field(default_factory=dict)
    functions: list[Function] = dataclasses.field(default_factory=list)
    imports: dict = dataclasses.field(default_factory=dict)


@dataclasses.dataclass(eq=False)
class Source:
    """A source file: its crate, its module, and its items."""

    path: pathlib.Path
    crate: str
    module: str
    text: str
    imports: dict
    uses: dict[str, list[str]] = dataclasses.field(default_factory=dict)
    items: dict[str, Item] = dataclasses.field(default_factory=dict)
    traits: dict[str, Block] = dataclasses.field(default_factory=dict)
    impls: list[Block] = dataclasses.field(default_factory=list)
    functions: list[Function] = dataclasses.field(default_factory=list)

    def line(self, place):
        return self.text.count("\n", 0, place) + 1

    def lines(self, start, end):
        return self.text[self.text.rfind("\n", 0, start) + 1 : end].split("\n")

    def comment(self, start):
        """The doc comment before an item, without its attributes."""
        found = []
        for line in reversed(self.text[: self.text.rfind("\n", 0, start) + 1].split("\n")[:-1]):
            if line.strip().startswith("//"):
                found.insert(0, line)
            elif not line.strip().startswith("#["):
                break
        return found


def blanked(text):
    """The text with comments and literals as blanks, each place kept."""
    return HIDDEN.sub(lambda found: re.sub(r"[^\n]", " ", found[0]), text)


def closed(text, at):
    """The place after the bracket that closes the one at this place."""
    depth = 0
    for found in BRACKET.finditer(text, at):
        depth += 1 if found[0] in "([{" else -1
        if depth == 0:
            return found.end()
    raise ValueError(f"a bracket isn't closed: {text[at:at + 60]!r}")


def closed_angle(text, at):
    """The place after the `>` that closes the `<` at this place."""
    depth = 0
    for found in ANGLE.finditer(text, at):
        depth += {"<": 1, ">": -1}.get(found[0], 0)
        if depth == 0:
            return found.end()
    raise ValueError(f"an angle isn't closed: {text[at:at + 60]!r}")


def first(text, at, stops):
    """The first place of one of these characters that stands in no bracket."""
    while text[at] not in stops:
        at = closed(text, at) if text[at] in "([{" else at + 1
    return at


def parts(text, mark=","):
    """What stands between these marks, but for those in brackets and angles."""
    found, depth, last, at = [], 0, 0, 0
    while at < len(text):
        arrow = text.startswith(("->", "=>"), at)
        if text[at] == mark and depth == 0:
            found.append(text[last:at].strip())
            last = at + 1
        depth += 0 if arrow else {"<": 1, ">": -1}.get(text[at], 0)
        at = closed(text, at) if text[at] in "([{" else at + 1 + arrow
    return [part for part in [*found, text[last:].strip()] if part]


def generics_at(text, at):
    """The parameters in angles at this place, if there are any, and the place after them."""
    while text[at].isspace():
        at += 1
    if text[at] != "<":
        return "", at
    end = closed_angle(text, at)
    return text[at + 1 : end - 1], end


def bounds_of(generics):
    """The bounds of each type parameter."""
    named = [part.partition(":") for part in parts(generics)]
    return {name.split("=")[0].strip(): bounds.partition("=")[0] if "<" not in bounds else bounds for name, _, bounds in named if not name.startswith("'")}


def read_function(text, found):
    generics, at = generics_at(text, found.end())
    at = first(text, at, "(")
    end = closed(text, at)
    params, at = text[at + 1 : end - 1], end
    stop = first(text, at, "{;")
    word = re.search(r"\b(?:requires|ensures|ghost)\b", text[at:stop])
    result = text[at : at + word.start()] if word else text[at:stop]
    at, clauses = at + len(result), []
    while clause := CLAUSE.match(text, at):
        at = closed(text, clause.end())
        clauses.append((clause[1], clause[2], text[clause.end() + 1 : at - 1]))
    body = first(text, at, "{;")
    end = closed(text, body) if text[body] == "{" else body + 1
    return Function(found[3], found.start(), end, body, generics, params, result.strip().removeprefix("->").partition("where")[0].strip(), clauses)


def read_type(text, found):
    generics, at = generics_at(text, found.end()) if found[2] in ("struct", "enum", "type") else ("", found.end())
    stop = first(text, at, "{;" if found[2] in ("struct", "enum") else ";")
    end = closed(text, stop) if text[stop] == "{" else stop + 1
    return Item(found[2], found[3], found.start(), end, generics, text[at:end])


def read_block(source, text, found):
    generics, at = generics_at(text, found.end() if found[2] == "trait" else found.start(2) + len("impl"))
    stop = first(text, at, "{")
    head = text[at:stop].partition(" where ")[0].strip()
    if found[2] == "trait":
        trait, of = found[3], head.removeprefix(":").strip()
    else:
        trait, _, of = head.rpartition(" for ")
    block = Block(found[2], trait.strip(), of.strip(), found.start(), closed(text, stop), generics, source)
    read_items(source, text, stop + 1, block.end - 1, block)
    return block


def read_uses(path, before=()):
    """The names that a `use` line brings in, each with its path."""
    head, brace, rest = path.strip().partition("{")
    whole = [*before, *[word for word in head.strip().split("::") if word]]
    if brace:
        return {name: used for part in parts(rest.rstrip().removesuffix("}")) for name, used in read_uses(part, whole).items()}
    *inner, last = whole
    there, _, here = last.partition(" as ")
    return {inner[-1]: inner} if there == "self" else {here or there: [*inner, there]}


def read_ghost(text, found, block):
    at = first(text, found.end(), "{")
    end = closed(text, at)
    block.ghosts[found[3]] = text[at + 1 : end - 1]
    return first(text, end, ";") + 1


def read_item(source, text, found, block):
    """Reads one item into the block, or into the source where it stands in none; answers the place after it."""
    kind, into = found[2], block or source
    if kind in ("use", "ghost use", "mod"):
        end = first(text, found.end(), ";" if kind != "mod" else "{;")
        if kind == "use":
            source.uses |= read_uses(text[found.start(2) + len("use") : end])
        if kind == "ghost use" and block:
            block.imports |= imported(text[found.start(2) : end + 1])
        return closed(text, end) if text[end] == "{" else end + 1
    if kind == "fn":
        into.functions.append(read_function(text, found))
        return into.functions[-1].end
    if kind == "ghost":
        return read_ghost(text, found, block)
    if kind in ("trait", "impl"):
        read = read_block(source, text, found)
        if kind == "trait":
            source.traits[read.trait] = read
        else:
            source.impls.append(read)
        return read.end
    item = read_type(text, found)
    if block:
        block.types[item.name] = item.body.strip(" =:;")
    else:
        source.items[item.name] = item
    return item.end


def read_items(source, text, at, end, block=None):
    while at < end:
        if found := HEAD.match(text, at):
            at = read_item(source, text, found, block)
        elif text[at] == "#":
            at = closed(text, text.index("[", at))
        else:
            at = closed(text, at) if text[at] in "([{" else at + 1


def read_source(path, crate, module):
    text = path.read_text(encoding="utf-8")
    outside = re.sub(r"^[ \t]+ghost use .*$", "", text, flags=re.MULTILINE)
    source = Source(path, crate, module, text, imported(outside))
    read_items(source, blanked(text), 0, len(text))
    return source
