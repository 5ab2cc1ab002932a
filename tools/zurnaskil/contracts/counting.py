"""What contracts rest on, in order, and how much that is."""
import dataclasses
import pathlib
import re

from . import rust
from .citing import Citations, Cited
from .library import Library, rust_head
from .pieces import DEFINITION, INTERFACE, TOP, TYPE
from .scopes import scope_of_block, scope_of_source

TARGET = re.compile(r"(?P<file>[^:]+):(?:(?P<owner><.+>|\w+)::)?(?P<name>\w+)(?::(?P<clause>[\w']+))?")


@dataclasses.dataclass
class Count:
    """How many pieces of a kind, their lines without comments, and with them."""

    number: int
    bare: int
    lines: int


class Believed:
    def __init__(self):
        self.library = Library()
        self.citations = Citations(self.library)

    def by(self, targets):
        """What these contracts rest on, each piece behind those that it uses."""
        order, seen = {}, set()
        for target in targets:
            for cited in self.contract(target):
                self.visit(cited, order, seen)
        return list(order)

    def visit(self, cited, order, seen):
        if cited.key() not in seen:
            seen.add(cited.key())
            for other in self.citations.of_cited(cited):
                self.visit(other, order, seen)
            order[self.piece(cited)] = True

    def piece(self, cited):
        if isinstance(cited.what, rust.Source):
            return self.library.piece_of_type(cited.what, cited.name)
        if isinstance(cited.what, rust.Block):
            return self.library.piece_of_block(cited.what)
        return cited.what

    # ---- the contract that is asked for

    def contract(self, target):
        """What the clauses of a target cite."""
        asked = TARGET.fullmatch(target)
        source = self.library.source_at(pathlib.Path(asked["file"]).absolute()) if asked else None
        source = source or (self.library.source_at(TOP / asked["file"]) if asked else None)
        if not source:
            raise LookupError(f"{target} isn't FILE:FUNCTION, FILE being a source of crates/")
        if asked["name"] in source.traits and not asked["owner"]:
            return [Cited(source.traits[asked["name"]])]
        found = list(self.functions(source, asked["owner"], asked["name"]))
        if not found:
            raise LookupError(f"{asked['file']} has no function {target.partition(':')[2]}")
        if asked["clause"] and not any(asked["clause"] == name for _, function in found for _, name, _ in function.clauses):
            raise LookupError(f"{asked['name']} of {asked['file']} has no clause {asked['clause']}")
        return [cited for block, function in found for cited in self.of_function(source, block, function, asked["clause"] or "")]

    def functions(self, source, owner, name):
        """The functions of this name, each with the trait or the impl in which it stands; with an owner those of it alone."""
        blocks = [None, *source.traits.values(), *source.impls]
        for block in blocks:
            if not owner or (block and owner in names_of(block)):
                yield from ((block, function) for function in (block or source).functions if function.name == name)

    def of_function(self, source, block, function, clause):
        """What a function's contract cites; one of an impl that has no clauses of its own has those of its trait."""
        scope = scope_of_block(block) if block else scope_of_source(source)
        yield from self.citations.of_function(function, scope, clause)
        if block and block.kind == "impl" and block.trait:
            yield from [Cited(block)] if block.ghosts else []
            trait = self.library.trait_named(source, block.trait)
            if trait and not function.clauses:
                inherited = next(each for each in trait.functions if each.name == function.name)
                yield from self.citations.of_function(inherited, scope_of_block(trait), clause)


def names_of(block):
    """The names by which a function of this block is told from others of its name: its trait's, or its type's."""
    if block.kind == "trait":
        return {block.trait}
    return {rust_head(block.of), f"<{block.of} as {block.trait}>"}


def counted(pieces, kind):
    chosen = [piece for piece in pieces if piece.kind == kind]
    return Count(len(chosen), sum(piece.bare() for piece in chosen), sum(len(piece.lines) + len(piece.comment) for piece in chosen))


def numbers(pieces):
    """The counts of definitions, of types and of interfaces."""
    return [counted(pieces, kind) for kind in (DEFINITION, TYPE, INTERFACE)]


def told(pieces):
    """The last line: how many pieces of each kind, and their lines."""
    definitions, types, interfaces = numbers(pieces)
    return (
        f"{definitions.number} definitions: {definitions.bare} bare lines, {definitions.lines} with comments; "
        f"{types.number} types: {types.bare} bare lines; {interfaces.number} interfaces: {interfaces.bare} bare lines"
    )
