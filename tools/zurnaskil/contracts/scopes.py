"""Where a text of contracts stands: what its names mean there."""
import dataclasses
import re

from . import rust


@dataclasses.dataclass
class Scope:
    """Where a text stands: what its names mean."""

    source: rust.Source | None = None  # the names of Rust, in a source
    imports: dict = dataclasses.field(default_factory=dict)
    module: str = ""  # the module of specs/ whose own definitions it names
    bounds: dict[str, str] = dataclasses.field(default_factory=dict)  # of type parameters
    given: dict[str, tuple[str, "Scope"]] = dataclasses.field(default_factory=dict)  # the types that stand for type parameters
    traits: list[rust.Block] = dataclasses.field(default_factory=list)  # whose ghost members need no prefix
    hidden: set[str] = dataclasses.field(default_factory=set)


def scope_of_source(source):
    return Scope(source, source.imports)


def scope_of_block(block, given=None):
    given = given or {}
    bounds = {name: text for name, text in rust.bounds_of(block.generics).items() if name not in given}
    imports = block.source.imports | block.imports
    if block.trait == "Model" and block.imports:
        imports = block.imports
    if block.kind == "trait":
        return Scope(block.source, imports, bounds=bounds | {"Self": block.trait}, traits=[block])
    return Scope(block.source, imports, bounds=bounds, given=given | {"Self": (block.of, Scope(block.source, given=given, bounds=bounds))})


def scope_of_function(library, function, scope):
    bounds = scope.bounds | rust.bounds_of(function.generics)
    called = re.findall(r"\bdyn\s+((?:\w+::)*\w+)", f"{function.params} {function.result}")
    traits = [trait for name in called for trait in library.traits_of(name, scope.source)]
    return dataclasses.replace(scope, bounds=bounds, traits=[*scope.traits, *traits])
