"""Which impls give the ghost members of a type, and which types stand for their parameters there."""
from . import rust
from .library import rust_arguments, rust_head
from .scopes import Scope


class Impls:
    def __init__(self, library):
        self.library = library

    def expanded(self, text, scope):
        """A type, with an alias written out."""
        found = self.library.resolve(scope.source, rust_head(text).split("::")) if scope.source else None
        if not found or found[1] not in found[0].items or found[0].items[found[1]].kind != "type":
            return text, scope
        source, item = found[0], found[0].items[found[1]]
        names = [name for name in rust.bounds_of(item.generics)]
        given = {name: (each, scope) for name, each in zip(names, rust_arguments(text))}
        return self.expanded(item.body.strip(" =;\n"), Scope(source=source, given=given))

    def of_type(self, text, scope):
        """The impls of the crates' traits for a type, each with the types that stand for its parameters."""
        for block in self.library.meanings:
            if block.of not in rust.bounds_of(block.generics):
                given = self.matched(block.of, *self.expanded(text, scope), block)
                if given is not None:
                    yield block, given

    def matched(self, pattern, text, scope, block):
        """The types that stand for the impl's parameters where its type is this one; None where it is another."""
        if pattern in rust.bounds_of(block.generics):
            return {pattern: (text, scope)}
        if not self.is_same_head(pattern, text, block.source, scope.source):
            return None
        given = {}
        for inner, actual in zip(rust_arguments(pattern), rust_arguments(text)):
            found = self.matched(inner, *self.expanded(actual, scope), block)
            if found is None:
                return None
            given |= found
        return given

    def is_same_head(self, pattern, text, pattern_source, source):
        one, other = rust_head(pattern), rust_head(text)
        found = self.library.resolve(pattern_source, one.split("::")) if one else None
        if found:
            return source is not None and self.library.resolve(source, other.split("::")) == found
        return one == other
