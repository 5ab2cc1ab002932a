"""What a text of contracts cites: definitions, types, traits and impls."""
import dataclasses
import re

from . import antt, rust
from .impls import Impls
from .library import rust_head
from .pieces import Piece
from .scopes import Scope, scope_of_block, scope_of_function

QUOTE = r"⟦<(?P<of>.+?) as (?P<trait>[^⟧]+)>⟧"
LABEL = r"(?:(?<=[{;] )|(?<=\blet )|(?<=\n)[ ]+)[\w']+ =(?=\s)"  # a field that is given its value, or a variable
TOKEN = re.compile(QUOTE + "|" + LABEL + r"|(?P<operator>>>=|←)|(?<![\w'.])(?P<name>[^\W\d][\w'-]*(?:\.[\w'-]+)*)")
LOCKED = re.compile(r"\bMutex<.*>")
PATH = re.compile(r"(?<![\w'])[A-Za-z_]\w*(?:::[A-Za-z_]\w*)*")


@dataclasses.dataclass
class Cited:
    """A definition, a type, a trait or an impl, with the types that stand for its parameters."""

    what: object
    name: str = ""
    given: dict = dataclasses.field(default_factory=dict)

    def key(self):
        return id(self.what), self.name, tuple((name, text) for name, (text, _) in self.given.items())


class Citations:
    def __init__(self, library):
        self.library = library
        self.impls = Impls(library)

    # ---- the names of a text

    def of_text(self, text, scope):
        for found in TOKEN.finditer(text):
            if found["of"]:
                yield from self.of_quote(found["of"], found["trait"], scope)
            elif found["operator"]:
                yield from self.of_name([">>="], scope)
            elif found["name"] and found["name"].split(".")[0] not in scope.hidden:
                yield from self.of_name(found["name"].split("."), scope)

    def of_name(self, words, scope):
        head = words[0]
        if head in scope.imports:
            module, name = scope.imports[head]
            yield from self.of_import(module, name or (words[1] if len(words) > 1 else ""))
        elif (scope.module, head) in self.library.definitions:
            yield Cited(self.library.definitions[scope.module, head])
        elif scope.source:
            yield from self.of_source_name(words, scope)

    def of_import(self, module, name):
        found = self.library.imported(module, name)
        if isinstance(found, Piece):
            yield Cited(found)
        elif found and found[1] in found[0].items:
            yield Cited(*found)
        elif found:
            yield Cited(found[0].traits[found[1]])

    def of_source_name(self, words, scope):
        head = words[0]
        box = head.removesuffix("-box").removesuffix("-dyn")
        if head in scope.given or head in scope.bounds:
            yield from self.of_member(words, scope)
        elif owner := next((trait for trait in scope.traits if head in trait.ghosts), None):
            yield Cited(owner)
        elif box != head:
            trait = self.library.trait_named(scope.source, box)
            yield from [Cited(trait)] if trait else []
        elif head[0].isupper():
            yield from self.of_path(head, scope)

    def of_path(self, path, scope):
        found = self.library.resolve(scope.source, path.split("::"))
        if found and found[1] in found[0].items:
            yield Cited(*found)

    # ---- the types of a signature

    def of_type(self, text, scope):
        for path in PATH.findall(text):
            head = path.split("::")[0]
            if path == "Self" and path in scope.given:
                yield from self.of_type(*scope.given["Self"])
            elif head not in scope.bounds and head not in scope.given:
                yield from self.of_path(path, scope)

    # ---- ghost members

    def of_member(self, words, scope):
        """The trait that has the ghost member `T.Associated.Trait.member`, and the impl that gives it, where the type is known."""
        head, *rest = words
        if head in scope.given:
            text, outer = scope.given[head]
            yield from self.of_type_member(text, rest, outer)
        elif head in scope.bounds:
            yield from self.of_bound_member(self.library.traits_of(scope.bounds[head], scope.source), rest)

    def of_bound_member(self, traits, words):
        if not words:
            return
        head, *rest = words
        for trait in traits:
            if head == trait.trait:
                yield from self.of_bound_member([trait, *self.library.traits_of(trait.of, trait.source)], rest)
                return
            if head in trait.ghosts:
                yield Cited(trait)
                return
            if head in trait.types:
                yield Cited(trait)
                yield from self.of_bound_member(self.library.traits_of(trait.types[head], trait.source), rest)
                return

    def of_type_member(self, text, words, scope):
        """The same at a type that is known, as far as it is: a parameter of the scope has bounds alone."""
        head = rust_head(text)
        inner = head.split("::")
        if inner[0] in scope.given or inner[0] in scope.bounds:
            yield from self.of_member([*inner, *words], scope)
            return
        for block, given in self.impls.of_type(text, scope):
            trait = self.library.trait_named(block.source, block.trait)
            member = words[1:] if words and trait and words[0] == trait.trait else words
            if member and member[0] in block.ghosts:
                yield from [Cited(trait), Cited(block, given=given)]
            elif member and member[0] in block.types:
                yield from self.of_type_member(block.types[member[0]], member[1:], scope_of_block(block, given))

    def of_quote(self, of, trait_text, scope):
        trait = self.library.trait_named(scope.source, trait_text) if scope.source else None
        if not trait:
            return
        yield Cited(trait)
        member = next(iter(trait.ghosts), "")
        head = rust_head(of).split("::")
        if head[0] in scope.given:
            yield from self.of_member([*head, trait.trait, member], scope)
        elif head[0] not in scope.bounds:
            yield from (Cited(block, given=given) for block, given in self.impls.of_type(of, scope) if self.library.trait_named(block.source, block.trait) is trait)

    # ---- what a thing rests on

    def of_cited(self, cited):
        """What a cited thing cites itself."""
        if isinstance(cited.what, rust.Source):
            return self.of_item(cited.what, cited.what.items[cited.name])
        if isinstance(cited.what, rust.Block):
            return self.of_block(cited.what, cited.given)
        module = self.library.pieces[cited.what]
        return self.of_definition(cited.what, module)

    def of_definition(self, piece, module):
        scope = Scope(imports=self.library.imports[module], module=module)
        for part, bound, left in antt.scoped(antt.plain(piece.lines), piece.name):
            variables = {word for word in left if not self.is_constructor(word, scope)}
            yield from self.of_text(part, dataclasses.replace(scope, hidden=bound | variables))

    def is_constructor(self, word, scope):
        """Whether the word, where it stands alone, names a constructor of a family of specs/."""
        found = [cited.what for cited in self.of_name([word], scope) if cited.what in self.library.pieces]
        return bool(found) and found[0].name != scope.imports.get(word, ("", word))[1]

    def of_item(self, source, item):
        scope = Scope(source, source.imports, bounds=rust.bounds_of(item.generics))
        yield from self.of_fields(item, scope) if item.kind == "struct" else self.of_type(item.body, scope)
        for model in self.library.models_of(source, item.name):
            for fact in model.ghosts.values():
                yield from self.of_fact(fact, scope_of_block(model))

    def of_fields(self, struct, scope):
        """The types of a struct's fields, but for what a lock holds, which no contract sees; and what its invariants, its ghost fields, cite."""
        inner = struct.body.strip().strip(";").strip()[1:-1]
        fields = [re.sub(r"#\[[^\]]*\]", "", part).strip() for part in rust.parts(inner)]
        names = {field.partition(":")[0].split()[-1] for field in fields if ":" in field}
        for field in fields:
            before, _, after = field.partition(":")
            if before.startswith("ghost "):
                yield from self.of_fact(after, scope, names)
            else:
                yield from self.of_type(LOCKED.sub("", after or field), scope)

    def of_fact(self, text, scope, hidden=frozenset()):
        """What a fact of a source cites, in which these names and those that it binds are variables."""
        return self.of_text(text, dataclasses.replace(scope, hidden={*hidden, *antt.bound_in(text)}))

    def of_block(self, block, given):
        scope = scope_of_block(block, given)
        for text in [block.of, *block.types.values()]:
            yield from self.of_type(text, scope)
        for fact in block.ghosts.values():
            yield from self.of_fact(fact, scope)
        for function in block.functions:
            if block.kind == "trait" or function.clauses:
                yield from self.of_function(function, scope)

    # ---- contracts

    def of_function(self, function, scope, clause=""):
        """What a function's contract cites, with the types of its signature; or one of its clauses, with its premises and the types of what they name."""
        scope = scope_of_function(self.library, function, scope)
        facts = [fact for word, name, fact in function.clauses if not clause or word != "ensures" or name == clause]
        signature = list(signature_of(function))
        for fact in facts:
            yield from self.of_fact(fact, scope, {name for name, _ in signature})
        named = set(re.findall(r"(?<![\w'.])[\w']+", " ".join(facts)))
        for name, text in signature:
            if not clause or name in named:
                yield from self.of_type(text, scope)


def signature_of(function):
    """The names of a function's parameters, with their types, and its result."""
    for part in rust.parts(function.params):
        name, _, text = part.partition(":")
        name = name.split()[-1].lstrip("&")
        yield name, text or "Self"
    yield "result", function.result
