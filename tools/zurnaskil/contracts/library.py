"""All definitions and sources of the crates, and what a name stands for in each of them."""
from . import antt, rust
from .pieces import DEFINITION, INTERFACE, TOP, TYPE, Piece


def module_of(path, folder):
    """The crate of a file and its module there, as paths of contracts name it."""
    crate, _, *inner = path.relative_to(TOP / "crates").with_suffix("").parts
    return crate, ".".join(inner[: -1 if inner[-1] in ("lib", "main") and folder == "src" else None])


class Library:
    def __init__(self):
        self.definitions, self.imports, self.sources, self.pieces = {}, {}, {}, {}
        for path in sorted(TOP.glob("crates/*/specs/**/*.antt")):
            self.read_definitions(path)
        for path in sorted(TOP.glob("crates/*/src/**/*.rt")):
            crate, module = module_of(path, "src")
            self.sources[crate, module] = rust.read_source(path, crate, module)
        self.meanings = [block for source in self.sources.values() for block in source.impls if self.is_meaning(block)]

    def is_meaning(self, block):
        """Whether it is an impl that gives ghost members of a trait of these crates."""
        return bool(block.ghosts and block.trait and self.trait_named(block.source, block.trait))

    def read_definitions(self, path):
        crate, inner = module_of(path, "specs")
        module, text = f"{crate}.specs.{inner}", path.read_text(encoding="utf-8")
        self.imports[module] = antt.imported(text)
        for name, piece in antt.definitions_of(path, text).items():
            self.definitions[module, name] = piece
            self.pieces[piece] = module

    def unknown(self):
        """The names that sources import from the crates' specs/ and for which nothing is found: none, where this reading knows all forms."""
        crates = {crate for crate, _ in self.sources}
        importing = [*self.imports.values(), *(each.imports for source in self.sources.values() for each in [source, *source.impls])]
        for imports in importing:
            for module, name in imports.values():
                if not name and module in self.imports:  # a file of definitions under another name
                    continue
                module, name = self.passed_on(module, name or "x")
                if module.partition(".")[0] in crates and not self.imported(module, name):
                    yield f"{module}.{name}"

    def passed_on(self, module, name):
        """The module and the name from which a module has a name that it passes on, as those of the kit's crates."""
        while (module, name) not in self.definitions and name in self.imports.get(module, {}):
            module, name = self.imports[module][name]
        return module, name

    def source_at(self, path):
        return next((source for source in self.sources.values() if source.path == path), None)

    # ---- names of contracts

    def imported(self, module, name):
        """The definition that a name of a module is, or the source and the name of what it stands for in src/; none where it isn't of these crates."""
        if (module, name) in self.definitions:
            return self.definitions[module, name]
        if name in self.imports.get(module, {}):
            return self.imported(*self.imports[module][name])
        return self.declared(module, name) if ".specs.declared." in module else None

    def declared(self, module, name):
        """The source and the item that a module of `specs.declared` and a name there stand for: a type, its variants or fields, or a trait."""
        crate, _, inner = module.partition(".specs.declared.")
        words = inner.split(".")
        for length in range(len(words), 0, -1):
            source = self.sources.get((crate, ".".join(words[: length - 1])))
            if source and (words[length - 1] in source.items or words[length - 1] in source.traits):
                return source, words[length - 1]
        source = self.sources.get((crate, inner))
        return (source, name) if source and (name in source.items or name in source.traits) else None

    # ---- names of Rust

    def resolve(self, source, path):
        """The source and the name of the item for which a path of Rust stands in this source; none where it isn't of these crates."""
        return self.descend(source, path, set())

    def descend(self, source, path, seen):
        head, *rest = path
        if (source, tuple(path)) in seen:
            return None
        seen = seen | {(source, tuple(path))}
        if not rest and (head in source.items or head in source.traits):
            return source, head
        if head in source.uses and source.uses[head] != [head]:
            return self.descend(source, [*source.uses[head], *rest], seen)
        inner = self.inner(source, head)
        return self.descend(inner, rest, seen) if inner and rest else None

    def inner(self, source, name):
        """The module that a name at the head of a path stands for in this source."""
        if name == "self":
            return source
        if name == "crate":
            return self.sources.get((source.crate, ""))
        if name == "super":
            return self.sources.get((source.crate, source.module.rpartition(".")[0]))
        child = f"{source.module}.{name}" if source.module else name
        return self.sources.get((source.crate, child)) or self.sources.get((name, ""))

    # ---- types

    def models_of(self, source, name):
        return [block for block in source.impls if block.trait == "Model" and rust_head(block.of) == name]

    def piece_of_type(self, source, name):
        """A type, with its models, as one piece."""
        if (source, name) not in self.pieces:
            item = source.items[name]
            lines = source.lines(item.start, item.end)
            for block in self.models_of(source, name):
                lines += ["", *source.lines(block.start, block.end)]
            kind = DEFINITION if item.kind in ("const", "static") else TYPE
            self.pieces[source, name] = Piece(kind, name, source.path, source.line(item.start), source.comment(item.start), lines)
        return self.pieces[source, name]

    def piece_of_block(self, block):
        """A trait with the clauses of its functions, or an impl with its ghost members, as one piece, without bodies."""
        if id(block) not in self.pieces:
            name = block.trait if block.kind == "trait" else f"{block.trait} for {block.of}"
            source = block.source
            self.pieces[id(block)] = Piece(INTERFACE, name, source.path, source.line(block.start), source.comment(block.start), lines_of_block(block))
        return self.pieces[id(block)]

    # ---- traits and impls

    def trait_named(self, source, path):
        """The trait that a path of Rust, perhaps with parameters, stands for; none where it isn't of these crates."""
        found = self.resolve(source, rust_head(path).split("::"))
        return found[0].traits.get(found[1]) if found else None

    def traits_of(self, bounds, source):
        """The traits of bounds, and those that they stand on."""
        found = []
        for bound in rust.parts(bounds, "+"):
            trait = self.trait_named(source, bound)
            if trait:
                found += [trait, *self.traits_of(trait.of, trait.source)]
        return found


def rust_head(type_text):
    """The path at the head of a type, without its parameters and references."""
    text = type_text.strip()
    while text.startswith("&"):
        text = text[1:].strip()
        text = text.partition(" ")[2] if text.startswith("'") else text
        text = text.removeprefix("mut ").strip()
    return text.partition("<")[0].strip()


def rust_arguments(type_text):
    """The parameters of a type, without lifetimes."""
    inner = type_text.partition("<")[2].rpartition(">")[0]
    return [part for part in rust.parts(inner) if not part.startswith("'")]


def lines_of_block(block):
    """The lines of a trait or an impl without bodies; of an impl without the functions that have the clauses of its trait."""
    source, dropped = block.source, set()
    for function in block.functions:
        if block.kind == "impl" and not function.clauses:
            comment = len(source.comment(function.start))
            dropped |= set(range(source.line(function.start) - comment, source.line(function.end) + 1))
        elif source.text[function.body] == "{":
            dropped |= set(range(source.line(function.body), source.line(function.end) + 1))
    lines = enumerate(source.lines(block.start, block.end), source.line(block.start))
    return without_double_blanks([line for number, line in lines if number not in dropped])


def without_double_blanks(lines):
    return [line for place, line in enumerate(lines) if line.strip() or not place or lines[place - 1].strip()]
