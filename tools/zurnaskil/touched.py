"""The files that a change of a thing touches, told by reading the tree: those that name it, and those that go by it under another name."""
import collections
import functools
import os
import pathlib
import re

TOP = pathlib.Path(__file__).resolve().parent.parent.parent
LEFT_OUT = {".git", "out", "__pycache__"}  # folders
FEW = 25  # files that have a name; if more have it, it says little of them
LIMITS, TOOL_LIMITS = "crates/jb_base/specs/Limits.antt", "tests/tool-limits"
WRITTEN = {"Row": re.compile(r'\[(?:\d+, ?){10,}\\?"(?:waiting|running|done|failed)')}  # values of a type that are written out

ITEM = re.compile(r"^\s*(?:pub(?:\(crate\))? )?(?:const |unsafe )*(?:fn|struct|enum|trait|type|const|static) (\w+)")
TYPE = re.compile(r"^\s*(?:pub(?:\(crate\))? )?(?:struct|enum) (\w+)[^{;]*\{\n(.*?)^\s*\}", re.MULTILINE | re.DOTALL)
MEMBER = re.compile(r"^    (?:pub(?:\(crate\))? )?([A-Za-z_]\w*)\s*(?:[:,({]|$)", re.MULTILINE)
RECORD = re.compile(r"^(?:pub )?record (\w+).*?where\n((?:  .*\n)+)", re.MULTILINE)
FIELD = re.compile(r"^  (?:pub )?(\w+) :", re.MULTILINE)
DEFINITION = re.compile(r"^(?:unfoldable )?(?:pub )?(?:abbrev )?(?:pub )?(?:record |data )?([^\W\d][\w-]*)")
WORD = re.compile(r"[^\W\d]\w*(?:-\w+)*")


def parts_of(name):
    return [part.lower() for part in re.findall(r"[A-Z]+(?![a-z])|[A-Z]?[a-z]+|\d+", name)]


def form_of(name):
    """Finds a name in each of its spellings. One word with a capital is looked for as it is written."""
    parts = parts_of(name)
    if len(parts) == 1 and name[0].isupper():
        return re.compile(rf"(?<![A-Za-z]){re.escape(name)}(?![a-z])")
    low, high = "[-_ \n]".join(parts), "[-_ ]".join(parts).upper()
    camel = "".join(part.capitalize() for part in parts)
    return re.compile(rf"(?<![A-Za-z]){low}s?(?![a-z])|{camel}s?(?![a-z])|(?<![A-Z]){high}S?(?![A-Z])")


def blocks_of(path, text):
    """The parts of a source, each with the name that it defines."""
    if path.endswith(".antt"):
        for block in re.split(r"\n\s*\n", text):
            lines = [line for line in block.splitlines() if not line.startswith(("--", "use ", "unfolding "))]
            if lines and (found := DEFINITION.match(lines[0])):
                yield found[1], "\n".join(lines)
    elif path.endswith(".rt"):
        name, lines = None, []
        for line in text.splitlines():
            if found := ITEM.match(line):
                yield name, "\n".join(lines)
                name, lines = found[1], []
            if not line.lstrip().startswith(("//", "use ", "ghost use ")):
                lines.append(line)
        yield name, "\n".join(lines)


def types_in(path, text):
    """The types that a source declares, each with its members."""
    if path.endswith(".rt") and "tests" not in path:
        yield from ((name, set(MEMBER.findall(body))) for name, body in TYPE.findall(text))
    if path.endswith(".antt") and "/specs/" in path:
        yield from ((name, set(FIELD.findall(body))) for name, body in RECORD.findall(text))


class Tree:
    """The texts of a repository's files by their paths, and the files that have each word."""

    def __init__(self, top=TOP):
        self.texts = dict(read_files(top))
        self.small = {path: text.lower() for path, text in self.texts.items()}
        self.having = collections.defaultdict(set)
        for path, text in self.texts.items():
            for word in set(WORD.findall(text)):
                self.having[word].add(path)

    @functools.cached_property
    def defined(self):
        """The files of the definitions, by the names that they define."""
        found = collections.defaultdict(set)
        for path, text in self.texts.items():
            if "/specs/" in path:
                for name, _ in blocks_of(path, text):
                    found[name].add(path)
        return found

    @functools.cached_property
    def types(self):
        """The types that are declared, each with its file and its members."""
        return [(path, *declared) for path, text in self.texts.items() for declared in types_in(path, text)]


def read_files(top):
    for folder, folders, names in os.walk(top):
        folders[:] = [name for name in folders if name not in LEFT_OUT]
        for name in names:
            path = pathlib.Path(folder, name)
            try:
                yield str(path.relative_to(top)), path.read_text(encoding="utf-8")
            except (OSError, UnicodeDecodeError):
                pass


class Touched:
    """What a change of a thing touches: the reason by each file's path."""

    def __init__(self, tree, thing):
        self.tree, self.reasons = tree, {}
        self.owner, _, self.name = thing.rpartition("::")
        self.snake, self.form = "_".join(parts_of(self.name)), form_of(self.name)
        first = parts_of(self.name)[0]
        counts = {path: len(self.form.findall(tree.texts[path])) for path, text in tree.small.items() if first in text}
        self.naming = {path for path, count in counts.items() if count}
        self.note(self.naming, lambda path: "names it" if counts[path] == 1 else f"names it {counts[path]} times")
        self.note_limit()
        self.note_other_names()
        self.note_uses()
        self.note_likes()
        self.note_crates()
        self.note_readers()

    def note(self, paths, reason):
        for path in sorted(paths):
            if path not in self.reasons:
                self.reasons[path] = reason if isinstance(reason, str) else reason(path)

    def note_limit(self):
        """Where it is a limit: the files that have its number, and those of the tools, which call it otherwise."""
        number = re.search(rf"^{self.snake} = (\d+)$", self.tree.texts.get(LIMITS, ""), re.MULTILINE)
        if number is None:
            return
        for name in re.findall(rf'"(\w+)": "{self.snake}"', self.tree.texts.get(TOOL_LIMITS, "")):
            self.note(self.tree.having[name], f"as {name}")
        value = int(number[1])
        spelled = re.compile(rf"(?<![\d.,_])(?:{value}|{value:,}|{value:_})(?![\d]|[,_]\d)")
        self.note([path for path, text in self.tree.texts.items() if spelled.search(text)], f"has its number, {value:,}")

    def members(self):
        """The types of which it is a member, each with the others and the file that declares it."""
        for path, name, members in self.tree.types:
            if {self.name, self.snake} & members and self.owner in ("", name):
                yield name, members - {self.name, self.snake}, path

    def note_other_names(self):
        """The fields of other names in which its value is kept, and the records of these fields."""
        kept = re.compile(rf"\b([a-z]\w+) ?[:=] ?(?:[\w.]+\.){self.snake}\b|\b{self.snake} ?[:=] ?(?:[a-z]\w*\.)+([a-z]\w+)")
        sources = [path for path in self.naming if path.endswith((".rt", ".antt", ".rt.in"))]
        fields = {first or second for path in sources for first, second in kept.findall(self.tree.texts[path])} - {self.snake}
        for _, name, members in self.tree.types:
            for field in sorted(fields & members):
                self.note(self.tree.having[field] & self.tree.having[name], f"as {name}.{field}")
                if len(self.tree.having[name]) <= 3 * FEW:
                    self.note(self.tree.having[name], f"like {name}")

    def note_uses(self):
        """The files that use what names it, and the definitions that stand beside it, with the code that has these in its clauses."""
        defined, beside = self.tree.defined, set()
        for path in sorted(path for path in self.naming if kind_of(path) in ("definitions", "code", "proofs")):
            near = "/".join(path.split("/")[:2]) if "/proofs/" in path else "crates"  # a lemma is used in its own crate
            for name, block in blocks_of(path, self.tree.texts[path]):
                if name and self.form.search(block):
                    beside |= {word for word in WORD.findall(block) if word in defined}
                    users = [user for user in self.tree.having[name] if user.startswith(near)]
                    self.note(users if len(users) <= (2 * FEW if "/specs/" in path else FEW) else [], f"by {name}")
        for word in sorted(beside):
            self.note(defined[word], f"defines {word}, which stands beside it")
            if len(self.tree.having[word]) <= FEW:
                self.note([user for user in self.tree.having[word] if "/src/" in user], f"beside {word}")

    def note_likes(self):
        """The files that name others of its type."""
        for name, others, _ in self.members():
            counts = collections.Counter(path for other in others for path in self.tree.having[other])
            enough = max(3, len(others) // 2)
            self.note([path for path, count in counts.items() if path in self.tree.having[name] or count >= enough], f"like {name}")
            if name in WRITTEN:
                self.note([path for path, text in self.tree.texts.items() if WRITTEN[name].search(text)], f"writes a {name} out")

    def note_crates(self):
        """The sources, the definitions and the lemmas of the crates that declare it, and the code that uses such a crate."""
        declare = re.compile(rf'(?:fn|const|struct|enum) {self.snake}\b|codes "-*{re.escape(self.name)}[": ]')
        declaring = {path for _, _, path in self.members()}
        declaring |= {path for path in self.naming if re.search(r"crates/\w+/(?:src|specs)/", path) and declare.search(self.tree.texts[path])}
        crates = {"/".join(path.split("/")[:2]) for path in declaring}
        for crate in sorted(crates):
            self.note([path for path in self.tree.texts if re.match(rf"{crate}/(?:src/|specs/|proofs/\w+\.antt)", path)], f"of {crate}")
        for crate in sorted(crates):
            users = [path for path in self.tree.having[crate.removeprefix("crates/")] if "/src/" in path]
            self.note(users if len(users) <= 2 * FEW else [], f"uses {crate}")

    def note_readers(self):
        """The schemas that refer to one that names it, and the scripts that build a program of bench/ that goes by it."""
        for path, text in self.tree.texts.items():
            if path.startswith("docs/schema/"):
                named = [name for name in re.findall(r'"(\w+\.json)[#"]', text) if f"docs/schema/{name}" in self.naming]
                self.note([path] if named else [], f"refers to {', '.join(sorted(set(named)))}")
            if re.fullmatch(r"bench/\w+\.py", path):
                folders = {other.split("/")[1] for other in self.reasons if re.match(r"bench/\w+/", other)}
                built = [folder for folder in sorted(folders) if f'"{folder}"' in text]
                self.note([path] if built else [], f"builds {', '.join(built)}")


KINDS = [  # what a file is, by its path: the first that fits
    ("definitions", r"crates/\w+/specs/"),
    ("proofs", r"crates/\w+/proofs/"),
    ("must-fail edits", r"crates/\w+/must-fail/"),
    ("tests", r"tests/|crates/\w*tests/|crates/\w+/src/tests"),
    ("pages", r".*\.md$"),
    ("code", r"crates/"),
    ("schemas", r"docs/schema/"),
    ("tools", r"tools/"),
    ("cases", r"cases/"),
    ("measurements", r"bench/"),
    ("examples", r"examples/"),
    ("the rest", r""),
]


def kind_of(path):
    return next(kind for kind, form in KINDS if re.match(form, path))
