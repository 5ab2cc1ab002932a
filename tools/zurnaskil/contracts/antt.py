"""The definitions of a file of specs/, and what the names in it mean."""
import re

from .pieces import DEFINITION, Piece

BEGIN = re.compile(r"(?:abbrev pub|unfoldable pub|pub record|pub data|abbrev|unfoldable|pub(?! (?:mod|use|open)\b))\s+(\S+)")
MUTUAL = re.compile(r"pub ([\w']+) :")
CONSTRUCTOR = re.compile(r"\s+(?:pub )?([\w']+) :")
IMPORT = re.compile(r"[ \t]*(?:ghost |pub )?use Rattle\.([\w.]+?)(?:\.\{([^}]*)\}| as (\w+));?[ \t]*$", re.MULTILINE)
BINDERS = [  # names that a text binds itself, in the groups that hold them
    re.compile(r"[({]([^():{}λ]+?) : "),
    re.compile(r"λ ([^.]*)\."),
    re.compile(r"\blet ([\w']+) "),
    re.compile(r"^ +(.*?) ←", re.MULTILINE),
]
FIELD = re.compile(r"^ +(?:pub )?([\w']+) :", re.MULTILINE)
NAME = re.compile(r"[^\W\d][\w'-]*")
VARIABLE = re.compile(r"(?<![\w'.-])[^\W\d][\w'-]*(?![\w'.-])")


def imported(text):
    """What each imported word names: a module and the name there, or a module alone."""
    names = {}
    for module, listed, alias in IMPORT.findall(text):
        if alias:
            names[alias] = module, ""
        for name in filter(None, listed.split(",")):
            there, _, here = name.strip().partition(" as ")
            names[(here or there).strip("◌ ")] = module, there.strip("◌ ")
    return names


def plain(lines):
    """The lines as one text, without comments and without what stands in quotation marks."""
    text = re.sub(r'"(?:\\.|[^"\\])*"', '""', "\n".join(lines), flags=re.DOTALL)
    return re.sub(r"(?:^|(?<=\s))--.*", "", text, flags=re.MULTILINE)


def flat(text):
    """The numbered lines, those of a block with parameters or of a mutual one as if they stood in none; and the form in which a definition begins."""
    block, begin = "", BEGIN
    for number, line in enumerate(text.split("\n"), 1):
        if line.startswith(("module ", "abbrev mutual")):
            block, begin = line, MUTUAL if line.startswith("abbrev") else BEGIN
        elif block and line.startswith("  "):
            yield number, line[2:], begin
        else:
            block, begin = (block, begin) if not line.strip() else ("", BEGIN)
            yield number, line, begin


def definitions_of(path, text):
    """The definitions of a file, by their names; a constructor names the definition that has it."""
    found, comment, last = {}, [], None
    for number, line, form in flat(text):
        begin = form.match(line)
        if begin:
            name = begin[1].strip("◌")
            last = found[name] = Piece(DEFINITION, name, path, number, comment, [line])
            comment = []
        elif line.startswith("--"):
            comment.append(line)
        elif not line.strip():
            comment = []
        elif last and not line.startswith(("use ", "pub use ", "pub mod", "infix")):
            last.lines.append(line)
    for piece in list(found.values()):
        if piece.lines[0].startswith("pub data"):
            found |= {each[1]: piece for each in map(CONSTRUCTOR.match, piece.lines[1:]) if each}
    return found


def bound_in(text):
    """The names that a text binds, as parameters or fields: in it they name nothing else."""
    groups = [group for binder in BINDERS for group in binder.findall(text)]
    return {name for group in groups for name in NAME.findall(group) if not name[0].isupper()}


def scoped(text, name):
    """The parts of the definition of this name, each with the names that it binds itself, and the words on the left of an equation,
    which are variables or constructors. A record has its fields, each of which knows those before it; else there are the type and each
    equation."""
    if text.startswith(("pub record", "pub data")):
        head, *rest = FIELD.split(text)
        known = bound_in(head)
        yield head, known, set()
        for field, part in zip(rest[::2], rest[1::2]):
            yield part, known | bound_in(part), set()
            known = known | {field}
        return
    for part in re.split(rf"^(?={re.escape(name)} )", text, flags=re.MULTILINE):
        left = re.match(rf"{re.escape(name)}(.*?) =(?:\s|$)", part)
        yield part, bound_in(part), {word for word in VARIABLE.findall(left[1]) if not word[0].isupper()} if left else set()
