"""Which functions may wait: those with the bound `Wait`, of their own or of the block that they are in, and a program's `main`."""
import pathlib
import re

TOP = pathlib.Path(__file__).resolve().parent.parent.parent
BLOCK = re.compile(r"^impl\b[^{]*", re.MULTILINE)
FUNCTION = re.compile(r"^ *(?:pub(?:\([^)]*\))? )?fn (?P<name>\w+)(?P<bounds>[^({]*)(?P<taken>\([^)]*)", re.MULTILINE)
ALIAS = re.compile(r"\btrait (\w+): [^{]*\bWait\b")
ENDLESS = re.compile(r"\bforever\(")


def sources(crate):
    """The files of a crate but those of its tests, each with its text."""
    folder = TOP / "crates" / crate / "src"
    for path in sorted(folder.rglob("*.rt")):
        if "tests" not in path.relative_to(folder).parts:
            yield path.relative_to(TOP).as_posix(), path.read_text(encoding="utf-8")


def that_wait(crate):
    """The functions of a crate that may wait, each with its file."""
    texts = list(sources(crate))
    bound = re.compile(rf"\b(?:{'|'.join(['Wait', *(name for _, text in texts for name in ALIAS.findall(text))])})\b")
    for file, text in texts:
        blocks = [(match.start(), text.find("\n}", match.start())) for match in BLOCK.finditer(text) if bound.search(match[0])]
        for match in FUNCTION.finditer(text):
            is_within = any(first < match.start() < last for first, last in blocks)
            is_main = match["name"] == "main" and "HostRuntime" in match["taken"]
            if is_within or is_main or bound.search(match["bounds"]):
                yield file, match["name"]


def endless(crate):
    """The files of a crate with a loop that has no measure."""
    return [file for file, text in sources(crate) if ENDLESS.search(text)]
