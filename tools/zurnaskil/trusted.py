"""What the proof of a program rests on besides proofs: the C functions whose contracts are taken as they are written, by name.

The kit's checker counts them in the last line of a program's proof, and with `--list-axioms` it names those that it reached. `rt ci` has no such
flag. So the program's own crate is proved once more, over the libraries that `rt ci` built: they state what the program stands on.
"""
import re
import subprocess
from collections import namedtuple

from . import children, unproved
from .program import Refused

LIST = "trusted"  # in a program's out/: what the checker said
HEAD = re.compile(r"axioms (\w+): (\d+|none) reached of the \d+ declared")
REACHED = re.compile(r"  (\S+) +reached")
LAST = "logic=proved "

# `functions` are those that were reached, by the library that declares them; `counted` is their number in the last line, and `called` are those of
# threads and memory that this line names.
Trusted = namedtuple("Trusted", "functions counted called")


def library(program, name):
    """The place of a library: built by this repository, or the kit's."""
    own = program.top / "crates" / name / "out/rlib" / f"{name}.rlib"
    if name not in program.libraries:
        return unproved.KIT / "rlibs" / f"{name}.rlib"
    if not own.is_dir():
        raise Refused(f"{name} isn't built here: rt ci, or ./check, leaves it in {own.relative_to(program.top)}")
    return own


def words_for(program):
    """The call of the checker: that of `rt ci` for a program, with the list."""
    logic = ["--antt-project", unproved.KIT / "rattle/logic/antt-project.json", "--logic-built", unproved.KIT / "logic_built"]
    words = ["--crate-name", program.name, "src/main.rt", *logic, "--jobs", "1", "--links", f"{program.name}=", "--list-axioms"]
    for name in dict.fromkeys([*program.kit_below(program.name), *program.own_below(program.name)]):
        words += ["--extern", f"{name}={library(program, name)}"]
    folders = [unproved.KIT / "rlibs", *(library(program, name).parent for name in program.needed if name != program.name)]
    return [str(unproved.KIT / "bin/rattle"), "check", *map(str, words), *(word for folder in folders for word in ("-L", f"dependency={folder}"))]


def prove(program):
    """Proves the program's own crate, and keeps what the checker said of it."""
    streams = {"stdout": subprocess.PIPE, "stderr": subprocess.STDOUT, "encoding": "utf-8", "errors": "replace"}
    with children.started(words_for(program), cwd=program.crate, stdin=subprocess.DEVNULL, **streams) as child:
        lines = child.stdout.read().splitlines(keepends=True)
        status = child.wait()
    begin = next((place for place, line in enumerate(lines) if line.startswith("axioms ")), None)
    if status or begin is None:
        raise Refused(f"{program.name} isn't proved over the libraries that are built here: {''.join(lines[-3:])}")
    (program.crate / "out").mkdir(exist_ok=True)
    (program.crate / "out" / LIST).write_text("".join(lines[begin:]), encoding="utf-8")


def kept(program):
    """What the last such proof of the program rests on."""
    path = program.crate / "out" / LIST
    try:
        lines = path.read_text(encoding="utf-8").splitlines()
    except OSError:
        place = path.relative_to(program.top)
        raise Refused(f"no list is kept in {place}: ./check makes it, and so does --prove where the libraries are built") from None
    found = read(lines)
    if found.counted != sum(map(len, found.functions.values())):
        raise Refused(f"the last line of the proof counts {found.counted} functions, and the list has {found.functions}")
    return found


def read(lines):
    """What the lines of the checker say: the list, and then the last line of the proof."""
    functions, last, library_of = {}, {}, None
    for line in lines:
        if head := HEAD.fullmatch(line):
            library_of = functions[head[1]] = []
        elif reached := REACHED.fullmatch(line):
            library_of.append(reached[1].rpartition("::")[2])
        elif line.startswith(LAST):
            last = dict(word.split("=", 1) for word in line.split() if "=" in word)
    named = {name: found for name, found in functions.items() if found}
    return Trusted(named, int(last.get("axioms", 0)), [name for name in last.get("threads", "").split(",") if name])
