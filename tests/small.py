"""A payroll of a job that the environment varies, as JOB_SLICE_LENGTH=10, built as its sources stand, with nothing proved. One build serves all
scripts that need short slices, limits of skips, or another identity: crates/payroll/out/small has it, until a source changes. If several ask for
it at once, the first builds it and the others wait."""
import fcntl
import os
import pathlib
import re
import sys

TOP = pathlib.Path(__file__).resolve().parent.parent
sys.path.append(str(TOP / "tools"))
from zurnaskil import program, unproved

NAME = "payroll"
OWN = TOP / "crates" / NAME
ROOM = OWN / "out" / "small"
MAIN = pathlib.Path(__file__).with_name("small.rt.in")
MORE = "jb_base jb_collect jb_ready jb_records jb_rows jb_csv_job csv".split()  # what this main uses beside the payroll's own libraries
JOB = re.compile(r"^const JOB: .*?^};$", re.M | re.S)


def files():
    """What stands in the room, by its path."""
    main = (OWN / "src/main.rt").read_text(encoding="utf-8")
    lines = (TOP / "crates.txt").read_text(encoding="utf-8").splitlines()
    place = next(place for place, line in enumerate(lines) if re.match(rf"{NAME}\b", line))
    head, _, libraries = lines[place].partition(":")
    lines[place] = f"{head}: {' '.join(dict.fromkeys([*MORE, *libraries.split()]))}"
    own = {path.relative_to(OWN): path.read_text(encoding="utf-8") for part in ("src", "specs") for path in sorted((OWN / part).rglob("*.*t"))}
    own[pathlib.Path("src/main.rt")] = MAIN.read_text(encoding="utf-8").replace("@JOB@", JOB.search(main)[0])
    named = {f"crates/{NAME}/{path}": text for path, text in own.items()}
    return {"crates.txt": "\n".join(lines) + "\n", "HANDLES": (TOP / "HANDLES").read_text(encoding="utf-8"), **named}


def make_room():
    """A folder in the form that tools/new-job makes, whose other crates are the repository's."""
    for path, text in files().items():
        place = ROOM / path
        place.parent.mkdir(parents=True, exist_ok=True)
        place.write_text(text, encoding="utf-8")
    for crate in (TOP / "crates").iterdir():
        link = ROOM / "crates" / crate.name
        if crate.name != NAME and not os.path.lexists(link):
            link.symlink_to(crate)


def built():
    """The path of the program. It is built if it isn't there, or if a source changed since."""
    ROOM.mkdir(parents=True, exist_ok=True)
    with open(ROOM / "lock", "w", encoding="utf-8") as lock:
        fcntl.flock(lock, fcntl.LOCK_EX)
        make_room()
        small = program.Program(ROOM, NAME)
        build = program.unproved_build(small)
        if not build.is_current():
            unproved.compile_unproved(small)
    return str(build.files[1])


if __name__ == "__main__":
    print(built())
