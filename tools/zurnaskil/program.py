"""What a program of a repository is made of, and what is kept beside it when it is built. tools/build-program builds it."""
import hashlib
import os
import sys


class Refused(Exception):
    """Why a program isn't built, in a line."""


def lines_of(top):
    """The lines of crates.txt by the names of their crates, in the file's order, which is lowest first."""
    try:
        lines = (top / "crates.txt").read_text(encoding="utf-8").splitlines()
    except OSError as fault:
        raise Refused(f"{top}/crates.txt can't be read: {fault.strerror}") from None
    return {line.split(":")[0].split()[0]: line for line in lines if line.strip() and not line.startswith("#")}


class Program:
    """A program of the repository at `top`, with the crates that it needs: its own and those that it stands on, directly or by others."""

    def __init__(self, top, name):
        self.top, self.name, self.crate = top, name, top / "crates" / name
        self.lines = lines_of(top)
        self.libraries = {crate: line.split(":")[1].split() for crate, line in self.lines.items()}
        if name not in self.libraries:
            raise Refused(f"there is no crate {name}: {top}/crates.txt has no such line")
        needed, found = set(), [name]
        while found:
            crate = found.pop()
            if crate not in needed:
                needed.add(crate)
                found += self.own_below(crate)
        self.needed = [crate for crate in self.libraries if crate in needed]

    def own_below(self, crate):
        """The libraries of a crate that are crates of the repository."""
        return [library for library in self.libraries[crate] if library in self.libraries]

    def files_of(self, crate):
        """The paths of a crate's sources."""
        paths = []
        for folder, folders, files in os.walk(self.top / "crates" / crate):
            folders[:] = [one for one in folders if one not in ("out", "must-fail")]
            paths += [os.path.join(folder, file) for file in files if file.endswith((".rt", ".antt"))]
        return paths

    def kit_below(self, crate):
        """The libraries of a crate that are the kit's."""
        return ["std", *[library for library in self.libraries[crate] if library not in self.libraries]]

    def sources(self):
        """The paths of what the program is made of: the sources of the needed crates, and what the crates stand on."""
        paths = [str(self.top / "crates.txt"), str(self.top / "HANDLES")]
        for name in self.needed:
            paths += self.files_of(name)
        return sorted(paths)

    def digest(self):
        return digest_of(self.top, self.sources())

    def say(self, text):
        print(f"{self.name}: {text}", file=sys.stderr, flush=True)


def digest_of(top, paths):
    """A digest of the files: of each its path, its length and what it holds."""
    digest = hashlib.sha256()
    for path in paths:
        with open(path, "rb") as file:
            content = file.read()
        digest.update(f"{path[len(str(top)):]}\0{len(content)}\0".encode())
        digest.update(content)
    return digest.hexdigest()


class Build:
    """A build of a program: its place, and what is kept beside it."""

    def __init__(self, program, folder, files):
        self.of, self.folder, self.files = program, folder, [folder / file for file in files]
        self.program, self.log, self.digests = self.files[0], folder / "build.log", folder / "digests"

    def text_for(self, sources):
        """What is kept of a program that was built from sources of this digest."""
        return f"sources {sources}\nprogram {digest_of(self.of.top, map(str, self.files))}\n"

    def is_current(self):
        """Whether the program is there, and was built from the sources as they stand."""
        try:
            return self.digests.read_text(encoding="utf-8") == self.text_for(self.of.digest())
        except OSError:
            return False

    def begin(self):
        if not (self.of.crate / "src/main.rt").is_file():
            raise Refused(f"{self.of.name} is no program: crates/{self.of.name} has no src/main.rt")
        self.folder.mkdir(parents=True, exist_ok=True)
        self.digests.unlink(missing_ok=True)

    def keep(self, sources):
        self.digests.write_text(self.text_for(sources), encoding="utf-8")

    def end(self, sources):
        """Keeps the digests, if no source was changed meanwhile."""
        self.keep(sources)
        if not self.is_current():
            raise Refused("a source was changed meanwhile, so the program isn't current; once more builds it as it is now")
        self.of.say(f"{os.path.relpath(self.program)} is built")

    def failed(self, reason, words):
        """The refusal of a build that failed, after which come the last lines of what was said."""
        place = os.path.relpath(self.log, self.of.top)
        lines = "".join(words[-10:]).rstrip("\n")
        return Refused(f"{reason}, so the program isn't built; {place} has what was said, and this came last:\n{lines}")


def proved_build(program):
    return Build(program, program.crate / "out", [program.name])


def unproved_build(program):
    """Of an unproved program two files are kept: the one that is run says first that nothing is proved, and then runs the other."""
    return Build(program, program.crate / "out/unproved", [program.name, f"quiet/{program.name}"])
