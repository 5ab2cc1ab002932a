"""The must-fail edits go by turns: a landing tries those that could have changed, and a third of the rest.

`tests/gate/turn.txt` has the landing's number, and for each crate with edits the landing in which all of them were last refused, with the
crate's digest there. The crates of this landing have two lines: what was before it, and what it tries. So the turn can be worked out again
from the file alone: it has each crate whose digest differs, and of the others those that were tried longest ago (and of these the first ones
of crates.txt) until they have a third of all edits. So each edit is tried within three landings.

A crate's digest is of its `src`, `specs`, `proofs` and `must-fail`, of the `src` and `specs` of all crates that it stands on, of its line in
crates.txt, and of what `rt version` prints.
"""
import dataclasses
import hashlib
import os
import re
import subprocess

from ..program import Refused, lines_of
from ..unproved import RT

FILE = "tests/gate/turn.txt"
OWN, BELOW = ("src", "specs", "proofs", "must-fail"), ("src", "specs")
NUMBER = re.compile(r"landing (\d+)")
LINE = re.compile(r"(\w+) (\d+) ([0-9a-f]{64})")
HEAD = """\
# Which must-fail edits this landing tries: those of the crates whose line has its number. docs/CONTRIBUTING.md has the rule, and
# `./check --turn` writes this file. A line has a crate, the landing in which all its edits were last refused, and its digest there.
"""


@dataclasses.dataclass(frozen=True)
class Refusal:
    """When all edits of a crate were last refused: in this landing, at this digest."""

    landing: int
    digest: str


class Edits:
    """The crates of a tree that have must-fail edits, in the order of crates.txt, with how many each has."""

    def __init__(self, top):
        self.top = top
        lines = lines_of(top)
        self.uses = {crate: [used for used in line.partition(":")[2].split() if used in lines] for crate, line in lines.items()}
        self.lines, self.version = lines, subprocess.run([RT, "version"], capture_output=True, check=True).stdout
        counts = {crate: len([*(top / "crates" / crate / "must-fail").glob("*.edit")]) for crate in lines}
        self.counts = {crate: count for crate, count in counts.items() if count}
        self.kept = {}

    def below(self, crate):
        """All crates that it stands on, directly or by others."""
        found, left = set(), [*self.uses[crate]]
        while left:
            one = left.pop()
            if one not in found:
                found.add(one)
                left += self.uses[one]
        return sorted(found)

    def folder_digest(self, crate, part):
        """A digest of a folder of a crate: of each file its path and what it holds."""
        if (crate, part) not in self.kept:
            digest, folder = hashlib.sha256(), self.top / "crates" / crate / part
            for path in sorted(path for path in folder.rglob("*") if path.is_file()):
                content = path.read_bytes()
                digest.update(f"{path.relative_to(folder)}\0{len(content)}\0".encode() + content)
            self.kept[crate, part] = digest.digest()
        return self.kept[crate, part]

    def digest(self, crate):
        parts = [(crate, part) for part in OWN] + [(one, part) for one in self.below(crate) for part in BELOW]
        digest = hashlib.sha256(self.version + self.lines[crate].encode())
        for one, part in parts:
            digest.update(f"{one}/{part}\0".encode() + self.folder_digest(one, part))
        return digest.hexdigest()

    def digests(self):
        return {crate: self.digest(crate) for crate in self.counts}


def turn(before, edits):
    """The crates whose edits a landing tries, after these refusals, in the order of crates.txt."""
    digests = edits.digests()
    changed = {crate for crate in edits.counts if crate not in before or before[crate].digest != digests[crate]}
    others = sorted((crate for crate in edits.counts if crate not in changed), key=lambda crate: before[crate].landing)
    tried, third = 0, -(-sum(edits.counts.values()) // 3)
    for crate in others:
        if tried < third:
            changed.add(crate)
            tried += edits.counts[crate]
    return [crate for crate in edits.counts if crate in changed]


class Turns:
    """What `tests/gate/turn.txt` says: the landing's number, the refusals before it, and those of it."""

    def __init__(self, text):
        lines = [line for line in text.splitlines() if line and not line.startswith("#")]
        if not lines or not NUMBER.fullmatch(lines[0]) or not all(LINE.fullmatch(line) for line in lines[1:]):
            raise Refused(f"{FILE} isn't of its form: `landing NUMBER`, and lines of a crate, a landing and a digest")
        self.landing = int(NUMBER.fullmatch(lines[0])[1])
        self.before, self.tried = {}, {}
        for line in lines[1:]:
            crate, landing, digest = LINE.fullmatch(line).groups()
            part = self.tried if int(landing) == self.landing else self.before
            if crate in part or int(landing) > self.landing:
                raise Refused(f"{FILE}: the line of {crate} in landing {landing} can't be")
            part[crate] = Refusal(int(landing), digest)

    def after(self):
        """The refusals after this landing."""
        return self.before | self.tried

    def faults(self, edits):
        """What is otherwise than the rule says, given the tree."""
        digests = edits.digests()
        stale = [crate for crate, digest in digests.items() if crate not in self.after() or self.after()[crate].digest != digest]
        wanted = turn(self.before, edits)
        again = "`./check --turn` writes the next landing's turn, `./check --turn --again` this one's anew"
        if stale:
            yield f"{', '.join(stale)} changed after the turn was written: {again}"
        elif sorted(self.tried) != sorted(wanted) and self.before:
            yield f"landing {self.landing} tries {', '.join(wanted) or 'none'}, and not {', '.join(self.tried) or 'none'}: {again}"
        if gone := [crate for crate in self.after() if crate not in edits.counts]:
            yield f"{', '.join(gone)} has no edits: {again}"


def text_of(landing, before, edits, tried):
    """The file of a landing that tries these crates after these refusals."""
    lines, digests = [], edits.digests()
    for crate in edits.counts:
        if crate in before:
            lines.append(f"{crate} {before[crate].landing} {before[crate].digest}")
        if crate in tried:
            lines.append(f"{crate} {landing} {digests[crate]}")
    return "\n".join([HEAD + f"landing {landing}", *lines]) + "\n"


def write(top, is_again):
    """Writes the turn of the next landing, or that of the file's own landing anew; gives the file's text."""
    edits, now = Edits(top), Turns((top / FILE).read_text(encoding="utf-8"))
    landing, before = (now.landing, now.before) if is_again else (now.landing + 1, now.after())
    before = {crate: refusal for crate, refusal in before.items() if crate in edits.counts}
    text = text_of(landing, before, edits, turn(before, edits))
    (top / FILE).write_text(text, encoding="utf-8")
    return text


def landed_before(top, landing):
    """The file of the landing before this one, by git's history: the newest committed one with another number. None if no history is here."""
    git = ["git", "-C", os.fspath(top)]
    ran = subprocess.run([*git, "log", "--format=%H", "--", FILE], capture_output=True, text=True)
    for commit in ran.stdout.split():
        shown = subprocess.run([*git, "show", f"{commit}:{FILE}"], capture_output=True, text=True)
        if shown.returncode == 0 and Turns(shown.stdout).landing != landing:
            return Turns(shown.stdout)
    return None


def looked_at(top):
    """The turn of this tree and its edits, once it is as the rule says; Refused if not."""
    edits, now = Edits(top), Turns((top / FILE).read_text(encoding="utf-8"))
    faults, last = [*now.faults(edits)], landed_before(top, now.landing)
    if last and last.landing + 1 != now.landing:
        faults.append(f"the landing before has the number {last.landing}, so this one has {last.landing + 1}, and not {now.landing}")
    elif last and {crate: refusal for crate, refusal in last.after().items() if crate in edits.counts} != now.before:
        faults.append(f"the lines before landing {now.landing} aren't those with which landing {last.landing} ended")
    if faults:
        raise Refused(f"{FILE}: {'; '.join(faults)}")
    return now, edits
