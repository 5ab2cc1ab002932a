"""What a disk may have after a power cut: a model of files and names, which the calls of a run change. A sync of a file makes its bytes and its
length stay, one of a folder its names. Of all else a cut leaves some."""
import dataclasses
import hashlib
import os

UNITS = (1, 512, 4_096)  # bytes of which each is as it was or as it was written
FOLDER = "folder"  # in the place of a node


@dataclasses.dataclass
class File:
    """A file: what stays of it, what was done since its last sync, (place, bytes) or (length, None), and what its readers see."""

    stays: bytes = b""
    since: list = dataclasses.field(default_factory=list)
    seen: bytearray = dataclasses.field(default_factory=bytearray)

    def do(self, at, written):
        self.since.append((at, written))
        apply(self.seen, at, written)

    def sync(self):
        self.stays, self.since = bytes(self.seen), []

    def lengths(self):
        """The lengths that it had since its last sync, the one at the sync first."""
        found = [len(self.stays)]
        for at, written in self.since:
            found.append(at if written is None else max(found[-1], at + len(written)))
        return found


def apply(content, at, written):
    """A write at a place, or a cut to a length, on bytes."""
    if written is None:
        del content[at:]
    if len(content) < at:
        content.extend(bytes(at - len(content)))
    if written is not None:
        content[at : at + len(written)] = written


# ---- what a cut leaves of a file


def lost(file, chance):
    return file.stays


def kept(file, chance):
    return bytes(file.seen)


def zeros(file, chance):
    """The length was stored, and what was written wasn't: zeros are there in its place."""
    return file.stays[: len(file.seen)].ljust(len(file.seen), b"\0")


def short(file, chance):
    """What was written was stored, and the length wasn't."""
    return bytes(file.seen[: file.lengths()[0]])


def torn(file, chance):
    """Of each write some bytes, sectors or pages, in any order; the length is anywhere between the ones that it had. What lies past the synced length
    and wasn't written is zeros, or anything."""
    lengths, unit = file.lengths(), chance.choice(UNITS)
    length = chance.choice([chance.choice(lengths), chance.randint(min(lengths), max(lengths))])
    rest = max(lengths) - len(file.stays)
    content = bytearray(file.stays + (chance.randbytes(rest) if chance.random() < 0.3 else bytes(rest)))
    share, writes = chance.choice([0.1, 0.5, 0.9]), [each for each in file.since if each[1] is not None]
    if chance.random() < 0.5:
        chance.shuffle(writes)
    for at, written in writes:
        tear(content, at, written, unit, share, chance)
    return bytes(content[:length])


def tear(content, at, written, unit, share, chance):
    """About this share of the units of a write."""
    begin = at
    while begin < at + len(written):
        # Of a long write few bytes are decided one by one.
        end = min(begin - begin % unit + unit * (1 if unit > 1 or len(written) < 64 else chance.randint(1, 64)), at + len(written))
        if chance.random() < share:
            content[begin:end] = written[begin - at : end - at]
        begin = end


HOWS = (lost, kept, zeros, short, torn)


# ---- the disk


class Disk:
    """The files and folders below a root: by their names, those that stay and those that are seen, and the changes of names that may be lost."""

    def __init__(self, root):
        self.root, self.files, self.stays, self.seen, self.since = root, {}, {}, {}, []
        for folder, folders, files in os.walk(root):
            for name in folders:
                self.stays[os.path.join(folder, name)] = FOLDER
            for name in files:
                place = os.path.join(folder, name)
                node = self.stays[place] = os.stat(place).st_ino
                with open(place, "rb") as file:
                    content = file.read()
                self.files[node] = File(content, [], bytearray(content))
        self.seen = dict(self.stays)

    def rename(self, changes):
        """One change of names, which is stored whole or not at all: of each name its node, or None."""
        self.since.append(changes)
        self.seen |= changes

    def note(self, call):
        """A call that was made."""
        if not call.changes() or not call.path.startswith(self.root):
            return
        if call.makes():
            self.files[call.node] = File()
            self.rename({call.path: call.node})
        elif call.kind == "mkdir":
            self.rename({call.path: FOLDER})
        elif call.kind == "rename":
            self.rename({call.path: None, call.other: self.seen[call.path]})
        elif call.kind == "unlink":
            self.rename({call.path: None})
        elif call.kind == "sync":
            self.sync(call)
        elif call.kind == "open":
            self.files[call.node].do(0, None)
        else:
            self.files[call.node].do(call.at, call.written if call.kind == "write" else None)

    def note_all(self, calls):
        for call in calls:
            self.note(call)

    def sync(self, call):
        """A file's sync keeps no name, and a folder's keeps its names alone."""
        if call.node in self.files:
            self.files[call.node].sync()
            return
        for changes in self.since:
            if all(os.path.dirname(path) == call.path for path in changes):
                self.stays |= changes
        self.since = [changes for changes in self.since if any(os.path.dirname(path) != call.path for path in changes)]

    def left(self, chance, contents=None, names=None):
        """What a cut leaves: of each name its bytes, or None of a folder. `contents` says how files fare, and `names` whether changes of names are
        kept; for None chance does."""
        found = dict(self.stays)
        share = chance.choice([0.2, 0.5, 0.8])
        for changes in self.since:
            if names if names is not None else chance.random() < share:
                found |= changes
        tree, files = {}, {}
        for path, node in sorted(found.items()):
            is_there = os.path.dirname(path) in tree or os.path.dirname(path) == self.root
            if node is None or not is_there:
                continue
            if node != FOLDER and node not in files:
                how = contents or chance.choice(HOWS)
                files[node] = how(self.files[node], chance)
            tree[path] = None if node == FOLDER else files[node]
        return {os.path.relpath(path, self.root): content for path, content in tree.items()}


def lay_out(tree, root):
    """Makes these files and folders below a root."""
    for path, content in sorted(tree.items()):
        place = os.path.join(root, path)
        if content is None:
            os.mkdir(place)
        else:
            with open(place, "wb") as file:
                file.write(content)


def digest_of(tree):
    """A digest of all names and bytes."""
    found = hashlib.blake2b(digest_size=16)
    for path, content in sorted(tree.items()):
        found.update(f"{path}\0{-1 if content is None else len(content)}\0".encode())
        found.update(content or b"")
    return found.digest()
