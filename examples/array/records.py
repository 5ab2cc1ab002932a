"""The records of a job's document, for the scripts beside this file: they are read a block at a time, so that they take no memory, however many
there are. The rest of the document, with its faults, is read whole."""
import hashlib
import json
import re

from zurnaskil import reports

BLOCK = 1 << 20  # bytes
# No quantifier is possessive: Python 3.11.2, that of Debian 12, matches such ones wrongly. A text can be matched in one way only.
KEY = re.compile(rb'"records"\s*:\s*\[')  # a quote within a text has a backslash before it, so this is a key
TEXT = rb'"[^"\\]*(?:\\.[^"\\]*)*"'
TEXTS = re.compile(rb"(?:\s*" + TEXT + rb"\s*,){1,100}", re.DOTALL)  # each with the comma behind it; a match takes memory for each
LAST = re.compile(rb"\s*(" + TEXT + rb")?\s*\]", re.DOTALL)


class JobFile:
    """A document with the records of one step. In `tree` there is a range in their place, from 0 to their number."""

    def __init__(self, path):
        self.path, self.length = path, 0
        counted = lambda blocks: sum(len(re.findall(TEXT, block, re.DOTALL)) for block in blocks)
        with reading(path) as file:
            before, self.list_begins_at = self.found(file)
            if self.list_begins_at is None:
                self.tree = reports.tree_of(before, path)
                return
            texts = Texts(path, file, self.list_begins_at)
            count = counted(texts.blocks())
            rest = texts.rest + file.read()
            self.length = file.tell()
        reports.checked(not KEY.search(rest), f"{path} has several lists of records, and the job has to have one step")
        self.tree = reports.tree_of(before + b"]" + rest, path)
        self.tree["data"][0]["records"] = range(count)

    def found(self, file):
        """What stands before the records, and the place of their list's first byte; all there is, and None, if there is no such list."""
        before = b""
        while block := file.read(BLOCK):
            begin = max(len(before) - 100, 0)
            before += block
            key = KEY.search(before, begin)
            if key:
                return before[: key.end()], key.end()
        return before, None

    def texts(self):
        """The records, as lists of texts."""
        with reading(self.path) as file:
            for block in Texts(self.path, file, self.list_begins_at).blocks():
                yield reports.tree_of(b"[" + block + b"]", self.path)

    def parts(self, ranges):
        """For each range, which begins where the one before ends, an iterator over the lists of its texts; each has to be used up."""
        handed = Handed(self.texts())
        for lo, hi in ranges:
            yield handed.out(hi - lo)


def reading(path):
    try:
        file = open(path, "rb")
    except OSError as fault:
        raise reports.Refused(f"{path} can't be read: {fault.strerror}") from None
    reports.checked(file.seekable(), f"{path} is read twice, and a pipe can't be")
    return file


class Texts:
    """The texts of a JSON list of texts; `rest` is what has been read after the list, once it has ended."""

    def __init__(self, path, file, begin):
        self.path, self.file, self.rest = path, file, b""
        file.seek(begin)

    def blocks(self):
        """Texts with commas between them, as they stand in the file, many at a time."""
        buffer, has_some = self.file.read(BLOCK), False
        while True:
            end = end_of_texts(buffer)
            if end:
                yield buffer[: end - 1]
                buffer, has_some = buffer[end:], True
            last = LAST.match(buffer)
            if last:
                reports.checked(last[1] or not has_some, f"{self.path} isn't JSON")
                if last[1]:
                    yield last[1]
                self.rest = buffer[last.end() :]
                return
            more = self.file.read(BLOCK)
            reports.checked(more and len(buffer) < BLOCK, f"{self.path} isn't JSON, or its records are no texts")
            buffer += more


def end_of_texts(buffer):
    """Where the last of the texts that begin the buffer ends, with the comma behind it."""
    end = 0
    while texts := TEXTS.match(buffer, end):
        end = texts.end()
    return end


class Handed:
    """Texts that are handed out in lists, so many together."""

    def __init__(self, lists):
        self.lists, self.list, self.at = lists, [], 0

    def out(self, count):
        while count:
            if self.at == len(self.list):
                self.list, self.at = next(self.lists), 0
            part = self.list[self.at : self.at + count]
            self.at += len(part)
            count -= len(part)
            yield part


class Digest:
    """Of records the digest that `run-job` keeps of them, in data.json: that of their JSON list."""

    def __init__(self):
        self.hash, self.comma = hashlib.sha256(b"["), b""

    def add(self, texts):
        if texts:
            self.hash.update(self.comma + json.dumps(texts, separators=(",", ":")).encode()[1:-1])
            self.comma = b","

    def text(self):
        whole = self.hash.copy()
        whole.update(b"]")
        return whole.hexdigest()


class Ranges:
    """Digests of ranges of a job's records. Ranges that come one after the other are read once."""

    def __init__(self, job):
        self.job, self.at, self.handed = job, 0, Handed(job.texts())

    def digest(self, lo, hi):
        """That of the records from lo up to hi, or up to their end."""
        if lo < self.at:
            self.at, self.handed = 0, Handed(self.job.texts())
        ends = [min(place, len(self.job.tree["data"][0]["records"])) for place in (max(self.at, lo), hi)]
        for _ in self.handed.out(ends[0] - self.at):
            pass
        self.at = max(ends)
        return digest_of(self.handed.out(self.at - ends[0]))


def digest_of(lists):
    digest = Digest()
    for texts in lists:
        digest.add(texts)
    return digest.text()
