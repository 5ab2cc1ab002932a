"""Checkpoints in a SQLite file: a copy of the file and its log, who holds them, the table, and the chain of links. docs/FORMATS.md,
"Checkpoints in a folder", describes them; job_slices.py reads what they say of a job."""
import contextlib
import fcntl
import glob
import hashlib
import os
import shutil
import sqlite3
import stat
import struct
import tempfile

from . import reports

LOG = "-wal"  # behind the file's name
LOG_HEAD = 32  # bytes; they change whenever the log begins anew
MAGIC, PAGE = b"SQLite format 3\0", 4_096  # a database's first bytes, of which the very first is written last; and its first page
COPIES = 100  # tries, until the file was the same before and behind one
COLUMNS = [("number", "INTEGER", 0, None, 1, 0), ("saved", "TEXT", 1, None, 0, 0), ("results", "BLOB", 1, None, 0, 0), ("link", "BLOB", 1, None, 0, 0)]
DIGEST = 32  # bytes
NO_LINK = bytes(DIGEST)  # before the first checkpoint
REFUSED, NO_ANSWER = 3, 4  # exit statuses: the file isn't such a one; it can't be read


class Refused(reports.Refused):
    """Why a file isn't read: a name, the reason, and the exit status of a tool."""

    def __init__(self, name, reason, status=REFUSED):
        super().__init__(f"{name}: {reason}")
        self.name, self.status = name, status


def checked(is_right, name, reason, status=REFUSED):
    if not is_right:
        raise Refused(name, reason, status)


# ---- both files


def stamp_of(path) -> tuple[int, int, bytes]:
    """What changes where the log begins anew, or the file is written while there is none."""
    found = os.stat(path)
    try:
        with open(path + LOG, "rb") as log:
            head = log.read(LOG_HEAD)
    except FileNotFoundError:
        head = b""
    return found.st_size, found.st_mtime_ns, head


def copy_both(path, copy):
    """The file goes first: until the log begins anew it has all that was written there meanwhile."""
    shutil.copyfile(path, copy)
    try:
        shutil.copyfile(path + LOG, copy + LOG)
    except FileNotFoundError:
        pass


def copy_into(path, folder: str) -> str:
    """The place of a copy of both files, as they stood at one moment. The log stands beside the file itself, wherever a link is."""
    path = os.path.realpath(path)
    for number in range(COPIES):
        copy = os.path.join(folder, str(number))
        before = stamp_of(path)
        copy_both(path, copy)
        if stamp_of(path) == before:
            return copy
        for left in (copy, copy + LOG):
            with contextlib.suppress(FileNotFoundError):
                os.unlink(left)
    raise Refused("Busy", f"{path} is written too often to be copied", NO_ANSWER)


@contextlib.contextmanager
def refusing(path):
    """What the system, or SQLite, says of the file, as a refusal."""
    try:
        yield
    except FileNotFoundError:
        raise Refused("NoFile", f"there is no file {path}", NO_ANSWER) from None
    except OSError as fault:
        raise Refused("CannotOpen", f"{path} can't be read: {fault.strerror}", NO_ANSWER) from None
    except sqlite3.Error as fault:
        raise Refused("Damaged", f"{path} is no database, or a damaged one: {fault}") from None


def is_begun(copy) -> bool:
    """Whether it is a database by its first byte. A first open that was cut, or is at work, leaves none, or part of one page."""
    with open(copy, "rb") as file:
        head = file.read(len(MAGIC))
    is_part = len(head) <= 1 or head[:1] == b"\0" or head[1:] == MAGIC[1 : len(head)]
    return os.path.getsize(copy) > PAGE or head == MAGIC or not is_part


@contextlib.contextmanager
def opened(path):
    """A connection to a copy of both files, which is gone afterwards. The file itself is read, and never locked or written."""
    with tempfile.TemporaryDirectory() as folder:
        copy = copy_into(path, folder)
        checked(is_begun(copy), "Empty", f"{path} has no checkpoint yet")
        with contextlib.closing(sqlite3.connect(copy)) as base:
            yield base


# ---- who holds them


def holder_of(path) -> int | None:
    """The number of the process that holds the file, or None. It is asked for, no lock is taken; 0 where it can't be seen from here."""
    with open(path, "rb") as file:
        asked = struct.pack("hhqqi", fcntl.F_RDLCK, os.SEEK_SET, 0, 0, 0)
        kind, *_, process = struct.unpack("hhqqi", fcntl.fcntl(file, fcntl.F_GETLK, asked))
        if kind == fcntl.F_UNLCK:
            return None
        return process if process > 0 else process_with(os.fstat(file.fileno()))


def process_with(found):
    """The process that has a lock on this file, where the lock is one of an open file and names none."""
    for place in glob.iglob("/proc/[0-9]*/fd/*"):
        with contextlib.suppress(OSError):
            held = os.stat(place)
            if (held.st_dev, held.st_ino) == (found.st_dev, found.st_ino):
                with open(place.replace("/fd/", "/fdinfo/"), encoding="ascii") as file:
                    if "lock:" in file.read():
                        return int(place.split("/")[2])
    return 0


# ---- the table


def check_table(base, path):
    """The table of checkpoints, and nothing else."""
    names = [name for name, in base.execute("SELECT name FROM sqlite_master")]
    checked(names, "Empty", f"{path} has no checkpoint yet")
    is_named = "checkpoint" in map(str.lower, names)
    checked(is_named, "Foreign", f"{path} is another program's database: it has no table of checkpoints")
    columns = base.execute("SELECT name, type, \"notnull\", dflt_value, pk, hidden FROM pragma_table_xinfo('checkpoint')").fetchall()
    is_strict = base.execute("SELECT strict FROM pragma_table_list('checkpoint')").fetchall() == [(1,)]
    is_ours = names == ["checkpoint"] and columns == COLUMNS and is_strict
    checked(is_ours, "Version", f"{path} has a table of checkpoints in another form: finish it with the program that made it, or delete it and begin again")


def check_numbers(base, path):
    """The checkpoints are numbered from 1 on."""
    count, first, last = base.execute("SELECT count(*), min(number), max(number) FROM checkpoint").fetchone()
    checked(count, "Empty", f"{path} has no checkpoint yet")
    checked((first, last) == (1, count), "Gap", f"{path} lacks a checkpoint: {count} are numbered from {first} to {last}")


def link_of(before: bytes, number: int, saved: bytes, results: bytes) -> bytes:
    """The link of a checkpoint, whose text and results are bytes: a digest over the link before it and all that its row has."""
    return hashlib.sha256(before + struct.pack("<QQ", number, len(saved)) + saved + results).digest()


def read_chain(base: sqlite3.Connection, path) -> list[tuple[bytes, bytes]]:
    """The text and the results of each checkpoint, as bytes. Each link is the one that it must have after those before it."""
    before, found = NO_LINK, []
    for number, saved, results, link in base.execute("SELECT number, CAST(saved AS BLOB), results, link FROM checkpoint ORDER BY number"):
        before = link_of(before, number, saved, results)
        checked(link == before, "Damaged", f"checkpoint {number} of {path} was changed: its digest is another one")
        found.append((saved, results))
    return found


def kept_in(path) -> tuple[list[tuple[bytes, bytes]], int | None]:
    """The text and the results of each checkpoint of a file, and who held it just before it was copied."""
    with refusing(path):
        checked(stat.S_ISREG(os.stat(path).st_mode), "CannotOpen", f"{path} is no regular file", NO_ANSWER)
        holder = holder_of(path)
        with opened(path) as base:
            check_table(base, path)
            check_numbers(base, path)
            return read_chain(base, path), holder
