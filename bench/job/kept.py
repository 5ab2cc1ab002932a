"""The payroll as a program of Python that keeps checkpoints: `kept.py FILE`, time sheets on standard input, pay slips on standard output.

It reads all time sheets, keeps their digest and the pay slips of each second's work in FILE, a database of SQLite, by one commit that waits
for the disk, and writes the pay slips at the end. `payroll` does so for each slice. Called again with the same time sheets, it resumes after
the last commit; it refuses others. A stop in between loses at most a second's work."""
import csv
import hashlib
import io
import itertools
import sqlite3
import sys
import time

from plain import slips_of

CHUNK = 100  # time sheets between two looks at the clock
TABLE = "CREATE TABLE IF NOT EXISTS checkpoint (number INTEGER PRIMARY KEY, done INTEGER NOT NULL, results BLOB NOT NULL) STRICT"


def opened(path, digest):
    """The database, and how many time sheets are done. Its first row has the digest of the time sheets."""
    base = sqlite3.connect(path, isolation_level=None)
    base.execute("PRAGMA journal_mode = WAL")
    base.execute("PRAGMA synchronous = FULL")
    base.execute(TABLE)
    base.execute("INSERT OR IGNORE INTO checkpoint VALUES (1, 0, ?)", [digest])
    if base.execute("SELECT results FROM checkpoint WHERE number = 1").fetchone()[0] != digest:
        sys.exit(f"{path} is of other time sheets")
    return base, base.execute("SELECT max(done) FROM checkpoint").fetchone()[0]


def keep(base, done, results):
    base.execute("INSERT INTO checkpoint (done, results) VALUES (?, ?)", [done, results.encode("latin-1")])


def pay(base, sheets, done):
    """Pays the time sheets that are left, and keeps about a second's work at a time."""
    due, slips = time.monotonic() + 1, io.StringIO()
    while chunk := [*itertools.islice(sheets, CHUNK)]:
        csv.writer(slips, lineterminator="\n").writerows(slips_of(chunk))
        done += len(chunk)
        if time.monotonic() >= due:
            keep(base, done, slips.getvalue())
            due, slips = time.monotonic() + 1, io.StringIO()
    keep(base, done, slips.getvalue())


def main(path):
    text = sys.stdin.buffer.read()
    base, done = opened(path, hashlib.sha256(text).digest())
    sheets = csv.reader(io.TextIOWrapper(io.BytesIO(text), encoding="latin-1", newline=""))
    pay(base, itertools.islice(sheets, done, None), done)
    for (results,) in base.execute("SELECT results FROM checkpoint WHERE number > 1 ORDER BY number"):
        sys.stdout.buffer.write(results)
    base.close()


if __name__ == "__main__":
    main(sys.argv[1])
