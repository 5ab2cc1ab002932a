"""The limits of the program that the tools know, and what holds where a key is absent: numerals of crates/jb_base/specs/Limits.antt, to
which tests/tool-limits compares them."""

STEPS = 16
ID_BYTES, RECORD_BYTES, AFFIX_BYTES = 64, 4_096, 64  # of a job, a step or a class; of a record; of `prefix` and `drop`
CLASSES, CLASS_NAMES = 64, 128  # of `exception-classes`; of `include` and `exclude`
ITEM_COUNT, SKIP_LIMIT, RETRY_LIMIT = 1_000_000, 10_000_000, 100_000
ITEM_COUNT_IF_ABSENT, RETRIES_IF_ABSENT = 10, 1_000
PARTITIONS_ASKED, THREADS_ASKED, RANGES = 4_096, 4_096, 4_096  # of a plan
PARTITIONS = 1_024
THREADS = 64  # that are used
RECORDS = 10_000_000
ENTRIES, ENTRY_CLASSES = 10_000_000, 1_000  # of a list of faults; of a shaky entry
ROLLBACKS, IN_PLACE = 1_000_000_000_000, 1_000_000_000_000  # of a partition
LOAD_PARTITIONS, CHUNKS, PLACE = 4_096, 10_000_000, 2**32 - 1  # of `plan` and `check`; the largest number of a lane or a partition
ROUNDS = 1_000_000_000  # of `--rounds`
