"""A model of the mailboxes of crates/jb_workers between a caller and its workers: `listing` has the code that it is of, `model` its steps,
and `search` goes through all their interleavings. tests/no-deadlock runs it."""
