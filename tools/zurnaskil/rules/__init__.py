"""The rules of docs/RULES.md and docs/FORMATS.md in plain, slow Python, written from these two alone: one reading for tools and tests.

A document goes through it in this order: `json_text` makes a tree of it; `parts` has the kinds of values and keeps what is wrong; `job`,
`plans`, `data`, `saved` and `documents` have the tables of objects; `rounds` plans rounds; `rows` has a partition's row, `chunks` does its
chunks, and `steps` a step's rounds, and reports them; `words` answers as `batchrun` does. `history` says which faults lie between two
rows, and `by_schema` what docs/schema says of a document. Limits stand in tools/zurnaskil/limits.py.
"""
