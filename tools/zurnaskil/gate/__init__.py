"""The gate, `./check`: which must-fail edits a landing tries, the proofs, the scripts after them, how far it is, and what it costs."""
