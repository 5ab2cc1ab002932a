"""Stands before Debian's module in cases that try what is said where that isn't installed."""
raise ImportError("not installed, as it were")
