"""For tests/hints.py: what a user does on a hint, and texts that have one."""
