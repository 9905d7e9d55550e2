"""What threads do to words that several of them use, of compiled code and of a source alike; and how a run of steps stops."""
from collections import namedtuple

# What a core does to words that several cores use. `place` is an address and a size; `read` and `written` are numbers, or None; `addend`
# is what a locked addition of 32 bits adds, or None; `at` is the instruction's address.
Event = namedtuple("Event", "kind place read written addend at")
READ, WRITE, LOCKED, FENCE = "R", "W", "X", "F"

# How a run of instructions stops: it waits for the value of a read, or it is at an end.
Stop = namedtuple("Stop", "kind place")
WAITS, ENDS, CUT, REPEATS, FAULTS = "waits", "ends", "cut", "repeats", "faults"
