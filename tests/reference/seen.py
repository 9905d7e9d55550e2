"""What came up while inputs were answered, counted by kind and name."""
import collections
import contextlib

_counts = collections.Counter()


def note(kind, name):
    """Counts this name of this kind once more."""
    _counts[kind, str(name)] += 1


def taken():
    """What was counted since the last call."""
    counts = collections.Counter(_counts)
    _counts.clear()
    return counts


def amount(items):
    """How many these are, as far as that is told apart."""
    return ("none", "one", "several")[min(len(items), 2)]


def add(counts):
    """Counts all of this once more."""
    _counts.update(counts)


@contextlib.contextmanager
def apart():
    """What comes up within is counted by the counter that is given, and nowhere else."""
    global _counts
    before, _counts = _counts, collections.Counter()
    try:
        yield _counts
    finally:
        _counts = before
