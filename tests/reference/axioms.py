"""What the programs of a test make, and the first breach of an order: docs/DEFINITIONS.md, 'What a test does' and 'What an order
is'; the letters are docs/MESSAGES.md, 'Breaches'.

Each axiom is looked for as it is written there, pair by pair, which is slow and plain.
"""
from . import arithmetic, litmus, seen
from .orders import FENCE, LOCKED_READ, LOCKED_WRITE, READ, WRITE, Entry


def thread(test, core, read_values):
    """A core's entries in program order, and its registers at the end, where each read returns the value that is given for its
    place and kind: DEFINITIONS.md, 'thread'."""
    registers, entries = list(test.registers[core]), []
    for place, done in enumerate(test.programs[core]):
        kind, location = done.kind, done.location
        if kind == litmus.FENCE:
            entries.append(Entry(core, place, FENCE))
        elif kind in litmus.STORES:
            entries.append(Entry(core, place, WRITE, location, arithmetic.operand(done, registers)))
        elif kind in litmus.MOVES:
            registers = arithmetic.moved(done, registers)
        elif kind == litmus.LOAD:
            value = read_values.get((core, place, READ), 0)
            entries.append(Entry(core, place, READ, location, value))
            registers[done.register] = value
        else:
            value = read_values.get((core, place, LOCKED_READ), 0)
            written, taken = arithmetic.updated(done, registers, value), arithmetic.taken_by(done)
            entries += [Entry(core, place, LOCKED_READ, location, value), Entry(core, place, LOCKED_WRITE, location, written)]
            if taken is not None:
                registers[taken] = value
    return entries, registers


def made(test, order):
    """All entries that the programs make where each read returns what the order says, core by core in program order."""
    read_values = {}
    for entry in order:
        if entry.is_read():
            read_values.setdefault(entry[:3], entry.value)
    return [entry for core in range(test.cores()) for entry in thread(test, core, read_values)[0]]


def first_breach(test, order):
    """The line after 'Check ', of the first axiom that is broken, or None of an execution."""
    entries = made(test, order)
    for letter, breach in (("C1", not_whole), ("C2", wrong_value), ("C3", not_in_program_order), ("C4", not_adjacent),
                           ("C5", wrong_read)):
        found = breach(test, order, entries)
        if found is not None:
            seen.note("breach", letter if letter != "C1" else letter + " " + found.split()[0])
            return "%s %s" % (letter, found)
    return None


def not_whole(test, order, entries):
    """Extra or twice, the earliest; else missing, the first in program order of the first core."""
    known = {entry[:4] for entry in entries}
    stood = set()
    for entry in order:
        if entry[:4] not in known:
            return "extra " + entry.text(test)
        if entry[:3] in stood:
            return "twice " + entry.text(test)
        stood.add(entry[:3])
    for entry in entries:
        if entry[:3] not in stood:
            return "missing " + entry.action(test)
    return None


def wrong_value(test, order, entries):
    """The earliest write whose value isn't its program's."""
    due = {entry[:3]: entry.value for entry in entries}
    for entry in order:
        if entry.is_write() and entry.value != due[entry[:3]]:
            return "%s due=%d" % (entry.text(test), due[entry[:3]])
    return None


def not_in_program_order(test, order, entries):
    """The earliest entry that stands after one that its program has later, and the earliest such; a plain store and a plain load
    aside."""
    for at, late in enumerate(order):
        for early in order[:at]:
            if late.is_before(early) and (late.kind, early.kind) != (WRITE, READ):
                return "%s after %s" % (late.text(test), early.text(test))
    return None


def not_adjacent(test, order, entries):
    """The earliest load part of a locked instruction that its store part doesn't follow at once."""
    for at, entry in enumerate(order):
        if entry.kind == LOCKED_READ:
            following = order[at + 1:at + 2]
            if not following or following[0][:3] != (entry.core, entry.place, LOCKED_WRITE):
                return entry.text(test)
    return None


def wrong_read(test, order, entries):
    """The earliest read that hasn't the value of the last write that counts for it."""
    for at, entry in enumerate(order):
        if entry.is_read():
            counting = [write.value for place,
                        write in enumerate(order) if write.is_write() and write.location == entry.location
                        and (place < at or write.is_before(entry))]
            due = counting[-1] if counting else test.words[entry.location]
            if entry.value != due:
                return "%s due=%d" % (entry.text(test), due)
    return None
