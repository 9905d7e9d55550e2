"""Order texts: docs/INPUT.md, 'Orders'."""
import re
import typing

from . import lexing, litmus, seen
from .reading import Refused

READ, WRITE, FENCE, LOCKED_READ, LOCKED_WRITE = "R", "W", "F", "LR", "LW"

NUMBER = rb"(0|[1-9][0-9]*)"
ENTRY = re.compile(rb"P" + NUMBER + rb":" + NUMBER + rb" (?:(F)|(R|W|LR|LW) ([A-Za-z_][A-Za-z0-9_]*)=" + NUMBER + rb")")
LAST = re.compile(rb"Endorder " + NUMBER)

# The greatest core, and the greatest number of an instruction, that an order may name.
GREATEST_PLACE = 255


class Entry(typing.NamedTuple):
    """A memory action: core, number of the instruction, kind, location's number and value; a fence has 0 for the last two."""
    core: int
    place: int
    kind: str
    location: int = 0
    value: int = 0

    def is_read(self):
        return self.kind in (READ, LOCKED_READ)

    def is_write(self):
        return self.kind in (WRITE, LOCKED_WRITE)

    def is_before(self, other):
        """Whether this is before the other in program order: DEFINITIONS.md, 'program order'."""
        if self.core != other.core:
            return False
        return self.place < other.place or self.place == other.place and (self.kind, other.kind) == (LOCKED_READ, LOCKED_WRITE)

    def action(self, test):
        """The entry's text without its value."""
        text = "P%d:%d %s" % (self.core, self.place, self.kind)
        return text if self.kind == FENCE else text + " " + test.locations[self.location]

    def text(self, test):
        return self.action(test) if self.kind == FENCE else "%s=%d" % (self.action(test), self.value)


def printed_order(test, order):
    """The lines of an order: DEFINITIONS.md, 'printed order'."""
    lines = ["Order"] + [entry.text(test) for entry in order] + ["Endorder %d" % len(order)]
    return "".join(line + "\n" for line in lines)


def read_order(given, test):
    """The entries of the order that these bytes spell; raises `Refused` where they spell none."""
    lines = given.split(b"\n")
    if not lines[-1]:
        lines.pop()
    lines = [line[:-1] if line.endswith(b"\r") else line for line in lines]
    if b"Order" not in lines:
        raise refusal("NoOrder", "")
    order, begin = [], lines.index(b"Order") + 1
    for number, line in enumerate(lines[begin:], begin + 1):
        last = LAST.fullmatch(line)
        if last is not None:
            if lexing.value_of(last[1].decode()) != len(order):
                raise refusal("BadCount", "")
            return order
        entry = entry_of(line, test)
        if entry is None:
            raise refusal("BadLine", "line %d " % number)
        order.append(entry)
    raise refusal("BadCount", "")


def entry_of(line, test):
    """The entry of a line, or None where it is none of this test's locations and within the limits."""
    found = ENTRY.fullmatch(line)
    if found is None:
        return None
    core, place = (lexing.value_of(digits.decode()) for digits in found.group(1, 2))
    if max(core, place) > GREATEST_PLACE:
        return None
    if found[3]:
        return Entry(core, place, FENCE)
    name, value = found[5].decode(), lexing.value_of(found[6].decode())
    if name not in test.locations or value > litmus.GREATEST_WORD:
        return None
    return Entry(core, place, found[4].decode(), test.locations.index(name), value)


def refusal(name, where):
    seen.note("refusal of an order", name)
    return Refused("Refused order %s%s" % (where, name))
