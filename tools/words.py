"""The words of memory that a text of herd's or diy's names: locations, elements of arrays, and the bytes that they are used by."""
import re

import registers
from faults import ADDRESSES, BEYOND, INITIAL, SIZES, TWICE, Fault, location_in, number_in

TYPES = {"int": 4, "unsigned": 4, "unsigned int": 4, "int32_t": 4, "uint32_t": 4, "long": 8, "unsigned long": 8, "long long": 8,
         "unsigned long long": 8, "int64_t": 8, "uint64_t": 8, "atomic_int": 4}


def size_of_type(item, kind):
    """The bytes of a type; None where there is none."""
    if kind is not None and kind not in TYPES:
        raise Fault("%s: words of the type %s aren't read" % (item, kind), SIZES)
    return TYPES.get(kind)


class Words:
    """The words of one text. In a text for X86_64 (`wide`) each name of a register is one."""

    def __init__(self, text, wide):
        self.wide, self.taken = wide, set(re.findall(r"\w+", text))
        self.arrays, self.elements, self.stated, self.used = {}, {}, {}, {}

    def location(self, name):
        """The name of a location that is one word."""
        if self.wide and (registers.whole(name) or registers.is_part(name) or registers.is_other(name)):
            raise Fault("%s is a register's name, and no location's" % name, "registers as locations")
        if name in self.arrays:
            raise Fault("%s is an array: its elements alone are read, as %s[0]" % (name, name), "arrays as words")
        return location_in(name)

    def state(self, name, size):
        """Takes the bytes that a type says of a location."""
        if size and self.stated.setdefault(name, size) != size:
            raise Fault("%s has two types" % name, TWICE)

    def add_array(self, item, kind, name, count, values):
        """Takes an item `TYPE NAME[COUNT]={VALUES}` of an initial state."""
        size, name = size_of_type(item, kind), self.location(name)
        found = [number_in(value.strip(), size == 4) for value in values.split(",")] if values and values.strip() else []
        count = number_in(count)
        if len(found) > count:
            raise Fault("%s has more values than elements" % item, INITIAL)
        self.arrays[name] = size, count, found

    def element(self, array, number):
        """The location that an element of an array becomes."""
        if array not in self.arrays or number >= self.arrays[array][1]:
            raise Fault("%s[%d] is no element of an array" % (array, number), BEYOND)
        if (array, number) not in self.elements:
            name = "%s_%d" % (array, number)
            while name in self.taken:
                name = name.replace("_%d" % number, "__%d" % number)
            self.elements[array, number] = location_in(name)
            self.taken.add(name)
            self.stated[name] = self.arrays[array][0]
        return self.elements[array, number]

    def place(self, cell, memory, addresses, line):
        """The location of a place in memory, which the instruction of a cell uses; `addresses` are those in its core's registers."""
        base = self.address(cell, memory.base, addresses) if memory.in_register else memory.base
        if base in self.arrays:
            size = self.arrays[base][0]
            if memory.offset % size:
                raise Fault("%s: %d bytes behind %s begins no element" % (cell.text, memory.offset, base), BEYOND)
            name = self.element(base, memory.offset // size)
        elif memory.offset:
            raise Fault("%s: %d bytes behind %s begins no word" % (cell.text, memory.offset, base), BEYOND)
        else:
            name = self.location(base)
        self.used.setdefault(name, {}).setdefault(cell.size, line)
        return name

    def address(self, cell, register, addresses):
        """The location whose address a register holds."""
        found = registers.whole(register)
        if found is None:
            raise Fault("%s: addresses in %s aren't read" % (cell.text, register), ADDRESSES)
        if self.wide and found[1] == 4:
            raise Fault("%s: an address has a whole register" % cell.text, ADDRESSES)
        if found[0] not in addresses:
            raise Fault("%s: %s has no address in the initial state: addresses in registers that change aren't read" % (
                cell.text, register), ADDRESSES)
        return addresses[found[0]]

    def is_word(self, name):
        """Whether a location has 32 bits: it is said to have so many, or no instruction uses more, once all were looked at."""
        return self.stated.get(name) == 4 or self.stated.get(name) is None and 8 not in self.used.get(name, ())

    def too_narrow(self):
        """Locations that are said to have 32 bits, and of which 64 are used, each with the line. Words of 64 bits may be used by their
        lower half too: each value fits 32 bits, so the upper half is 0 all along."""
        return [(name, used[8]) for name, used in self.used.items() if 8 in used and self.stated.get(name) == 4]

    def first_words(self):
        """The first words of those elements that the text names, by their locations."""
        return {name: self.arrays[array][2][number] for (array, number), name in self.elements.items()
                if number < len(self.arrays[array][2])}
