"""Final states: the words of variables that a program and its source both have, as people and comparisons see them."""
from .refusals import NotJudged

MOST_CELLS = 256
POINTER = 8
# The state of a run that accesses what is no memory.
FAULT = ("fault",)


class Observer:
    """Reads final states of a program by cells: triples of a variable, an offset in it, and a size. `address_of` gives a variable's
    address, and `name_at` a name for an address."""

    def __init__(self, words, cells, address_of, name_at, is_variable):
        if len(cells) > MOST_CELLS:
            raise NotJudged("the variables have %d words, more than %d" % (len(cells), MOST_CELLS))
        self.cells, self._words = cells, words
        self._addresses = [(address_of(name) + offset, size) for name, offset, size in cells]
        self._name_at, self._is_variable = name_at, is_variable

    def state(self, values, paths):
        """The state that these words of shared places leave, and the words of each path's own: a tuple in the order of the cells; FAULT
        where a path ends with one."""
        if any(path.fault for path in paths):
            return FAULT
        found = {}
        for path in paths:
            found.update(path.own)
        for (address, size), value in values.items():
            for at in range(size):
                found[address + at] = value >> 8 * at & 255
        return tuple(self._word(found, address, size) for address, size in self._addresses)

    def _word(self, found, address, size):
        value = 0
        for at in range(size - 1, -1, -1):
            byte = found.get(address + at)
            value = value << 8 | (self._words.initial_byte(address + at) if byte is None else byte)
        return "&" + self._name_at(value) if size == POINTER and self._is_variable(value) else value


def cells_of(module):
    """The words of a module's variables: triples of a name, an offset and a size."""
    return [(name, offset, size) for name, (kind, _) in sorted(module.globals.items()) if not name.startswith((".", "__const", "__func"))
            for offset, size in words_of(module, kind, 0)]


def words_of(module, kind, at):
    """The words that a type has, from this place on: pairs of a place and a size."""
    if kind[0] == "a":
        size = module.size(kind[2])
        for number in range(kind[1]):
            yield from words_of(module, kind[2], at + number * size)
    elif kind[0] == "s":
        for number, inner in enumerate(kind[1]):
            yield from words_of(module, inner, at + module.offset(kind, number))
    else:
        yield at, module.size(kind)


def name_of(cell):
    """A cell's name, as it is printed."""
    name, offset, _ = cell
    return name + ("+%d" % offset if offset else "")
