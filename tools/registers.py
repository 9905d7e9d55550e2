"""Names of registers by any size, and the line of facts that says which names an imported test has in place of its file's."""
import re

import litmus
from faults import ADDRESSES, SIZES, TWICE, Fault

# A register of 64 bits by the letters that its names share; what is left of a name says the size.
OLD, NEW = "ax|bx|cx|dx|si|di|bp", "r(?:8|9|1[0-5])"
PART = re.compile(r"[abcd][hl]|(?:%s|sp)|(?:si|di|bp|sp)l|%s[wb]" % (OLD, NEW))

# What no program of a test may use as a word or an address.
OTHERS = re.compile(r"[er]?(?:sp|ip)|[er]?flags|[xyz]mm\d+|st\d?|mm[0-7]|[cdefgs]s")

# The keys of the lines of facts that say what a test calls otherwise than its file.
RENAMED, ELEMENTS = "Registers", "Elements"
NAMES = {RENAMED: re.compile(r"(?<!\w)(?P<theirs>(?P<core>\d+:)\w+)=(?P<ours>\w+)"),
         ELEMENTS: re.compile(r"(?<!\w)(?P<theirs>\w+\[\d+\])(?P<core>)=(?P<ours>\w+)")}


def whole(text):
    """The register of 64 bits that a name stands for, as `rax` or `r8`, and the bytes that the name says; or None."""
    name = text.lstrip("%").lower()
    found = re.fullmatch("([er])(%s)" % OLD, name)
    if found:
        return "r" + found.group(2), 8 if found.group(1) == "r" else 4
    found = re.fullmatch("(%s)(d?)" % NEW, name)
    return (found.group(1), 4 if found.group(2) else 8) if found else None


def is_part(text):
    """Whether a name is that of a part of a register, of 8 or 16 bits."""
    return bool(PART.fullmatch(text.lstrip("%").lower()))


def is_other(text):
    """Whether a name is that of a register that is neither read nor written here, as the stack pointer."""
    return bool(OTHERS.fullmatch(text.lstrip("%").lower()))


def one_name(text):
    """One name for a register, whatever its size is called: rax, eax and EAX are EAX, and r8d is R8."""
    found = whole(text) or whole("r" + text.lstrip("%"))
    if not found:
        return text.lstrip("%")
    parent = found[0].upper()
    return "E" + parent[1:] if parent[1:].isalpha() else parent


def place(core, name):
    """The text of a register's place."""
    return "%d:%s" % (int(core), one_name(name))


class Names:
    """The registers of one core: each has its own name here where there is one, and else the first free one. Those that hold an address
    have none: it stands in their place."""

    def __init__(self):
        self.given, self.addresses = {}, {}

    def parent(self, text):
        found = whole(text)
        if found is not None:
            return found[0]
        if is_part(text):
            raise Fault("%s is a part of a register: whole words of 32 bits alone are read" % text, SIZES)
        raise Fault("%s is no register that is read here" % text, "other registers")

    def hold(self, text, location):
        """Says that a register holds a location's address."""
        parent = self.parent(text)
        if parent in self.addresses or parent in self.given:
            raise Fault("%s is given twice" % text, TWICE)
        self.addresses[parent] = location

    def want(self, text):
        parent = self.parent(text)
        if parent in self.addresses:
            raise Fault("%s holds the address of %s: an address that changes, or that is a word, isn't read" % (
                text, self.addresses[parent]), ADDRESSES)
        self.given.setdefault(parent, None)

    def settle(self):
        """Gives each wanted register its name. Answers the first that finds none."""
        own = {parent: "E" + parent[1:].upper() for parent in list(self.given) + list(self.addresses)}
        self.given.update((parent, own[parent]) for parent in self.given if own[parent] in litmus.REGISTERS)
        # A name that a register with an address has in the file comes last, so that no log has it twice.
        free = [name for name in litmus.REGISTERS if name not in self.given.values()]
        free.sort(key=[own[parent] for parent in self.addresses].count)
        for parent in [parent for parent, name in self.given.items() if name is None]:
            if not free:
                return parent
            self.given[parent] = free.pop(0)
        return None

    def name(self, text):
        return self.given[self.parent(text)]

    def renamed(self):
        """Pairs of names: in the file, and here, where these differ."""
        found = [(one_name(parent), name) for parent, name in self.given.items()]
        return [pair for pair in found if pair[0] != pair[1]]


# ---- the lines of facts

def line_of(key, names):
    """The line of facts that says what a test calls the places of its file: `Registers=1:R8=EAX`."""
    return "%s=%s" % (key, " ".join("%s=%s" % (theirs, ours.split(":")[-1]) for theirs, ours in names.items()))


def names_in(facts):
    """What a test calls the places of its file, where it calls them otherwise: `1:R8` is `1:EAX`, and `x[1]` is `x_1`."""
    found = {}
    for line in facts:
        key, _, words = line.partition("=")
        for word in NAMES[key].finditer(words) if key in NAMES else ():
            found[word["theirs"]] = word["core"] + word["ours"]
    return found

