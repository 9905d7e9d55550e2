"""The gallery's tests in forms of diy7, litmus7 and herd's libraries, for tests/batteries.py: each is imported as the gallery's own, up to
the names of registers, which its lines of facts tell.

Forms differ in the order of operands, in sizes, in the registers that they take, in addresses in registers, in types and in the spelling
of numbers. What writes them knows nothing of what reads them.
"""
import faults
import importer
import litmus
import registers

from .tool_runs import gallery

OWN = {name: name for name in litmus.REGISTERS}
LOWER = {name: "r" + name[1:].lower() for name in litmus.REGISTERS}
UPPER = dict(zip(litmus.REGISTERS, ("r8", "r9", "r10", "r11", "r12", "r13")))
HOLDERS = ("rsi", "rdi", "r14", "r15", "rbp", "rbx", "rdx", "rcx", "rax")


class Form:
    """A way to write a test: its header, the names of registers, the bytes of a word, whether operands stand in AT&T's order, whether
    addresses are in registers, the type of a location or nothing, and how a number is spelled."""

    def __init__(self, header, names, size=4, at_and_t=True, addresses=False, kind="", number=str):
        self.header, self.names, self.size, self.at_and_t, self.addresses, self.kind, self.number = (
            header, names, size, at_and_t, addresses, kind, number)

    def name(self, register, size):
        """A register as an operand of so many bytes has it."""
        whole = self.names[register]
        half = whole + "d" if whole[1].isdigit() else "e" + whole[1:]
        name = whole if self.header == "X86" or size == 8 else half
        return "%" + name if self.at_and_t else name

    def value(self, value, size):
        return self.name(value, size) if isinstance(value, str) else ("$" if self.at_and_t else "") + self.number(value)

    def memory(self, location, held):
        inner = held.get(location, location)
        if self.at_and_t:
            return "(%%%s)" % inner if location in held else "(%s)" % inner
        return "[%s]" % (inner if self.header == "X86_64" or location not in held else "E" + inner[1:].upper())

    def cell(self, one, held):
        if one.kind == "fence":
            return "mfence" if self.at_and_t else "MFENCE"
        # A sum of 64 bits isn't read.
        size = 4 if one.kind == "xadd" else self.size
        place = one.location and self.memory(one.location, held)
        mnemonic = {"xchg": "xchg", "xadd": "lock xadd"}.get(one.kind, "mov")
        if one.kind == "store":
            operands = [place, self.value(one.operand, size)]
        elif one.kind == "move":
            operands = [self.name(one.register, size), self.value(one.operand, size)]
        else:
            operands = [place, self.name(one.register, size)]
        if one.kind == "load":
            operands.reverse()
        if not self.at_and_t:
            return "%s %s" % (mnemonic.upper(), ",".join(operands))
        return "%s%s %s" % (mnemonic, "lq"[size == 8], ",".join(reversed(operands)))

    def held(self, test, core):
        """The registers of a core that hold the addresses of its locations."""
        if not self.addresses:
            return {}
        places = [place for place in [*test.initial, *litmus.claim_places(test.condition[1])] if not isinstance(place, str)]
        used = {name for one in test.programs[core] for name in (one.register, one.operand)} | {name for at, name in places if at == core}
        taken = {registers.whole(self.names[name])[0] for name in used if name in OWN}
        free = [name for name in HOLDERS if name not in taken and (self.header == "X86_64" or name[1].isalpha())]
        return dict(zip(dict.fromkeys(one.location for one in test.programs[core] if one.location), free))

    def place(self, place):
        return place if isinstance(place, str) else "%d:%s" % (place[0], self.names[place[1]])

    def claim(self, claim):
        if isinstance(claim, bool):
            return str(claim).lower()
        kind, *parts = claim
        if kind == "is":
            return "%s=%s" % (self.place(parts[0]), self.number(parts[1]))
        if kind == "not":
            return "not (%s)" % self.claim(parts[0])
        return "(%s)" % (" /\\ " if kind == "and" else " \\/ ").join(map(self.claim, parts[0]))

    def text(self, test):
        """The test in this form. Locations for whose addresses a core has no register left stand in its cells."""
        held = [self.held(test, core) for core in range(len(test.programs))]
        kinds = {place: self.kind if isinstance(place, str) else "" for place in test.initial}
        items = ["%s%s=%s" % (kinds[place], self.place(place), self.number(value)) for place, value in test.initial.items()]
        items += ["%d:%s=%s" % (core, name if self.header == "X86_64" else "E" + name[1:].upper(), location)
                  for core, names in enumerate(held) for location, name in names.items()]
        items += ["%s%s" % (self.kind, name) for name in test.locations() if self.kind and name not in test.initial]
        height = max(map(len, test.programs))
        rows = [["P%d" % core for core in range(len(test.programs))]]
        rows += [[self.cell(program[at], names) if at < len(program) else "" for program, names in zip(test.programs, held)]
                 for at in range(height)]
        table = "\n".join(" %s ;" % " | ".join(row) for row in rows)
        return "%s %s\n{ %s }\n%s\n%s %s\n" % (
            self.header, test.name, "; ".join(items), table, test.condition[0], self.claim(test.condition[1]))


FORMS = {
    "AT&T's order": Form("X86_64", LOWER),
    "AT&T's order, words of 64 bits": Form("X86_64", LOWER, size=8, kind="uint64_t "),
    "the upper eight registers": Form("X86_64", UPPER, kind="int "),
    "addresses in registers": Form("X86_64", LOWER, addresses=True),
    "addresses beside the upper eight": Form("X86_64", UPPER, size=8, addresses=True, number=hex),
    "Intel's order": Form("X86_64", LOWER, size=8, at_and_t=False, number=hex),
    "Intel's order, addresses in registers": Form("X86_64", LOWER, size=8, at_and_t=False, addresses=True),
    "Intel's order, 32 bits": Form("X86", OWN, at_and_t=False, kind="int "),
    "32 bits, addresses in registers": Form("X86", OWN, at_and_t=False, addresses=True),
}


def meaning(test, names):
    """What a test says, by these names of its registers; what begins as 0 needn't be named."""
    def named(core, one):
        return names.get((core, one), one)

    def of_claim(claim):
        if isinstance(claim, bool) or claim[0] == "not":
            return claim if isinstance(claim, bool) else ("not", of_claim(claim[1]))
        if claim[0] == "is":
            return "is", claim[1] if isinstance(claim[1], str) else (claim[1][0], named(*claim[1])), claim[2]
        return claim[0], tuple(map(of_claim, claim[1]))
    programs = [[(one.kind, one.location, named(core, one.register), named(core, one.operand)) for one in program]
                for core, program in enumerate(test.programs)]
    initial = {place if isinstance(place, str) else (place[0], named(*place)): value for place, value in test.initial.items() if value}
    return programs, initial, (test.condition[0], of_claim(test.condition[1]))


def names_of(form, test):
    """The gallery's names of the registers that an imported test has, by its own."""
    gallery_names = {registers.one_name(theirs): name for name, theirs in form.names.items()}
    told = {ours: theirs for theirs, ours in registers.names_in(test.facts).items()}
    found = {}
    for core in range(len(test.programs)):
        for name in litmus.REGISTERS:
            place = registers.place(core, name)
            theirs = told.get(place, place).split(":")[1]
            found[core, name] = gallery_names.get(theirs, name)
    return found


def fault_of(test, form):
    """What is wrong with a test that is imported from this form."""
    written = form.text(test)
    try:
        found = importer.Importer(written).test()
    except faults.Refused as fault:
        return "line %d is refused: %s\n%s" % (fault.line, fault, written)
    same = meaning(found, names_of(form, found)) == meaning(test, {})
    return None if same else "%s\nis imported as\n%s" % (written, found.text())


def judge(_, tally):
    for name, text in gallery():
        test = litmus.read_test(text)
        for form_name, form in FORMS.items() if test.condition else ():
            tally.add("%s: %s" % (name, form_name), fault_of(test, form))
