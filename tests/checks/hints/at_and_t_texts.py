"""Tests in AT&T's order of operands for tests/hints.py, made from a seed: each is followed, hint by hint, to what the program reads.

What is read in the end has to be what tools/import makes of the text: no hint leads to another program. Of instructions that it refuses
nothing is read.
"""
import random

from checks.tools import tool_runs
from checks.tools.import_forms import x86

import importer
import litmus

from .hint_changes import followed

SEED, COUNT = 1, 200

# Instructions that tools/import refuses, and for which no hint knows another form.
REFUSED = ("movl $1,(%rsi)", "movl %eax,(%rsi)", "movb $1,(x)", "lock xaddq %rax,(x)",
           "MOV EAX,(x)", "MOV (x),EAX", "movl %eax,[x]", "movl [x],%eax")

# The registers of 64 bits, each with its part of 32 bits.
REGISTERS = {"rax": "eax", "rbx": "ebx", "rcx": "ecx", "rdx": "edx", "rsi": "esi", "rdi": "edi", "r8": "r8d", "r9": "r9d", "r15": "r15d"}

TYPES = {4: ("int", "uint32_t", "unsigned int", "int32_t"), 8: ("int64_t", "uint64_t", "long")}


class Maker:
    """Makes one text. Each location has words of one size, and each core uses a few registers."""

    def __init__(self, chance):
        self.chance = chance
        self.sizes = {name: chance.choice((4, 4, 8)) for name in ("x", "y", "zeta")[:chance.randint(1, 3)]}
        self.cores = [chance.sample(sorted(REGISTERS), chance.randint(1, 4)) for _ in range(chance.randint(1, 4))]

    def text(self):
        chance = self.chance
        lines = ["%s t%d" % (chance.choice(("X86_64", "X86_64", "X86")), chance.randrange(1000))]
        lines += chance.sample(['"PodWR Fre PodWR Fre"', "Generator=diyone7 (version 7.56)", "Align="], chance.randint(0, 3))
        lines += chance.choice((["{ %s}"], ["{", " %s", "}"]))
        lines = [line.replace("%s", self.initial()) for line in lines]
        lines.append(" %s ;" % " | ".join("P%d" % core for core in range(len(self.cores))))
        for _ in range(chance.randint(1, 5)):
            lines.append(" %s ;" % " | ".join(self.cell(core) for core in range(len(self.cores))))
        return "\n".join(lines + self.condition()) + "\n"

    def number(self):
        value = self.chance.choice((0, 1, 1, 2, 3, 255, 4294967295))
        return self.chance.choice((str(value), str(value), hex(value)))

    def initial(self):
        chance, items = self.chance, []
        for name, size in self.sizes.items():
            kind = chance.choice(("", chance.choice(TYPES[size]) + " "))
            if kind and chance.random() < 0.5:
                items.append(kind + name)
            elif kind or size == 4 and chance.random() < 0.5:
                items.append("%s%s=%s" % (kind, name if kind else chance.choice((name, "[%s]" % name)), self.number()))
        for core, registers in enumerate(self.cores):
            if chance.random() < 0.3:
                kind = chance.choice(("", "", "uint64_t "))
                items.append("%s%d:%s=%s" % (kind, core, self.observed(registers), self.number()))
        return "".join(item + "; " for item in items)

    def register(self, registers, size):
        parent = self.chance.choice(registers)
        return "%" + (parent if size == 8 else REGISTERS[parent])

    def observed(self, registers):
        parent = self.chance.choice(registers)
        return self.chance.choice(("", "", "%")) + self.chance.choice((parent, REGISTERS[parent]))

    def cell(self, core):
        chance, registers = self.chance, self.cores[core]
        kind = chance.choice(("store", "store", "load", "load", "copy", "set", "move", "xchg", "xchg", "xadd", "mfence", "none", "larger",
                              "larger", "larger"))
        if kind == "none":
            return ""
        if kind == "mfence":
            return chance.choice(("mfence", "MFENCE"))
        name, size = chance.choice(sorted(self.sizes.items()))
        if kind == "larger":
            return self.larger(name, size, registers) + chance.choice(("", "", "", " (* a comment *)"))
        if kind == "xadd" and size == 8:
            kind = "xchg"
        place, register = "(%s)" % name, self.register(registers, size)
        operands = {
            "store": ("$" + self.number(), place),
            "load": (place, register),
            "copy": (register, place),
            "set": ("$" + self.number(), register),
            "move": (register, self.register(registers, size)),
            "xchg": chance.choice(((register, place), (place, register))),
            "xadd": (register, place),
        }[kind]
        name = {"xchg": chance.choice(("xchg", "lock xchg")), "xadd": "lock xadd"}.get(kind, "mov")
        # A store of a number says its size by its letter alone.
        letter = "q" if size == 8 else "l"
        name += letter if kind == "store" else chance.choice((letter, letter, ""))
        text = chance.choice((name, name, name.upper())) + " " + chance.choice((",", ", ", " , ")).join(operands)
        return text + chance.choice(("", "", "", " (* a comment *)"))

    def larger(self, name, size, registers):
        """A cell with an instruction of the larger set."""
        chance = self.chance
        letter = "q" if size == 8 else "l"
        register, place = self.register(registers, size), "(%s)" % name
        combining, changing = chance.choice(("add", "sub", "and", "or", "xor")), chance.choice(("inc", "dec", "neg", "not"))
        others = [one for one in registers if one not in register and REGISTERS[one] not in register]
        # Of 64 bits no sum is one of 32.
        computing = () if size == 8 else ("locked", "locked", "locked change", "number", "change", "pair")
        kind = chance.choice(("nothing", "compared", "compared", "swap", *computing))
        if kind == "nothing":
            return chance.choice(("nop", "pause", "lfence", "SFENCE"))
        if kind == "locked":
            return "lock %s%s %s,%s" % (combining, letter, chance.choice(("$" + self.number(), register)), place)
        if kind == "locked change":
            return "lock %s%s %s" % (changing, letter, place)
        if kind == "compared":
            return "lock cmpxchg%s %s,%s" % (chance.choice((letter, "")), register, place)
        if kind == "change":
            return "%s%s %s" % (changing, chance.choice((letter, "")), register)
        if kind == "swap" and not others:
            return "nop"
        if kind == "number" or not others:
            return "%s%s $%s,%s" % (combining, letter, self.number(), register)
        other = self.register(others, size)
        return "%s%s %s,%s" % (combining if kind == "pair" else "xchg", letter, other, register)

    def condition(self):
        chance = self.chance
        atoms = []
        for core, registers in enumerate(self.cores):
            atoms.append("%d:%s=%s" % (core, self.observed(registers), self.number()))
        atoms += ["%s=%s" % (chance.choice((name, "[%s]" % name)), self.number()) for name in self.sizes]
        atoms = chance.sample(atoms, chance.randint(1, len(atoms)))
        claim = atoms[0]
        for atom in atoms[1:]:
            claim = chance.choice(("%s /\\ %s", "%s \\/ %s", "(%s) /\\ not (%s)")) % (claim, atom)
        quantifier = chance.choice(("exists", "exists", "~exists", "forall", ""))
        return ["%s (%s)" % (quantifier, claim)] if quantifier else []


def texts():
    """The texts, each with its number."""
    chance = random.Random(SEED)
    return [Maker(chance).text() for _ in range(COUNT)]


def meaning(test):
    """What a test says, whatever its spelling: locations and registers that begin as 0 needn't be named."""
    return test.programs, {place: value for place, value in test.initial.items() if value}, test.condition


def faults_of(program, text):
    read, hints = followed(program, text)
    if read is None:
        return ["isn't read in the end: " + hints[-1]] + text.split("\n")
    wanted, found = importer.Importer(text).test(), litmus.read_test(read)
    if meaning(wanted) == meaning(found):
        return []
    return ["is read as another test:"] + read.split("\n") + ["where tools/import makes of it"] + wanted.text().split("\n") + hints


def faults_of_refused(program, text):
    read, hints = followed(program, text)
    return [] if read is None else ["is read, where tools/import refuses it:"] + read.split("\n") + hints


def works():
    """Names of the texts, each with a function of a program's faults."""
    made = [("the hints on an AT&T text, %d" % number, lambda program, text=text: faults_of(program, text))
            for number, text in enumerate(texts())]
    return made + [("the hints on %s, which can't be imported" % cell, lambda program, cell=cell: faults_of_refused(program, x86(cell)))
                   for cell in REFUSED]
