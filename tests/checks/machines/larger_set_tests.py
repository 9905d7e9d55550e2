"""Tests of the larger set of instructions, made at random: two to four cores, instructions of all forms, numbers in all spellings, and
conditions on what runs can leave. What they can end with is what tests/checks/machines/lock_machine.py finds."""
import random

from . import lock_machine
from .lock_machine import REGISTERS

# More states than so many aren't gone through: another test is drawn.
MOST_STATES = 20_000

# Of each number of cores the most instructions that one has.
CORES, LONGEST = (2, 2, 2, 3, 3, 4), {2: 6, 3: 4, 4: 3}

# The share of the tests with one end alone that are kept.
OF_ONE_END = 0.2

VALUES = (0, 1, 1, 1, 2, 3, 2**31 - 1, 2**31, 2**32 - 2, 2**32 - 1)

QUANTIFIERS = ("exists", "~exists", "forall")


class Maker:
    """Draws one test."""

    def __init__(self, draw):
        self.draw, cores = draw, draw.choice(CORES)
        self.places = draw.choice((("x",), ("x", "y"), ("x", "y"), ("x", "y", "z")))
        self.registers = ("EAX",) + tuple(draw.sample(REGISTERS[1:], draw.choice((1, 1, 2))))
        self.programs = [[self.cell() for _ in range(draw.randint(1, LONGEST[cores]))] for _ in range(cores)]
        if draw.random() < 0.15:
            self.programs = [list(self.programs[0]) for _ in self.programs]
        keys = list(self.places) + ["%d:%s" % (core, name) for core in range(cores) for name in self.registers]
        self.first = {key: draw.choice(VALUES) for key in keys if draw.random() < 0.4}

    def register(self):
        return self.letters(self.draw.choice(self.registers))

    def letters(self, word):
        return word.lower() if self.draw.random() < 0.1 else word

    def memory(self):
        return "[%s]" % self.draw.choice(self.places)

    def number(self, value=None):
        """A numeral of a word: decimal, hexadecimal, or the negative one."""
        value, form = self.draw.choice(VALUES) if value is None else value, self.draw.random()
        if form < 0.25:
            return ("0x%x", "0X%X", "0x0%x")[self.draw.randrange(3)] % value
        if form < 0.5 and (value >= 2**31 or value == 0):
            return ("-%d", "- %d", "-0x%x")[self.draw.randrange(3)] % (-value % 2**32)
        return "%s%d" % ("0" * (form > 0.97), value)

    def source(self):
        """A register, or a number with a sign before it or without."""
        if self.draw.random() < 0.5:
            return self.register()
        return self.draw.choice(("$", "")) + self.number()

    def cell(self):
        draw, letters = self.draw, self.letters
        two, one = letters(draw.choice(tuple(lock_machine.OF_TWO))), letters(draw.choice(tuple(lock_machine.OF_ONE)))
        return draw.choices((
            "MOV %s,%s" % (self.memory(), self.source()), "MOV %s,%s" % (self.register(), self.memory()),
            "MOV %s,%s" % (self.register(), self.source()), "MFENCE",
            "%s %s,%s" % (draw.choice(("XCHG", "LOCK XCHG")), self.memory(), self.register()),
            "LOCK XADD %s,%s" % (self.memory(), self.register()), "LOCK CMPXCHG %s,%s" % (self.memory(), self.register()),
            "LOCK %s %s,%s" % (two, self.memory(), self.source()), "LOCK %s %s" % (one, self.memory()),
            "%s %s,%s" % (two, self.register(), self.source()), "%s %s" % (one, self.register()),
            "XCHG %s,%s" % (self.register(), self.register()), letters(draw.choice(lock_machine.NOTHING)),
        ), (16, 16, 3, 2, 2, 2, 10, 8, 6, 8, 6, 3, 4))[0]

    def text(self, name, condition=""):
        rows = [["P%d" % core for core in range(len(self.programs))]]
        rows += [[program[at] if at < len(program) else "" for program in self.programs]
                 for at in range(max(map(len, self.programs)))]
        first = "".join("%s=%s; " % (key, self.spelled[key]) for key in self.first)
        return "X86 %s\n{ %s}\n%s%s" % (name, first, "".join(" " + " | ".join(row) + " ;\n" for row in rows), condition)

    def made(self, name):
        """The test's text without a condition, and all its ends; None where there are too many states."""
        self.spelled = {key: self.number(value) for key, value in self.first.items()}
        text = self.text(name)
        test = lock_machine.Test(text)
        try:
            return text, test, lock_machine.ends(test, MOST_STATES)
        except lock_machine.TooMany:
            return None

    def proposition(self, test, ends):
        """What an end has at one to three places, one of them often changed: most of them registers that an instruction writes."""
        draw = self.draw
        values = lock_machine.named(test, draw.choice(sorted(ends)))
        pool = [place for place in values if place in test.places or place.split(":")[1] in self.registers]
        places = draw.sample(pool, min(len(pool), draw.choice((1, 2, 2, 3))))
        atoms = ["%s=%s" % (place, self.number(values[place])) for place in places]
        if draw.random() < 0.5:
            at = draw.randrange(len(atoms))
            others = sorted({lock_machine.named(test, end)[places[at]] for end in ends} | {draw.choice(VALUES)})
            atoms[at] = "%s=%s" % (places[at], self.number(draw.choice(others)))
        if draw.random() < 0.2:
            atoms[0] = "%s(%s)" % (draw.choice(("~", "not ")), atoms[0])
        return draw.choice((" /\\ ", " /\\ ", " \\/ ")).join(atoms)


def made(seed, number):
    """The name of a test, its text under each of the three quantifiers, as the machine's reader has it, and its ends."""
    draw, name = random.Random("larger set, %d of %d" % (number, seed)), "larger%d" % number
    while True:
        maker = Maker(draw)
        found = maker.made(name)
        if found is not None:
            text, test, ends = found
            if len(ends) == 1 and draw.random() > OF_ONE_END:
                continue
            proposition = maker.proposition(test, ends)
            return name, [text + "%s (%s)\n" % (quantifier, proposition) for quantifier in QUANTIFIERS], test, ends
