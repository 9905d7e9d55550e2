"""Cells and numbers that the larger set of instructions alone has, drawn in the place of others."""

OPERATORS = ("ADD", "SUB", "AND", "OR", "XOR")
SHORT = ("INC", "DEC", "NEG", "NOT")
NOTHINGS = ("NOP", "PAUSE", "LFENCE", "SFENCE")

# By the kind of a cell, what may stand in its place.
INSTEAD = {
    "exchange": ("compare", "compare", "locked number", "locked register", "locked short"),
    "add": ("compare", "locked number", "locked register", "locked short"),
    "set": ("number", "register", "short", "swap"), "copy": ("number", "register", "short", "swap"),
    "fence": ("nothing",),
}


class Larger:
    """Draws what the larger set has, by chances of its own."""

    def __init__(self, chance):
        self.chance = chance

    def instead(self, kind):
        """The kind of cell that stands in the place of one of this kind; often itself."""
        return self.chance.choice(INSTEAD[kind]) if kind in INSTEAD and self.chance.random() < 0.6 else kind

    def number(self, text):
        """A number in one of its forms: decimal, hexadecimal, or the negative one that is the same word."""
        value, form = int(text), self.chance.random()
        if form < 0.15:
            return ["0%s%s%s" % (self.chance.choice("xX"), "0" * self.chance.choice((0, 0, 3)), self.chance.choice(("%x", "%X")) % value)]
        if form < 0.3 and (value == 0 or value >= 2**31):
            return ["-", self.chance.choice(("%d", "0x%x")) % (-value % 2**32)]
        return [text]

    def cell(self, kind, parts):
        """The tokens of a cell of such a kind. `parts` has those of memory, of two registers and of a number, and what spells a word."""
        letters, memory, register, other, number = parts
        operator, short = letters(self.chance.choice(OPERATORS)), letters(self.chance.choice(SHORT))
        return {
            "compare": [letters("LOCK"), letters("CMPXCHG")] + memory + [",", register],
            "locked number": [letters("LOCK"), operator] + memory + [","] + number,
            "locked register": [letters("LOCK"), operator] + memory + [",", register],
            "locked short": [letters("LOCK"), short] + memory,
            "number": [operator, register, ","] + number,
            "register": [operator, register, ",", other],
            "short": [short, register],
            "swap": [letters("XCHG"), register, ",", other],
            "nothing": [letters(self.chance.choice(NOTHINGS))],
        }[kind]
