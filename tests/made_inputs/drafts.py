"""Tests drawn at random: a draft has a test's parts, each as tokens or lines, and is then spelled."""
import dataclasses

from reference import litmus

from .spelling import Speller

REGISTERS = ("EAX", "EBX", "ECX", "EDX", "ESI", "EDI")

# Locations' names: plain ones, and those that look like something else.
PLAIN_NAMES = ("x", "y", "z", "a", "b", "c")
NAMES = PLAIN_NAMES + tuple("""
    X _ _1 x_2 s d seed W LR P0 P8 Order EB EIP EBP_ ebpx eaxx EAX1 RAX MOV lock MFENCE TRUE NOT Exists FORALL filter Locations
    nnnnnnnnnnnnnnnnnnnnnnnnnnnnnnnn abcdefghijklmnopqrstuvwxyz_01234
""".split())
TEST_NAMES = ("SB", "t", "n6", "MP+mfence+po", "a test in full", "\"quoted\"", "back\\slash", "(* no comment *)", "x{y}",
              "N" * 64, "~", "1")

# How many cores (0 stands for two), instructions and locations a test has at most.
SIZES = ((1, 4, 2), (2, 3, 2), (2, 4, 3), (2, 6, 3), (3, 4, 3), (4, 4, 4), (4, 6, 8), (6, 3, 4), (8, 3, 4), (2, 12, 6), (3, 8, 16),
         (0, 3, 2))

VALUES = (0, 1, 1, 1, 2, 2, 3, 5, 7, 255, 65536, 2**31, 2**32 - 1)


@dataclasses.dataclass
class Draft:
    """The parts of a test's text. `header` has no line end; `rows` are lists of cells, and a cell a list of tokens."""
    header: str
    information: list
    initial: list
    columns: list
    rows: list
    locations: object
    condition: list
    names: list

    def cores(self):
        return sum(token.startswith("P") for token in self.columns)

    def row_tokens(self, row):
        tokens = []
        for cell in row:
            tokens += cell + ["|"]
        return tokens[:-1] + [";"] if tokens else [";"]

    def spelled(self, speller):
        """The whole text, as bytes."""
        table = speller.style == "table"
        parts = [self.header, speller.line_end()]
        for line in self.information:
            parts += [line, speller.line_end()]
        parts += [speller.joined(self.initial), "\n" if table else speller.gap()]
        parts += [speller.joined(self.columns), "\n" if table else speller.gap()]
        for row in self.rows:
            parts += [speller.joined(self.row_tokens(row)), "\n" if table else speller.gap()]
        if self.locations is not None:
            parts += [self.locations, speller.gap()]
        parts.append(speller.joined(self.condition))
        return "".join(parts).encode("latin-1")


class Drafter:
    """Draws tests. `speller` spells what a draft holds as tokens already: letters and leading zeros. `round` counts how often all
    known faults came up before. `larger` draws what the larger set of instructions alone has, and is None where a test has that of the
    grammar."""

    def __init__(self, draw, style=None, larger=None):
        self.draw, self.speller, self.round, self.larger = draw, Speller(draw, style), 0, larger
        self.registers = draw.choice((REGISTERS, REGISTERS[:2], REGISTERS[:2], REGISTERS[1:4], REGISTERS[4:], REGISTERS[:1]))
        self.values = draw.choice((VALUES, (1, 2, 3), tuple(range(1, 10))))
        self.settings = draw.choice((0.2, 0.5, 0.8))

    def pick(self, forms):
        """The one of these forms whose turn it is in this round."""
        return forms[self.round % len(forms)]

    def draft(self, size=None, kinds=None, names=None, full=False, cores=None, alike=False, shape=None):
        """A test: `size` is the most cores, instructions and locations of it, and where it is full the most instructions are
        reached; `kinds` are the kinds of its instructions. It has as many `cores`, if they are given; where it is `alike` some have
        the same program. A `shape` has for each core the kinds of its instructions, one after the other."""
        draw = self.draw
        most_cores, most_instructions, most_names = size or draw.choice(SIZES)
        cores = len(shape or ()) or cores or (2 if most_cores == 0 else draw.randint(max(1, most_cores - 1), most_cores))
        pool = list(names or draw.sample(NAMES if draw.random() < 0.5 else PLAIN_NAMES, min(most_names, len(PLAIN_NAMES))))
        while len(pool) < most_names:
            pool.append("v%d" % len(pool))
        if shape is None:
            kinds = kinds or self.kinds()
            least = most_instructions if full else draw.choice((0, most_instructions // 2, most_instructions))
            shape = [[draw.choice(kinds) for _ in range(draw.randint(least, most_instructions))] for _ in range(cores)]
        programs = [[self.cell(pool, kind) for kind in program] for program in shape]
        if alike:
            programs = [list(draw.choice(programs[:2])) for _ in programs]
        return Draft(self.header(), self.information(), self.initial(pool, cores), self.columns(cores), self.rows(programs),
                     self.brackets(pool), self.condition(pool, cores), pool)

    def kinds(self):
        """What kinds of instructions there are, some of them more often."""
        every = ["store", "store", "store register", "load", "load", "set", "copy", "fence", "exchange", "add"]
        return self.draw.choice((every, every, ["store", "load"], ["store", "load", "fence"], ["exchange", "add", "load"],
                                 ["store register", "load", "copy", "set"], ["store", "load", "exchange"]))

    def header(self):
        separator = self.draw.choice((" ", " ", " ", "\t", "  \t")) if self.speller.style != "table" else " "
        end = self.draw.choice(("", "", " ", "\t", "\r")) if self.speller.style != "table" else ""
        before = self.speller.gap() if self.speller.style == "wild" else ""
        return before + "X86" + separator + self.draw.choice(TEST_NAMES) + end

    def information(self):
        lines = []
        while self.draw.random() < 0.25:
            if self.draw.random() < 0.5:
                lines.append('"%s"' % self.speller.filling(('"',)).replace("====", ""))
            else:
                key = self.draw.choice(("Generator", "Com", "k", "a key-line_2 ", "Prefetch\t", "X"))
                lines.append(key + "=" + self.speller.filling(("\n",)))
        return lines

    def initial(self, pool, cores):
        tokens = ["{"]
        given = set()
        while self.draw.random() < self.settings:
            setting, key = self.setting(pool, cores)
            if key not in given:
                given.add(key)
                tokens += setting + [";"]
            if self.draw.random() < 0.1:
                tokens.append(";")
        if tokens[-1] == ";" and self.draw.random() < 0.4:
            tokens.pop()
        return tokens + ["}"]

    def setting(self, pool, cores, value=None):
        """A setting's tokens, and what it is a setting of."""
        number = self.value(self.draw.choice(VALUES) if value is None else value)
        name, kind = self.draw.choice(pool) if pool else "x", self.draw.random()
        if kind < 0.4:
            core, register = self.draw.randrange(cores), self.draw.choice(self.registers)
            return [self.speller.number(core), ":", self.speller.letters(register), "=", *number], (core, register)
        return ([name] if kind < 0.8 else ["[", name, "]"]) + ["=", *number], name

    def value(self, value):
        """The tokens of a value."""
        text = self.speller.number(value)
        return [text] if self.larger is None else self.larger.number(text)

    def columns(self, cores):
        return " | ".join("P%d" % core for core in range(cores)).split() + [";"]

    def rows(self, programs):
        """The programs row by row; a shorter one has empty cells somewhere."""
        rows = max(map(len, programs))
        columns = []
        for program in programs:
            column = list(program)
            while len(column) < rows:
                column.insert(self.draw.randint(0, len(column)), [])
            columns.append(column)
        rows = [list(row) for row in zip(*columns)]
        if self.draw.random() < 0.05:
            rows.insert(self.draw.randint(0, len(rows)), [[] for _ in programs])
        return rows

    def cell(self, pool, kind):
        draw, letters = self.draw, self.speller.letters
        memory = ["[", draw.choice(pool), "]"]
        register, other = letters(draw.choice(self.registers)), letters(draw.choice(self.registers))
        number = draw.choice(([], ["$"])) + self.value(draw.choice(self.values))
        lock = draw.choice(([], [letters("LOCK")]))
        instead = kind if self.larger is None else self.larger.instead(kind)
        if instead != kind:
            return self.larger.cell(instead, (letters, memory, register, other, number))
        return {
            "store": [letters("MOV")] + memory + [","] + number,
            "store register": [letters("MOV")] + memory + [",", register],
            "load": [letters("MOV"), register, ","] + memory,
            "set": [letters("MOV"), register, ","] + number,
            "copy": [letters("MOV"), register, ",", other],
            "fence": [letters("MFENCE")],
            "exchange": lock + [letters("XCHG")] + draw.choice((memory + [",", register], [register, ","] + memory)),
            "add": [letters("LOCK"), letters("XADD")] + memory + [",", register],
        }[kind]

    def brackets(self, pool):
        if self.draw.random() > 0.12:
            return None
        inside = self.draw.choice(("", "x; 0:EAX;", " \xff @ x ", "(* ] *) x;", "[", "\n\r\n", ";".join(pool)))
        return "locations" + self.speller.gap() + "[" + inside + "]"

    def condition(self, pool, cores):
        if self.draw.random() < 0.15:
            return []
        quantifier = self.draw.choice((["exists"], ["exists"], ["~", "exists"], ["forall"]))
        return quantifier + self.proposition(pool, cores, self.draw.choice((0, 1, 1, 2, 2, 3)))

    def proposition(self, pool, cores, deep):
        """A proposition's tokens: mostly atoms on registers, that are 0 or 1."""
        draw = self.draw
        if deep == 0:
            kind = draw.random()
            if kind < 0.06:
                return [draw.choice(("true", "false"))]
            return self.setting(pool, cores, draw.choice((0, 0, 1, 1, 2)) if draw.random() < 0.9 else None)[0]
        kind = draw.random()
        if kind < 0.15:
            return [draw.choice(("~", "not"))] + self.unit(pool, cores, deep - 1)
        parts = [self.proposition(pool, cores, deep - 1) for _ in range(draw.choice((1, 2, 2, 3)))]
        tokens = parts[0]
        for part in parts[1:]:
            tokens = tokens + [draw.choice(("/\\", "/\\", "\\/"))] + part
        return ["("] + tokens + [")"] if draw.random() < 0.5 else tokens

    def unit(self, pool, cores, deep):
        inner = self.proposition(pool, cores, deep)
        return inner if deep == 0 else ["("] + inner + [")"]

    def condition_on(self, test, registers, words, most):
        """A condition on some of what a run of this test left; its registers are so many at most of those that something loads into."""
        draw = self.draw
        loaded = sorted({(core, instruction.register) for core, program in enumerate(test.programs) for instruction in program
                         if instruction.kind in (litmus.LOAD, litmus.EXCHANGE, litmus.ADD)})
        places = draw.sample(loaded, min(len(loaded), draw.randint(1, most)))
        atoms = [[self.speller.number(core), ":", self.speller.letters(REGISTERS[register]), "=", str(registers[core][register])]
                 for core, register in places]
        if test.locations and (not atoms or draw.random() < 0.3):
            location = draw.randrange(len(test.locations))
            atoms.append([test.locations[location], "=", str(words[location])])
        if not atoms:
            return ["forall", "true"]
        tokens = atoms[0]
        for atom in atoms[1:]:
            tokens = tokens + [draw.choice(("/\\", "/\\", "/\\", "\\/"))] + draw.choice(([], [], ["not"])) + atom
        return draw.choice((["exists"], ["~", "exists"], ["forall"])) + ["("] + tokens + [")"]
