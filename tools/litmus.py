"""Litmus tests in this project's form: reading them, printing them, and what their conditions say.

The grammar is that of docs/INPUT.md. What reads here is for tools beside the proved program: it takes each test that the program takes,
and says of a few others, in less detail than the program, that they are none.
"""
import functools
import re
from dataclasses import dataclass, field

import comments

SHOW = "Show"
REGISTERS = ("EAX", "EBX", "ECX", "EDX", "ESI", "EDI")
WORD = 2 ** 32

# What the program takes at most: docs/INPUT.md has the limits.
MOST_CORES, MOST_LOCATIONS, MOST_INSTRUCTIONS, LONGEST_NAME, LONGEST_TEXT = 8, 16, 32, 64, 65_536

# Brackets and negations within one another that are read here; the program takes fewer.
MOST_NESTED = 100

DIVIDER = "===="

# Operators, by their mnemonics, and instructions of one operand, by what they are read as: an operator and its number.
OPERATORS = ("ADD", "SUB", "AND", "OR", "XOR")
SHORT = {"INC": ("ADD", 1), "DEC": ("SUB", 1), "NOT": ("XOR", WORD - 1)}

# Instructions that do nothing here, and those that read and write a location in one step.
NOTHING = ("NOP", "PAUSE", "LFENCE", "SFENCE")
LOCKED = ("xchg", "xadd", "cmpxchg", "locked", "lockedneg")

# What herd's logs say of a test by its condition.
QUANTIFIERS = {"exists": "Allowed", "~exists": "Forbidden", "forall": "Required"}


class BadTest(Exception):
    """A text that is no test."""


@dataclass(frozen=True)
class Instruction:
    """One instruction: its kind, a location or None, a register or None, an operand: a number, or the name of a register, and the
    mnemonic of an operator.

    kinds: store (location, operand), load (register, location), move (register, operand), fence, xchg, xadd and cmpxchg (location,
    register), locked (location, operator, operand), lockedneg (location), combine (register, operator, operand), neg (register),
    swap (register, operand), nop
    """

    kind: str
    location: str = None
    register: str = None
    operand: object = None
    operator: str = None

    def is_locked(self):
        return self.kind in LOCKED

    def written(self):
        """The registers that it writes."""
        if self.kind == "swap":
            return self.register, self.operand
        if self.kind == "cmpxchg":
            return ("EAX",)
        return (self.register,) if self.register else ()

    def named(self):
        """The registers that it reads or writes."""
        return {name for name in (self.register, self.operand, *self.written()) if isinstance(name, str)}

    def text(self):
        value = "$%d" % self.operand if isinstance(self.operand, int) else self.operand
        return {
            "store": "MOV [%s],%s" % (self.location, value),
            "load": "MOV %s,[%s]" % (self.register, self.location),
            "move": "MOV %s,%s" % (self.register, value),
            "fence": "MFENCE",
            "xchg": "XCHG [%s],%s" % (self.location, self.register),
            "xadd": "LOCK XADD [%s],%s" % (self.location, self.register),
            "cmpxchg": "LOCK CMPXCHG [%s],%s" % (self.location, self.register),
            "locked": "LOCK %s [%s],%s" % (self.operator, self.location, value),
            "lockedneg": "LOCK NEG [%s]" % self.location,
            "combine": "%s %s,%s" % (self.operator, self.register, value),
            "neg": "NEG %s" % self.register,
            "swap": "XCHG %s,%s" % (self.register, self.operand),
            "nop": "NOP",
        }[self.kind]


@dataclass
class Test:
    """A test: its name, the facts of its key lines, first words and registers, programs, and its condition.

    A place is a location's name, or a pair of a core and a register. The condition is None, or a pair of a quantifier and a claim; a
    claim is True, False, ("is", place, value), ("not", claim), ("and", claims) or ("or", claims).
    """

    name: str
    programs: list
    initial: dict = field(default_factory=dict)
    facts: list = field(default_factory=list)
    condition: tuple = None

    def text(self):
        """The test as the program reads it."""
        lines = ["X86 " + self.name] + self.facts
        lines.append("{ %s}" % "".join("%s=%d; " % (place_text(place), value) for place, value in self.initial.items()))
        cells = [[i.text() for i in program] for program in self.programs]
        height = max(map(len, cells))
        columns = [["P%d" % core] + cell + [""] * (height - len(cell)) for core, cell in enumerate(cells)]
        widths = [max(map(len, column)) for column in columns]
        for row in zip(*columns):
            lines.append(" " + " | ".join(cell.ljust(width) for cell, width in zip(row, widths)) + " ;")
        if self.condition:
            quantifier, claim = self.condition
            lines.append("%s (%s)" % (quantifier, claim_text(claim)))
        return "\n".join(lines) + "\n"

    def locations(self):
        """The locations' names, in the order of first appearance."""
        found = {place: None for place in self.initial if isinstance(place, str)}
        height = max(map(len, self.programs), default=0)
        for row in range(height):
            for program in self.programs:
                if row < len(program) and program[row].location:
                    found[program[row].location] = None
        for place in claim_places(self.condition[1]) if self.condition else ():
            if isinstance(place, str):
                found[place] = None
        return list(found)


def place_text(place):
    return place if isinstance(place, str) else "%d:%s" % place


def claim_text(claim):
    if isinstance(claim, bool):
        return str(claim).lower()
    kind, *parts = claim
    if kind == "is":
        return "%s=%d" % (place_text(parts[0]), parts[1])
    if kind == "not":
        return "~(%s)" % claim_text(parts[0])
    joined = [claim_text(part) if part is True or part is False or part[0] in ("is", "not") else "(%s)" % claim_text(part)
              for part in parts[0]]
    return (" /\\ " if kind == "and" else " \\/ ").join(joined)


def claim_places(claim):
    if isinstance(claim, bool):
        return []
    kind, *parts = claim
    if kind == "is":
        return [parts[0]]
    return [place for part in (parts if kind == "not" else parts[0]) for place in claim_places(part)]


def asked_values(claim):
    """Values, by their places, without which a claim is false: those that stand in it alone or joined by "and"."""
    if isinstance(claim, bool) or claim[0] not in ("is", "and"):
        return {}
    if claim[0] == "is":
        return {claim[1]: claim[2]}
    return {place: value for part in claim[1] for place, value in asked_values(part).items()}


def holds(claim, values):
    """Whether a claim is true where places have these values; what isn't named is 0."""
    if isinstance(claim, bool):
        return claim
    kind, *parts = claim
    if kind == "is":
        return values.get(parts[0], 0) == parts[1]
    if kind == "not":
        return not holds(parts[0], values)
    return (all if kind == "and" else any)(holds(part, values) for part in parts[0])


def observed(test):
    """The places that a final state names: those of the condition, registers first, or without a condition each location."""
    if test.condition is None:
        return test.locations()
    asked = set(claim_places(test.condition[1]))
    registers = sorted((place for place in asked if not isinstance(place, str)), key=lambda place: (place[0], REGISTERS.index(place[1])))
    return registers + [name for name in test.locations() if name in asked]


def shown(test):
    """The places that a final state names where its line `Show=..` is obeyed: those of the condition; with `registers` each register
    that an instruction of its core writes, and with `all` each location too."""
    asked = observed(test)
    show = show_of(test.facts)
    if show is None:
        return asked
    written = {(core, name) for core, program in enumerate(test.programs) for one in program for name in one.written()}
    found = written | {place for place in asked if not isinstance(place, str)}
    locations = [name for name in test.locations() if show == "all" or name in asked]
    return sorted(found, key=lambda place: (place[0], REGISTERS.index(place[1]))) + locations


def show_of(facts):
    """What the line `Show=..` of a test asks `tso outcomes --show` for: registers or all; or None."""
    return next((line.partition("=")[2] for line in facts if line in (SHOW + "=registers", SHOW + "=all")), None)


def beyond_limits(test):
    """Of what a test has more than the program takes. Where there are too many cores or instructions, locations aren't looked at."""
    found = ["a test has at most %d cores" % MOST_CORES] if len(test.programs) > MOST_CORES else []
    if max(map(len, test.programs)) > MOST_INSTRUCTIONS:
        found.append("a core has at most %d instructions" % MOST_INSTRUCTIONS)
    if not found and len(test.locations()) > MOST_LOCATIONS:
        found.append("a test has at most %d locations" % MOST_LOCATIONS)
    return found


# ---- reading

TOKEN = re.compile(r"\s*(?:(0[xX][0-9A-Fa-f]+|\d+)|([A-Za-z_]\w*)|(/\\|\\/|[=;:\[\]{}|,$~()-])|(\S))")
NUMBER = re.compile(r"(0[xX])?0*([0-9A-Fa-f]+)")
HEADER = re.compile(r"X86[ \t]+([^\n]*)(?:\n|$)")
FACT = re.compile(r'"[^"]*"|[A-Za-z][\w \t-]*=[^\n]*')
LIST = re.compile(r"\blocations\s*\[")


def without_lists(text):
    return comments.without(text, LIST, lambda found: text.find("]", found.end()) + 1 or None)


def read_test(text):
    """The test of an input's first part."""
    text = re.split(r"^====\r?$", text, maxsplit=1, flags=re.M)[0].rstrip()
    header = HEADER.match(text, comments.blanks_end(text, 0))
    if not header:
        raise BadTest("no line X86 NAME")
    at, facts = header.end(), []
    while True:
        at = comments.blanks_end(text, at)
        if text.startswith("{", at):
            break
        line = FACT.match(text, at)
        if not line:
            raise BadTest("no initial state")
        facts.append(line.group().rstrip("\r"))
        at = line.end()
    rest = without_lists(comments.without_comments(text[at:])).rstrip()
    return Reader([found for found in TOKEN.findall(rest) if any(found)]).test(header.group(1).strip(), facts)


@functools.lru_cache(maxsize=16)
def known_test(text):
    """The same, of a text that may just have been read; the test isn't to be changed."""
    return read_test(text)


class Reader:
    """Goes along the tokens of a test, from its initial state on."""

    def __init__(self, tokens):
        self.tokens, self.at, self.nested = list(map("".join, tokens)), 0, 0

    def peek(self):
        return self.tokens[self.at] if self.at < len(self.tokens) else ""

    def take(self, *wanted):
        token = self.peek()
        if wanted and token not in wanted:
            raise BadTest("%r where %s should stand" % (token, " or ".join(wanted)))
        self.at += 1
        return token

    def number(self):
        is_negative = self.peek() == "-"
        if is_negative:
            self.take()
        token = self.take()
        if not starts_number(token):
            raise BadTest("%r is no number" % token)
        is_hexadecimal, digits = NUMBER.fullmatch(token).groups()
        value = int(digits[:len(str(WORD)) + 1], 16 if is_hexadecimal else 10)
        if value > (WORD // 2 if is_negative else WORD - 1):
            raise BadTest("%r is no number of 32 bits" % token)
        return -value % WORD if is_negative else value

    def register(self, token):
        if token.upper() not in REGISTERS:
            raise BadTest("%r is no register" % token)
        return token.upper()

    def location(self):
        token = self.take()
        if not re.fullmatch(r"[A-Za-z_]\w*", token):
            raise BadTest("%r is no location" % token)
        return token

    def place(self):
        """A location, with or without brackets, or a core's register."""
        if self.peek() == "[":
            self.take()
            name = self.location()
            self.take("]")
            return name
        if self.peek().isdecimal():
            core = self.number()
            self.take(":")
            return core, self.register(self.take())
        return self.location()

    def test(self, name, facts):
        initial = self.initial()
        cores = 0
        while True:
            self.take("P%d" % cores)
            cores += 1
            if self.take("|", ";") == ";":
                break
        programs = [[] for _ in range(cores)]
        while self.peek() and self.peek().lower() not in ("exists", "forall", "~"):
            for core in range(cores):
                if self.peek() not in ("|", ";"):
                    programs[core].append(self.instruction())
                self.take("|" if core < cores - 1 else ";")
        condition = self.condition() if self.peek() else None
        if self.peek():
            raise BadTest("%r after the condition" % self.peek())
        for place in [*initial, *(claim_places(condition[1]) if condition else ())]:
            if not isinstance(place, str) and place[0] >= cores:
                raise BadTest("there is no core %d" % place[0])
        return Test(name, programs, initial, facts, condition)

    def initial(self):
        initial = {}
        self.take("{")
        while self.peek() != "}":
            if self.peek() != ";":
                place = self.place()
                self.take("=")
                if place in initial:
                    raise BadTest("%s is given twice" % place_text(place))
                initial[place] = self.number()
            if self.peek() != "}":
                self.take(";")
        self.take("}")
        return initial

    def instruction(self):
        word = self.take().upper()
        is_locked = word == "LOCK"
        if is_locked:
            word = self.take().upper()
        if word == "MFENCE" or word in NOTHING:
            if is_locked:
                raise BadTest("LOCK %s" % word)
            return Instruction("fence" if word == "MFENCE" else "nop")
        if word not in ("MOV", "XCHG", "XADD", "CMPXCHG", "NEG", *SHORT, *OPERATORS):
            raise BadTest("%s is no instruction that is read" % word)
        first = self.operand()
        if word == "NEG" or word in SHORT:
            return changed(word, is_locked, first)
        self.take(",")
        second = self.operand()
        if word in OPERATORS:
            return combined(word, is_locked, first, second)
        if word == "MOV" and not is_locked:
            return move(first, second)
        return exchange(word, is_locked, first, second)

    def operand(self):
        if self.peek() == "[":
            return "location", self.place()
        if self.peek() == "$":
            self.take()
            return "number", self.number()
        if self.peek() == "-" or starts_number(self.peek()):
            return "number", self.number()
        return "register", self.register(self.take())

    def condition(self):
        quantifier = self.take("~", "exists", "forall")
        if quantifier == "~":
            quantifier += self.take("exists")
        return quantifier, self.claim()

    def claim(self):
        parts = [self.conjunction()]
        while self.peek() == "\\/":
            self.take()
            parts.append(self.conjunction())
        return parts[0] if len(parts) == 1 else ("or", tuple(parts))

    def conjunction(self):
        parts = [self.unit()]
        while self.peek() == "/\\":
            self.take()
            parts.append(self.unit())
        return parts[0] if len(parts) == 1 else ("and", tuple(parts))

    def unit(self):
        token = self.peek()
        if token in ("~", "not", "("):
            return self.nested_unit()
        if token in ("true", "false"):
            self.take()
            return token == "true"
        place = self.place()
        self.take("=")
        return "is", place, self.number()

    def nested_unit(self):
        """What stands after a negation, or in brackets."""
        self.nested += 1
        if self.nested > MOST_NESTED:
            raise BadTest("the condition is nested too deeply")
        if self.take() == "(":
            claim = self.claim()
            self.take(")")
        else:
            claim = "not", self.unit()
        self.nested -= 1
        return claim


def starts_number(token):
    return NUMBER.fullmatch(token) is not None and token[0].isdecimal()


def changed(word, is_locked, operand):
    """The instruction of one operand."""
    if operand[0] != ("location" if is_locked else "register"):
        raise BadTest("%s of such an operand" % word)
    if word != "NEG":
        return combined(SHORT[word][0], is_locked, operand, ("number", SHORT[word][1]))
    return Instruction("lockedneg", location=operand[1]) if is_locked else Instruction("neg", register=operand[1])


def combined(word, is_locked, first, second):
    """The operator with two operands."""
    if (first[0], second[0] == "location") != ("location" if is_locked else "register", False):
        raise BadTest("%s of such operands" % word)
    if is_locked:
        return Instruction("locked", location=first[1], operand=second[1], operator=word)
    return Instruction("combine", register=first[1], operand=second[1], operator=word)


def exchange(word, is_locked, first, second):
    """XCHG, XADD or CMPXCHG of two operands."""
    if (word, is_locked, first[0], second[0]) == ("XCHG", False, "register", "register"):
        return Instruction("swap", register=first[1], operand=second[1])
    if first[0] == "register" and word != "CMPXCHG":
        first, second = second, first
    if (first[0], second[0]) != ("location", "register") or word not in ("XCHG", "XADD", "CMPXCHG") or word == "CMPXCHG" and not is_locked:
        raise BadTest("%s of such operands" % word)
    return Instruction(word.lower(), location=first[1], register=second[1])


def move(first, second):
    """The MOV of two operands."""
    if first[0] == "location" and second[0] != "location":
        return Instruction("store", location=first[1], operand=second[1])
    if first[0] == "register" and second[0] == "location":
        return Instruction("load", register=first[1], location=second[1])
    if first[0] == "register":
        return Instruction("move", register=first[1], operand=second[1])
    raise BadTest("MOV of such operands")
