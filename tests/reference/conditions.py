"""A test's condition: docs/INPUT.md, 'Condition' and 'The grammar'; its truth is docs/DEFINITIONS.md, 'What an order is'.

A proposition is a tuple: ("truth", t), ("register", core, register, value), ("location", number, value), ("not", p),
("and", [p, ..]) or ("or", [p, ..]).
"""
from . import lexing, litmus, seen
from .lexing import Fault

WHERE = "in the condition"


def unfit(token):
    """The refusal of a token that doesn't fit in a condition, or of the end within it."""
    return Fault("BadCondition", token.place,
                 "the end in the condition" if token.kind == lexing.END else "a token in the condition")


class ConditionReader:
    """Reads a condition's tokens. `names` are the locations that are known so far; further ones are appended. `named` has each atom that
    names a register or a location, with the place where it does."""

    def __init__(self, tokens, names, cores):
        self.tokens, self.names, self.cores = tokens, names, cores
        self.atoms = self.open = 0
        self.named = []

    def take(self):
        return self.tokens.take(WHERE)

    def look(self):
        return self.tokens.look(WHERE)

    def quantifier(self):
        """`exists`, `~exists` or `forall`; the next token begins one of them."""
        token = self.take()
        if not token.is_symbol("~"):
            return token.text
        token = self.take()
        if not token.is_word("exists"):
            raise unfit(token)
        return "~exists"

    def proposition(self):
        """Conjunctions joined by `\\/`."""
        parts = [self.conjunction()]
        while self.look().is_symbol("\\/"):
            self.take()
            parts.append(self.conjunction())
        return parts[0] if len(parts) == 1 else ("or", parts)

    def conjunction(self):
        """Units joined by `/\\`."""
        parts = [self.unit()]
        while self.look().is_symbol("/\\"):
            self.take()
            parts.append(self.unit())
        return parts[0] if len(parts) == 1 else ("and", parts)

    def unit(self):
        """A negation, a proposition in brackets, or an atom. Negations and brackets that are open are counted together."""
        token = self.take()
        if token.is_symbol("~") or token.is_word("not"):
            self.opened(token)
            seen.note("spelling", "negation " + token.text)
            inner = ("not", self.unit())
        elif token.is_symbol("("):
            self.opened(token)
            inner = self.proposition()
            closing = self.take()
            if not closing.is_symbol(")"):
                raise unfit(closing)
        else:
            return self.atom(token)
        self.open -= 1
        return inner

    def opened(self, token):
        if self.open == litmus.MOST_OPEN:
            raise Fault("TooLarge", token.place, "a 65th bracket or negation")
        self.open += 1

    def atom(self, token):
        """`true`, `false`, or a setting as those of the initial state; judged as its last token is read."""
        if token.is_word("true") or token.is_word("false"):
            self.counted(token)
            return "truth", token.text == "true"
        setting = read_setting(self.tokens, token, WHERE, unfit)
        value = lexing.value_of(setting.number)
        if setting.core is not None:
            core = lexing.value_of(setting.core)
            if core >= self.cores:
                raise Fault("NoSuchCore", token.place, "of the condition")
        if value > litmus.GREATEST_WORD:
            raise Fault("BadNumber", token.place, "of the condition")
        if setting.core is not None:
            self.counted(token)
            return self.names_place(("register", core, setting.register, value), token.place, setting.named)
        location = number_of(setting.location, self.names)
        if location is None:
            raise Fault("TooLarge", token.place, "a 17th location in the condition")
        self.counted(token)
        return self.names_place(("location", location, value), setting.named, setting.named)

    def names_place(self, atom, place, name):
        """The atom, which is noted with its place and that of the name in it."""
        self.named.append((atom, place, name))
        return atom

    def counted(self, token):
        if self.atoms == litmus.MOST_ATOMS:
            raise Fault("TooLarge", token.place, "a 257th atom")
        self.atoms += 1


class Setting:
    """`1:EAX=7`, `x=7` or `[x]=7`, of the initial state or of a condition. Core and number are digits, of any size; `core` or
    `location` is None. `place` is that of its first token, `named` that of the register's or the location's name."""

    def __init__(self, place, named, core, register, location, number):
        self.place, self.named, self.core, self.register = place, named, core, register
        self.location, self.number = location, number


def read_setting(tokens, first, where, unfit_token):
    """A setting whose first token is taken already; `unfit_token` makes the refusal of a token that doesn't fit."""
    def wanted(token, fits):
        if not fits:
            raise unfit_token(token)
        return token

    def symbol(text):
        token = tokens.take(where)
        return wanted(token, token.is_symbol(text))

    def number():
        token = tokens.take(where)
        if token.is_symbol("-"):
            token = tokens.take(where)
            return "-" + wanted(token, token.kind == lexing.NUMBER).text
        return wanted(token, token.kind == lexing.NUMBER).text

    core = register = location = None
    named = first.place
    if first.kind == lexing.NUMBER and first.text.isdigit():
        form, core = "register", first.text
        symbol(":")
        token = tokens.take(where)
        register, named = litmus.register_of(wanted(token, token.is_register()).text), token.place
    elif first.is_symbol("["):
        form, token = "location in brackets", tokens.take(where)
        location, named = wanted(token, token.is_location()).text, token.place
        symbol("]")
    else:
        form, location = "location", wanted(first, first.is_location()).text
    symbol("=")
    setting = Setting(first.place, named, core, register, location, number())
    seen.note("spelling", "%s %s" % (form, where))
    return setting


def number_of(name, names):
    """The number of the location with this name, which is appended where it is new; None where there are 16 others already."""
    if name not in names:
        if len(names) == litmus.MOST_LOCATIONS:
            return None
        names.append(name)
    return names.index(name)


def truth_of(proposition, registers, words):
    """The truth of a proposition in one final state: DEFINITIONS.md, 'truth'."""
    form = proposition[0]
    if form == "truth":
        return proposition[1]
    if form == "register":
        _, core, register, value = proposition
        return registers[core][register] == value
    if form == "location":
        return words[proposition[1]] == proposition[2]
    if form == "not":
        return not truth_of(proposition[1], registers, words)
    truths = [truth_of(part, registers, words) for part in proposition[1]]
    return all(truths) if form == "and" else any(truths)


def named_in(proposition):
    """The registers, as pairs of core and register, and the locations that a proposition names."""
    form = proposition[0]
    if form == "register":
        return {proposition[1:3]}, set()
    if form == "location":
        return set(), {proposition[1]}
    if form == "truth":
        return set(), set()
    parts = [proposition[1]] if form == "not" else proposition[1]
    registers, locations = zip(*map(named_in, parts))
    return set().union(*registers), set().union(*locations)
