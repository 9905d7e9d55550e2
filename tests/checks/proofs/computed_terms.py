"""Terms of antt, read and computed in plain Python: as much of it as worked examples need.

A number is an int, a list a tuple, a constructor with its arguments a Made, a record or a pair a Record, a function a Python function of one
argument. A statement is a bool. What no line here says how to compute, as what a quantifier says, is Unknown.
"""
import re
import sys
from functools import lru_cache

from . import definitions

sys.setrecursionlimit(1_000_000)
# What stands for a function where values are shown.
FUNCTION = "a function"
# Maximum number of terms that one computation goes through.
MOST_STEPS = 20_000

NAME = r"[^\W\d][\w'-]*"
TOKEN = re.compile(r'"(?:[^"\\]|\\.)*"|\[\]|\.(?:\d+|' + NAME + r")|" + NAME + r"|\d+|[(){}\[\];,]|[^\s\w(){}\[\];,.\"]+|\.")
# How tightly each operator binds, and whether it groups to the right.
OPERATORS = {"→": (1, True), "×": (2, True), "⊎": (2, True), "↔": (3, False), "≡": (3, False), "≢": (3, False), "<": (3, False), "≤": (3, False),
             "||": (4, False), "&&": (4, False), "==": (5, False), "++": (6, False), "+": (6, False), "-": (6, False), "*": (7, False),
             "/": (7, False), "%": (7, False), "^": (8, False), "∷": (9, True)}
ENDS = {")", "}", "]", ";", ",", "then", "else", "in", "=", ".", ":", "|", "↦"}
ESCAPES = {"n": 10, "r": 13, "t": 9, "\\": 92, '"': 34}


class Unknown(Exception):
    """What nothing here computes."""


class Made(tuple):
    """A constructor with its arguments: the name stands first. Another argument makes it longer."""

    def __call__(self, argument):
        return Made((*self, argument))

    def __repr__(self):
        return self[0] if len(self) == 1 else "(%s)" % " ".join([self[0], *map(shown, self[1:])])


class Record(dict):
    """A record's fields by their names; a pair's are 0, 1 and so on."""

    def __repr__(self):
        return "{%s}" % "; ".join("%s = %s" % (field, shown(value)) for field, value in self.items())


TRUE, FALSE, NONE = Made(("true",)), Made(("false",)), Made(("None",))


def truth(said):
    return TRUE if said else FALSE


def shown(value):
    """A value as a list of worked examples has it: a list of printable bytes as a text."""
    if isinstance(value, tuple) and not isinstance(value, Made):
        if value and all(isinstance(one, int) and (32 <= one < 127 or one in (9, 10, 13)) for one in value):
            text = "".join(map(chr, value))
            return '"%s"' % re.sub(r'[\\"]', r"\\\g<0>", text).replace("\n", "\\n").replace("\r", "\\r").replace("\t", "\\t")
        return "[%s]" % ", ".join(map(shown, value))
    return FUNCTION if is_function(value) else repr(value)


def is_function(value):
    return callable(value) and not isinstance(value, Made)


# ---- reading


class Reader:
    """Reads the words of one term."""

    def __init__(self, text):
        self.words, self.at = TOKEN.findall(text), 0

    def word(self):
        return self.words[self.at] if self.at < len(self.words) else ")"

    def next(self):
        self.at += 1
        return self.words[self.at - 1]

    def expect(self, word):
        if self.next() != word:
            raise Unknown("no %s where one is wanted" % word)

    def term(self, least=0):
        left = self.application()
        while self.word() in OPERATORS and OPERATORS[self.word()][0] >= least:
            level, groups_right = OPERATORS[self.word()]
            operator = self.next()
            left = ("operator", operator, left, self.term(level if groups_right else level + 1))
        return left

    def application(self):
        function, arguments = self.atom(), []
        while self.word() not in ENDS and self.word() not in OPERATORS:
            arguments.append(self.atom())
        return ("call", function, arguments) if arguments else function

    def atom(self):
        found = self.plain_atom()
        while self.word().startswith(".") and self.word() != ".":
            found = ("field", found, self.next()[1:])
        return found

    def plain_atom(self):
        word = self.next()
        if word == "(":
            parts = [self.term()]
            if self.word() == ":":
                raise Unknown("a quantifier")
            while self.word() == ",":
                self.next()
                parts.append(self.term())
            self.expect(")")
            return parts[0] if len(parts) == 1 else ("fields", None, {str(at): part for at, part in enumerate(parts)})
        if word == "record":
            base = None if self.word() == "{" else self.atom()
            return ("fields", base, self.fields())
        if word == "λ":
            return ("function", self.bound_names(), self.term())
        if word == "if":
            asked = self.term()
            self.expect("then")
            yes = self.term()
            self.expect("else")
            return ("choice", asked, yes, self.term())
        if word == "let":
            name = self.next()
            if self.word() == ":":
                while self.word() != "=":
                    self.next()
            self.expect("=")
            value = self.term()
            self.expect("in")
            return ("call", ("function", [name], self.term()), [value])
        if word.isdigit():
            return ("value", int(word))
        if word.startswith('"'):
            return ("value", tuple(text_in(word[1:-1])))
        return ("name", word)

    def bound_names(self):
        """The names that a function binds, up to its dot; the types beside them are left out."""
        names, is_type = [], False
        while self.word() != ".":
            word = self.next()
            is_type = word == ":" or is_type and word != ")"
            if not is_type and word not in ("(", ")"):
                names.append(word)
        self.next()
        return names

    def fields(self):
        self.expect("{")
        found = {}
        while self.word() != "}":
            name = self.next()
            self.expect("=")
            found[name] = self.term()
            if self.word() == ";":
                self.next()
        self.next()
        return found


def text_in(spelled):
    escaped = False
    for letter in spelled:
        if escaped or letter != "\\":
            yield ESCAPES[letter] if escaped else ord(letter)
        escaped = letter == "\\" and not escaped


@lru_cache(None)
def read(text):
    reader = Reader(text)
    found = reader.term()
    if reader.at != len(reader.words):
        raise Unknown("more stands after a term")
    return found


# ---- values of names


def curried(count, function, *given):
    """A function of so many arguments, taken one after the other."""
    if count == 0:
        return function(*given)
    return lambda argument: curried(count - 1, function, *given, argument)


def at_or(values, at, other):
    return values[at] if at < len(values) else other


def option(values, at):
    return Made(("Some", values[at])) if at < len(values) else NONE


def without_first(holds, entries):
    at = next((at for at, one in enumerate(entries) if holds(one["0"]) == TRUE), len(entries))
    return entries[:at] + entries[at + 1:]


LIBRARY = {
    "true": TRUE, "false": FALSE, "None": NONE, "[]": (), "zero": 0, "Unit": True, "⊥": False,
    "suc": lambda n: n + 1, "codes": lambda text: text, "length": len, "not": lambda b: truth(b == FALSE),
    "is_some": lambda o: truth(o != NONE), "Some": Made(("Some",)), "Ok": Made(("Ok",)), "Err": Made(("Err",)),
    "map": curried(2, lambda f, xs: tuple(map(f, xs))), "filter": curried(2, lambda f, xs: tuple(x for x in xs if f(x) == TRUE)),
    "flat_map": curried(2, lambda f, xs: tuple(y for x in xs for y in f(x))), "take": curried(2, lambda n, xs: xs[:n]),
    "drop": curried(2, lambda n, xs: xs[n:]), "slice_get": curried(2, option), "slice_index": curried(2, lambda xs, at: at_or(xs, at, 0)),
    "slice_index_or": curried(3, at_or), "slice_set": curried(3, lambda xs, at, x: xs[:at] + (x,) * (at < len(xs)) + xs[at + 1:]),
    "nat_lt": curried(2, lambda a, b: truth(a < b)), "min": curried(2, min), "max": curried(2, max),
    "list_any": curried(2, lambda f, xs: truth(any(f(x) == TRUE for x in xs))),
    "list_all": curried(2, lambda f, xs: truth(all(f(x) == TRUE for x in xs))),
    "option_map": curried(2, lambda f, o: o if o == NONE else Made(("Some", f(o[1])))), "div_ceil": curried(2, lambda a, b: -(-a // b)),
    "option_map_or": curried(3, lambda f, o, other: other if o == NONE else f(o[1])),
    "count_by": curried(2, lambda f, xs: sum(f(x) == TRUE for x in xs)), "replicate": curried(2, lambda n, x: (x,) * n),
    "range_with_len": curried(2, lambda first, count: tuple(range(first, first + count))),
    "nat_eq": curried(2, lambda a, b: truth(a == b)), "nat_le": curried(2, lambda a, b: truth(a <= b)),
    "bytes_eq": curried(2, lambda a, b: truth(a == b)), "is_ascii_alphabetic": lambda c: truth(65 <= c <= 90 or 97 <= c <= 122),
    "is_ascii_digit": lambda c: truth(48 <= c <= 57), "is_ascii_alphanumeric": lambda c: truth(c < 128 and chr(c).isalnum()),
    "to_ascii_lowercase": lambda c: c + 32 if 65 <= c <= 90 else c, "decimal": lambda n: tuple(map(ord, str(n))),
    "lookup": curried(2, lambda f, entries: next((Made(("Some", one["1"])) for one in entries if f(one["0"]) == TRUE), NONE)),
    "remove_entry": curried(2, without_first), "unwrap_or": curried(2, lambda o, other: other if o == NONE else o[1]),
    "option_or": curried(2, lambda o, other: other if o == NONE else o),
}
ARITHMETIC = {
    "+": lambda a, b: a + b, "-": lambda a, b: max(a - b, 0), "*": lambda a, b: a * b, "/": lambda a, b: a // b, "%": lambda a, b: a % b,
    "^": lambda a, b: a**b, "∷": lambda a, b: (a,) + b, "++": lambda a, b: a + b, "==": lambda a, b: truth(a == b),
    "≡": lambda a, b: same(a, b), "≢": lambda a, b: not same(a, b), "<": lambda a, b: a < b, "≤": lambda a, b: a <= b,
}


def has_constructor(file, name):
    """Whether one of a file's definitions is by cases of which this is one."""
    begins = re.compile(r"^  " + re.escape(name) + " :", re.M)
    return any("data" in one.text[0].split()[:2] and begins.search("\n".join(one.text)) for one in file.definitions.values())


def same(one, other):
    """Whether two values are one; of functions that can't be computed."""
    if is_function(one) or is_function(other):
        raise Unknown("whether functions are the same")
    if isinstance(one, Record) and isinstance(other, Record):
        return one.keys() == other.keys() and all(same(one[field], other[field]) for field in one)
    if isinstance(one, tuple) and isinstance(other, tuple):
        return len(one) == len(other) and all(map(same, one, other))
    return one == other


class Work:
    """What one computation asks: `voices` computes definitions in place of their own equations, by module and name; what was asked of it is
    noted in `heard`. A computation of too many steps is given up."""

    def __init__(self, voices):
        self.voices, self.heard, self.left = voices, set(), MOST_STEPS

    def step(self):
        self.left -= 1
        if self.left < 0:
            raise Unknown("too many steps")


class Scope:
    """What names stand for: those that a place binds, a file's own and those that it imports."""

    def __init__(self, imports, work, module=None, bound=None):
        self.imports, self.work, self.module, self.bound = imports, work, module, bound or {}

    def with_names(self, bound):
        return Scope(self.imports, self.work, self.module, {**self.bound, **bound})

    def name(self, name):
        if name in self.bound:
            return self.bound[name]
        file = definitions.files().get(self.module)
        if file and name not in self.imports and (name in file.definitions or has_constructor(file, name)):
            return self.imported(self.module, name)
        return self.imported(*self.imports[name]) if name in self.imports and self.imports[name][1] else self.library(name)

    @staticmethod
    def library(name):
        if name not in LIBRARY:
            raise Unknown(name)
        return LIBRARY[name]

    def imported(self, module, name):
        file = definitions.files().get(module)
        if module.startswith(("std.", "core.")):
            return self.library(name)
        if "declared" in module.split("."):
            return Made((name,))
        if file and name in file.definitions:
            return self.defined(module, name)
        if file and name in file.handed_on:
            return self.imported(*file.handed_on[name])
        if file and has_constructor(file, name):
            return Made((name,))
        raise Unknown(name)

    def defined(self, module, name):
        if (module, name) in self.work.voices:
            self.work.heard.add((module, name))
            return self.work.voices[module, name]
        arity, equations = equations_of(module, name)
        inside = Scope(definitions.files()[module].imports, self.work, module)
        return curried(arity, lambda *given: inside.by_equations(name, equations, given))

    def by_equations(self, name, equations, given):
        for patterns, body in equations:
            bound = {}
            if all(self.matches(pattern, value, bound) for pattern, value in zip(patterns, given)):
                return self.with_names(bound).value(body)
        raise Unknown("no equation of %s" % name)

    def matches(self, pattern, value, bound):
        """Whether a value has the form of a pattern, whose names it binds."""
        if pattern[0] == "name":
            made = self.constructor(pattern)
            if made is None:
                bound[pattern[1]] = value
            return made is None or made == value
        if pattern[0] == "operator":
            return bool(value) and self.matches(pattern[2], value[0], bound) and self.matches(pattern[3], value[1:], bound)
        if pattern[0] == "call" and pattern[1] == ("name", "suc"):
            return value > 0 and self.matches(pattern[2][0], value - 1, bound)
        if pattern[0] == "fields":
            return all(self.matches(part, value[field], bound) for field, part in pattern[2].items())
        head, arguments = (pattern[1], pattern[2]) if pattern[0] == "call" else (pattern, [])
        made = self.constructor(head)
        return (made is not None and value[0] == made[0] and len(value) == len(arguments) + 1
                and all(self.matches(part, one, bound) for part, one in zip(arguments, value[1:])))

    def constructor(self, pattern):
        """The constructor that a name in a pattern is, or None of one that it binds."""
        if pattern[0] == "name" and pattern[1] in ("[]", "zero"):
            return LIBRARY[pattern[1]]
        try:
            found = self.value(pattern)
        except Unknown:
            return None
        return found if isinstance(found, Made) else None

    def value(self, term):
        self.work.step()
        kind = term[0]
        if kind == "value":
            return term[1]
        if kind == "name":
            return self.name(term[1])
        if kind == "field":
            alias = self.imports.get(term[1][1]) if term[1][0] == "name" and term[1][1] not in self.bound else None
            return self.imported(alias[0], term[2]) if alias and alias[1] is None else self.value(term[1])[term[2]]
        if kind == "fields":
            return Record({**(self.value(term[1]) if term[1] else {}), **{field: self.value(part) for field, part in term[2].items()}})
        if kind == "function":
            return curried(len(term[1]), lambda *given: self.with_names(dict(zip(term[1], given))).value(term[2]))
        if kind == "choice":
            return self.value(term[2] if self.value(term[1]) == TRUE else term[3])
        if kind == "operator":
            return self.operation(*term[1:])
        found = self.value(term[1])
        for argument in term[2]:
            found = found(self.value(argument))
        return found

    def operation(self, operator, left, right):
        if operator == "→":
            return not self.value(left) or self.value(right)
        if operator in ("×", "⊎"):
            sides = self.value(left), self.value(right)
            return all(sides) if operator == "×" else any(sides)
        if operator in ("&&", "||"):
            first = self.value(left)
            return first if first == (FALSE if operator == "&&" else TRUE) else self.value(right)
        if operator not in ARITHMETIC:
            raise Unknown(operator)
        return ARITHMETIC[operator](self.value(left), self.value(right))


@lru_cache(None)
def equations_of(module, name):
    """How many arguments a definition takes, and its equations: the patterns, and the body."""
    text = definitions.files()[module].definitions[name].text
    if not re.match(r"(?:abbrev |unfoldable )?(?:pub )?" + re.escape(name) + " :", text[0].removeprefix("abbrev ")) and " : " not in text[0]:
        raise Unknown(name)
    if re.match(r"(?:pub )?(?:record|data) ", text[0]):
        raise Unknown(name)
    found = []
    for line in text[1:]:
        if re.match(re.escape(name) + r"(?= )", line):
            found.append(line)
        elif found and not line.startswith("unfolding"):
            found[-1] += " " + line.strip()
    if not found:
        raise Unknown(name)
    equations = [equation(line[len(name):]) for line in found]
    return len(equations[0][0]), equations


def equation(text):
    reader, patterns = Reader(text), []
    while reader.word() != "=":
        patterns.append(reader.atom())
    reader.next()
    body = reader.term()
    if reader.at != len(reader.words):
        raise Unknown("more stands after an equation")
    return patterns, body
