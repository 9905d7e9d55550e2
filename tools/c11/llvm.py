"""What clang says of C without any optimization, as instructions: its text `-O0 -S -emit-llvm`, read.

Types and constants are those of llvm_words.
"""
import re
from dataclasses import dataclass, field

from .llvm_words import Words, refuse

ARITHMETIC = {"add", "sub", "mul", "and", "or", "xor", "shl", "lshr", "ashr", "udiv", "sdiv", "urem", "srem"}
CASTS = {"zext", "sext", "trunc", "bitcast", "inttoptr", "ptrtoint", "freeze"}


@dataclass
class Line:
    """One instruction: its operation, what it computes, its parts, and its line of C."""

    operation: str
    result: str
    parts: tuple
    line: int


@dataclass
class Function:
    """A function: the names of its parameters, and its blocks by label, in their order."""

    parameters: list
    blocks: dict = field(default_factory=dict)


class Module:
    """A module: functions by name; globals by name, as pairs of a type and the bytes' parts, triples of offset, size and constant."""

    def __init__(self, text):
        self.types, self.functions, self.globals = {}, {}, {}
        self._lines = {found.group(1): int(found.group(2)) for found in re.finditer(r"^(!\d+) = .*?DILocation\(line: (\d+)", text, re.M)}
        for found in re.finditer(r"^(%[\w.]+|%\"[^\"]*\") = type (.*)$", text, re.M):
            self.types[found.group(1)] = None if found.group(2) == "opaque" else found.group(2)
        for found in re.finditer(r"^@([\w.$]+) = (.*?)\b(?:global|constant) (.*)$", text, re.M):
            self._read_global(found.group(1), found.group(2), found.group(3))
        for found in re.finditer(r"^define (.*?)@([\w.$]+)\((.*?)\)[^{\n]*\{\n(.*?)^\}", text, re.M | re.S):
            self.functions[found.group(2)] = self._read_function(found.group(3), found.group(4))

    # ---- sizes

    def size(self, kind):
        if kind[0] == "i":
            return {1: 1, 8: 1, 16: 2, 32: 4, 64: 8}.get(kind[1]) or refuse("a type of %d bits isn't read" % kind[1])
        if kind[0] == "p":
            return 8
        if kind[0] == "a":
            return kind[1] * self.size(kind[2])
        if kind[0] == "s":
            return _up(self.offset(kind, len(kind[1])), self.align(kind))
        return refuse("a type of another kind isn't read")

    def align(self, kind):
        return max(map(self.align, kind[1]), default=1) if kind[0] == "s" else self.align(kind[2]) if kind[0] == "a" else self.size(kind)

    def offset(self, kind, member):
        """Where a member of a structure lies; the one after the last is its end."""
        at = 0
        for number, inner in enumerate(kind[1]):
            at = _up(at, self.align(inner))
            if number == member:
                return at
            at += self.size(inner)
        return at

    # ---- parts of the text

    def _read_global(self, name, before, text):
        if "thread_local" in before:
            refuse("%s is of each thread" % name)
        words = Words(self, text)
        if "external" in before.split():
            return
        kind = words.type()
        self.globals[name] = kind, list(self._flat(kind, words.constant(kind), 0))

    def _flat(self, kind, value, at):
        """The words of a constant, with their places."""
        if value == 0 and kind[0] in "as":
            return
        if kind[0] == "a":
            size = self.size(kind[2])
            for number, one in enumerate(value):
                yield from self._flat(kind[2], one, at + number * size)
        elif kind[0] == "s":
            for number, one in enumerate(value):
                yield from self._flat(kind[1][number], one, at + self.offset(kind, number))
        else:
            yield at, self.size(kind), value

    def _read_function(self, parameters, body):
        names = re.findall(r"(%[\w.]+)(?:,|$)", parameters)
        function, label = Function(names), "%" + str(len(names))
        function.blocks[label] = []
        for text in re.sub(r"\[\n(.*?)\n\s*\]", lambda found: "[ " + found.group(1).replace("\n", " ") + " ]", body,
                           flags=re.S).split("\n"):
            text = text.split(" ; ")[0].strip() if not text.lstrip().startswith(";") else ""
            named = re.match(r'([\w.]+|"[^"]*"):', text)
            if named:
                label = "%" + named.group(1)
                function.blocks[label] = []
            elif text:
                function.blocks[label].append(self._read_line(text))
        return function

    def _read_line(self, text):
        debug = re.search(r", !dbg (!\d+)", text)
        line = self._lines.get(debug.group(1)) if debug else None
        bare = re.sub(r", ![\w.]+ !\d+", "", text)
        found = re.match(r"(%[\w.]+) = (.*)$", bare)
        result, rest = (found.group(1), found.group(2)) if found else (None, bare)
        words = Words(self, rest)
        operation = words.next()
        reader = getattr(words, "read_" + operation, None)
        if operation in ARITHMETIC:
            parts = words.read_arithmetic()
        elif operation in CASTS:
            parts = words.read_cast()
        elif operation == "call":
            parts = words.read_call(rest)
        elif reader is None:
            return Line("refused", result, ("%s isn't read" % rest.split(",")[0],), line)
        else:
            parts = reader()
        return Line(operation, result, parts, line)


def _up(at, align):
    return (at + align - 1) // align * align
