"""The words of LLVM's text: types, constants, and the parts of each instruction.

A type is ("i", bits), ("p",) for a pointer, ("a", count, type), ("s", types) or ("void",); a constant is a number, or ("@", name, offset).
"""
import re

from .refusals import NotJudged

TOKEN = re.compile(r'[%@]"[^"]*"|[%@!#][-\w.$]*|c?"(?:[^"\\]|\\.)*"|-?\d+|[A-Za-z_][\w.]*|\.\.\.|[][{}()<>,=*:|]')
MODES = {"monotonic": "rlx", "unordered": "rlx", "acquire": "acq", "release": "rel", "acq_rel": "ar", "seq_cst": "sc"}
# Words that say nothing of what is computed here.
SILENT = {"nsw", "nuw", "exact", "inbounds", "volatile", "weak", "noundef", "signext", "zeroext", "dso_local", "tail", "fastcc",
          "nonnull", "noalias", "nocapture", "internal", "private", "unnamed_addr", "local_unnamed_addr", "external", "common",
          "immarg", "writeonly", "readonly", "musttail", "notail", "samesign", "disjoint"}


class Words:
    """The words of a piece of text, read one after the other."""

    def __init__(self, module, text):
        self._module = module
        self._words = [word for word in TOKEN.findall(text) if word not in SILENT]
        self._at = 0

    def next(self):
        self._at += 1
        return self._words[self._at - 1]

    def peek(self):
        return self._words[self._at] if self._at < len(self._words) else ""

    def skip(self, word):
        """Whether the next word is this one, which is passed then."""
        if self.peek() != word:
            return False
        self._at += 1
        return True

    def type(self):
        word = self.next()
        if word == "[":
            count = int(self.next())
            self.next()
            kind = ("a", count, self.type())
            self.next()
        elif word == "{":
            kind = ("s", self._types("}"))
        elif word.startswith("%"):
            text = self._module.types.get(word)
            kind = ("void",) if text is None or text.startswith("{") and self._is_pointed() else Words(self._module, text).type()
        elif re.fullmatch(r"i\d+", word):
            kind = ("i", int(word[1:]))
        elif word == "ptr":
            kind = ("p",)
        else:
            kind = ("void",)
            if self.peek() == "(":
                self._parentheses()
        while self.skip("*"):
            kind = ("p",)
        return kind

    def _is_pointed(self):
        return self.peek() == "*"

    def _types(self, end):
        found = []
        while not self.skip(end):
            found.append(self.type())
            self.skip(",")
        return found

    def _parentheses(self):
        depth = 0
        while True:
            word = self.next()
            depth += (word == "(") - (word == ")")
            if depth == 0:
                return

    def value(self, kind):
        """A register, as its name, or a constant."""
        return self.next() if self.peek().startswith("%") else self.constant(kind)

    def constant(self, kind):
        word = self.next()
        if word in ("true", "false"):
            return int(word == "true")
        if word in ("null", "zeroinitializer", "undef", "poison"):
            return 0
        if re.fullmatch(r"-?\d+", word):
            return int(word) & ((1 << kind[1]) - 1)
        if word.startswith("@"):
            return ("@", word[1:], 0)
        if word.startswith('c"'):
            raw = re.sub(r"\\([0-9A-Fa-f]{2})", lambda found: chr(int(found.group(1), 16)), word[2:-1])
            return [ord(letter) for letter in raw]
        if word in ("[", "{"):
            return self._members("]" if word == "[" else "}")
        if word == "getelementptr":
            self.next()
            parts = self._element()
            self.next()
            return self._moved(*parts)
        if word in ("bitcast", "inttoptr", "ptrtoint"):
            self.next()
            value = self.constant(self.type())
            self.next()
            self.type()
            self.next()
            return value
        return refuse("the constant %s isn't read" % word)

    def _members(self, end):
        found = []
        while not self.skip(end):
            kind = self.type()
            found.append(self.constant(kind))
            self.skip(",")
        return found

    def _moved(self, kind, base, steps):
        """A constant address, moved."""
        at = sum(self._module.size(inner) * signed(index, bits) if is_scaled else index
                 for inner, index, bits, is_scaled in walk(self._module, kind, steps))
        return ("@", base[1], base[2] + at) if isinstance(base, tuple) else at

    def _element(self):
        kind = self.type()
        self.next()
        base = self.value(self.type())
        steps = []
        while self.skip(","):
            self.skip("inrange")
            index = self.type()
            steps.append((index[1], self.value(index)))
        return kind, base, steps

    def _operand(self):
        kind = self.type()
        return kind, self.value(kind)

    def _mode(self):
        if self.skip("syncscope"):
            self._parentheses()
        return MODES.get(self.next() if self.peek() in MODES else None)

    # ---- instructions: what each one's parts are

    def read_alloca(self):
        kind = self.type()
        return self._module.size(kind), kind

    def read_load(self):
        is_atomic = self.skip("atomic")
        kind = self.type()
        self.next()
        _, address = self._operand()
        return self._module.size(kind), address, self._mode() if is_atomic else "na"

    def read_store(self):
        is_atomic = self.skip("atomic")
        kind, value = self._operand()
        self.next()
        _, address = self._operand()
        return self._module.size(kind), value, address, self._mode() if is_atomic else "na"

    def read_cmpxchg(self):
        _, address = self._operand()
        self.next()
        kind, expected = self._operand()
        self.next()
        _, value = self._operand()
        return self._module.size(kind), address, expected, value, self._mode(), self._mode()

    def read_atomicrmw(self):
        operation = self.next()
        _, address = self._operand()
        self.next()
        kind, value = self._operand()
        return self._module.size(kind), operation, address, value, self._mode()

    def read_fence(self):
        return (self._mode(),)

    def read_extractvalue(self):
        kind, value = self._operand()
        self.next()
        return value, int(self.next())

    def read_arithmetic(self):
        kind, one = self._operand()
        self.next()
        return kind[1], one, self.value(kind)

    def read_icmp(self):
        predicate = self.next()
        kind, one = self._operand()
        self.next()
        return (kind[1] if kind[0] == "i" else 64), predicate, one, self.value(kind)

    def read_cast(self):
        kind, value = self._operand()
        to = self.type() if self.skip("to") else kind
        return (kind[1] if kind[0] == "i" else 64), value, (to[1] if to[0] == "i" else 64)

    def read_getelementptr(self):
        return self._element()

    def read_phi(self):
        kind, found = self.type(), {}
        while self.skip("["):
            value = self.value(kind)
            self.next()
            found[self.next()] = value
            self.next()
            self.skip(",")
        return (found,)

    def read_select(self):
        _, condition = self._operand()
        self.next()
        _, one = self._operand()
        self.next()
        _, other = self._operand()
        return condition, one, other

    def read_br(self):
        if self.skip("label"):
            return (self.next(),)
        _, condition = self._operand()
        targets = [word for word in self._words[self._at:] if word.startswith("%")]
        return condition, targets[0], targets[1]

    def read_switch(self):
        kind, value = self._operand()
        self.next()
        self.next()
        default, cases = self.next(), {}
        self.next()
        while not self.skip("]"):
            case = self.constant(self.type())
            self.next()
            self.next()
            cases[case] = self.next()
        return value, default, cases

    def read_ret(self):
        return (None,) if self.peek() in ("void", "") else (self._operand()[1],)

    def read_unreachable(self):
        return ()

    def read_call(self, text):
        """A call: the function's name and the arguments; of an inline assembly its text."""
        if " asm " in text:
            return ("asm", re.search(r'"((?:[^"\\]|\\.)*)"', text).group(1))
        found = re.search(r"([@%][\w.$]+)\(", text)
        if found is None or found.group(1).startswith("@llvm.dbg") or found.group(1).startswith("@llvm.lifetime"):
            return ("nothing", "")
        words = Words(self._module, text[found.end():])
        arguments = []
        while words.peek() and not words.skip(")"):
            kind = words.type()
            if words.skip("align"):
                words.next()
            arguments.append(words.value(kind))
            words.skip(",")
        return (found.group(1), arguments)


def walk(module, kind, steps):
    """The steps of an address: quadruples of a type, an index, its bits, and whether the index counts in sizes of the type; a member of a
    structure is an offset."""
    for number, (bits, index) in enumerate(steps):
        if number == 0:
            yield kind, index, bits, True
        elif kind[0] == "a":
            kind = kind[2]
            yield kind, index, bits, True
        else:
            yield kind, module.offset(kind, index), bits, False
            kind = kind[1][index]


def signed(value, bits):
    return value - (1 << bits) if value >> (bits - 1) else value


def refuse(why):
    raise NotJudged("the source: " + why)
