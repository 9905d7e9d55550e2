"""C11 tests: a file of C with functions P0, P1 and so on, or herd's form, which becomes such a file.

The initial state of a C file is that of its variables. What a thread leaves is in variables too: herd's registers become some, as `P0_r0`,
where the condition or its list of locations names them.
"""
import os
import re
from dataclasses import dataclass

from .refusals import NotJudged

INCLUDES = "#include <stdatomic.h>\n#include <stdbool.h>\n#include <stddef.h>\n#include <stdint.h>\n"
FUNCTION = re.compile(r"\bP(\d+)\s*\(([^()]*)\)\s*(?=\{)")
COMMENT = re.compile(r"/\*.*?\*/|//[^\n]*", re.S)
CONDITION = re.compile(r"(~\s*exists|exists|forall)\b(.*)", re.S)
FACT = re.compile(r"^\s*/\*\s*([A-Z]\w*)=(.*?)\s*\*/\s*$", re.M)


@dataclass(frozen=True)
class Test:
    """A test: its name; its text in C; the functions that its cores run, pairs of a name and the variables with whose addresses it is
    called; its condition, or None; and facts, as `C11=forbidden`."""

    name: str
    text: str
    functions: tuple
    condition: str
    facts: tuple = ()

    def fact(self, key):
        return dict(self.facts).get(key)


def read_test(path, text):
    """The test of a file with this path and text."""
    return read_herd(path, text) if re.match(r"\s*(?:\(\*.*?\*\)\s*)*C[ \t]", text, re.S) else read_c(path, text)


def read_c(path, text):
    """A test in C. Its condition stands in a comment."""
    name = os.path.splitext(os.path.basename(path))[0]
    condition = next((found.group() for comment in COMMENT.findall(text)
                      if (found := CONDITION.match(comment.strip("/* \n\t")))), None)
    facts = tuple(FACT.findall(text))
    return Test(name, text, _functions(COMMENT.sub(" ", text)), condition, facts)


def _functions(text):
    """The functions P0, P1 and so on of a text, with the names of their parameters."""
    found = {}
    for number, parameters in FUNCTION.findall(text):
        names = [re.findall(r"\w+", one)[-1] for one in parameters.split(",") if one.strip() not in ("", "void")]
        found[int(number)] = ("P" + number, tuple(names))
    if sorted(found) != list(range(len(found))) or not found:
        raise NotJudged("the test has no functions P0, P1 and so on")
    return tuple(found[number] for number in range(len(found)))


# ---- herd's form

def read_herd(path, text):
    """A test in herd's form, as C: its variables, with the types that its parameters have; its functions, on the lines where they stand;
    and at the end of each what the condition asks of it."""
    text = re.sub(r"\(\*.*?\*\)", lambda found: "\n" * found.group().count("\n"), text, flags=re.S)
    head = re.match(r'\s*C[ \t]+(\S+)[^\n]*\n((?:\s*"[^"]*"|\s*\w[\w ]*=[^\n{]*\n)*)\s*\{', text)
    if head is None:
        raise NotJudged("this is no test in herd's form of C")
    end = _closing(text, head.end() - 1)
    initial, body = text[head.end():end - 1], text[end:]
    found = re.search(r"^\s*(?:locations\s*\[([^\]]*)\]\s*)?((?:~\s*exists|exists|forall)\b.*)$", body, re.M | re.S)
    listed = re.search(r"^\s*locations\s*\[([^\]]*)\]", body, re.M)
    code = body[:min([one.start() for one in (found, listed) if one] or [len(body)])]
    condition = found.group(2).strip() if found else None
    asked = sorted(set(re.findall(r"\b(\d+):(\w+)", (condition or "") + (listed.group(1) if listed else ""))))
    types, values = _declared(initial), _initial(initial)
    functions = _functions(code)
    for parameters in (one for _, one in FUNCTION.findall(code)):
        for one in parameters.split(","):
            words = re.fullmatch(r"\s*(.*?)\*\s*(?:restrict\s+)?(\w+)\s*", one, re.S)
            if words:
                types.setdefault(words.group(2), words.group(1).strip())
    lines = [INCLUDES.rstrip()]
    lines += ["%s %s%s;" % (kind, name, " = %s" % values[name] if name in values else "") for name, kind in types.items()]
    lines += ["%s P%s_%s;" % (_type_of(code, register), core, register) for core, register in asked]
    lines.append('#line %d "%s"' % (1 + text.count("\n", 0, end), os.path.basename(path)))
    return Test(head.group(1), "\n".join(lines) + "\n" + _observed(code, asked), functions, condition)


def _closing(text, at):
    """The place after the bracket that closes the one at this place."""
    depth = 0
    for place in range(at, len(text)):
        depth += (text[place] == "{") - (text[place] == "}")
        if depth == 0:
            return place + 1
    raise NotJudged("a bracket isn't closed")


def _declared(initial):
    """The types that an initial state names."""
    found = {}
    for one in initial.split(";"):
        words = re.fullmatch(r"\s*((?:\w+\s+)+\**)\s*(\w+)\s*(?:=.*)?", one, re.S)
        if words:
            found[words.group(2)] = words.group(1).strip()
    return found


def _initial(initial):
    """The values that an initial state has for variables; a pointer's is an address."""
    found = {}
    for one in initial.split(";"):
        words = re.fullmatch(r"(?:[\w\s*]*?)\[?(\w+)\]?\s*=\s*(&?[\w-]+)\s*", one.strip(), re.S)
        if words and ":" not in one:
            value = words.group(2)
            found[words.group(1)] = value if re.fullmatch(r"-?\w*\d\w*|&.*", value) and not value[0].isalpha() else "&" + value
        elif one.strip() and ":" in one:
            raise NotJudged("the initial state has a register: %s" % one.strip())
    return found


def _type_of(code, register):
    """The type that a register is declared with, or int."""
    found = re.search(r"\b((?:(?:unsigned|signed|long|short|int|char|_Bool|bool|atomic_\w+|\w+_t)\s+)+)%s\b" % register, code)
    return found.group(1).strip() if found else "int"


def _observed(code, asked):
    """The code, with each function's registers put into variables at its end."""
    for number in sorted({core for core, _ in asked}, key=int):
        found = re.search(r"\bP%s\s*\([^()]*\)\s*\{" % number, code)
        if found is None:
            raise NotJudged("the condition asks for a register of P%s, which there isn't" % number)
        end = _closing(code, found.end() - 1) - 1
        stores = " ".join("P%s_%s = %s;" % (core, register, register) for core, register in asked if core == number)
        code = code[:end] + stores + " " + code[end:]
    return re.sub(r"^(\s*)P(\d+)\s*\(", r"\1void P\2 (", code, flags=re.M)
