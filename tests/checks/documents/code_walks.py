"""The walks of docs/ARCHITECTURE.md against the code: each function that they name is there, in the crate named, and what is indented is called by
the last less indented line above it, directly or through others.

A line has a crate, the functions, an arrow, and what they hand on. `name, Type::name: words` names two functions; a type stands for its methods.
Calls are told by names alone: a function calls those of its crate and of the crates below that its body has a bracket behind. Where such a name is a
trait's, it calls all that implement it.
"""
import collections
import os
import re

from checks.judging import TOP, content
from checks.proofs import code_texts

PAGE = os.path.join(TOP, "docs", "ARCHITECTURE.md")
# A line that begins with its arrow goes on with the one above, and one that begins with `..` says nothing of its own.
LINE = re.compile(r"^( *)(\w+) +(.*?) *(?:─+▶.*)?$")
NAMES = re.compile(r"(?:\w+::)?\w+(?:, (?:\w+::)?\w+)*")

BLOCK = re.compile(r"^(impl|(?:pub )?trait)\b")
IMPLEMENTED = re.compile(r"^impl(?:<.*?>)? ?(?:(\w+)(?:<.*?>)? for )?(\w+)")
DECLARED_TRAIT = re.compile(r"^(?:pub )?trait (\w+)")
DECLARED_TYPE = re.compile(r"^(?:pub(?:\(\w+\))? )?(?:struct|enum|trait|type) (\w+)", re.MULTILINE)
BEGINS = re.compile(r"^( *)(?:pub(?:\(\w+\))? )?(?:const )?(?:extern \"C\" )?fn (\w+)")

# A function: its crate, the type and the trait of its block or None, its name, and the names that its body has a bracket behind.
Function = collections.namedtuple("Function", "crate type trait name calls")


def functions_of(crate, text):
    """The functions of a file; those that a trait declares are without a type."""
    lines, kind, trait, found = text.split("\n"), None, None, []
    for number, line in enumerate(lines):
        if BLOCK.match(line):
            block, declared = IMPLEMENTED.match(line), DECLARED_TRAIT.match(line)
            trait, kind = (declared[1], None) if declared else (block[1], block[2]) if block else (None, None)
        begins = BEGINS.match(line)
        if begins:
            inside = bool(begins[1])
            body = body_of(lines, number, begins[1])
            calls = set(re.findall(r"\b(\w+)(?:::<[^(]*?>)?\(", body))
            found.append(Function(crate, kind if inside else None, trait if inside else None, begins[2], calls))
    return found


def body_of(lines, number, indent):
    """What stands between the brace that opens a function's body and the line that closes it; empty where it has none."""
    body, is_open = [], False
    for line in lines[number:]:
        if is_open and line == indent + "}":
            break
        if is_open:
            body.append(line)
        elif line.endswith("{}") or line.endswith(";") and not line.startswith(indent + "  "):
            break
        else:
            is_open = line == indent + "{" or line.endswith(" {")
    return "\n".join(body)


class Code:
    """All functions of the crates, and which calls which."""

    def __init__(self):
        uses = (line.partition(":") for line in content(os.path.join(TOP, "crates.txt")).splitlines())
        self.below = {crate: {crate, *used.split()} for crate, _, used in uses}
        self.functions = [function for path, text in code_texts.files() for function in functions_of(path.split("/")[0], text)]
        self.by_name = collections.defaultdict(list)
        for at, function in enumerate(self.functions):
            self.by_name[function.name].append(at)

    def named(self, crate, name):
        """The functions of a crate that a walk calls so."""
        kind, _, last = name.rpartition("::")
        return {at for at, function in enumerate(self.functions) if function.crate == crate
                and (function.type == last and not kind or function.name == last and (not kind or kind in (function.type, function.trait)))}

    def called(self, function):
        seen = {at for name in function.calls for at in self.by_name[name] if self.functions[at].crate in self.below[function.crate]}
        traits = {(self.functions[at].trait, self.functions[at].name) for at in seen if self.functions[at].trait}
        return seen | {at for trait, name in traits for at in self.by_name[name] if self.functions[at].trait == trait}

    def reached(self, begins):
        """All that these call, directly or through others."""
        found, left = set(), list(begins)
        while left:
            new = self.called(self.functions[left.pop()]) - found
            found |= new
            left += new
        return found


def walks(text):
    """The lines of each walk: indentation, crate, and the functions with more words, if there are any."""
    section = text[text.index("## Four walks"):].split("\n## ")[0]
    for block in re.findall(r"^```text\n(.*?)^```$", section, re.MULTILINE | re.DOTALL):
        yield [line.groups() for line in map(LINE.match, block.splitlines()) if line]


def faults_of_walk(code, walk):
    faults, above = [], []
    for indent, crate, words in walk:
        names = re.split(r"(?<!:): ", words)[0]
        if not NAMES.fullmatch(names):
            faults.append("%s %s: not the names of functions" % (crate, names))
            continue
        above = [(room, begins) for room, begins in above if room < len(indent)]
        reached = code.reached(above[-1][1]) if above else None
        there = {name: code.named(crate, name) for name in names.split(", ")}
        for name, found in there.items():
            if not found:
                faults.append("%s has no %s" % (crate, name))
            elif reached is not None and not found & reached:
                faults.append("%s of %s isn't called by the line above it" % (name, crate))
        above.append((len(indent), set().union(*there.values())))
    return faults


def faults_of_words(code, text):
    """What stands in backquotes around the walks and is spelled as a name of the code: a function, a type, a trait, a module or a crate has it."""
    prose = re.sub(r"^```text\n.*?^```$", "", text[text.index("## Four walks"):].split("\n## Folders")[0], flags=re.MULTILINE | re.DOTALL)
    names = {name for span in re.findall(r"`([^`\n]+)`", prose) for name in [span] if re.fullmatch(r"(?:\w+::)?\w*(?:[A-Z_]\w*)", span)}
    there = {*code.below} | {function.name for function in code.functions} | {kind for function in code.functions for kind in function[1:3] if kind}
    there |= types() | {os.path.basename(path)[:-len(".rt")] for path, _ in code_texts.files()}
    there |= {"%s::%s" % (place, function.name) for function in code.functions for place in (function.crate, function.type, function.trait) if place}
    return ["nothing in the code is called " + name for name in sorted(names - there)]


def types():
    """The names of the types that the code declares, and of those of the library that a page may name."""
    return {"Option", "Result"} | {name for _, text in code_texts.files() for name in DECLARED_TYPE.findall(text)}


def faults_of_walks():
    code, text = Code(), content(PAGE)
    return [fault for walk in walks(text) for fault in faults_of_walk(code, walk)] + faults_of_words(code, text)
