"""What the proofs take up, by their texts: each `x.field` whose `x` is known to be of a record, and each `c.call.ensures.clause`.

A lemma says what its arguments are, and a clause of it names them: `due : (t : Litmus) → IsTest t → ..` and `due t h = .. h.words ..`
give `h` the record IsTest. From there it goes on along `h.words`, `(lemma x y).field`, `let x = .. in`, the arguments of constructors
and what a call ensures. What isn't known so is left out: nothing is taken up by a guess.
"""
import os
import re
from functools import lru_cache

from checks.judging import TOP


from . import code_texts, definitions
from .statements import OPEN, SHUT, WORD, arguments, atoms, bare, closing, parted, tokens

SIGNATURE = re.compile(r"^( *)(?:pub )?(?:\| )?((?:abbrev |unfoldable )?(?:pub )?)(" + WORD + r") : ")
CLAUSE = re.compile(r"^( *)(" + WORD + r")((?: [^=]*)?) =(?= |$)")
# What an answer calls the record of all that is known at its goal.
CONTEXTS = ("c", "given")
RESERVED = {"use", "let", "in", "elim", "record", "data", "module", "mod", "rw", "where", "abbrev", "pub"}
# What stands after a definition's name in the head of an equation.
HEAD = re.compile(r"(?: [^=→:]*)? = ")
BLOCK = re.compile(r" *(module|(?:pub )?data|(?:pub )?record) ")
is_word, is_field = re.compile(WORD).fullmatch, re.compile(r"\." + WORD).fullmatch
LET = re.compile(r"\blet (" + WORD + r")( : )?")
FUNCTION = re.compile(r"^(?:    )?pub(?:\(crate\))? (?:const )?(?:extern \"C\" )?fn (\w+)\b(.*?)^(?:    )?(?:\{|\}$)", re.M | re.S)
ENSURES = re.compile(r"^ +ensures (?:(\w+) )?\{ (.*?) \}(?=\n +(?:ensures|requires)|\n *$|\n *\{|\s*\Z)", re.M | re.S)


class Scope:
    """What the names of one file stand for: definitions and lemmas of this file, and those that it imports."""

    def __init__(self, module, imports):
        self.module, self.imports = module, imports

    def place(self, name):
        """The module and the name that this name stands for."""
        first, _, rest = name.partition(".")
        if first in self.imports:
            module, original = self.imports[first]
            return (module, original or rest)
        return (self.module, name)


@lru_cache(None)
def records():
    """The fields of each record of the definitions: by its module and name the scope, and each field's type in words."""
    found = {}
    for module, file in definitions.files().items():
        scope = Scope(module, file.imports)
        for name, definition in file.definitions.items():
            if "record" in definition.text[0].split()[:3]:
                body, fields = "\n".join(definition.text[1:]), {}
                for piece in re.split(r"^  (?:pub )?(?=" + WORD + r" :)", body, flags=re.M)[1:]:
                    field, _, kind = piece.partition(" :")
                    fields[field] = tokens(kind)
                found[module, name] = (scope, fields)
    return found


@lru_cache(None)
def abbreviations():
    """What each other definition with one equation stands for: by its module and name the scope, and its words."""
    found = {}
    for module, file in definitions.files().items():
        for name, definition in file.definitions.items():
            body = " ".join(definition.text)
            ends = ends_of_heads(name, body)
            if len(ends) == 1 and (module, name) not in records():
                found[module, name] = (Scope(module, file.imports), tokens(body[ends[0]:]))
    return found


def ends_of_heads(name, body):
    """Where the heads of this name's equations end in a text, each with its ` = `."""
    found, at, end = [], body.find(name), -1
    while at >= 0:
        head = HEAD.match(body, at + len(name)) if at == 0 or at > end and body[at - 1].isspace() else None
        if head:
            end = head.end()
            found.append(end)
        at = body.find(name, at + 1)
    return found


@lru_cache(None)
def handed_on(module):
    """What a crate's vocabulary, of proofs or of definitions, hands on from other files: the module and the name there, by the name."""
    found = {}
    if re.search(r"\.(?:proofs|specs)\.\w*Vocabulary$", module):
        with open(os.path.join(TOP, "crates", *module.split(".")) + ".antt", encoding="utf-8") as file:
            lines = [definitions.IMPORT.match(line.removeprefix("unfoldable ").strip()) for line in file if "pub use " in line]
        for line in lines:
            found.update({name.strip(): (line.group(2), name.strip()) for name in line.group(3).split(",")})
    return found


class Source:
    """A file of proofs or of definitions: its module, what it imports, its text."""

    def __init__(self, path):
        self.path = os.path.relpath(path, TOP)
        parts = self.path[:-len(".antt")].split(os.sep)
        self.module = ".".join(parts[1:])
        with open(path, encoding="utf-8") as file:
            lines = [line.split(" -- ")[0] for line in file.read().split("\n") if not line.lstrip().startswith("--")]
        self.imports, self.lines = {}, []
        for line in lines:
            found = definitions.IMPORT.match(line.strip()) if line.startswith(("use ", "pub use ")) else None
            if not line.startswith(("use ", "pub use ")):
                self.lines.append(line)
            elif found and found.group(3) is None:
                self.imports[found.group(4) or found.group(2).split(".")[-1]] = (found.group(2), None)
            elif found:
                for item in found.group(3).split(","):
                    name, _, other = item.strip().partition(" as ")
                    self.imports[other or name] = handed_on(found.group(2)).get(name, (found.group(2), name))
        self.scope = Scope(self.module, self.imports)
        self.blocks = blocks(self.lines)


@lru_cache(None)
def sources():
    found = []
    for crate in sorted(os.listdir(os.path.join(TOP, "crates"))):
        for room in ("specs", "proofs"):
            for folder, _, names in sorted(os.walk(os.path.join(TOP, "crates", crate, room))):
                found += [Source(os.path.join(folder, name)) for name in sorted(names) if name.endswith(".antt") and name != "Lib.antt"]
    return found


def blocks(lines):
    """The lines, put together where one goes on: pairs of an indent and a text that begins with a signature or a clause."""
    found = []
    for line in lines:
        begins = (SIGNATURE.match(line) or CLAUSE.match(line)) and line.split()[0] not in ("let", "record", "elim", "|", "rw")
        if begins or BLOCK.match(line):
            found.append([len(line) - len(line.lstrip()), line.strip()])
        elif found:
            found[-1][1] += " " + line.strip()
    return found


@lru_cache(None)
def lemmas():
    """The statements of lemmas and of constructors: by the module and the name the scope, and the words."""
    found = {}
    for source in sources():
        for _, text in source.blocks:
            signature = SIGNATURE.match(text)
            if signature:
                found[source.module, signature.group(3)] = (source.scope, tokens(text[signature.end():]))
    for module, file in definitions.files().items():
        for definition in file.definitions.values():
            if "data" in definition.text[0].split()[:2]:
                for piece in re.split(r"^  (?=" + WORD + r" :)", "\n".join(definition.text[1:]), flags=re.M)[1:]:
                    name, _, kind = piece.partition(" : ")
                    found[module, name] = (Scope(module, file.imports), tokens(kind))
    return found


@lru_cache(None)
def contracts():
    """The clauses of each function, by its name: for each function of that name the crate, the file, and its clauses by name."""
    found = {}
    for place, text in code_texts.files():
        imports = {}
        for line in text.split("\n"):
            use = definitions.CLAUSE_USE.match(line.strip())
            for item in use.group(2).split(",") if use else ():
                original, _, other = item.strip().partition(" as ")
                imports[other or original] = (use.group(1), original)
        for function in FUNCTION.finditer(text):
            clauses = {label or "": tokens(says) for label, says in ENSURES.findall(function.group(2))}
            found.setdefault(function.group(1), []).append((place, Scope(None, imports), clauses))
    return found


class Typing:
    """What is known of names at one place of a proof: a statement in words, with the scope that its names are read in."""

    def __init__(self, source):
        self.source, self.taken = source, set()

    # ---- statements

    def said(self, kind, depth=0):
        """What a statement says in the end: the record's module and name, or a pair's two sides, or None."""
        if kind is None or depth > 12:
            return None
        scope, words = kind
        words = bare(arguments(bare(words))[1])
        if len(parted(words, "→")) > 1:
            return self.said((scope, words), depth + 1)
        sides = parted(words, "×")
        if len(sides) > 1:
            return "pair", scope, sides[0], [word for side in sides[1:] for word in ["×", *side]][1:]
        if len(parted(words, "≡")) > 1 or len(parted(words, "⊎")) > 1 or not words:
            return None
        if len(parted(words, "↔")) == 2:
            left, right = parted(words, "↔")
            return "pair", scope, [*left, "→", *right], [*right, "→", *left]
        place = scope.place(self.whole(words))
        if place in records():
            return "record", place
        if place in abbreviations():
            return self.said(abbreviations()[place], depth + 1)
        return None

    @staticmethod
    def whole(words):
        name = words[0]
        for word in words[1:]:
            if not is_field(word):
                break
            name += word
        return name

    def field(self, kind, name):
        """What a field of what this statement says is, and notes that it was taken up."""
        said = self.said(kind)
        if said is None:
            return None
        if said[0] == "pair":
            side = {".0": said[2], ".1": said[3]}.get(name)
            if side and side[0] == "(" and ":" in side[:closing(side, 0)] and closing(side, 0) == len(side) - 1:
                side = side[side.index(":") + 1:-1]
            return side and (said[1], side)
        scope, fields = records()[said[1]]
        if name[1:] not in fields:
            return None
        self.taken.add((*said[1], name[1:]))
        return scope, fields[name[1:]]

    # ---- names

    def statement_of(self, name, known):
        if name in known:
            return known[name]
        return lemmas().get(self.source.scope.place(name))

    def ensured(self, words):
        """What is ensured by the call that `c.call.ensures` names, with its clause; and how many words were read."""
        if len(words) < 3 or words[2] != ".ensures":
            return None, 0
        step = words[1][1:]
        clause = words[3][1:] if len(words) > 3 and words[3].startswith(".") else ""
        found = [(place, scope, clauses) for name in {step, step.split("-")[0]} for place, scope, clauses in contracts().get(name, ())
                 if clause in clauses or "" in clauses and len(clauses) == 1]
        if len(found) != 1:
            return None, 0
        place, scope, clauses = found[0]
        label = clause if clause in clauses else ""
        self.taken.add(("call", place, step.split("-")[0] if step not in contracts() else step, label))
        return (scope, clauses[label]), 4 if label else 3

    def value(self, words, known):
        """What an expression is, as far as it is known: a statement."""
        words = bare(words)
        if not words:
            return None
        if words[0] == "(":
            end = closing(words, 0)
            kind, rest = self.value(words[1:end], known), words[end + 1:]
        elif words[0] in CONTEXTS and words[0] not in known:
            kind, read = self.ensured(words)
            rest = words[read or 1:]
        elif is_word(words[0]) and words[0] not in RESERVED:
            kind, rest = self.statement_of(words[0], known), words[1:]
        else:
            return None
        for word in rest:
            if not word.startswith(".") or word == ".":
                break
            kind = self.field(kind, word)
        return kind

    def read(self, words, known):
        """Goes through an expression, and notes each field that is taken up in it."""
        if not any(map(is_field, words)):
            return
        at = 0
        while at < len(words):
            end = closing(words, at) if words[at] == "(" else at
            after = end + 1
            while after < len(words) and words[after].startswith(".") and words[after] != ".":
                after += 1
            if after > end + 1 and (words[at] == "(" or is_word(words[at])):
                self.value(words[at:after], known)
            at += 1

    # ---- clauses

    def bind(self, patterns, statement, known):
        """Gives the names of a clause's patterns the types of the arguments in turn."""
        if statement is None:
            return
        scope, words = statement
        for pattern, (_, kind) in zip(patterns, arguments(words)[0]):
            pattern = bare(pattern)
            kind = bare(kind)
            if len(pattern) == 1 and is_word(pattern[0]):
                known[pattern[0]] = (scope, kind)
            elif len(pattern) == 2 and pattern[0] == "Some" and kind[:1] == ["Option"]:
                known[pattern[1]] = (scope, kind[1:])
            elif len(pattern) > 2 and pattern[1] == "∷" and kind[:1] == ["List"]:
                known[pattern[0]] = (scope, kind[1:])
            elif len(pattern) > 1:
                self.bind(atoms(pattern[1:]), lemmas().get(self.source.scope.place(pattern[0])), known)

    def goal(self, name):
        """The clause that an answer of this name is for, of the function whose folder the file stands in."""
        parts = self.source.path.split(os.sep)
        label = name.partition("returns-clause-")[2]
        for place, scope, clauses in contracts().get(parts[-2], ()):
            if place.split("/")[0] == parts[1] and (label in clauses or not label and len(clauses) == 1):
                return scope, clauses[label] if label in clauses else next(iter(clauses.values()))
        return None

    def lets(self, text, known):
        for found in LET.finditer(text):
            rest = tokens(text[found.end():])
            if found.group(2):
                kind = parted(rest, "=")[0]
                known[found.group(1)] = (self.source.scope, kind)
                continue
            depth, at, brackets = 0, 1, 0
            while at < len(rest):
                brackets += (rest[at] in OPEN) - (rest[at] in SHUT)
                depth += (rest[at] == "let") - (rest[at] == "in")
                if depth < 0 or brackets < 0:
                    break
                at += 1
            known[found.group(1)] = self.value(rest[1:at], known)

    def go(self):
        """Goes through the file, and answers what it takes up."""
        frames, statements = [], {}
        for indent, text in self.source.blocks:
            while frames and frames[-1][0] >= indent:
                frames.pop()
            known = dict(frames[-1][1]) if frames else {}
            if text.startswith("module "):
                for name, kind in arguments([*tokens(text[7:].rpartition(" where")[0])[1:], "→", "x"])[0]:
                    known[name] = (self.source.scope, kind)
                frames.append((indent, known))
                continue
            signature = SIGNATURE.match(text)
            if signature:
                statement = (self.source.scope, tokens(text[signature.end():]))
                statements[signature.group(3)] = statement
                named = {name: (self.source.scope, kind) for name, kind in arguments(statement[1])[0] if name}
                self.read(statement[1], {**known, **named})
                if frames:
                    frames[-1][1][signature.group(3)] = statement
                continue
            clause = CLAUSE.match(text)
            if not clause:
                continue
            statement = known.get(clause.group(2)) or statements.get(clause.group(2))
            self.bind(atoms(tokens(clause.group(3))), statement, known)
            body = text[clause.end():]
            if statement and statement[1][:1] == ["goal"] and "λ " in body:
                names = body[body.index("λ ") + 2:].partition(".")[0]
                self.bind(atoms(tokens(names)), self.goal(clause.group(2)), known)
            for name, kind in re.findall(r"[(λ] ?\(?(" + WORD + r") : ([^()]*)\)", body):
                known.setdefault(name, (self.source.scope, tokens(kind)))
            self.lets(body, known)
            self.read(tokens(body), known)
            frames.append((indent, known))
        return self.taken


@lru_cache(None)
def taken_up():
    """The files that take up each field and each clause: by (module, record, field), and by (\"call\", file, function, clause)."""
    found = {}
    for source in sources():
        for item in Typing(source).go():
            found.setdefault(item, []).append(source.path)
    return found
