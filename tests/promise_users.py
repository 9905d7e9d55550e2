#!/usr/bin/env python3
"""Holds that each promise has a user: what nothing takes up could be emptied, and no proof would notice.

    tests/promise_users.py                   each field and clause that nothing takes up; the last line is 'N passed, M failed'
    tests/promise_users.py --list            each of them with what takes it up
    tests/promise_users.py --renew TREE..    writes tests/data/silent_users.list anew, from what checks left in these trees, and shows what that
                                             changes: read it

What is looked at are the fields of the records that a promise of the pages reaches (PAGES of tests/believed.py), and the clauses of the
public functions that these pages name, with a name or without. Such a thing is taken up

- by a proof, a lemma or a definition that says `x.field`, `c.call.ensures.clause`, or `c.call.ensures` of a clause without a name
  (tests/checks/proofs/proof_texts.py, by the texts alone);
- by a function of `promises` that makes the call, and says the clause again;
- by a proof that a tactic found, which says nothing in the text. Then tests/data/silent_users.list names the function whose proof it
  is: it has to stand, and to call what the clause is of. What a check leaves of its modules names it (tests/checks/proofs/checked_modules.py).
  What the last release's list had and this one lacks has a user that its text shows, or a line '# gone: NAME: WHY' of the list says why.

Not asked for are a field that a later field of its record speaks of (that one is asked for), and the clauses of worked examples and of
`promises`, which are users themselves.
"""
import os
import re
import sys
from functools import lru_cache

sys.dont_write_bytecode = True
from checks.judging import TOP
from checks.proofs import checked_modules, code_texts, proof_texts, statements
from checks.proofs.renewed_lists import RenewedList

import believed

SILENT = RenewedList("silent_users.list", " = ")
# Users are themselves the worked examples, and the functions of `promises`, with the definitions that they alone use.
USERS_THEMSELVES = re.compile(r"worked_examples/|promises/")

# Nothing in Rattle calls the page's exports: the edits of tests/data/edits/page_exports, which the prover has to refuse, hold them.
HELD_BY_EDITS = "page_exports"
WORKED = re.compile(r"worked_|numbers_of_")
# What a check's modules call the clause of a function that has one alone, without a name.
UNNAMED = "1"
METHODS = re.compile(r"`(\w+)`'s methods")
IMPLEMENTED = re.compile(r"^impl(?:<[^\n]*?>)? ?(?:\w+ for )?(\w+)", re.M)


class Clause:
    """A clause of a public function: its file below crates/, its type if it is a method, the function, the clause's name, empty where it
    has none, and what it says."""

    def __init__(self, path, kind, function, label, says):
        self.path, self.function, self.label, self.says = path, function, label, says
        self.crate = path.split("/")[0]
        self.name = " ".join([path, function]) + "." * bool(label) + label
        file = path[:-len(".rt")].partition("/src/")[2]
        place = [file.replace("/", ".")] * (file != "lib") + [kind] * bool(kind) + [function]
        self.proofs = ".".join(["Rattle-%s-proofs" % self.crate, *place])

    def text_key(self):
        return "call", self.path, self.function, self.label


class Field:
    """A field of a record of definitions that promises reach."""

    def __init__(self, module, record, field):
        self.module, self.record, self.field = module, record, field
        crate, _, self.place = module.partition(".specs.")
        self.name = "%s/specs/%s.antt %s.%s" % (crate, self.place.replace(".", "/"), record, field)
        self.qualified = "Rattle-%s-specs.%s.%s" % (crate, self.place, record)

    def text_key(self):
        return self.module, self.record, self.field


def speaks_of(types, name):
    return any(re.search(r"(?<![\w.'])" + re.escape(name) + r"(?![\w'])", " ".join(words)) for words in types)


@lru_cache(None)
def fields():
    found = []
    for module, record in sorted(believed.all_believed() & set(proof_texts.records())):
        if USERS_THEMSELVES.match(module.replace(".", "/")):
            continue
        types = proof_texts.records()[module, record][1]
        names = list(types)
        later = {name: [types[other] for other in names[at + 1:]] for at, name in enumerate(names)}
        found += [Field(module, record, name) for name in names if not speaks_of(later[name], name)]
    return found


def named_in_pages():
    """The words that these pages have in backquotes, and the types whose methods they speak of."""
    text = believed.promising_text()
    return {word for span in re.findall(r"`([^`\n]+)`", text) for word in re.findall(r"\w+", span)}, set(METHODS.findall(text))


@lru_cache(None)
def passed_on(crate):
    """What a crate's root passes on to others: its public modules, and the names that it brings in for them."""
    root = os.path.join(TOP, "crates", crate, "src", "lib.rt")
    if not os.path.exists(root):
        return set()
    with open(root, encoding="utf-8") as file:
        text = file.read()
    names = {word for line in re.findall(r"^pub use ([^;]*);", text, re.M) for word in re.findall(r"\w+", line)}
    return {"lib", *names, *re.findall(r"^pub mod (\w+);", text, re.M)}


@lru_cache(None)
def functions():
    """Each function that other crates can call: its file below crates/, its type if it is a method, its name, clauses and body."""
    found = []
    for path, text in code_texts.files():
        crate, _, module = path[:-len(".rt")].split("/", 2)
        for function in code_texts.FUNCTION.finditer(text):
            blocks = IMPLEMENTED.findall(text[:function.start()]) if function.group(1) else []
            clauses = {label: statements.tokens(says) for label, says in proof_texts.ENSURES.findall(function.group(3))}
            kind = blocks[-1] if blocks else ""
            if passed_on(crate) & {module.partition("/")[0], kind}:
                found.append((path, kind, function.group(2), clauses, function.group(4) or ""))
    return found


@lru_cache(None)
def clauses():
    words, types = named_in_pages()
    return [Clause(path, kind, name, label, says) for path, kind, name, said, _ in functions() for label, says in said.items()
            if (name in words or kind in types) and not USERS_THEMSELVES.match(path) and not WORKED.match(name)]


# ---- users


def without_names(words, own):
    """The words of a clause, with one name for what the function is called on, and with limits as numbers."""
    return ["it" if word in own else word for word in words]


@lru_cache(None)
def said_again():
    """The clauses that functions of `promises` say of one call: by the name of what is called, pairs of a clause's words and the user."""
    found = {}
    for path, _, name, said, body in functions():
        call = re.search(r"(?:(\w+)(?:::\w+)?\.)?(\w+)\(", body.strip()) if path.startswith("promises/") else None
        if call:
            user = "%s::%s" % (path[:-len(".rt")].replace("/src/", "::").replace("/", "::"), name)
            for words in said.values():
                found.setdefault(call.group(2), []).append((without_names(words, {call.group(1)}), user))
    return found


def user_in_promises(clause):
    words = without_names(clause.says, {"self"})
    return next((user for again, user in said_again().get(clause.function, ()) if again == words), None)


@lru_cache(None)
def silent():
    """What the list says: by a thing's name, its user."""
    return SILENT.said()


def stands(user, thing):
    """Whether the function or the file that the list names stands, and speaks of what the thing is of."""
    if user.endswith(".antt"):
        path = os.path.join(TOP, "crates", user)
        if not os.path.exists(path):
            return False
        with open(path, encoding="utf-8") as file:
            return "." + (thing.field if isinstance(thing, Field) else thing.label or "ensures") in file.read()
    crate, _, name = user.partition("::")
    for _, text in code_texts.files_of(crate):
        begins = r"^( *)(?:pub(?:\(\w+\))? )?(?:const )?fn " + re.escape(name.rpartition("::")[2])
        for function in re.finditer(begins + r"\b.*?^\1\}", text, re.M | re.S):
            if isinstance(thing, Field) or re.search(r"\b" + re.escape(thing.function) + r"\b", function.group()):
                return True
    return False


def user_in_text(thing):
    """What says that it takes the thing up, or None."""
    if thing.name.startswith(HELD_BY_EDITS + "/"):
        edits = os.path.join("tests", "data", "edits", HELD_BY_EDITS)
        return edits if os.listdir(os.path.join(TOP, edits)) else None
    by_text = proof_texts.taken_up().get(thing.text_key())
    return by_text[0] if by_text else user_in_promises(thing) if isinstance(thing, Clause) else None


def user_of(thing):
    """What takes the thing up, or None."""
    said = user_in_text(thing)
    if said:
        return said
    named = silent().get(thing.name)
    return named if named and stands(named, thing) else None


# ---- the list of silent users


def function_of(module):
    """The function whose proof a checked module is, or the file of lemmas or definitions."""
    library, *parts = module.split(".")
    _, crate, kind = library.split("-")
    if parts[-1] in ("Proof", "Answers", "Invariants"):
        return "::".join([crate, *parts[:-1]])
    return "%s/%s/%s.antt" % (crate, kind, "/".join(parts))


class Taking:
    """What one checked module takes up."""

    def __init__(self, module):
        self.user, self.built = function_of(module.name), module.built()
        self.projected, self.ensured = module.projected(), module.ensured()
        self.fields, self.clauses = {}, {}
        for name in {name for names in module.rests_on for name in names.split()}:
            whole, _, last = name.rpartition(".")
            if whole.endswith(".Reads") and last.startswith("ensures-"):
                function = whole[:-len(".Reads")]
                if function != module.name.rpartition(".")[0]:
                    self.clauses.setdefault(last[len("ensures-"):-len("-read")], set()).add(function)
            elif last in self.projected:
                self.fields.setdefault(last, []).append(whole)

    def takes_field(self, thing):
        """The record is the only one with such a field that the module rests on, or it builds none with such a field."""
        records = self.fields.get(thing.field, ())
        own_file = thing.name.startswith(self.user)
        return not own_file and thing.qualified in records and (len(records) == 1 or thing.field not in self.built)

    def takes_clause(self, thing):
        """The clause is said of what a call ensures; and the function is the only one with such a clause that is called there, or the
        only one of its name, and the step is named for it."""
        called = self.clauses.get(thing.label or UNNAMED, ())
        if thing.proofs not in called:
            return False
        alike = [name for name in called if name.endswith("." + thing.function)]
        steps = {step for step, label in self.ensured if label == thing.label}
        named = re.compile(r"(?:in_ok-|in_err-)?%s(?:-.*)?" % thing.function)
        return bool(steps) and (len(called) == 1 or len(alike) == 1 and any(named.fullmatch(step) for step in steps))

    def may_take(self, thing):
        """The module calls the function, and projects something of the clause's name."""
        return (isinstance(thing, Clause) and thing.proofs in self.clauses.get(thing.label or UNNAMED, ())
                and (thing.label or "ensures") in self.projected)

    def takes(self, thing):
        return self.takes_field(thing) if isinstance(thing, Field) else self.takes_clause(thing)


def renew(trees):
    """Writes the list, from what checks left: a user for each thing that no text takes up."""
    wanted = {thing.name: thing for thing in [*fields(), *clauses()] if not user_in_text(thing)}
    found, perhaps = {}, {}
    for tree in trees:
        for module in checked_modules.modules(tree):
            taking = Taking(module)
            for name, thing in wanted.items():
                if name not in found and taking.takes(thing):
                    found[name] = taking.user
                elif name not in perhaps and taking.may_take(thing):
                    perhaps[name] = taking.user
    rest = [name for name in wanted if name not in found]
    said = {name: silent()[name] for name in rest if name in silent() and stands(silent()[name], wanted[name])}
    found.update({name: said.get(name) or perhaps[name] for name in rest if name in said or name in perhaps})
    SILENT.renew(sorted(found.items()))
    for name in rest:
        print("no module says so for certain: %s = %s" % (name, found.get(name, "nothing")))
    print("%d have a user that says nothing in its text, %d have none" % (len(found), len(wanted) - len(found)))


def main():
    if sys.argv[1:2] == ["--renew"]:
        return renew(sys.argv[2:] or [TOP])
    things = [*fields(), *clauses()]
    users = {thing.name: user_of(thing) for thing in things}
    if sys.argv[1:] == ["--list"]:
        for thing in things:
            print("%s = %s" % (thing.name, users[thing.name] or "nothing"))
        return None
    unused = [thing.name for thing in things if not users[thing.name]]
    gone = sorted(set(silent()) - set(users))
    lost = SILENT.lost({thing.name for thing in things if user_in_text(thing)})
    for name in unused:
        print("FAILED nothing takes up %s" % name)
    for name in gone:
        print("FAILED tests/data/silent_users.list names %s, which is gone" % name)
    for fault in lost:
        print("FAILED " + fault)
    print("%d fields, %d clauses; what takes up %d of them says nothing in its text" % (len(fields()), len(clauses()), len(silent())))
    failed = len(unused) + len(gone) + len(lost)
    print("%d passed, %d failed" % (len(things) - len(unused), failed))
    sys.exit(1 if failed else 0)


if __name__ == "__main__":
    main()
