#!/usr/bin/env python3
"""Holds each worked example by a second voice: what it says is said once more, and computed once more in plain Python.

    tests/worked_examples.py             the last line is 'N passed, M failed'
    tests/worked_examples.py --renew     writes tests/data/worked.list anew, from the examples as they stand, and shows what that changes: read it

A worked example is a clause of a public function whose name begins with `worked_` or `numbers_of_`, or that shows what a law's premises are
for. Nothing rests on it: emptied, or with another numeral, it would be proved all the same. So tests/data/worked.list says each once more, with
its texts, tests, orders and choices written out: what a call is given, and what it comes to. An example that says otherwise than the list,
or that the list or the crates lack, is a fault. So is one that the last release's list had, if it is gone and no line '# gone: NAME: WHY' of the
list says why.

Then each is computed. What the second program (tests/reference) knows is asked of it: which test a text spells and what it is told, runs, orders,
candidates. All else follows the definitions' own equations (tests/checks/proofs/computed_terms.py). An example that comes to something else is a
fault. Of what can't be computed, as what a quantifier says, the words alone are held; how many these are is printed.
"""
import re
import sys
import threading

sys.dont_write_bytecode = True
from checks.proofs import code_texts, computed_terms, definitions, proof_texts, reference_values
from checks.proofs.renewed_lists import RenewedList

LIST = RenewedList("worked.list", ": ")
WORKED = re.compile(r"worked_|numbers_of_|premises_are_met|split_premises_are_met|(?:split_)?laws_need_their_premises")
# What says that a value isn't computed: no line says how, or a part is asked for that the second program doesn't tell.
NOT_COMPUTED = (computed_terms.Unknown, KeyError, IndexError, TypeError)
# Operators whose two sides are shown apart in the list.
SIDES = ("≡", "≢", "<", "≤")


class Example:
    """A worked example: where it stands, its name, and what it says, in words; and of which definitions the second program said their value."""

    def __init__(self, path, name, says, imports):
        self.name, self.says, self.imports, self.heard = "%s %s" % (path, name), " ".join(says.split()), imports, set()

    def said(self):
        """What it says, with all that it is given written out; where that can't be computed, its words."""
        try:
            return said_of(computed_terms.Scope(self.imports, computed_terms.Work({})), computed_terms.read(self.says))
        except NOT_COMPUTED:
            return self.says

    def comes_true(self):
        """Whether it is so by the second program and the definitions' equations, or by these alone; None where that can't be computed."""
        for voices in (reference_values.VOICES, {}):
            work = computed_terms.Work(voices)
            try:
                found = bool(computed_terms.Scope(self.imports, work).value(computed_terms.read(self.says)))
                self.heard = work.heard
                return found
            except NOT_COMPUTED:
                pass
        return None


def shown_argument(scope, term):
    """What a call is given; of a name whose value has a function in it, the words of its definition stand beside it."""
    found = computed_terms.shown(scope.value(term))
    if computed_terms.FUNCTION not in found or term[0] != "name" or term[1] not in scope.imports:
        return found
    module, name = scope.imports[term[1]]
    file = definitions.files().get(module)
    return "%s (%s)" % (term[1], " ".join(" ".join(file.definitions[name].text[1:]).split())) if file and name in file.definitions else found


def said_of(scope, term):
    """A term with its arguments computed, and its own call left as it is."""
    if term[0] == "operator" and term[1] in (*SIDES, "→", "×", "⊎"):
        return "%s %s %s" % (said_of(scope, term[2]), term[1], said_of(scope, term[3]))
    if term[0] == "call":
        return " ".join([said_of(scope, term[1]), *(shown_argument(scope, argument) for argument in term[2])])
    if term[0] == "field":
        return "(%s).%s" % (said_of(scope, term[1]), term[2])
    if term[0] == "name":
        try:
            found = scope.name(term[1])
        except computed_terms.Unknown:
            return term[1]
        return term[1] if computed_terms.is_function(found) or isinstance(found, bool) else computed_terms.shown(found)
    return computed_terms.shown(scope.value(term))


def examples():
    found = []
    for path, text in code_texts.files():
        imports = imports_of(text)
        for function in code_texts.FUNCTION.finditer(text):
            if WORKED.match(function.group(2)):
                found += [Example(path, "%s.%s" % (function.group(2), label), says, imports)
                          for label, says in proof_texts.ENSURES.findall(function.group(3))]
    return found


def imports_of(text):
    """What the clauses of a file import, by the name that they use."""
    found = {}
    for line in re.findall(r"^ghost use Rattle\.(.*);$", text, re.M):
        items = re.fullmatch(r"([\w.]+)\.\{(.*)\}", line)
        if items:
            for item in items.group(2).split(","):
                name, _, other = item.strip().partition(" as ")
                found[other or name] = items.group(1), name
        else:
            module, _, other = line.partition(" as ")
            found[other or module.rpartition(".")[2]] = module, None
    return found


def faults_of(example, true, known):
    if example.name not in known:
        return ["tests/data/worked.list doesn't have it"]
    says = example.said()
    if says != known[example.name]:
        return ["it says otherwise than tests/data/worked.list: %s" % says[:200]]
    return ["it doesn't come true"] if true is False else []


def main():
    found = examples()
    if sys.argv[1:] == ["--renew"]:
        return LIST.renew((one.name, one.said()) for one in found)
    known = LIST.said()
    truths = [example.comes_true() for example in found]
    faults = {example.name: faults_of(example, true, known) for example, true in zip(found, truths)}
    faults.update({name: ["it is gone"] for name in known if name not in faults})
    lost = LIST.lost()
    for name, told in faults.items():
        for fault in told:
            print("FAILED %s: %s" % (name, fault))
    for fault in lost:
        print("FAILED " + fault)
    heard, unknown = sum(bool(example.heard) for example in found), truths.count(None)
    print("%d examples: of %d the second program says a part, %d follow the definitions alone, of %d the words are held"
          % (len(found), heard, len(found) - heard - unknown, unknown))
    failed = sum(bool(told) for told in faults.values())
    print("%d passed, %d failed" % (len(faults) - failed, failed + len(lost)))
    return failed + len(lost)


if __name__ == "__main__":
    ended = []
    threading.stack_size(512 << 20)
    whole = threading.Thread(target=lambda: ended.append(main()))
    whole.start()
    whole.join()
    sys.exit(1 if not ended or ended[0] else 0)
