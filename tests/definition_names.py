#!/usr/bin/env python3
"""Holds that a definition's name says one thing: it stands in one file of definitions, or means the same in each.

    tests/definition_names.py               each name that two files define and that isn't in STAY; the last line is 'N passed, M failed'
    tests/definition_names.py --list        each name that two files define, with its files, and why it may stay
    tests/definition_names.py --arguments   the functions of the code that take six arguments or more, those with the most first

A name may stay where its texts are one text, or where STAY says why. A line of STAY whose name two files no longer define is a
failure too. Worked examples name their own tests, choices and words: nobody but them speaks of those (EXAMPLES).
"""
import re
import sys

sys.dont_write_bytecode = True
from checks.proofs import code_texts, definitions

MANY = 6
EXAMPLES = re.compile(r"^worked_examples\.|\.(?:inner\.)?(?:Worked\w*|Examples)$")
TESTS = ("tso_tests", "worked_examples")

# What stays, and why.
STAY = {
    # each says the same of a type of its own
    "Fails": "a fault that is answered is the one that reading gives, of tests and of orders",
    "Gives": "what is answered is what reading gives, of tests and of orders",
    "HasWord": "an entry's value is a word",
    "first_of_two": "the first of the two that is there",
    "is_space": "the bytes of white space",
    "last_or": "the last of a list, or this one",
    "onto": "one put before what is read after it",
    "would_hit": "whether an access is a hit, of a machine's caches and of a bus",
    "◌>>=◌": "what goes on where nothing failed",
    # what answers alone tell, and what stays possible by facts
    "can_be": "whether a number of which so much is known can be so",
    "can_be_last": "a write that can be the last one to its location",
    "comes_before": "of two writes the first is known to come first",
    "words_left": "what locations hold at the end, in a candidate and as far as facts tell",
    # the code of refutations with and without what is possible
    "IsTold": "what is told of a step; what a table tells of a test",
    "known_of": "what is known, of the code's",
    "node_of": "the node that one of the code's stands for",
    "reading_of": "what is read; a read's row, of the code's",
    # two forms of refutations: by answers alone, and by what stays possible
    "IsRefuted": "there is a refutation",
    "Node": "a node of a refutation",
    "allows": "the truth that a proposition can have, as far as is known",
    "close": "nodes are a tree for each branch that is open",
    "first_that_relates": "the first of these relations that leads from an event to another",
    "from_reads": "a read is known to be before a write",
    "is_between": "a write is known to stand between the parts of a locked instruction",
    "is_edge": "one of these relations is known to lead from an event to another",
    "is_node": "whether a node may stand in a branch",
    "reads_from": "a read is known to read from a write",
    "refutes": "whether these are a refutation",
    "relates": "a relation is known to lead from an event to another",
    # what is said of one possible read, write or proposition, and of other things
    "IsMet": "what is asked is true of an execution; what is given is so of a candidate",
    "IsOneOf": "a pair among pairs; an event among events",
    "IsPossible": "what choices can leave; what a number can be",
    "Written": "a test as it is written; a write, and what it writes",
    "counts": "a machine's counts; what an addition to a counter can find",
    "first_registers": "what registers hold at first",
    "held_in": "in how many states a claim holds; what a register holds",
    "holds_in": "whether a proposition is true in a state, and at the end of a candidate",
    "is_among": "a name, a number, is one of these",
    "values_after": "the values that are left after an action; those that a read can return after a round",
    "values_from": "the values that reads return, from a core on and from a source",
    "written": "what a change writes; what a test writes",
    # the reader's words are of tokens, and mean there what they mean of a test
    "IsCondition": "a condition as it is written, and within the limits",
    "Table": "the rows of a test; a protocol's table",
    "condition_of": "a condition, of what is written and of the code's",
    "core_of": "the core that a name names; a core of a state",
    "judged": "what is read, judged by the limits",
    "located": "a name with its location",
    "name_of": "the name as it is printed",
    "part_of": "which part of a text, and of a locked instruction",
    "program_of": "a core's program",
    "registers_of": "the registers of a core",
    "registers_with": "the registers with these values",
    "rows": "the rows of a table",
    "value_in": "a register's value",
    "with_register": "the registers with this value in one of them",
    "word_after": "what stands after a word; a location's word after an order",
    "words_of": "the words of locations, in the beginning and on a bus",
}

FUNCTION = re.compile(r"^ *(?:pub(?:\(\w+\))? )?(?:const )?(?:extern \"C\" )?fn (\w+)", re.M)


def places():
    """The modules that define each name, with the definition's text there."""
    found = {}
    for module, file in sorted(definitions.files().items()):
        if not EXAMPLES.search(module):
            for name, definition in file.definitions.items():
                found.setdefault(name, {})[module] = text_of(definition)
    return {name: modules for name, modules in found.items() if len(modules) > 1}


def text_of(definition):
    return " ".join(" ".join(line.split()) for line in definition.text)


def reason(name, modules):
    """Why a name may stand in these files, or None."""
    if len(set(modules.values())) == 1:
        return "one text"
    return STAY.get(name)


def check():
    twice = places()
    faults = ["%s: %s" % (name, ", ".join(sorted(modules))) for name, modules in sorted(twice.items()) if reason(name, modules) is None]
    faults += ["%s may stay, but stands in one file" % name for name in sorted(STAY) if name not in twice]
    for fault in faults:
        print(fault)
    print("%d passed, %d failed" % (sum(reason(name, modules) is not None for name, modules in twice.items()), len(faults)))
    return 1 if faults else 0


def show():
    for name, modules in sorted(places().items()):
        print("%s: %s: %s" % (name, ", ".join(sorted(modules)), reason(name, modules) or "means two things"))
    return 0


# ---- arguments


def within(text, at):
    """What stands between the bracket at this place and the one that closes it."""
    depth, begin = 0, at + 1
    while at < len(text):
        depth += (text[at] in "([{") - (text[at] in ")]}")
        if depth == 0:
            return text[begin:at]
        at += 1
    return text[begin:]


def arguments(text):
    """The arguments of a function's head, by their commas; commas within brackets part nothing."""
    depth, pieces = 0, [""]
    for at, letter in enumerate(text):
        depth += (letter in "([{<") - (letter in ")]}" or letter == ">" and text[at - 1] != "-")
        if letter == "," and depth == 0:
            pieces.append("")
        else:
            pieces[-1] += letter
    return [" ".join(piece.split()) for piece in pieces if piece.strip()]


def functions():
    """Each function of the code, but for tests and worked examples: its file, its name, its arguments."""
    for path, text in code_texts.files():
        if path.split("/")[0] in TESTS:
            continue
        text = "\n".join(line for line in text.split("\n") if not line.lstrip().startswith("//"))
        for found in FUNCTION.finditer(text):
            at = text.index("(", found.end() + parameters_end(text, found.end()))
            yield "crates/" + path, found.group(1), arguments(within(text, at))


def parameters_end(text, at):
    """How long the type parameters are that stand here, if there are some: a bound may have brackets."""
    if text[at] != "<":
        return 0
    depth, begin = 0, at
    while True:
        depth += (text[at] == "<") - (text[at] == ">" and text[at - 1] != "-")
        at += 1
        if depth == 0:
            return at - begin


def show_arguments():
    many = sorted(((len(taken), path, name, taken) for path, name, taken in functions() if len(taken) >= MANY), key=lambda one: (-one[0], one[1:3]))
    for count, path, name, taken in many:
        print("%d %s %s(%s)" % (count, path, name, ", ".join(taken)))
    without = sum(len([one for one in taken if not re.match(r"alloc: |&?(?:mut )?self$", one)]) >= MANY for _, _, _, taken in many)
    print("%d functions of %d arguments or more; %d without the allocator and self" % (len(many), MANY, without))
    return 0


def main():
    if sys.argv[1:] == ["--arguments"]:
        return show_arguments()
    if sys.argv[1:] == ["--list"]:
        return show()
    if sys.argv[1:]:
        print(__doc__)
        return 2
    return check()


if __name__ == "__main__":
    sys.exit(main())
