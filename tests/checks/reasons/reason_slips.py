"""Slips in reasons that a program prints, for tests/why.py: a judge that takes one of them is no judge."""
import re

from reference import reasons

# Names, forms of what is changed where it stands first, and what is put in its place.
IN_A_TREE = (
    ("a value changed", r"(?<= )(P\d:\d+ \w+ \w+=)(\d+)", r"\g<1>1\2"),
    ("a place's value changed", r"(False.*=)(\d+)", r"\g<1>1\2"),
    ("an edge of another kind", r" (po|rf|fr|mfence|implied) (?=P)", " co "),
    ("a case left out", r"(?m)^ *Case .*: [A-Z].*\n", ""),
    ("a leaf left out", r"(?m)^ *(Cycle|Uniproc|Between|False|No|By)\b.*\n", ""),
    ("a closing left out", r"(?m)^( *(?:Case|So) .*): [A-Z].*$", r"\1"),
    ("what is given left out", r"(?m)^Given .*\n", ""),
    ("less given", r"(?m)^Given [^,\n]*, ", "Given "),
    ("a case as what is left", r"(?m)^( *)Case ", r"\1So "),
    ("a word of a question left out", r"(?m)^( *(?:Case|So)) (?:reader|part) ", r"\1 "),
    ("an answer left out", r"(?m)^ *So .*\n", ""),
    ("the end of the cases left out", r"(?m)^ *Endcases\n", ""),
)


def of_printed(text):
    """Names and texts: slips that can be made in any reason."""
    yield "the last line left out", text[:text.rindex("\n", 0, -1) + 1]
    if "\nAllowed " in text:
        yield from of_allowed(text)
        return
    yield "another number of leaves", re.sub(r"leaves=(\d+)", lambda found: "leaves=%d" % (int(found[1]) + 1), text)
    for name, form, put in IN_A_TREE:
        yield name, re.sub(form, put, text, count=1)


def of_allowed(text):
    yield "choices left out", re.sub(r"(?m)^(By) .*", r"\1", text)
    yield "a choice left out", re.sub(r"(?m)^(By.*) \w+$", r"\1", text)
    yield "a choice too many", re.sub(r"(?m)^(By.*)$", r"\1 0d", text)
    yield "a value of the state changed", re.sub(r"(?m)^(State.*=)(\d+)$", r"\g<1>1\2", text)
    yield "a value read changed", re.sub(r"(?m)^(From \S+ \w+ \w+=)(\d+)", r"\g<1>1\2", text, count=1)
    yield "a read left out", re.sub(r"(?m)^From .*\n", "", text, count=1)
    yield "a source changed", re.sub(r"(?m)^(From \S+ \w+ (\w+)=\d+) .*$", lambda found: found[1] + (
        " initial" if not found[0].endswith(" initial") else " P0:0 W %s=1" % found[2]), text, count=1)
    yield "coherence the other way round", re.sub(r"(?m)^Coherence (\w+) (P\S+ \w+ \S+) (P\S+ \w+ \S+)", r"Coherence \1 \3 \2", text)
    yield "a location's order left out", re.sub(r"(?m)^Coherence .*\n", "", text, count=1)


def judge_printed(test, model, text):
    """The slips that this reason allows and that are taken all the same."""
    return ["taken, with a slip, %s: %s" % (name, wrong) for name, wrong in of_printed(text)
            if wrong != text and not reasons.faults_of(test, model, wrong)]
