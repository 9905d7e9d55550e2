"""Answers of `tso why --json` in the forms of docs/schemas/why.json, and a program that gives them, for tests of what reads them."""
import json
import os

from checks.tools.tool_runs import write


def step(kind, depth, **members):
    return dict(members, step=kind, depth=depth)


def edges(*words):
    """Edges from events and relations that stand by turns; the last leads back to the first event."""
    events, relations = words[::2], words[1::2]
    return [{"from": first, "relation": relation, "to": second}
            for first, relation, second in zip(events, relations, events[1:] + events[:1])]


ASKED = {"kind": "exists", "truth": True}

NEVER = {
    "answer": "never", "asked": ASKED, "leaves": 1, "model": "tso", "test": "MP", "verdict": "No", "steps": [
        dict(step="given", facts=["P1:0 R y=1", "P1:1 R x=0"]),
        step("leaf", 0, closing=dict(step="cycle", cycle=edges(
            "P0:0 W x=1", "po", "P0:1 W y=1", "rf", "P1:0 R y=1", "po", "P1:1 R x=0", "fr")))]}

# What is given, a lemma, cases that their lines close, and one that has a part.
SHORT = {
    "answer": "never", "asked": ASKED, "leaves": 4, "model": "tso", "test": "passed", "verdict": "No", "steps": [
        dict(step="given", facts=["P1:0 R y not 0", "P2:0 R z=1", "P2:1 R x=0"]),
        dict(step="never", lemma=1, facts=["P0:0 W x=1 before P1:3 W x=2", "P2:1 R x=0"]),
        step("leaf", 1, closing=dict(step="none", question="source", of="P2:1 R x=0")),
        step("case", 0, question="", answers=[["P0:0 W x=1 before P1:3 W x=2"]], closing=dict(step="cycle", cycle=edges(
            "P0:0 W x=1", "po", "P0:1 W y=1", "rf", "P1:0 R y=1", "po", "P1:1 W z=1", "rf", "P2:0 R z=1", "po", "P2:1 R x=0", "fr"))),
        step("so", 0, question="", answers=[["P1:3 W x=2 before P0:0 W x=1"]], closing=None),
        step("case", 0, question="reader", answers=[["P0:3 LR x=0 from initial"], ["P1:2 LR x=0 from initial"]],
             closing=dict(step="false", places={"0:EAX": [0], "x": [1, 2]})),
        step("so", 0, question="reader", answers=[["P2:2 LR x=0 from initial"]], closing=dict(
            step="between", read="P2:2 LR x=0", between="P0:0 W x=1", write="P2:2 LW x=1"))]}

ALLOWED = {
    "answer": "allowed", "asked": ASKED, "choices": "0s 0s 1s 1s 0d 1d", "coherence": {"x": ["P0:0 W x=1"], "y": ["P1:0 W y=1"]},
    "model": "tso", "sources": [{"read": "P0:1 R y=0", "write": "initial"}, {"read": "P1:1 R x=0", "write": "initial"}], "test": "SB",
    "values": {"0:EAX": 0, "1:EAX": 0}, "verdict": "Ok"}

UNFINISHED = {"test": "LB", "unfinished": {"cases": 100000}}


def program(room, other):
    """A program that has these answers to why, by the tests' names, with `why` among the commands of its help, and answers else as the
    other one does."""
    path, cases = os.path.join(room, "with-why"), ""
    for answer, status in ((NEVER, 0), (SHORT, 0), (ALLOWED, 0), (UNFINISHED, 3)):
        told = write(os.path.join(room, answer["test"] + ".why"), json.dumps(answer) + "\n")
        cases += '  "X86 %s"*) cat %s; exit %d ;;\n' % (answer["test"], told, status)
    write(path, """#!/bin/sh
[ "$*" != --help ] || { '%(other)s' --help 2>&1 | sed 's/^Commands:$/&\\n  why  Says why/' >&2; exit 2; }
[ "$1" = why ] || exec '%(other)s' "$@"
case $(cat) in
%(cases)s  *) echo 'no answer is made for this test' >&2; exit 5 ;;
esac
""" % {"other": other, "cases": cases})
    os.chmod(path, 0o755)
    return path
