"""Whether the lines of a refutation fit its test, as docs/DEFINITIONS.md has it (`LineFits`): what is proved to tell printed lines apart is said
of such lines. A line names events, registers and locations of the test, its numbers are below 2^64, and it has facts, answers and values where it
needs some. A place of a line `False` alone may have no value.
"""
import re

from reference.fact_texts import FactReader
from reference.lemma_refutations import Judge
from reference.refutations import Wrong

MOST = 2 ** 64
RELATIONS = ("po", "mfence", "implied", "rf", "co", "fr")
QUESTIONS_OF_CASES = ("", "reader", "part")
QUESTIONS = ("source", "value", "reader", "last")


class Lines:
    """The lines of a refutation of a test, as `why --json` has them."""

    def __init__(self, test, model):
        self.reader = FactReader(Judge(test, model).programs)

    def faults(self, value):
        faults = [] if value["leaves"] < MOST else ["so many leaves"]
        for step in value["steps"]:
            try:
                self.hold(step)
            except Wrong as wrong:
                faults.append("%s: %s" % (step, wrong))
        return faults

    def hold(self, step):
        """Raises `Wrong` where a line doesn't fit."""
        name = step["step"]
        if name == "never":
            small(step["lemma"])
        if name in ("given", "never"):
            self.facts(step["facts"])
        elif name in ("case", "so"):
            known(step["question"], QUESTIONS_OF_CASES)
            for answer in some(step["answers"]):
                self.facts(answer)
        elif name not in ("leaf", "endcases"):
            raise Wrong("no line: " + name)
        if step.get("closing") is not None:
            self.closing(step["closing"])

    def facts(self, texts):
        for text in some(texts):
            self.reader.fact(text)
            small(*map(int, re.findall(r"\b\d+\b", text)))

    def event(self, text):
        self.reader.event(text)
        small(*map(int, re.findall(r"\b\d+\b", text)))

    def closing(self, closing):
        name = closing["step"]
        if name in ("cycle", "uniproc"):
            for edge in closing["cycle"]:
                self.event(edge["from"])
                self.event(edge["to"])
                known(edge["relation"], RELATIONS)
        elif name == "between":
            for key in ("read", "between", "write"):
                self.event(closing[key])
        elif name == "false":
            for place, values in closing["places"].items():
                self.reader.fact(place + "=0")
                small(*values)
        elif name == "none":
            known(closing["question"], QUESTIONS)
            self.subject(closing["of"])
        elif name == "lemma":
            small(closing["lemma"])
        else:
            raise Wrong("no closing: " + name)

    def subject(self, text):
        if ":" in text:
            self.event(text)
        else:
            self.reader.location(re.sub(" initial$", "", text))


def some(members):
    if not members:
        raise Wrong("nothing where there has to be something")
    return members


def small(*numbers):
    if any(number >= MOST for number in numbers):
        raise Wrong("a number of more than 64 bits")


def known(word, words):
    if word not in words:
        raise Wrong("no such word: " + word)


def faults_of(test, model, value):
    """The lines of a reason that don't fit; an execution has none."""
    return Lines(test, model).faults(value) if value["answer"] == "never" else []


# ---- the judge itself

def misfits(value):
    """Names and values: each a refutation with one line that doesn't fit."""
    def leaf(closing):
        return dict(value, steps=[{"step": "leaf", "depth": 0, "closing": closing}])

    yield "no facts", dict(value, steps=[{"step": "given", "facts": []}])
    yield "no answers", dict(value, steps=[{"step": "case", "depth": 0, "question": "", "answers": [], "closing": None}])
    yield "an answer without facts", dict(value, steps=[{"step": "so", "depth": 0, "question": "", "answers": [[]], "closing": None}])
    yield "another word of a case", dict(value, steps=[{"step": "so", "depth": 0, "question": "which", "answers": [["x=0"]], "closing": None}])
    yield "a fact of another test", dict(value, steps=[{"step": "given", "facts": ["z=0"]}])
    yield "a fact with a great number", dict(value, steps=[{"step": "given", "facts": ["x=%d" % MOST]}])
    yield "a lemma with a great number", dict(value, steps=[{"step": "never", "lemma": MOST, "facts": ["x=0"]}])
    yield "a place of another test", leaf({"step": "false", "places": {"z": [0]}})
    yield "a place with a great value", leaf({"step": "false", "places": {"x": [0, MOST]}})
    yield "an edge without a relation", leaf({"step": "cycle", "cycle": [{"from": "P0:0 W x=1", "relation": "", "to": "P0:0 W x=1"}]})
    yield "an event of another test", leaf({"step": "cycle", "cycle": [{"from": "P0:9 W x=1", "relation": "po", "to": "P0:9 W x=1"}]})
    yield "another question", leaf({"step": "none", "question": "which", "of": "x"})
    yield "a question of another location", leaf({"step": "none", "question": "last", "of": "z"})
    yield "another closing", leaf({"step": "so it is"})


def judge(test, model):
    """A row for each misfit: it has to be refused; and one for a place without a value, which fits."""
    value = {"answer": "never", "leaves": 1, "steps": [{"step": "leaf", "depth": 0, "closing": {"step": "false", "places": {"x": []}}}]}
    yield "a place without a value", faults_of(test, model, value)
    for name, wrong in misfits(value):
        yield name, [] if faults_of(test, model, wrong) else ["taken"]
