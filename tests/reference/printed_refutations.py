"""What `why` prints of refutations by lemmas, as text and as JSON: docs/REASONS.md, 'What is printed of reasons', and docs/SCRIPTS.md,
'JSON'.

Which refutation is printed is left open there, so one that is told is judged. It is held as `why --json` has it; its text is the same in
lines.
"""
import itertools
import json
import re

from . import printing
from .fact_texts import EVENT, NAME, PLACE, FactReader, joined, split
from .refutations import Wrong
from .lemma_refutations import NONE, PART, READER, Case, Closing, Judge, Lemma, Question

# The closings, by the words with which their lines begin.
WORDS = {"No": NONE, "By lemma": "lemma", "Cycle": "cycle", "Uniproc": "uniproc", "Between": "between", "False": "false"}
NAMES = {name: word for word, name in WORDS.items()}
CLOSING = re.compile("(%s)(?= |$)(.*)" % "|".join(WORDS))

# What a question without answers asks of, by its kind.
SUBJECTS = {"source": EVENT, "value": EVENT, "reader": "(?:%s|%s initial)" % (EVENT, NAME), "last": NAME}

# An edge of a cycle, and the event that it leads to.
HOP = re.compile(r" ([a-z]+) (%s)" % EVENT)

# The steps that close a case, if they have a closing.
CASES = ("case", "so")


# ---- closings as lines

def read_closing(line):
    """The closing of a line or of its end, as JSON has it; raises `Wrong` where it is none."""
    found = CLOSING.fullmatch(line)
    if found is None:
        raise Wrong("no closing: " + line)
    name, rest = WORDS[found[1]], found[2]
    return dict(members_of(name, rest, line), step=name)


def members_of(name, rest, line):
    if name in ("cycle", "uniproc"):
        return {"cycle": read_edges(rest)}
    if name == "false":
        matched("(?: %s=[0-9|]*)*" % PLACE, rest, line)
        pairs = (pair.split("=") for pair in rest.split())
        return {"places": {place: [int(value) for value in values.split("|") if value] for place, values in pairs}}
    if name == "between":
        return dict(zip(("read", "between", "write"), matched(" (%s) (%s) (%s)" % ((EVENT,) * 3), rest, line).groups()))
    if name == "lemma":
        return {"lemma": int(matched(" ([1-9][0-9]*)", rest, line)[1])}
    question = matched(" (%s) .*" % "|".join(SUBJECTS), rest, line)[1]
    return {"question": question, "of": matched(" %s (%s)" % (question, SUBJECTS[question]), rest, line)[1]}


def matched(form, text, line):
    found = re.fullmatch(form, text)
    if found is None:
        raise Wrong("no closing: " + line)
    return found


def read_edges(text):
    begin = re.match(" (%s)" % EVENT, text)
    hops = HOP.findall(text, begin.end()) if begin else []
    if not hops or begin[0] + "".join(" %s %s" % hop for hop in hops) != text:
        raise Wrong("no cycle: " + text)
    events = [begin[1]] + [event for _, event in hops]
    return [{"from": event, "relation": relation, "to": after} for event, (relation, after) in zip(events, hops)]


def closing_line(value):
    name = value["step"]
    if "cycle" in value:
        words = [value["cycle"][0]["from"]] + ["%s %s" % (edge["relation"], edge["to"]) for edge in value["cycle"]]
    elif name == "false":
        words = ["%s=%s" % (place, "|".join(map(str, values))) for place, values in value["places"].items()]
    else:
        words = [str(value[key]) for key in ("lemma", "question", "of", "read", "between", "write") if key in value]
    return " ".join([NAMES[name]] + words)


# ---- steps as lines

def read_step(line):
    """The step of a line; raises `Wrong` where it is none."""
    depth = len(line) - len(line.lstrip(" "))
    word, _, rest = line[depth:].partition(" ")
    if word in ("Case", "So"):
        return dict(read_case(rest, line), step=word.lower(), depth=depth)
    if word == "Given" and not depth:
        return {"step": "given", "facts": facts_in(rest)}
    if word == "Lemma" and not depth:
        found = re.fullmatch("([1-9][0-9]*) (.*)", rest)
        if found is None:
            raise Wrong("no lemma: " + line)
        return {"step": "never", "lemma": int(found[1]), "facts": facts_in(found[2])}
    return {"step": "endcases", "depth": depth} if line[depth:] == "Endcases" else {
        "step": "leaf", "depth": depth, "closing": read_closing(line[depth:])}


def read_case(text, line):
    """The answers of a case, the word of its question, and its closing, if it has one."""
    found = re.match("(%s|%s) (?!not )" % (READER, PART), text)
    answers, after = split(text[found.end():] if found else text)
    if after and not after.startswith(": "):
        raise Wrong("no case: " + line)
    return {"question": found[1] if found else "", "answers": answers, "closing": read_closing(after[2:]) if after else None}


def facts_in(text):
    answers, after = split(text)
    if len(answers) != 1 or after:
        raise Wrong("no facts: " + text)
    return answers[0]


def line_of(step):
    name, begin = step["step"], " " * step.get("depth", 0)
    if name == "given":
        return "Given " + ", ".join(step["facts"])
    if name == "never":
        return "Lemma %d %s" % (step["lemma"], ", ".join(step["facts"]))
    if name == "leaf":
        return begin + closing_line(step["closing"])
    if name not in CASES:
        return begin + name.capitalize()
    words = [name.capitalize()] + [step["question"]] * bool(step["question"]) + [joined(step["answers"])]
    return begin + " ".join(words) + ("" if step["closing"] is None else ": " + closing_line(step["closing"]))


# ---- whole refutations as texts

def read_text(text):
    """The refutation of a text, as JSON has it; raises `Wrong` where the text is none."""
    lines = text.split("\n")
    found = re.fullmatch(r"Test ([^\n]*)\nNever (tso|sc) leaves=([0-9]+)", "\n".join(lines[:2]))
    if found is None or lines.pop() != "":
        raise Wrong("no refutation")
    value = {"answer": "never", "test": found[1], "model": found[2], "leaves": int(found[3]), "asked": None, "verdict": None}
    rest = lines[2:]
    if rest and rest[0].startswith("Asked "):
        kind, _, truth = rest.pop(0)[len("Asked "):].partition(" ")
        value["asked"] = {"kind": kind, "truth": truth == "true"}
    if rest and rest[-1].startswith("Verdict "):
        value["verdict"] = rest.pop()[len("Verdict "):]
    value["steps"] = list(map(read_step, rest))
    if text_of(value) != text:
        raise Wrong("not as a refutation is printed")
    return value


def text_of(value):
    """A refutation as lines."""
    lines = ["Test " + value["test"], "Never %s leaves=%d" % (value["model"], value["leaves"])]
    if value["asked"] is not None:
        lines.append("Asked %s %s" % (value["asked"]["kind"], printing.truth_word(value["asked"]["truth"])))
    lines += map(line_of, value["steps"])
    if value["verdict"] is not None:
        lines.append("Verdict " + value["verdict"])
    return "".join(line + "\n" for line in lines)


# ---- the tree of steps

class Tree:
    """Reads the trees that steps are of, one after the other."""

    def __init__(self, reader, steps):
        self.reader, self.steps, self.at = reader, steps, 0

    def take(self, name):
        """The next step, if it has this name; it is gone then."""
        if self.at < len(self.steps) and self.steps[self.at]["step"] == name:
            self.at += 1
            return self.steps[self.at - 1]
        return None

    def look(self, depth):
        if self.at == len(self.steps):
            raise Wrong("the steps end within a question")
        step = self.steps[self.at]
        if step.get("depth") != depth:
            raise Wrong("a step at another depth than %d: %s" % (depth, line_of(step)))
        return step

    def facts(self, texts):
        return [self.reader.fact(text) for text in texts]

    def lemma(self, number):
        """The next lemma, which has this number, or None."""
        step = self.take("never")
        if step is None:
            return None
        if step["lemma"] != number:
            raise Wrong("a lemma isn't the next one: " + line_of(step))
        return Lemma(self.facts(step["facts"]), self.part(1), step["facts"])

    def part(self, depth):
        step = self.look(depth)
        if step["step"] != "leaf":
            return self.question(depth)
        self.at += 1
        return self.closing(step["closing"])

    def question(self, depth):
        """The cases of a question, up to its line `Endcases` or the one that is left."""
        steps, cases = [], []
        while not steps or steps[-1]["step"] == "case":
            step = self.look(depth)
            self.at += 1
            steps.append(step)
            if step["step"] in CASES:
                cases.append(self.case(step, depth))
        words = {step["question"] for step in steps if step["step"] in CASES}
        if steps[-1]["step"] not in ("so", "endcases") or len(words) != 1:
            raise Wrong("no cases of one question: %s" % list(map(line_of, steps)))
        return Question(*words, cases, steps[-1]["step"] == "endcases")

    def case(self, step, depth):
        answers = list(map(self.facts, step["answers"]))
        if step["closing"] is not None:
            return Case(answers, self.closing(step["closing"]), True, step["answers"])
        part = self.part(depth + (step["step"] == "case"))
        if isinstance(part, Closing) or len(answers) > 1:
            raise Wrong("a case that isn't closed in its line: " + line_of(step))
        return Case(answers, part, False, step["answers"])

    def closing(self, value):
        name, reader = value["step"], self.reader
        if name in ("cycle", "uniproc"):
            words = [reader.event(edge["from"]) for edge in value["cycle"]]
            if [reader.event(edge["to"]) for edge in value["cycle"]] != words[1:] + words[:1]:
                raise Wrong("a cycle doesn't lead back: " + closing_line(value))
        elif name == "false":
            words = [(self.place(text), tuple(values)) for text, values in value["places"].items()]
        elif name == "between":
            words = [reader.event(value[key]) for key in ("read", "between", "write")]
        else:
            words = [value["lemma"]] if name == "lemma" else [value["question"], *self.subject(value["question"], value["of"])]
        return Closing(name, tuple(words), value)

    def subject(self, question, text):
        """What a question without answers asks of, as its closing has it."""
        if question == "last":
            return [self.reader.location(text)]
        if question != "reader":
            return [self.reader.read(text)]
        if ":" not in text:
            return [self.reader.location(text.split(" ")[0]), None]
        write = self.reader.write(text)
        return [write.location, write]

    def place(self, text):
        return self.reader.fact(text + "=0").claim[:-1]


# ---- judging a refutation

def verdict_of(test, allowed):
    """herd's word; None without a condition."""
    if test.proposition is None:
        return None
    return "Ok" if allowed == (test.quantifier == "exists") else "No"


def head_of(test, model, allowed):
    asked = None if test.proposition is None else {"kind": test.quantifier, "truth": test.quantifier != "forall"}
    return {"test": test.name, "model": model, "asked": asked, "verdict": verdict_of(test, allowed),
            "answer": "allowed" if allowed else "never"}


def judge(test, model, value, with_json=False):
    """Raises `Wrong` where a value, of a text or of JSON, isn't a refutation of what the test asks, as it is printed."""
    judging = Judge(test, model, with_json)
    tree, due = Tree(FactReader(judging.programs), value["steps"]), head_of(test, model, False)
    if {key: value[key] for key in due} != due:
        raise Wrong("another test, model, question or verdict")
    if value["leaves"] != sum(step.get("closing") is not None for step in value["steps"]):
        raise Wrong("another number of leaves")
    given = tree.take("given")
    judging.begin(given["facts"] if given else [])
    for number in itertools.count(1):
        lemma = tree.lemma(number)
        if lemma is None:
            break
        judging.lemma(lemma)
    judging.part(tree.part(0), judging.board())
    if tree.at < len(tree.steps):
        raise Wrong("a step after the tree: " + line_of(tree.steps[tree.at]))


def faults_of(test, model, text, with_json=False):
    """How what is printed isn't a refutation for this test."""
    try:
        value = json.loads(text) if with_json else read_text(text)
        judge(test, model, value, with_json)
        told = read_text(text_of(value))
    except Wrong as wrong:
        return [str(wrong)]
    except (ValueError, LookupError, TypeError, AttributeError):
        return ["no refutation"]
    return differences(printing.as_json(told), text) if with_json else []


def faults_of_both(test, model, text, as_json):
    """How what is printed isn't a refutation for this test, once as text and once as JSON."""
    faults = faults_of(test, model, text)
    return faults or differences(printing.as_json(read_text(text)), as_json)


def differences(due, text):
    """Where a text first differs from the one that is due."""
    pairs = zip(re.split(r"\n|(?<=[}\]]),", due) + [None], re.split(r"\n|(?<=[}\]]),", text) + [None])
    return ["%r, and not %r" % (got, wanted) for wanted, got in pairs if wanted != got][:1]
