"""What `why` prints: README.md, 'Why can't it happen?', docs/REASONS.md, 'What is printed of reasons', and docs/SCRIPTS.md, 'JSON'.

Which reason is printed is left open there, and from how many cases on a search gives up. Both are taken from an answer that is told,
where they are right: a tree that refutes, or an execution in which what is asked is so, with choices that lead to it.

A reason is held as `why --json` has it; its text is the same in lines.
"""
import json
import re

from . import machine, printing, seen, printed_refutations
from .candidates import DEPTHS, bare, candidate_of
from .choices import read_choices
from .machine import Configuration
from .outcomes import PLAIN_CHOICES, form_of
from .reading import Refused
from .refutations import Wrong, asked_of, most_cases
from .printed_refutations import EVENT, differences, head_of

# What is printed where the answer that is told is wrong.
NO_REASON = "a reason\n"


def known_form(found, line):
    if found is None:
        raise Wrong("no step: " + line)
    return found


# ---- whole reasons as texts

def read_text(text, test):
    """The reason of a text, as JSON has it; raises `Wrong` where the text is none."""
    lines = text.split("\n")
    head = re.fullmatch(r"Never (?:tso|sc) leaves=[0-9]+|Allowed (tso|sc)", lines[1] if len(lines) > 1 else "")
    if head is None or lines.pop() != "":
        raise Wrong("no reason")
    if head[1] is None:
        return printed_refutations.read_text(text)
    value = {"answer": "allowed", "test": lines[0].partition(" ")[2], "asked": None, "verdict": None, "model": head[1]}
    rest = lines[2:]
    if rest and rest[0].startswith("Asked "):
        kind, _, truth = rest.pop(0)[6:].partition(" ")
        value["asked"] = {"kind": kind, "truth": truth == "true"}
    if rest and rest[-1].startswith("Verdict "):
        value["verdict"] = rest.pop()[8:]
    value.update(read_allowed(rest))
    if text_of(value, test) != text:
        raise Wrong("not as a reason is printed")
    return value


def read_allowed(lines):
    """What stands between the head and the verdict of a reason that something is allowed."""
    found = {"sources": [], "coherence": {}, "choices": "", "values": {}}
    for line in lines:
        word, _, rest = line.partition(" ")
        if word == "From":
            read, _, write = known_form(re.fullmatch("(%s)( )(initial|%s)" % (EVENT, EVENT), rest), line).groups()
            found["sources"].append({"read": read, "write": write})
        elif word == "Coherence":
            found["coherence"][rest.partition(" ")[0]] = re.findall(EVENT, rest)
        elif word == "By":
            found["choices"] = rest
        elif word == "State":
            found["values"] = {name: int(value) for name, value in (pair.split("=") for pair in rest.split())}
        else:
            raise Wrong("no line of an allowed candidate: " + line)
    return found


def text_of(value, test):
    """A reason as lines."""
    if value["answer"] == "never":
        return printed_refutations.text_of(value)
    lines = ["Test " + value["test"], "Allowed " + value["model"]]
    if value["asked"] is not None:
        lines.append("Asked %s %s" % (value["asked"]["kind"], printing.truth_word(value["asked"]["truth"])))
    lines += ["From %s %s" % (pair["read"], pair["write"]) for pair in value["sources"]]
    lines += [" ".join(["Coherence", name] + value["coherence"][name]) for name in test.locations if name in value["coherence"]]
    lines += [("By " + value["choices"]).rstrip(), "State" + printing.named((name, value["values"].get(name))
                                                                            for name in printing.Looked(test).names)]
    if value["verdict"] is not None:
        lines.append("Verdict " + value["verdict"])
    return "".join(line + "\n" for line in lines)


# ---- judging a reason

def reason_of(test, model, value, with_json=False):
    """The reason that is right, and is the one that is told up to what may differ; raises `Wrong` where that isn't right."""
    if value.get("answer") == "never":
        printed_refutations.judge(test, model, value, with_json)
        return printed_refutations.read_text(printed_refutations.text_of(value))
    return dict(head_of(test, model, True), **allowed_by(test, model, value["choices"]))


def allowed_by(test, model, way):
    """The candidate to which these choices lead, and the state that it leaves."""
    run = run_by(test, model, way)
    candidate = candidate_of(test, run.machine.put_together())
    faults = candidate.faults(test, model)
    if candidate.state(test) != run.state():
        faults.append("the candidate leaves another state than the run")
    asked = asked_of(test)
    if not printing.conditions.truth_of(asked, *run.state()):
        faults.append("what is asked isn't so")
    if faults:
        raise Wrong("; ".join(faults))
    values = {bare(entry): entry.text(test) for entry in candidate.entries}
    looked = printing.Looked(test)
    return {"choices": way, "values": dict(zip(looked.names, looked.values(*run.state()))),
            "sources": [{"read": values[read], "write": values.get(write, "initial")} for read, write in candidate.sources.items()],
            "coherence": {test.locations[at]: [values[write] for write in order] for at, order in candidate.coherence.items()}}


def run_by(test, model, way):
    """The run under these choices, at the model's depth: none of them stalls or is left over, and the test ends."""
    if not PLAIN_CHOICES.fullmatch(way):
        raise Wrong("no choices as they are printed: " + way)
    try:
        made = read_choices(way.encode(), test.cores())
    except Refused:
        raise Wrong("no choices of the test: " + way)
    run = machine.run(test, Configuration(depth=DEPTHS[model]), made)
    if run.machine is None or run.stalled or run.used != made.count:
        raise Wrong("the test doesn't end by these choices, or one of them stalls or is left over: " + way)
    return run


def faults_of(test, model, text, with_json=False):
    """How what is printed isn't a reason for this test."""
    try:
        value = json.loads(text) if with_json else read_text(text, test)
        due = reason_of(test, model, value, with_json)
    except Wrong as wrong:
        return [str(wrong)]
    printed = printing.as_json(due) if with_json else text_of(due, test)
    return [] if printed == text else differences(printed, text)


def faults_of_both(test, model, text, as_json):
    """How what is printed isn't a reason for this test, once as text and once as JSON."""
    try:
        due = reason_of(test, model, read_text(text, test))
    except Wrong as wrong:
        return [str(wrong)]
    pairs = (text_of(due, test), text), (printing.as_json(due), as_json)
    return [fault for printed, got in pairs if printed != got for fault in differences(printed, got)]


# ---- the second program's answer

def answer(test, model, limit, with_json, told):
    """What is printed, whether a reason was found, and herd's word, None without one. `told` is an answer in which it may have
    given up."""
    unfinished = printing.as_json({"test": test.name, "unfinished": {"cases": limit}}) if with_json else "Unfinished cases=%d\n" % limit
    if told == unfinished and limit < most_cases(test):
        seen.note("answer of why", "too many cases, " + form_of(with_json))
        return unfinished, False, None
    try:
        faults = faults_of(test, model, told, with_json)
    except (ValueError, LookupError, TypeError, AttributeError):
        faults = ["no reason"]
    if faults:
        return NO_REASON, True, None
    value = json.loads(told) if with_json else read_text(told, test)
    note_reason(value, form_of(with_json))
    return told, True, value["verdict"]


def note_reason(value, form):
    seen.note("answer of why", "%s, %s, %s" % (value["answer"], value["model"], form))
    seen.note("asked", "nothing" if value["asked"] is None else value["asked"]["kind"])
    seen.note("verdict of why", "none" if value["asked"] is None else "%s %s" % (value["asked"]["kind"], value["verdict"]))
    for step in value.get("steps", ()):
        seen.note("step of a reason", step["step"])
        seen.note("question of a reason", step.get("question") or "plain")
        closing = step.get("closing") or {}
        if closing:
            seen.note("closing of a reason", closing["step"])
        for edge in closing.get("cycle", ()):
            seen.note("relation in a reason", edge["relation"])
