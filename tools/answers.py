"""What a test's text says of itself, and what the program `tso` answers to it."""
import re

import tso


def name_of(text):
    """The name in a test's first line."""
    return re.match(r"X86[ \t]+([^\r\n]*)", text).group(1).strip()


def fact_of(text, key):
    """What a test's line `KEY=..` says, or None."""
    found = re.search(r"^%s=(.*)$" % key, text, re.M)
    return found.group(1).rstrip() if found else None


def word_of(true, false):
    return "Never" if not true else "Sometimes" if false else "Always"


def claim_holds(quantifier, true, false):
    """Whether a condition's claim is so where its proposition is true in so many of all final states, and false in so many."""
    return {"exists": true > 0, "~exists": true == 0, "forall": false == 0}[quantifier]


class Question:
    """A question to the program of a test, whose answer is a record, plain data. There are four commands:

    - outcomes: all final states: `states`, a list of values by place, and how many of them make the condition `true` and `false`; where there
      are too many states, `unfinished`, the limit, and those that were `met`, and how many of these make the condition `true`;
    - sweep: how often seeds met each state: `states`, by the state's text; how many runs had no end: `unfinished`; how many made the
      condition `true` and `false`;
    - why: whether what the condition asks for can be so: `answer`, never or allowed, of what is `asked` (a quantifier and a truth, None without
      a condition); `leaves`, those of the proof, of a never; `unfinished`, the limit, where there are too many cases;
    - counts: what the caches did in the runs of seeds that ended: `cores`, for each core by the count's name the `sum`, the `least` and the
      `greatest`, None where no run ended; how many `ended` and how many were `unfinished`.

    What is no answer is a record too: `fault`, what went wrong."""

    def __init__(self, command, program, text, options, limit):
        self.command = command
        self.asked = tso.question(command, text, {"program": program, "further": options, "limit": limit})

    def ask(self):
        """The record, for which this waits."""
        return self.record_of(self.asked.ask)

    def record(self, done):
        """The record of the program that ended so."""
        return self.record_of(lambda: self.asked.answer(done))

    def record_of(self, answer):
        try:
            return RECORDS[self.command](answer())
        except tso.Unfinished as met:
            return LIMITS[self.command](met)
        except tso.NoAnswer as fault:
            return {"fault": str(fault)}


def outcomes(program, text, options, limit):
    """The record of all final states."""
    return Question("outcomes", program, text, options, limit).ask()


def why(program, text, options, limit):
    """The record of whether what a condition asks for can be so."""
    return Question("why", program, text, options, limit).ask()


def of_outcomes(found):
    return dict(observed(found), states=[state.values for state in found.states])


def of_states_met(met):
    # an older program tells no state that it has met
    states = met.met or []
    return {"unfinished": met.states, "met": [state.values for state in states], "true": sum(state.holds is True for state in states)}


def of_sweep(found):
    states = {" ".join("%s=%d" % pair for pair in met.values.items()): met.runs for met in found.states}
    return dict(observed(found), states=states, unfinished=found.unfinished)


def of_reason(found):
    asked = found.asked and [found.asked.kind, found.asked.truth]
    if isinstance(found, tso.Never):
        return {"answer": "never", "asked": asked, "leaves": found.leaves}
    return {"answer": "allowed", "asked": asked}


def of_counts(found):
    cores = found.cores and [{name: dict(vars(spread)) for name, spread in vars(core).items()} for core in found.cores]
    return {"cores": cores, "ended": found.runs.ended, "unfinished": found.runs.unfinished}


def observed(found):
    """How many states or runs make the condition `true` and `false`; of a test without a condition none does."""
    return {"true": found.observation.true, "false": found.observation.false} if found.observation else {"true": 0, "false": 0}


# The record of each command's answer, and of a limit that it met.
RECORDS = {"outcomes": of_outcomes, "sweep": of_sweep, "why": of_reason, "counts": of_counts}
LIMITS = {"outcomes": of_states_met, "why": lambda met: {"unfinished": met.cases}}


def counts_of_cores(first, second):
    """The counts over runs of each core, and those over other runs, as one; None is of no run."""
    if first is None or second is None:
        return second if first is None else first
    return [{name: {"sum": one[name]["sum"] + other[name]["sum"], "least": min(one[name]["least"], other[name]["least"]),
                    "greatest": max(one[name]["greatest"], other[name]["greatest"])} for name in one} for one, other in zip(first, second)]
