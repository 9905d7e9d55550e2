#!/usr/bin/env python3
"""Judges what `why` prints by a second program in Python, and holds it against `outcomes`, `run` and tools/theory.

    tests/why.py PROGRAM [PART-OF-NAME] [--whole] [--seed S] [--also PROGRAM]

The tests are those of the gallery and of the examples, some of examples/cycles.list, and some made at random from the seed S (1); with
--whole all 3,372 of that list, 1,000 made ones, and great ones. Each is asked under `exists`, `~exists` and `forall`, with negations and
disjunctions, and without a condition, of x86-TSO and of sequential consistency:

- a refutation refutes: each question has all its cases, each closing holds by the facts that are given there, each lemma is shown before it is
  used, and it is printed as its definition has it, byte for byte (tests/reference/, printed_refutations and lemma_refutations); and each of
  its lines fits the test (tests/checks/reasons/line_fits.py);
- of an execution the choices lead there, by `run` and by a machine in Python, its candidate is allowed by the relational model, what
  is asked is so, and it is printed as its definition has it;
- `--json` says the same;
- with `--assert` the answer is the same, of x86-TSO as text and of sequential consistency as JSON, and its status 4 where the condition
  isn't as it claims;
- what is asked can be so where `outcomes` has a state in which it is, at depth 32 or 0, and where tools/theory allows it.

The judge itself is tried: reasons with one slip are refused. A further program (--also) has all tests of the gallery and of the examples,
and of the others one in four. Great tests are 8 cores of 8 instructions, 4 of 16 and 8 of 32 on four
locations, with a condition of all loaded registers, as a run left them and with one to three values changed; the time of each is taken.
The last line is 'N passed, M failed'.
"""
import json
import re
import statistics
import sys
import time

sys.dont_write_bytecode = True

from checks import instruction_sets, judging
from checks.reasons import line_fits, reason_inputs, reason_slips, lemma_refutation_slips
from checks.tools import tool_runs
from reference import candidates, conditions, litmus, printing, reading, reasons, refutations

import litmus as tool_litmus

MODELS = (candidates.TSO, candidates.SC)

# In the gate every so many of the list's tests, and so many made ones.
EVERY, MADE, MADE_WHOLE = 60, 60, 1000

# tools/theory tries each candidate: it is asked of tests with no more than so many.
MOST_CANDIDATES = 2_000

# Every so many of the reasons have slips made in them.
EVERY_SLIP = 10

# What is asked for JSON, by the model.
AS_JSON = {candidates.TSO: ["--json"], candidates.SC: ["--json", "--assert"]}


class Answer:
    """What `why` prints for a test and a model, as text and as JSON: as JSON plain or with `--assert`, by the model."""

    def __init__(self, program, given, model):
        words = ["why", "--model", model]
        self.plain, self.as_json = program.run(words, given), program.run(words + AS_JSON[model], given)
        self.text = self.plain.stdout.decode("latin-1")

    def faults(self, test, model):
        status = status_of_assertion(test, self) if "--assert" in AS_JSON[model] else judging.ENDED
        if (self.plain.returncode, self.as_json.returncode) != (judging.ENDED, status) or self.as_json.stderr:
            return ["%s; as JSON %s, and not status %d" % (judging.described(self.plain), judging.described(self.as_json), status)]
        as_json = self.as_json.stdout.decode("latin-1")
        return reasons.faults_of_both(test, model, self.text, as_json) or line_fits.faults_of(test, model, json.loads(as_json))

    def is_allowed(self):
        return "\nAllowed " in self.text


def faults_of_run(program, given, model, answer):
    """How the run under the choices of an answer doesn't end in its state."""
    way, state = (re.search(r"^%s ?(.*)$" % word, answer.text, re.M)[1] for word in ("By", "State"))
    words = ["run", "--depth", str(candidates.DEPTHS[model])]
    report = program.run(words, given + judging.DIVIDER + way.encode()).stdout.decode("latin-1")
    found = dict(pair.split("=") for line in re.findall(r"^Memory(.*)$", report, re.M) for pair in line.split())
    for core, line in re.findall(r"^Registers P(\d)(.*)$", report, re.M):
        found.update(("%s:%s" % (core, name), value) for name, value in (pair.split("=") for pair in line.split()))
    wrong = [pair for pair in state.split() if found.get(pair.split("=")[0]) != pair.split("=")[1]]
    if wrong or " stalled=0 unused=0\n" not in report:
        return ["run doesn't end so under %s: %s" % (way, report)]
    return []


def status_of_assertion(test, answer):
    """The status with `--assert`: 4 where the condition isn't as it claims."""
    is_so = test.proposition is None or answer.is_allowed() == (test.quantifier == "exists")
    return judging.ENDED if is_so else judging.INVALID


def faults_of_assertion(program, test, given, model, answer):
    """How `--assert` does something else than turn the status into this one."""
    done, due = program.run(["why", "--assert", "--model", model], given), status_of_assertion(test, answer)
    same = (done.returncode, done.stdout, done.stderr) == (due, answer.plain.stdout, answer.plain.stderr)
    return [] if same else ["with --assert it has status %s, and not %d, or another answer" % (done.returncode, due)]


class Outcomes:
    """The final states of a test by `outcomes`, for each model, of the places that its condition names."""

    def __init__(self, program):
        self.program, self.found = program, {}

    def can_be(self, test, model, given):
        """Whether what the test asks is so in one of the states. Tests that have the same places looked at have the same states."""
        names = tuple(printing.Looked(test).names)
        if (model, names) not in self.found:
            words = ["outcomes", "--json", "--depth", str(candidates.DEPTHS[model])]
            self.found[model, names] = json.loads(self.program.run(words, given).stdout)["states"]
        claim = refutations.asked_of(test)
        return any(conditions.truth_of(claim, *state_of(test, state["values"])) for state in self.found[model, names])


def state_of(test, values):
    """Registers and words that have these values by their names, and 0 else."""
    registers = [[values.get("%d:%s" % (core, name), 0) for name in litmus.REGISTERS] for core in range(test.cores())]
    return registers, [values.get(name, 0) for name in test.locations]


def theory_allows(text):
    """Whether what the test asks can be so by tools/theory, of x86-TSO; None where that would take long."""
    theory, test = tool_runs.script("theory"), tool_litmus.read_test(text)
    if test.condition is None or theory.candidates_in(test) > MOST_CANDIDATES:
        return None
    quantifier, claim = test.condition
    test.condition = quantifier, ("not", claim) if quantifier == "forall" else claim
    return theory.verdict(test) == "allowed"


def faults_of_test(program, text, with_slips):
    """The faults of one test, under one condition, of both models."""
    program = instruction_sets.Asked(program, text.encode())
    return faults_with(program, Outcomes(program), text, with_slips)


def faults_with(program, found, text, with_slips):
    faults, given, test = [], text.encode(), instruction_sets.read_test(text.encode())
    for model in MODELS:
        answer = Answer(program, given, model)
        told = answer.faults(test, model)
        if not told and "--assert" not in AS_JSON[model]:
            told = faults_of_assertion(program, test, given, model, answer)
        if not told and answer.is_allowed() != found.can_be(test, model, given):
            told = ["outcomes doesn't say so"]
        if not told and answer.is_allowed():
            told = faults_of_run(program, given, model, answer)
        if not told and model == candidates.TSO and theory_allows(text) not in (None, answer.is_allowed()):
            told = ["tools/theory doesn't say so"]
        if not told and with_slips:
            told = reason_slips.judge_printed(test, model, answer.text)
        faults += ["%s: %s" % (model, fault) for fault in told]
    return faults


def faults_of_forms(program, name, text, with_slips):
    """The faults of a test under each of the conditions."""
    program = instruction_sets.Asked(program, text.encode())
    found = Outcomes(program)
    return ["%s: %s" % (form, fault) for form, asking in reason_inputs.with_forms(name, text)
            for fault in judging.faults_told(lambda asking=asking: faults_with(program, found, asking, with_slips))]


# ---- great tests

def timed(program, text):
    """The answer to a great test, its faults and the milliseconds that it took."""
    given = text.encode()
    began = time.monotonic()
    done = program.run(["why"], given)
    took = 1000 * (time.monotonic() - began)
    if done.returncode != judging.ENDED:
        return "Unfinished", [judging.described(done)], took
    printed = done.stdout.decode("latin-1")
    faults = reasons.faults_of(reading.read_test(given), candidates.TSO, printed)
    return "Allowed" if "\nAllowed " in printed else "Never", faults, took


def judge_great(program, seed, part, tally):
    for cores, length, count in reason_inputs.GREAT:
        works = [work for work in reason_inputs.great(cores, length, count, seed) if part in work[0]]
        found = judging.in_processes(lambda work: timed(program, work[1]), works, at_once=1)
        tally.add("great tests", [(name, faults) for (name, _), (_, faults, _) in zip(works, found)])
        for kind in ("of a run", "with values changed"):
            times = [took for (name, _), (_, _, took) in zip(works, found) if name.endswith(kind)]
            words = [word for (name, _), (word, _, _) in zip(works, found) if name.endswith(kind)]
            if times:
                print("%d by %d, %s: %d allowed, %d never, %d unfinished; ms in the median %.1f, at most %.1f" % (
                    cores, length, kind, *(words.count(word) for word in ("Allowed", "Never", "Unfinished")),
                    statistics.median(times), max(times)), flush=True)


# ---- all of it

def inputs(whole, seed):
    """The tests that aren't in the repository as such."""
    yield from reason_inputs.cycles((lambda lines: lines) if whole else lambda lines: lines[seed % EVERY::EVERY])
    yield from reason_inputs.made(MADE_WHOLE if whole else MADE, seed)


def rows_of(tests):
    return [(name, lambda program, name=name, text=text, at=at: faults_of_forms(program, name, text, at % EVERY_SLIP == 0))
            for at, (name, text) in enumerate(tests)]


def main():
    parser = judging.with_programs(__doc__)
    parser.add_argument("--whole", action="store_true", help="all of the list, more made tests, and great ones")
    parser.add_argument("--seed", type=int, default=1)
    asked = parser.parse_args()
    programs, tally = judging.programs_in(asked), judging.Tally()
    tally.add("the judge of reasons", lemma_refutation_slips.judge())
    tally.add("the judge of lines", list(line_fits.judge(reading.read_test(judging.STORE_BUFFERING), candidates.TSO)))
    tally.add("why", judging.judged(rows_of(reason_inputs.repository()), programs, asked.part, at_once=4))
    tally.add("why", judging.judged_in_turn(rows_of(inputs(asked.whole, asked.seed)), programs, asked.part, at_once=4))
    if asked.whole:
        judge_great(programs[0], asked.seed, asked.part, tally)
    return tally.end()


if __name__ == "__main__":
    sys.exit(main())
