#!/usr/bin/env python3
"""Holds examples/algorithms against the program, and its README's table against the files.

    tests/algorithms.py PROGRAM [PART-OF-NAME] [--also PROGRAM]
    tests/algorithms.py PROGRAM --write

Each test says in `TSO=` and `SC=` whether what it asks is allowed there, and in `Asks=` what that means.

- `why` answers so in both models, with a right reason (tests/why.py judges it), and `outcomes` at depth 32 and 0;
- a machine of write buffers and a lock (tests/checks/machines/lock_machine.py) has just the ends that `outcomes` has, and tools/theory the verdict;
- run on this machine's processor by tools/hardware, each shows nothing that isn't allowed;
- README.md has a line for each; --write writes its table anew.

The last line is 'N passed, M failed'.
"""
import os
import re
import sys

sys.dont_write_bytecode = True

from checks import instruction_sets, judging
from checks.machines import lock_machine
from checks.tools import hardware_runs, tool_runs

import why
from reference import candidates

import litmus as tool_litmus

FOLDER = os.path.join(judging.EXAMPLES, "algorithms")
README = os.path.join(FOLDER, "README.md")
HEAD = "| Test | Asks | TSO | SC |\n|---|---|---|---|\n"
VERDICTS = {True: "allowed", False: "forbidden"}
SECONDS = "0.05"


class Algorithm:
    """A file: its text, what it asks, and what it says of each model."""

    def __init__(self, name, text):
        self.name, self.text, self.given = name, text, text.encode()
        facts = dict(line.split("=", 1) for line in text.splitlines() if re.match(r"(Asks|TSO|SC)=", line))
        self.family, self.asks = family_of(name), facts["Asks"]
        self.says = {candidates.TSO: facts["TSO"], candidates.SC: facts["SC"]}

    def line(self):
        return "| `%s` | %s | %s | %s |\n" % (self.name, self.asks, self.says[candidates.TSO], self.says[candidates.SC])


def algorithms():
    for name, given, _ in judging.tests_in(FOLDER):
        yield Algorithm(name[:-len(".litmus")], given.decode())


def faults_of_why(program, one):
    faults, asked = why.faults_of_test(program, one.text, True), instruction_sets.Asked(program, one.given)
    for model, due in one.says.items():
        found = VERDICTS[why.Answer(asked, one.given, model).is_allowed()]
        faults += [] if found == due else ["%s: why has %s, and the file %s" % (model, found, due)]
        words = ["outcomes", "--depth", str(candidates.DEPTHS[model])]
        printed = asked.run(words, one.given).stdout.decode()
        found = VERDICTS["\nObservation %s Never " % one.name not in printed]
        faults += [] if found == due else ["%s: outcomes has %s, and the file %s" % (model, found, due)]
    return faults


def faults_of_ends(program, one):
    asked, test = instruction_sets.Asked(program, one.given), lock_machine.Test(one.text)
    printed = asked.run(["outcomes", "--show", "all"], one.given).stdout.decode()
    states = [dict(pair.split("=") for pair in line.split()) for line in re.findall(r"^State(.*)$", printed, re.M)]
    ends = [lock_machine.named(test, end) for end in lock_machine.ends(test)]
    due = {tuple(sorted((place, end.get(place, 0)) for place in states[0])) for end in ends}
    found = {tuple(sorted((place, int(value)) for place, value in state.items())) for state in states}
    return [] if found == due else ["outcomes has %s, and the machine with a lock %s" % (sorted(found - due), sorted(due - found))]


def faults_of_theory(one):
    found = tool_runs.script("theory").verdict(tool_litmus.read_test(one.text))
    return [] if found == one.says[candidates.TSO] else ["theory says %s" % found]


def faults_on_processor(program):
    missing = hardware_runs.why_not()
    if missing:
        print("not tried: tests on this machine's processor: %s" % missing)
        return []
    done = tool_runs.tool("hardware", "--program", program.path, "--seconds", SECONDS, FOLDER)
    last = done.stdout.splitlines()[-1:] or [""]
    print("on this machine's processor: " + last[0])
    return [] if done.returncode == 0 and last[0].endswith(" 0 states not allowed") else [tool_runs.described(done)]


def table():
    """The README's table: algorithms in the order in which it has them, the tests of each by their files' names."""
    known = [family_of(name) for name in re.findall(r"^\| `([^`]*)`", judging.content(README), re.M)]
    found = sorted(algorithms(), key=lambda one: known.index(one.family) if one.family in known else len(known))
    return HEAD + "".join(one.line() for one in found)


def family_of(name):
    """The name of a test's algorithm: what stands before a sign."""
    return re.match(r"\w+", name)[0]


def faults_of_readme():
    _, _, rest = judging.content(README).partition(HEAD)
    return judging.lines_that_differ(table().encode(), (HEAD + rest).encode())


def rows():
    yield "README.md", lambda program: faults_of_readme()
    for one in algorithms():
        yield one.name + ", why", lambda program, one=one: faults_of_why(program, one)
        yield one.name + ", ends", lambda program, one=one: faults_of_ends(program, one)
        yield one.name + ", theory", lambda program, one=one: faults_of_theory(one)


def check(words):
    programs, tally = judging.programs_in(words), judging.Tally(shown=100)
    tally.add("algorithms", judging.judged(list(rows()), programs, words.part, at_once=2))
    if not words.part:
        tally.add("algorithms", [("on this machine's processor", faults_on_processor(programs[0]))])
    return tally.end()


def write(words):
    text = judging.content(README).partition(HEAD)[0] + table()
    with open(README, "w", encoding="ascii") as file:
        file.write(text)
    return 0


if __name__ == "__main__":
    sys.exit(judging.check_or_write(judging.with_programs(__doc__), check, write))
