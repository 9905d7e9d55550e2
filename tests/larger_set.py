#!/usr/bin/env python3
"""Holds the larger set of instructions against machines and theories of its own, on tests made at random, and on the processor.

    tests/larger_set.py PROGRAM [--tests N] [--processor M] [--seed S] [--also PROGRAM]

N (40) tests of two to four cores are made from the seed S (1). What each can end with is found by a machine of write buffers and a lock
(tests/checks/machines/lock_machine.py), which shares nothing with the program, the second program or the tools. Then:

- `outcomes` has just these ends, at depth 32, and prints them as the second program does;
- tools/theory allows just these ends, of the tests with no more than 2,000,000 candidates;
- `why` is right in each of the three quantifiers, of both models: tests/why.py says how it is judged;
- `trace` on both buses under each of the four protocols prints what the second program does, and ends in one of these ends; `check` finds
  its order valid, and the choices of `witness` lead there again.

M (20) tests are run on this machine's processor by tools/hardware: what is seen is allowed. A further program (--also) has one test in
four. The last line is 'N passed, M failed'.
"""
import itertools
import os
import re
import sys
import tempfile

sys.dont_write_bytecode = True

from checks import instruction_sets, judging
from checks.machines import larger_set_tests, lock_machine
from checks.tools import hardware_runs, tool_runs

import why
from reference import commands, litmus

import litmus as tool_litmus

TESTS, PROCESSOR, SECONDS = 40, 20, 0.1

MOST_CANDIDATES = 2_000_000

# What a run's machine has beside its protocol and bus: the test's turn says which.
SHAPES = tuple(("--depth %d --sets %d --ways %d --words %d" % shape).split()
               for shape in ((4, 1, 2, 1), (1, 1, 1, 1), (32, 2, 1, 2), (0, 1, 2, 4), (2, 2, 2, 1)))

LARGER = ["--instructions", litmus.ALL]


def answer(program, words, given):
    """The program's answer, and how it differs from the second program's."""
    done, words = program.run(words + LARGER, given), words + LARGER
    due = commands.answer(words, given, done.stdout)
    same = (done.returncode, done.stdout) == (due.status, due.output)
    return done, [] if same else ["%s: %s, and not status %d, %s" % (words, judging.described(done), due.status, judging.shown(due.output))]


class Due:
    """A made test: its texts, one for each quantifier, and what it can end with, by the names of places."""

    def __init__(self, seed, number):
        self.number, (self.name, self.texts, test, ends) = number, larger_set_tests.made(seed, number)
        self.given = self.texts[0].encode()
        self.ends = [lock_machine.named(test, end) for end in ends]

    def ends_at(self, places):
        return {tuple(end.get(place, 0) for place in places) for end in self.ends}


def faults_of_outcomes(program, due):
    done, faults = answer(program, ["outcomes", "--show", "all"], due.given)
    states = [dict(pair.split("=") for pair in line.split()) for line in re.findall(r"^State(.*)$", done.stdout.decode("latin-1"), re.M)]
    places = list(states[0]) if states else []
    found = {tuple(int(state[place]) for place in places) for state in states}
    return faults if found == due.ends_at(places) else faults + ["outcomes has %s, and not %s" % (found, due.ends_at(places))]


def candidates_in(due):
    return tool_runs.script("theory").candidates_in(tool_litmus.read_test(due.texts[0]))


def faults_of_theory(due):
    """How the ends that tools/theory allows are others."""
    theory, test = tool_runs.script("theory"), tool_litmus.read_test(due.texts[0])
    places = [(core, name) for core in range(len(test.programs)) for name in tool_litmus.REGISTERS] + test.locations()
    found = {tuple(last.get(place, 0) for place in places) for last in theory.allowed_ends(test, True)}
    wanted = due.ends_at([tool_litmus.place_text(place) for place in places])
    return [] if found == wanted else ["theory allows %s, and not %s" % (sorted(found), sorted(wanted))]


def faults_of_run(program, due, machine):
    """How a run on a machine differs from the second program's, or ends elsewhere; and `check` and `witness` of its order."""
    words = machine + SHAPES[due.number % len(SHAPES)]
    choices = b"seed %d 2000\n" % due.number
    traced, faults = answer(program, ["trace"] + words, due.given + judging.DIVIDER + choices)
    report = traced.stdout.decode("latin-1")
    if faults or traced.returncode != judging.ENDED:
        return faults or ["%s: the run doesn't end" % words]
    test = instruction_sets.read_test(due.given)
    values = dict(re.findall(r" (\w+)=(\d+)", re.search(r"^Memory(.*)$", report, re.M)[1]))
    for core, line in re.findall(r"^Registers P(\d)(.*)$", report, re.M):
        values.update(("%s:%s" % (core, name), value) for name, value in re.findall(r" (\w+)=(\d+)", line))
    places = [name for name in values if ":" in name or name in test.locations]
    if tuple(int(values[place]) for place in places) not in due.ends_at(places):
        faults.append("%s: the run ends elsewhere: %s" % (words, report))
    with_order = due.given + judging.DIVIDER + traced.stdout
    checked, more = answer(program, ["check"], with_order)
    faults += more if checked.stdout == b"Check valid\n" else more + ["%s: its order: %s" % (words, judging.described(checked))]
    found, more = answer(program, ["witness", "--depth", "32"], with_order)
    again, _ = answer(program, ["run", "--depth", "32"], due.given + judging.DIVIDER + found.stdout)
    same = re.search(rb"^Order\n.*^Endorder", traced.stdout, re.M | re.S)[0] in again.stdout and b" stalled=0 unused=0\n" in again.stdout
    return faults + more + ([] if same else ["%s: witness: %s" % (words, judging.described(found))])


def rows_of(seed, number):
    """What is judged of a test, as functions of the program."""
    due = Due(seed, number)
    yield "outcomes", lambda program: faults_of_outcomes(program, due)
    if candidates_in(due) <= MOST_CANDIDATES:
        yield "theory", lambda program: faults_of_theory(due)
    for quantifier, text in zip(larger_set_tests.QUANTIFIERS, due.texts):
        yield "why " + quantifier, lambda program, text=text: why.faults_of_test(program, text, due.number % 10 == 0)
    for protocol, bus in itertools.product(judging.PROTOCOLS, judging.BUSES):
        machine = ["--protocol", protocol, "--bus", bus]
        yield "trace %s %s" % (protocol, bus), lambda program, machine=machine: faults_of_run(program, due, machine)


def judged(programs, seed, number):
    return [(what.split()[0], "test %d of seed %d, %s" % (number, seed, what), faults) for what, judge in rows_of(seed, number)
            for faults in judging.faults_on_each(judging.in_turn(programs, number), judge)]


def judge_processor(program, seed, count, tally):
    """Tests on this machine's processor, those with several ends first."""
    missing = hardware_runs.why_not()
    if missing or not count:
        print("not tried: tests on this machine's processor: %s" % (missing or "none is asked for"))
        return
    with tempfile.TemporaryDirectory() as room:
        for number in range(count):
            tool_runs.write(os.path.join(room, "larger%d.litmus" % number), larger_set_tests.made(seed, number)[1][0])
        done = tool_runs.tool("hardware", "--program", program, "--seconds", str(SECONDS), room)
    last = done.stdout.splitlines()[-1:] or [""]
    print("on this machine's processor: " + last[0])
    same = done.returncode == 0 and last[0].startswith("%d tests, " % count) and last[0].endswith(" 0 states not allowed")
    tally.add("on this machine's processor", [("%d tests" % count, [] if same else [tool_runs.described(done)])])


def main():
    words = judging.with_programs(__doc__, with_part=False)
    words.add_argument("--tests", type=int, default=TESTS)
    words.add_argument("--processor", type=int, default=PROCESSOR)
    words.add_argument("--seed", type=int, default=1)
    asked = words.parse_args()
    programs, tally = judging.programs_in(asked), judging.Tally()
    counts = {}
    for results in judging.in_processes(lambda number: judged(programs, asked.seed, number), range(asked.tests), at_once=2):
        for group, name, faults in results:
            counts[group] = counts.get(group, 0) + 1
            tally.add(group, [(name, faults)])
    print("%d tests of seed %d: %s" % (asked.tests, asked.seed, ", ".join("%s %d" % pair for pair in counts.items())))
    judge_processor(programs[0].path, asked.seed, asked.processor, tally)
    return tally.end()


if __name__ == "__main__":
    sys.exit(main())
