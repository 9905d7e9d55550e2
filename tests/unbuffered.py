#!/usr/bin/env python3
"""Holds a machine without store buffers against sequential consistency.

    tests/unbuffered.py PROGRAM [PART-OF-NAME] [--also PROGRAM]

Of each example, on the atomic bus and on the split one: `sweep --depth 0` over 1,000 seeds, and `run --depth 0` under the
choices of each of these seeds. Every printed order keeps program order, without exception, and the final states of these
runs are the states that the sweep lists, each as often as it says.

Of each test of the gallery whose outcome sequential consistency forbids: no such sweep, on either bus, meets it.

A further program (--also) has all sweeps, and runs one in four of the seeds; where an answer is another one, it has all of them.

The last line is 'N passed, M failed'.
"""
import collections
import re
import sys

sys.dont_write_bytecode = True

from checks import judging
from checks.judging import BUSES, EXAMPLES, GALLERY

SEEDS, LENGTH = 1000, 1000


def sweep(program, bus, test):
    words = ["sweep", "--depth", "0", "--bus", bus, "--seeds", str(SEEDS), "--length", str(LENGTH)]
    return program.run(words, test).stdout.decode()


def report_of(program, bus, test, seed):
    choices = b"seed %d %d\n" % (seed, LENGTH)
    return program.run(["run", "--depth", "0", "--bus", bus], test + judging.DIVIDER + choices).stdout.decode()


def entry_out_of_place(report):
    """The first entry of the report's order that stands after a later one of its core's program; None where all keep theirs."""
    last = {}
    for core, place, kind in re.findall(r"^P(\d+):(\d+) (\w+)", report, re.MULTILINE):
        rank = int(place), kind == "LW"
        if rank <= last.get(core, (-1, False)):
            return "P%s:%s %s" % (core, place, kind)
        last[core] = rank
    return None


def final_words(report):
    """The words that a report ends with, by their names: '0:EAX' of a register, 'x' of a location."""
    words = {"%s:%s" % (core, name): value
             for core, line in re.findall(r"^Registers P(\d+) (.*)$", report, re.MULTILINE)
             for name, value in re.findall(r"(\w+)=(\d+)", line)}
    memory = re.search(r"^Memory(.*)$", report, re.MULTILINE).group(1)
    return dict(words, **dict(re.findall(r"(\w+)=(\d+)", memory)))


def faults_of_seeds(program, bus, test):
    swept = sweep(program, bus, test)
    told = {state: int(count) for count, state in re.findall(r"^State (\d+)(.*)$", swept, re.MULTILINE)}
    names = re.findall(r"(\S+)=", next(iter(told), ""))
    found, late, unfinished = collections.Counter(), [], 0
    for seed in range(SEEDS):
        report = report_of(program, bus, test, seed)
        if report.startswith("Unfinished "):
            unfinished += 1
            continue
        entry = entry_out_of_place(report)
        late += [] if entry is None else ["seed %d: %s stands after a later entry of its program" % (seed, entry)]
        words = final_words(report)
        found["".join(" %s=%s" % (name, words[name]) for name in names)] += 1
    faults = late[:1] + (["%d more such seeds" % (len(late) - 1)] if len(late) > 1 else [])
    if found != told:
        faults.append("its seeds end with %s, and the sweep says %s" % (dict(found), told))
    if " ended=%d unfinished=%d\n" % (SEEDS - unfinished, unfinished) not in swept:
        faults.append("%d seeds don't end the test, and the sweep says otherwise" % unfinished)
    return faults


def faults_of_outcome(program, bus, test):
    last = sweep(program, bus, test).splitlines()[-1:]
    return [] if last and re.search(r" Never 0 %d$" % SEEDS, last[0]) else ["the sweep's last line is %s" % last]


def examples():
    """The names and the test of each example. Some differ in their choices alone, which aren't made here: such a test comes once."""
    names = {}
    for name, test, _ in judging.tests_in(EXAMPLES):
        names.setdefault(test, []).append(name)
    return [(" and ".join(alike), test) for test, alike in names.items()]


def rows(_):
    for name, test in examples():
        for bus in BUSES:
            yield "%s, %s bus" % (name, bus), lambda program, bus=bus, test=test: faults_of_seeds(program, bus, test)
    for name, test, _ in judging.tests_in(GALLERY):
        if b"\nSC=forbidden\n" in test:
            for bus in BUSES:
                yield "%s, %s bus" % (name, bus), lambda program, bus=bus, test=test: faults_of_outcome(program, bus, test)


if __name__ == "__main__":
    sys.exit(judging.judge_rows(__doc__, "unbuffered", rows, at_once=1, answers_every=judging.EVERY))
