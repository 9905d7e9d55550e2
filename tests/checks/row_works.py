"""What is judged by the rows of tests/data/rows/ and by the examples: answers, round trips of orders, and runs on the split bus."""
import re

from . import judging, rows
from .judging import DIVIDER, ENDED, EXAMPLES, PROTOCOLS, REFUSED, UNFINISHED

SHAPES = (["--sets", "1", "--ways", "1"], ["--sets", "2", "--ways", "2"], ["--ways", "2", "--words", "4"])
SEED = b" seed 1 5000\n"

# Rows that have a script of their own.
OTHERS = ("hints",)


def faults_of_errors(wanted, got):
    """How standard error differs from what it must be: a text, an expression, or None for any."""
    if isinstance(wanted, re.Pattern):
        return [] if wanted.fullmatch(got) else ["standard error %r" % got[:200]]
    return judging.lines_that_differ(wanted, got) if wanted is not None else []


def faults_of_answer(done, row):
    faults = ["status %s, and not %d" % (done.returncode, row.status)] if done.returncode != row.status else []
    return faults + judging.lines_that_differ(row.output, done.stdout) + faults_of_errors(row.errors, done.stderr)


def faults_of_beginnings(program, row):
    """How the answers to the beginnings of a text differ from the row: which refuses each, or that none does."""
    faults = []
    for given, refusal in row.beginnings():
        done = program.run(row.words, given)
        wanted = (REFUSED,) if refusal else (ENDED, UNFINISHED)
        if done.returncode not in wanted or refusal and (done.stdout != refusal or faults_of_errors(row.errors, done.stderr)):
            faults.append("%d bytes: %s" % (len(given), judging.described(done)))
    return faults


def faults_of(program, row):
    if row.value("beginnings"):
        return faults_of_beginnings(program, row)
    return faults_of_answer(program.run(row.words, row.given), row)


def order_in(report):
    return re.search(rb"^Order\n.*^Endorder [0-9]+$", report, re.MULTILINE | re.DOTALL).group()


def faults_of_round_trip(program, test, choices, protocol):
    report = program.run(["run"], test + DIVIDER + choices).stdout
    found = program.run(["witness"], test + DIVIDER + report)
    again = program.run(["run", "--protocol", protocol], test + DIVIDER + found.stdout)
    if found.returncode != ENDED or again.returncode != ENDED:
        return ["no choices were found, or they don't end the test"]
    faults = judging.lines_that_differ(order_in(report), order_in(again.stdout))
    if b" stalled=0 unused=0\n" not in again.stdout:
        faults.append("a choice stalled or was left over")
    return faults


def round_trips(program):
    for name, test, choices in judging.tests_in(EXAMPLES):
        ends = program.run(["run"], test + DIVIDER + choices).returncode == ENDED
        for protocol in PROTOCOLS if ends else ():
            yield ("round trip of %s under %s" % (name, protocol),
                   lambda program, test=test, choices=choices, protocol=protocol: faults_of_round_trip(program, test, choices, protocol))


def faults_of_split_run(program, test, choices, words):
    done = program.run(["run", "--bus", "split"] + words, test + DIVIDER + choices + SEED)
    if done.returncode != ENDED:
        return ["the run doesn't end"]
    if b" bus=split\n" not in done.stdout:
        return ["the machine's line doesn't name the bus"]
    checked = program.run(["check"], test + DIVIDER + done.stdout)
    return judging.lines_that_differ(b"Check valid\n", checked.stdout)


def split_runs():
    return [("%s on the split bus, %s" % (name, " ".join(words)),
             lambda program, test=test, choices=choices, words=words: faults_of_split_run(program, test, choices, words))
            for name, test, choices in judging.tests_in(EXAMPLES)
            for words in (["--protocol", protocol] + shape for protocol in PROTOCOLS for shape in SHAPES)]


def works(program, wanted=lambda row: True):
    """What is judged, as pairs of a name and a function of a program's faults: those of the rows that are wanted, round trips, split runs."""
    kept = [row for row in rows.all_rows(without=OTHERS).values() if wanted(row)]
    return [*((row.name, lambda program, row=row: faults_of(program, row)) for row in kept), *round_trips(program), *split_runs()]
