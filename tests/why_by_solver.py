#!/usr/bin/env python3
"""Holds the verdicts of `why` against a solver over the published relational model, on tests made at random and those of the gallery.

    tests/why_by_solver.py PROGRAM [PART-OF-NAME] [--tests N] [--seed S] [--seconds T]

N (50) tests of each of three kinds are made from the seed S (1): of loads, stores and fences mostly, of the larger set of instructions, and of
three to eight cores with half of the instructions or more locked. Each is asked of x86-TSO and of sequential consistency, and so is each test of
the gallery. What the solver finds within T (20) seconds is what `why` must say. What either leaves open within that time is counted.

It needs Debian's package python3-z3, so it is run by /usr/bin/python3 where that is there. The last line is 'N passed, M failed'.
"""
import os
import subprocess
import sys

sys.dont_write_bytecode = True

DEBIAN = "/usr/bin/python3"

try:
    import z3  # noqa: F401
except ImportError:
    if os.path.realpath(sys.executable) != os.path.realpath(DEBIAN) and os.path.exists(DEBIAN) \
            and subprocess.run([DEBIAN, "-c", "import z3"], stderr=subprocess.DEVNULL).returncode == 0:
        os.execv(DEBIAN, [DEBIAN] + sys.argv)
    print("why by a solver: left out, since python3-z3 isn't there: apt-get install -y python3-z3\n0 passed, 0 failed")
    sys.exit(0)

from checks import judging
from checks.machines import larger_set_tests
from checks.reasons import locked_tests, published_models, reason_inputs

TESTS, SECONDS = 50, 20
WORDS = {published_models.TSO: [], published_models.SC: ["--model", "sc"]}
WORD = {True: "Allowed", False: "Never"}


def asked_tests(words):
    """Names and texts of tests with a condition."""
    yield from ((name, text) for name, text in reason_inputs.repository() if "gallery" in name)
    for name, text in reason_inputs.made(words.tests, words.seed):
        yield name, text
    for number in range(words.tests):
        yield "larger test %d" % number, larger_set_tests.made(words.seed, number)[1][number % 3]
        yield "locked test %d" % number, locked_tests.made(words.seed, number)


def said(program, text, model, seconds):
    """Whether `why` says that it can be; None where it doesn't say it in this time."""
    command = [program, "why", "--instructions", "all"] + WORDS[model]
    try:
        done = subprocess.run(command, input=text.encode(), capture_output=True, timeout=seconds)
    except subprocess.TimeoutExpired:
        return None
    lines = {line.split()[0] for line in done.stdout.decode().splitlines() if line}
    return True if "Allowed" in lines else False if "Never" in lines else None


def judge(program, name, text, seconds):
    """What differs, and how many answers were left open."""
    faults, still_open = [], 0
    for model in WORDS:
        got, due = said(program, text, model, seconds), published_models.can_be(text, model, seconds)
        if None in (got, due):
            still_open += 1
        elif got != due:
            faults.append("%s: why says %s, the solver %s" % (model, WORD[got], WORD[due]))
    return faults, still_open


def main():
    words = judging.with_program(__doc__)
    for name, default in (("tests", TESTS), ("seed", 1), ("seconds", SECONDS)):
        words.add_argument("--" + name, type=int, default=default)
    words = words.parse_args()
    tally, left_open = judging.Tally(), 0
    for name, text in asked_tests(words):
        if words.part in name and published_models.tool_litmus.read_test(text).condition is not None:
            faults, still_open = judge(words.program, name, text, words.seconds)
            left_open += still_open
            tally.add("why by a solver", [(name, faults)])
    print("%d answers are open, of the program or of the solver, after %d s" % (left_open, words.seconds))
    return tally.end()


if __name__ == "__main__":
    sys.exit(main())
