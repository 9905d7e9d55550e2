#!/usr/bin/env python3
"""Holds the hints of a built program, which stand on standard error, against the rows of tests/data/rows/hints.rows.

    tests/hints.py PROGRAM [PART-OF-HINT] [--also PROGRAM]

tests/checks/rows.py says how a row is written; standard error is the hint, and empty where there must be none. Where standard error is closed,
standard output and the status must be the same.

Then the hints are followed, word by word as tests/checks/hints/hint_changes.py has it: on tests in AT&T's order of operands, which are read in the
end as the tests that tools/import makes of them (tests/checks/hints/at_and_t_texts.py); and on 400 wrong texts, each of which is read after one to
three of them (tests/checks/hints/wrong_texts.py).

The last line is 'N passed, M failed'.
"""
import sys

sys.dont_write_bytecode = True
from checks import judging, rows
from checks.hints import at_and_t_texts, wrong_texts


def faults_of(program, row):
    """How the answer to a row's input differs from the row, and the answer where standard error is closed."""
    faults = judging.difference(program.run(row.words, row.given), row.status, row.output, row.errors)
    closed = ["sh", "-c", 'exec "$0" "$@" 2>&-', program.path] + row.words
    return faults + judging.difference(judging.started(closed, row.given), row.status, row.output, b"")


def named(row):
    return "%s %s" % (row.name, row.errors.decode().strip())


def works(_):
    held = [(named(row), lambda program, row=row: faults_of(program, row)) for row in rows.read("hints").values()]
    return held + at_and_t_texts.works() + wrong_texts.works()


if __name__ == "__main__":
    sys.exit(judging.judge_rows(__doc__, "hints", works))
