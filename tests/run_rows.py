#!/usr/bin/env python3
"""Holds a built program against the rows of tests/data/rows/.

    tests/run_rows.py PROGRAM [PART-OF-NAME] [--also PROGRAM]

A row is a command line with its standard input, and what the answer must be: tests/checks/rows.py says how it is written. The rows of hints
are held by tests/hints.py.

Then come the round trips: of each example whose run ends, the printed order is handed to `witness`, and the choices
that it finds to `run` again, under each protocol: the same order, no choice stalled and none left over.

Then come the runs on the split bus: each example's test under its choices and a seed's after them, under each protocol
and in some shapes of the caches. Each ends, and `check` finds the printed order valid.

Last come files of rows that aren't in the form: each is refused with its line and the reason (tests/checks/row_forms.py).

The last line is 'N passed, M failed'.
"""
import sys

sys.dont_write_bytecode = True
from checks import judging, row_forms, row_works


def form_works():
    return [(name, lambda _, judge=judge: judge()) for name, judge in row_forms.works()]


if __name__ == "__main__":
    sys.exit(judging.judge_rows(__doc__, "rows", lambda program: row_works.works(program) + form_works(), kind=judging.Started))
