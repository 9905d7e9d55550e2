#!/usr/bin/env python3
"""Writes the expected output of the rows in tests/data/rows/ anew, as a built program answers them.

    tests/renew_rows.py PROGRAM [PART-OF-NAME]

For a change of what is printed: run it once, and read what `git diff` shows of tests/data/rows/. A row keeps its words, its input
and its status, and its file all else. Where the program's status is another, the row is left as it is and named: no change of a text
alone does that. Standard error is written only where the row says what it must be. The rows of beginnings are left out. The last
line is 'N written, M as before, K left'.
"""
import sys

sys.dont_write_bytecode = True
from checks import judging, rows


def changes(row, done):
    """The texts of a row that are others in this answer, as triples of the row, the key and the text."""
    texts = {"output": done.stdout, "errors": done.stderr}
    return [(row, key, text) for key, text in texts.items() if key in row.own and row.own[key].text != text]


def main():
    asked = judging.asked(__doc__)
    named = [row for name, row in rows.all_rows().items() if asked.part in name and not row.value("beginnings")]
    program = judging.Started(asked.program)
    answers = judging.in_threads(lambda row: program.run(row.words, row.given), named)
    same = [(row, done) for row, done in zip(named, answers) if done.returncode == row.status]
    for row, done in zip(named, answers):
        if done.returncode != row.status:
            print("%s: status %d: left as it is" % (row.name, done.returncode))
    written = [changes(row, done) for row, done in same if changes(row, done)]
    rows.write([change for row_changes in written for change in row_changes])
    print("%d written, %d as before, %d left" % (len(written), len(same) - len(written), len(named) - len(same)))
    return 0 if same and len(same) == len(named) else 1


if __name__ == "__main__":
    sys.exit(main())
