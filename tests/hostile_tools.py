#!/usr/bin/env python3
"""Attacks the tools for many tests, tools/, by what they are given: nothing that isn't theirs is lost, and nothing is left running.

    tests/hostile_tools.py PROGRAM [PART-OF-NAME] [--tools FOLDER] [--whole] [--seed S]

- What they write (checks/hostile/files_of_others.py): files that are one, files that are somebody else's, results that are none, full disks.
- Files of results that others replace, remove or change meanwhile (checks/hostile/replaced_results.py).
- What they start (checks/hostile/ended_tools.py): each tool is ended by INT, TERM, HUP and KILL, and no process or folder is left.
- What they read (checks/hostile/hostile_texts.py): texts of 64 KiB that would take long, names with markup or with what steers a terminal, JSON of
  other kinds, streams that are closed; the statuses of all tools.
- Faults (checks/hostile/faulty_writes.py): each call of a tool that writes is killed after a system call that changes a file, or has no more room
  from one on. What isn't the tool's own is as before, and a second call ends as if there had been no fault. Of these points some are drawn, by
  the seed (1); with --whole each is tried, and those of campaign and of runs on the processor then alone.
- Options (checks/hostile/senseless_options.py): each without a value, and with some that it can't mean; files that can't be read.
- Made texts for the importer (made_imports.py), a few hundred; that script makes as many as it's told to.

Each row has a folder of its own. --tools has the tools of another checkout attacked. The last line is 'N passed, M failed'.
"""
import os
import signal
import sys

sys.dont_write_bytecode = True
from checks import judging
from checks.hostile import attacked_tools, ended_tools, faulty_writes, files_of_others, hostile_texts, replaced_results, senseless_options
from checks.tools import tool_runs

import made_imports

# Texts that are made for the importer.
MADE = 400


def heed_signals():
    """Has the tools heed the signals that whoever started this script ignores, as nohup does: a process takes that over."""
    for one in (signal.SIGINT, signal.SIGTERM, signal.SIGHUP):
        if signal.getsignal(one) == signal.SIG_IGN:
            signal.signal(one, signal.SIG_DFL)


def main():
    parser = judging.with_program(__doc__)
    parser.add_argument("--tools", default=tool_runs.TOOLS, metavar="FOLDER")
    parser.add_argument("--whole", action="store_true")
    parser.add_argument("--seed", type=int, default=1)
    asked = parser.parse_args()
    heed_signals()
    rows = files_of_others.ROWS + replaced_results.ROWS + hostile_texts.ROWS + ended_tools.ROWS
    rows = [(name, judge) for name, judge in rows if asked.part in name]
    # some that take long stand side by side
    rows = [row for at in range(16) for row in rows[at::16]]

    processors = os.sched_getaffinity(0)

    def judged(row):
        # tools/hardware has a processor for each core of a test
        os.sched_setaffinity(0, processors)
        wrong = attacked_tools.Calls(asked.tools, asked.program).in_room(row[1])
        return row[0], [wrong] if wrong else []
    tally = judging.Tally(shown=200)
    tally.add("hostile tools", judging.in_processes(judged, rows, at_once=1))
    if os.path.realpath(asked.tools) == os.path.realpath(tool_runs.TOOLS):
        tally.add("options", senseless_options.judged(asked.program, asked.part))
        tally.add("faults", faulty_writes.judged(asked.program, asked.part, None if asked.whole else asked.seed))
        tally.add("made texts", made_imports.judged(MADE, asked.seed) if asked.part in "made texts" else [])
    return tally.end()


if __name__ == "__main__":
    sys.exit(main())
