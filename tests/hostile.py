#!/usr/bin/env python3
"""Attacks what stands around the program: the script ./tso, installing and removing, the stamp, and the making of a release.

    tests/hostile.py PROGRAM [--of FOLDER] [--part WORD] [--seed S] [--points N | --whole | --every]

It works on small checkouts with the scripts of this one, or of the checkout FOLDER. Each row does one thing to a checkout or to a folder in
which something is installed, and looks that the answer is that of the program, or that the call is refused and nothing was changed.

Then the fault loops: each command that writes is broken at a call that changes a file. All its processes are killed after it, the disk is full
from it on, it fails alone, or a signal comes. What isn't the command's own must be as before; where it wasn't killed, all is as before or
as after, or it says what is left; and a second call ends as if there had been no fault. Of each loop N points (3) are drawn by a seed
S (1); --whole has those that differ in more than how much of a file is written, some 4,500 (fault_loops.Loop.situations), and --every has
all, some 11,000. Without a C compiler, or where no process may be traced, the loops are left out, and a line says so. The last line is
'N passed, M failed'.
"""
import os
import sys
import tempfile

sys.dont_write_bytecode = True
from checks import judging
from checks.hostile import attacked_installs, attacked_script, fault_loops, fault_points


def judge_rows(tally, rows, part):
    """Judges these rows, each a function with its name in the first line of its text, and what it is given."""
    chosen = [(row.__doc__.rstrip("."), row, place) for row, place in rows if part in row.__doc__]
    faults = judging.in_threads(lambda row: judging.faults_told(lambda: row[1](row[2])), chosen)
    tally.add("hostile", zip((name for name, _, _ in chosen), faults))


def chosen_points(loop, asked):
    """The points of a loop at which it is broken."""
    if asked.every or asked.whole:
        return loop.points() if asked.every else loop.situations()
    return fault_points.drawn(loop.points(), asked.seed, asked.points)


def judge_loops(tally, asked):
    """Judges the fault loops of a checkout's scripts, and says how many points each has."""
    for loop in fault_loops.loops(asked.of, asked.part):
        chosen = chosen_points(loop, asked)
        tally.add(loop.name, [("the whole", loop.faults)])
        names = ["%s at change %d" % point for point in chosen]
        tally.add(loop.name, zip(names, judging.in_threads(lambda point: judging.faults_told(lambda: loop.judge(point)), chosen)))
        print("%s: %d calls that change a file, %d of %d points" % (loop.name, len(loop.changes), len(chosen), len(loop.points())), flush=True)


def main():
    words = judging.with_program(__doc__, with_part=False)
    words.add_argument("--of", metavar="FOLDER", type=os.path.abspath, default=judging.TOP)
    words.add_argument("--part", metavar="WORD", default="")
    words.add_argument("--seed", type=int, default=1)
    words.add_argument("--points", type=int, default=3)
    words.add_argument("--whole", action="store_true")
    words.add_argument("--every", action="store_true")
    asked = words.parse_args()
    tally = judging.Tally(shown=100)
    with tempfile.TemporaryDirectory() as room:
        # The script remembers nothing of files that are younger than a second.
        judge_rows(tally, attacked_script.rows(room, asked.of, asked.program), asked.part)
        judge_rows(tally, attacked_installs.rows(room, asked.of), asked.part)
    if fault_points.tracer() is None:
        print("not tried: the fault loops, which trace what they break")
    else:
        tally.shown = 5
        judge_loops(tally, asked)
    return tally.end()


if __name__ == "__main__":
    sys.exit(main())
