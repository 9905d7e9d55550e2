#!/usr/bin/env python3
"""Holds what a search says at a terminal while it goes on.

    tests/progress.py PROGRAM [--also PROGRAM]

`outcomes` searches a test of which it keeps more than 500,000 states, once to its end and once to the limit of --states. Standard
output and the status are the same where standard error is a terminal and where it is a pipe. At the terminal a line says how many
states are kept, at each 250,000 once, and how many final states were met. Each is written over the one before, and at the end what
stands there is what stands on the pipe. A further program, which may be built without much care for speed, is asked for fewer states.

The last line is 'N passed, M failed'.
"""
import os
import re
import subprocess
import sys
import threading

sys.dont_write_bytecode = True

from checks import judging

STRIDE = 250_000
# The most states that are added at once: one for each choice of four cores.
SPARE = 8
PAGE = 65_536

LINE = re.compile(rb"\rsearching: (\d+) states kept, (\d+) final states met")

# Which runs are looked at: the words, their status, and at least how often a line comes.
RUNS = [
    (["outcomes", "--states", "10000000"], judging.ENDED, 2),
    (["outcomes", "--states", "300000"], judging.UNFINISHED, 1),
]
SHORT_RUNS = [(["outcomes", "--states", "260000"], judging.UNFINISHED, 1)]


def great_test():
    """Four cores that store into three locations and load from them, three times each; the last core's last load is left out."""
    rows = [" P0 | P1 | P2 | P3 ;"]
    for turn in range(3):
        stores = ["MOV [%s],$%d" % ("xyz"[(turn + core) % 3], 2 * turn + 1 + 50 * core) for core in range(4)]
        loads = ["MOV %s,[%s]" % (("EAX", "EBX", "ECX")[turn], "xyz"[(turn + core + 1) % 3]) for core in range(4)]
        rows += [" %s ;" % " | ".join(cells) for cells in (stores, loads if turn < 2 else loads[:3] + [""])]
    rows.append("exists (0:EAX=0 /\\ 1:EAX=0 /\\ 2:EAX=0 /\\ 3:EAX=0)")
    return ("X86 great\n{ }\n%s\n" % "\n".join(rows)).encode()


def at_a_terminal(program, words, given):
    """The answer where standard error is a terminal, and what was written there."""
    ours, theirs = os.openpty()
    written = []

    def listen():
        try:
            while True:
                part = os.read(ours, PAGE)
                if not part:
                    return
                written.append(part)
        except OSError:
            # The other side is closed.
            return

    listener = threading.Thread(target=listen)
    listener.start()
    try:
        done = subprocess.run([program.path] + words, input=given, stdout=subprocess.PIPE, stderr=theirs, check=False)
    finally:
        os.close(theirs)
        listener.join()
        os.close(ours)
    return done, b"".join(written)


def screen(written):
    """The lines that stand there at the end, however long: a carriage return leads back to the line's begin."""
    lines, column = [bytearray()], 0
    for byte in written:
        if byte == 10:
            lines.append(bytearray())
            column = 0
        elif byte == 13:
            column = 0
        else:
            lines[-1][column:column + 1] = bytes([byte])
            column += 1
    return [bytes(line).rstrip() for line in lines]


def faults_of(program, words, status, least):
    """What is wrong with the line at the terminal, and with the answer beside it."""
    given = great_test()
    whole = program.run(words, given)
    done, written = at_a_terminal(program, words, given)
    faults = []
    if (done.returncode, done.stdout) != (whole.returncode, whole.stdout) or whole.returncode != status:
        faults.append("another answer at a terminal: %s" % judging.described(done))
    if b"searching" in whole.stderr:
        faults.append("words about the search on a pipe: %s" % judging.described(whole))
    if screen(written) != screen(whole.stderr):
        faults.append("at the end stands %r" % screen(written))
    told = [(int(kept), int(finals)) for kept, finals in LINE.findall(written)]
    if len(told) < least:
        faults.append("%d lines about the search" % len(told))
    for turn, (kept, finals) in enumerate(told, 1):
        if not turn * STRIDE <= kept < turn * STRIDE + SPARE:
            faults.append("line %d has %d states" % (turn, kept))
        if turn > 1 and finals < told[turn - 2][1]:
            faults.append("line %d has fewer final states than the one before" % turn)
    return faults


def main():
    programs = judging.programs_in(judging.with_programs(__doc__, with_part=False).parse_args())
    tally = judging.Tally()
    for number, program in enumerate(programs):
        for words, status, least in RUNS if number == 0 else SHORT_RUNS:
            tally.add("progress", [(" ".join(words), faults_of(program, words, status, least))])
    return tally.end()


if __name__ == "__main__":
    sys.exit(main())
