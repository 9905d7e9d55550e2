#!/usr/bin/env python3
"""Runs a built program on each machine that its options allow.

    tests/every_machine.py PROGRAM [PART-OF-NAME] [--also PROGRAM]

Under each protocol and on both buses: each depth of the store buffers, 0 to 32, with a core that fills its buffer and
empties it again; and each shape of the caches, 1 to 8 sets, 1 to 8 ways and 1, 2 or 4 words of a line, with three cores that
share more lines than there is room for. Each run ends with status 0 and names its machine, and `check` finds the printed order
valid. On the atomic bus a run prints the same whatever the protocol and the shape, but for its second line and the `Cache`
lines, and as many choices stall as the depth has it. `trace` prints the same report with a line for each choice that was used in it.

A further program (--also) is run on one in four of the machines, in turn. The last line is 'N passed, M failed'.
"""
import itertools
import sys

sys.dont_write_bytecode = True

from checks import judging
from checks.judging import BUSES, PROTOCOLS

DEPTHS = range(33)
SHAPES = tuple(itertools.product(range(1, 9), range(1, 9), (1, 2, 4)))

DEFAULT_DEPTH, DEFAULT_SHAPE = 4, (1, 2, 1)

# As many plain stores as a program may have: a buffer of any depth is filled.
STORES = 32
FILLING = b"X86 filling\n{ }\nP0 ;\n" + b"".join(b"MOV [v%d],$%d ;\n" % (at % 3, at) for at in range(STORES))
FILL_AND_EMPTY = b"0s " * STORES + b"0d " * STORES + b"0s 0d " * STORES + b"seed 1 2000\n"

# Sixteen locations, each core's in another order, plain and locked.
SHARED = 16
SHARING = (b"X86 sharing\n{ %s}\nP0 | P1 | P2 ;\n" % b"".join(b"v%d=%d; " % (at, at) for at in range(SHARED))
           + b"".join(b"MOV [v%d],$%d | MOV EAX,[v%d] | LOCK XADD [v%d],EBX ;\nMOV ECX,[v%d] | MOV [v%d],EAX | MOV EBX,[v%d] ;\n"
                      % (at, at, 3 * at % SHARED, 5 * at % SHARED, 7 * at % SHARED, 9 * at % SHARED, 11 * at % SHARED)
                      for at in range(SHARED)))
SHARE = b"seed 1 5000\n"


def machine_line(protocol, bus, depth, shape):
    line = "Machine %s depth=%d sets=%d ways=%d words=%d" % ((protocol, depth) + shape)
    return (line + (" bus=split" if bus == "split" else "") + "\n").encode()


def told(machine):
    return machine_line(*machine).decode().strip()


def words_of(protocol, bus, depth, shape):
    sets, ways, words = map(str, shape)
    return ["run", "--protocol", protocol, "--bus", bus, "--depth", str(depth), "--sets", sets, "--ways", ways, "--words", words]


def told_alike(report):
    """What a report on the atomic bus tells whatever the caches are."""
    return [line for line in report.splitlines() if not line.startswith((b"Machine ", b"Cache "))]


def choices_line(depth):
    """What a core uses that fills its buffer: at depth d it waits for room with its other stores, and then as often for one."""
    waits = 2 * (STORES - depth) if depth > 0 else 0
    used = 2 * STORES + waits if depth > 0 else STORES
    given = 4 * STORES + 2000
    return b"Choices used=%d stalled=%d unused=%d" % (used, waits, given - used)


def faults_of_trace(program, test, choices, machine, report):
    """How the trace of the same run isn't this report with a numbered line for each choice that was used in it."""
    done = program.run(["trace"] + words_of(*machine)[1:], test + judging.DIVIDER + choices)
    head, _, rest = done.stdout.partition(b"Trace\n")
    lines, _, rest = rest.partition(b"Endtrace ")
    count, _, rest = rest.partition(b"\n")
    faults = judging.difference(done, judging.ENDED, done.stdout)
    if head + rest != report or b"\nChoices used=%b " % count not in rest:
        faults.append("its trace has another report: " + judging.shown(head + rest))
    if [line.split(b" ")[0] for line in lines.splitlines()] != [b"%d" % at for at in range(1, int(count or 0) + 1)]:
        faults.append("the lines of its trace aren't numbered up to " + judging.shown(count))
    return faults


def faults_of(program, test, choices, machine, wanted):
    """How the run on a machine isn't as it must be; `wanted` says it of the lines that it tells on the atomic bus."""
    done = program.run(words_of(*machine), test + judging.DIVIDER + choices)
    if done.returncode != judging.ENDED or done.stderr:
        return ["it doesn't end: " + judging.described(done)]
    faults = [] if machine_line(*machine) in done.stdout else ["it doesn't name its machine: " + judging.shown(done.stdout)]
    if machine[1] == "atomic" and not wanted(told_alike(done.stdout)):
        faults.append("it tells otherwise than it must: " + judging.shown(done.stdout))
    faults += faults_of_trace(program, test, choices, machine, done.stdout)
    checked = program.run(["check"], test + judging.DIVIDER + done.stdout)
    return faults + judging.difference(checked, judging.ENDED, b"Check valid\n")


def rows(program):
    for protocol, bus, depth in itertools.product(PROTOCOLS, BUSES, DEPTHS):
        machine = protocol, bus, depth, DEFAULT_SHAPE
        yield told(machine), lambda program, machine=machine: faults_of(
            program, FILLING, FILL_AND_EMPTY, machine, lambda lines: choices_line(machine[2]) in lines)
    default = words_of("msi", "atomic", DEFAULT_DEPTH, DEFAULT_SHAPE)
    same = told_alike(program.run(default, SHARING + judging.DIVIDER + SHARE).stdout)
    for protocol, bus, shape in itertools.product(PROTOCOLS, BUSES, SHAPES):
        machine = protocol, bus, DEFAULT_DEPTH, shape
        yield told(machine), lambda program, machine=machine: faults_of(program, SHARING, SHARE, machine, lambda lines: lines == same)


if __name__ == "__main__":
    sys.exit(judging.judge_rows(__doc__, "every machine", rows, rows_every=judging.EVERY))
