#!/usr/bin/env python3
"""Holds what `trace` prints against `run`, and follows its lines on a board of buffers, lines and memory.

    tests/trace.py PROGRAM [PART-OF-NAME] [--also PROGRAM]

Each example, with its own choices and with `seed 1 1000` after them, each test of the gallery with that seed after its choices, and
one with an instruction of each kind; under four protocols, in three shapes of the caches, on both buses, with buffers of depth 0, 1 and 4:

- the first two lines, and all after the line `Endtrace`, are those of `run`; of a run that doesn't end its one line comes last;
- there is a line for each choice that was used, up to the test's end; the lines that stalled are as many as `run` counts;
- by core the lines count as many hits, misses, upgrades, forwards, write-backs and flushes as the lines `Cache`;
- each line is the one that the board has (checks/machines/trace_board.py), where the choices are made after it on a plain model of buffers, of lines
  with their states and words, and of memory; the entries that the lines commit are the printed order; and each word that a copy
  answers with is the one that a single memory would have.

A further program (--also) has the examples with their own choices and the test of each kind on all these machines, and what a seed was
put to on one in four, in turn.

Each outcome, stall, access, request and change of a state has to come up. The last line is 'N passed, M failed'.
"""
import collections
import itertools
import os
import re
import sys

sys.dont_write_bytecode = True

from checks import instruction_sets, judging
from checks.judging import BUSES, ENDED, PROTOCOLS, UNFINISHED
from checks.machines import trace_board
from reference import choices

SHAPES = ((1, 1, 1), (2, 1, 2), (1, 2, 4))
DEPTHS = (0, 1, 4)
MACHINES = tuple(itertools.product(PROTOCOLS, SHAPES, BUSES, DEPTHS))
SEED = b" seed 1 1000\n"

# An instruction of each kind, and more lines than the caches hold.
EVERY_KIND = b"""X86 every kind of instruction
{ a=1; e=5; 0:EBX=7; 1:EAX=2; }
 P0                | P1           | P2                ;
 MOV [a],$1        | MOV EAX,[b]  | LOCK XADD [c],EAX ;
 MOV EAX,[a]       | XCHG [a],EAX | MOV [e],EBX       ;
 MOV ECX,EBX       | MFENCE       | MOV EAX,[d]       ;
 MOV [b],ECX       | MOV [d],$3   | MOV EBX,$9        ;
 MFENCE            | MOV EBX,[d]  | MOV [a],EBX       ;
 LOCK XADD [e],EAX | MOV [c],EBX  | XCHG [b],EAX      ;
 MOV EDX,[c]       | MOV ECX,[e]  | MOV ECX,[a]       ;
"""

# The word of a line that is counted for its own core, by the name that the report has.
COUNTED = {"hits": "hit", "misses": "miss", "upgrades": "upgrade", "forwards": "forwarded", "write_backs": "write-back"}
COUNTS = ("hits", "misses", "upgrades", "forwards", "write_backs", "flushes")

# The first two lines, the lines of the choices, their count, and the rest of the report.
FORM = re.compile(r"(Test [^\n]*\nMachine [^\n]*\n)Trace\n((?:\d[^\n]*\n)*)Endtrace (\d+)\n((?:Order|Unfinished )[^\f]*)")

MUST_COME_UP = {
    "outcomes": ["buffered", "committed", "moved", "asked"],
    "stalls": ["Done", "Full", "Fence", "Lock", "Empty", "Bus"],
    "accesses": ["hit", "miss", "upgrade", "GetS", "GetM", "forwarded", "flush", "write-back"],
    "states": "I>S I>E I>M S>M O>M E>M M>S M>O E>S M>I O>I E>I S>I I>IS_D I>IM_D S>SM_D O>SM_D IS_D>S IS_D>E IM_D>M SM_D>M".split(),
}


def words_of(protocol, shape, bus, depth):
    return "--protocol %s --sets %d --ways %d --words %d --bus %s --depth %d" % ((protocol,) + shape + (bus, depth))


def answer(program, command, machine, given):
    """The answer of `trace` or of `run`: status and output."""
    done = program.run([command] + words_of(*machine).split(), given)
    return done.returncode, done.stdout.decode()


def inputs():
    """Names and inputs, and how many machines there are for one on which a further program has it."""
    yield "every kind of instruction", EVERY_KIND + judging.DIVIDER + SEED, 1
    for name, given in judging.all_inputs():
        if os.path.dirname(name) == "examples":
            yield name, given, 1
        divider = b"" if re.search(rb"^====$", given, re.M) else judging.DIVIDER
        yield name + " and a seed", given + divider + SEED, judging.EVERY


def counts_in(lines, cores):
    """What the lines count of each core, as the report's lines have it."""
    counts = [dict.fromkeys(COUNTS, 0) for _ in range(cores)]
    for line in lines:
        words = line.split(" ")
        own = counts[int(words[1][0])]
        for name, word in COUNTED.items():
            own[name] += word in words
        if "flush" in words:
            counts[int(words[words.index("flush") + 1][1])]["flushes"] += 1
    return ["Cache P%d%s" % (core, "".join(" %s=%d" % (name, counts[core][name]) for name in COUNTS)) for core in range(cores)]


def follow(board, made, lines):
    """Makes the choices of the lines on the board; answers the first fault."""
    for line, (core, letter) in zip(lines, made):
        due = board.line(core, letter)
        if line != due:
            return ["the line %r, and not %r" % (line, due)]
        if board.stale:
            return [line] + board.stale
    return []


def faults_of_end(board, report, lines, given):
    """How the rest of the report isn't what the lines and the board have."""
    test = board.test
    due = ["Order"] + board.order + ["Endorder %d" % len(board.order)]
    due += ["Registers P%d %s" % (core, " ".join("%s=%d" % pair for pair in zip(trace_board.litmus.REGISTERS, values)))
            for core, values in enumerate(board.registers)]
    due += ["Memory" + "".join(" %s=%d" % pair for pair in zip(test.locations, board.flat))]
    due += ["Choices used=%d stalled=%d unused=%d" % (len(lines), board.stalled, given - len(lines))]
    due += counts_in(lines, test.cores())
    got = [line for line in report.splitlines() if not line.startswith("Condition ")]
    return [] if got == due else ["%r, and not %r" % pair for pair in itertools.zip_longest(got, due) if pair[0] != pair[1]][:4]


def faults_of(test, made, table, machine, traced, run):
    """How a trace isn't as it must be."""
    _, (sets, ways, words), bus, depth = machine
    found = FORM.fullmatch(traced[1])
    if found is None or traced[0] not in (ENDED, UNFINISHED):
        return ["status %s, %s" % (traced[0], judging.shown(traced[1]))]
    head, lines, count, rest = found[1], found[2].splitlines(), int(found[3]), found[4]
    if run != (traced[0], (head if traced[0] == ENDED else "") + rest):
        return ["run has status %s, and another report" % run[0]]
    board = trace_board.Board(test, table, depth, sets, ways, words, bus)
    faults = follow(board, made, lines)
    if faults:
        return faults
    if not len(lines) == board.number == count:
        return ["%d lines for %d choices, and Endtrace %d" % (len(lines), len(made), count)]
    if traced[0] == ENDED:
        return faults_of_end(board, rest, lines, len(made)) if board.has_ended() else ["it stops before the test ends"]
    unfinished = "Unfinished used=%d stalled=%d\n" % (len(made), board.stalled)
    return [] if rest == unfinished and not board.has_ended() else ["%r after %d lines" % (rest, count)]


def judged(programs, tables, name, given, every):
    """The faults on each machine of each program, and what came up."""
    test_text, _, choice_text = given.partition(judging.DIVIDER)
    test = instruction_sets.read_test(test_text)
    made = list(choices.read_choices(choice_text, test.cores()))
    came_up = collections.Counter()

    def faults_on(machine, program):
        program = instruction_sets.Asked(program, test_text)
        traced, run = (answer(program, command, machine, given) for command in ("trace", "run"))
        came_up.update(traced[1].partition("\nTrace\n")[2].split())
        return faults_of(test, made, tables[machine[0]], machine, traced, run)
    results = [("%s, %s" % (name, words_of(*machine)), faults) for number, machine in enumerate(MACHINES)
               for faults in judging.faults_on_each(judging.in_turn(programs, number, every), lambda program: faults_on(machine, program))]
    return results, came_up


def main():
    asked = judging.with_programs(__doc__).parse_args()
    programs, part = judging.programs_in(asked), asked.part
    tables = {name: trace_board.Table(programs[0].run(["tables", "--protocol", name], b"").stdout.decode()) for name in PROTOCOLS}
    works = [work for work in inputs() if part in work[0]]
    tally, came_up = judging.Tally(), collections.Counter()
    for results, more in judging.in_processes(lambda work: judged(programs, tables, *work), works, at_once=1):
        came_up.update(more)
        tally.add("trace", results)
    if not part:
        for kind, names in MUST_COME_UP.items():
            print("%s: %s" % (kind, ", ".join("%s %d" % (name, came_up[name]) for name in names)))
            tally.add("what came up", [(kind, ["never came up: " + name for name in names if not came_up[name]])])
    return tally.end()


if __name__ == "__main__":
    sys.exit(main())
