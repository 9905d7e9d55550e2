#!/usr/bin/env python3
"""Holds a built program against a second one in plain Python, tests/reference, on inputs made at random.

    tests/second_voice.py PROGRAM [--inputs N] [--seed S] [--also PROGRAM]
    tests/second_voice.py --print NUMBER [--seed S]

Each of N inputs, which are made from the seed S, has the same standard output and exit status from both, byte for byte. Standard
error is as that status has it. The inputs are tests, choices and orders in every spelling, valid and damaged, under every command and
option. Each refusal, breach, stall, access, form, member of JSON, limit and value of an option has to come up among 3,500 of them, by
its name. How often each did is printed.

The documents leave two things of `outcomes` open. The second program takes them from the answer, where they are right there: the choices
beside a state end the test in it, in a run of its own, at that depth, none stalled and none left over; a search gives up only where more
states can be reached than may be kept. They leave open which reason `why` prints. It is taken from the answer too, where it is one; it
gives up only where a tree may have more cases than the limit. tests/why.py has more of it.

Of the inputs a further program (--also) has one in four, in turn.

The second program answers the rows of tests/data/rows/ too, with their output and their status. Of standard error it has what stands
beside status 0, beside status 4 of `outcomes` and `why`, and beside `--words 3`. All other hints, `--help`, `--version` and the words on
a refused command line aren't its own.

With --print no program is asked: the command line of the input with this number is printed, then its standard input. The last
line is 'N passed, M failed'.
"""
import collections
import os
import sys

sys.dont_write_bytecode = True
from checks import judging, rows

import made_inputs
from made_inputs import must_come_up
from reference import choices, commands, outcomes, reading, seen
from reference.search import Search

INPUTS, SEED = 3500, 1

# So many inputs a process takes at once.
AT_ONCE = 50

# The first words of PCG32 begun with 42 and the stream 54, as the demonstration of its reference implementation prints them.
PUBLISHED = (0xA15C02B7, 0x7B47F409, 0xBA1D3330, 0x83D2F293, 0xBFA4784B, 0xCBED606E)

# Choices beside the states of store buffering, and how they are spoiled: they end in another state, or nowhere, or there with a choice
# that stalls or is left over, or aren't written as choices are printed.
WAYS = ["0s 1s 0s 1d 1s 0d", "0s 1s 0s 1d 0d 1s", "0s 1s 1s 0d 1d 0s", "0s 1s 0d 1s 1d 0s"]
SPOILED = {
    "another state's": lambda ways: ways[1:] + ways[:1],
    "one left over": lambda ways: [way + " 0s" for way in ways],
    "one that stalls": lambda ways: ["0d " + way for way in ways],
    "one too few": lambda ways: [way[:-3] for way in ways],
    "none": lambda ways: [""] * len(ways),
    "a seed": lambda ways: ["seed 1 1000"] * len(ways),
    "a core that isn't there": lambda ways: ["2s " + way for way in ways],
    "two blanks": lambda ways: [way.replace(" ", "  ", 1) for way in ways],
    "a blank at the end": lambda ways: [way + " " for way in ways],
    "a leading zero": lambda ways: ["0" + way for way in ways],
    "a word that is no choice": lambda ways: ["way"] * len(ways),
}


def faults_of(program, made):
    """How the program's answer differs from the reference's; of outputs that are alike for long, also where they begin to differ."""
    done = program.run(made.words, made.given)
    wanted = commands.answer(made.words, made.given, done.stdout)
    unknown = wanted.status == commands.BAD_LINE and wanted.errors is None
    faults = judging.difference(done, wanted.status, wanted.output, done.stderr if unknown else wanted.errors)
    if unknown and not done.stderr:
        faults.append("standard error is empty")
    begin = len(os.path.commonprefix([done.stdout, wanted.output])) - 20 if done.stdout != wanted.output else 0
    if begin > 0:
        got, due = (judging.shown(output[begin:]) for output in (done.stdout, wanted.output))
        faults.append("from byte %d on %s, and not %s" % (begin, got, due))
    return faults


def judged(programs, seed, number):
    """Of the input with this number its kind, its name, its faults on each program, and what came up in answering it."""
    made = made_inputs.made(seed, number)
    seen.taken()
    found = judging.faults_on_each(judging.in_turn(programs, number), lambda program: faults_of(program, made))
    return made.kind, "input %d of seed %d, words %s" % (number, seed, made.words), found, seen.taken()


def judge_inputs(programs, seed, inputs, tally):
    """Judges so many inputs; answers what came up."""
    counts, groups = collections.Counter(), collections.defaultdict(list)
    for kind, name, found, more in judging.in_processes(lambda number: judged(programs, seed, number), range(inputs), AT_ONCE):
        counts += more
        groups[kind] += [(name, faults) for faults in found]
    for kind, results in groups.items():
        tally.add(kind, results)
    return counts


def judge_names(counts, tally):
    """Prints how often each name came up; one that never did is a fault."""
    for kind, names in must_come_up.names().items():
        print("%s: %s" % (kind, ", ".join("%s %d" % (name, counts[kind, name]) for name in names)))
        missing = [name for name in names if not counts[kind, name]]
        tally.add("what came up", [(kind, ["never came up: " + name for name in missing])])


def faults_of_answer(row, given, status, output):
    """How the reference answers a row's words and this input otherwise than with one of these statuses, and this output, if it has one."""
    found = commands.answer(row.words, given, output or b"")
    faults = [] if found.status in status else ["status %s, and not %s" % (found.status, " or ".join(map(str, status)))]
    if output is not None:
        faults += judging.lines_that_differ(output, found.output)
    if found.errors is not None and isinstance(row.errors, bytes):
        faults += judging.lines_that_differ(row.errors, found.errors)
    return faults


def faults_of_row(row):
    if not row.value("beginnings"):
        return faults_of_answer(row, row.given, (row.status,), row.output)
    answers = (commands.ENDED, commands.UNFINISHED)
    return [fault for given, refusal in row.beginnings()
            for fault in faults_of_answer(row, given, (commands.REFUSED,) if refusal else answers, refusal)]


def judge_rows(tally):
    """Has the reference answer the rows."""
    every = sorted(rows.all_rows().items())
    found = judging.in_processes(lambda row: judging.faults_told(lambda: faults_of_row(row[1])), every)
    return tally.add("rows", [(name, faults) for (name, _), faults in zip(every, found)])


def with_ways(answer, ways):
    """An answer to `outcomes` with these choices beside its states, in place of those that are left open."""
    for way in ways:
        answer = answer.replace(outcomes.NO_WAY.encode(), way.encode(), 1)
    return answer.replace(b"By \n", b"By\n")


def is_taken_over(words, told):
    return commands.answer(words, judging.STORE_BUFFERING, told).output == told


def faults_of_told_ways(words):
    """Whether the reference takes over the choices that docs/TUTORIAL.md has beside the states of store buffering, and no spoiled ones."""
    left_open = commands.answer(words, judging.STORE_BUFFERING).output
    faults = [] if is_taken_over(words, with_ways(left_open, WAYS)) else ["the right choices aren't taken over"]
    return faults + ["choices are taken over: " + name for name, spoil in SPOILED.items()
                     if is_taken_over(words, with_ways(left_open, spoil(WAYS)))]


def faults_of_told_limits(words, unfinished):
    """Whether the reference takes it over that a search gave up, where more states can be reached than may be kept, and only there."""
    states = len(Search(reading.read_test(judging.STORE_BUFFERING), 32).reached)
    taken = [limit for limit in range(1, states + 3) if is_taken_over(words + ["--states", str(limit)], unfinished % limit)]
    return [] if taken == list(range(1, states)) else ["of %d states it is taken over at the limits %s" % (states, taken)]


def told_answers():
    """The names of answers to `outcomes` that the reference is told, each with its faults."""
    for form, words, unfinished in (("text", ["outcomes"], b"Unfinished states=%d\nMet 0\n"),
                                    ("JSON", ["outcomes", "--json"], b'{"met":[],"test":"SB","unfinished":{"states":%d},"verdict":null}\n')):
        yield "choices that are told, " + form, judging.faults_told(lambda: faults_of_told_ways(words))
        yield "limits that are told, " + form, judging.faults_told(lambda: faults_of_told_limits(words, unfinished))


def faults_of_generator():
    words = choices.generator(42, 54 << 1 | 1)
    return [] if tuple(next(words) for _ in PUBLISHED) == PUBLISHED else ["its words aren't the published ones"]


def print_input(seed, number):
    made = made_inputs.made(seed, number)
    sys.stdout.buffer.write(("%s\n" % " ".join(made.words)).encode() + made.given)


def arguments():
    parser = judging.parser(__doc__)
    parser.add_argument("program", nargs="?", type=os.path.abspath)
    judging.add_also(parser)
    parser.add_argument("--inputs", type=int, default=INPUTS)
    parser.add_argument("--seed", type=int, default=SEED)
    parser.add_argument("--print", type=int, metavar="NUMBER", dest="printed")
    given = parser.parse_args()
    if given.printed is None and given.program is None:
        parser.error("a program is needed, or --print NUMBER")
    return given


def main():
    given = arguments()
    if given.printed is not None:
        print_input(given.seed, given.printed)
        return 0
    tally = judging.Tally()
    tally.add("the reference", [("the generator PCG32", faults_of_generator()), *told_answers()])
    print("%d rows" % judge_rows(tally), flush=True)
    counts = judge_inputs(judging.programs_in(given), given.seed, given.inputs, tally)
    print("%d inputs from the seed %d" % (given.inputs, given.seed), flush=True)
    if given.inputs >= INPUTS:
        judge_names(counts, tally)
    return tally.end()


if __name__ == "__main__":
    sys.exit(main())
