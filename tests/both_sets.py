#!/usr/bin/env python3
"""Holds a program's answers to texts of the grammar's own set of instructions against those with `--instructions all`: the same bytes.

    tests/both_sets.py PROGRAM [PART-OF-NAME] [--also PROGRAM]

The texts are those of the rows of tests/data/rows/, of hints too, and of all examples, each under its own command line, the examples under
several. A text whose instructions the larger set alone has, or which is refused otherwise there, is left out: the second program
(tests/reference) reads each in both sets. Beside one that is refused alike standard error may be another: it names other instructions, or the
option. The last line is 'N passed, M failed'.
"""
import shlex
import sys

sys.dont_write_bytecode = True

from checks import judging, rows
from reference import commands, litmus, reading

OPTION = "--instructions"

# What examples are asked.
LINES = [shlex.split(line) for line in (
    "run", "run --bus split --protocol moesi --json", "trace", "trace --json --protocol mesi --depth 1", "sweep --seeds 5", "counts --seeds 5",
    "outcomes", "outcomes --show all --json", "why", "why --json --model sc", "check", "witness")]


def is_read_alike(given):
    """Whether the first part of an input is the same test in both sets, or the same refusal."""
    first, _ = commands.parts_of(given)
    one, other = (reading.read_once(first, instructions)[:2] for instructions in (litmus.BASIC, litmus.ALL))
    return one == other


def asked():
    """The name, the words and the input of each question."""
    for name, row in sorted(rows.all_rows().items()):
        reads = row.words[:1] and row.words[0] in commands.OPTIONS and "instructions" in commands.OPTIONS[row.words[0]]
        if reads and not row.value("beginnings") and not any(word.startswith(OPTION) for word in row.words):
            yield name, row.words, row.given
    for name, given in judging.all_inputs():
        for words in LINES:
            yield "%s, %s" % (name, " ".join(words)), words, given


def faults_of(program, words, given):
    """How the answers with each set differ from the one without the option."""
    plain, faults = program.run(words, given), []
    for instructions in (litmus.BASIC, litmus.ALL):
        other = program.run(words + [OPTION, instructions], given)
        same = (other.returncode, other.stdout) == (plain.returncode, plain.stdout)
        if not same or other.stderr != plain.stderr and plain.returncode not in (judging.REFUSED, judging.BAD_LINE):
            faults.append("with %s: %s, and not %s" % (instructions, judging.described(other), judging.described(plain)))
    return faults


def main():
    words = judging.with_programs(__doc__).parse_args()
    questions = list(asked())
    alike = [question for question in questions if is_read_alike(question[2])]
    found = [(name, lambda program, line=line, given=given: faults_of(program, line, given)) for name, line, given in alike]
    tally = judging.Tally()
    tally.add("both sets", judging.judged_in_turn(found, judging.programs_in(words), words.part))
    print("%d questions; of %d more the larger set reads another thing" % (len(alike), len(questions) - len(alike)))
    return tally.end()


if __name__ == "__main__":
    sys.exit(main())
