#!/usr/bin/env python3
"""Holds a built program against the answers of version 1.0.0: all of them stay, byte for byte, but for lines and members that came later.

    tests/older_answers.py PROGRAM [PART-OF-NAME] [--also PROGRAM]
    tests/older_answers.py --write PROGRAM     writes tests/data/older_answers.list anew; PROGRAM is release/tso of that version

The inputs are those of the gallery and the examples. tests/data/older_answers.list has a line for each: its path, the digest of its text, and
a digest of the status and the standard output of each command line below, in this order. Lines and members that came after 1.0.0 (LATER)
are left out before an answer is digested. So are the choices that lead `outcomes` to a state, which docs/VERSIONS.md leaves open (OPEN). An
input whose text has changed since is left out, and counted. The last line is 'N passed, M failed'.
"""
import hashlib
import json
import os
import re
import sys

sys.dont_write_bytecode = True
from checks import judging

LIST = os.path.join(judging.TESTS, "data", "older_answers.list")

COMMANDS = ("run", "run --json", "run --bus split --protocol moesi", "trace", "sweep --seeds 20", "outcomes", "outcomes --depth 0",
            "outcomes --depth 1 --states 200", "outcomes --json")

# What came after 1.0.0: lines after the last one of an answer, and members of the JSON, in any object.
LATER_LINES = {"outcomes": re.compile(rb"^(?:True(?: \d+)*\n|Met \d+\n(?:State.*\nBy.*\n)*)(?:Verdict (?:Ok|No)\n)?\Z", re.MULTILINE)}
LATER_MEMBERS = {"outcomes": {"holds", "met", "verdict"}}

# What docs/VERSIONS.md leaves open of an answer: which choices lead to a state.
OPEN_LINES = {"outcomes": re.compile(rb"^By.*\n", re.MULTILINE)}
OPEN_MEMBERS = {"outcomes": {"choices"}}

# So many bytes of a digest are kept, in hexadecimal digits.
DIGITS = 16


def digest(text):
    return hashlib.sha256(text).hexdigest()[:DIGITS]


def without_members(value, names):
    """A value of JSON without the members of these names. Names of a test's own stand in `values` alone."""
    if isinstance(value, dict):
        return {key: kept if key == "values" else without_members(kept, names) for key, kept in value.items() if key not in names}
    return [without_members(one, names) for one in value] if isinstance(value, list) else value


def as_it_was(words, output):
    """An answer without what came later and what is left open."""
    command = words[0]
    if output.startswith(b"{"):
        kept = without_members(json.loads(output), LATER_MEMBERS.get(command, set()) | OPEN_MEMBERS.get(command, set()))
        return (json.dumps(kept, separators=(",", ":")) + "\n").encode()
    for lines in (LATER_LINES, OPEN_LINES):
        output = lines[command].sub(b"", output) if command in lines else output
    return output


def digest_of_answer(program, line, given):
    done = program.run(line.split(), given)
    return digest(b"%d\n" % done.returncode + as_it_was(line.split(), done.stdout))


def known_answers():
    """The digests that are listed, by the input's path: that of its text first."""
    return {path: digests for path, *digests in map(str.split, judging.content(LIST).splitlines()) if path != "#"}


def faults_of(program, given, digests):
    return ["%s has another answer" % line for line, due in zip(COMMANDS, digests) if digest_of_answer(program, line, given) != due]


def check(words):
    inputs, known, tally = dict(judging.all_inputs()), known_answers(), judging.Tally(shown=100)
    same = [path for path, (text, *_) in known.items() if path in inputs and digest(inputs[path]) == text]
    rows = [(path, lambda program, path=path: faults_of(program, inputs[path], known[path][1:])) for path in same]
    count = tally.add("older answers", judging.judged(rows, judging.programs_in(words), words.part))
    print("%d inputs of 1.0.0, by %d command lines each; %d have changed or gone" % (count, len(COMMANDS), len(known) - len(same)))
    return tally.end()


def write(words):
    program = judging.Program(words.program)
    lines = ["# What version 1.0.0 answers: tests/older_answers.py says how it is written."]
    for path, given in judging.all_inputs():
        lines.append(" ".join([path, digest(given)] + [digest_of_answer(program, line, given) for line in COMMANDS]))
    with open(LIST, "w", encoding="ascii") as file:
        file.write("\n".join(lines) + "\n")
    return 0


if __name__ == "__main__":
    sys.exit(judging.check_or_write(judging.with_programs(__doc__), check, write))
