#!/usr/bin/python3
"""Holds tools/compiled against what it must say of compilers.

    tests/compiled.py PROGRAM            in the gate
    tests/compiled.py PROGRAM --whole    all configurations, all laid-in bugs, 1,000 made values for each form of instruction

The tests of examples/c11 are judged as compiled by gcc and clang: none may be found at fault, all are judged, and the source's model says of
each what its file expects. Beside the straight-line tests stands a plain walk over the interpreter's states, which must find the same final
states. Each form of instruction is held against the processor that this runs on, and the model against tests of the literature. Cycles with
memory orders are judged too (tests/compiled_cycles.py has all), and programs made at random. Bugs are laid into object code: they are found
exactly where a state that isn't allowed becomes reachable.
"""
import collections
import os
import random
import subprocess
import sys
import tempfile

sys.dont_write_bytecode = True
from checks import judging
from checks.judging import TOP, Tally
from checks.tools import TOOLS

TOOL = os.path.join(TOOLS, "compiled")
GALLERY = os.path.join(TOP, "examples", "c11")
MISSING = None
try:
    from checks.compiled import further_programs, instruction_forms, laid_in_bugs, plain_walk, random_programs, source_model_tests, tool_answers

    import compiled_cycles
    from c11 import arithmetic, compiling, instructions, machine, tests, verdicts
    from c11.asking import Asker
    from c11.objects import Image
    from c11.refusals import NotJudged
    from c11.states import name_of
except ModuleNotFoundError as fault:
    MISSING = fault.name

ALL = ("gcc -O0", "gcc -O1", "gcc -O2", "gcc -O3", "clang -O0", "clang -O2")
IN_GATE = ("gcc -O2", "clang -O0")
SLOW = {"TICKET+3"}
# Tests with loops that only read, or whose failed rounds change nothing.
LOOPS = ("MP+na+spin", "DCLP", "SPIN+cas", "LLIST+delall")
SECONDS = 10
# By which cycles and programs are drawn.
SEED = 7


class Judged:
    """The tests of the gallery with their sources, and what each compiler makes of them, found once."""

    def __init__(self, asker):
        self.asker = asker
        names = sorted(os.listdir(GALLERY))
        read = [tests.read_test(name, judging.content(GALLERY, name)) for name in names if name.endswith(".c")]
        self.sources = {test.name: verdicts.SourceJudge(test, "rc11") for test in read}
        self._objects = {}

    def object(self, name, compiler):
        key = (name, compiler)
        if key not in self._objects:
            self._objects[key] = compiling.object_of(compiler, self.sources[name].test.text, name)
        return self._objects[key]

    def judge(self, name, compiler, content=None):
        return verdicts.judge(self.sources[name], compiler, Image(content or self.object(name, compiler)), 1, self.asker)


def gallery_faults(judged, name, compiler, times):
    """What is wrong with the verdict on a test of the gallery."""
    try:
        found, parts = judged.judge(name, compiler)
    except NotJudged as fault:
        return ["not judged: %s" % fault]
    times.append(found.seconds)
    faults = [] if found.word in (verdicts.OK, verdicts.BOUNDED) else ["%s %s" % (found.word, found.extra)]
    if found.seconds > SECONDS:
        faults.append("it took %.1f seconds of a processor" % found.seconds)
    return faults + walk_faults(parts)


def walk_faults(parts):
    """How the final states differ from those of the plain walk, where that comes to an end."""
    compiled, cells, states, _, _ = parts
    walked = plain_walk.final_states(compiled.machine, compiled.observer(cells))
    if walked is None:
        return []
    return [] if walked[0] == set(states) else ["the walk has %d states, and not %d" % (len(walked[0]), len(states))]


def round_faults(judged, name, compiler):
    """Whether rounds of loops that change nothing add no state: the states without them are those where loops go round once more."""
    test, content = judged.sources[name].test, judged.object(name, compiler)
    cells = judged.sources[name].allowed(1).cells
    without = verdicts.Compiled(Image(content), test.functions, 1, judged.asker)
    cells = [cell for cell in cells if without.has(cell[0])]
    told_apart = machine.Machine.state_at
    machine.Machine.state_at = lambda self, core: object()
    try:
        found = verdicts.Compiled(Image(content), test.functions, 1, judged.asker).states(cells)
    finally:
        machine.Machine.state_at = told_apart
    return [] if set(found) == set(without.states(cells)) else ["%d states, and %d where loops go round again" % (
        len(without.states(cells)), len(found))]


def expectation_faults(judged, name):
    """Whether the source's model says what the test's file expects."""
    source = judged.sources[name]
    allowed = source.allowed(1)
    states = [dict(zip(map(name_of, allowed.cells), state)) for state in allowed.states]
    found = "allowed" if any(source_model_tests.is_met(source.test.condition, state) for state in states) else "forbidden"
    return [] if found == source.test.fact("C11") else ["C11 says %s, and its file %s" % (found, source.test.fact("C11"))]


def model_rows():
    """The tests of the literature: pairs of a name and its faults."""
    for name, threads, condition, wanted in source_model_tests.TABLE:
        source, found = verdicts.SourceJudge(tests.read_c(name + ".c", source_model_tests.text_of(threads)), "rc11"), ""
        for model in source_model_tests.MODELS:
            allowed = source.by_model(model).allowed(1)
            states = [dict(zip(map(name_of, allowed.cells), state)) for state in allowed.states]
            found += "+" if any(source_model_tests.is_met(condition, state) for state in states) else "-"
        yield name, [] if found == wanted else ["%s say %s, and not %s" % (source_model_tests.MODELS, found, wanted)]
    for name, threads, wanted in source_model_tests.RACES:
        allowed = verdicts.SourceJudge(tests.read_c(name + ".c", source_model_tests.text_of(threads)), "rc11").allowed(1)
        yield name, [] if (allowed.race is not None) == wanted else ["a race: %s" % (allowed.race is not None)]


def bug_faults(judged, name, compiler, bug, content, counts):
    """Whether a laid-in bug is found exactly where a state that isn't allowed becomes reachable, by the plain walk."""
    kind = bug.split(" at ")[0]
    try:
        found, parts = judged.judge(name, compiler, content)
    except NotJudged as fault:
        counts[kind, "not judged"] += 1
        return [] if "walk" not in str(fault) else [str(fault)]
    compiled, cells, states, _, _ = parts
    walked = plain_walk.final_states(compiled.machine, compiled.observer(cells))
    if walked is None:
        counts[kind, "too many states for the walk"] += 1
        return []
    harms = bool(walked[0] - judged.sources[name].allowed(1, cells).states)
    counts[kind, "found" if found.word == verdicts.NOT_ALLOWED else "harmless"] += 1
    faults = [] if walked[0] == set(states) else ["the walk has %d states, and not %d" % (len(walked[0]), len(states))]
    return faults + ([] if harms == (found.word == verdicts.NOT_ALLOWED) else ["%s, and a state that isn't allowed is reachable: %s" % (
        found.word, harms)])


def bug_rows(judged, compilers, every, counts):
    """The laid-in bugs, one in so many of them."""
    number = 0
    for name in judged.sources:
        for compiler in compilers if name not in SLOW else ():
            for bug, content in laid_in_bugs.bugs_in(judged.object(name, compiler)):
                number += 1
                if number % every == 0:
                    yield "%s %s: %s" % (name, compiler, bug), bug_faults(judged, name, compiler, bug, content, counts)


def cycle_rows(asker, threads, how_many, known):
    """Cycles of so many threads, drawn by a seed, as all compilers make them. Where code is new, the states are held against the walk."""
    drawn = compiled_cycles.drawn(threads, how_many, SEED)
    for batch in compiled_cycles.batches(drawn):
        for source, compiler, word, extra, cells, states, compiled in compiled_cycles.verdicts_on(
                batch, compiled_cycles.COMPILERS, asker, known):
            walked = None if compiled is None else plain_walk.final_states(compiled.machine, compiled.observer(cells))
            faults = [] if word == verdicts.OK else ["%s %s" % (word, extra)]
            yield "%s %s" % (source.test.name, compiler), faults + ([] if walked is None or walked[0] == states else [
                "the walk has %d states, and not %d" % (len(walked[0]), len(states))])


def made_rows(asker, compilers, how_many):
    """Programs made at random: no compiler is at fault, and the final states are those of the walk."""
    for seed in range(SEED, SEED + how_many):
        source = verdicts.SourceJudge(tests.read_c("made.c", random_programs.program(random.Random(seed))), "rc11")
        for compiler in compilers:
            content = compiling.object_of(compiler, source.test.text, "made")
            found, parts = verdicts.judge(source, compiler, Image(content), 1, asker)
            faults = [] if found.word in (verdicts.OK, verdicts.BOUNDED) else ["%s %s" % (found.word, found.extra)]
            yield "seed %d, %s" % (seed, compiler), faults + walk_faults(parts)


def program_rows(asker, compilers):
    """Further programs: that each has as many states as it must, and those of the walk."""
    for name, (rounds, count, text) in further_programs.PROGRAMS.items():
        source = verdicts.SourceJudge(tests.read_c("program.c", further_programs.HEAD + text), "rc11")
        for compiler in compilers:
            content = compiling.object_of(compiler, source.test.text, "program")
            found, parts = verdicts.judge(source, compiler, Image(content), rounds, asker)
            faults = [] if (found.word, len(found.states)) == (verdicts.OK, count) else ["%s with %d states" % (found.word, len(found.states))]
            yield "%s, %s" % (name, compiler), faults + walk_faults(parts)


def joined_rows(asker, compilers, how_many):
    """Words that are used both whole and in parts, of written programs and of some made at random: the final states are those of the walk,
    which goes by the parts."""
    for name, (count, text) in further_programs.JOINED.items():
        for compiler in compilers:
            found = joined_states(asker, compiler, text)
            yield "%s, %s" % (name, compiler), [] if found == (count, count) else ["states and those of the walk: %s" % (found,)]
    for seed in range(SEED, SEED + how_many):
        found = joined_states(asker, compilers[0], random_programs.pair_program(random.Random(seed)))
        yield "seed %d" % seed, [] if found[0] == found[1] else ["states and those of the walk: %s" % (found,)]


def joined_states(asker, compiler, text):
    """How many final states a program has, and how many of them the walk has and no others; None for both where it says that parts are
    written by several threads."""
    try:
        image = Image(compiling.object_of(compiler, text, "program"))
        compiled = verdicts.Compiled(image, tests.read_c("program.c", text).functions, 1, asker)
    except NotJudged as fault:
        if "which several cores write" in str(fault):
            return None, None
        raise
    cells = compiled.own_cells()
    states = set(compiled.states(cells))
    walked, _ = plain_walk.final_states(compiled.machine, compiled.observer(cells))
    return len(states), len(states) if states == walked else "others: %d" % len(walked)


def slip_rows():
    """Slips in what instructions mean: the processor tells each."""
    slips = (
        ("adc without carry", arithmetic.BINARY, "adc", arithmetic.add, "adcl %ecx, %eax"),
        ("inc changes carry", arithmetic.UNARY, "inc", lambda value, size, flags: arithmetic.add(value, 1, size, flags), "incl %eax"),
        ("sar is shr", arithmetic.SHIFTS, "sar", arithmetic.SHIFTS["shr"], "sarl $3, %eax"),
        ("cmpxchg always writes", instructions.MEANINGS, "cmpxchg", instructions.MEANINGS["xchg"], "lock cmpxchgl %ecx, (%r9)"),
        ("movsx is movzx", instructions.MEANINGS, "movsx", instructions.MEANINGS["movzx"], "movsbl %cl, %eax"),
    )
    for name, table, key, wrong, form in slips:
        right, table[key] = table[key], wrong
        try:
            found = [faults for _, faults in instruction_forms.faults_of_forms([form], 200, 1)]
        finally:
            table[key] = right
        yield name, [] if any(found) else ["it isn't told"]


def main():
    words = judging.with_program(__doc__, with_part=False)
    words.add_argument("--whole", action="store_true", help="all configurations, bugs and values")
    asked = words.parse_args()
    tally = Tally(shown=20)
    if MISSING is not None:
        print("not tried: compiled code, which needs Debian's packages python3-capstone and python3-pyelftools: %s isn't there" % MISSING)
        done = subprocess.run([TOOL, "SB.c"], stdout=subprocess.PIPE, stderr=subprocess.PIPE, encoding="utf-8", check=False)
        tally.add("tool", [("it says which package is missing", [] if "Debian's package" in done.stderr else [done.stderr])])
        return tally.end()
    asker = Asker(asked.program, 2, 120)
    judged, times, counts = Judged(asker), [], collections.Counter()
    tally.add("model", model_rows())
    tally.add("expectations", ((name, expectation_faults(judged, name)) for name in judged.sources))
    tally.add("gallery", (("%s %s" % (name, compiler), gallery_faults(judged, name, compiler, times)) for name in judged.sources
                          for compiler in (ALL if asked.whole else IN_GATE) if asked.whole or name not in SLOW))
    times.sort()
    print("seconds of a processor without the compiler: median %.2f, most %.1f" % (times[len(times) // 2], times[-1]))
    known = {}
    for threads in (2, 3):
        tally.add("cycles", cycle_rows(asker, threads, 900 if asked.whole else 60, known))
    tally.add("programs at random", made_rows(asker, ALL if asked.whole else ("gcc -O1",), 200 if asked.whole else 16))
    tally.add("programs", program_rows(asker, ALL if asked.whole else ("gcc -O2",)))
    tally.add("joined words", joined_rows(asker, ALL if asked.whole else IN_GATE, 300 if asked.whole else 12))
    tally.add("rounds", (("%s %s" % (name, compiler), round_faults(judged, name, compiler)) for name in LOOPS for compiler in IN_GATE))
    tally.add("instructions", instruction_forms.faults_of_forms(instruction_forms.forms(), 1000 if asked.whole else 60, 1))
    tally.add("slips", slip_rows())
    tally.add("bugs", bug_rows(judged, ("gcc -O2", "clang -O2") if asked.whole else ("gcc -O2",), 1 if asked.whole else 5, counts))
    for (kind, what), count in sorted(counts.items()):
        print("%s: %d %s" % (kind, count, what))
    with tempfile.TemporaryDirectory() as folder:
        tally.add("tool", tool_answers.rows(asked.program, folder))
    return tally.end()


if __name__ == "__main__":
    sys.exit(main())
