#!/usr/bin/env python3
"""Holds what `outcomes` prints against a plain search of all runs, with no reduction.

    tests/outcomes.py PROGRAM [--tests N] [--met M] [--seed S] [--also PROGRAM]

The tests are those of the gallery and of the examples, and N (300) made at random from a seed S (1): two to four cores, at most
twelve instructions together, of all kinds; and half as many more in which some cores have the same program. Of each, at depths 0, 1,
2 and 32, with each of the three values of `--show`:

- the text is that of the final states that the search finds (its lines `By` are taken as they are): those in which the proposition is
  true stand in the line `True`, and `Verdict` says whether the condition is as it is claimed;
- the choices of each state, handed to `run` at that depth, end there, none stalled and none left over;
- `--json` says the same, with the same choices;
- with `--assert` the answer is the same, and its status 4 where the verdict is `No`.

Of the made tests the last two are asked with one value of `--show` each, in turn, and --json only with `--assert`; a further program
has one in four of them, each of them at one depth, in turn.

Of three tests of the literature the number of final states is published, and held too.

Of M (12) searches of larger tests, made at random, most of which `--states` of 100 to 10000 ends before their end, with all that can be
shown: the states below the line `Met` are as many as it says and ascend, the choices of each end there in `run`, the line `Verdict` stands there exactly where one of them
decides it, `--json` has the same states, and the status of `--assert` goes by the verdict.

The search is written here, from docs/DEFINITIONS.md; the tests are read by tests/reference/. The last line is 'N passed, M failed'.
"""
import functools
import json
import os
import random
import re
import sys

sys.dont_write_bytecode = True

from checks import instruction_sets, judging, random_tests
from reference import arithmetic, conditions, litmus

DEPTHS = (0, 1, 2, 32)
SHOWN = CONDITION, WITH_REGISTERS, WITH_ALL = ("condition", "registers", "all")
# A test of the gallery, a depth, and how many final states are published: without buffers those of sequential consistency.
PUBLISHED = (("SB", 32, 4), ("n6", 32, 5), ("IRIW", 32, 15), ("SB", 0, 3), ("n6", 0, 4))


def first_state(test):
    """Where each core stands, its registers, its pending stores, oldest first; and memory."""
    cores = test.cores()
    return ((0,) * cores, tuple(map(tuple, test.registers)), ((),) * cores, tuple(test.words))


def put(row, at, value):
    return row[:at] + (value,) + row[at + 1:]


def after_step(test, state, core, depth):
    """The state after this core's next instruction; None where it must wait."""
    places, registers, pending, memory = state
    done = test.programs[core][places[core]]
    own, held = registers[core], pending[core]
    if held and (done.kind == litmus.FENCE or done.kind in litmus.LOCKED):
        return None
    if done.kind in litmus.STORES:
        value = arithmetic.operand(done, own)
        if depth == 0:
            memory = put(memory, done.location, value)
        elif len(held) == depth:
            return None
        else:
            pending = put(pending, core, held + ((done.location, value),))
    elif done.kind == litmus.LOAD:
        newest = [value for location, value in held if location == done.location]
        registers = put(registers, core, put(own, done.register, newest[-1] if newest else memory[done.location]))
    elif done.kind in litmus.MOVES:
        registers = put(registers, core, tuple(arithmetic.moved(done, own)))
    elif done.kind in litmus.LOCKED:
        word, taken = memory[done.location], arithmetic.taken_by(done)
        memory = put(memory, done.location, arithmetic.updated(done, own, word))
        registers = registers if taken is None else put(registers, core, put(own, taken, word))
    return put(places, core, places[core] + 1), registers, pending, memory


def after_drain(state, core):
    places, registers, pending, memory = state
    location, value = pending[core][0]
    return places, registers, put(pending, core, pending[core][1:]), put(memory, location, value)


def states_after(test, state, depth):
    for core in range(test.cores()):
        if state[0][core] < len(test.programs[core]):
            after = after_step(test, state, core, depth)
            if after is not None:
                yield after
        if state[2][core]:
            yield after_drain(state, core)


def ends(test, depth):
    """The registers and the memory of each final state."""
    first = first_state(test)
    reached, frontier, found = {first}, [first], set()
    while frontier:
        state = frontier.pop()
        ended = True
        for after in states_after(test, state, depth):
            ended = False
            if after not in reached:
                reached.add(after)
                frontier.append(after)
        if ended:
            found.add((state[1], state[3]))
    return found


@functools.lru_cache(16)
def ends_of(given, depth):
    return ends(instruction_sets.read_test(given), depth)


def depth_that_counts(test, depth):
    """The depth, or as many stores as a core has, if these are fewer: no buffer gets fuller, so all runs are the same."""
    return min(depth, max(sum(done.kind in litmus.STORES for done in program) for program in test.programs))


def places_shown(test, show):
    """The registers, as pairs of core and register, and the locations whose values a state has."""
    registers, locations = set(), set(range(len(test.locations)))
    if test.proposition is not None:
        registers, named = conditions.named_in(test.proposition)
        locations = locations if show == WITH_ALL else named
    if show != CONDITION:
        registers = registers.union(*(registers_written(core, program) for core, program in enumerate(test.programs)))
    return sorted(registers), sorted(locations)


def registers_written(core, program):
    """The registers of this core that its program writes."""
    return {(core, register) for done in program for register in done.written()}


class Shown:
    """What is looked at of a test's final states, which are given, and what is printed of them."""

    def __init__(self, test, depth, show, found):
        self.registers, self.locations = places_shown(test, show)
        self.names = ["%d:%s" % (core, litmus.REGISTERS[register]) for core, register in self.registers]
        self.names += [test.locations[location] for location in self.locations]
        self.test, self.depth, self.truths = test, depth, {}
        for held, words in found:
            values = tuple([held[core][register] for core, register in self.registers] + [words[at] for at in self.locations])
            self.truths[values] = test.proposition is not None and conditions.truth_of(test.proposition, held, words)
        self.states = sorted(self.truths)

    def counts(self):
        held = sum(self.truths.values())
        return held, len(self.states) - held

    def word(self):
        held, failed = self.counts()
        return "Never" if held == 0 else "Always" if failed == 0 else "Sometimes"

    def verdict(self):
        """Whether the condition is as it is claimed; None where there is none."""
        held, failed = self.counts()
        wrong = {"exists": held == 0, "~exists": held > 0, "forall": failed > 0, None: None}[self.test.quantifier]
        return None if wrong is None else "No" if wrong else "Ok"

    def text(self, ways):
        lines = ["Test " + self.test.name, "Outcomes depth=%d states=%d" % (self.depth, len(self.states))]
        for values, way in zip(self.states, ways):
            lines += ["State" + "".join(" %s=%d" % pair for pair in zip(self.names, values)), ("By " + way).rstrip()]
        if self.test.proposition is not None:
            lines.append("Observation %s %s %d %d" % (self.test.name, self.word(), *self.counts()))
            lines.append("True" + "".join(" %d" % (at + 1) for at, values in enumerate(self.states) if self.truths[values]))
            lines.append("Verdict " + self.verdict())
        return "".join(line + "\n" for line in lines)

    def value(self, ways):
        held, failed = self.counts()
        observed = None if self.test.proposition is None else {"false": failed, "true": held, "word": self.word()}
        states = [{"choices": way, "values": dict(zip(self.names, values))} for values, way in zip(self.states, ways)]
        for values, state in zip(self.states, states):
            state.update({} if observed is None else {"holds": self.truths[values]})
        return {"depth": self.depth, "observation": observed, "states": states, "test": self.test.name, "verdict": self.verdict()}


def report_of(program, given, depth, way):
    """The report of the run under these choices; nothing where it doesn't end."""
    done = program.run(["run", "--depth", str(depth)], given + judging.DIVIDER + way.encode())
    return done.stdout.decode("latin-1") if done.returncode == 0 else ""


def faults_of_way(report, shown, values, way):
    """How the run under these choices, which has this report, differs from one that ends in these values, none stalled and none left over."""
    words = dict(re.findall(r" (\w+)=(\d+)", re.search(r"^Memory(.*)$", report, re.M).group(1))) if report else {}
    for core, line in re.findall(r"^Registers P(\d)(.*)$", report, re.M):
        words.update(("%s:%s" % (core, register), value) for register, value in re.findall(r" (\w+)=(\d+)", line))
    got = [words.get(name) for name in shown.names]
    faults = [] if got == [str(value) for value in values] else ["run ends in %s, and not in %s, under %s" % (got, values, way)]
    if " stalled=0 unused=0\n" not in report:
        faults.append("a choice stalls or is left over: " + way)
    return faults


def faults_at(program, given, depth, asked):
    """The faults of a test at a depth; `asked` says by a value of --show which of the words below are asked with it too."""
    test, program = instruction_sets.read_test(given), instruction_sets.Asked(program, given)
    found = ends_of(given, depth_that_counts(test, depth))
    report_by = functools.cache(lambda way: report_of(program, given, depth, way))
    return [fault for show in SHOWN
            for fault in faults_of_shown(program, given, show, Shown(test, depth, show, found), report_by, asked[show])]


# What is asked beside the plain answer: of the tests of the repository all with each value of --show, of made ones what has its turn.
FURTHER = ["--json"], ["--assert"], ["--json", "--assert"]
OF_REPOSITORY = dict.fromkeys(SHOWN, FURTHER)


def of_made(turn):
    return {show: FURTHER[1:][at:at + 1] for show, at in zip(SHOWN, ((turn + place) % 3 for place in range(3)))}


def faults_of_shown(program, given, show, shown, report_by, asked):
    """How what is shown differs from what is due; `report_by` answers the report of a run by its choices."""
    words = ["outcomes", "--depth", str(shown.depth)] + ([] if show == CONDITION else ["--show", show])
    plain = program.run(words, given)
    text = plain.stdout.decode("latin-1")
    ways = re.findall(r"^By ?(.*)$", text, re.M)
    if plain.returncode != 0 or text != shown.text(ways) or len(ways) != len(shown.states):
        return ["with %s it prints %r, and not %r" % (words, text, shown.text(ways))]
    faults = []
    if len({len(way.split()) for way in ways}) > 1:
        faults.append("with %s choices of different lengths" % words)
    for further in asked:
        faults += faults_of_further(program, given, words + further, plain, shown, ways)
    for values, way in zip(shown.states, ways):
        faults += faults_of_way(report_by(way), shown, values, way)
    return faults


def faults_of_further(program, given, words, plain, shown, ways):
    """How `--json` says something else than what is due, or a hint, or `--assert` does something else than turn the status into 4 where
    the verdict is `No`."""
    done = program.run(words, given)
    status = judging.INVALID if "--assert" in words and shown.verdict() == "No" else judging.ENDED
    same = json.loads(done.stdout) == shown.value(ways) if "--json" in words else done.stdout == plain.stdout
    faults = [] if same else ["with %s it prints %r" % (words, done.stdout)]
    if (done.returncode, done.stderr) != (status, b"" if "--json" in words else plain.stderr):
        faults.append("with %s status %s, and not %d, or another standard error" % (words, done.returncode, status))
    return faults


def tests_made(count, seed):
    """Names and texts."""
    draw = random.Random(seed)
    for number in range(count):
        yield "made test %d of seed %d" % (number, seed), random_tests.made_test(draw, number)
    for number in range(count // 2):
        yield "test %d of seed %d with alike cores" % (number, seed), random_tests.alike_test(draw, number)


def rows_of(tests, asked_in):
    """Each test at each depth; `asked_in` says by the turn what is asked of it."""
    for number, (name, given) in enumerate(tests):
        for at, depth in enumerate(DEPTHS):
            how = given, depth, asked_in(number + at)
            yield "%s, depth %d" % (name, depth), lambda program, how=how: faults_at(program, *how)


# ---- searches that end at their limit

LIMITS = (100, 300, 1000, 3000, 10000)


class Told:
    """What an answer says of a search that met its limit: the lines of its states, and the verdict, None where it has none."""

    def __init__(self, text):
        found = re.fullmatch(r"Unfinished states=(\d+)\nMet (\d+)\n((?:State.*\nBy.*\n)*)(?:Verdict (Ok|No)\n)?", text)
        self.has_form = found is not None
        if found is not None:
            self.limit, self.count, self.verdict = int(found.group(1)), int(found.group(2)), found.group(4)
            lines = re.findall(r"^State(.*)\nBy ?(.*)$", found.group(3), re.M)
            self.states = [(dict(pair.split("=") for pair in values.split()), way) for values, way in lines]

    def value(self, test):
        """The same as JSON, but for `holds`."""
        states = [{"choices": way, "values": {name: int(word) for name, word in values.items()}} for values, way in self.states]
        return {"met": states, "test": test, "unfinished": {"states": self.limit}, "verdict": self.verdict}


def final_state_in(report):
    """The registers and the words of a report, by their names; and whether it says that the proposition is true, None without one."""
    words = dict(re.findall(r" (\w+)=(\d+)", re.search(r"^Memory(.*)$", report, re.M).group(1)))
    for core, line in re.findall(r"^Registers P(\d)(.*)$", report, re.M):
        words.update(("%s:%s" % (core, register), value) for register, value in re.findall(r" (\w+)=(\d+)", line))
    holds = re.search(r"^Condition \S+ (true|false)$", report, re.M)
    return words, holds and holds.group(1) == "true"


def faults_of_met(program, given, depth, limit):
    """What is wrong with the answer of a search that met this limit; nothing of one that came to its end."""
    words, program = ["outcomes", "--depth", str(depth), "--states", str(limit), "--show", "all"], instruction_sets.Asked(program, given)
    done = program.run(words, given)
    told, test = Told(done.stdout.decode("latin-1")), instruction_sets.read_test(given)
    if done.returncode == judging.ENDED:
        return []
    if done.returncode != judging.UNFINISHED or not told.has_form:
        return ["with %s status %s and %r" % (words, done.returncode, done.stdout[:200])]
    values = [[int(word) for word in state.values()] for state, _ in told.states]
    faults = [] if told.limit == limit and told.count == len(values) else ["with %s the counts are others" % words]
    if any(one >= other for one, other in zip(values, values[1:])):
        faults.append("with %s the states don't ascend" % words)
    truths = []
    for state, way in told.states:
        report = report_of(program, given, depth, way)
        ended, holds = final_state_in(report) if report else ({}, None)
        truths.append(holds)
        if " stalled=0 unused=0\n" not in report or any(ended.get(name) != word for name, word in state.items()):
            faults.append("run doesn't end in %s under %s" % (state, way))
    truth, word = {"exists": (True, "Ok"), "~exists": (True, "No"), "forall": (False, "No"), None: ("", None)}[test.quantifier]
    if told.verdict != (word if truth in truths else None):
        faults.append("with %s the verdict is %s" % (words, told.verdict))
    return faults + faults_of_forms(program, given, words, done, told, truths)


def faults_of_forms(program, given, words, plain, told, truths):
    """How `--json` says something else of a search that met its limit, or `--assert` has another status."""
    as_json = program.run(words + ["--json"], given)
    due = told.value(instruction_sets.read_test(given).name)
    for state, holds in zip(due["met"], truths):
        state.update({} if holds is None else {"holds": holds})
    faults = [] if as_json.returncode == judging.UNFINISHED and json.loads(as_json.stdout) == due else ["with %s --json says another thing" % words]
    asserted = program.run(words + ["--assert"], given)
    status = {None: judging.UNFINISHED, "Ok": judging.ENDED, "No": judging.INVALID}[told.verdict]
    if (asserted.returncode, asserted.stdout) != (status, plain.stdout):
        faults.append("with %s --assert status %s, and not %d" % (words, asserted.returncode, status))
    return faults


def rows_of_met(count, seed):
    """So many searches of large tests, each with a limit."""
    draw = random.Random("met %d" % seed)
    for number in range(count):
        how = random_tests.large_test(draw, number), draw.choice(DEPTHS), LIMITS[number % len(LIMITS)]
        yield "large test %d of seed %d, depth %d, %d states" % ((number, seed) + how[1:]), lambda program, how=how: faults_of_met(program, *how)


def faults_of_count(program, name, depth, count):
    """How many final states a test of the gallery has, where another number is published."""
    with open(os.path.join(judging.EXAMPLES, "gallery", name + ".litmus"), "rb") as file:
        done = program.run(["outcomes", "--depth", str(depth), "--show", "all"], file.read())
    found = len(re.findall(rb"^State ", done.stdout, re.M))
    return [] if found == count else ["%d final states are published, and %d are found" % (count, found)]


def rows_of_published():
    for how in PUBLISHED:
        yield "final states of %s, depth %d" % how[:2], lambda program, how=how: faults_of_count(program, *how)


def main():
    parser = judging.with_programs(__doc__, with_part=False)
    parser.add_argument("--tests", type=int, default=300)
    parser.add_argument("--met", type=int, default=12)
    parser.add_argument("--seed", type=int, default=1)
    asked = parser.parse_args()
    programs, tally = judging.programs_in(asked), judging.Tally()
    of_repository = [(name, given.partition(judging.DIVIDER)[0]) for name, given in judging.all_inputs()]
    tally.add("outcomes", judging.judged(rows_of(of_repository, lambda turn: OF_REPOSITORY), programs))
    tally.add("outcomes", judging.judged(rows_of_published(), programs))
    tally.add("outcomes", judging.judged_in_turn(rows_of(tests_made(asked.tests, asked.seed), of_made), programs))
    tally.add("searches that met their limit", judging.judged_in_turn(rows_of_met(asked.met, asked.seed), programs))
    return tally.end()


if __name__ == "__main__":
    sys.exit(main())
