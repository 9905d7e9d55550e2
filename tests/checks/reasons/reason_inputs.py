"""Tests for tests/why.py: those of the repository, tests made at random, each under many conditions, and great ones."""
import random

from checks import judging, random_tests
from checks.tools import tool_runs
from reference import choices, litmus, machine, reading

import litmus as tool_litmus

# Each quantifier, and a form of what the test's own condition claims.
FORMS = (
    ("exists", "as it is"), ("~exists", "as it is"), ("forall", "as it is"),
    ("exists", "negated"), ("forall", "negated"), ("exists", "joined by or"), ("~exists", "partly negated"),
)
NO_CONDITION = "without a condition"

# Great tests: cores, instructions of each, and how many of them.
GREAT = ((8, 8, 200), (4, 16, 200), (8, 32, 20))
GREAT_LOCATIONS = ("x", "y", "z", "a")
MOST_CHANGED = 3


def repository():
    """Names and texts of all litmus files of examples/."""
    for name, given in judging.all_inputs():
        yield name, given.partition(judging.DIVIDER)[0].decode()


def cycles(picked):
    """Those of the tests of examples/cycles.list that are picked of all lines."""
    tool = tool_runs.script("cycles")
    with open(judging.EXAMPLES + "/cycles.list", encoding="ascii") as file:
        for line in picked(file.read().splitlines()):
            name, cycle, _ = line.split(": ")
            yield "cycle " + name, tool.test_of(tool.edges.cycle_named(cycle.split())).text()


def made(count, seed):
    """Tests made at random."""
    draw = random.Random(seed)
    for number in range(count):
        make = random_tests.alike_test if number % 3 == 2 else random_tests.made_test
        yield "made test %d of seed %d" % (number, seed), make(draw, number).decode()


def with_forms(name, text, forms=FORMS):
    """The test under each of these conditions, and without one: names and texts."""
    test = tool_litmus.read_test(text)
    condition, test.facts, test.condition = test.condition, [], None
    yield "%s, %s" % (name, NO_CONDITION), test.text()
    if condition is None:
        return
    for quantifier, form in forms:
        test.condition = quantifier, claim_in_form(condition[1], form)
        yield "%s, %s %s" % (name, quantifier, form), test.text()


def claim_in_form(claim, form):
    if form == "as it is":
        return claim
    if form == "negated":
        return "not", claim
    parts = claim[1] if claim[0] == "and" else (claim,)
    if form == "joined by or":
        return "or", tuple(parts) + (("not", parts[0]),) if len(parts) == 1 else tuple(parts)
    return "and", (("not", parts[0]),) + tuple(parts[1:])


# ---- great tests

def great(cores, length, count, seed):
    """Tests of so many cores and instructions whose conditions name all registers that are loaded, with the values of a run, and then with
    one to three values changed: names and texts."""
    draw = random.Random("%d by %d, %d" % (cores, length, seed))
    for number in range(count):
        test = tool_litmus.Test("great%d" % number, [great_program(draw, core, length) for core in range(cores)])
        values = list(values_of_run(draw, test).items())
        name = "%d by %d, %d of seed %d" % (cores, length, number, seed)
        yield name + ", of a run", asking(test, values)
        for at in draw.sample(range(len(values)), min(draw.randint(1, MOST_CHANGED), len(values))):
            place, value = values[at]
            values[at] = place, draw.choice([other for other in written_to(test, place) if other != value] or [value + 1])
        yield name + ", with values changed", asking(test, values)


def great_program(draw, core, length):
    """A program of loads and stores, and a few fences and locked instructions. Each load has a register that no later one has, but where
    there are more than six."""
    registers, program = list(litmus.REGISTERS), []
    for place in range(length):
        location, kind = draw.choice(GREAT_LOCATIONS), draw.choices(("load", "store", "fence", "xchg"), (9, 9, 1, 1))[0]
        register = registers[place % len(registers)]
        operand = core * length + place + 1
        if kind == "xchg":
            program.append(tool_litmus.Instruction("move", register=register, operand=operand))
        made = {"load": dict(register=register), "store": dict(operand=operand), "fence": {}, "xchg": dict(register=register)}[kind]
        program.append(tool_litmus.Instruction(kind, None if kind == "fence" else location, **made))
    return program[:length]


def values_of_run(draw, test):
    """The last values of all registers that are loaded, in a run of a seed."""
    read = reading.read_test(test.text().encode())
    run = machine.run(read, machine.Configuration(depth=4), choices.choices_of_seed(draw.randrange(1000), 100_000, read.cores()))
    registers, _ = run.state()
    loaded = {(core, done.register) for core, program in enumerate(test.programs) for done in program if done.kind in ("load", "xchg")}
    return {(core, name): registers[core][litmus.REGISTERS.index(name)] for core, name in sorted(loaded)}


def written_to(test, place):
    """What stores write to the location from which this register was loaded last."""
    core, register = place
    location = [done.location for done in test.programs[core] if done.register == register and done.location][-1]
    return [done.operand for program in test.programs for done in program if (done.kind, done.location) == ("store", location)]


def asking(test, values):
    return tool_litmus.Test(test.name, test.programs, condition=("exists", ("and", tuple(("is",) + pair for pair in values)))).text()
