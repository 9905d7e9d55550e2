"""Tests that are the same but for names, for tests/batteries.py: those of tools/cycles beside the gallery's."""
import itertools

import litmus

import answers
import cycle_tests
import edges

from . import tool_runs

# These cycles have the gallery's tests.
SHARED = ("SB", "MP", "LB", "R", "S", "2+2W", "IRIW", "WRC", "ISA2", "RWC")


class Renaming:
    """How one test's places and stored values become another's: `places` by place, `values` by location and value."""

    def __init__(self, cores):
        self.cores, self.places, self.values = cores, {}, {}

    def pair(self, names, here, there):
        """Takes that one name becomes the other. Answers whether nothing else was said before, of either."""
        if names.setdefault(here, there) != there:
            return False
        return sum(other == there for other in names.values()) == 1

    def takes(self, core, ours, theirs):
        """Whether an instruction of this core becomes that of the other test."""
        if ours.kind != theirs.kind:
            return False
        fits = True
        if ours.location:
            fits = self.pair(self.places, ours.location, theirs.location)
        if ours.register:
            fits = fits and self.pair(self.places, (core, ours.register), (self.cores[core], theirs.register))
        if ours.kind == "store":
            values = self.values.setdefault(ours.location, {0: 0})
            fits = fits and isinstance(ours.operand, int) and isinstance(theirs.operand, int)
            fits = fits and self.pair(values, ours.operand, theirs.operand)
        return fits

    def state(self, state, read_from):
        """A state of the one test as one of the other; a register's values are those of the location that it was loaded from."""
        return frozenset((self.places[place], self.values[read_from.get(place, place)].get(value)) for place, value in state)


def renamings(ours, theirs):
    """All ways in which one test becomes the other, by the order of its cores."""
    if len(ours.programs) != len(theirs.programs) or ours.initial or theirs.initial:
        return
    for cores in itertools.permutations(range(len(ours.programs))):
        found = Renaming(cores)
        programs = [(core, program, theirs.programs[cores[core]]) for core, program in enumerate(ours.programs)]
        if all(len(program) == len(other) and all(found.takes(core, *pair) for pair in zip(program, other))
               for core, program, other in programs):
            yield found


def read_from(test):
    """Of each register that a load fills, the location."""
    return {(core, i.register): i.location for core, program in enumerate(test.programs) for i in program if i.kind == "load"}


def all_states(program, test):
    """All final states of a test by the program, with each register that is loaded and each location."""
    places = list(read_from(test)) + test.locations()
    asking = litmus.Test(test.name, test.programs, test.initial, [], ("exists", ("and", tuple(("is", place, 0) for place in places))))
    found = answers.outcomes(program, asking.text(), [], 60)
    return {frozenset((place, state[litmus.place_text(place)]) for place in places) for state in found["states"]}


def judge(program, tally):
    """Tests that tools/cycles makes have the gallery's states, up to names of cores, locations and registers, and stored values."""
    texts = dict(tool_runs.gallery())
    for name in SHARED:
        ours = cycle_tests.test_of(edges.cycle_named(cycle_tests.LITERATURE[name].split()))
        theirs = litmus.read_test(texts[name])
        here, there, from_where = all_states(program, ours), all_states(program, theirs), read_from(ours)
        same = any({found.state(state, from_where) for state in here} == there for found in renamings(ours, theirs))
        tally.add("the cycle and the gallery's test " + name, None if same else "%d states, and %d" % (len(here), len(there)))
