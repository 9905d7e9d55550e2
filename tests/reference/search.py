"""Every state that a test can be in, by a plain search: docs/DEFINITIONS.md, 'The machine that runs' and 'What its runs can end with'.

The flat machine is said here once more, apart from machine.py: one memory, and of each core its place, its registers and its pending
stores. Every choice of every core is made in every state, and two states count as one where they are the same in all of it.
"""
from . import arithmetic, litmus


class Numbered:
    """Values, each with a number: equal values have the same one."""

    def __init__(self):
        self.values, self.numbers = [], {}

    def number(self, value):
        found = self.numbers.setdefault(value, len(self.values))
        if found == len(self.values):
            self.values.append(value)
        return found


class Search:
    """The states of a test at a depth, each as a tuple of numbers: those of the cores as they are, and at last that of memory."""

    def __init__(self, test, depth):
        self.programs, self.depth = test.programs, depth
        self.cores, self.memories, self.known = Numbered(), Numbered(), {}
        first = [self.cores.number((0, tuple(registers), ())) for registers in test.registers]
        self.reached = self.all_from(tuple(first) + (self.memories.number(tuple(test.words)),))

    def all_from(self, first):
        """All states that choices lead to from this one."""
        reached, waiting, numbers, known = {first}, [first], range(len(self.programs)), self.known
        while waiting:
            state = waiting.pop()
            for number in numbers:
                alike = number, state[number], state[-1]
                for core, memory in known[alike] if alike in known else self.after(*alike):
                    later = state[:number] + (core,) + state[number + 1:-1] + (memory,)
                    if later not in reached:
                        reached.add(later)
                        waiting.append(later)
        return reached

    def after(self, number, core, memory):
        """What this core's step and its drain make of it and of memory, of those that don't stall. It is known then for all states that
        are alike in these two."""
        held = self.cores.values[core], self.memories.values[memory]
        made = step(self.programs[number], self.depth, *held), drain(*held)
        found = [(self.cores.number(one), self.memories.number(words)) for one, words in filter(None, made)]
        self.known[number, core, memory] = found
        return found

    def ends(self):
        """The registers of all cores and the memory of each state in which the test has ended."""
        for state in self.reached:
            cores = [self.cores.values[core] for core in state[:-1]]
            if all(place == len(program) and not pending for program, (place, _, pending) in zip(self.programs, cores)):
                yield [registers for _, registers, _ in cores], self.memories.values[state[-1]]


def put(row, at, value):
    return row[:at] + (value,) + row[at + 1:]


def step(program, depth, core, words):
    """A core and memory after its next instruction; None where the step stalls."""
    place, registers, pending = core
    if place == len(program):
        return None
    done = program[place]
    kind, location, register = done.kind, done.location, done.register
    if pending and (kind == litmus.FENCE or kind in litmus.LOCKED):
        return None
    if kind in litmus.STORES:
        value = arithmetic.operand(done, registers)
        if depth == 0:
            words = put(words, location, value)
        elif len(pending) == depth:
            return None
        else:
            pending += (location, value),
    elif kind == litmus.LOAD:
        own = [value for stored, value in pending if stored == location]
        registers = put(registers, register, own[-1] if own else words[location])
    elif kind in litmus.LOCKED:
        old, taken = words[location], arithmetic.taken_by(done)
        words = put(words, location, arithmetic.updated(done, registers, old))
        registers = registers if taken is None else put(registers, taken, old)
    elif kind in litmus.MOVES:
        registers = tuple(arithmetic.moved(done, registers))
    return (place + 1, registers, pending), words


def drain(core, words):
    """A core and memory after its oldest pending store went there; None where there is none."""
    place, registers, pending = core
    if not pending:
        return None
    (location, value), *later = pending
    return (place, registers, tuple(later)), put(words, location, value)
