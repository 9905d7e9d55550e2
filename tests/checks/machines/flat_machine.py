"""A plain reference for small litmus tests: all runs of the flat TSO machine, explored state by state.

The machine is the published one: a store buffer of `depth` stores for each core, loads that look there first, MFENCE and
locked instructions that wait for an empty buffer. At depth 0 a store is in memory at its step, which is sequential
consistency. Nothing here is taken from the program, so that the two can be held against each other.
"""
import re

CELLS = (
    ("store", r"MOV \[(\w+)\],\$(\d+)"),
    ("store", r"MOV \[(\w+)\],(E[A-Z]{2})"),
    ("load", r"MOV (E[A-Z]{2}),\[(\w+)\]"),
    ("move", r"MOV (E[A-Z]{2}),\$(\d+)"),
    ("move", r"MOV (E[A-Z]{2}),(E[A-Z]{2})"),
    ("fence", r"MFENCE"),
    ("xchg", r"XCHG \[(\w+)\],(E[A-Z]{2})"),
    ("xadd", r"LOCK XADD \[(\w+)\],(E[A-Z]{2})"),
)
REGISTER = re.compile("E[A-Z]{2}")


class Test:
    """A test of the gallery: its name, the facts of its key lines, the programs, and what its condition asks for."""

    def __init__(self, text):
        head, _, rest = text.partition("{")
        header, *keys = head.splitlines()
        self.name = re.fullmatch(r"X86 (.+)", header).group(1)
        self.facts = [tuple(line.split("=", 1)) for line in keys]
        initial, _, body = rest.partition("}")
        rows, _, condition = body.partition("exists")
        rows = [[cell.strip() for cell in row.split("|")] for row in rows.split(";") if row.strip()]
        self.programs = [[instruction(cell) for cell in column if cell] for column in zip(*rows[1:])]
        self.initial = dict(atom(item) for item in initial.split(";") if item.strip())
        self.wanted = [atom(item) for item in re.fullmatch(r"\s*\((.*)\)\s*", condition).group(1).split("/\\")]

    def has_outcome(self, words):
        return all(words.get(place, 0) == value for place, value in self.wanted)


def instruction(cell):
    for kind, form in CELLS:
        found = re.fullmatch(form, cell)
        if found:
            return (kind, *found.groups())
    raise ValueError("no instruction of the gallery: " + cell)


def atom(text):
    """`0:EAX=1` as the pair of ('0:EAX', 1), `x=1` as that of ('x', 1)."""
    place, value = text.strip().split("=")
    return place, int(value)


class Steps:
    """A test's programs over one row of words: the places of all registers, locations and numbers that they name, what these hold at the
    start, and each core's instructions, whose operands are numbers of places."""

    def __init__(self, test):
        self.names, self.first = list(test.initial), list(test.initial.values())
        self.of_core = [[(kind, *(self.place(core, name) for name in operands)) for kind, *operands in program]
                        for core, program in enumerate(test.programs)]

    def place(self, core, name):
        name = "%d:%s" % (core, name) if REGISTER.fullmatch(name) else name
        if name not in self.names:
            self.names.append(name)
            self.first.append(int(name) if name.isdigit() else 0)
        return self.names.index(name)

    def first_state(self):
        """The places of the cores, their pending stores, oldest first, each a location and a value, and the words."""
        return (0,) * len(self.of_core), ((),) * len(self.of_core), tuple(self.first)

    def values(self, words):
        """The registers and locations of these words that aren't 0, by their names."""
        return {name: word for name, word in zip(self.names, words) if word and not name.isdigit()}


def put(row, at, value):
    return row[:at] + (value,) + row[at + 1:]


def drain(state, core):
    places, buffers, words = state
    location, value = buffers[core][0]
    return places, put(buffers, core, buffers[core][1:]), put(words, location, value)


def step(steps, state, core, depth):
    """The state after this core's next instruction, or None where it must wait."""
    places, buffers, words = state
    kind, *operands = steps.of_core[core][places[core]]
    pending = buffers[core]
    if pending and kind in ("fence", "xchg", "xadd"):
        return None
    if kind == "load":
        register, location = operands
        own = [value for stored, value in pending if stored == location]
        words = put(words, register, own[-1] if own else words[location])
    elif kind == "move":
        register, source = operands
        words = put(words, register, words[source])
    elif kind in ("xchg", "xadd"):
        location, register = operands
        old, operand = words[location], words[register]
        words = put(words, location, operand if kind == "xchg" else (old + operand) % 2**32)
        words = put(words, register, old)
    elif kind == "store":
        location, source = operands
        if depth == 0:
            words = put(words, location, words[source])
        elif len(pending) == depth:
            return None
        else:
            buffers = put(buffers, core, pending + ((location, words[source]),))
    return put(places, core, places[core] + 1), buffers, words


def successors(steps, state, depth):
    for core, program in enumerate(steps.of_core):
        if state[0][core] < len(program):
            after = step(steps, state, core, depth)
            if after is not None:
                yield "%ds" % core, after
        if state[1][core]:
            yield "%dd" % core, drain(state, core)


def final_states(test, depth):
    """The registers and words of all final states: of each the values that aren't 0, by their places."""
    steps = Steps(test)
    start = steps.first_state()
    reached, frontier, found = {start}, [start], set()
    while frontier:
        state = frontier.pop()
        ended = True
        for _, after in successors(steps, state, depth):
            ended = False
            if after not in reached:
                reached.add(after)
                frontier.append(after)
        if ended:
            found.add(frozenset(steps.values(state[2]).items()))
    return found


def choices_to_outcome(test, depth):
    """A shortest list of choices that ends the test in what its condition asks for; None where no run does."""
    steps = Steps(test)
    start = steps.first_state()
    came_from, frontier = {start: None}, [start]
    while frontier:
        reached = []
        for state in frontier:
            ended = True
            for choice, after in successors(steps, state, depth):
                ended = False
                if after not in came_from:
                    came_from[after] = choice, state
                    reached.append(after)
            if ended and test.has_outcome(steps.values(state[2])):
                return path_to(state, came_from)
        frontier = reached
    return None


def path_to(state, came_from):
    choices = []
    while came_from[state] is not None:
        choice, state = came_from[state]
        choices.append(choice)
    return choices[::-1]


def least_depth(test):
    """The smallest depth at which some run has the outcome (0 under sequential consistency), or None."""
    deepest = max(sum(kind == "store" for kind, *_ in program) for program in test.programs)
    if choices_to_outcome(test, deepest) is None:
        return None
    return next(depth for depth in range(deepest + 1) if choices_to_outcome(test, depth) is not None)


def words_after(test, order):
    """Registers and memory as an order has them, by its own read values: (core, place, kind, location, value) each."""
    reads = {(core, place): value for core, place, kind, _, value in order if kind in ("R", "LR")}
    words = dict(test.initial)
    for core, program in enumerate(test.programs):
        for place, (kind, *operands) in enumerate(program):
            register = {"load": operands[:1], "xchg": operands[1:], "xadd": operands[1:]}.get(kind, [])
            words.update(("%d:%s" % (core, name), reads[core, place]) for name in register)
    words.update((location, value) for _, _, kind, location, value in order if kind in ("W", "LW"))
    return words
