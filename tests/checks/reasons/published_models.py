"""The published relational model of x86-TSO and that of sequential consistency as constraints for the solver z3: whether some candidate that
the model allows makes a claim true.

Reads have sources, writes places in their location's order, and events places in an order that each axiom asks for. Instructions are carried
out over words of 32 bits, so no value is tried by hand. tools/theory has the events, the program order and the axioms (herd's x86tso.cat).
"""
import itertools

import z3

from checks.tools import tool_runs

import litmus as tool_litmus

theory = tool_runs.script("theory")

BITS = 32
TSO, SC = "tso", "sc"

OPERATORS = {
    "ADD": lambda a, b: a + b,
    "SUB": lambda a, b: a - b,
    "AND": lambda a, b: a & b,
    "OR": lambda a, b: a | b,
    "XOR": lambda a, b: a ^ b,
}


def word(value):
    return z3.BitVecVal(value, BITS)


class Candidates:
    """All candidates of a test, as constraints."""

    def __init__(self, test):
        self.test, self.events = test, theory.events_of(test)
        self.relations = theory.Relations(test, self.events)
        self.writes = {name: [at for at, e in enumerate(self.events) if e.is_write and e.location == name] for name in test.locations()}
        self.reads = [at for at, e in enumerate(self.events) if not e.is_write]
        self.values = [z3.BitVec("value%d" % at, BITS) for at in range(len(self.events))]
        self.comes = [z3.Int("comes%d" % at) for at in range(len(self.events))]
        self.from_write = {(read, write): z3.Bool("from%d_%d" % (read, write)) for read in self.reads
                           for write in self.writes[self.events[read].location]}
        self.solver = z3.Solver()
        self.number_writes()
        self.give_sources()
        self.carry_out()

    def number_writes(self):
        """The first word comes first, and of two writes to a location one before the other."""
        for writes in self.writes.values():
            first, *others = writes
            self.solver.add(self.comes[first] == 0, z3.Distinct([self.comes[at] for at in writes]))
            self.solver.add(*(z3.And(self.comes[at] > 0, self.comes[at] < len(writes)) for at in others))

    def give_sources(self):
        """Each read has one source, and its value."""
        for read in self.reads:
            sources = self.writes[self.events[read].location]
            self.solver.add(z3.PbEq([(self.from_write[read, write], 1) for write in sources], 1))
            self.solver.add(*(z3.Implies(self.from_write[read, write], self.values[read] == self.values[write]) for write in sources))

    def carry_out(self):
        """Each write has the value that its core's program gives it, and each place its last value."""
        at_place, self.last = {(e.core, e.place, e.is_write): at for at, e in enumerate(self.events)}, {}
        for at, event in enumerate(self.events):
            if event.core is None:
                self.solver.add(self.values[at] == word(self.test.initial.get(event.location, 0)))
        for core, program in enumerate(self.test.programs):
            registers = {name: word(self.test.initial.get((core, name), 0)) for name in tool_litmus.REGISTERS}
            for place, one in enumerate(program):
                read, write = (at_place.get((core, place, is_write)) for is_write in (False, True))
                got = None if read is None else self.values[read]
                if write is not None:
                    self.solver.add(self.values[write] == written(one, registers, got))
                registers.update(changed(one, registers, got))
            self.last.update({(core, name): value for name, value in registers.items()})
        for name, writes in self.writes.items():
            self.last[name] = z3.BitVec("last_" + name, BITS)
            self.solver.add(*(z3.Implies(self.comes[at] == len(writes) - 1, self.last[name] == self.values[at]) for at in writes))

    def communication(self):
        """Pairs of events that coherence, sources and from-reads order, each with its condition: external ones, and sources of the own core."""
        external, own = [], []
        for writes in self.writes.values():
            external += [(a, b, self.comes[a] < self.comes[b]) for a, b in itertools.permutations(writes, 2)]
        for (read, write), is_source in self.from_write.items():
            (own if self.events[write].core == self.events[read].core else external).append((write, read, is_source))
            external += [(read, later, z3.And(is_source, self.comes[write] < self.comes[later]))
                         for later in self.writes[self.events[read].location] if later != write]
        return external, own

    def order(self, name, rows, pairs):
        """No cycle: the events have numbers that grow along each pair."""
        number = [z3.Int("%s%d" % (name, at)) for at in range(len(self.events))]
        self.solver.add(*(number[a] < number[b] for a, row in enumerate(rows) for b in range(len(rows)) if row >> b & 1))
        self.solver.add(*(z3.Implies(holds, number[a] < number[b]) for a, b, holds in pairs))

    def allow(self, model):
        """The axioms of a model."""
        external, own = self.communication()
        if model == SC:
            self.order("step", self.program_order(), external + own)
        else:
            self.order("alone", self.relations.po_loc, external + own)
            self.order("global", self.relations.ordered, external)
        for read, own_write in self.relations.locked_writes.items():
            core, writes = self.events[read].core, self.writes[self.events[read].location]
            for source, other in itertools.permutations(writes, 2):
                if self.events[other].core not in (None, core):
                    self.solver.add(z3.Not(z3.And(self.from_write[read, source], self.comes[source] < self.comes[other],
                                                  self.comes[other] < self.comes[own_write])))

    def program_order(self):
        rows = [0] * len(self.events)
        for (i, a), (j, b) in itertools.permutations(enumerate(self.events), 2):
            if a.core is not None and a.core == b.core and (a.place, a.is_write) < (b.place, b.is_write):
                rows[i] |= 1 << j
        return rows

    def says(self, claim):
        if isinstance(claim, bool):
            return z3.BoolVal(claim)
        kind, *parts = claim
        if kind == "is":
            return self.last.get(parts[0], word(0)) == word(parts[1])
        if kind == "not":
            return z3.Not(self.says(parts[0]))
        return (z3.And if kind == "and" else z3.Or)([self.says(part) for part in parts[0]])


def value_of(operand, registers):
    return word(operand) if isinstance(operand, int) else registers[operand]


def written(one, registers, got):
    """What an instruction writes, where it read this word."""
    if one.kind == "store":
        return value_of(one.operand, registers)
    return {
        "xchg": lambda: registers[one.register],
        "xadd": lambda: got + registers[one.register],
        "cmpxchg": lambda: z3.If(got == registers["EAX"], registers[one.register], got),
        "locked": lambda: OPERATORS[one.operator](got, value_of(one.operand, registers)),
        "lockedneg": lambda: -got,
    }[one.kind]()


def changed(one, registers, got):
    """The registers that an instruction changes, where it read this word."""
    if one.kind == "swap":
        return {one.register: registers[one.operand], one.operand: registers[one.register]}
    if one.kind == "move":
        return {one.register: value_of(one.operand, registers)}
    if one.kind == "combine":
        return {one.register: OPERATORS[one.operator](registers[one.register], value_of(one.operand, registers))}
    if one.kind == "neg":
        return {one.register: -registers[one.register]}
    return {name: got for name in one.written()}


def can_be(text, model, seconds):
    """Whether some candidate that the model allows has what the test asks; None where the solver doesn't say it in this time."""
    test = tool_litmus.read_test(text)
    quantifier, claim = test.condition
    candidates = Candidates(test)
    candidates.allow(model)
    candidates.solver.add(candidates.says(("not", claim) if quantifier == "forall" else claim))
    candidates.solver.set("timeout", int(seconds * 1000))
    found = candidates.solver.check()
    return None if found == z3.unknown else found == z3.sat
