"""Cores with their store buffers above the caches, on either bus, and runs: docs/DEFINITIONS.md, 'The machine that runs' and 'The
machine on a split bus'; why a choice stalls is docs/MESSAGES.md, 'Stalls'."""
import typing

from . import arithmetic, conditions, litmus, seen
from .caches import FORWARD, Caches
from .choices import DRAIN, STEP
from .orders import FENCE, LOCKED_READ, LOCKED_WRITE, READ, WRITE, Entry

COMMITTED, BUFFERED, MOVED, ASKED, STALLED = "Committed", "Buffered", "Moved", "Asked", "Stalled"
DONE, FULL, FENCE_WAITS, LOCK_WAITS, EMPTY, BUS = "Done", "Full", "Fence", "Lock", "Empty", "Bus"

ATOMIC, SPLIT = "atomic", "split"


class Configuration(typing.NamedTuple):
    """The machine's options, by docs/REFERENCE.md, 'Options'."""
    protocol: str = "msi"
    depth: int = 4
    sets: int = 1
    ways: int = 2
    words: int = 1
    bus: str = ATOMIC


class Pending(typing.NamedTuple):
    """A store that is in its core's buffer."""
    place: int
    location: int
    value: int


class Core:
    """A core: the number of its next instruction, its registers, its pending stores, the oldest first."""

    def __init__(self, program, registers):
        self.program, self.registers = program, list(registers)
        self.place, self.pending = 0, []

    def newest_for(self, location):
        """The value of the newest pending store to this location, or None."""
        return next((store.value for store in reversed(self.pending) if store.location == location), None)

    def has_ended(self):
        return self.place == len(self.program) and not self.pending


class Holder(typing.NamedTuple):
    """Whose action holds the bus, at which location, what it awaits, and between the two parts of a locked instruction its copy and
    what it writes."""
    core: int
    action: str
    location: int
    awaited: object
    copy: object = None
    written: typing.Optional[Entry] = None


class Machine:
    """A machine at the beginning of a test. `choose` makes one choice."""

    def __init__(self, test, configuration):
        self.test, self.depth, self.bus = test, configuration.depth, configuration.bus
        self.cores = [Core(program, registers) for program, registers in zip(test.programs, test.registers)]
        self.caches = Caches(configuration.protocol, test.cores(), configuration.sets, configuration.ways, configuration.words,
                             test.words)
        self.order, self.holder, self.outcome = [], None, None

    def has_ended(self):
        return all(core.has_ended() for core in self.cores)

    def choose(self, number, action):
        """Makes a choice of this core; whether it took effect. `outcome` has its outcome, or why it stalled."""
        self.outcome = outcome = self.step(number) if action == STEP else self.drain(number)
        if outcome in (COMMITTED, BUFFERED, MOVED, ASKED):
            seen.note("outcome", outcome)
            return True
        seen.note("stall", outcome)
        return False

    def step(self, number):
        core = self.cores[number]
        if core.place == len(core.program):
            return DONE
        done = core.program[core.place]
        kind, location = done.kind, done.location
        if kind in litmus.STORES:
            return self.store(number, Pending(core.place, location, arithmetic.operand(done, core.registers)))
        if kind == litmus.LOAD:
            return self.load(number, location, done.register)
        if kind in litmus.LOCKED:
            return self.locked(number, done)
        if kind == litmus.FENCE:
            if core.pending:
                return FENCE_WAITS
            self.commit(number, FENCE)
            core.place += 1
            return COMMITTED
        core.registers = arithmetic.moved(done, core.registers)
        core.place += 1
        return MOVED

    def store(self, number, store):
        """A plain store becomes pending; at depth 0 its step is the write that its drain would be."""
        core = self.cores[number]
        if self.depth > 0:
            if len(core.pending) == self.depth:
                return FULL
            core.pending.append(store)
            core.place += 1
            return BUFFERED
        outcome = self.write(number, STEP, store)
        if outcome == COMMITTED:
            core.place += 1
        return outcome

    def drain(self, number):
        core = self.cores[number]
        if not core.pending:
            return EMPTY
        outcome = self.write(number, DRAIN, core.pending[0])
        if outcome == COMMITTED:
            core.pending.pop(0)
        return outcome

    def write(self, number, action, store):
        """A store goes to memory, through its core's cache."""
        copy, outcome = self.access(number, action, store.location, True)
        if copy is not None:
            self.caches.write_in(copy, store.location, store.value)
            self.order.append(Entry(number, store.place, WRITE, store.location, store.value))
        return outcome

    def load(self, number, location, register):
        """A load is answered by the newest own pending store to its location, else by its core's cache."""
        core = self.cores[number]
        value, outcome = core.newest_for(location), COMMITTED
        if value is not None:
            self.caches.count(number, FORWARD)
        else:
            copy, outcome = self.access(number, STEP, location, False)
            if copy is None:
                return outcome
            value = self.caches.word_in(copy, location)
        self.commit(number, READ, location, value)
        core.registers[register] = value
        core.place += 1
        return outcome

    def access(self, number, action, location, write):
        """A load's or a store's access: the copy that it is made on, with Committed; or None, with why it isn't made now."""
        if self.bus == ATOMIC:
            return self.caches.access(number, location, write), COMMITTED
        if self.holds(number, action):
            awaited, self.holder = self.holder.awaited, None
            return self.caches.complete(number, location, write, awaited), COMMITTED
        if self.caches.hits(number, location, write):
            seen.note("hit on the split bus", "while it is held" if self.holder else "while it is free")
            return self.caches.access(number, location, write), COMMITTED
        return None, self.ask(number, action, location, write)

    def holds(self, number, action):
        return self.holder is not None and (self.holder.core, self.holder.action) == (number, action)

    def ask(self, number, action, location, write):
        """Asks for the bus where it is free."""
        if self.holder is not None:
            return BUS
        self.holder = Holder(number, action, location, self.caches.ask(number, location, write))
        return ASKED

    def locked(self, number, done):
        """A locked instruction waits for its own buffer, and on the split bus always asks; there it is made in two parts."""
        core, location = self.cores[number], done.location
        if core.pending:
            return LOCK_WAITS
        if self.bus == ATOMIC:
            copy = self.caches.access(number, location, True)
            written = self.read_part(number, done, copy)
            return self.write_part(number, done, copy, written)
        if not self.holds(number, STEP):
            return self.ask(number, STEP, location, True)
        if self.holder.written is None:
            copy = self.caches.complete(number, location, True, self.holder.awaited)
            written = self.read_part(number, done, copy)
            self.holder = self.holder._replace(awaited=None, copy=copy, written=written)
            return COMMITTED
        copy, written, self.holder = self.holder.copy, self.holder.written, None
        return self.write_part(number, done, copy, written)

    def read_part(self, number, done, copy):
        """Commits the load part; answers the store part's entry."""
        core, old = self.cores[number], self.caches.word_in(copy, done.location)
        self.commit(number, LOCKED_READ, done.location, old)
        return Entry(number, core.place, LOCKED_WRITE, done.location, arithmetic.updated(done, core.registers, old))

    def write_part(self, number, done, copy, written):
        core, register = self.cores[number], arithmetic.taken_by(done)
        if register is not None:
            core.registers[register] = self.caches.word_in(copy, written.location)
        self.caches.write_in(copy, written.location, written.value)
        self.order.append(written)
        core.place += 1
        return COMMITTED

    def commit(self, number, kind, location=0, value=0):
        self.order.append(Entry(number, self.cores[number].place, kind, location, value))

    def put_together(self):
        """The order, each load part of a locked instruction directly before its store part: DEFINITIONS.md, 'put together'."""
        order = []
        for entry in self.order:
            if entry.kind == LOCKED_WRITE:
                part = next(part for part in order if part[:3] == (entry.core, entry.place, LOCKED_READ))
                if order[-1] is not part:
                    seen.note("order", "entries between the parts of a locked instruction")
                order.remove(part)
                order.append(part)
            order.append(entry)
        return order


class Run(typing.NamedTuple):
    """A run: how many choices were made, and how many of them stalled; of one that ended the machine, else None."""
    used: int
    stalled: int
    machine: typing.Optional[Machine]

    def state(self):
        """Registers and memory at the end."""
        test = self.machine.test
        return [core.registers for core in self.machine.cores], self.machine.caches.final_words(len(test.words))


def run(test, configuration, choices, machine=None):
    """Makes choices up to the first moment at which the test has ended: DEFINITIONS.md, 'run'; on this machine, if one is given."""
    machine = machine or Machine(test, configuration)
    used = stalled = 0
    ended = machine.has_ended()
    if not ended:
        for number, action in choices:
            used += 1
            if not machine.choose(number, action):
                stalled += 1
            elif machine.has_ended():
                ended = True
                break
    return Run(used, stalled, machine if ended else None)


def holds(test, state):
    """The condition's truth in a final state, or None where the test has none."""
    return None if test.proposition is None else conditions.truth_of(test.proposition, *state)
