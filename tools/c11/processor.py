"""What one core does: instructions of x86-64 on registers, flags and memory, up to the next read whose value others may give."""
from . import arithmetic
from .arithmetic import mask
from .decoding import RSP, Number, Register
from .events import CUT, ENDS, FAULTS, FENCE, LOCKED, READ, REPEATS, WAITS, WRITE, Event, Stop
from .instructions import MEANINGS
from .refusals import NotJudged
from .sharing import STACK, STACK_SIZE

# Where a core's function returns to: there it is done.
RETURN = 0x4E000000
# What registers hold before anything is put there.
GARBAGE = 0x7E57000000000000

MOST_STEPS = 20000
ARGUMENTS = (7, 6, 2, 1, 8, 9)


class _Waits(Exception):
    """A read whose value isn't chosen yet."""


class _Faults(Exception):
    """An access where no memory lies."""


class Core:
    """The state of a core. `run` goes on to the next stop; `answered` is a copy that has the value of the read that is waited for."""

    __slots__ = ("program", "number", "registers", "flags", "memory", "at", "frames", "events", "answer", "waits_for", "jumps",
                 "arrivals", "steps")

    def __init__(self, program, number, function, arguments=()):
        self.program, self.number, self.at = program, number, function
        self.registers = [GARBAGE + one for one in range(16)]
        self.flags, self.memory, self.events = arithmetic.UNDEFINED, {}, []
        self.frames, self.jumps, self.arrivals, self.steps = (), {}, {}, 0
        self.answer = self.waits_for = None
        self.registers[RSP] = stack_top(number)
        for register, address in zip(ARGUMENTS, arguments):
            self.registers[register] = address
        self.push(RETURN)

    def answered(self, value):
        other = Core.__new__(Core)
        other.program, other.number, other.at, other.frames = self.program, self.number, self.at, self.frames
        other.registers, other.flags, other.memory = list(self.registers), self.flags, dict(self.memory)
        other.jumps, other.arrivals, other.steps = dict(self.jumps), dict(self.arrivals), self.steps
        other.events, other.answer, other.waits_for = [], value, None
        return other

    def run(self):
        """Goes on until a read waits for its value, or to the end; `events` has what was done since."""
        while True:
            try:
                stop = self.step()
            except _Waits as waits:
                return Stop(WAITS, waits.args[0])
            except _Faults as fault:
                return Stop(FAULTS, "%s at %s" % (fault.args[0], self.program.image.place_of(self.at)))
            if stop is not None:
                return stop
            if self.steps > MOST_STEPS:
                return Stop(CUT, None)

    def step(self):
        """Takes one instruction; answers a stop, where there is one."""
        instruction = self.program.decoder.at(self.at)
        meaning = MEANINGS.get(instruction.name)
        if meaning is None or None in instruction.operands:
            raise NotJudged("%s isn't read" % instruction.text, self.program.image.place_of(self.at))
        self.steps += 1
        target = meaning(self, instruction)
        if target is None:
            self.at = instruction.next
            return None
        return Stop(ENDS, None) if target == RETURN else self._jump(target)

    # ---- loops

    def _jump(self, target):
        """Goes to this address. A jump back ends the path where its loop changed nothing, or went round as often as is allowed."""
        came_from, self.at = self.at, target
        if target > came_from or self.program.is_other_function(came_from, target):
            return None
        state = self.program.state_at(self)
        if any(state == earlier for earlier in self.arrivals.get(target, ())):
            return Stop(REPEATS, None)
        self.arrivals[target] = (*self.arrivals.get(target, ()), state)
        self.jumps[came_from] = self.jumps.get(came_from, 0) + 1
        return Stop(CUT, None) if self.jumps[came_from] > self.program.rounds else None

    def record(self, kind, place=None, read=None, written=None, addend=None):
        """Notes an event. What changes memory makes all earlier states of loops differ from later ones."""
        self.events.append(Event(kind, place, read, written, addend, self.at))
        if kind == WRITE or kind == LOCKED and read != written:
            self.arrivals = {}

    # ---- registers

    def register(self, number, size, shift=0):
        return self.registers[number] >> shift & mask(size)

    def set_register(self, number, size, value, shift=0):
        """A write of 32 bits clears the upper half; smaller ones leave the rest."""
        if size < 4:
            held = mask(size) << shift
            self.registers[number] = self.registers[number] & ~held | (value << shift & held)
        else:
            self.registers[number] = value & mask(size)

    def address(self, operand):
        """Where an operand in memory lies."""
        base = 0 if operand.base is None else self.registers[operand.base]
        index = 0 if operand.index is None else self.registers[operand.index] * operand.scale
        return (base + index + operand.offset) & mask(8)

    def get(self, operand, size=None):
        """The value of an operand."""
        if isinstance(operand, Register):
            return self.register(operand.number, operand.size, operand.shift)
        if isinstance(operand, Number):
            return operand.value & mask(size or operand.size)
        return self.load(self.address(operand), operand.size)

    def put(self, operand, value):
        if isinstance(operand, Register):
            self.set_register(operand.number, operand.size, value, operand.shift)
        else:
            self.store(self.address(operand), operand.size, value)

    # ---- memory

    def load(self, address, size):
        program = self.program
        if not program.uses(self, address, size, False):
            return self._own(address, size)
        place = program.word_of(address, size)
        value = self._read(place)
        self.record(READ, place, value)
        return value >> 8 * (address - place[0]) & mask(size)

    def store(self, address, size, value):
        value &= mask(size)
        is_shared = self.program.uses(self, address, size, True)
        is_joined = address in self.program.joined
        if is_joined or not is_shared:
            for at in range(size):
                self.memory[address + at] = value >> 8 * at & 255
        if is_joined:
            self._store_joined(address, size)
        elif is_shared:
            self.record(WRITE, (address, size), written=value)

    def _store_joined(self, address, size):
        """A store into a word that is used whole and in parts. Where it is one of a part, the core knows the rest: it alone writes there,
        or the program is refused."""
        place = self.program.word_of(address, size)
        if place != (address, size):
            self.program.part_writers.setdefault(place, set()).add(self.number)
        self.record(WRITE, place, written=self._own(*place))

    def update(self, operand, change):
        """A locked read and write: the new value is what `change` makes of the old one, which is answered. On words of its own it is a
        fence. `change` may answer None: nothing new is written; and a pair of the value and what a locked addition added."""
        address, size = self.address(operand), operand.size
        if not self.program.uses(self, address, size, True):
            old = self._own(address, size)
            new = change(old)[0]
            self.record(FENCE)
            self.store(address, size, old if new is None else new)
            return old
        place = self.program.word_of(address, size)
        whole, shift = self._read(place), 8 * (address - place[0])
        old = whole >> shift & mask(size)
        new, addend = change(old)
        new = (old if new is None else new) & mask(size)
        for at in range(size) if address in self.program.joined else ():
            self.memory[address + at] = new >> 8 * at & 255
        self.record(LOCKED, place, whole, whole ^ (old ^ new) << shift, addend if place == (address, 4) else None)
        return old

    def _read(self, place):
        if self.answer is None:
            self.waits_for = place
            raise _Waits(place)
        value, self.answer = self.answer, None
        return value

    def _own(self, address, size):
        memory, found = self.memory, 0
        for at in range(size - 1, -1, -1):
            byte = memory.get(address + at)
            found = found << 8 | (self.program.initial_byte(address + at) if byte is None else byte)
        return found

    def push(self, value, size=8):
        self.registers[RSP] -= size
        self.store(self.registers[RSP], size, value)

    def pop(self, size=8):
        value = self.load(self.registers[RSP], size)
        self.registers[RSP] += size
        return value


def stack_top(number):
    """Where the stack of this core begins, and grows down from; 8 below a multiple of 16 once a return address is pushed."""
    return STACK + (number + 1) * STACK_SIZE - 1024


def fault(why):
    """Ends the path: no memory lies there."""
    raise _Faults(why)
