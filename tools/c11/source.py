"""What one thread of the source does, by clang's unoptimized code: up to the next read whose value others may give."""
from collections import namedtuple

from .llvm import ARITHMETIC, CASTS, Line, Module
from .llvm_words import signed, walk
from .locals import Locals
from .events import CUT, ENDS, FAULTS, FENCE, LOCKED, READ, REPEATS, WAITS, WRITE, Stop
from .refusals import NotJudged
from .sharing import STACK, STACK_SIZE, SharedWords
from .states import words_of

# As the machine's events, with the memory order; `at` is a line of C.
Action = namedtuple("Action", "kind place read written addend at mode")

BASE, GAP = 0x41000000, 0x40
MOST_STEPS, DEEPEST_CALLS = 20000, 16
PLAIN = "na"
IGNORED_CALLS = {"nothing", "@llvm.x86.sse2.pause", "@llvm.donothing", "@sched_yield"}

UPDATES = {"xchg": lambda old, value: value, "add": lambda old, value: old + value, "sub": lambda old, value: old - value,
           "and": lambda old, value: old & value, "or": lambda old, value: old | value, "xor": lambda old, value: old ^ value,
           "nand": lambda old, value: ~(old & value)}
COMPUTED = {"add": lambda one, other, bits: one + other, "sub": lambda one, other, bits: one - other,
            "mul": lambda one, other, bits: one * other, "and": lambda one, other, bits: one & other,
            "or": lambda one, other, bits: one | other, "xor": lambda one, other, bits: one ^ other,
            "shl": lambda one, other, bits: one << other, "lshr": lambda one, other, bits: one >> other,
            "ashr": lambda one, other, bits: signed(one, bits) >> other,
            "udiv": lambda one, other, bits: one // other, "urem": lambda one, other, bits: one % other,
            "sdiv": lambda one, other, bits: _toward_zero(signed(one, bits), signed(other, bits)),
            "srem": lambda one, other, bits: signed(one, bits) - signed(other, bits) * _toward_zero(signed(one, bits), signed(other, bits))}
COMPARED = {"eq": lambda one, other: one == other, "ne": lambda one, other: one != other, "gt": lambda one, other: one > other,
            "ge": lambda one, other: one >= other, "lt": lambda one, other: one < other, "le": lambda one, other: one <= other}


def _itself(value):
    return value


def _toward_zero(one, other):
    return abs(one) // abs(other) * (1 if (one < 0) == (other < 0) else -1)


class Source(SharedWords):
    """A source: its module, its variables with their addresses, and the functions that the cores run, each with the variables whose
    addresses it is called with. Loops go round at most `rounds` times more."""

    def __init__(self, text, functions, rounds):
        super().__init__()
        self.module, self.rounds, self._functions = Module(text), rounds, functions
        self.cores_count, self._locals = len(functions), {}
        self.addresses, self.sizes, at = {}, {}, BASE
        for name, (kind, _) in self.module.globals.items():
            at = (at + 15) // 16 * 16
            self.addresses[name], self.sizes[name] = at, self.module.size(kind)
            at += self.sizes[name] + GAP
        self._content = {}
        for name, (_, parts) in self.module.globals.items():
            start = self.addresses[name]
            self._content.update({start + one: 0 for one in range(self.sizes[name])})
            for offset, size, value in parts:
                self._fill(start + offset, size, self.address_of(value) if isinstance(value, tuple) else value)

    def _fill(self, address, size, value):
        for at in range(size):
            self._content[address + at] = value >> 8 * at & 255

    def initial_content(self, address):
        return self._content.get(address)

    def address_of(self, constant):
        """The address that a constant is."""
        if constant[1] not in self.addresses:
            raise NotJudged("the source: %s is no variable of the test" % constant[1])
        return self.addresses[constant[1]] + constant[2]

    def name_at(self, address):
        """This address as a variable's name, with an offset where there is one."""
        for name, start in self.addresses.items():
            if start <= address < start + max(self.sizes[name], 1):
                return name + ("+%d" % (address - start) if address > start else "")
        return "%#x" % address

    def words_in(self, address, count, slots):
        """The words that lie in so many bytes of a variable, of the test or of a thread's slots: pairs of an offset and a size. Where no
        variable has all of these bytes, there are none."""
        for start, size, kind in (*slots, *((start, self.sizes[name], self.module.globals[name][0]) for name, start in self.addresses.items())):
            if start <= address and address + count <= start + size:
                words = words_of(self.module, kind, start - address)
                return [(at, length) for at, length in words if at >= 0 and at + length <= count]
        return []

    def dead_at(self, function, block):
        """The variables of a function, pairs of a register and a size, that aren't read again from this block on."""
        if id(function) not in self._locals:
            self._locals[id(function)] = Locals(function)
        return self._locals[id(function)].dead_at(block)

    def refuse_overlaps(self):
        found = self.overlapping()
        if found:
            raise NotJudged("the source: %s is used in words of %d and of %d bytes, which overlap" % (
                self.name_at(found[1][0]), found[0][1], found[1][1]))

    def cores(self):
        """Each thread before its first step."""
        return [Thread(self, number, name, [self.address_of(("@", one, 0)) for one in arguments])
                for number, (name, arguments) in enumerate(self._functions)]


class Frame:
    """A call of a function: where it is, its registers, the register that its result goes to, and the words of a structure that are still
    to be copied, each a line."""

    __slots__ = ("function", "block", "at", "came_from", "registers", "result", "copies")

    def __init__(self, function, block, registers, result):
        self.function, self.block, self.at, self.came_from = function, block, 0, None
        self.registers, self.result, self.copies = registers, result, ()

    def copy(self):
        other = Frame(self.function, self.block, dict(self.registers), self.result)
        other.at, other.came_from, other.copies = self.at, self.came_from, self.copies
        return other

    def line(self):
        """The line that comes next."""
        return self.copies[0] if self.copies else self.function.blocks[self.block][self.at]


class _Waits(Exception):
    """A read whose value isn't chosen yet."""


class _Faults(Exception):
    """An access where no memory lies."""


class Thread:
    """The state of a thread. `run` goes on to the next stop; `answered` is a copy that has the value of the read that is waited for."""

    def __init__(self, program, number, name, arguments):
        self.program, self.number = program, number
        self.memory, self.events, self.answer = {}, [], None
        self.top, self.jumps, self.arrivals, self.steps = STACK + number * STACK_SIZE, {}, {}, 0
        self.frames, self.slots = [], ()
        self._enter(name, arguments, None)

    def answered(self, value):
        other = Thread.__new__(Thread)
        other.program, other.number, other.top, other.steps = self.program, self.number, self.top, self.steps
        other.memory, other.jumps, other.arrivals = dict(self.memory), dict(self.jumps), dict(self.arrivals)
        other.frames, other.events, other.answer = [frame.copy() for frame in self.frames], [], value
        other.slots = self.slots
        return other

    def run(self):
        while True:
            frame = self.frames[-1]
            line = frame.line()
            self.steps += 1
            if self.steps > MOST_STEPS:
                return Stop(CUT, None)
            self._line = line.line
            try:
                stop = self._step(frame, line)
            except _Waits as waits:
                return Stop(WAITS, waits.args[0])
            except _Faults as fault:
                return Stop(FAULTS, "%s at line %s" % (fault.args[0], line.line))
            if stop is not None:
                return stop

    # ---- control

    def _enter(self, name, arguments, result):
        function = self.program.module.functions.get(name)
        if function is None:
            raise NotJudged("the source: %s is called, which the source doesn't have" % name)
        if len(self.frames) >= DEEPEST_CALLS:
            raise NotJudged("the source: calls are nested more than %d deep" % DEEPEST_CALLS)
        registers = dict(zip(function.parameters, arguments))
        self.frames.append(Frame(function, next(iter(function.blocks)), registers, result))

    def _go(self, frame, target):
        """Goes to a block. One that lies before ends the path where its loop changed nothing, or went round as often as is allowed."""
        blocks = list(frame.function.blocks)
        came_from, frame.came_from, frame.block, frame.at = frame.block, frame.block, target, 0
        if blocks.index(target) > blocks.index(came_from):
            return None
        key = (len(self.frames), target)
        if frame.function.blocks[target][0].operation != "phi":
            state = self._state()
            if state in self.arrivals.get(key, ()):
                return Stop(REPEATS, None)
            self.arrivals[key] = (*self.arrivals.get(key, ()), state)
        jump = (len(self.frames), came_from, target)
        self.jumps[jump] = self.jumps.get(jump, 0) + 1
        return Stop(CUT, None) if self.jumps[jump] > self.program.rounds else None

    def _state(self):
        """What later steps depend on. A block's own registers are computed anew before they are used."""
        frame = self.frames[-1]
        dead = self.program.dead_at(frame.function, frame.block)
        own = [range(frame.registers[name], frame.registers[name] + size) for name, size in dead if name in frame.registers]
        return frozenset((at, byte) for at, byte in self.memory.items() if not any(at in one for one in own))

    def _step(self, frame, line):
        """Takes one step; answers a stop or None."""
        operation = line.operation
        if operation == "br":
            return self._branch(frame, *line.parts)
        if operation == "switch":
            value, default, cases = line.parts
            return self._go(frame, cases.get(self._value(frame, value), default))
        if operation == "ret":
            value = None if line.parts[0] is None else self._value(frame, line.parts[0])
            self.frames.pop()
            if not self.frames:
                return Stop(ENDS, None)
            if frame.result:
                self.frames[-1].registers[frame.result] = value
            return None
        if operation == "call":
            frame.at += 1
            return self._call(frame, line)
        if operation == "copy":
            to, size, source, byte = line.parts
            word = self._load(_itself, size, source, PLAIN) if byte is None else int.from_bytes(bytes([byte]) * size, "little")
            self._store(_itself, size, word, to, PLAIN)
            frame.copies = frame.copies[1:]
            return None
        found = self._compute(frame, line)
        if line.result:
            frame.registers[line.result] = found
        frame.at += 1
        return None

    def _branch(self, frame, condition, then=None, otherwise=None):
        if then is None:
            return self._go(frame, condition)
        return self._go(frame, then if self._value(frame, condition) else otherwise)

    def _call(self, frame, line):
        name, arguments = line.parts
        if name in IGNORED_CALLS or name == "asm" and arguments in ("", "pause", "nop", "rep; nop"):
            return None
        if name.startswith(("@llvm.memcpy", "@llvm.memset")):
            to, source, count = (self._value(frame, one) for one in arguments[:3])
            frame.copies = self._copies(to, source, count, name.startswith("@llvm.memset"), line.line)
            return None
        if not name.startswith("@"):
            raise NotJudged("the source: line %s: %s isn't read" % (line.line, name))
        return self._enter(name[1:], [self._value(frame, one) for one in arguments], line.result)

    def _copies(self, to, source, count, is_set, line):
        """The words of a structure that is copied, or whose bytes are set, each a line. Their order makes no difference: they aren't
        atomic, and a race on one of them makes everything undefined."""
        words = self.program.words_in(to, count, self.slots)
        if not words and not is_set:
            words = self.program.words_in(source, count, self.slots)
        return tuple(Line("copy", None, (to + at, size, None if is_set else source + at, source & 255 if is_set else None), line)
                     for at, size in words or [(at, 1) for at in range(count)])

    # ---- what is computed

    def _value(self, frame, value):
        if isinstance(value, str):
            return frame.registers[value]
        return self.program.address_of(value) if isinstance(value, tuple) else value

    def _compute(self, frame, line):
        parts, operation = line.parts, line.operation
        def value(part):
            return self._value(frame, part)
        if operation in ARITHMETIC:
            bits, one, other = parts
            if operation in ("udiv", "urem", "sdiv", "srem") and value(other) == 0:
                raise _Faults("a division by 0")
            return COMPUTED[operation](value(one), value(other), bits) & ((1 << bits) - 1)
        if operation in CASTS:
            bits, one, to = parts
            return (signed(value(one), bits) if operation == "sext" else value(one)) & ((1 << to) - 1)
        if operation == "icmp":
            bits, predicate, one, other = parts
            pair = [value(one), value(other)]
            if predicate[0] == "s":
                pair = [signed(each, bits) for each in pair]
            return int(COMPARED[predicate if predicate in COMPARED else predicate[1:]](*pair))
        if operation == "alloca":
            at = self.top = (self.top + 15) // 16 * 16
            self.top += parts[0]
            self.slots = ((at, *parts), *self.slots)
            return at
        if operation == "getelementptr":
            return self._element(frame, *parts)
        if operation == "phi":
            return value(parts[0][frame.came_from])
        if operation == "select":
            return value(parts[1] if value(parts[0]) else parts[2])
        if operation == "extractvalue":
            return value(parts[0])[parts[1]]
        if operation == "fence":
            self._record(FENCE, mode=parts[0])
            return None
        if operation == "refused" or operation == "unreachable":
            raise NotJudged("the source: line %s: %s" % (line.line, parts[0] if parts else "it can't go on here"))
        return getattr(self, "_" + operation)(value, *parts)

    def _element(self, frame, kind, base, steps):
        at = self._value(frame, base)
        known = [(bits, self._value(frame, index)) for bits, index in steps]
        for inner, index, bits, is_scaled in walk(self.program.module, kind, known):
            at += self.program.module.size(inner) * signed(index, bits) if is_scaled else index
        return at & (1 << 64) - 1

    # ---- memory

    def _uses(self, address, size, writes):
        is_shared = self.program.note(self.number, address, size, writes)
        if is_shared is None:
            raise _Faults("no memory lies at %#x" % address)
        return is_shared

    def _own(self, address, size):
        return sum(self.memory.get(address + at, self.program.initial_byte(address + at)) << 8 * at for at in range(size))

    def _put(self, address, size, value):
        for at in range(size):
            self.memory[address + at] = value >> 8 * at & 255

    def _answer(self, place):
        if self.answer is None:
            raise _Waits(place)
        value, self.answer = self.answer, None
        return value

    def _record(self, kind, place=None, read=None, written=None, mode=None):
        self.events.append(Action(kind, place, read, written, None, self._line, mode))
        if kind == WRITE or kind == LOCKED and read != written:
            self.arrivals = {}

    def _load(self, value, size, address, mode):
        place = (value(address), size)
        if not self._uses(*place, False):
            return self._own(*place)
        found = self._answer(place)
        self._record(READ, place, found, mode=mode)
        return found

    def _store(self, value, size, stored, address, mode):
        place, word = (value(address), size), value(stored) & ((1 << 8 * size) - 1)
        if self._uses(*place, True):
            self._record(WRITE, place, written=word, mode=mode)
        else:
            self._put(*place, word)

    def _update(self, place, change, mode, failed=None):
        """A read and write at once; where `change` answers None, only the read."""
        if not self._uses(*place, True):
            old = self._own(*place)
            new = change(old)
            self._put(*place, old if new is None else new)
            return old
        old = self._answer(place)
        new = change(old)
        if new is None:
            self._record(READ, place, old, mode=failed)
        else:
            self._record(LOCKED, place, old, new & ((1 << 8 * place[1]) - 1), mode)
        return old

    def _atomicrmw(self, value, size, operation, address, by, mode):
        if operation not in UPDATES:
            raise NotJudged("the source: line %s: atomicrmw %s isn't read" % (self._line, operation))
        amount = value(by)
        return self._update((value(address), size), lambda old: UPDATES[operation](old, amount), mode)

    def _cmpxchg(self, value, size, address, expected, new, mode, failed):
        wanted, word = value(expected), value(new)
        old = self._update((value(address), size), lambda one: word if one == wanted else None, mode, failed)
        return old, int(old == wanted)
