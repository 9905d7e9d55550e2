"""The abstract machine of x86-TSO as its authors have it, for tests of the larger set of instructions: all ends of a test.

Each core has registers and a buffer of stores, the oldest first; beside the memory there is one lock. (Sewell, Sarkar, Owens, Zappa Nardelli
and Myreen, "x86-TSO: a rigorous and usable programmer's model for x86 multiprocessors", 2010.) A core is held up while another one has
the lock.

- A load takes the newest store to its location in its core's buffer; else, where its core isn't held up, the word in memory.
- A store goes to the end of its core's buffer. The oldest one goes to memory where its core isn't held up.
- MFENCE waits until its core's buffer is empty.
- A locked instruction takes the lock, where nobody has it and its core's buffer is empty; it loads; it stores into the buffer; and once
  the buffer is empty again it gives the lock back.

The machine of docs/DEFINITIONS.md makes a locked instruction in one step; here it is these four, with other cores' steps between them.
What an instruction computes is written here from Intel's manual. Nothing is shared with tests/reference/, tools/ or the program, so that
all can be held against each other.
"""
import operator
import re

REGISTERS = ("EAX", "EBX", "ECX", "EDX", "ESI", "EDI")
EAX = 0

# Where a core keeps what a locked instruction loaded, until it is done.
LOADED = len(REGISTERS)

ALL_ONES = 0xFFFFFFFF

OF_TWO = {"ADD": operator.add, "SUB": operator.sub, "AND": operator.and_, "OR": operator.or_, "XOR": operator.xor}
OF_ONE = {"INC": lambda a: a + 1, "DEC": lambda a: a - 1, "NEG": lambda a: -a, "NOT": lambda a: ~a}
NOTHING = ("NOP", "PAUSE", "LFENCE", "SFENCE")

TEST = re.compile(r"X86[ \t]+(?P<name>[^\n]*)\n(?P<facts>[^{]*)\{(?P<first>[^}]*)\}\s*P0(?P<columns>[^;]*);(?P<rows>.*?)"
                  r"(?:~?\s*exists.*|forall.*|locations.*)?\Z", re.DOTALL)
COMMENT = re.compile(r"\(\*.*?\*\)", re.DOTALL)


def word(value):
    return value & ALL_ONES


def number(text):
    """What a numeral is as a word."""
    text = text.strip().lstrip("$").strip()
    sign, digits = (-1, text[1:].strip()) if text.startswith("-") else (1, text)
    return word(sign * int(digits, 16 if digits[:2] in ("0x", "0X") else 10))


def plain(place):
    """A location's name without brackets."""
    return place.strip(" \t\r\n[]")


def parts_of(cell):
    """The mnemonic of an instruction, without LOCK, and its operands."""
    mnemonic, _, operands = re.sub(r"(?i)^LOCK\s+", "", cell).partition(" ")
    return mnemonic.upper(), [operand.strip() for operand in operands.split(",") if operand.strip()]


class Test:
    """A test of a text: its locations in the order of first appearance, words and registers at the start, and programs of steps."""

    def __init__(self, text):
        found = TEST.match(COMMENT.sub(" ", text))
        first = [item.split("=") for item in found["first"].split(";") if item.strip()]
        rows = [[cell.strip() for cell in row.split("|")] for row in found["rows"].split(";") if row.strip()]
        self.name, cores = found["name"].strip(), 1 + found["columns"].count("|")
        named = [plain(place) for place, _ in first if ":" not in place] + re.findall(r"\[\s*(\w+)\s*\]", found["rows"])
        self.places = list(dict.fromkeys(named))
        self.words = [0] * len(self.places)
        self.registers = [[0] * (1 + len(REGISTERS)) for _ in range(cores)]
        for place, value in first:
            self.set(place, number(value))
        self.programs = [[step for row in rows if row[core] for step in self.steps_of(row[core])] for core in range(cores)]

    def set(self, place, value):
        """Gives a register or a location its first value."""
        core, colon, name = place.partition(":")
        if colon:
            self.registers[int(core)][REGISTERS.index(name.strip().upper())] = value
        else:
            self.words[self.places.index(plain(place))] = value

    def steps_of(self, cell):
        """The steps of an instruction: each its kind, with a location, a register or what makes a value of the registers."""
        mnemonic, operands = parts_of(cell)
        others = [operand for operand in operands if not operand.startswith("[")]
        if not operands:
            return [("fence",)] if mnemonic == "MFENCE" else [("move", lambda bank: bank)]
        if others == operands:
            return [("move", moved(mnemonic, operands))]
        place = next(self.places.index(plain(operand)) for operand in operands if operand.startswith("["))
        if mnemonic != "MOV":
            return [("lock",), ("load", place, LOADED), ("store", place, stored(mnemonic, others)), ("move", taken(mnemonic, others)),
                    ("unlock",)]
        if operands[0] in others:
            return [("load", place, REGISTERS.index(operands[0].upper()))]
        return [("store", place, value_of(operands[1]))]


def value_of(operand):
    """What a register or a number is, as a function of the registers."""
    if operand.upper() in REGISTERS:
        at = REGISTERS.index(operand.upper())
        return lambda bank: bank[at]
    value = number(operand)
    return lambda bank: value


def with_changed(bank, *changes):
    changed = list(bank)
    for at, value in changes:
        changed[at] = word(value)
    return tuple(changed)


def moved(mnemonic, operands):
    """What an instruction on registers alone makes of them."""
    at, first = REGISTERS.index(operands[0].upper()), value_of(operands[0])
    if mnemonic in OF_ONE:
        return lambda bank: with_changed(bank, (at, OF_ONE[mnemonic](first(bank))))
    second = value_of(operands[1])
    if mnemonic == "MOV":
        return lambda bank: with_changed(bank, (at, second(bank)))
    if mnemonic == "XCHG":
        other = REGISTERS.index(operands[1].upper())
        return lambda bank: with_changed(bank, (at, bank[other]), (other, bank[at]))
    return lambda bank: with_changed(bank, (at, OF_TWO[mnemonic](first(bank), second(bank))))


def stored(mnemonic, operands):
    """What a locked instruction stores, of the registers and the word that it loaded."""
    if mnemonic in OF_ONE:
        return lambda bank: word(OF_ONE[mnemonic](bank[LOADED]))
    second = value_of(operands[0])
    if mnemonic == "XCHG":
        return second
    if mnemonic == "CMPXCHG":
        return lambda bank: second(bank) if bank[LOADED] == bank[EAX] else bank[LOADED]
    combined = OF_TWO["ADD" if mnemonic == "XADD" else mnemonic]
    return lambda bank: word(combined(bank[LOADED], second(bank)))


def taken(mnemonic, operands):
    """What a locked instruction makes of the registers: one of them, or none, gets the word that was loaded, which isn't kept then."""
    if mnemonic not in ("XCHG", "XADD", "CMPXCHG"):
        return lambda bank: with_changed(bank, (LOADED, 0))
    at = EAX if mnemonic == "CMPXCHG" else REGISTERS.index(operands[0].upper())
    return lambda bank: with_changed(bank, (at, bank[LOADED]), (LOADED, 0))


# ---- the machine

def put(row, at, value):
    return row[:at] + (value,) + row[at + 1:]


def after_moves(program, place, bank):
    """A core's place and registers after the steps from this one on that concern its registers alone."""
    while place < len(program) and program[place][0] == "move":
        bank = program[place][1](bank)
        place += 1
    return place, bank


def after_step(program, core, memory, holder, own):
    """A core, memory and who has the lock after the core's next step; None where it waits."""
    place, bank, pending = core
    kind, *how = program[place]
    is_held_up = holder not in (None, own)
    if kind == "load":
        newest = [value for at, value in pending if at == how[0]]
        if not newest and is_held_up:
            return None
        bank = put(bank, how[1], newest[-1] if newest else memory[how[0]])
    elif kind == "store":
        pending += (how[0], how[1](bank)),
    elif pending:
        return None
    elif kind == "lock":
        if holder is not None:
            return None
        holder = own
    elif kind == "unlock":
        holder = None
    return (*after_moves(program, place + 1, bank), pending), memory, holder


def after_drain(core, memory):
    place, bank, ((at, value), *later) = core
    return (place, bank, tuple(later)), put(memory, at, value)


def states_after(test, state):
    cores, memory, holder = state
    for own, core in enumerate(cores):
        if core[0] < len(test.programs[own]):
            found = after_step(test.programs[own], core, memory, holder, own)
            if found is not None:
                yield put(cores, own, found[0]), found[1], found[2]
        if core[2] and holder in (None, own):
            after, later = after_drain(core, memory)
            yield put(cores, own, after), later, holder


class TooMany(Exception):
    """More states can be reached than may be kept."""


def ends(test, most=None):
    """The registers of all cores and the memory of each end; of more than so many states none."""
    cores = tuple((*after_moves(program, 0, tuple(bank)), ()) for program, bank in zip(test.programs, test.registers))
    first = cores, tuple(test.words), None
    reached, waiting, found = {first}, [first], set()
    while waiting:
        if most is not None and len(reached) > most:
            raise TooMany(test.name)
        state, is_end = waiting.pop(), True
        for after in states_after(test, state):
            is_end = False
            if after not in reached:
                reached.add(after)
                waiting.append(after)
        if is_end:
            if any(core[0] < len(program) for core, program in zip(state[0], test.programs)):
                raise ValueError("the machine is stuck")
            found.add((tuple(core[1][:LOADED] for core in state[0]), state[1]))
    return found


def named(test, end):
    """The values of an end by their places' names."""
    banks, memory = end
    values = {"%d:%s" % (core, name): value for core, bank in enumerate(banks) for name, value in zip(REGISTERS, bank)}
    values.update(zip(test.places, memory))
    return values
