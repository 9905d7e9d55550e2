"""What a function may still read at a point: by this two rounds of a loop are known to begin alike.

Registers, flags and the words of a frame that RBP points to are told apart; all else counts as live. To call a dead thing live costs a
round more and is never wrong.
"""
from .decoding import FLAGS, RAX, RBP, RDX, RSP, Memory, Number, Register

ALL_REGISTERS = frozenset(range(FLAGS + 1))
# What a caller may read after a return: the result, and what a function gives back as it was.
AFTER_RETURN = frozenset((RAX, RDX, 3, RSP, RBP, 12, 13, 14, 15))
# They set every flag that is kept here, whatever their operands are.
SET_ALL_FLAGS = {"add", "sub", "adc", "sbb", "and", "or", "xor", "cmp", "test", "neg", "xadd", "cmpxchg"}
# How RBP is changed where it is a frame's base all through a function.
FRAME = {("mov", RSP), ("pop", None), ("leave", None)}


class Liveness:
    """Of one function: which registers are live at an address, and which bytes of the frame, as offsets from RBP, are dead there."""

    def __init__(self, decoder, entry):
        self.code = _code_of(decoder, entry)
        self._has_frame = _has_frame(self.code.values())
        escapes = [one.operands[1].offset for one in self.code.values() if one.name == "lea" and self._is_slot(one.operands[1])]
        self._known = min(escapes, default=0)
        self._slots = frozenset(byte for one in self.code.values() for byte in self._bytes_of(one))
        self._live = self._solve()

    def registers_at(self, address):
        return self._live[address] & ALL_REGISTERS if address in self._live else ALL_REGISTERS

    def dead_slots_at(self, address):
        live = self._live.get(address)
        return frozenset() if live is None else frozenset(at for _, at in self._slots - live)

    def _is_slot(self, operand):
        return self._has_frame and isinstance(operand, Memory) and operand.base == RBP and operand.index is None

    def _bytes_of(self, instruction):
        """The bytes of the frame that an instruction names, but for those that a pointer may reach too."""
        if instruction.name == "lea":
            return
        for operand in instruction.operands:
            if self._is_slot(operand):
                for at in range(operand.offset, operand.offset + operand.size):
                    if at < self._known:
                        yield ("frame", at)

    def _effect(self, instruction):
        """What an instruction surely overwrites, and what it may read."""
        slots = frozenset(self._bytes_of(instruction))
        if instruction.name == "call":
            return frozenset(), ALL_REGISTERS
        if instruction.name == "ret":
            return frozenset(), AFTER_RETURN
        reads = instruction.reads
        writes = {one for one in instruction.writes if one != FLAGS}
        writes -= {one.number for one in instruction.operands if isinstance(one, Register) and one.size < 4}
        if instruction.name.startswith("cmov") or instruction.name == "cmpxchg":
            writes = set()
        if instruction.name in SET_ALL_FLAGS:
            writes.add(FLAGS)
        stores = instruction.name in ("mov", "movabs") and isinstance(instruction.operands[0], Memory)
        return (frozenset(writes) | slots, reads) if stores else (frozenset(writes), reads | slots)

    def _solve(self):
        effects = {at: self._effect(one) for at, one in self.code.items()}
        live = {at: frozenset() for at in self.code}
        changed = True
        while changed:
            changed = False
            for at in sorted(self.code, reverse=True):
                writes, reads = effects[at]
                after = frozenset().union(*(live.get(to, ALL_REGISTERS | self._slots) for to in followers(self.code[at])))
                found = reads | after - writes
                if found != live[at]:
                    live[at], changed = found, True
        return live


def followers(instruction):
    """Where a core may go on after this instruction within its function; a call comes back."""
    if instruction.name == "ret":
        return []
    target = instruction.operands[0] if instruction.name.startswith("j") else None
    if target is None:
        return [instruction.next]
    targets = [target.value] if isinstance(target, Number) else []
    return targets if instruction.name == "jmp" else [*targets, instruction.next]


def _code_of(decoder, entry):
    """All instructions that can be reached from this entry; where one can't be decoded, the others."""
    found, waiting = {}, [entry]
    while waiting:
        at = waiting.pop()
        if at in found:
            continue
        found[at] = decoder.at(at)
        waiting += followers(found[at])
    return found


def _has_frame(code):
    """Whether RBP is a frame's base all through a function."""
    changes = {(one.name, one.operands[1].number if one.name == "mov" and isinstance(one.operands[1], Register) else None)
               for one in code if RBP in one.writes}
    return ("mov", RSP) in changes and changes <= FRAME
