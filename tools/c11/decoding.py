"""Machine code as instructions, decoded by capstone."""
import contextlib
import sys
import types
from dataclasses import dataclass

from .refusals import NotJudged


@contextlib.contextmanager
def _without_distutils():
    """Debian's capstone loads distutils, which it doesn't use, and with it all of setuptools. That takes longer than most tests."""
    absent = [name for name in ("distutils", "distutils.sysconfig") if name not in sys.modules]
    sys.modules.update((name, types.ModuleType(name)) for name in absent)
    try:
        yield
    finally:
        for name in absent:
            del sys.modules[name]


try:
    with _without_distutils():
        import capstone
except AttributeError:
    # another version, which does use it
    import capstone
from capstone import x86_const

# The registers of 64 bits, in the processor's own numbering.
NAMES = "rax rcx rdx rbx rsp rbp rsi rdi r8 r9 r10 r11 r12 r13 r14 r15".split()
RAX, RCX, RDX, RBX, RSP, RBP, RSI, RDI = range(8)
# What a thread's state has beside them: flags, for what reads or writes them.
FLAGS = len(NAMES)

LONGEST_INSTRUCTION = 15


def _parts():
    """Each register's name, with its number, its size in bytes, and how many bits it is shifted."""
    found = {name: (number, 8, 0) for number, name in enumerate(NAMES)}
    for number, letter in enumerate("acdb"):
        found.update({"e%sx" % letter: (number, 4, 0), "%sx" % letter: (number, 2, 0), "%sl" % letter: (number, 1, 0),
                      "%sh" % letter: (number, 1, 8)})
    for number, name in enumerate(("sp", "bp", "si", "di"), 4):
        found.update({"e" + name: (number, 4, 0), name: (number, 2, 0), name + "l": (number, 1, 0)})
    for number in range(8, 16):
        found.update({"r%d%s" % (number, letter): (number, size, 0) for letter, size in (("d", 4), ("w", 2), ("b", 1))})
    return found


PARTS = _parts()


@dataclass(frozen=True)
class Register:
    """A register, or a part of one: its number, its size in bytes, how many bits it is shifted."""

    number: int
    size: int
    shift: int


@dataclass(frozen=True)
class Number:
    """A number in the instruction."""

    value: int
    size: int


@dataclass(frozen=True)
class Memory:
    """What lies at `base + index * scale + offset`; base and index are numbers of registers or None."""

    base: int
    index: int
    scale: int
    offset: int
    size: int


@dataclass(frozen=True)
class Instruction:
    """One instruction: its address, where the next one begins, its name without prefixes, its operands, and its text; which registers it
    reads and writes, for what is live."""

    address: int
    next: int
    name: str
    is_locked: bool
    operands: tuple
    text: str
    reads: frozenset
    writes: frozenset


class Decoder:
    """Decodes an image's instructions, each once."""

    def __init__(self, image):
        self._image, self._known = image, {}
        self._engine = capstone.Cs(capstone.CS_ARCH_X86, capstone.CS_MODE_64)
        self._engine.detail = True

    def at(self, address):
        """The instruction with this address."""
        if address not in self._known:
            self._known[address] = self._decode(address)
        return self._known[address]

    def _decode(self, address):
        for size in range(LONGEST_INSTRUCTION, 0, -1):
            content = self._image.initial(address, size)
            if content is not None:
                break
        else:
            raise NotJudged("no code lies at %s" % self._image.name_at(address))
        if content.startswith(b"\xf3\x0f\x1e\xfa"):
            return Instruction(address, address + 4, "endbr64", False, (), "endbr64", frozenset(), frozenset())
        found = next(self._engine.disasm(content, address, 1), None)
        if found is None:
            raise NotJudged("these bytes are no instruction: %s" % content[:8].hex(" "), self._image.place_of(address))
        return self._read(found)

    def _read(self, found):
        name = found.insn_name()
        reads, writes = (frozenset(one for one in map(self._family, registers) if one is not None) for registers in found.regs_access())
        text = ("%s %s" % (found.mnemonic, found.op_str)).strip()
        if found.prefix[0] in (0xF2, 0xF3) and name not in ("pause", "ret"):
            name = found.mnemonic
        operands = () if name == "nop" else tuple(self._operand(found, one) for one in found.operands)
        return Instruction(found.address, found.address + found.size, name, found.prefix[0] == 0xF0, operands, text, reads, writes)

    def _family(self, register):
        name = self._engine.reg_name(register)
        return FLAGS if name == "rflags" or name == "flags" else PARTS[name][0] if name in PARTS else None

    def _operand(self, found, one):
        if one.type == x86_const.X86_OP_REG:
            name = self._engine.reg_name(one.reg)
            return Register(*PARTS[name]) if name in PARTS else None
        if one.type == x86_const.X86_OP_IMM:
            return Number(one.imm, one.size)
        if one.type != x86_const.X86_OP_MEM or one.mem.segment:
            return None
        base, index = (self._engine.reg_name(number) if number else None for number in (one.mem.base, one.mem.index))
        if base == "rip":
            return Memory(None, None, 1, found.address + found.size + one.mem.disp, one.size)
        if any(name is not None and PARTS.get(name, (0, 0))[1] != 8 for name in (base, index)):
            return None
        numbers = [None if name is None else PARTS[name][0] for name in (base, index)]
        return Memory(*numbers, one.mem.scale, one.mem.disp, one.size)
