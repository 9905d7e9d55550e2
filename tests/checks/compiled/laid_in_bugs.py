"""Bugs that are laid into object code, for tests/compiled.py: as a compiler would make them that takes C11's promises too lightly."""
import io
import struct

from elftools.elf.elffile import ELFFile
from elftools.elf.relocation import RelocationSection

from c11.decoding import RAX, RSP, Decoder, Memory, Register
from c11.objects import Image
from c11.refusals import NotJudged

NOP = 0x90


class ObjectCode:
    """An object's bytes, with what is needed to change the code of its functions P0, P1 and so on: instructions with their places in the
    file."""

    def __init__(self, content):
        self.content = content
        file = ELFFile(io.BytesIO(content))
        section = file.get_section_by_name(".text")
        self._start = section["sh_offset"]
        self._relocations = [
            (table["sh_offset"] + 24 * number, self._start + entry["r_offset"])
            for table in file.iter_sections() if isinstance(table, RelocationSection) and table.name == ".rela.text"
            for number, entry in enumerate(table.iter_relocations())]
        self.instructions = []
        image = Image(content)
        decoder, names = Decoder(image), sorted(name for name in image.symbols if name[0] == "P" and name[1:].isdigit())
        base = image.parts[0][0]
        for symbol in (image.symbols[name] for name in names):
            at = symbol.address
            while at < symbol.address + symbol.size:
                try:
                    one = decoder.at(at)
                except NotJudged:
                    break
                self.instructions.append((self._start + at - base, one))
                at = one.next

    def with_bytes(self, at, new):
        return self.content[:at] + bytes(new) + self.content[at + len(new):]

    def swapped(self, first, second):
        """The object with two neighbours in each other's place; the addresses that they have move with them."""
        (at, one), (_, other) = first, second
        size, other_size = one.next - one.address, other.next - other.address
        code = bytearray(self.content)
        code[at:at + size + other_size] = self.content[at + size:at + size + other_size] + self.content[at:at + size]
        for entry, place in self._relocations:
            if at <= place < at + size + other_size:
                moved = place + other_size if place < at + size else place - size
                struct.pack_into("<Q", code, entry, moved - self._start)
        return bytes(code)


def bugs_in(content):
    """Pairs of a bug's name and the object with it."""
    code = ObjectCode(content)
    for at, one in code.instructions:
        raw, size = content[at:at + one.next - one.address], one.next - one.address
        if one.name == "xchg" and isinstance(one.operands[0], Memory) and not one.is_locked:
            opcode = raw.index(0x87) if 0x87 in raw[:2] else raw.index(0x86) if 0x86 in raw[:2] else None
            if opcode is not None:
                yield "a store of XCHG is MOV at %s" % one.text, code.with_bytes(at + opcode, [raw[opcode] + 2])
        if one.name == "mfence" or one.is_locked and isinstance(one.operands[0], Memory) and one.operands[0].base == RSP:
            yield "a fence is dropped at %s" % one.text, code.with_bytes(at, [NOP] * size)
        elif one.is_locked:
            yield "LOCK is dropped at %s" % one.text, code.with_bytes(at, [NOP])
        if one.name == "xor" and one.operands == (Register(RAX, 4, 0), Register(RAX, 4, 0)):
            yield "a comparand isn't set at %s" % one.text, code.with_bytes(at, [NOP] * size)
    for first, second in zip(code.instructions, code.instructions[1:]):
        if first[1].next != second[1].address:
            continue
        kind = _kind(first[1])
        if kind and kind == _kind(second[1]) and first[1].operands != second[1].operands and _apart(first[1], second[1]):
            yield "two %s are swapped at %s" % (kind, first[1].text), code.swapped(first, second)


def _kind(instruction):
    """Whether an instruction is a plain store or load of a variable."""
    if instruction.name != "mov":
        return None
    to, source = instruction.operands
    if isinstance(to, Memory) and to.base is None:
        return "stores"
    return "loads" if isinstance(source, Memory) and source.base is None else None


def _apart(one, other):
    """Whether two loads go into different registers, and two stores to different words."""
    return one.operands[0] != other.operands[0]
