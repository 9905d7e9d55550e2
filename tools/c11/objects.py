"""An object file, or a shared library, as the bytes, symbols and lines of C that it has once it lies in memory.

The sections get addresses as a linker would give them: one lawful layout of many. All addresses are below 2 GB, so a pointer to a variable
is a number of 31 bits here.
"""
import bisect
import copy
import functools
import io
import os
import struct
from dataclasses import dataclass, replace

from elftools.common.exceptions import DWARFError, ELFError
from elftools.elf.elffile import ELFFile
from elftools.elf.relocation import RelocationSection
from elftools.elf.sections import SymbolTableSection

from .refusals import NotJudged

# Where an image begins; what separates its sections, so that no access runs from one into the next.
BASE, GAP = 0x5A000000, 0x100
# Addresses of symbols that the object doesn't have.
OUTSIDE = 0x4F000000

ALLOCATED, NO_BITS, COMMON, UNDEFINED = 0x2, "SHT_NOBITS", "SHN_COMMON", "SHN_UNDEF"

# Relocations of x86-64: how many bytes each writes, and what.
ABSOLUTE = {1: 8, 10: 4, 11: 4}
RELATIVE = {2: 4, 4: 4, 24: 8}
TABLED = {9: 4, 41: 4, 42: 4}
# Of a library that is linked: a symbol's address, with or without an addend; an address that moves with the library.
BOUND, MOVED = {1, 6, 7}, 8


@dataclass(frozen=True)
class Symbol:
    """A name with its address; `kind` is function, variable or outside."""

    name: str
    address: int
    size: int
    kind: str


class Image:
    """What lies in memory: `symbols` by name, and bytes, lines and names by address."""

    def __init__(self, content):
        self.parts, self.symbols, self.outside = [], {}, {}
        try:
            file = ELFFile(io.BytesIO(content))
            if file["e_machine"] != "EM_X86_64":
                raise NotJudged("the object isn't one of x86-64")
            (self._lay_out_object if file["e_type"] == "ET_REL" else self._load_library)(file, bytearray(content))
        except ELFError as fault:
            raise NotJudged("this is no object file: %s" % fault) from None
        self._name_addresses()

    def _name_addresses(self):
        self._named = sorted(((symbol.address, symbol) for symbol in self.symbols.values() if symbol.size), key=lambda one: one[0])
        self._starts = [address for address, _ in self._named]

    def part(self, prefix):
        """The same image, as that of the symbols alone whose names begin so, without this prefix."""
        other = copy.copy(self)
        other.symbols = {name[len(prefix):]: replace(symbol, name=name[len(prefix):])
                         for name, symbol in self.symbols.items() if name.startswith(prefix)}
        other._name_addresses()
        return other

    # ---- what lies where

    def initial(self, address, size):
        """The bytes that lie there before anything runs, or None where nothing does."""
        for start, content in self.parts:
            if start <= address and address + size <= start + len(content):
                return bytes(content[address - start:address - start + size])
        return None

    def symbol_at(self, address):
        """The variable or function that has this address, or None."""
        at = bisect.bisect_right(self._starts, address) - 1
        if at < 0:
            return None
        symbol = self._named[at][1]
        return symbol if address < symbol.address + max(symbol.size, 1) else None

    def name_at(self, address):
        """This address as a name, with an offset where there is one."""
        symbol = self.symbol_at(address)
        if symbol is None:
            return self.outside.get(address, "%#x" % address)
        return symbol.name + ("+%d" % (address - symbol.address) if address > symbol.address else "")

    def line_at(self, address):
        """The line of C, as FILE:LINE, of an instruction; or None."""
        lines = self._lines
        at = bisect.bisect_left(lines, (address + 1,)) - 1
        return lines[at][1] if at >= 0 else None

    def place_of(self, address):
        """An instruction's address and line, as people look for them."""
        line = self.line_at(address)
        return "%s (%s)" % (self.name_at(address), line) if line else self.name_at(address)

    # ---- an object that a compiler wrote

    def _lay_out_object(self, file, content):
        at, starts = BASE, {}
        for number, section in enumerate(file.iter_sections()):
            if section["sh_flags"] & ALLOCATED and section["sh_size"]:
                align = max(section["sh_addralign"], 16)
                at = (at + align - 1) // align * align
                starts[number] = at
                data = bytes(section["sh_size"]) if section["sh_type"] == NO_BITS else section.data()
                self.parts.append((at, bytearray(data)))
                at += section["sh_size"] + GAP
        table = next((one for one in file.iter_sections() if isinstance(one, SymbolTableSection)), None)
        if table is None:
            raise NotJudged("the object has no symbols")
        at = self._place_symbols(table, starts, at)
        # The same object with its symbols at their places: the line table goes by them.
        for number, symbol in enumerate(table.iter_symbols()):
            where = table["sh_offset"] + 24 * number + 8
            content[where:where + 8] = struct.pack("<Q", self._values[number])
        placed = ELFFile(io.BytesIO(bytes(content)))
        for section in placed.iter_sections():
            if isinstance(section, RelocationSection) and section["sh_info"] in starts:
                at = self._relocate(section, starts[section["sh_info"]], at, placed.get_section(section["sh_link"]))
        self._placed, self._base = placed, 0

    def _place_symbols(self, table, starts, at):
        """Gives each symbol its address; answers where free addresses begin."""
        self._values = []
        for symbol in table.iter_symbols():
            where, kind = symbol["st_shndx"], symbol["st_info"]["type"]
            value = symbol["st_value"]
            if where == COMMON:
                value = at = (at + 15) // 16 * 16
                self.parts.append((at, bytearray(symbol["st_size"])))
                at += symbol["st_size"] + GAP
            elif where == UNDEFINED:
                value = self._address_outside(symbol.name) if symbol.name else 0
            elif where in starts:
                value = starts[where] + symbol["st_value"]
            self._values.append(value)
            if kind in ("STT_OBJECT", "STT_FUNC", "STT_NOTYPE") and symbol.name and where != UNDEFINED:
                of = "function" if kind == "STT_FUNC" else "variable"
                self.symbols[symbol.name] = Symbol(symbol.name, value, symbol["st_size"], of)
        return at

    def _address_outside(self, name):
        """The address of what another object would have."""
        for address, known in self.outside.items():
            if known == name:
                return address
        address = OUTSIDE + 16 * len(self.outside)
        self.outside[address] = name
        return address

    def _relocate(self, section, start, at, table):
        """Writes the addresses that a section's relocations ask for; answers where free addresses begin."""
        entries = {}
        for one in section.iter_relocations():
            kind, where, addend = one["r_info_type"], start + one["r_offset"], one["r_addend"]
            symbol = table.get_symbol(one["r_info_sym"])
            value = symbol["st_value"]
            if kind in ABSOLUTE:
                self._write(where, value + addend, ABSOLUTE[kind])
            elif kind in RELATIVE:
                self._write(where, value + addend - where, RELATIVE[kind])
            elif kind in TABLED:
                if value not in entries:
                    entries[value] = at = (at + 15) // 16 * 16
                    self.parts.append((at, bytearray(struct.pack("<Q", value))))
                    at += 16
                self._write(where, entries[value] + addend - where, TABLED[kind])
            else:
                raise NotJudged("a relocation of kind %d, of %s, isn't read" % (kind, symbol.name or "a section"))
        return at

    def _write(self, address, value, size):
        for start, content in self.parts:
            if start <= address and address + size <= start + len(content):
                content[address - start:address - start + size] = (value & ((1 << 8 * size) - 1)).to_bytes(size, "little")

    # ---- a library that is linked

    def _load_library(self, file, content):
        for segment in file.iter_segments():
            if segment["p_type"] == "PT_LOAD":
                data = segment.data() + bytes(segment["p_memsz"] - segment["p_filesz"])
                self.parts.append((BASE + segment["p_vaddr"], bytearray(data)))
        for table in file.iter_sections():
            if not isinstance(table, SymbolTableSection):
                continue
            for symbol in table.iter_symbols():
                kind = symbol["st_info"]["type"]
                if kind in ("STT_OBJECT", "STT_FUNC") and symbol["st_shndx"] != UNDEFINED:
                    of = "function" if kind == "STT_FUNC" else "variable"
                    self.symbols[symbol.name] = Symbol(symbol.name, BASE + symbol["st_value"], symbol["st_size"], of)
        for section in file.iter_sections():
            if isinstance(section, RelocationSection):
                self._bind(section, file.get_section(section["sh_link"]))
        self._placed, self._base = file, BASE

    def _bind(self, section, table):
        for one in section.iter_relocations():
            kind, where = one["r_info_type"], BASE + one["r_offset"]
            if kind == MOVED:
                self._write(where, BASE + one["r_addend"], 8)
            elif kind in BOUND:
                name = table.get_symbol(one["r_info_sym"]).name
                known = self.symbols.get(name)
                self._write(where, (known.address if known else self._address_outside(name)) + one["r_addend"], 8)

    # ---- lines of C

    @functools.cached_property
    def _lines(self):
        """Pairs of an address and a line, in order: the line table, where the object has one that the library reads. Most programs are
        judged without it."""
        found, file = {}, self._placed
        try:
            dwarf = file.get_dwarf_info() if file.has_dwarf_info() else None
            for unit in dwarf.iter_CUs() if dwarf else ():
                program = dwarf.line_program_for_CU(unit)
                for entry in program.get_entries() if program else ():
                    if entry.state is not None and entry.state.line:
                        name = _file_of(program, entry.state.file)
                        found[self._base + entry.state.address] = "%s:%d" % (name, entry.state.line)
        except (ELFError, DWARFError, KeyError):
            return []
        return sorted(found.items())


def _file_of(program, number):
    """The name of a file of a line table: its numbers begin at 1, from the fifth version of DWARF on at 0."""
    entries = program.header["file_entry"]
    at = number if program.header["version"] >= 5 else number - 1
    return os.path.basename(entries[at].name.decode("utf-8", "replace")) if 0 <= at < len(entries) else "?"
