"""One cell of a test of herd's or diy's: its instruction with its operands, written in Intel's order or in AT&T's."""
import re
from dataclasses import dataclass

import litmus
import registers
import remedies
from faults import ADDRESSES, NUMBER, OPERANDS, SIZES, Fault, location_in, number_in, signed_in

LETTERS = {"l": 4, "q": 8}

# Instructions of one operand, those that compute, and those that do nothing.
OF_ONE = ("inc", "dec", "neg", "not")
COMPUTING = tuple(map(str.lower, litmus.OPERATORS)) + OF_ONE
DOING_NOTHING = tuple(map(str.lower, litmus.NOTHING))

FORM = re.compile(r"(mov|xchg|xadd|cmpxchg|%s)([lqwb]?)|mfence|%s" % ("|".join(COMPUTING), "|".join(DOING_NOTHING)))


@dataclass(frozen=True)
class Memory:
    """A place in memory: so many bytes behind a location, or behind the address in a register."""

    base: str
    offset: int
    in_register: bool


@dataclass(frozen=True)
class Cell:
    """A cell: its text, the mnemonic without the letter of a size, the bytes that it says (None where it says none), the operands, the
    target first: numbers, names of registers, and places in memory; and whether it has LOCK."""

    text: str
    mnemonic: str
    size: int
    operands: tuple
    lock: bool

    def kinds(self):
        return tuple({int: "number", str: "register", Memory: "memory"}[type(one)] for one in self.operands)


def cell_in(text):
    """The cell of a text without needless blanks."""
    if re.match(r"[\w.]+\s*:", text):
        raise Fault("%s: labels aren't read, programs are straight lines" % text, "labels")
    word = re.fullmatch(r"(?i)(lock\s*;?\s*)?([a-z]\w*)\s*(.*)", text)
    if not word:
        raise Fault("%s is no instruction that is read here" % text, "cells that are no instruction")
    lock, mnemonic, rest = bool(word.group(1)), word.group(2).lower(), word.group(3)
    form = FORM.fullmatch(mnemonic)
    if not form or lock and form.group(1) is None:
        told = remedies.remedy(text, mnemonic, lock) or "MOV, MFENCE, XCHG, LOCK XADD, LOCK CMPXCHG, arithmetic and fences alone are read"
        raise Fault("%s: %s" % (text, told), "the instruction %s" % mnemonic.upper())
    if form.group(1) is None:
        if rest:
            raise Fault("%s: %s has no operands here" % (text, mnemonic.upper()), OPERANDS)
        return Cell(text, mnemonic, None, (), False)
    base, letter = form.group(1), form.group(2)
    if letter in ("w", "b"):
        raise Fault("%s: words of 32 bits alone are read" % text, SIZES)
    if lock and base == "mov":
        raise Fault("%s: MOV can't be locked" % text, OPERANDS)
    if base in ("xadd", "cmpxchg") and not lock:
        raise Fault("%s: %s is read with LOCK alone" % (text, base.upper()), "%s without LOCK" % base.upper())
    operands, size = operands_in(text, rest, LETTERS.get(letter), 1 if base in OF_ONE else 2)
    if size == 8 and (base == "xadd" or base in COMPUTING):
        raise Fault("%s: a sum of 64 bits isn't one of 32" % text, "sums of 64 bits")
    cell = Cell(text, base, size, operands, lock)
    if base in COMPUTING and lock != (cell.kinds()[0] == "memory"):
        raise Fault("%s: %s" % (text, remedies.of_a_step(cell)), "arithmetic in memory without LOCK" if not lock else OPERANDS)
    return cell


def operands_in(cell, text, size, wanted):
    """The operands, the target first, and the bytes that the cell says; `size` is what the letter of its mnemonic says."""
    if re.search(r"\([^()]*,", text):
        raise Fault("%s: addresses with an index aren't read" % cell, "addresses with an index")
    words = [word.strip() for word in text.split(",")]
    if len(words) != wanted:
        raise Fault("%s: %s wanted" % (cell, "two operands are" if wanted == 2 else "one operand is"), OPERANDS)
    found = [operand_in(cell, word) for word in words]
    operands = [operand for operand, _ in found]
    if is_source_first(cell, text, operands):
        operands.reverse()
    return tuple(operands), size_of(cell, size, operands, [said for _, said in found if said])


def size_of(cell, size, operands, pointers):
    """The bytes of an instruction: what its letter says, else its registers, else the words before PTR. With % they have to agree."""
    for whole, strict in [(registers.whole(one), "%" in one) for one in operands if isinstance(one, str)]:
        size = size or whole and whole[1]
        if strict and whole and whole[1] != size:
            raise Fault("%s: two sizes in one instruction" % cell, "two sizes in one instruction")
    for said in pointers:
        size = size or said
        if said != size:
            raise Fault("%s: two sizes in one instruction" % cell, "two sizes in one instruction")
    return size


def is_source_first(cell, text, operands):
    """Whether operands stand in AT&T's order: by their signs, or since a number is no destination."""
    at_and_t = "%" in text or "(" in text
    if at_and_t and any(re.fullmatch(NUMBER, word.strip()) for word in text.split(",")):
        raise Fault("%s: in AT&T's order a number without $ is an address" % cell, ADDRESSES)
    intel = "[" in text or any(isinstance(one, str) and "%" not in one for one in operands)
    if at_and_t and intel:
        raise Fault("%s: this has signs of Intel's order of operands and of AT&T's: which one it has isn't known" % cell,
                    "signs of both orders of operands")
    return at_and_t or isinstance(operands[0], int)


def operand_in(cell, text):
    """An operand, and the bytes that PTR says of it, or None."""
    pointer = re.match(r"(?i)(\w+)\s+ptr\s+(?=\[)", text)
    if pointer and pointer.group(1).lower() not in ("dword", "qword"):
        raise Fault("%s: words of 32 bits alone are read" % cell, SIZES)
    said = {"d": 4, "q": 8}[pointer.group(1)[0].lower()] if pointer else None
    text = text[pointer.end():] if pointer else text
    found = re.fullmatch(r"\$?(" + NUMBER + r")", text)
    if found:
        return signed_in(found.group(1)), said
    found = re.fullmatch(r"(" + NUMBER + r")?\(\s*(%?\w+)\s*\)", text)
    if found:
        return memory_in(found.group(2), found.group(1) or "0"), said
    found = re.fullmatch(r"\[\s*(%?\w+)\s*(?:([+-])\s*(" + NUMBER + r"))?\s*\]", text)
    if found:
        return memory_in(found.group(1), (found.group(2) or "").strip("+") + (found.group(3) or "0")), said
    if re.fullmatch(r"%?\w+", text):
        return text, said
    raise Fault("%s: the operand %s isn't read" % (cell, text), "operands of another form")


def memory_in(base, offset):
    """The place in memory of a base and a text of bytes."""
    in_register = base.startswith("%") or registers.whole(base) is not None
    behind = -number_in(offset[1:]) if offset.startswith("-") else number_in(offset)
    return Memory(base if in_register else location_in(base), behind, in_register)
