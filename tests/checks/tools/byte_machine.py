"""Tests for X86_64 made from a seed, run on a plain machine whose memory has bytes, for tests/batteries.py: words of 32 and of 64 bits are
mixed, addresses stand in registers, and arrays have elements. The program has just these final states for what tools/import makes of them.

Nothing here knows how a text is imported: a test is made as a list of accesses to bytes, and its text is written from them.
"""
import random

import answers
import importer
import litmus
import registers

SEED, COUNT = 1, 150

# Registers of 64 bits, with the names of their lower halves.
WORDS = {"rax": "eax", "rbx": "ebx", "rcx": "ecx", "rdx": "edx", "rbp": "ebp", "r8": "r8d", "r9": "r9d", "r14": "r14d"}
ADDRESSES = ("rsi", "rdi", "r10", "r11")
MNEMONICS = {"store": "mov", "copy": "mov", "load": "mov", "xchg": "xchg", "xadd": "lock xadd"}
MASK = {4: 2 ** 32 - 1, 8: 2 ** 64 - 1}


class Word:
    """A word of memory: its name in a log, its place in bytes, the bytes that are used of it at most, and how an access spells it."""

    def __init__(self, name, at, widest, base, offset):
        self.name, self.at, self.widest, self.base, self.offset = name, at, widest, base, offset


class Made:
    """A test: its words, its first values, and each core's accesses (kind, word, bytes, register or number)."""

    def __init__(self, chance):
        self.chance, self.words, self.items, end = chance, [], [], 0
        for name in ("x", "y", "msg")[:chance.randint(1, 3)]:
            kind, size = chance.choice((("", 8), ("int ", 4), ("uint64_t ", 8)))
            count = chance.choice((1, 1, 2)) if kind else 1
            for number in range(count):
                self.words.append(Word("%s[%d]" % (name, number) if count > 1 else name, end, size, name, number * size))
                end += size
            if kind:
                self.items.append("%s%s%s" % (kind, name, "[%d]" % count if count > 1 else ""))
        self.cores = [self.core() for _ in range(2)]

    def core(self):
        chance = self.chance
        used, found = chance.sample(sorted(WORDS), 3), []
        for _ in range(chance.randint(2, 3)):
            kind = chance.choice(("store", "store", "copy", "load", "load", "load", "xchg", "xadd", "mfence"))
            word, register = chance.choice(self.words), chance.choice(used)
            size = 4 if kind == "xadd" or word.widest == 4 else chance.choice((4, 8))
            found.append((kind, word, size, chance.randint(1, 3) if kind == "store" else register))
        return found

    def text(self, name):
        spelled, items, columns = self.chance.choice((at_and_t, at_and_t, intel)), list(self.items), []
        for core, accesses in enumerate(self.cores):
            held, cells = {}, []
            for kind, word, size, value in accesses:
                if word.offset or word.base not in held and self.chance.random() < 0.5:
                    held.setdefault(word.base, ADDRESSES[len(held)])
                cells.append(kind if kind == "mfence" else spelled(kind, held.get(word.base), word, size, value))
            columns.append(cells)
            items += ["%d:%s=%s" % (core, register, base) for base, register in held.items()]
        height = max(map(len, columns))
        rows = [" %s ;" % " | ".join(column[at] if at < len(column) else "" for column in columns) for at in range(height)]
        claim = " /\\ ".join("%s=1" % place for place in self.places())
        return "X86_64 %s\n{ %s }\n P0 | P1 ;\n%s\nexists (%s)\n" % (name, "; ".join(items), "\n".join(rows), claim)

    def places(self):
        """All that a final state names: each core's registers, and each word."""
        used = {"%d:%s" % (core, value) for core, accesses in enumerate(self.cores) for kind, _, _, value in accesses
                if kind not in ("store", "mfence")}
        return sorted(used) + [word.name for word in self.words]


def at_and_t(kind, held, word, size, value):
    """An access in AT&T's order of operands; `held` is the register that holds the address, or None."""
    place = "%s(%%%s)" % (word.offset or "", held) if held else "(%s)" % word.base
    other = "$%d" % value if kind == "store" else "%" + (value if size == 8 else WORDS[value])
    return "%s%s %s" % (MNEMONICS[kind], "lq"[size == 8], ",".join((place, other) if kind == "load" else (other, place)))


def intel(kind, held, word, size, value):
    """The same in Intel's order."""
    inner = "%s+%d" % (held, word.offset) if held and word.offset else held or word.base
    other = str(value) if kind == "store" else value if size == 8 else WORDS[value]
    place = "%sword ptr [%s]" % ("dq"[size == 8], inner)
    return "%s %s" % (MNEMONICS[kind], ",".join((other, place) if kind == "load" else (place, other)))


def seen(buffer, memory, at, size):
    """The number in these bytes: of each the newest value in the core's own buffer, else what memory has."""
    found = list(memory[at:at + size])
    for begin, values in buffer:
        for place, value in enumerate(values, begin):
            if at <= place < at + size:
                found[place - at] = value
    return int.from_bytes(bytes(found), "little")


def bytes_of(value, size):
    return tuple((value & MASK[size]).to_bytes(size, "little"))


def written(memory, at, values):
    return memory[:at] + values + memory[at + len(values):]


def steps(made, state):
    """The states that one step leads to."""
    done, held, buffers, memory = state
    for core, accesses in enumerate(made.cores):
        buffer = buffers[core]
        if buffer:
            begin, values = buffer[0]
            yield done, held, replaced(buffers, core, buffer[1:]), written(memory, begin, values)
        if done[core] == len(accesses):
            continue
        kind, word, size, value = accesses[done[core]]
        after = replaced(done, core, done[core] + 1)
        own = dict(held[core])
        if kind in ("mfence", "xchg", "xadd") and buffer:
            continue
        if kind == "mfence":
            yield after, held, buffers, memory
        elif kind in ("store", "copy"):
            number = value if kind == "store" else own.get(value, 0)
            yield after, held, replaced(buffers, core, buffer + ((word.at, bytes_of(number, size)),)), memory
        else:
            old, before = seen(buffer, memory, word.at, size), own.get(value, 0)
            own[value] = old
            new = {"load": None, "xchg": before, "xadd": old + before}[kind]
            changed = memory if new is None else written(memory, word.at, bytes_of(new, size))
            yield after, replaced(held, core, tuple(sorted(own.items()))), buffers, changed


def replaced(items, at, item):
    return items[:at] + (item,) + items[at + 1:]


def final_states(made):
    """All final states, by a search of all runs."""
    start = ((0, 0), ((), ()), ((), ()), (0,) * (made.words[-1].at + made.words[-1].widest))
    known, waiting, ends = {start}, [start], set()
    while waiting:
        state = waiting.pop()
        done, held, buffers, memory = state
        if all(done[core] == len(accesses) for core, accesses in enumerate(made.cores)) and not any(buffers):
            values = {"%d:%s" % (core, name): value for core in (0, 1) for name, value in held[core]}
            values.update((word.name, seen((), memory, word.at, word.widest)) for word in made.words)
            ends.add(frozenset((place, values.get(place, 0)) for place in made.places()))
        for after in steps(made, state):
            if after not in known:
                known.add(after)
                waiting.append(after)
    return ends


def fault_of(program, made, text):
    """What is wrong with the states that the program has for an imported test."""
    test = importer.Importer(text).test()
    theirs = {ours: place for place, ours in registers.names_in(test.facts).items()}

    def named(place):
        core, _, name = place.rpartition(":")
        place = theirs.get(place, place)
        core, _, name = place.rpartition(":")
        return "%s:%s" % (core, "r" + name[1:].lower()) if core else place
    found = answers.outcomes(program, test.text(), [], limit=60)
    if "states" not in found:
        return str(found)
    states = {frozenset((named(place), value) for place, value in state.items()) for state in found["states"]}
    return None if states == final_states(made) else "the machine of bytes has other final states:\n%s" % text


def judge(program, tally):
    chance = random.Random(SEED)
    for number in range(COUNT):
        made = Made(chance)
        text = made.text("bytes-%d" % number)
        tally.add("words of two sizes, %d" % number, fault_of(program, made, text))
