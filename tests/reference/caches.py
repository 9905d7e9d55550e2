"""The protocols, and the caches of all cores with their words above one memory: docs/DEFINITIONS.md, 'Protocols', 'One set of a
cache', 'The caches on one bus' and 'The bus that is held'.

A word is read from a copy and written to a copy; a table that would let a copy go stale shows in what is printed.
"""
import dataclasses
import typing

from . import seen

M, O, E, S, I = "MOESI"

DIRTY, IN_PLACE = (M, O), (M, E)


class Snoop(typing.NamedTuple):
    """What another core's request makes of a copy: its next state, whether it supplies its words, whether it goes to memory."""
    next: str
    supplies: bool
    to_memory: bool


class Protocol(typing.NamedTuple):
    """A protocol: its name, the state that a load fills in where no other cache has the line, and what another's GetS does."""
    name: str
    alone: str
    gets: dict

    def getm(self, state):
        """Another's GetM leaves no copy; every copy but S supplies its words, and none goes to memory."""
        return Snoop(I, state in (M, O, E), False)

    def filled(self, shared):
        return S if shared else self.alone

    def reaches(self, state):
        """M and S always; E where a load fills in it, O where a modified copy becomes it."""
        return state in (M, S) or state == E and self.alone == E or state == O and self.gets[M].next == O


_CLEANING = {M: Snoop(S, True, True), O: Snoop(O, True, False), E: Snoop(S, True, False), S: Snoop(S, False, False)}
_OWNING = dict(_CLEANING, **{M: Snoop(O, True, False)})

PROTOCOLS = {"msi": Protocol("msi", S, _CLEANING), "mesi": Protocol("mesi", E, _CLEANING),
             "moesi": Protocol("moesi", E, _OWNING), "mosi": Protocol("mosi", S, _OWNING)}

HIT, UPGRADE, MISS = "hits", "upgrades", "misses"
FORWARD, WRITE_BACK, FLUSH = "forwards", "write_backs", "flushes"

# What a core's requests move, by the request, and beside it.
REQUESTED = {"GetS": "get_s", "GetM": "get_m"}
INVALIDATION, FROM_CACHE, FROM_MEMORY, TO_MEMORY = "invalidations", "from_caches", "from_memory", "to_memory"


@dataclasses.dataclass
class Copy:
    """A core's copy of a line."""
    line: int
    state: str
    words: list


@dataclasses.dataclass
class Noted:
    """What one choice did: the kind of its access, the request that went on the bus and its line, whose copy went to memory, the
    dirty line that left, and where the words of the line came from."""
    access: typing.Optional[str] = None
    request: typing.Optional[tuple] = None
    flushed: typing.Optional[int] = None
    written_back: typing.Optional[int] = None
    source: typing.Optional[str] = None


@dataclasses.dataclass
class Awaited:
    """What an access awaits from its ask to its completion: what it is; of a miss the words, and the state that they fill in."""
    kind: str
    words: typing.Optional[list] = None
    state: typing.Optional[str] = None


class Caches:
    """The caches of all cores, memory in lines, and the counts of each core."""

    def __init__(self, protocol, cores, sets, ways, words, first_words):
        self.protocol, self.set_count, self.ways, self.line_size = PROTOCOLS[protocol], sets, ways, words
        # Of each core each set, its copies, the most recently used first.
        self.sets = [[[] for _ in range(sets)] for _ in range(cores)]
        padded = first_words + [0] * (-len(first_words) % words)
        self.memory = [padded[at:at + words] for at in range(0, len(padded), words)]
        self.counts = [dict.fromkeys((HIT, MISS, UPGRADE, FORWARD, WRITE_BACK, FLUSH), 0) for _ in range(cores)]
        self.traffic = [dict.fromkeys((*REQUESTED.values(), INVALIDATION, FROM_CACHE, FROM_MEMORY, TO_MEMORY), 0) for _ in range(cores)]
        self.noted = Noted()

    def count(self, core, name):
        self.counts[core][name] += 1
        seen.note("access", name)

    def move(self, core, name):
        """Counts what was moved for a core."""
        self.traffic[core][name] += 1
        seen.note("moved", name)

    def set_of(self, core, line):
        return self.sets[core][line % self.set_count]

    def copy_at(self, core, location):
        """The core's copy of the line that this location lies in, or None."""
        line = location // self.line_size
        return next((copy for copy in self.set_of(core, line) if copy.line == line), None)

    def hits(self, core, location, write):
        """A load where the core has the line; a write access where the copy may be written in place."""
        copy = self.copy_at(core, location)
        return copy is not None and (not write or copy.state in IN_PLACE)

    def ask(self, core, location, write):
        """The first half of an access: the others see the request, and what is awaited is kept."""
        line, own = location // self.line_size, self.copy_at(core, location)
        if self.hits(core, location, write):
            self.noted.source = "cache"
            return Awaited(HIT)
        self.noted.request = "GetM" if write else "GetS", line
        self.move(core, REQUESTED[self.noted.request[0]])
        words, shared = self.snoop(core, line, write)
        if own is not None:
            self.noted.source = "cache"
            return Awaited(UPGRADE)
        self.move(core, FROM_MEMORY if self.noted.source == "memory" else FROM_CACHE)
        return Awaited(MISS, words, M if write else self.protocol.filled(shared))

    def snoop(self, core, line, write):
        """All other copies of the line go by the request; the words that are supplied, and whether another cache had the line."""
        words, shared = None, False
        for other in range(len(self.sets)):
            if other == core:
                continue
            copies = self.set_of(other, line)
            copy = next((copy for copy in copies if copy.line == line), None)
            if copy is None:
                continue
            shared = True
            snoop = self.protocol.getm(copy.state) if write else self.protocol.gets[copy.state]
            if snoop.supplies:
                words = list(copy.words)
                self.noted.source = "P%d" % other
            if snoop.to_memory:
                self.memory[line] = list(copy.words)
                self.count(other, FLUSH)
                self.move(core, TO_MEMORY)
                self.noted.flushed = other
            seen.note("snooped", "%s by %s" % (copy.state, "GetM" if write else "GetS"))
            copy.state = snoop.next
            if copy.state == I:
                self.move(core, INVALIDATION)
                copies.remove(copy)
        if words is None:
            words, self.noted.source = list(self.memory[line]), "memory"
        return words, shared

    def complete(self, core, location, write, awaited):
        """The second half: the line is filled or goes to the front, in its state. Answers the core's copy."""
        line = location // self.line_size
        copies, copy = self.set_of(core, line), self.copy_at(core, location)
        self.count(core, awaited.kind)
        self.noted.access = awaited.kind
        if self.noted.source is None:  # the ask was an earlier choice
            self.noted.source = "bus" if awaited.kind == MISS else "cache"
        if awaited.kind == MISS:
            copy = Copy(line, awaited.state, awaited.words)
            self.make_room(core, copies)
        else:
            seen.note("found", "%s %s by a %s" % (copy.state, awaited.kind, "write" if write else "load"))
            copies.remove(copy)
            if write:
                copy.state = M
        copies.insert(0, copy)
        return copy

    def make_room(self, core, copies):
        """The last copy of a full set leaves, and a dirty one to memory."""
        if len(copies) == self.ways:
            victim = copies.pop()
            seen.note("victim", victim.state)
            if victim.state in DIRTY:
                self.memory[victim.line] = victim.words
                self.count(core, WRITE_BACK)
                self.move(core, TO_MEMORY)
                self.noted.written_back = victim.line

    def access(self, core, location, write):
        """A whole access, which is its two halves one after the other."""
        return self.complete(core, location, write, self.ask(core, location, write))

    def word_in(self, copy, location):
        return copy.words[location % self.line_size]

    def write_in(self, copy, location, value):
        copy.words[location % self.line_size] = value

    def final_words(self, count):
        """Memory after all dirty copies went there."""
        lines = [list(line) for line in self.memory]
        for sets in self.sets:
            for copy in (copy for copies in sets for copy in copies):
                if copy.state in DIRTY:
                    lines[copy.line] = copy.words
        return [word for line in lines for word in line][:count]
