"""Edges of critical cycles, as diy7 names them, and all cycles of a length.

A cycle goes from access to access and comes back to the first. Its edges are

    Rfe Fre Coe     reads-from, from-reads and coherence between two cores (Wse is another name of Coe)
    Rfi Fri Coi     the same within a core (Wsi is another name of Coi)
    PodXY, PosXY    program order from an access X to the next one Y, of another location or of the same; X and Y are R or W
    MFencedXY       program order with MFENCE between, of another location (MFenceddXY); of the same, MFencedsXY
    DpdW            program order from a load to a store of another location, of the value that the load reads (DpDatadW)
    Rmw             from the load to the store of one XCHG

After an edge's name two letters may tell its two accesses: P a plain one, A an atomic one (a locked instruction): a store that is
XCHG, or a load that is LOCK XADD of 0. `PodWRAP` goes from XCHG to a plain load. No letters mean PP. Both edges of an access say the
same of it. In a name `*` stands for any one letter: `Pod**` for four edges.
"""
import bisect
import itertools
import math
import re
from dataclasses import dataclass

COMMUNICATION = {"Rf": "WR", "Fr": "RW", "Co": "WW"}
FORM = re.compile(r"(?:(Rf|Fr|Co|Ws)([ei])|(Pod|Pos)([RW])([RW])|MFenced([ds]?)([RW])([RW])|Dp(?:Data)?([ds])W|(Rmw))([PA]{2})?")

# Dependencies that no straight line of instructions has.
NO_DEPENDENCY = re.compile(r"Dp(?:(Addr)|(Ctrl)|(?=[ds]R))\w*")


class BadCycle(Exception):
    """A text that names no edge, or edges that make no cycle, or one that no test can ask for."""


@dataclass(frozen=True)
class Edge:
    """One edge: its kind (Rf, Fr, Co, Po, MFence, Dp or Rmw), whether it leaves the core, whether it leaves the location, and the access at
    each end: its direction, R or W, and whether it is locked by itself."""

    kind: str
    leaves_core: bool
    leaves_location: bool
    source: str
    target: str
    locked: tuple = (False, False)

    def is_communication(self):
        return self.kind in COMMUNICATION

    def goes_up(self):
        """Whether it leads from a store, or what reads it, to what comes after that in coherence, or reads it."""
        return self.is_communication() or self.kind == "Rmw"

    def plain_name(self):
        if self.is_communication():
            return self.kind + ("e" if self.leaves_core else "i")
        if self.kind == "Po":
            return "Po%s%s%s" % ("d" if self.leaves_location else "s", self.source, self.target)
        if self.kind == "MFence":
            return "MFenced%s%s%s" % ("" if self.leaves_location else "s", self.source, self.target)
        return "Rmw" if self.kind == "Rmw" else "Dp%sW" % ("d" if self.leaves_location else "s")

    def name(self):
        return self.plain_name() + ("".join("A" if locked else "P" for locked in self.locked) if any(self.locked) else "")


def edge_named(word):
    """The edge of this name."""
    found, other = FORM.fullmatch(word), NO_DEPENDENCY.fullmatch(word)
    if other:
        raise BadCycle("%s: straight lines of instructions have no %s dependencies; DpdW is a data dependency"
                       % (word, "control" if other.group(2) else "address"))
    if not found:
        raise BadCycle("no edge: " + word)
    communication, reach, order, source, target, fence_reach, fence_source, fence_target, copy_reach, both, letters = found.groups()
    locked = tuple(letter == "A" for letter in letters or "PP")
    if communication:
        kind = "Co" if communication == "Ws" else communication
        return Edge(kind, reach == "e", False, *COMMUNICATION[kind], locked)
    if order:
        return Edge("Po", False, order == "Pod", source, target, locked)
    if fence_source:
        return Edge("MFence", False, fence_reach != "s", fence_source, fence_target, locked)
    if both and any(locked):
        raise BadCycle("%s: Rmw is one locked instruction, and has no letters" % word)
    if copy_reach and locked[1]:
        raise BadCycle("%s: XCHG would put another value into the register that the condition asks; the store of a data dependency is plain"
                       % word)
    return Edge("Rmw", False, False, "R", "W") if both else Edge("Dp", False, copy_reach == "d", "R", "W", locked)


def every_edge():
    """All edges, in the order of their names' forms."""
    plain = [kind + reach for kind in COMMUNICATION for reach in "ei"] + ["DpdW", "DpsW"]
    plain += [kind + source + target for kind in ("Pod", "Pos", "MFenced", "MFenceds") for source in "RW" for target in "RW"]
    lettered = [name + letters for name in plain for letters in ("PP", "PA", "AP", "AA")]
    return {name: edge_named(name) for name in plain + ["Rmw"] + lettered if not re.fullmatch(r"Dp.W.A", name)}


def edges_named(word):
    """The edges that a word stands for, in which `*` is any one letter."""
    if "*" not in word:
        return [edge_named(word)]
    form = re.compile(re.escape(word).replace(r"\*", "[A-Za-z]"))
    found = [edge for name, edge in every_edge().items() if form.fullmatch(name)]
    if not found:
        raise BadCycle("no edge: " + word)
    return list(dict.fromkeys(found))


def meets(edge, after):
    """Whether the access at the end of one edge may be that at the beginning of the other."""
    return edge.target == after.source and edge.locked[1] == after.locked[0]


def cycles_named(words):
    """The cycles of these edges, each once, where words have `*`. BadCycle where a word is no edge, or where there is no cycle."""
    found = {}
    for picked in itertools.product(*map(edges_named, words)):
        try:
            found[cycle_of(list(picked))] = None
        except BadCycle:
            continue
    if not found:
        raise BadCycle("no cycle has these edges")
    return list(found)


def cycle_named(words):
    """The cycle of these edges."""
    return cycle_of([edge_named(word) for word in words])


def cycle_of(cycle):
    """The cycle of these edges, turned so that its last edge leaves the core and its first access begins one. BadCycle where two edges
    don't meet, or no sources of loads and orders of stores have all of the edges."""
    for edge, after in zip(cycle, cycle[1:] + cycle[:1]):
        if not meets(edge, after):
            raise BadCycle("%s can't be followed by %s" % (edge.name(), after.name()))
    if sum(edge.leaves_core for edge in cycle) < 2:
        raise BadCycle("a cycle has two edges or more that leave the core")
    if sum(edge.leaves_location for edge in cycle) == 1:
        raise BadCycle("one edge alone leaves its location, so the cycle can't come back")
    if all(edge.goes_up() for edge in cycle):
        with_locked = "Rmw and edges" if any(edge.kind == "Rmw" for edge in cycle) else "edges"
        raise BadCycle(with_locked + " of communication alone contradict themselves: a store would come before itself in coherence")
    return turned(cycle)


def turned(cycle):
    """The cycle from the access after an edge that leaves the core; of several the one that begins with the first name."""
    begins = [at for at, edge in enumerate(cycle) if cycle[at - 1].leaves_core]
    return min((tuple(cycle[at:] + cycle[:at]) for at in begins), key=lambda turn: (rank(turn), names(turn)))


def rank(cycle):
    """Cycles are turned so that a store comes first where one can, since names of the literature begin so."""
    return 0 if cycle[0].source == "W" else 1


def names(cycle):
    return tuple(edge.name() for edge in cycle)


# ---- all cycles

COMMUNICATIONS = tuple(Edge(kind, reach, False, *ends) for kind, ends in COMMUNICATION.items() for reach in (True, False))
ORDERS = tuple(Edge(kind, False, True, source, target) for kind in ("Po", "MFence") for source in "RW" for target in "RW")

# After reads-from, from-reads would only make coherence; after coherence or from-reads, coherence would make what they are.
NOT_TOGETHER = {("Rf", "Fr"), ("Co", "Co"), ("Fr", "Co")}


def may_follow(edge, after):
    """Whether one edge may stand after the other in a critical cycle."""
    if edge.target != after.source:
        return False
    if edge.is_communication() and after.is_communication():
        return (edge.kind, after.kind) not in NOT_TOGETHER
    return edge.is_communication() or after.is_communication()


def cycles(length, with_locked=False):
    """All critical cycles of so many edges, each once: with two edges or more that leave the core and two or more that leave the
    location, no two edges of program order side by side."""
    for cycle in plain_cycles(length):
        yield from marked(cycle) if with_locked else [cycle]


def marked(cycle):
    """A plain cycle with each of its accesses plain or locked, each way once."""
    seen = {}
    for marks in itertools.product((False, True), repeat=len(cycle)):
        seen[turned([Edge(e.kind, e.leaves_core, e.leaves_location, e.source, e.target, (marks[at], marks[(at + 1) % len(cycle)]))
                     for at, e in enumerate(cycle)])] = None
    return list(seen)


def ways_to_mark(cycle):
    """How many cycles `marked` makes: the ways to mark each access, of which those are one that a turn of the cycle joins."""
    size = len(cycle)
    turns = [by for by in range(size) if cycle[by:] + cycle[:by] == cycle]
    return sum(2 ** math.gcd(by, size) for by in turns) // len(turns)


def drawn_cycles(lengths, with_locked, cores, draw):
    """Critical cycles of these lengths on at most so many cores, drawn one after the other, each once and each as likely: the place of each
    among all, and the cycle. `draw` is a random.Random."""
    plain = [cycle for length in lengths for cycle in plain_cycles(length) if sum(edge.leaves_core for edge in cycle) <= cores]
    ends = list(itertools.accumulate(ways_to_mark(cycle) if with_locked else 1 for cycle in plain))
    ways, seen = {}, set()
    while plain and len(seen) < ends[-1]:
        place = draw.randrange(ends[-1])
        if place not in seen:
            seen.add(place)
            at = bisect.bisect_right(ends, place)
            if at not in ways:
                ways[at] = marked(plain[at]) if with_locked else [plain[at]]
            yield place, ways[at][place - ends[at]]


def plain_cycles(length):
    seen = set()

    def grow(path):
        if len(path) == length:
            if may_follow(path[-1], path[0]) and sum(e.leaves_core for e in path) >= 2 and sum(e.leaves_location for e in path) >= 2:
                cycle = turned(path)
                if cycle not in seen:
                    seen.add(cycle)
                    yield cycle
            return
        # a turn that begins with an edge of a lower place was tried before
        for at, edge in enumerate(every):
            if not path or at >= every.index(path[0]) and may_follow(path[-1], edge):
                yield from grow(path + [edge])

    every = COMMUNICATIONS + ORDERS
    yield from grow([])


def cycles_among(pool, relax, length):
    """All cycles of so many edges of the pool, each once, of which one or more is of `relax`. As critical ones they have two edges or more
    that leave the core; of program order two stand side by side only where one of them keeps to its location; and what communication is
    side by side makes no third one."""
    relax, found = set(relax), {}

    def grow(path):
        if len(path) == length:
            if may_stand(path[-1], path[0]) and relax & set(path):
                try:
                    found[cycle_of(path)] = None
                except BadCycle:
                    pass
            return
        for edge in pool:
            if not path or may_stand(path[-1], edge):
                grow(path + [edge])

    grow([])
    return list(found)


def may_stand(edge, after):
    """Whether one edge may stand beside the other in a cycle of edges that are listed."""
    if not meets(edge, after):
        return False
    if edge.is_communication() and after.is_communication():
        return (edge.kind, after.kind) not in NOT_TOGETHER
    return edge.goes_up() or after.goes_up() or edge.leaves_location != after.leaves_location
