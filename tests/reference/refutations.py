"""Refutations as trees of questions and leaves: docs/DEFINITIONS.md, 'Why a proposition is never true', and docs/MODELS.md,
'Refutations'.

A part of a tree is a question, `Reads` or `First`, with a part for each of its answers, or a leaf. What is known in a branch are its
answers, and what follows from them of values.
"""
import typing

from . import arithmetic, litmus
from .candidates import GLOBAL, UNIPROC, Relations, events_of
from .orders import LOCKED_READ, LOCKED_WRITE, READ, WRITE, Entry


class Wrong(Exception):
    """What is printed isn't a refutation, or isn't printed as one is."""


class Reads(typing.NamedTuple):
    """A question: which write does this read read from? `parts` has the part of each source, None is the initial one."""
    read: Entry
    parts: dict


class First(typing.NamedTuple):
    """A question: which of two writes comes first? A part for the one named first, and one for the other."""
    first: Entry
    second: Entry
    parts: tuple


class Cycle(typing.NamedTuple):
    """A leaf: a cycle of events, of one location (`uniproc`) or of the model's global relation (`cycle`)."""
    step: str
    events: list


class Between(typing.NamedTuple):
    """A leaf: the write `between` stands between the two parts of a locked instruction."""
    read: Entry
    between: Entry
    write: Entry


class FalseClaim(typing.NamedTuple):
    """A leaf: what is asked is false by the values that are known."""


LEAVES = (Cycle, Between, FalseClaim)


def asked_of(test):
    """What the test asks: a proposition that it wants to know whether it can be true."""
    if test.proposition is None:
        return "truth", True
    return ("not", test.proposition) if test.quantifier == "forall" else test.proposition


class Known:
    """What a branch knows of a test: the sources of some reads, the newest answer first, and pairs of writes."""

    def __init__(self, test, events, sources=(), pairs=(), values=None):
        self.test, self.events, self.sources, self.pairs = test, events, sources, pairs
        self.relations, self.claim = Relations(events, sources, pairs), asked_of(test)
        self.writes, self.registers = values or self.values_by_rounds()
        # What was asked for of the branches that begin here.
        self.after = {}

    def with_source(self, read, write):
        if (read, write) not in self.after:
            self.after[read, write] = Known(self.test, self.events, ((read, write),) + self.sources, self.pairs)
        return self.after[read, write]

    def with_pair(self, first, second):
        """The values stay: which of two writes comes first says nothing of what is read."""
        if (first, second) not in self.after:
            pairs = ((first, second),) + self.pairs
            self.after[first, second] = Known(self.test, self.events, self.sources, pairs, (self.writes, self.registers))
        return self.after[first, second]

    def writes_to(self, location):
        return [event for event in self.events if event.is_write() and event.location == location]

    # ---- values

    def values_by_rounds(self):
        """The writes whose values are known, and the last registers of each core. The programs run again and again, and what a read returns
        is known where the value of its write was in the round before."""
        before, writes, registers = None, {}, []
        while writes != before:
            before, writes, registers = writes, {}, []
            for core in range(self.test.cores()):
                made, last = self.thread(core, before)
                writes.update(made)
                registers.append(last)
        return writes, registers

    def returned(self, read, writes):
        """What a read returns by its newest answer, where these writes are known; None where it isn't."""
        for asked, write in self.sources:
            if asked == read:
                return self.test.words[read.location] if write is None else writes.get(write)
        return None

    def thread(self, core, known):
        """A core's writes with their values, those that are known, and its last registers; None for one that isn't."""
        registers, writes = list(self.test.registers[core]), {}
        for place, done in enumerate(self.test.programs[core]):
            kind, location = done.kind, done.location
            if kind in litmus.STORES:
                writes[Entry(core, place, WRITE, location)] = arithmetic.operand(done, registers, arithmetic.Known)
            elif kind in litmus.MOVES:
                registers = arithmetic.moved(done, registers, arithmetic.Known)
            elif kind == litmus.LOAD:
                registers[done.register] = self.returned(Entry(core, place, READ, location), known)
            elif kind in litmus.LOCKED:
                word, taken = self.returned(Entry(core, place, LOCKED_READ, location), known), arithmetic.taken_by(done)
                writes[Entry(core, place, LOCKED_WRITE, location)] = arithmetic.updated(done, registers, word, arithmetic.Known)
                if taken is not None:
                    registers[taken] = word
        return {write: value for write, value in writes.items() if value is not None}, registers

    def value(self, event):
        """The value of an event, where it is known."""
        return self.returned(event, self.writes) if event.is_read() else self.writes.get(event)

    def text(self, event):
        """An event as it is printed, with its value where that is known; the initial write is one too."""
        if event is None:
            return "initial"
        value = self.value(event)
        return event.action(self.test) if value is None else event._replace(value=value).text(self.test)

    # ---- the final state

    def words_at_end(self, location):
        """What a location's word may be: the value of each write that no answer puts before another one."""
        writes = self.writes_to(location)
        if not writes:
            return [self.test.words[location]]
        overwritten = {first for first, _ in self.pairs}
        return [self.value(write) for write in writes if write not in overwritten]

    def words_at(self, place):
        """The same of a place; of a register there is one."""
        return self.words_at_end(place[1]) if place[0] == "location" else [self.registers[place[1]][place[2]]]

    # ---- propositions

    def allows(self, claim, truth):
        """Whether the proposition can have this truth."""
        return can_have(claim, truth, self.words_at)

    def is_false(self):
        return not self.allows(self.claim, True)


def can_have(claim, truth, words_at):
    """Whether a proposition can have this truth, each of its atoms by itself. `words_at` has what a place may hold; None is anything."""
    form = claim[0]
    if form == "truth":
        return claim[1] == truth
    if form in ("register", "location"):
        return any(word is None or (word == claim[-1]) == truth for word in words_at(claim[:-1]))
    if form == "not":
        return can_have(claim[1], not truth, words_at)
    every = (form == "and") == truth
    return (all if every else any)(can_have(part, truth, words_at) for part in claim[1])


# ---- whether a tree refutes

def judge(part, known, model):
    """Raises `Wrong` where a part, by what is known, doesn't refute what is asked."""
    if isinstance(part, Reads):
        due = [None] + known.writes_to(part.read.location)
        if part.read not in known.events or not part.read.is_read():
            raise Wrong("no read of the test: " + known.text(part.read))
        missing = [known.text(source) for source in due if source not in part.parts]
        more = [known.text(source) for source in part.parts if source not in due]
        if missing or more:
            raise Wrong("of the sources of %s there are missing %s, and too many %s" % (known.text(part.read), missing, more))
        for source in due:
            judge(part.parts[source], known.with_source(part.read, source), model)
    elif isinstance(part, First):
        first, second = part.first, part.second
        if first == second or first not in known.events or second not in known.writes_to(first.location) or not first.is_write():
            raise Wrong("no two writes to a location: %s and %s" % (known.text(first), known.text(second)))
        judge(part.parts[0], known.with_pair(first, second), model)
        judge(part.parts[1], known.with_pair(second, first), model)
    else:
        judge_leaf(part, known, model)


def judge_leaf(leaf, known, model):
    events = leaf.events if isinstance(leaf, Cycle) else leaf
    strange = [known.text(event) for event in events if event not in known.events]
    if strange:
        raise Wrong("no events of the test: %s" % strange)
    if isinstance(leaf, Cycle):
        for x, y in edges_of(leaf.events):
            if relation_of(leaf, known, model, x, y) is None:
                raise Wrong("no relation leads from %s to %s" % (known.text(x), known.text(y)))
    elif isinstance(leaf, Between):
        if not known.relations.is_between(*leaf):
            raise Wrong("%s isn't between %s and %s" % tuple(known.text(leaf[at]) for at in (1, 0, 2)))
    elif not known.is_false():
        raise Wrong("what is asked isn't known to be false")


def edges_of(events):
    return list(zip(events, events[1:] + events[:1]))


def relation_of(leaf, known, model, x, y):
    """The name of the first relation that leads from x to y, or None."""
    names = UNIPROC if leaf.step == "uniproc" else GLOBAL[model]
    return next((name for name, related in names if related(known.relations, x, y)), None)


def most_cases(test):
    """The most leaves of a tree that asks everything: as many as there are ways to give each read a source, and to put the writes of each
    location in order pair by pair."""
    events, cases = events_of(test), 1
    for location in range(len(test.locations)):
        writes = sum(event.is_write() and event.location == location for event in events)
        reads = sum(event.is_read() and event.location == location for event in events)
        cases *= (writes + 1) ** reads * 2 ** (writes * (writes - 1) // 2)
    return cases
