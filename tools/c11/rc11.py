"""The model RC11 of C11's memory (Lahav and others, Repairing sequential consistency in C/C++11, 2017), on one execution.

An execution is built one event after the other, each after all that it depends on by sb and rf; RC11 has none with a cycle of these. So
each axiom is asked of the newest event alone, and a relation is kept as what comes before each event, a set of numbers in one integer.

    sb   sequenced before: program order of a thread, after all initial writes
    rf   reads from; mo, modification order: the writes of each place; rb, reads before: a read and the writes after the one it reads
    eco  the transitive closure of rf, mo and rb
    rs   release sequences, sw synchronizes with, hb happens before: the transitive closure of sb and sw
    psc  the partial order of sequentially consistent events, which has no cycle

The axioms: hb; eco? is irreflexive (coherence), updates come right after what they read (atomicity), psc is acyclic, and so is sb with rf.
"""
from .events import FENCE, LOCKED, READ, WRITE

ACQUIRES, RELEASES = {"acq", "ar", "sc"}, {"rel", "ar", "sc"}
PLAIN, SC = "na", "sc"
MODELS = ("rc11", "ra", "sc")
# No axiom but atomicity: what is asked for reasons.
FREE = "free"


class Event:
    """An event: its thread (-1 of an initial write), its action, and what is known of it: the events before it by sb, and by hb."""

    __slots__ = ("thread", "kind", "place", "read", "written", "mode", "at", "sb", "hb", "rf")

    def __init__(self, thread, action, mode):
        self.thread, self.kind, self.place, self.at = thread, action.kind, action.place, action.at
        self.read, self.written, self.mode = action.read, action.written, mode
        self.sb = self.hb = 0
        self.rf = None

    def writes(self):
        return self.kind in (WRITE, LOCKED)

    def reads(self):
        return self.kind in (READ, LOCKED)


class Execution:
    """A consistent execution: its events, mo as a list of events for each place, and the last event of each thread. `race` is a pair of
    events that race, once there is one."""

    def __init__(self, model, threads):
        self.model, self.events, self.mo, self.last = model, [], {}, [None] * threads
        self.initials, self.race = 0, None

    def copy(self):
        other = Execution(self.model, 0)
        other.events, other.last, other.initials, other.race = list(self.events), list(self.last), self.initials, self.race
        other.mo = dict(self.mo)
        return other

    def add_initial(self, event):
        """Adds a place's initial write."""
        number = len(self.events)
        self.events.append(event)
        self.mo[event.place] = (number,)
        self.initials |= 1 << number

    # ---- what a new event may do

    def add_fence(self, event):
        """The execution with a fence, or None where that is inconsistent."""
        return self.copy()._added(event)

    def add_read(self, event, source):
        """The execution with a read from this write, or None where that is inconsistent."""
        return self.copy()._added(event, source)

    def add_update(self, event, source):
        """The execution with a read and write at once."""
        mo = self.mo[event.place]
        after = mo.index(source) + 1
        if after < len(mo) and self.events[mo[after]].kind == LOCKED:
            return None
        return self.copy()._added(event, source, after)

    def added_writes(self, event):
        """The executions with a write, at each place of mo where it may stand: not between an update and what it reads."""
        mo = self.mo[event.place]
        for after in range(1, len(mo) + 1):
            if after == len(mo) or self.events[mo[after]].kind != LOCKED:
                found = self.copy()._added(_again(event), None, after)
                if found is not None:
                    yield found

    def _added(self, event, source=None, position=None):
        number, last = len(self.events), self.last[event.thread]
        event.sb = self.initials if last is None else self.events[last].sb | 1 << last
        event.hb = self.initials if last is None else self.events[last].hb | 1 << last
        event.rf = source
        self.events.append(event)
        for other in self.synchronizing(event):
            event.hb |= self.events[other].hb | 1 << other
        if event.place is not None:
            floor = 0 if self.model == FREE else self._floor(event)
            if source is not None and self.mo[event.place].index(source) < floor:
                return None
            if position is not None:
                if position <= floor:
                    return None
                mo = self.mo[event.place]
                self.mo[event.place] = mo[:position] + (number,) + mo[position:]
            if self.race is None:
                self.race = self._race_of(event)
        self.last[event.thread] = number
        return self if self._is_sequential() else None

    def _floor(self, event):
        """The least place in mo that coherence leaves: of the writes that happen before the event, and of those that were read before."""
        mo, found = self.mo[event.place], 0
        for number in numbers_in(event.hb):
            other = self.events[number]
            if other.place == event.place:
                found = max(found, mo.index(number) if other.writes() else mo.index(other.rf))
        return found

    # ---- synchronization

    def synchronizing(self, event):
        """The events that synchronize with this one: sw."""
        if event.mode not in ACQUIRES:
            return
        reads = [event] if event.reads() else [] if event.kind != FENCE else [
            self.events[number] for number in numbers_in(event.sb)
            if self.events[number].thread == event.thread and self.events[number].reads() and self.events[number].mode != PLAIN]
        for read in reads:
            if read.rf is not None:
                yield from self._releasing(read.rf)

    def _releasing(self, write):
        """The events whose release sequence reaches a write: from its own, and while it is an update from what it read."""
        while write is not None:
            of = self.events[write]
            if of.mode != PLAIN:
                for number in [write, *numbers_in(of.sb)]:
                    other = self.events[number]
                    if (other.thread == of.thread and other.mode in RELEASES
                            and (other.kind == FENCE or other.writes() and other.place == of.place)):
                        yield number
            write = of.rf if of.kind == LOCKED else None

    def _race_of(self, event):
        """An event that races with the new one: on the same place, one of them writes, one is plain, and it doesn't happen before it."""
        for number, other in enumerate(self.events[:-1]):
            if (other.place == event.place and other.thread not in (-1, event.thread) and (other.writes() or event.writes())
                    and PLAIN in (other.mode, event.mode) and not event.hb >> number & 1):
                return other, event
        return None

    # ---- sequential consistency

    def _is_sequential(self):
        if self.model in ("ra", FREE):
            return True
        if self.model == "sc":
            return not has_cycle(union(self.relation("sb"), *self.communication()))
        return sum(other.mode == SC for other in self.events) < 2 or not has_cycle(self.psc())

    def relation(self, name):
        """A relation as the events before each one: sb or hb."""
        return [getattr(event, name) for event in self.events]

    def communication(self):
        """rf, mo and rb."""
        count = len(self.events)
        rf, mo, rb = [0] * count, [0] * count, [0] * count
        for order in self.mo.values():
            before = 0
            for number in order:
                mo[number] = before
                before |= 1 << number
        for number, event in enumerate(self.events):
            if event.rf is not None:
                rf[number] = 1 << event.rf
                order = self.mo[event.place]
                for later in order[order.index(event.rf) + 1:]:
                    if later != number:
                        rb[later] |= 1 << number
        return rf, mo, rb

    def psc(self):
        """psc = psc_base with psc_F, as in the paper's section 3."""
        events, count = self.events, len(self.events)
        sb, hb = self.relation("sb"), self.relation("hb")
        rf, mo, rb = self.communication()
        eco = closure(union(rf, mo, rb))
        same = [sum(1 << other for other in range(count) if events[other].place == event.place and event.place is not None)
                for event in events]
        elsewhere = [one & ~alike for one, alike in zip(sb, same)]
        scb = union(sb, after(after(elsewhere, hb), elsewhere), [one & alike for one, alike in zip(hb, same)], mo, rb)
        accesses = [number for number, event in enumerate(events) if event.mode == SC and event.kind != FENCE]
        fences = [number for number, event in enumerate(events) if event.mode == SC and event.kind == FENCE]
        identity = [1 << number for number in range(count)]
        hb_or_same = union(hb, identity)
        chosen_accesses, chosen_fences = only(identity, accesses), only(identity, fences)
        first = union(chosen_accesses, after(chosen_fences, hb_or_same))
        last = union(chosen_accesses, after(hb_or_same, chosen_fences))
        base = after(after(first, scb), last)
        of_fences = after(after(chosen_fences, union(hb, after(after(hb, eco), hb))), chosen_fences)
        return union(base, of_fences)


def _again(event):
    """The same event, for another execution."""
    other = Event.__new__(Event)
    for name in Event.__slots__:
        setattr(other, name, getattr(event, name))
    return other


# ---- relations: for each event, the events before it

def numbers_in(events):
    """The numbers of a set of events."""
    while events:
        lowest = events & -events
        yield lowest.bit_length() - 1
        events ^= lowest


def union(*relations):
    found = list(relations[0])
    for relation in relations[1:]:
        found = [one | other for one, other in zip(found, relation)]
    return found


def only(identity, numbers):
    """The identity on these events."""
    kept = set(numbers)
    return [one if number in kept else 0 for number, one in enumerate(identity)]


def after(first, second):
    """The composition: first, and then second."""
    found = []
    for before in second:
        reached = 0
        for middle in numbers_in(before):
            reached |= first[middle]
        found.append(reached)
    return found


def closure(relation):
    """The transitive closure."""
    found = list(relation)
    for middle in range(len(found)):
        for number in range(len(found)):
            if found[number] >> middle & 1:
                found[number] |= found[middle]
    return found


def has_cycle(relation):
    return any(before >> number & 1 for number, before in enumerate(closure(relation)))
