"""The control paths of each core, for the values that its reads can have.

A read can have the initial word, its core's own last store, or what another core writes on a path that was found before. A value carries
how many writes of each core it needs: none may need a write that comes after the read itself, since no execution has a cycle of program
order and reads-from. So paths are finitely many as soon as loops are bounded, and counters grow no further than there are writes.
"""
from .events import CUT, ENDS, FAULTS, LOCKED, WAITS, WRITE
from .refusals import NotJudged

MOST_NODES = 20000


class Path:
    """One path of a core to its end: its events, the bytes of its own words that it changed, and the fault that it ended with, or None."""

    def __init__(self, core, events, own, fault):
        self.core, self.events, self.own, self.fault = core, events, own, fault


class _Node:
    """A core that waits for a read's value: the events so far, how many of them write, the value that it reads if nobody else writes, and
    what each of its next values leads to. `clocks` are the least numbers of writes that the values so far need; `new_writes` those since
    the last read, with their numbers. `kind` says how it stopped; at an end `path` is the whole path."""

    __slots__ = ("core", "place", "events", "writes", "base", "children", "clocks", "new_writes", "path", "kind")

    def __init__(self, core, place, events, base):
        self.core, self.place, self.events, self.base = core, place, events, base
        self.writes = sum(is_write(event) for event in events)
        self.children, self.clocks, self.new_writes, self.path = {}, [], [], None


def is_write(event):
    return event.kind in (WRITE, LOCKED)


class Growth:
    """All paths of a machine's cores, found by `grow`: `paths`, a list for each core; whether a path was cut at the bound of loops; and the
    places of plain stores and of locked writes, on paths that were cut too."""

    def __init__(self, machine):
        self.machine, self.is_cut, self.stored, self.locked = machine, False, set(), set()
        self._nodes, self._given, self._count = {}, {}, 0
        self._work = []

    def grow(self):
        cores = self.machine.cores()
        self.paths = [[] for _ in cores]
        self.roots = [self._run(core, ()) for core in cores]
        for root in self.roots:
            self._enter(root, (0,) * len(cores))
        while self._work:
            node, value, clock = self._work.pop()
            self._enter(self.child(node, value), clock)
        return self

    def values_of(self, place):
        """All values that a read of this place was given."""
        return {self.machine.initial_word(place)} | {value for value, _, _ in self._given.get(place, ())}

    def child(self, node, value):
        """What a node comes to when its read has this value."""
        if value not in node.children:
            self._count += 1
            if self._count > MOST_NODES:
                raise NotJudged("there are more than %d beginnings of paths" % MOST_NODES)
            node.children[value] = self._run(node.core.answered(value), node.events)
        return node.children[value]

    def _run(self, core, before):
        """What a core comes to from here: a node."""
        stop = core.run()
        events = before + tuple(core.events)
        self.stored |= {event.place for event in core.events if event.kind == WRITE}
        self.locked |= {event.place for event in core.events if event.kind == LOCKED}
        node = _Node(core, stop.place if stop.kind == WAITS else None, events, None)
        node.new_writes = [(event, number) for number, event in enumerate(filter(is_write, events), 1)
                           if number > sum(map(is_write, before))]
        node.kind = stop.kind
        if stop.kind == WAITS:
            node.base = self._base_of(events, stop.place)
            self._nodes.setdefault(stop.place, []).append(node)
        elif stop.kind in (ENDS, FAULTS):
            own = {at: byte for at, byte in core.memory.items() if self.machine.initial_content(at) is not None}
            node.path = Path(core.number, events, own, stop.place if stop.kind == FAULTS else None)
            self.paths[core.number].append(node.path)
        elif stop.kind == CUT:
            self.is_cut = True
        return node

    def _base_of(self, events, place):
        """What a read has where no other core wrote since: the core's last store, else the initial word; None where an earlier read saw
        that another write came after this."""
        base, read = self.machine.initial_word(place), set()
        for event in reversed(events):
            if event.place == place and is_write(event):
                base = event.written
                break
            if event.place == place:
                read.add(event.read)
        return base if read <= {base} else None

    def _enter(self, node, clock):
        """A node can be reached with values that need these writes."""
        if any(all(one <= other for one, other in zip(known, clock)) for known in node.clocks):
            return
        node.clocks.append(clock)
        number = node.core.number
        for event, count in node.new_writes:
            self._give(event, number, clock[:number] + (count,) + clock[number + 1:])
        if node.place is not None:
            if node.base is not None:
                self._work.append((node, node.base, clock))
            for value, needs, writer in self._given.get(node.place, ()):
                self._offer(node, clock, value, needs, writer)

    def _give(self, event, writer, needs):
        """A core writes this value; those who wait for it may read it."""
        given = self._given.setdefault(event.place, [])
        if any(value == event.written and by == writer and all(one <= other for one, other in zip(known, needs))
               for value, known, by in given):
            return
        given.append((event.written, needs, writer))
        for node in list(self._nodes.get(event.place, ())):
            for clock in list(node.clocks):
                self._offer(node, clock, event.written, needs, writer)

    def _offer(self, node, clock, value, needs, writer):
        number = node.core.number
        if writer != number and needs[number] <= node.writes:
            self._work.append((node, value, tuple(map(max, clock, needs))))


def grown(machine):
    """The paths of a machine, once it is known which words several cores use: what is found only adds to those."""
    while True:
        machine.forget_uses()
        growth = Growth(machine).grow()
        if machine.learn():
            return growth
