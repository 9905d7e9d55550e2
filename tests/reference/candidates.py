"""Candidate executions, and which of them a model allows: docs/MODELS.md, 'The relational model' and 'Sequential consistency'.

An event is an entry whose value is left open, written as 0. The three relations of communication come from sources of reads, and from
pairs of writes of which the first is before the second in coherence: of a candidate those of all reads and all such pairs, of a branch
of a refutation those that were answered.
"""
from .axioms import thread
from .orders import FENCE, LOCKED_READ, LOCKED_WRITE

TSO, SC = "tso", "sc"

# The depth of buffers at which runs are the executions of a model.
DEPTHS = {TSO: 32, SC: 0}


def bare(entry):
    return entry._replace(value=0)


def events_of(test):
    """The events of a test, core by core in program order."""
    return [bare(entry) for core in range(test.cores()) for entry in thread(test, core, {})[0]]


def is_access(event):
    return event.kind != FENCE


def is_locked(event):
    return event.kind in (LOCKED_READ, LOCKED_WRITE)


def share_location(one, other):
    return is_access(one) and is_access(other) and one.location == other.location


class Relations:
    """The relations between the events of a test. A source is a read with its write, None for the initial one; a pair is two writes."""

    def __init__(self, events, sources, pairs):
        self.events, self.sources, self.pairs = events, sources, pairs
        self.fences = [event for event in events if event.kind == FENCE]
        self.sources_of = {}
        for read, write in sources:
            self.sources_of.setdefault(read, []).append(write)

    def po(self, x, y):
        return x.is_before(y)

    def po_loc(self, x, y):
        return x.is_before(y) and share_location(x, y)

    def po_ghb(self, x, y):
        """WW(po) | RM(po)"""
        return x.is_before(y) and (x.is_write() and y.is_write() or x.is_read() and is_access(y))

    def mfence(self, x, y):
        return any(x.is_before(fence) and fence.is_before(y) for fence in self.fences)

    def implied(self, x, y):
        """The pairs of WR(po) of which one is of a locked instruction."""
        return x.is_before(y) and x.is_write() and y.is_read() and (is_locked(x) or is_locked(y))

    def rf(self, w, r):
        return (r, w) in self.sources

    def rfe(self, w, r):
        return w.core != r.core and self.rf(w, r)

    def co(self, w, v):
        return (w, v) in self.pairs

    def fr(self, r, v):
        return any(self.is_after(source, r, v) for source in self.sources_of.get(r, ()))

    def is_after(self, source, r, v):
        """Whether v overwrites what r reads from this source; each write to the location does so with the initial word."""
        return v.is_write() and v.location == r.location if source is None else self.co(source, v)

    def is_between(self, r, v, w):
        """empty rmw & (fre;coe): v is another core's, after what r reads from and before w, r and w the parts of a locked instruction."""
        are_parts = (r.kind, w.kind) == (LOCKED_READ, LOCKED_WRITE) and r[:2] == w[:2]
        return are_parts and r.core != v.core and self.fr(r, v) and self.co(v, w)


# The relations that are acyclic together, each with its name: those of one location, and those of all by the model.
UNIPROC = (("po", Relations.po_loc), ("rf", Relations.rf), ("co", Relations.co), ("fr", Relations.fr))
GLOBAL = {
    TSO: (("po", Relations.po_ghb), ("mfence", Relations.mfence), ("implied", Relations.implied), ("rf", Relations.rfe),
          ("co", Relations.co), ("fr", Relations.fr)),
    SC: (("po", Relations.po), ("rf", Relations.rf), ("co", Relations.co), ("fr", Relations.fr)),
}


def is_acyclic(events, relations, names):
    """Whether these relations lead from no event back to it: what leads nowhere any more is taken away until nothing is left."""
    after = {x: {y for y in events if any(related(relations, x, y) for _, related in names)} for x in events}
    while after:
        ends = [x for x, later in after.items() if not later & after.keys()]
        if not ends:
            return False
        for x in ends:
            del after[x]
    return True


class Candidate:
    """A candidate: its entries, the source of each read, and of each location that is written to the order of its writes; sources and
    writes are events."""

    def __init__(self, entries, sources, coherence):
        self.entries, self.sources, self.coherence = entries, sources, coherence

    def faults(self, test, model):
        """How it is no candidate of the test, or one that the model doesn't allow."""
        events = events_of(test)
        if not self.is_candidate(test, events):
            return ["it is no candidate of the test"]
        pairs = {(w, v) for order in self.coherence.values() for at, w in enumerate(order) for v in order[at + 1:]}
        relations = Relations(events, set(self.sources.items()), pairs)
        faults = []
        if model == TSO and not is_acyclic(events, relations, UNIPROC):
            faults.append("uniproc forbids the candidate")
        if any(relations.is_between(r, v, w) for r in events for w in events if r[:2] == w[:2] for v in events):
            faults.append("the candidate isn't atomic")
        if not is_acyclic(events, relations, GLOBAL[model]):
            faults.append("the global relation of the candidate has a cycle")
        return faults

    def is_candidate(self, test, events):
        """Whether the entries are those that the programs make, each read returns what its source wrote, and each write stands once in the
        order of its location."""
        values = {bare(entry): entry.value for entry in self.entries}
        reads = {entry[:3]: entry.value for entry in self.entries if entry.is_read()}
        made = [entry for core in range(test.cores()) for entry in thread(test, core, reads)[0]]
        due = {r: test.words[r.location] if w is None else values.get(w) for r, w in self.sources.items()}
        wrong = [w for r, w in self.sources.items() if w is not None and not (w.is_write() and w.location == r.location)]
        orders = {}
        for event in events:
            if event.is_write():
                orders.setdefault(event.location, []).append(event)
        found = {location: sorted(order) for location, order in self.coherence.items()}
        return (made == self.entries and not wrong and list(self.sources) == [event for event in events if event.is_read()]
                and all(values[r] == value for r, value in due.items()) and found == {at: sorted(order) for at, order in orders.items()})

    def state(self, test):
        """The registers and the memory that it leaves."""
        values = {bare(entry): entry.value for entry in self.entries}
        reads = {entry[:3]: entry.value for entry in self.entries if entry.is_read()}
        words = [values[self.coherence[at][-1]] if at in self.coherence else word for at, word in enumerate(test.words)]
        return [thread(test, core, reads)[1] for core in range(test.cores())], words


def candidate_of(test, order):
    """The candidate of an order: each read reads from the last of the writes that count for it."""
    entries = [entry for core in range(test.cores()) for entry in order_of_core(order, core)]
    sources, coherence = {}, {}
    for entry in entries:
        if entry.is_read():
            at = order.index(entry)
            counting = [w for place, w in enumerate(order)
                        if w.is_write() and w.location == entry.location and (place < at or w.is_before(entry))]
            sources[bare(entry)] = bare(counting[-1]) if counting else None
    for entry in order:
        if entry.is_write():
            coherence.setdefault(entry.location, []).append(bare(entry))
    return Candidate(entries, sources, coherence)


def order_of_core(order, core):
    """The entries of a core in program order; of a locked instruction the load part stands first."""
    return sorted((entry for entry in order if entry.core == core), key=lambda entry: (entry.place, entry.kind == LOCKED_WRITE))
