"""Which choices of paths can go together, by a walk that allows more than the machine does.

The cores take turns. A read returns any word that was stored before it in the walk, or the initial one. Where all writes to a place are
locked, it returns the last of them. The steps of any run of the machine are such a walk, if its drains are left out: a store is read only
after it was issued, and a locked write is in memory at once. So a choice that no walk makes has no state, and needn't be asked.

One thing is known of drains. A core's stores reach memory in their order. So where one is there, because another core has read it, or
because its core has passed a fence or a locked instruction, the earlier ones are there too: a place that they wrote doesn't hold its
initial word again, nor a store of a core that this core has overwritten.
"""
from .events import CUT, FENCE, LOCKED, READ, WRITE

MOST_STATES = 40000


def choices(growth):
    """The choices of a path for each core that some walk makes, as tuples of paths, in an order that is always the same; and whether a walk
    comes to a path that was cut. None where there are too many walks."""
    # The places that no path writes with a plain store.
    locked = sorted(growth.locked - growth.stored)
    start = (tuple(growth.roots), tuple(growth.machine.initial_word(place) for place in locked))
    numbers = {place: number for number, place in enumerate(locked)}
    seen, waiting, found = {start}, [start], {}
    is_cut = any(node.kind == CUT for node in start[0])
    while waiting:
        nodes, words = waiting.pop()
        if all(node.path is not None for node in nodes):
            found[tuple(node.path for node in nodes)] = None
            continue
        for core, node in enumerate(nodes):
            if node.place is None:
                continue
            for value in _values(nodes, core, words, numbers):
                child = node.children.get(value)
                if child is None or child.place is None and child.path is None:
                    is_cut |= child is not None and child.kind == CUT
                    continue
                state = (nodes[:core] + (child,) + nodes[core + 1:], _after(words, child, numbers))
                if state not in seen:
                    seen.add(state)
                    waiting.append(state)
        if len(seen) > MOST_STATES:
            return None
    return list(found), is_cut


def _values(nodes, core, words, numbers):
    """What the next read of a core may return."""
    node = nodes[core]
    place = node.place
    if place in numbers:
        return {words[numbers[place]]}
    found, is_initial = set(), node.base is not None
    for other, drained in enumerate(_drained(nodes)):
        if other == core:
            continue
        events = nodes[other].events
        last = max((at for at in range(drained) if is_write_to(events[at], place)), default=-1)
        # The core's own store hides the initial word as well; a base that is its own stays.
        is_initial &= last < 0 or any(is_write_to(event, place) for event in node.events)
        found |= {event.written for at, event in enumerate(events) if at >= last and is_write_to(event, place)}
    return found | {node.base} if is_initial else found


def is_write_to(event, place):
    return event.place == place and event.kind in (WRITE, LOCKED)


def _drained(nodes):
    """How many of each core's events are known to be in memory."""
    found = [max((at + 1 for at, event in enumerate(node.events[:_done(node)]) if event.kind in (FENCE, LOCKED)), default=0)
             for node in nodes]
    writes = {}
    for core, node in enumerate(nodes):
        for at, event in enumerate(node.events):
            if event.kind in (WRITE, LOCKED):
                writes.setdefault((event.place, event.written), []).append((core, at))
    for core, node in enumerate(nodes):
        initial = node.core.program.initial_word
        for event in node.events:
            if event.kind in (READ, LOCKED):
                sources = writes.get((event.place, event.read), ())
                if len(sources) == 1 and sources[0][0] != core and event.read != initial(event.place):
                    found[sources[0][0]] = max(found[sources[0][0]], sources[0][1] + 1)
    return found


def _done(node):
    """How many of a node's events are surely over: those up to its last read. The others may come after another core's next step."""
    return max((at + 1 for at, event in enumerate(node.events) if event.kind in (READ, LOCKED)), default=0)


def _after(words, child, numbers):
    """The words of the places that are only locked, after the step that led to this node."""
    for event, _ in child.new_writes:
        if event.place in numbers:
            at = numbers[event.place]
            words = words[:at] + (event.written,) + words[at + 1:]
    return words
