"""The shortest cycle that an execution of a source has and mustn't have, by the axioms of RC11."""
from .rc11 import closure, numbers_in, union

INCOHERENT, UNORDERED = "hb and eco have a cycle", "psc has a cycle"


def cycle_of(execution):
    """A cycle, pairs of an event's number and the relation by which it comes before the next one, and the axiom that it breaks; or None."""
    hb, communication = execution.relation("hb"), dict(zip(("rf", "mo", "rb"), execution.communication()))
    eco = closure(union(*communication.values()))
    for number, before in enumerate(hb):
        for other in numbers_in(before):
            if eco[other] >> number & 1:
                return _incoherent(execution, other, number, communication), INCOHERENT
    found = _shortest_cycle(execution.psc())
    if found is None:
        return None
    relations = {"sb": _sequenced(execution), **communication, "hb": hb}
    return [(one, _name(relations, one, other)) for one, other in zip(found, found[1:] + found[:1])], UNORDERED


def _incoherent(execution, first, last, communication):
    """A cycle of hb and eco: from the first event to the last by hb, and back by eco."""
    synchronizing = [sum(1 << other for other in set(execution.synchronizing(event))) for event in execution.events]
    return (_shortest_path({"sb": _sequenced(execution), "sw": synchronizing}, first, last)
            + _shortest_path(communication, last, first))


def _sequenced(execution):
    """sb, within each thread and from the initial writes."""
    events = execution.events
    return [sum(1 << other for other in numbers_in(event.sb) if events[other].thread in (event.thread, -1)) for event in events]


def _name(relations, one, other):
    """The first of these relations by which one event comes before another; psc where it takes several of them."""
    return next((name for name, relation in relations.items() if relation[other] >> one & 1), "psc")


def _shortest_path(relations, first, last):
    """A shortest path, as pairs of an event and the relation by which it comes before the next one; None where there is none."""
    reached, waiting = {first: []}, [first]
    for at in waiting:
        for name, relation in relations.items():
            for number, before in enumerate(relation):
                if before >> at & 1 and number not in reached:
                    reached[number] = reached[at] + [(at, name)]
                    waiting.append(number)
    return reached.get(last)


def _shortest_cycle(relation):
    """The events of a shortest cycle, or None."""
    best = None
    for first in range(len(relation)):
        for last in numbers_in(relation[first]):
            path = [] if first == last else _shortest_path({"": relation}, first, last)
            if path is not None and (best is None or len(path) < len(best) - 1):
                best = [number for number, _ in path] + [last]
    return best
