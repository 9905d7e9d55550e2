"""Tests of cycles: from the edges of a cycle to the programs, and the condition that asks for it.

Each location's stores have numbers in the order that the cycle asks for, and each load the number of the store that it reads. A store has
its number as its value, but one of a data dependency has the value that the load before it reads.
"""
import hashlib

import edges
import litmus
from edges import BadCycle

# A name that is too long is cut here, and so many hexadecimal digits of the edges' digest stand behind it.
CUT, DIGITS = 58, 5

LOCATIONS = ("x", "y", "z", "a", "b", "c", "d", "e", "f", "g", "h", "i", "j", "k", "l", "m")

# How names of tests end whose Rmw compare.
COMPARES = "+cmpxchg"

# Names of the literature (Herding cats; the Power tutorial), each for a cycle without fences.
LITERATURE = {
    "SB": "PodWR Fre PodWR Fre",
    "MP": "PodWW Rfe PodRR Fre",
    "LB": "PodRW Rfe PodRW Rfe",
    "R": "PodWW Coe PodWR Fre",
    "S": "PodWW Rfe PodRW Coe",
    "2+2W": "PodWW Coe PodWW Coe",
    "3.SB": "PodWR Fre PodWR Fre PodWR Fre",
    "3.LB": "PodRW Rfe PodRW Rfe PodRW Rfe",
    "3.2W": "PodWW Coe PodWW Coe PodWW Coe",
    "WRC": "Rfe PodRW Rfe PodRR Fre",
    "RWC": "Rfe PodRR Fre PodWR Fre",
    "WWC": "Rfe PodRW Rfe PodRW Coe",
    "WRW+WR": "Rfe PodRW Coe PodWR Fre",
    "WRR+2W": "Rfe PodRR Fre PodWW Coe",
    "WRW+2W": "Rfe PodRW Coe PodWW Coe",
    "ISA2": "PodWW Rfe PodRW Rfe PodRR Fre",
    "W+RWC": "PodWW Rfe PodRR Fre PodWR Fre",
    "Z6.0": "PodWW Rfe PodRW Coe PodWR Fre",
    "Z6.1": "PodWW Coe PodWW Rfe PodRW Coe",
    "Z6.2": "PodWW Rfe PodRW Rfe PodRW Coe",
    "Z6.3": "PodWW Coe PodWW Rfe PodRR Fre",
    "Z6.4": "PodWW Coe PodWR Fre PodWR Fre",
    "Z6.5": "PodWW Coe PodWW Coe PodWR Fre",
    "IRIW": "Rfe PodRR Fre Rfe PodRR Fre",
    "IRRWIW": "Rfe PodRR Fre Rfe PodRW Coe",
    "IRWIW": "Rfe PodRW Coe Rfe PodRW Coe",
}
NAMED = {tuple(cycle.split()): name for name, cycle in LITERATURE.items()}

# How names of the literature call edges of program order.
ORDER_NAMES = {"Po": "po", "MFence": "mfence", "Dp": "data"}


def literature_name(cycle):
    """The turn of a cycle that has a name of the literature, and the name; None where none has, or some access is locked."""
    found = []
    for at in range(len(cycle)):
        turn = cycle[at:] + cycle[:at]
        if not turn[-1].leaves_core or any(any(edge.locked) for edge in turn):
            continue
        name = NAMED.get(tuple(edge.plain_name().replace("MFenced", "Pod").replace("DpdW", "PodRW") for edge in turn))
        if name:
            orders = [ORDER_NAMES[edge.kind] for edge in turn if not edge.is_communication()]
            found.append((orders, turn, name))
    if not found:
        return None
    orders, turn, name = min(found, key=lambda one: one[0])
    if set(orders) == {"po"}:
        return turn, name
    if len(set(orders)) == 1:
        return turn, name + "+" + orders[0] + ("s" if len(orders) > 1 else "")
    return turn, name + "".join("+" + order for order in orders)


def name_of_cycle(cycle):
    """The name of a cycle that has none of the literature: its edges; where these are too many bytes, their beginning and a digest."""
    name = "-".join(edges.names(cycle))
    if len(name) <= litmus.LONGEST_NAME:
        return name
    return "%s-%s" % (name[:CUT], hashlib.sha256(" ".join(edges.names(cycle)).encode("ascii")).hexdigest()[:DIGITS])


class Access:
    """A load or store of the test: its core, location, direction, whether it is locked, and whether MFENCE follows it. A store has its
    `number` in coherence; a load has the number of the store that it `read`, 0 for the first word. Each has a `value`. A store of a data
    dependency has the load whose value it `copies`; the two parts of a locked instruction that the cycle goes through have each other as
    `other`. What has a register gets it with its instruction, and what stores by comparing gets another one, in which its value is."""

    def __init__(self, core, location, direction, locked=False, fenced=False):
        self.core, self.location, self.direction, self.locked, self.fenced = core, location, direction, locked, fenced
        self.number = self.read = self.value = self.register = self.copies = self.other = self.stored_from = None


def accesses_of(cycle):
    """The accesses of a cycle, the first that of its first edge."""
    moves = sum(edge.leaves_location for edge in cycle) or 1
    accesses, core, place = [], 0, 0
    for edge in cycle:
        accesses.append(Access(core, LOCATIONS[place % moves], edge.source, edge.locked[0], edge.kind == "MFence"))
        core += edge.leaves_core
        place += edge.leaves_location
    for at, edge in enumerate(cycle):
        if edge.kind == "Dp":
            accesses[at + 1].copies = accesses[at]
        if edge.kind == "Rmw":
            accesses[at].other, accesses[at + 1].other = accesses[at + 1], accesses[at]
    begin = beginning(cycle)
    number_accesses(accesses[begin:] + accesses[:begin])
    return accesses


def beginning(cycle):
    """The place of an access with which the accesses of a location begin. Those of a location stand in one stretch of the cycle, which
    for one of them goes on over the cycle's end. A cycle of one location has it after an edge of program order, since the others say which
    store comes first."""
    breaks = [at for at, edge in enumerate(cycle) if edge.leaves_location]
    breaks = breaks or [at for at, edge in enumerate(cycle) if not edge.goes_up()]
    return breaks[-1] + 1


def number_accesses(accesses):
    """Numbers each location's stores from 1 in this order, in which each load reads the last store before it."""
    last = {}
    for access in accesses:
        if access.direction == "R":
            access.read = last.get(access.location, 0)
        else:
            access.number = last[access.location] = last.get(access.location, 0) + 1


def give_values(accesses):
    """Gives each access its value. BadCycle where that of a data dependency depends on itself, or two stores of a location have one
    value, or one has that of the first word: a load of it wouldn't tell which it read."""
    stores = {(access.location, access.number): access for access in accesses if access.number}

    def value_of(access, before):
        if access is None:
            return 0
        if access in before:
            raise BadCycle("the values of data dependencies would depend on themselves")
        if access.number:
            return value_of(access.copies, [*before, access]) if access.copies else access.number
        return value_of(stores.get((access.location, access.read)), [*before, access])

    for access in accesses:
        access.value = value_of(access, [])
    for location in sorted({location for location, _ in stores}):
        values = [0] + [access.value for (place, _), access in stores.items() if place == location]
        if len(set(values)) < len(values):
            raise BadCycle("two stores of %s, or a store and its first word, would have one value, since a data dependency stores what "
                           "it read" % location)


def last_numbers(accesses):
    """The number of the last store of each location that is stored to."""
    last = {}
    for access in accesses:
        if access.number is not None:
            last[access.location] = max(last.get(access.location, 0), access.number)
    return last


def observers(last, core):
    """The loads of cores, from this one on, that read a location's stores in their order, each core those of one location. Of two stores
    the last word tells the order. Of more it tells which is the last, and the others have to be seen one by one."""
    for location in sorted(location for location in last if last[location] > 2):
        for number in range(1, last[location]):
            access = Access(core, location, "R")
            access.read = number
            yield access
        core += 1


def with_end(name, end):
    """A name with this at its end. Of one that is too long then, some of the middle is left out, so that it keeps its digits."""
    room = litmus.LONGEST_NAME - len(end)
    return (name if len(name) <= room else name[:room - DIGITS - 1] + name[-DIGITS - 1:]) + end


def test_of(cycle, name=None, compares=False):
    """The test whose condition asks for the cycle. BadCycle where it isn't within the limits of a test. Where it `compares`, the first
    Rmw of each core is LOCK CMPXCHG, whose EAX begins as what is to be read: it ends so where that was read."""
    named = literature_name(cycle)
    if named:
        cycle, name = named[0], name or named[1]
    name = name or name_of_cycle(cycle)
    if compares and any(edge.kind == "Rmw" for edge in cycle):
        name = with_end(name, COMPARES)
    accesses = accesses_of(cycle)
    last = last_numbers(accesses)
    accesses += observers(last, accesses[-1].core + 1)
    give_values(accesses)
    if accesses[-1].core >= litmus.MOST_CORES or len({access.location for access in accesses}) > litmus.MOST_LOCATIONS:
        raise BadCycle("a test has at most %d cores, those that see the order of stores with them, and %d locations"
                       % (litmus.MOST_CORES, litmus.MOST_LOCATIONS))
    programs, initial = programs_of(accesses, compares)
    asked = [("is", (access.core, access.register), access.value) for access in accesses if access.read is not None]
    lasts = {access.location: access.value for access in accesses if access.number and access.number == last[access.location]}
    asked += [("is", location, lasts[location]) for location, number in sorted(last.items()) if number > 1]
    facts = ['"%s"' % " ".join(edge.name() for edge in cycle)]
    return litmus.Test(name, programs, initial, facts, ("exists", ("and", tuple(asked))))


def compare_in(accesses):
    """The first Rmw of each core: their load parts, by their cores."""
    found = {}
    for access in accesses:
        if access.other and access.direction == "R":
            found.setdefault(access.core, access)
    return found


def programs_of(accesses, compares=False):
    """The cores' programs, with the first values of registers. Each load and locked instruction gets a register of its own."""
    programs, initial = [[] for _ in range(accesses[-1].core + 1)], {}
    free = [list(litmus.REGISTERS) for _ in programs]
    compared = compare_in(accesses) if compares else {}
    for core, access in compared.items():
        free[core].remove("EAX")
        access.stored_from = free[core].pop()
        initial[core, "EAX"], initial[core, access.stored_from] = access.value, access.other.value
    for access in accesses:
        program = programs[access.core]
        if access.other is None or access.direction == "R":
            if access.direction == "R" or access.locked:
                if not free[access.core] and access.stored_from is None:
                    raise BadCycle("a core has %d registers, one that sees the order of stores too" % len(litmus.REGISTERS))
                access.register = free[access.core].pop(0) if access.stored_from is None else "EAX"
            program.append(instruction_of(access))
        stored = access.other or access
        if access.register and stored.direction == "W" and access.stored_from is None:
            initial[access.core, access.register] = stored.value
        if access.fenced:
            program.append(litmus.Instruction("fence"))
        if len(program) > litmus.MOST_INSTRUCTIONS:
            raise BadCycle("a core has at most %d instructions" % litmus.MOST_INSTRUCTIONS)
    return programs, initial


def instruction_of(access):
    if access.stored_from:
        return litmus.Instruction("cmpxchg", access.location, access.stored_from)
    if access.other or access.direction == "W" and access.locked:
        return litmus.Instruction("xchg", access.location, access.register)
    if access.direction == "W":
        return litmus.Instruction("store", access.location, operand=access.copies.register if access.copies else access.value)
    return litmus.Instruction("xadd" if access.locked else "load", access.location, access.register)
