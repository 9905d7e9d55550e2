"""What tests of cycles ask for, for tests/batteries.py: cycles that are given by hand, each held against all candidates of its test."""
import dataclasses
import itertools
import random

from checks import judging

import answers
import cycle_tests
import edges
import litmus
from scripts import COULD_NOT

from . import tool_runs

theory, cycles = tool_runs.script("theory"), tool_runs.script("cycles")

WORDS = ("Rfe Rfi Fre Fri Coe Coi PodRR PodRW PodWR PodWW PosRR PosRW PosWR PosWW MFencedRR MFencedRW MFencedWR MFencedWW "
         "MFencedsRR MFencedsRW MFencedsWR MFencedsWW DpdW DpsW Rmw")
NAMES = [edges.edge_named(word) for word in WORDS.split()]

# All cycles of so many edges are held, and so many drawn ones of the longer ones, every second with locked accesses.
ALL_OF, DRAWN_OF, DRAWN, SEED = (2, 3, 4), (5, 6), 1_000, 1

# Of those every so many is asked of the program too.
ASKED_OF_PROGRAM, PATIENCE = 20, 60

# Cycles with their verdicts and conditions.
SHOWN = (
    ("Rfe PosRW Coe", "forbidden", r"exists (1:EAX=2 /\ x=2)"),
    ("Rfe PosRR Fre", "forbidden", r"exists (1:EAX=1 /\ 1:EBX=0)"),
    ("PosRW Rfe PosRW Rfe", "forbidden", r"exists (0:EAX=1 /\ 1:EAX=2 /\ x=2)"),
    ("PosWW Coe PosWW Coe", "forbidden", r"exists (2:EAX=1 /\ 2:EBX=2 /\ 2:ECX=3 /\ x=4)"),
    ("MFencedWW Coe MFencedsWW PodWR Fre", "forbidden", r"exists (1:EAX=0 /\ 2:EAX=1 /\ 2:EBX=2 /\ y=3)"),
    ("PodWW Coe PosWW PodWR Fre", "allowed", r"exists (1:EAX=0 /\ 2:EAX=1 /\ 2:EBX=2 /\ y=3)"),
    ("Coe Coe PodWW Coe Coe PodWW", "forbidden", r"exists (4:EAX=1 /\ 4:EBX=2 /\ 5:EAX=1 /\ 5:EBX=2 /\ x=3 /\ y=3)"),
    ("PosWR PodRR Fre PosWR PodRR Fre", "allowed", r"exists (0:EAX=1 /\ 0:EBX=0 /\ 1:EAX=1 /\ 1:EBX=0)"),
    ("MFencedsWR PodRR Fre MFencedsWR PodRR Fre", "forbidden", r"exists (0:EAX=1 /\ 0:EBX=0 /\ 1:EAX=1 /\ 1:EBX=0)"),
    ("PodWW Rfe DpdW Coe", "forbidden", r"exists (1:EAX=1 /\ x=2)"),
    ("PodWW Rfe DpdW Rfe PodRR Fre", "forbidden", r"exists (1:EAX=1 /\ 2:EAX=1 /\ 2:EBX=0)"),
    ("Coe PodWW Rfe DpdW Rfe PodRR Fre", "forbidden", r"exists (2:EAX=1 /\ 3:EAX=1 /\ 3:EBX=0 /\ x=2)"),
    ("PodWW Rfe Rmw PodWR Fre", "forbidden", r"exists (1:EAX=1 /\ 1:EBX=0 /\ y=2)"),
    ("Rfe Rmw PodWR Fre PodWR Fre", "allowed", r"exists (0:EAX=0 /\ 2:EAX=1 /\ 2:EBX=0 /\ y=2)"),
    ("--compare PodWW Rfe Rmw PodWR Fre", "forbidden", r"exists (1:EAX=1 /\ 1:EBX=0 /\ y=2)"),
)

# Words that are refused, and why.
REFUSED = (
    ("Rfe Fre", "edges of communication alone contradict themselves: a store would come before itself in coherence"),
    ("Coe Coe", "edges of communication alone contradict themselves: a store would come before itself in coherence"),
    ("Rfi Fre Coe Coe", "edges of communication alone contradict themselves: a store would come before itself in coherence"),
    ("Coe Coe Coe PodWR Fre PodWR Fre PodWR Fre PodWR Fre PodWR Fre",
     "a test has at most 8 cores, those that see the order of stores with them, and 16 locations"),
    ("Rmw Rfe Rmw Rfe", "Rmw and edges of communication alone contradict themselves: a store would come before itself in coherence"),
    ("DpdW Rfe DpdW Rfe", "the values of data dependencies would depend on themselves"),
    ("PosWW Rfe DpsW Coe",
     "two stores of x, or a store and its first word, would have one value, since a data dependency stores what it read"),
    ("DpdR Fre PodWW Rfe", "DpdR: straight lines of instructions have no address dependencies; DpdW is a data dependency"),
    ("DpAddrdW Rfe DpAddrdW Rfe", "DpAddrdW: straight lines of instructions have no address dependencies; DpdW is a data dependency"),
    ("DpCtrldW Rfe DpCtrldW Rfe", "DpCtrldW: straight lines of instructions have no control dependencies; DpdW is a data dependency"),
    ("Pod** Pod**", "no cycle has these edges"),
    ("Pax** Fre", "no edge: Pax**"),
    ("PosWW Coi Coi Coi Coi Coi Coe Coe", "a core has 6 registers, one that sees the order of stores too"),
)


# ---- the cycles

def may_close(path):
    """Whether these edges, which meet, meet at the ends too and lead over two cores or more, and back to their location."""
    meet = path[-1].target == path[0].source
    return meet and sum(edge.leaves_core for edge in path) >= 2 and sum(edge.leaves_location for edge in path) != 1


def paths(length):
    """All lists of so many edges that meet, one after the other."""
    found = [[edge] for edge in NAMES]
    for _ in range(length - 1):
        found = [path + [edge] for path in found for edge in NAMES if edge.source == path[-1].target]
    return found


def all_cycles(length):
    """All cycles of so many edges, each once."""
    return sorted({edges.turned(path) for path in paths(length) if may_close(path)}, key=edges.names)


def drawn_cycles():
    """The cycles that are drawn, each once."""
    chance, found = random.Random(SEED), {}
    while len(found) < DRAWN:
        path = [chance.choice(NAMES)]
        for _ in range(chance.choice(DRAWN_OF) - 1):
            path.append(chance.choice([edge for edge in NAMES if edge.source == path[-1].target]))
        if may_close(path):
            found[edges.turned(with_locked(path, chance) if len(found) % 2 else path)] = None
    return list(found)


def with_locked(path, chance):
    """The same edges with some accesses locked, one at least where one may be: the store of a data dependency is plain, and Rmw is one locked
    instruction by itself."""
    marks = [chance.random() < 0.5 for _ in path]
    marks[chance.randrange(len(path))] = True
    for at, edge in enumerate(path):
        after = (at + 1) % len(path)
        marks[at] = marks[at] and edge.kind != "Rmw"
        marks[after] = marks[after] and edge.kind not in ("Dp", "Rmw")
    return [dataclasses.replace(edge, locked=(mark, after)) for edge, mark, after in zip(path, marks, marks[1:] + marks[:1])]


# ---- what a test asks for

def contradicts(cycle):
    """Whether no order of all stores has each edge of coherence and of from-reads, where each load has the source that reads-from gives
    it, or else the first word."""
    before = [(at, at + 1) for at, edge in enumerate(cycle) if edge.kind == "Co"]
    before += [(at - 1, at + 1) for at, edge in enumerate(cycle) if edge.kind in ("Fr", "Rmw") and cycle[at - 1].kind == "Rf"]
    before = [(first % len(cycle), second % len(cycle)) for first, second in before]
    stores = [at for at, edge in enumerate(cycle) if edge.source == "W"]
    return not any(all(order.index(first) < order.index(second) for first, second in before) for order in itertools.permutations(stores))


def without_data(cycle):
    """The same cycle, each data dependency as plain program order."""
    return tuple(edges.Edge("Po", False, edge.leaves_location, "R", "W", edge.locked) if edge.kind == "Dp" else edge for edge in cycle)


def values_agree(cycle):
    """Whether two stores of a location, or one and its first word, would have one value, or one has none, where each store of a data
    dependency has the value of the store that the load before it reads, and others have values of their own."""
    accesses = cycle_tests.accesses_of(edges.cycle_of(list(cycle)))
    at_number = {(access.location, access.number): at for at, access in enumerate(accesses) if access.number}
    values = {at: (access.location, access.number) for at, access in enumerate(accesses) if access.number and not access.copies}
    for _ in accesses:
        for at, access in enumerate(accesses):
            source = access.copies and at_number.get((access.copies.location, access.copies.read))
            if access.copies and (source is None or source in values):
                values[at] = "first" if source is None else values[source]
    written = [(access.location, values.get(at)) for at, access in enumerate(accesses) if access.number]
    # the value of a plain store is its number: those of two locations are the same
    written = [(location, value[1] if isinstance(value, tuple) else value) for location, value in written]
    return len(set(written)) < len(written) or any(value in (None, "first") for _, value in written)

class Asked:
    """The test of a cycle, with its events and, of each edge in the test's order, those at its two ends."""

    def __init__(self, test):
        self.test, self.events = test, theory.events_of(test)
        self.edges = [edges.edge_named(word) for word in test.facts[0].strip('"').split()]
        at_place = {(event.core, event.place, event.is_write): at for at, event in enumerate(self.events)}
        places, core, place = [], 0, 0
        for edge in self.edges:
            places.append(at_place.get((core, place, edge.source == "W")))
            steps = {"MFence": 2, "Rmw": 0}.get(edge.kind, 1)
            core, place = (core + 1, 0) if edge.leaves_core else (core, place + steps)
        self.cores = core
        self.ends = list(zip(places, places[1:] + places[:1]))

    def fault_of_programs(self):
        """What is wrong with the programs, if anything is: each edge joins the two accesses that it names."""
        for edge, (at, after) in zip(self.edges, self.ends):
            if at is None or after is None:
                return "has no access of " + edge.name()
            first, second = self.events[at], self.events[after]
            program = self.test.programs[first.core]
            fenced = not edge.leaves_core and any(i.kind == "fence" for i in program[first.place:second.place])
            at_once = (first.core, first.place) == (second.core, second.place)
            joined = first.core != second.core, first.location != second.location, fenced, at_once
            if joined != (edge.leaves_core, edge.leaves_location, edge.kind == "MFence", edge.kind == "Rmw"):
                return "has other accesses than those of " + edge.name()
            stores = program[second.place].operand if edge.kind == "Dp" else None
            if edge.kind == "Dp" and stores != program[first.place].register:
                return "doesn't store what was read"
        locked = [event.locked for event in (self.events[at] for at, _ in self.ends)]
        due = [edge.locked[0] or edge.kind == "Rmw" or self.edges[at - 1].kind == "Rmw" for at, edge in enumerate(self.edges)]
        return None if locked == due else "has other locked accesses"

    def has_edges(self, candidate):
        """Whether a candidate has each edge: reads-from by its sources, coherence and from-reads by its order of stores."""
        for edge, (first, second) in zip(self.edges, self.ends):
            if edge.kind == "Rf" and candidate.source[second] != first:
                return False
            write = {"Co": first, "Fr": candidate.source.get(first)}.get(edge.kind)
            if write is not None and not candidate.coherence.after[write] >> second & 1:
                return False
        return True

    def is_in_order(self, candidate):
        """Whether nothing reads from a locked load that its own core comes to later, and each core beside the cycle's sees stores in the
        order in which they come. Each candidate that the axioms allow is so."""
        for read, write in candidate.source.items():
            ours, other = self.events[read], self.events[write]
            if ours.core == other.core and ours.place < other.place and self.is_locked_load(other):
                return False
        seen = [(self.events[read], write) for read, write in candidate.source.items() if self.events[read].core >= self.cores]
        return all(first.core != second.core or candidate.coherence.after[write] >> later & 1
                   for (first, write), (second, later) in zip(seen, seen[1:]))

    def is_locked_load(self, event):
        return self.test.programs[event.core][event.place].kind == "xadd"

    def fault_of_condition(self):
        """What is wrong with the condition, if anything is: a candidate makes it true, and each that does has each edge."""
        found = [candidate for candidate in theory.candidates(self.test, self.test.condition[1]) if self.is_in_order(candidate)]
        if not found:
            return "no candidate makes the condition true"
        return None if all(map(self.has_edges, found)) else "the condition is true without an edge of the cycle"

    def is_allowed(self):
        """Whether some allowed candidate of the cycle's own cores has each edge."""
        alone = litmus.Test(self.test.name, self.test.programs[:self.cores], self.test.initial)
        relations = theory.Relations(alone, theory.events_of(alone))
        return any(self.has_edges(candidate) and theory.is_allowed(relations, candidate) for candidate in theory.candidates(alone, True))


def judge_cycle(work):
    """A cycle's name, and what is wrong with its test, if anything is; and with the one whose Rmw compare."""
    cycle, program = work
    words = " ".join(edges.names(cycle))
    forms = (False, True) if any(edge.kind == "Rmw" for edge in cycle) else (False,)
    faults = (fault_of_test(cycle, words, compares, program) for compares in forms)
    return words, next(filter(None, faults), None)


def fault_of_test(cycle, words, compares, program):
    try:
        test = cycles.test_of(edges.cycle_named(words.split()), compares=compares)
    except edges.BadCycle as refusal:
        plain = without_data(cycle)
        due = contradicts(cycle) or plain != cycle and values_agree(cycle)
        return None if due else "is refused: %s" % refusal
    if contradicts(cycle):
        return "isn't refused, and contradicts itself"
    asked = Asked(test)
    fault = asked.fault_of_programs() or asked.fault_of_condition()
    if fault:
        return fault
    if compares != any(one.kind == "cmpxchg" for program_of_core in test.programs for one in program_of_core):
        return "compares, or doesn't"
    verdict, due = theory.verdict(test), "allowed" if asked.is_allowed() else "forbidden"
    if verdict != due:
        return "is %s, and its test %s" % (due, verdict)
    if program:
        found = answers.outcomes(program, test.text(), [], PATIENCE)
        if "states" not in found or verdict != ("allowed" if found["true"] else "forbidden"):
            return "is %s by theory, and by the program %s" % (verdict, found)
    return None


def judge_lines(tally):
    """What tools/cycles prints of the cycles that are shown, and says of those that are refused."""
    for words, verdict, condition in SHOWN:
        done = tool_runs.tool("cycles", *words.split())
        lines = done.stdout.splitlines()
        same = done.returncode == 0 and "TSO=" + verdict in lines and lines[-1] == condition
        tally.add(words, None if same else tool_runs.described(done))
    for words, why in REFUSED:
        done = tool_runs.tool("cycles", *words.split())
        same = (done.returncode, done.stdout, done.stderr) == (COULD_NOT, "", "cycles: %s\n" % why)
        tally.add(words, None if same else tool_runs.described(done))


def judge(program, tally):
    """Each cycle has a test that asks for it, or is refused where it contradicts itself; and those that are shown have their lines."""
    found = [cycle for length in ALL_OF for cycle in all_cycles(length)] + drawn_cycles()
    work = [(cycle, None if at % ASKED_OF_PROGRAM else program) for at, cycle in enumerate(found)]
    for words, fault in judging.in_processes(judge_cycle, work):
        tally.add(words, fault)
    judge_lines(tally)
