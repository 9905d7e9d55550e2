"""What `outcomes` prints: README.md, 'Can it happen at all?', docs/SCRIPTS.md, 'JSON', and docs/MESSAGES.md, 'Too many states'.

Three things are left open there: which of the choices that lead to a state stand beside it, from how many states on a search gives
up, and which final states it has met by then. All are taken from an answer that is told, where they are right; all else is said here.
"""
import json
import re

from . import machine, printing, seen
from .choices import read_choices
from .machine import Configuration
from .reading import Refused
from .search import Search

# What stands beside a state where the choices that are told don't lead there.
NO_WAY = "choices that lead there"

PLAIN_CHOICES = re.compile(r"(?:[0-7][sd](?: [0-7][sd])*)?")


def form_of(with_json):
    return "JSON" if with_json else "text"


def answer(test, depth, limit, show, with_json, told):
    """What is printed, whether the search came to its end, and herd's word, None without one. `told` is an answer in which it may
    have given up."""
    search = Search(test, depth)
    states = len(search.reached)
    seen.note("states that can be reached", "%s may be kept" % (
        "fewer than" if states < limit else "as many as" if states == limit else "more than"))
    found = Found(test, depth, show, search.ends())
    if states > limit and is_unfinished(told, with_json):
        seen.note("answer of outcomes", "too many states, " + form_of(with_json))
        met = Met(found, told, with_json)
        return met.printed(with_json, limit), False, met.verdict()
    seen.note("answer of outcomes", "all states, " + form_of(with_json))
    return found.printed(with_json, told), True, found.verdict()


def is_unfinished(told, with_json):
    return '"unfinished":' in told if with_json else told.startswith("Unfinished ")


class Found:
    """The final states of a test at a depth, as they are looked at, in ascending order, and the proposition's truth in each."""

    def __init__(self, test, depth, show, ends):
        self.test, self.depth, self.looked = test, depth, printing.Looked(test, show)
        self.truths = {self.looked.values(*state): machine.holds(test, state) for state in ends}
        self.states = sorted(self.truths)

    def note_answer(self, ways, form):
        named = ["registers"] * bool(self.looked.registers) + ["locations"] * bool(self.looked.locations)
        seen.note("what a state names", " and ".join(named) or "nothing")
        seen.note("final states", seen.amount(self.states))
        seen.note("cores that are alike", "two or more" if self.has_alike_cores() else "none")
        for way in ways:
            seen.note("choices beside a state", "some" if way else "none")
        counts = self.observed()
        seen.note("observation of outcomes", "%s, %s" % ("none" if counts is None else printing.observation(counts), form))
        seen.note("verdict of outcomes", "none, " + form if counts is None else "%s %s, %s" % (self.test.quantifier, self.verdict(), form))

    def has_alike_cores(self):
        """Whether two cores have the same program, of one instruction or more, the same first registers and the same ones looked at."""
        cores = [(program, registers, [register for core, register in self.looked.registers if core == number])
                 for number, (program, registers) in enumerate(zip(self.test.programs, self.test.registers)) if program]
        return any(one in cores[at + 1:] for at, one in enumerate(cores))

    def printed(self, with_json, told):
        ways = ways_in(told, with_json)
        ways += [NO_WAY] * (len(self.states) - len(ways))
        with seen.apart():
            ways = [way if self.leads_to(values, way) else NO_WAY for values, way in zip(self.states, ways)]
        self.note_answer(ways, form_of(with_json))
        return printing.as_json(self.value(ways)) if with_json else self.text(ways)

    def leads_to(self, values, way):
        """Whether a run under these choices ends with these values, none of them stalled and none left over."""
        if not PLAIN_CHOICES.fullmatch(way):
            return False
        try:
            made = read_choices(way.encode(), self.test.cores())
        except Refused:
            return False
        run = machine.run(self.test, Configuration(depth=self.depth), made)
        all_used = run.machine is not None and run.stalled == 0 and run.used == made.count
        return all_used and self.looked.values(*run.state()) == values

    def observed(self):
        """How many states make the proposition true, and how many false; None where the test has none."""
        truths = list(self.truths.values())
        return None if self.test.proposition is None else {truth: truths.count(truth) for truth in (True, False)}

    def verdict(self):
        """herd's word: `Ok` where `exists` is so of some state, `~exists` of none, `forall` of each; None without a condition."""
        counts = self.observed()
        if counts is None:
            return None
        is_so = {"exists": counts[True] > 0, "~exists": counts[True] == 0, "forall": counts[False] == 0}
        return "Ok" if is_so[self.test.quantifier] else "No"

    def holding(self):
        """The numbers of the states in which the proposition is true; the first state has number 1."""
        return [number for number, values in enumerate(self.states, 1) if self.truths[values]]

    def text(self, ways):
        lines = ["Test " + self.test.name, "Outcomes depth=%d states=%d" % (self.depth, len(self.states))]
        for values, way in zip(self.states, ways):
            lines += state_lines(self.looked, values, way)
        if self.test.proposition is not None:
            lines.append(printing.observation_line(self.test, self.observed()))
            lines.append(" ".join(["True", *map(str, self.holding())]))
            lines.append("Verdict " + self.verdict())
        return "".join(line + "\n" for line in lines)

    def value(self, ways):
        counts = self.observed()
        observed = None
        if counts is not None:
            observed = {"word": printing.observation(counts), "true": counts[True], "false": counts[False]}
        states = [{"values": dict(zip(self.looked.names, values)), "choices": way} for values, way in zip(self.states, ways)]
        if counts is not None:
            states = [dict(state, holds=self.truths[values]) for values, state in zip(self.states, states)]
        return {"test": self.test.name, "depth": self.depth, "states": states, "observation": observed, "verdict": self.verdict()}


class Met:
    """Some of the final states, which an answer tells: those of its states that are found and to which their choices lead, each once."""

    def __init__(self, found, told, with_json):
        self.found, self.ways = found, {}
        for values, way in states_in(told, with_json, found.looked.names):
            if values in found.truths and values not in self.ways:
                with seen.apart():
                    self.ways[values] = way if found.leads_to(values, way) else NO_WAY
        self.states = sorted(self.ways)
        seen.note("final states of a search that gave up", seen.amount(self.states))
        seen.note("verdict of a search that gave up", self.verdict() or "none")

    def verdict(self):
        """herd's word where one of the states decides it, whatever the others are; else None."""
        truths = [self.found.truths[values] for values in self.states]
        decides = {"exists": (True, "Ok"), "~exists": (True, "No"), "forall": (False, "No")}
        truth, word = decides.get(self.found.test.quantifier, (None, None))
        return word if self.found.test.proposition is not None and truth in truths else None

    def printed(self, with_json, limit):
        test, looked = self.found.test, self.found.looked
        if with_json:
            states = [{"values": dict(zip(looked.names, values)), "choices": self.ways[values]} for values in self.states]
            if test.proposition is not None:
                states = [dict(state, holds=self.found.truths[values]) for values, state in zip(self.states, states)]
            return printing.as_json({"test": test.name, "unfinished": {"states": limit}, "met": states, "verdict": self.verdict()})
        lines = ["Unfinished states=%d" % limit, "Met %d" % len(self.states)]
        for values in self.states:
            lines += state_lines(looked, values, self.ways[values])
        lines += [] if self.verdict() is None else ["Verdict " + self.verdict()]
        return "".join(line + "\n" for line in lines)


def state_lines(looked, values, way):
    return ["State" + printing.named(zip(looked.names, values)), "By " + way if way else "By"]


def states_in(told, with_json, names):
    """The values and the choices of each state of an answer; none where it hasn't its form."""
    if with_json:
        try:
            return [(tuple(state["values"][name] for name in names), str(state["choices"])) for state in json.loads(told)["met"]]
        except (ValueError, LookupError, TypeError):
            return []
    return [(tuple(int(pair.rpartition("=")[2]) for pair in values.split()), way)
            for values, way in re.findall(r"^State((?: \S+=\d+)*)\nBy ?(.*)$", told, re.MULTILINE)]


def ways_in(told, with_json):
    """The choices that stand beside the states of an answer, one after the other; none where it hasn't its form."""
    if not with_json:
        return re.findall(r"^By ?(.*)$", told, re.MULTILINE)
    try:
        return [str(state["choices"]) for state in json.loads(told)["states"]]
    except (ValueError, LookupError, TypeError):
        return []
