"""Why a state is a finding: the order in which the machine reaches it, by instructions and lines of C; and what forbids it."""
import re
from dataclasses import dataclass, field

from .cycling import cycle_of
from .rc11 import FREE, SC
from .refusals import NotJudged
from .splitting import OWN
from .verdicts import final_words, observer_of, text_of

ENTRY = re.compile(r"P(\d+):(\d+) (R|W|F|LR|LW)(?: (\S+)=(\d+))?$")
DOES = {"R": "reads", "W": "writes", "F": "fence", "LR": "reads, locked,", "LW": "writes, locked,"}
MODES = {"na": "not atomic", "rlx": "relaxed", "acq": "acquire", "rel": "release", "ar": "acq_rel", SC: "seq_cst"}
# How many executions are looked at, and how many of those that leave the state.
MOST_LOOKED_AT, MOST_COMPARED = 20000, 40


@dataclass
class Step:
    """An action of the machine: as `tso run` prints it, with the program's number of the core; its instruction, where that stands, and
    what it does, in words."""

    event: str
    place: str
    instruction: str
    does: str


@dataclass
class Link:
    """An event of the source's cycle: its thread, -1 of an initial write; its number in the execution; its line of C; what it does, in
    words; and the relation by which it comes before the next one, the last before the first."""

    thread: int
    number: int
    line: int
    does: str
    relation: str

    def text(self):
        return self.does if self.thread < 0 else "P%d line %s %s" % (self.thread, self.line, self.does)


@dataclass
class Reason:
    """The reason for a finding. `faults` are accesses where no memory lies; `choices` lead `tso run` on the path's test to `order`; `cycle` is
    what the source forbids, and `broken` says by which axiom."""

    state: str
    faults: list
    choices: str = ""
    order: list = field(default_factory=list)
    cycle: list = field(default_factory=list)
    broken: str = ""

    def lines(self):
        found = ["why %s:" % self.state, *("  " + fault for fault in self.faults)]
        if self.order:
            found.append("  the order of memory, by choices %s of this path's test:" % self.choices)
            found += ["    %s %-24s %-44s %s" % (step.event.split(":")[0], step.place, step.instruction, step.does) for step in self.order]
        if self.cycle:
            found += ["  the source forbids it:", *("    %s, %s" % (link.text(), link.relation) for link in self.cycle)]
        if self.broken:
            found.append("%s%s" % ("    the first again: " if self.cycle else "  ", self.broken))
        return found


def reason_for(judge_source, compiled, cells, states, extra, shown, rounds, asker):
    """The reason for one of these states: of the machine and of the source."""
    case, state, paths = states[extra]
    reason = Reason(text_of(cells, extra, shown), [path.fault for path in paths if path.fault])
    if state:
        reason.choices, reason.order = machine_order(compiled, case, state, asker)
    reason.cycle, reason.broken = source_cycle(judge_source, rounds, cells, extra)
    return reason


# ---- the machine

def machine_order(compiled, case, state, asker):
    """How the machine reaches a state: choices, and its order of memory."""
    answer = asker.why(case.text + case.condition(state))
    choices = next((line[3:] for line in answer.split("\n") if line.startswith("By ")), "")
    report = asker.run(case.text + "====\n" + choices + "\n") if choices else ""
    found = [ENTRY.match(line) for line in report.split("\n")]
    return choices, [_step(compiled, case, one) for one in found if one and not (one.group(4) or "").startswith(OWN)]


def _step(compiled, case, found):
    at, cell, kind, name, word = found.groups()
    column, core = case.columns[int(at)], case.order[int(at)]
    event = next(iter(column.group.paths.values())).events[column.events[int(cell)]]
    what = "" if name is None else " %s=%d" % (name, compiled.splitting.numbers.value(int(word)))
    return Step("P%d:%s %s%s" % (core, cell, kind, what), compiled.image.place_of(event.at), compiled.machine.decoder.at(event.at).text,
                DOES[kind] + what)


# ---- the source

def source_cycle(judge_source, rounds, cells, state):
    """What forbids a state in the source: of the executions that would leave it, the one with the shortest cycle; and the axiom."""
    source, executions = judge_source.executions(rounds, FREE)
    observer, best, matched = observer_of(source, cells), None, 0
    try:
        for looked_at, (execution, paths) in enumerate(executions.all()):
            if looked_at > MOST_LOOKED_AT or matched > MOST_COMPARED:
                break
            if observer.state(final_words(execution), paths) == state:
                matched += 1
                found = cycle_of(execution)
                if found and (best is None or len(found[0]) < len(best[0])):
                    best = *found, execution
    except NotJudged:
        pass
    if best is None:
        return [], "" if matched else "no execution of the source leaves it, whatever its reads read from"
    cycle, broken, execution = best
    return [_link(execution.events[number], number, relation, source) for number, relation in cycle], broken


def _link(event, number, relation, source):
    name = source.name_at(event.place[0]) if event.place else ""
    if event.thread < 0:
        does = "the initial %s=%d" % (name, event.written)
    else:
        does = {"R": "reads %s=%s" % (name, event.read), "W": "writes %s=%s" % (name, event.written),
                "X": "changes %s from %s to %s" % (name, event.read, event.written), "F": "fence"}[event.kind]
        does += " (%s)" % MODES[event.mode]
    return Link(event.thread, number, event.at, does, relation)
