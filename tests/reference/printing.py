"""Reports, plain and as JSON, sweeps, what caches did in many runs, and tables: docs/DEFINITIONS.md, 'What is printed of runs', and
docs/SCRIPTS.md, 'JSON'."""
import collections
import json

from . import conditions, litmus, machine, seen
from .caches import DIRTY, IN_PLACE, PROTOCOLS, E, M, O, S
from .choices import choices_of_seed
from .orders import printed_order

COUNTS = ("hits", "misses", "upgrades", "forwards", "write_backs", "flushes")
TRAFFIC = ("get_s", "get_m", "invalidations", "from_caches", "from_memory", "to_memory")


def named(pairs):
    """Each pair as ` name=value`."""
    return "".join(" %s=%s" % pair for pair in pairs)


def truth_word(truth):
    return "true" if truth else "false"


def head(test, configuration):
    """The lines `Test` and `Machine`."""
    split = " bus=split" if configuration.bus == machine.SPLIT else ""
    shape = named((name, getattr(configuration, name)) for name in ("depth", "sets", "ways", "words"))
    return "Test %s\nMachine %s%s%s\n" % (test.name, configuration.protocol, shape, split)


def report(test, configuration, run, unused):
    """The report of a run that ended."""
    return head(test, configuration) + after_head(test, run, unused)


def after_head(test, run, unused):
    """The report from its line `Order` on."""
    registers, words = run.state()
    truth = machine.holds(test, (registers, words))
    lines = ["Registers P%d%s" % (core, named(zip(litmus.REGISTERS, values))) for core, values in enumerate(registers)]
    lines.append("Memory" + named(zip(test.locations, words)))
    seen.note("condition", "none" if truth is None else "%s %s" % (test.quantifier, truth_word(truth)))
    lines.append("Condition " + ("none" if truth is None else "%s %s" % (test.quantifier, truth_word(truth))))
    lines.append("Choices used=%d stalled=%d unused=%d" % (run.used, run.stalled, unused))
    for core, counts in enumerate(run.machine.caches.counts):
        lines.append("Cache P%d%s" % (core, named((name, counts[name]) for name in COUNTS)))
    order = run.machine.put_together()
    return printed_order(test, order) + "".join(line + "\n" for line in lines)


def unfinished(run):
    return "Unfinished used=%d stalled=%d\n" % (run.used, run.stalled)


def as_json(value):
    """A value's compact text and a line feed; keys stand in the order of their bytes."""
    return json.dumps(value, sort_keys=True, separators=(",", ":")) + "\n"


def unfinished_json(run, more={}):
    return as_json(dict(more, unfinished={"stalled": run.stalled, "used": run.used}))


def report_json(test, configuration, run, unused, more={}):
    """The same content as `report` has, and further members."""
    registers, words = run.state()
    truth = machine.holds(test, (registers, words))
    return as_json(dict(more, **{
        "test": test.name,
        "machine": machine_json(configuration),
        "order": [entry.text(test) for entry in run.machine.put_together()],
        "registers": [dict(zip(litmus.REGISTERS, values)) for values in registers],
        "memory": dict(zip(test.locations, words)),
        "condition": None if truth is None else {"kind": test.quantifier, "holds": truth},
        "choices": {"used": run.used, "stalled": run.stalled, "unused": unused},
        "cache": run.machine.caches.counts,
    }))


# What a state shows, by the option `--show`.
CONDITION, REGISTERS, ALL = "condition", "registers", "all"


class Looked:
    """What is looked at of a test's final states: registers, core by core, and then locations by their numbers. It is what the
    condition names; without one all locations. `registers` adds each register that an instruction of its core writes, and `all` also
    all locations."""

    def __init__(self, test, show=CONDITION):
        registers, locations = set(), set(range(len(test.locations)))
        if test.proposition is not None:
            registers, locations = conditions.named_in(test.proposition)
        if show != CONDITION:
            registers = registers | registers_written(test)
        if show == ALL:
            locations = set(range(len(test.locations)))
        self.registers, self.locations = sorted(registers), sorted(locations)
        self.names = ["%d:%s" % (core, litmus.REGISTERS[register]) for core, register in self.registers]
        self.names += [test.locations[location] for location in self.locations]

    def values(self, registers, words):
        """The values there of a final state."""
        return tuple([registers[core][register] for core, register in self.registers] + [words[at] for at in self.locations])


def registers_written(test):
    """The registers that an instruction of their core writes, as pairs of core and register."""
    return {(core, register) for core, program in enumerate(test.programs) for done in program for register in done.written()}


def machine_json(configuration):
    shown = configuration._asdict()
    if configuration.bus != machine.SPLIT:
        del shown["bus"]
    return shown


def counts(test, configuration, runs, plan, with_json):
    """What the caches did in these runs, and whether all ended. `plan` has the members `from`, `seeds` and `length`, or is empty."""
    ended = [run for run in runs if run.machine is not None]
    told = dict(plan, ended=len(ended), unfinished=len(runs) - len(ended))
    seen.note("runs that are counted", "all end" if len(ended) == len(runs) else "some end" if ended else "none ends")
    cores = [core_counts([run.machine.caches for run in ended], core) for core in range(test.cores())] if ended else None
    seen.note("form of counts", "JSON" if with_json else "text")
    if with_json:
        text = as_json({"cores": cores, "machine": machine_json(configuration), "runs": told, "test": test.name})
    else:
        lines = ["Runs" + named(told.items())]
        lines += ["Counts P%d%s" % (core, "".join(" %s=%d/%d/%d" % (name, one["sum"], one["least"], one["greatest"])
                                                  for name, one in own.items())) for core, own in enumerate(cores or [])]
        text = head(test, configuration) + "".join(line + "\n" for line in lines)
    return text, len(ended) == len(runs)


def core_counts(caches, core):
    """Each number of a core over runs that ended, by its name."""
    found = [{**one.counts[core], **one.traffic[core]} for one in caches]
    return {name: {"sum": sum(one[name] for one in found), "least": min(one[name] for one in found), "greatest": max(one[name] for one in found)}
            for name in COUNTS + TRAFFIC}


def sweep(test, configuration, first, seeds, length):
    """What a sweep prints, and whether all its runs ended."""
    looked, states, truths = Looked(test), collections.Counter(), collections.Counter()
    for seed in range(first, first + seeds):
        run = machine.run(test, configuration, choices_of_seed(seed, length, test.cores()))
        if run.machine is None:
            truths["unfinished"] += 1
            continue
        states[looked.values(*run.state())] += 1
        truths[machine.holds(test, run.state())] += 1
    ended = sum(states.values())
    lines = ["Sweep from=%d seeds=%d length=%d ended=%d unfinished=%d" % (first, seeds, length, ended, truths["unfinished"])]
    lines += ["State %d%s" % (states[values], named(zip(looked.names, values))) for values in sorted(states)]
    if test.proposition is not None:
        lines.append(observation_line(test, truths))
        seen.note("observation", observation(truths))
    return head(test, configuration) + "".join(line + "\n" for line in lines), ended == seeds


def observation_line(test, truths):
    return "Observation %s %s %d %d" % (test.name, observation(truths), truths[True], truths[False])


def observation(truths):
    """The word for how often the proposition was true and how often false."""
    return "Never" if truths[True] == 0 else "Always" if truths[False] == 0 else "Sometimes"


def table(name):
    """The printed table of a protocol: docs/TUTORIAL.md and docs/DEFINITIONS.md, 'printed table'."""
    protocol = PROTOCOLS[name]

    def yes(truth):
        return "yes" if truth else "no"

    def asked(request, snoop):
        return "%s=%s supplies=%s memory=%s" % (request, snoop.next, yes(snoop.supplies), yes(snoop.to_memory))

    lines = ["Protocol " + name, "Fill alone=%s shared=%s" % (protocol.filled(False), protocol.filled(True))]
    for state in (M, O, E, S):
        if protocol.reaches(state):
            lines.append("%s %s %s write=%s evict=%s" % (
                state, asked("GetS", protocol.gets[state]), asked("GetM", protocol.getm(state)),
                M if state in IN_PLACE else "bus", "dirty" if state in DIRTY else "clean"))
    return "".join(line + "\n" for line in lines)
