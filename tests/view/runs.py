"""What a line of `run --json` tells, found without the page's code; and made lines, larger than a built program's may be."""
import collections
import json
import random
import re

Entry = collections.namedtuple("Entry", "index core place kind location value")
ENTRY = re.compile(r"P(\d+):(\d+) (\w+)(?: (\w+)=(\d+))?")
REGISTERS = ("EAX", "EBX", "ECX", "EDI", "EDX", "ESI")
COUNTS = ("flushes", "forwards", "hits", "misses", "upgrades", "write_backs")


def order_of(run):
    found = (ENTRY.fullmatch(text).groups() for text in run["order"])
    return [Entry(index, int(core), int(place), kind, location, int(value or 0))
            for index, (core, place, kind, location, value) in enumerate(found)]


def sources(order):
    """For each read (by its number in the order) the number of the write that it returned, or None for the initial word."""
    found = {}
    for read in order:
        if read.kind in ("R", "LR"):
            seen = [write.index for write in order if write.kind in ("W", "LW") and write.location == read.location
                    and (write.index < read.index or (write.core == read.core and write.place < read.place))]
            found[read.index] = max(seen, default=None)
    return found


def passes(order):
    """The pairs of a load and a store that it passed."""
    return {(load.index, store.index) for load in order for store in order if load.kind == "R" and store.kind == "W"
            and load.core == store.core and store.place < load.place and store.index > load.index}


def memories(run, order):
    """Memory before the first entry and after each one; None for an initial word that the line doesn't tell."""
    first = {location: None for location in run["memory"]}
    for location in first:
        if not any(entry.location == location and entry.kind in ("W", "LW") for entry in order):
            first[location] = run["memory"][location]
    for read, source in sources(order).items():
        if source is None:
            first[order[read].location] = order[read].value
    states = [first]
    for entry in order:
        states.append({**states[-1], entry.location: entry.value} if entry.kind in ("W", "LW") else states[-1])
    return states


def moments(run, order):
    """For each plain store (by its number) at which moments it can have come into its buffer, by trying all ways in which its
    core can have taken its steps between the entries. Moment m is the one after m entries. At depth 0 there are none."""
    found = {}
    for core in range(len(run["registers"])):
        program = sorted((entry for entry in order if entry.core == core and entry.kind != "LW"), key=lambda entry: entry.place)
        end = len(order), len(program)
        moves = moves_from((0, 0), lambda state: successors(run, order, core, program, *state))
        back = collections.defaultdict(list)
        for state, reached in moves:
            back[reached].append(state)
        to_end = {end} | {state for _, state in moves_from(end, lambda state: back[state])}
        for steps, store in enumerate(program):
            if store.kind == "W":
                came = {state[0] for state, reached in moves if state[1] == steps and reached == (state[0], steps + 1) and reached in to_end}
                found[store.index] = sorted(came)
    return found


def moves_from(start, successors_of):
    """All pairs of a state that can be reached and one of its successors."""
    seen, moves, frontier = {start}, [], [start]
    while frontier:
        state = frontier.pop()
        for reached in successors_of(state):
            moves.append((state, reached))
            if reached not in seen:
                seen.add(reached)
                frontier.append(reached)
    return moves


def successors(run, order, core, program, moment, steps):
    """A core's states, each a moment and how many steps it has taken, after one more store came into its buffer, or after the
    next entry of the order."""
    depth = run["machine"]["depth"]
    pending = [entry for entry in program[:steps] if entry.kind == "W" and entry.index >= moment]
    following = program[steps] if steps < len(program) else None
    if following and following.kind == "W" and len(pending) < depth:
        yield moment, steps + 1
    if moment == len(order):
        return
    entry = order[moment]
    if entry.core != core:
        yield moment + 1, steps
    elif entry.kind == "W" and depth > 0:
        if pending and pending[0] == entry:
            yield moment + 1, steps
    elif following == entry and (entry.kind in ("R", "W") or not pending):
        yield moment + (2 if entry.kind == "LR" else 1), steps + 1


class PlainMachine:
    """A machine with store buffers of a depth, the words of its locations, its cores' programs, and the order of what they did."""

    def __init__(self, programs, depth, words):
        self.programs, self.depth, self.words = programs, depth, words
        self.places, self.buffers, self.order = [0] * len(programs), [[] for _ in programs], []

    def has_ended(self):
        return all(place == len(program) for place, program in zip(self.places, self.programs)) and not any(self.buffers)

    def note(self, core, place, kind, location=None, value=None):
        self.order.append("P%d:%d %s" % (core, place, kind) + ("" if location is None else " %s=%d" % (location, value)))

    def drain(self, core):
        """Commits the oldest store of a core; whether there is one."""
        if not self.buffers[core]:
            return False
        place, location, value = self.buffers[core].pop(0)
        self.words[location] = value
        self.note(core, place, "W", location, value)
        return True

    def step(self, core):
        """Makes a core's next instruction; whether it can be made."""
        place = self.places[core]
        if place == len(self.programs[core]) or not self.act(core, place, *self.programs[core][place]):
            return False
        self.places[core] += 1
        return True

    def act(self, core, place, kind, location, value):
        if kind == "W":
            return self.store(core, place, location, value)
        if kind == "R":
            own = [word for _, stored, word in self.buffers[core] if stored == location]
            self.note(core, place, "R", location, own[-1] if own else self.words[location])
            return True
        if self.buffers[core]:
            return False
        if kind == "F":
            self.note(core, place, "F")
        else:
            self.note(core, place, "LR", location, self.words[location])
            self.words[location] = value
            self.note(core, place, "LW", location, value)
        return True

    def store(self, core, place, location, value):
        if self.depth > 0 and len(self.buffers[core]) == self.depth:
            return False
        self.buffers[core].append((place, location, value))
        if self.depth == 0:
            self.drain(core)
        return True


def made_run(cores, instructions, depth, seed, locations=("x", "y", "z", "lock"), name=None, greatest=99):
    """A line of the program's form: random programs on a plain machine with store buffers, under random choices. What the
    caches count, and the registers, are made up."""
    chance = random.Random(seed)
    words = {location: chance.choice((0, 0, 7)) for location in locations}
    kinds = ["R"] * 5 + ["W"] * 5 + ["F", "L"]
    programs = [[(chance.choice(kinds), chance.choice(locations), chance.randint(1, greatest)) for _ in range(instructions)]
                for _ in range(cores)]
    machine, used, stalled = PlainMachine(programs, depth, words), 0, 0
    while not machine.has_ended():
        core = chance.randrange(cores)
        used += 1
        stalled += not (machine.step(core) if chance.random() < 0.6 else machine.drain(core))
    return json.dumps({
        "cache": [dict.fromkeys(COUNTS, chance.randrange(40)) for _ in range(cores)],
        "choices": {"stalled": stalled, "unused": 0, "used": used},
        "condition": {"holds": chance.random() < 0.5, "kind": chance.choice(("exists", "~exists", "forall"))},
        "machine": {"depth": depth, "protocol": chance.choice(("msi", "mesi", "mosi", "moesi")), "sets": 1, "ways": 2, "words": 1},
        "memory": dict(sorted(words.items())), "order": machine.order,
        "registers": [dict.fromkeys(REGISTERS, chance.randrange(greatest)) for _ in range(cores)],
        "test": name or "made-%d-%d-%d-%d" % (cores, instructions, depth, seed)}, separators=(",", ":"))
