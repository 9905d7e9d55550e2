"""What each choice of a run did, a line for each: docs/TRACE.md."""
import re

from . import litmus, seen
from .caches import HIT, MISS, UPGRADE, I, M, Noted
from .choices import STEP
from .machine import ASKED, BUFFERED, COMMITTED, MOVED, Machine
from .orders import WRITE, Entry

# Of a step as JSON the parts that don't always apply.
PARTS = ("stall", "entries", "moved", "forwarded", "access", "transaction", "flush", "write_back", "states", "supplied")

# The instructions that read a word.
READERS = (litmus.LOAD, *litmus.LOCKED)

OUTCOMES = {COMMITTED: "committed", BUFFERED: "buffered", MOVED: "moved", ASKED: "asked"}
ACCESSES = {HIT: "hit", MISS: "miss", UPGRADE: "upgrade"}


# A trace as JSON has so many steps at most.
MOST_STEPS = 1000


class TracedMachine(Machine):
    """A machine that keeps a line for each choice that it makes; and as JSON a step for each, where that is asked for."""

    def __init__(self, test, configuration, with_steps=False):
        super().__init__(test, configuration)
        self.lines, self.steps = [], []
        size = configuration.words
        self.line_names = ["+".join(test.locations[at:at + size]) for at in range(0, len(test.locations), size)]
        self.start = self.value() if with_steps else None

    def choose(self, number, action):
        core = self.cores[number]
        place, waiting, committed, states = core.place, len(core.pending), len(self.order), self.states()
        self.caches.noted, forwards = Noted(), self.caches.counts[number]["forwards"]
        reads = action == STEP and place < len(core.program) and core.program[place].kind in READERS
        took = super().choose(number, action)
        noted = self.caches.noted
        forwarded = self.caches.counts[number]["forwards"] > forwards
        step = {
            "choice": "%d%s" % (number, action),
            "outcome": OUTCOMES[self.outcome] if took else "stalled",
            "stall": None if took else self.outcome,
            "entries": [entry.text(self.test) for entry in self.order[committed:]] + self.pending_since(number, waiting),
            "moved": self.moved(core, place, action) if took else None,
            "forwarded": forwarded,
            "access": ACCESSES[noted.access] if noted.access else None,
            "transaction": "%s %s" % (noted.request[0], self.line_names[noted.request[1]]) if noted.request else None,
            "flush": "P%d" % noted.flushed if noted.flushed is not None else None,
            "write_back": self.line_names[noted.written_back] if noted.written_back is not None else None,
            "states": self.changes(states),
            "supplied": "buffer" if forwarded else noted.source if reads else None,
        }
        self.lines.append(self.line(step, number, len(core.pending) != waiting))
        if self.start is not None and len(self.steps) < MOST_STEPS:
            self.steps.append(dict(step, after=self.value()))
        return took

    def line(self, step, number, buffer_changed):
        """The words of a step that apply, with single spaces."""
        words = [str(len(self.lines) + 1), step["choice"], step["outcome"], step["stall"]] + step["entries"]
        words += [step["moved"], "forwarded" if step["forwarded"] else None, step["access"], step["transaction"]]
        words += ["flush " + step["flush"] if step["flush"] else None]
        words += ["write-back " + step["write_back"] if step["write_back"] else None] + step["states"]
        words += ["P%d[%s]" % (number, " ".join(self.buffer(number)))] if buffer_changed else []
        return " ".join(word for word in words if word)

    def pending_since(self, number, waiting):
        """The store that became pending, as the entry that it will be."""
        return [Entry(number, store.place, WRITE, store.location, store.value).text(self.test)
                for store in self.cores[number].pending[waiting:]]

    def moved(self, core, place, action):
        """The register that a move set, and its value."""
        if action != STEP or core.program[place].kind not in litmus.MOVES:
            return None
        done = core.program[place]
        given = [register for register in (done.register, done.source if done.kind == litmus.SWAP else None) if register is not None]
        return " ".join("%s=%d" % (litmus.REGISTERS[register], core.registers[register]) for register in given) or None

    def states(self):
        """Of each core, of each line, its state; I where there is no copy; of a line that the core awaits its transient."""
        states = [[I] * len(self.line_names) for _ in self.cores]
        for of_lines, sets in zip(states, self.caches.sets):
            for copy in (copy for copies in sets for copy in copies):
                of_lines[copy.line] = copy.state
        if self.awaits():
            states[self.holder.core][self.line_awaited()] = self.transient()
        return states

    def awaits(self):
        return self.holder is not None and self.holder.awaited is not None and self.holder.awaited.kind != HIT

    def line_awaited(self):
        return self.holder.location // self.caches.line_size

    def transient(self):
        awaited = self.holder.awaited
        return "SM_D" if awaited.kind == UPGRADE else "IM_D" if awaited.state == M else "IS_D"

    def changes(self, before):
        words = []
        for core, (old, new) in enumerate(zip(before, self.states())):
            for name, was, is_now in zip(self.line_names, old, new):
                if was != is_now:
                    words.append("P%d.%s %s>%s" % (core, name, was, is_now))
                    seen.note("change of a line", "%s>%s" % (was, is_now))
        return words

    def buffer(self, number):
        return ["%s=%d" % (self.test.locations[store.location], store.value) for store in self.cores[number].pending]

    def text(self):
        return "".join(line + "\n" for line in ["Trace"] + self.lines + ["Endtrace %d" % len(self.lines)])

    # ---- the machine between two choices, as JSON

    def words_of(self, line, words):
        """The words of a line's locations, of which the last line may have fewer."""
        return list(words[:len(self.line_names[line].split("+"))])

    def words_meant(self):
        """What each location holds for a program: dirty copies, and what the bus keeps for a write, are newer than memory."""
        words = self.caches.final_words(len(self.test.words))
        if self.awaits():
            line, size = self.line_awaited(), self.caches.line_size
            awaited = self.holder.awaited
            kept = awaited.words if awaited.words is not None else self.caches.copy_at(self.holder.core, self.holder.location).words
            words[line * size:(line + 1) * size] = self.words_of(line, kept)
        return words

    def value(self):
        test, states = self.test, self.states()
        memory = [word for line in self.caches.memory for word in line]
        cores = []
        for number, (core, sets) in enumerate(zip(self.cores, self.caches.sets)):
            lines = [[self.copy_value(copy, states[number][copy.line]) for copy in copies] for copies in sets]
            registers = dict(zip(litmus.REGISTERS, core.registers))
            cores.append({"buffer": self.buffer(number), "lines": lines, "place": core.place, "registers": registers})
        return {"bus": self.bus_value(), "cores": cores, "memory": dict(zip(test.locations, memory)),
                "seen": dict(zip(test.locations, self.words_meant()))}

    def copy_value(self, copy, state):
        return {"line": self.line_names[copy.line], "state": state, "words": self.words_of(copy.line, copy.words)}

    def bus_value(self):
        if self.holder is None:
            return None
        line, size = self.line_awaited(), self.caches.line_size
        words = self.words_meant()[line * size:(line + 1) * size] if self.awaits() else []
        return {"choice": "%d%s" % (self.holder.core, self.holder.action), "core": self.holder.core, "line": self.line_names[line],
                "state": self.transient() if self.awaits() else None, "words": words}


def programs(test):
    """Each core's instructions, as a cell of a test has them."""
    return [[instruction_text(test, done) for done in program] for program in test.programs]


def instruction_text(test, done):
    place = "" if done.location is None else "[%s]" % test.locations[done.location]
    register = "" if done.register is None else litmus.REGISTERS[done.register]
    if done.kind == litmus.STORE_NUMBER:
        return "MOV %s,$%d" % (place, done.source)
    if done.kind == litmus.STORE_REGISTER:
        return "MOV %s,%s" % (place, litmus.REGISTERS[done.source])
    if done.kind == litmus.LOAD:
        return "MOV %s,%s" % (register, place)
    if done.kind == litmus.SET_NUMBER:
        return "MOV %s,$%d" % (register, done.source)
    if done.kind == litmus.SET_REGISTER:
        return "MOV %s,%s" % (register, litmus.REGISTERS[done.source])
    source = "" if done.source is None else litmus.REGISTERS[done.source] if done.kind in litmus.OF_REGISTERS else "$%d" % done.source
    return {litmus.FENCE: "MFENCE", litmus.EXCHANGE: "XCHG {place},{register}", litmus.ADD: "LOCK XADD {place},{register}",
            litmus.COMPARE_EXCHANGE: "LOCK CMPXCHG {place},{register}", litmus.LOCKED_NEGATE: "LOCK NEG {place}",
            litmus.LOCKED_NUMBER: "LOCK {operator} {place},{source}", litmus.LOCKED_REGISTER: "LOCK {operator} {place},{source}",
            litmus.COMBINE_NUMBER: "{operator} {register},{source}", litmus.COMBINE_REGISTER: "{operator} {register},{source}",
            litmus.NEGATE: "NEG {register}", litmus.SWAP: "XCHG {register},{source}", litmus.NOTHING: "NOP"}[done.kind].format(
                place=place, register=register, source=source, operator=done.operator)


def proposition_text(test, proposition):
    """A proposition with as few brackets as may be."""
    kind, *parts = proposition
    seen.note("proposition as JSON", kind)
    if kind == "truth":
        return "true" if parts[0] else "false"
    if kind == "register":
        return "%d:%s=%d" % (parts[0], litmus.REGISTERS[parts[1]], parts[2])
    if kind == "location":
        return "%s=%d" % (test.locations[parts[0]], parts[1])
    if kind == "not":
        return "~" + in_brackets(test, parts[0], ("and", "or"))
    first, later = (("or",), ("and", "or")) if kind == "and" else ((), ("or",))
    texts = [in_brackets(test, part, later if at else first) for at, part in enumerate(parts[0])]
    return (" /\\ " if kind == "and" else " \\/ ").join(texts)


def in_brackets(test, proposition, kinds):
    """The text, in brackets where it is of one of these kinds."""
    text = proposition_text(test, proposition)
    if proposition[0] in kinds:
        seen.note("proposition as JSON", "brackets around " + proposition[0])
        return "(%s)" % text
    return text


def members(test, made):
    """What a trace adds to the members of `run --json`."""
    proposition = None if test.proposition is None else proposition_text(test, test.proposition)
    note_members(test, made)
    return {"programs": programs(test), "proposition": proposition, "trace": {"start": made.start, "steps": made.steps}}


def note_length(run, choices):
    """Counts how many choices a run used, where that is at the limit of a trace as JSON."""
    if run.used == MOST_STEPS:
        seen.note("choices used as JSON", "1000, " + ("unfinished" if run.machine is None else "ended"))
    if run.used > MOST_STEPS:
        item, _ = choices.item_of(MOST_STEPS)
        seen.note("choices used as JSON", "1001, the last of a seed" if item[0] == "seed" else "1001, the last a word of its own")


def note_members(test, made):
    """Counts what a trace as JSON has: the instructions, the parts of its steps, and what the machines have that differs."""
    if test.proposition is None:
        seen.note("proposition as JSON", "null")
    for done in (done for program in test.programs for done in program):
        seen.note("instruction as JSON", done.kind)
    for step in made.steps:
        seen.note("outcome of a step", step["outcome"])
        for part in PARTS:
            seen.note("part of a step: " + part, "there" if step[part] else "not there")
        seen.note("word as JSON", re.sub(r"^P\d$", "another core", step["supplied"] or "none"))
        note_machine(step["after"])


def note_machine(value):
    """Counts who holds the bus and what it keeps, the copies, the buffers, and whether memory is older than the words that are meant."""
    bus = value["bus"]
    seen.note("bus as JSON", "nobody" if bus is None else bus["state"] or "held, and nothing is awaited")
    if bus is not None:
        seen.note("words that the bus keeps", len(bus["words"]))
    for core in value["cores"]:
        seen.note("pending stores as JSON", seen.amount(core["buffer"]))
        for copies in core["lines"]:
            seen.note("copies of a set", seen.amount(copies))
            for copy in copies:
                seen.note("state of a copy", copy["state"])
                seen.note("words of a copy", len(copy["words"]))
    seen.note("memory as JSON", "what is meant" if value["memory"] == value["seen"] else "older than what is meant")
