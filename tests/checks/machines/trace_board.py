"""A board on which the lines of a trace are followed: buffers, lines of the caches with their states and words, memory.

It is written from docs/TRACE.md, docs/DEFINITIONS.md and docs/INPUT.md alone. What another core's request makes of a copy it takes
from the printed table of the protocol. `Board.line` makes the next choice and says what its line must be.
"""
import re
import typing

from reference import arithmetic, litmus

# The parts of a line, each where it applies.
PARTS = ("number", "choice", "outcome", "entries", "moved", "forwarded", "access", "request", "flush", "write_back", "changes", "buffer")

ROW = re.compile(r"([MOES]) GetS=(\w) supplies=(yes|no) memory=(yes|no) GetM=I supplies=(yes|no) memory=no write=(M|bus) evict=(\w+)")


class Row(typing.NamedTuple):
    """A state's row of a printed table: what GetS makes of it, whether it supplies its words then, and whether they go to memory;
    whether it supplies them to GetM; whether it is written in place; whether it is dirty."""
    after_gets: str
    supplies: bool
    to_memory: bool
    supplies_writer: bool
    in_place: bool
    dirty: bool


class Table:
    """A protocol, as `tables` prints it."""

    def __init__(self, text):
        self.alone = re.search(r"^Fill alone=(\w) shared=S$", text, re.M)[1]
        self.rows = {state: Row(after, gets == "yes", memory == "yes", getm == "yes", write == "M", evict == "dirty")
                     for state, after, gets, memory, getm, write, evict in ROW.findall(text)}


class Holder:
    """Who holds a split bus: the core, its choice's letter and the line; while it awaits the line the transient, and what fills it; of
    a locked instruction, once it has read, its two entries and what it writes."""

    def __init__(self, core, letter, line):
        self.core, self.letter, self.line = core, letter, line
        self.transient = self.words = self.state = self.parts = self.value = None


class Store(typing.NamedTuple):
    """A pending store: the entry that it commits, its location and its value."""
    entry: str
    location: int
    value: int


class Board:
    """What is on the board before the next choice. A copy is known by its core and its line."""

    def __init__(self, test, table, depth, sets, ways, words, bus):
        self.test, self.table, self.depth, self.sets, self.ways, self.size = test, table, depth, sets, ways, words
        self.is_split = bus == "split"
        self.places = [0] * test.cores()
        self.registers = [list(registers) for registers in test.registers]
        self.buffers = [[] for _ in self.places]
        padded = test.words + [0] * (-len(test.words) % words)
        self.memory = [padded[at:at + words] for at in range(0, len(padded), words)]
        self.names = ["+".join(test.locations[at:at + words]) for at in range(0, len(test.words), words)]
        # Of each copy its state, its words, and the number of the choice that used it last.
        self.states, self.words, self.used_at = {}, {}, {}
        self.holder, self.number, self.stalled, self.order = None, 0, 0, []
        # What one flat memory would hold, and the reads that a copy answered with another word.
        self.flat, self.stale = list(test.words), []

    def line(self, core, letter):
        """Makes the core's next choice, `s` or `d`; answers its line."""
        return " ".join(text for text in self.due(core, letter).values() if text)

    def due(self, core, letter):
        """Makes a choice; answers the parts of its line, in their order."""
        self.number += 1
        due = dict.fromkeys(PARTS, "")
        due.update(number=str(self.number), choice="%d%s" % (core, letter), outcome="committed")
        access = self.access(core, letter)
        stall = self.stall(core, letter, access)
        if stall is not None:
            self.stalled += 1
            due["outcome"] = "stalled " + stall
            return due
        states, waiting = self.shown_states(), len(self.buffers[core])
        if access is None:
            self.act_without_access(core, due)
        elif self.holder is None and self.needs_bus(core, letter, access):
            due["outcome"] = "asked"
            self.ask(core, letter, access, due)
        else:
            self.act_with_access(core, letter, access, due)
        due["changes"] = self.changes_since(states)
        if len(self.buffers[core]) != waiting:
            stores = ["%s=%d" % (self.test.locations[store.location], store.value) for store in self.buffers[core]]
            due["buffer"] = "P%d[%s]" % (core, " ".join(stores))
        return due

    # ---- cores

    def instruction(self, core):
        """The next one, or None at the program's end."""
        program = self.test.programs[core]
        return program[self.places[core]] if self.places[core] < len(program) else None

    def has_ended(self):
        return not any(self.buffers) and all(self.instruction(core) is None for core in range(len(self.places)))

    def value_forwarded(self, core, location):
        return next((store.value for store in reversed(self.buffers[core]) if store.location == location), None)

    def access(self, core, letter):
        """The location that the choice reads or writes beyond its core's buffer, and whether it writes; None where it does neither."""
        if letter == "d":
            return (self.buffers[core][0].location, True) if self.buffers[core] else None
        done = self.instruction(core)
        if done is None or done.kind == litmus.FENCE or done.kind in litmus.MOVES:
            return None
        if done.kind == litmus.LOAD:
            return None if self.value_forwarded(core, done.location) is not None else (done.location, False)
        return (done.location, True) if done.kind in litmus.LOCKED or self.depth == 0 else None

    def stall(self, core, letter, access):
        """Why the choice can't act, or None."""
        waiting, done = len(self.buffers[core]), self.instruction(core)
        if letter == "d" and not waiting:
            return "Empty"
        if letter == "s":
            if done is None:
                return "Done"
            if done.kind in litmus.STORES and 0 < self.depth == waiting:
                return "Full"
            if waiting and (done.kind == litmus.FENCE or done.kind in litmus.LOCKED):
                return "Fence" if done.kind == litmus.FENCE else "Lock"
        if self.holder and not self.holds(core, letter) and self.needs_bus(core, letter, access):
            return "Bus"
        return None

    def holds(self, core, letter):
        return self.holder is not None and (self.holder.core, self.holder.letter) == (core, letter)

    def needs_bus(self, core, letter, access):
        """On the split bus an access that doesn't hit, and each of a locked instruction."""
        if not self.is_split or access is None:
            return False
        return self.is_locked(core, letter) or not self.hits(core, access[0] // self.size, access[1])

    def is_locked(self, core, letter):
        return letter == "s" and self.instruction(core).kind in litmus.LOCKED

    def entry(self, core, kind, location=None, value=None):
        text = "P%d:%d %s" % (core, self.places[core], kind)
        return text if location is None else "%s %s=%d" % (text, self.test.locations[location], value)

    def commit(self, due, *entries):
        self.order += entries
        due["entries"] = " ".join(entries)

    def act_without_access(self, core, due):
        """A plain store, a load that is forwarded, a move, a fence."""
        done, own = self.instruction(core), self.registers[core]
        if done.kind in litmus.STORES:
            value = self.value_stored(core)
            store = Store(self.entry(core, "W", done.location, value), done.location, value)
            self.buffers[core].append(store)
            due.update(outcome="buffered", entries=store.entry)
        elif done.kind == litmus.LOAD:
            own[done.register] = self.value_forwarded(core, done.location)
            self.commit(due, self.entry(core, "R", done.location, own[done.register]))
            due["forwarded"] = "forwarded"
        elif done.kind == litmus.FENCE:
            self.commit(due, self.entry(core, "F"))
        else:
            own[:] = arithmetic.moved(done, own)
            given = {litmus.SWAP: (done.register, done.source), litmus.NOTHING: ()}.get(done.kind, (done.register,))
            due["outcome"] = "moved"
            if given:
                due["moved"] = " ".join("%s=%d" % (litmus.REGISTERS[one], own[one]) for one in given)
        self.places[core] += 1

    def value_stored(self, core):
        return arithmetic.operand(self.instruction(core), self.registers[core])

    def act_with_access(self, core, letter, access, due):
        """A drain, a load, a locked instruction, or a store without a buffer, through the core's cache."""
        location, is_write = access
        if self.holds(core, letter) and self.holder.parts:
            self.write_part(core, location, due)
            return
        if self.holds(core, letter):
            self.complete(is_write, due)
        else:
            self.use_whole(core, location // self.size, is_write, due)
        if letter == "d":
            store = self.buffers[core].pop(0)
            self.write(core, location, store.value)
            self.commit(due, store.entry)
        elif self.is_locked(core, letter):
            self.read_part(core, location, due)
            return
        elif is_write:
            value = self.value_stored(core)
            self.write(core, location, value)
            self.commit(due, self.entry(core, "W", location, value))
            self.places[core] += 1
        else:
            value = self.registers[core][self.instruction(core).register] = self.read(core, location)
            self.commit(due, self.entry(core, "R", location, value))
            self.places[core] += 1
        if self.holds(core, letter):
            self.holder = None

    def read_part(self, core, location, due):
        """A locked instruction reads; on the atomic bus it writes at once."""
        done, old = self.instruction(core), self.read(core, location)
        value = arithmetic.updated(done, self.registers[core], old)
        parts = self.entry(core, "LR", location, old), self.entry(core, "LW", location, value)
        if self.is_split:
            self.holder.parts, self.holder.value = parts, value
            due["entries"] = parts[0]
        else:
            self.finish(core, location, value, parts)
            due["entries"] = " ".join(parts)

    def write_part(self, core, location, due):
        held, self.holder = self.holder, None
        self.finish(core, location, held.value, held.parts)
        due["entries"] = held.parts[1]

    def finish(self, core, location, value, parts):
        """A locked instruction writes. Its two parts stand side by side in the order."""
        taken = arithmetic.taken_by(self.instruction(core))
        if taken is not None:
            self.registers[core][taken] = self.read(core, location)
        self.write(core, location, value)
        self.order += parts
        self.places[core] += 1

    # ---- lines

    def state(self, core, line):
        return self.states.get((core, line), "I")

    def shown_states(self):
        """The state of each copy; of a line that its core awaits the transient."""
        shown = dict(self.states)
        if self.holder and self.holder.transient:
            shown[self.holder.core, self.holder.line] = self.holder.transient
        return shown

    def changes_since(self, before):
        after, words = self.shown_states(), []
        for core, line in sorted(before.keys() | after.keys()):
            was, is_now = before.get((core, line), "I"), after.get((core, line), "I")
            words += ["P%d.%s %s>%s" % (core, self.names[line], was, is_now)] if was != is_now else []
        return " ".join(words)

    def read(self, core, location):
        word = self.words[core, location // self.size][location % self.size]
        if word != self.flat[location]:
            self.stale.append("P%d has %d of %s, and not %d" % (core, word, self.test.locations[location], self.flat[location]))
        return word

    def write(self, core, location, value):
        self.words[core, location // self.size][location % self.size] = self.flat[location] = value

    def hits(self, core, line, is_write):
        state = self.state(core, line)
        return state != "I" and (not is_write or self.table.rows[state].in_place)

    def request(self, core, line, is_write, due):
        """The others' copies go by the request. Answers the state and the words that a copy of the core's own is filled with."""
        words, shared = self.memory[line], False
        due["request"] = "%s %s" % ("GetM" if is_write else "GetS", self.names[line])
        for other in range(len(self.places)):
            state = self.state(other, line)
            if other == core or state == "I":
                continue
            row, shared = self.table.rows[state], True
            if row.supplies_writer if is_write else row.supplies:
                words = self.words[other, line]
            if row.to_memory and not is_write:
                self.memory[line] = list(self.words[other, line])
                due["flush"] = "flush P%d" % other
            if is_write:
                self.drop(other, line)
            else:
                self.states[other, line] = row.after_gets
        return "M" if is_write else "S" if shared else self.table.alone, list(words)

    def drop(self, core, line):
        for known in (self.states, self.words, self.used_at):
            del known[core, line]

    def use(self, core, line, state, kind, due):
        self.states[core, line], self.used_at[core, line] = state, self.number
        due["access"] = kind

    def fill(self, core, line, state, words, due):
        """A line comes in; of a full set the copy goes that was used longest ago."""
        held = [at for owner, at in self.states if owner == core and at % self.sets == line % self.sets]
        if len(held) == self.ways:
            victim = min(held, key=lambda at: self.used_at[core, at])
            if self.table.rows[self.state(core, victim)].dirty:
                self.memory[victim] = self.words[core, victim]
                due["write_back"] = "write-back " + self.names[victim]
            self.drop(core, victim)
        self.words[core, line] = words
        self.use(core, line, state, "miss", due)

    def use_whole(self, core, line, is_write, due):
        """An access on the atomic bus, or one that hits."""
        state = self.state(core, line)
        if self.hits(core, line, is_write):
            self.use(core, line, "M" if is_write else state, "hit", due)
            return
        filled, words = self.request(core, line, is_write, due)
        if state == "I":
            self.fill(core, line, filled, words, due)
        else:
            self.use(core, line, filled, "upgrade", due)

    def ask(self, core, letter, access, due):
        """The first half of an access on the split bus."""
        line, is_write = access[0] // self.size, access[1]
        self.holder = Holder(core, letter, line)
        if not self.hits(core, line, is_write):
            self.holder.state, self.holder.words = self.request(core, line, is_write, due)
            self.holder.transient = "SM_D" if self.state(core, line) != "I" else "IM_D" if is_write else "IS_D"

    def complete(self, is_write, due):
        """The second half: what was asked for comes in."""
        held = self.holder
        if held.transient is None:
            self.use_whole(held.core, held.line, is_write, due)
        elif held.transient == "SM_D":
            self.use(held.core, held.line, "M", "upgrade", due)
        else:
            self.fill(held.core, held.line, held.state, held.words, due)
        held.transient = None
