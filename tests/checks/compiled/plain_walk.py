"""A second way to all final states of a compiled program, for tests/compiled.py: a plain walk over the states of the interpreter, with a
store buffer for each core. It splits nothing, knows no straight-line test, and asks no program. Of words that are used both whole and in
parts it goes by the parts: a load takes each from the core's newest store that has it, else from memory.
"""
import copy

from c11.events import CUT, ENDS, FAULTS, FENCE, LOCKED, READ, WAITS, WRITE

# A walk that comes to more states is given up.
MOST_STATES = 30000


class Walked:
    """The cores' paths, found as the walk comes to them. `at` has a core, its events and its stop after it read these values. `units` are the
    words that memory consists of: places, or the smallest parts of those that are joined."""

    def __init__(self, machine):
        # A machine that knows nothing of joined words.
        machine = copy.copy(machine)
        used, machine.joined = machine.places_apart(), {}
        self._cores, self._known, self._covered = machine.cores(), {}, {}
        cut = sorted({end for address, size in used for end in (address, address + size)})
        self.units = [(begin, end - begin) for begin, end in zip(cut, cut[1:])
                      if any(address <= begin and end <= address + size for address, size in used)]

    def covered(self, place):
        """The units of a place: pairs of a number and by how many bits it is shifted in the place's word."""
        if place not in self._covered:
            self._covered[place] = [(number, 8 * (address - place[0])) for number, (address, size) in enumerate(self.units)
                                    if place[0] <= address < place[0] + place[1]]
        return self._covered[place]

    def word(self, unit, value, shift):
        """The part of a place's word that is this unit's."""
        return value >> shift & (1 << 8 * self.units[unit][1]) - 1

    def stored(self, memory, place, value):
        """Memory after this word is stored there."""
        for unit, shift in self.covered(place):
            memory = _with(memory, unit, self.word(unit, value, shift))
        return memory

    def loaded(self, memory, buffer, place):
        """What a load of a place finds in its core's buffer and in memory."""
        for where, value in buffer:
            memory = self.stored(memory, where, value)
        return sum(memory[unit] << shift for unit, shift in self.covered(place))

    def at(self, core, values):
        key = (core, values)
        if key not in self._known:
            state = self._cores[core] if not values else self.at(core, values[:-1])[0].answered(values[-1])
            stop = state.run()
            self._known[key] = (state, tuple(state.events), stop)
        return self._known[key]


def final_states(machine, observer):
    """All final states that the machine's buffers allow, and whether a loop was cut; None where there are too many states. The machine
    knows which words are shared."""
    walked = Walked(machine)
    count = machine.cores_count
    # Of each core the values that it has read, and how many of the events since the last read are over.
    start = (((), 0),) * count, ((),) * count, tuple(map(machine.initial_word, walked.units))
    seen, waiting, found, is_cut = {start}, [start], set(), False
    while waiting:
        cores, buffers, memory = waiting.pop()
        following = [state for core in range(count) for state in _steps(walked, core, cores, buffers, memory)]
        stops = [walked.at(core, values) for core, (values, _) in enumerate(cores)]
        if not following:
            kinds = {stop.kind for _, _, stop in stops}
            is_cut |= CUT in kinds
            if kinds <= {ENDS, FAULTS}:
                found.add(observer.state(dict(zip(walked.units, memory)), [_Path(state, stop, machine) for state, _, stop in stops]))
        for state in following:
            if state not in seen:
                seen.add(state)
                waiting.append(state)
        if len(seen) > MOST_STATES:
            return None
    return found, is_cut


class _Path:
    """What a core leaves that is its own."""

    def __init__(self, core, stop, machine):
        self.own = {at: byte for at, byte in core.memory.items() if machine.initial_content(at) is not None}
        self.fault = stop.place if stop.kind == FAULTS else None


def _steps(walked, core, cores, buffers, memory):
    """The states after one step of a core, or one drain of its buffer."""
    values, over = cores[core]
    _, events, stop = walked.at(core, values)
    buffer = buffers[core]
    if buffer:
        place, word = buffer[0]
        yield cores, _with(buffers, core, buffer[1:]), walked.stored(memory, place, word)
    if over < len(events):
        event = events[over]
        after = _with(cores, core, (values, over + 1))
        if event.kind == WRITE:
            yield after, _with(buffers, core, buffer + ((event.place, event.written),)), memory
        elif event.kind == FENCE and not buffer:
            yield after, buffers, memory
    elif stop.kind == WAITS:
        yield from _read(walked, core, cores, buffers, memory, stop.place)


def _read(walked, core, cores, buffers, memory, place):
    """A read: of the core's newest store to the place, else of memory. A locked one waits for an empty buffer."""
    values, _ = cores[core]
    word = walked.loaded(memory, buffers[core], place)
    event = walked.at(core, values + (word,))[1][0]
    after = _with(cores, core, (values + (word,), 1))
    if event.kind == READ:
        yield after, buffers, memory
    elif event.kind == LOCKED and not buffers[core]:
        yield after, buffers, walked.stored(memory, place, event.written)


def _with(items, at, item):
    return items[:at] + (item,) + items[at + 1:]
