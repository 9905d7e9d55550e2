"""A program with branches as straight-line tests, one for each choice of paths, and its final states as the union of theirs.

Paths of a core that do the same, but for the values that they read, share a test: its registers tell which path a state belongs to. A
locked addition of 32 bits stays one, so paths that differ in the word that was read share a test too.
"""
import itertools
import re

from . import weaving
from .events import FENCE, LOCKED, READ, WRITE
from .refusals import NotJudged

REGISTERS = ("EAX", "EBX", "ECX", "EDX", "ESI", "EDI")
WORD = 1 << 32
MOST_INSTRUCTIONS, MOST_LOCATIONS, MOST_CORES, MOST_TESTS = 32, 16, 8, 2000
MOST_COMBINATIONS = 300000
RESERVED = {"true", "false", "not", "exists", "forall", "locations", "esp", "ebp", *map(str.lower, REGISTERS)}
EXCHANGE, ADDITION = "X", "A"
# What the names of locations begin with that one core alone uses.
OWN = "own_"


def step_of(event):
    """What an event does, without the value that it reads."""
    if event.kind == FENCE:
        return (FENCE,)
    if event.kind == READ:
        return (READ, event.place)
    if event.kind == WRITE:
        return (WRITE, event.place, event.written)
    return (EXCHANGE, event.place, event.written) if event.addend is None else (ADDITION, event.place, event.addend)


class Group:
    """Paths of one core that do the same steps: `paths` by the values that they read."""

    def __init__(self, steps):
        self.steps, self.paths = steps, {}
        self.reads = [step[1] for step in steps if step[0] in (READ, EXCHANGE, ADDITION)]

    def possible(self, values):
        """The paths whose reads have values that are written."""
        return {path for read, path in self.paths.items()
                if all(values[place] is None or value in values[place] for place, value in zip(self.reads, read))}

    def among(self, paths):
        """The group with these of its paths alone."""
        other = Group(self.steps)
        other.paths = {read: path for read, path in self.paths.items() if path in paths}
        return other


def groups_of(paths):
    """The groups of a core's paths."""
    found = {}
    for path in paths:
        steps = tuple(map(step_of, path.events))
        read = tuple(event.read for event in path.events if event.kind in (READ, LOCKED))
        found.setdefault(steps, Group(steps)).paths[read] = path
    return list(found.values())


class Numbers:
    """Words of 64 bits as numbers of 32: those that fit are themselves, others get numbers that no word has."""

    def __init__(self, values):
        used = {value for value in values if value < WORD}
        free = (number for number in range(WORD - 1, 0, -1) if number not in used)
        self._number = {value: next(free) for value in sorted(values) if value >= WORD}
        self._value = {number: value for value, number in self._number.items()}

    def number(self, value):
        return self._number.get(value, value)

    def value(self, number):
        return self._value.get(number, number)


class Splitting:
    """The straight-line tests of grown paths. `cases` has a Case for each choice of groups; `is_cut` says whether a core may come to a path
    that was cut at the bound of loops."""

    def __init__(self, growth, machine):
        machine.refuse_overlaps()
        self.machine, self.places = machine, machine.places()
        if len(growth.paths) > MOST_CORES:
            raise NotJudged("there are more than %d cores" % MOST_CORES)
        self._growth, self.is_cut = growth, growth.is_cut
        self.initial = {place: machine.initial_word(place) for place in self.places}
        self.names = _names(machine.image, self.places)
        events = [event for paths in growth.paths for path in paths for event in path.events if event.place]
        self.numbers = Numbers({*self.initial.values(), *(event.read or 0 for event in events), *(event.written or 0 for event in events)})
        self.cases = [Case(self, groups) for groups in self._choices()]
        if len(self.cases) > MOST_TESTS:
            raise NotJudged("there are %d tests, more than %d" % (len(self.cases), MOST_TESTS))

    def _choices(self):
        """The choices of a group for each core, each with those of its paths that go together with others."""
        woven = weaving.choices(self._growth)
        groups = [groups_of(paths) for paths in self._growth.paths]
        if woven is None:
            return self._products(groups)
        choices, self.is_cut = woven
        group_of = [{path: group for group in of_core for path in group.paths.values()} for of_core in groups]
        found = {}
        for paths in choices:
            chosen = tuple(of[path] for of, path in zip(group_of, paths))
            for kept, path in zip(found.setdefault(chosen, [set() for _ in chosen]), paths):
                kept.add(path)
        return [[group.among(kept) for group, kept in zip(chosen, all_kept)] for chosen, all_kept in found.items()]

    def _products(self, groups):
        """The same by a cruder rule: each read has a value that somebody writes."""
        count = 1
        for of_core in groups:
            count *= len(of_core)
        if count > MOST_COMBINATIONS:
            raise NotJudged("there are %d choices of paths, more than %d" % (count, MOST_COMBINATIONS))
        for chosen in itertools.product(*groups):
            values = self._written(chosen)
            kept = [group.among(group.possible(values)) for group in chosen]
            if all(group.paths for group in kept):
                yield kept

    def _written(self, chosen):
        """Which values each place may have, or None where additions make more."""
        values = {place: {word} for place, word in self.initial.items()}
        for group in chosen:
            for step in group.steps:
                if step[0] in (WRITE, EXCHANGE) and values[step[1]] is not None:
                    values[step[1]].add(step[2])
                elif step[0] == ADDITION and step[2]:
                    values[step[1]] = None
        return values

    def values_of(self, place):
        return self._growth.values_of(place)


class Case:
    """One straight-line test, and which of its states belong to a path of each core. Its cores stand in the order of their columns, so that
    choices which differ in the numbers of cores alone share a test: `order` has the program's core for each of the test's."""

    def __init__(self, splitting, groups):
        self.splitting = splitting
        columns = [Column(splitting, group) for group in groups]
        self.order = sorted(range(len(columns)), key=lambda core: (columns[core].cells, columns[core].initial))
        self.columns = [columns[core] for core in self.order]
        self.text = self._text()

    def _text(self):
        splitting, numbers = self.splitting, self.splitting.numbers
        own = [name for at, column in enumerate(self.columns) for name in column.shown_at(at) if ":" not in name]
        if len(splitting.names) + len(own) > MOST_LOCATIONS:
            raise NotJudged("a test needs %d locations, more than %d" % (len(splitting.names) + len(own), MOST_LOCATIONS))
        initial = ["%s=%d;" % (name, numbers.number(splitting.initial[place])) for place, name in splitting.names.items()]
        initial += ["%d:%s=%d;" % (at, register, number) for at, column in enumerate(self.columns) for register, number in column.initial]
        height = max([1, *(len(column.cells) for column in self.columns)])
        cells = [["P%d" % at, *column.cells_at(at), *[""] * (height - len(column.cells))] for at, column in enumerate(self.columns)]
        rows = [" | ".join(row) + " ;" for row in zip(*cells)]
        return "X86 path\n{ %s }\n %s\n" % (" ".join(initial), "\n ".join(rows))

    def paths_at(self, state):
        """The path of each core of the program that a state belongs to, or None where it belongs to none."""
        found = [column.path_at(at, state) for at, column in enumerate(self.columns)]
        if any(path is None for path in found):
            return None
        return [path for _, path in sorted(zip(self.order, found), key=lambda one: one[0])]

    def condition(self, state):
        """What asks for exactly this state."""
        return "exists (%s)\n" % " /\\ ".join("%s=%d" % pair for pair in state.items())


class Column:
    """One core's instructions: `cells`, with each the event that it stands for, by its place among the path's events; the registers that
    hold a number at first; and what shows the values that are needed, `shown`: registers, and locations of the core's own."""

    def __init__(self, splitting, group):
        self.cells, self.initial, self.shown, self.events = [], [], [], []
        self._splitting, self.group = splitting, group
        needed = self._needed()
        self._free, read = list(REGISTERS if len(needed) <= len(REGISTERS) else REGISTERS[:-1]), 0
        for at, step in enumerate(group.steps):
            if step[0] == FENCE:
                self._cell("MFENCE", at)
            elif step[0] == WRITE:
                self._cell("MOV [%s],$%d" % (splitting.names[step[1]], splitting.numbers.number(step[2])), at)
            else:
                self._read(step, read in needed, at)
                read += 1
        if len(self.cells) > MOST_INSTRUCTIONS:
            raise NotJudged("a path has %d steps, more than %d" % (len(self.cells), MOST_INSTRUCTIONS))
        ordered = sorted(needed)
        self._paths = {tuple(splitting.numbers.number(read[one]) for one in ordered): path for read, path in group.paths.items()}

    def cells_at(self, number):
        """The cells of the core with this number."""
        return [cell.replace(OWN, "%s%d_" % (OWN, number)) for cell in self.cells]

    def shown_at(self, number):
        return [name.replace(OWN, "%s%d_" % (OWN, number)) if name.startswith(OWN) else "%d:%s" % (number, name) for name in self.shown]

    def path_at(self, number, state):
        return self._paths.get(tuple(state[name] for name in self.shown_at(number)))

    def _cell(self, text, at):
        self.cells.append(text)
        self.events.append(at)

    def _read(self, step, is_needed, at):
        """A load or a locked instruction. Its register is its own while there are some; beyond those it is one that is used again, and
        the value goes to a location that this core alone uses. Such a store waits in the buffer and adds nothing else: no other core
        reads it, and each buffer can be drained at any time."""
        is_last = not self._free or not is_needed
        register = REGISTERS[-1] if is_last else self._free.pop(0)
        name = self._splitting.names[step[1]]
        if step[0] == READ:
            self._cell("MOV %s,[%s]" % (register, name), at)
        else:
            number = self._splitting.numbers.number(step[2])
            if is_last:
                self._cell("MOV %s,$%d" % (register, number), at)
            elif number:
                self.initial.append((register, number))
            self._cell(("XCHG [%s],%s" if step[0] == EXCHANGE else "LOCK XADD [%s],%s") % (name, register), at)
        if is_needed and is_last:
            own = OWN + str(len(self.shown))
            self._cell("MOV [%s],%s" % (own, register), at)
            self.shown.append(own)
        elif is_needed:
            self.shown.append(register)

    def _needed(self):
        """The reads whose values tell this group's paths apart, or whose values not all lead on. With few reads all are kept."""
        count = len(self.group.reads)
        needed = set(range(count))
        if count <= len(REGISTERS):
            return needed
        paths = {read: path.own for read, path in self.group.paths.items()}
        for one in range(count):
            merged, every = {}, self._splitting.values_of(self.group.reads[one])
            for read, own in paths.items():
                merged.setdefault(read[:one] + (None,) + read[one + 1:], []).append((read[one], own))
            if all({value for value, _ in same} >= every and all(own == same[0][1] for _, own in same) for same in merged.values()):
                needed.discard(one)
                paths = {read: same[0][1] for read, same in merged.items()}
        return needed


def _names(image, places):
    """A location's name for each place, as its variable is called where that can be."""
    names = {}
    for address, size in places:
        name = re.sub(r"\W", "_", image.name_at(address))
        if not re.fullmatch(r"[A-Za-z_]\w{0,27}", name, re.ASCII) or name.lower() in RESERVED or name.startswith(OWN):
            name = "at_%x" % address
        while name in names.values():
            name += "_"
        names[address, size] = name
    return names
