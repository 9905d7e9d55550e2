"""What a compiled program may leave, what its source allows, and the verdict on the compiler."""
import os
from dataclasses import dataclass, field

from . import compiling
from .executions import Executions
from .machine import Machine
from .paths import grown
from .refusals import NotJudged
from .source import Source
from .splitting import Splitting
from .states import FAULT, Observer, cells_of, name_of

OK, NOT_ALLOWED, BOUNDED, RACE, UNDEFINED, NOT_JUDGED = "Ok", "NOT ALLOWED", "Bounded", "RACE", "UNDEFINED", "NOT JUDGED"
# How many rounds more the source's loops get before a state counts as one that it doesn't allow.
FURTHER_ROUNDS = 2


@dataclass
class Verdict:
    """What is said of a test and a compiler. `states` are the machine's, `allowed` the source's, as texts; `extra` are those that aren't
    allowed; `is_exact` says that no path was cut. `why` has the lines of the reason, and `reason` that of a state that isn't allowed."""

    test: str
    compiler: str
    word: str
    states: list = field(default_factory=list)
    allowed: list = field(default_factory=list)
    extra: list = field(default_factory=list)
    is_exact: bool = True
    told: str = ""
    why: list = field(default_factory=list)
    reason: dict = None
    seconds: float = 0.0
    tests: int = 0


@dataclass
class Allowed:
    """What a source allows: its states, whether its loops were cut, and a race or None. `cells` are the words that states have."""

    source: Source
    cells: list
    states: set
    is_cut: bool
    race: tuple


class SourceJudge:
    """What one test's source allows, by a model, for each number of rounds, found once. `text` is what clang says of it, where that is
    known."""

    def __init__(self, test, model, text=None):
        self.test, self.model = test, model
        self._text, self._known = text, {}

    def allowed(self, rounds, cells=None):
        key = (rounds, None if cells is None else tuple(cells))
        if key not in self._known:
            self._known[key] = self._allowed(rounds, cells)
        return self._known[key]

    def read(self, limit=None):
        """Has clang read the source, in so many seconds."""
        if self._text is None:
            self._text = compiling.source_of(self.test.text, self.test.name, limit)

    def text(self):
        """What clang says of the source."""
        self.read()
        return self._text

    def by_model(self, model):
        """The same source by another model."""
        return SourceJudge(self.test, model, self.text())

    def executions(self, rounds, model):
        """The source, and its executions by a model."""
        self.read()
        source = Source(self._text, self.test.functions, rounds)
        growth = grown(source)
        source.refuse_overlaps()
        return source, Executions(growth, source, model)

    def _allowed(self, rounds, cells):
        source, executions = self.executions(rounds, self.model)
        cells = cells_of(source.module) if cells is None else cells
        observer = observer_of(source, cells)
        states = {observer.state(final_words(execution), paths) for execution, paths in executions.all()}
        return Allowed(source, cells, states, executions.is_cut, executions.race)


def observer_of(source, cells):
    return Observer(source, cells, source.addresses.get, source.name_at, lambda address: not source.name_at(address).startswith("0x"))


def final_words(execution):
    """The last word of each place in an execution of the source."""
    return {place: execution.events[order[-1]].written for place, order in execution.mo.items()}


class Compiled:
    """A compiled program: its final states, each with a case and a state of that case's test that show it."""

    def __init__(self, image, functions, rounds, asker):
        self.image, self.machine = image, Machine(image, functions, rounds)
        growth = grown(self.machine)
        self.splitting = Splitting(growth, self.machine)
        self.is_cut = self.splitting.is_cut
        self._answers = asker.all_outcomes([case.text for case in self.splitting.cases])

    def states(self, cells):
        """Its final states by these cells: with each a case, the state of its test, and the paths."""
        observer, found = self.observer(cells), {}
        for case, answer in zip(self.splitting.cases, self._answers):
            for state in answer:
                paths = case.paths_at(state)
                if paths is not None:
                    found.setdefault(observer.state(self._words(state), paths), (case, state, paths))
        return found

    def own_cells(self):
        """The words of variables that its cores use, for a program that has no source."""
        machine = self.machine
        used = sorted({machine.word_of(address, size) for _, address, size in machine.noted if not machine.is_stack(address)})
        named = [(self.image.symbol_at(address), address, size) for address, size in used]
        return [(symbol.name, address - symbol.address, size) for symbol, address, size in named
                if symbol is not None and symbol.kind == "variable"]

    def has(self, name):
        return name in self.image.symbols

    def observer(self, cells):
        """What reads its final states by these cells."""
        def is_variable(address):
            symbol = self.image.symbol_at(address)
            return symbol is not None and symbol.kind == "variable"
        return Observer(self.machine, cells, lambda name: self.image.symbols[name].address, self.image.name_at, is_variable)

    def _words(self, state):
        """The last word of each shared place."""
        numbers = self.splitting.numbers
        return {place: numbers.value(state[name]) for place, name in self.splitting.names.items()}


def _clock():
    """Seconds of a processor, of this process and those that it has waited for."""
    return sum(os.times()[:4])


def text_of(cells, state, shown=None):
    """A state as it is printed: the words of these cells, or of those alone that are shown."""
    if state == FAULT:
        return "an access where no memory lies"
    return " ".join("%s=%s" % (name_of(cell), value) for cell, value in zip(cells, state) if shown is None or cell in shown)


def judge(judge_source, compiler, image, rounds, asker):
    """The verdict on an object's image, as one of this source. Answers the verdict, and the compiled program for its reasons."""
    began = _clock()
    name = judge_source.test.name
    allowed = judge_source.allowed(rounds)
    if allowed.race is not None:
        told = "a data race on %s: undefined" % allowed.source.name_at(allowed.race[0].place[0])
        return Verdict(name, compiler, RACE, told=told, why=_race_lines(allowed), seconds=_clock() - began), None
    if FAULT in allowed.states:
        told = "an access where no memory lies: undefined"
        return Verdict(name, compiler, UNDEFINED, told=told, seconds=_clock() - began), None
    compiled = Compiled(image, judge_source.test.functions, rounds, asker)
    cells = [cell for cell in allowed.cells if compiled.has(cell[0])]
    if cells != allowed.cells:
        allowed = judge_source.allowed(rounds, cells)
    states = compiled.states(cells)
    if not states and not compiled.is_cut and allowed.states:
        raise NotJudged("no run of the code comes to its end, and runs of the source do")
    extra = set(states) - allowed.states
    word = BOUNDED if compiled.is_cut else OK
    if extra and allowed.is_cut:
        extra -= judge_source.allowed(rounds + FURTHER_ROUNDS, cells).states
        word = BOUNDED if set(states) - allowed.states != extra else word
    shown = _changing(allowed.source, cells, [*states, *allowed.states])
    found = Verdict(name, compiler, NOT_ALLOWED if extra else word, is_exact=word == OK)
    found.states, found.allowed, found.extra = (sorted(text_of(cells, one, shown) for one in some)
                                                for some in (states, allowed.states, extra))
    found.seconds, found.tests = _clock() - began, len(compiled.splitting.cases)
    return found, (compiled, cells, states, sorted(extra, key=repr), shown)


def _changing(source, cells, states):
    """The cells whose words aren't the same in all states, or which some state changes."""
    initial = observer_of(source, cells).state({}, [])
    return [cell for number, cell in enumerate(cells)
            if any(state != FAULT and state[number] != initial[number] for state in states)]


def _race_lines(allowed):
    one, other = allowed.race
    name = allowed.source.name_at(one.place[0])
    return ["P%d line %s %s and P%d line %s %s, and neither happens before the other" % (
        one.thread, one.at, _does(one, name), other.thread, other.at, _does(other, name))]


def _does(event, name):
    return "%s %s" % ("writes" if event.writes() else "reads", name)


def outcomes(image, functions, rounds, asker):
    """All that a compiled program leaves, where no source says what is allowed."""
    began = _clock()
    compiled = Compiled(image, functions, rounds, asker)
    cells = compiled.own_cells()
    states = compiled.states(cells)
    word = BOUNDED if compiled.is_cut else OK
    found = Verdict("+".join(name for name, _ in functions), "", word, is_exact=not compiled.is_cut)
    found.states = sorted(text_of(cells, state) for state in states)
    found.seconds, found.tests = _clock() - began, len(compiled.splitting.cases)
    return found
