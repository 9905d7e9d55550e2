"""What facts leave possible of a test: docs/REASONS.md, 'What is printed of reasons', its parts on facts, on what is possible, on
which write comes first, and on counters.

A register holds a number, what a read returned, or what an instruction made of these; so does a write. Values are a list of numbers, None is
any. A source is a write, None is the initial word.
"""
import typing

from . import arithmetic, litmus
from .candidates import events_of
from .orders import LOCKED_READ, LOCKED_WRITE, READ, WRITE, Entry

# More values than so many count as any.
MOST_VALUES = 64

NUMBER, RETURNED, COMBINED, NEGATED, EXCHANGED = "number", "returned", "combined", "negated", "exchanged"


class Told:
    """What instructions make of what is told of reads."""

    @staticmethod
    def number(value):
        return NUMBER, value

    @staticmethod
    def combined(operator, word, value):
        return COMBINED, operator, word, value

    @staticmethod
    def negated(word):
        return NEGATED, word

    @staticmethod
    def exchanged(word, eax, new):
        return EXCHANGED, word, eax, new


# ---- facts

class From(typing.NamedTuple):
    """The read reads from the write, or it doesn't."""
    read: Entry
    write: typing.Optional[Entry]
    truth: bool


class Before(typing.NamedTuple):
    """Of two writes to a location the first comes before the second."""
    first: Entry
    second: Entry


class Last(typing.NamedTuple):
    """The write is the last one to its location, or it isn't."""
    write: Entry
    truth: bool


class Returns(typing.NamedTuple):
    """The read returns this value, or another one."""
    read: Entry
    value: int
    truth: bool


class Holds(typing.NamedTuple):
    """This part of the claim is true at the end, or false."""
    claim: tuple
    truth: bool


def opposite(fact):
    return Before(fact.second, fact.first) if isinstance(fact, Before) else fact._replace(truth=not fact.truth)


# ---- values

def few(values):
    return None if len(values) > MOST_VALUES else values


def union(some, more):
    """All of both; of equal ones the last stays."""
    for value in reversed(some):
        if value not in more:
            more = [value] + more
    return more


def either(some, more):
    return None if some is None or more is None else few(union(some, more))


def both(some, more):
    if some is None or more is None:
        return more if some is None else some
    return [value for value in some if value in more]


def any_of(each):
    found = []
    for values in reversed(list(each)):
        found = either(values, found)
    return found


def combined(operator, some, more):
    if some is None or more is None:
        return None
    return any_of(few([arithmetic.Numbers.combined(operator, one, other) for other in more]) for one in some)


def negated(some):
    return None if some is None else [arithmetic.Numbers.negated(one) for one in some]


def exchanged(words, eax, new):
    """What a compare and exchange makes of words: the new value where EAX can be equal, the word where EAX can be another one."""
    if words is None:
        return None
    return any_of(either(new if can_be(eax, fits_number(True, word)) else [], [word] if can_be(eax, fits_number(False, word)) else [])
                  for word in words)


def can_be(values, fits):
    return values is None or any(map(fits, values))


def kept(values, fits):
    return None if values is None else [value for value in values if fits(value)]


def fits_number(truth, value):
    return lambda number: (number == value) == truth


# ---- what a test says before any fact

class Programs:
    """The events of a test, what its writes write, and what its registers hold at the end."""

    def __init__(self, test):
        self.test, self.events = test, events_of(test)
        self.reads = [event for event in self.events if event.is_read()]
        self.written, self.left = {}, []
        for core in range(test.cores()):
            self.left.append(self.thread(core))
        self.growing = {location for location in range(len(test.words)) if self.never_wraps(location)}
        self.boards = {}

    def thread(self, core):
        registers = [(NUMBER, value) for value in self.test.registers[core]]
        for place, done in enumerate(self.test.programs[core]):
            kind, location = done.kind, done.location
            if kind in litmus.STORES:
                self.written[Entry(core, place, WRITE, location)] = arithmetic.operand(done, registers, Told)
            elif kind in litmus.MOVES:
                registers = arithmetic.moved(done, registers, Told)
            elif kind == litmus.LOAD:
                registers[done.register] = (RETURNED, Entry(core, place, READ, location))
            elif kind in litmus.LOCKED:
                word, taken = (RETURNED, Entry(core, place, LOCKED_READ, location)), arithmetic.taken_by(done)
                self.written[Entry(core, place, LOCKED_WRITE, location)] = arithmetic.updated(done, registers, word, Told)
                if taken is not None:
                    registers[taken] = word
        return registers

    def writes_to(self, location):
        return [event for event in self.events if event.is_write() and event.location == location]

    def load_parts(self, location):
        return [read for read in self.reads if read.kind == LOCKED_READ and read.location == location]

    def is_written_locked(self, location):
        writes = self.writes_to(location)
        return bool(writes) and all(write.kind == LOCKED_WRITE for write in writes)

    def addend(self, write):
        """The number that a write adds to what its load part returns; None where it isn't a number, or another thing is written."""
        form, *parts = self.written[write]
        own = RETURNED, write._replace(kind=LOCKED_READ)
        if form != COMBINED or parts[1] != own or parts[2][0] != NUMBER or parts[0] not in ("ADD", "SUB"):
            return None
        return parts[2][1] if parts[0] == "ADD" else arithmetic.Numbers.negated(parts[2][1])

    def is_counter(self, location):
        return self.is_written_locked(location) and all(self.addend(write) is not None for write in self.writes_to(location))

    def amount(self, write):
        """The number that a write writes, or that it adds to what its load part returns; None where it does something else."""
        form, *parts = self.written[write]
        return parts[0] if form == NUMBER else self.addend(write)

    def never_wraps(self, location):
        """All that writes to the location writes or adds numbers, which are less than 2^32 together with the initial word."""
        amounts = [self.amount(write) for write in self.writes_to(location)]
        return None not in amounts and self.test.words[location] + sum(amounts) < 2**32

    def is_in_order(self, read, source):
        """By program order: no source is a later write of the read's own core, or what this core has overwritten."""
        writes = [write for write in self.writes_to(read.location) if write.is_before(read)]
        if source is None:
            return not writes
        return not read.is_before(source) and not any(source.is_before(write) for write in writes)

    # ---- what a proposition gives

    def given_by(self, claim, truth):
        form = claim[0]
        if form == "not":
            return self.given_by(claim[1], not truth)
        if form in ("and", "or") and (form == "and") == truth:
            return [fact for part in claim[1] for fact in self.given_by(part, truth)]
        return [Holds(claim, truth)] + (self.returned_by(claim, truth) if form == "register" else [])

    def returned_by(self, claim, truth):
        """What it says of a read that a register has a value at the end."""
        _, core, register, value = claim
        form, *held = self.left[core][register]
        return [Returns(*held, value, truth)] if form == RETURNED else []

    def cases_of(self, claim, truth):
        form = claim[0]
        if form == "not":
            return self.cases_of(claim[1], not truth)
        if form in ("and", "or") and (form == "or") == truth:
            return [case for part in claim[1] for case in self.cases_of(part, truth)]
        return [self.given_by(claim, truth)]

    # ---- what is possible

    def board(self, facts):
        """What these facts leave possible, the newest first: as many rounds as there are events, or until one changes nothing."""
        if facts not in self.boards:
            board = Board(self, facts, {read: ([None] + self.writes_to(read.location), None, 0) for read in self.reads})
            for _ in self.events:
                after = board.after_round()
                if after.rows == board.rows:
                    break
                board = after
            self.boards[facts] = board
        return self.boards[facts]


class Board:
    """What facts leave possible, as one round tells it: of each read its sources, its values and its least."""

    def __init__(self, programs, facts, rows):
        self.programs, self.facts, self.rows, self.lasts = programs, facts, rows, {}

    def of_kind(self, kind):
        return (fact for fact in self.facts if isinstance(fact, kind))

    def sources(self, read):
        return self.rows[read][0]

    def values(self, read):
        return self.rows[read][1]

    def least(self, read):
        return self.rows[read][2]

    # ---- values

    def values_of(self, expression):
        form, *parts = expression
        if form == NUMBER:
            return parts
        if form == RETURNED:
            return self.values(parts[0])
        if form == COMBINED:
            return combined(parts[0], *map(self.values_of, parts[1:]))
        return negated(self.values_of(parts[0])) if form == NEGATED else exchanged(*map(self.values_of, parts))

    def written(self, write):
        return self.values_of(self.programs.written[write])

    def values_from(self, read, source):
        return [self.programs.test.words[read.location]] if source is None else self.written(source)

    # ---- the least

    def least_written(self, write):
        """Whoever adds 2 leaves at least 2."""
        if write.location not in self.programs.growing:
            return 0
        amount = self.programs.amount(write)
        if self.programs.written[write][0] == NUMBER:
            return amount
        return min(self.least(write._replace(kind=LOCKED_READ)) + amount, 2**32 - 1)

    def least_from(self, read, source):
        return self.programs.test.words[read.location] if source is None else self.least_written(source)

    # ---- which write comes first

    def is_put_before(self, first, second):
        """By a fact, or by program order."""
        told = any((fact.first, fact.second) == (first, second) for fact in self.of_kind(Before))
        return told or first.is_before(second) and second.is_write() and first.location == second.location

    def may_be_left(self, location):
        """What the facts say of the location's last word, as a test of numbers."""
        said = [fits_number(fact.truth, fact.claim[2]) for fact in self.of_kind(Holds) if fact.claim[:2] == ("location", location)]
        return lambda number: all(fits(number) for fits in said)

    def can_be_last(self, write):
        for fact in self.of_kind(Last):
            if fact.write.location == write.location and (fact.write != write if fact.truth else fact.write == write):
                return False
        if any(self.is_put_before(write, other) for other in self.programs.events):
            return False
        values = self.written(write)
        return not self.leaves_less(write) if values is None else can_be(values, self.may_be_left(write.location))

    def leaves_less(self, write):
        """A fact says that less is left than the least that the write writes."""
        said = [fact.claim[2] for fact in self.of_kind(Holds) if fact.truth and fact.claim[:2] == ("location", write.location)]
        return any(value < self.least_written(write) for value in said)

    def last_writes(self, location):
        if location not in self.lasts:
            self.lasts[location] = [write for write in self.programs.writes_to(location) if self.can_be_last(write)]
        return self.lasts[location]

    def is_last(self, write):
        """No other write can be the last one to its location."""
        return all(other == write for other in self.last_writes(write.location))

    def comes_before(self, first, second):
        if not (first.is_write() and second.is_write() and first.location == second.location):
            return False
        return self.is_put_before(first, second) or first != second and self.is_last(second)

    # ---- one round

    def may_return(self, read):
        """What the facts say of the read's value, as a test of numbers."""
        said = [fits_number(fact.truth, fact.value) for fact in self.of_kind(Returns) if fact.read == read]
        return lambda number: all(fits(number) for fits in said)

    def told_value(self, read):
        return next(([fact.value] for fact in self.of_kind(Returns) if fact.read == read and fact.truth), None)

    def may_read_from(self, read, source):
        """What the facts say of the read's source."""
        return all((fact.write == source) == fact.truth for fact in self.of_kind(From) if fact.read == read)

    def is_taken(self, read, source):
        """Another load part of the location can read from nothing else."""
        if read.kind != LOCKED_READ:
            return False
        others = [other for other in self.programs.load_parts(read.location) if other != read]
        return any(all(one == source for one in self.sources(other)) for other in others)

    def returns_less(self, read, source):
        """A fact says that the read returns less than it can return from the source."""
        said = [fact.value for fact in self.of_kind(Returns) if fact.read == read and fact.truth]
        return any(value < self.least_from(read, source) for value in said)

    def can_read_from(self, read, source):
        return (self.may_read_from(read, source) and self.programs.is_in_order(read, source) and not self.is_taken(read, source)
                and can_be(self.values_from(read, source), self.may_return(read)) and not self.returns_less(read, source))

    def counts(self, read):
        """What the load part of a locked addition can return by counting; any of another read."""
        location = read.location
        if read.kind != LOCKED_READ or not self.programs.is_counter(location):
            return None
        own, words = Entry(read.core, read.place, LOCKED_WRITE, location), [self.programs.test.words[location]]
        for write in self.programs.writes_to(location):
            if write == own or self.comes_before(own, write):
                continue
            more = combined("ADD", words, [self.programs.addend(write)])
            words = more if self.comes_before(write, own) else either(words, more)
        return words

    def row_after(self, read):
        sources = [source for source in self.sources(read) if self.can_read_from(read, source)]
        values = any_of(self.values_from(read, source) for source in sources)
        values = kept(both(values, both(self.told_value(read), self.counts(read))), self.may_return(read))
        leasts = [self.least_from(read, source) for source in sources] if values is None else values
        return sources, values, min(leasts, default=0)

    def after_round(self):
        return Board(self.programs, self.facts, {read: self.row_after(read) for read in self.rows})

    # ---- the final state

    def last_words(self, location):
        programs, words = self.programs, self.programs.test.words
        if programs.is_counter(location):
            return [(words[location] + sum(map(programs.addend, programs.writes_to(location)))) % 2**32]
        if not programs.writes_to(location):
            return [words[location]]
        return any_of(map(self.written, self.last_writes(location)))

    def words_left(self, location):
        told = next(([fact.claim[2]] for fact in self.of_kind(Holds) if fact.claim[:2] == ("location", location) and fact.truth), None)
        return kept(both(told, self.last_words(location)), self.may_be_left(location))

    def register_left(self, core, register):
        return self.values_of(self.programs.left[core][register])

    def words_at(self, place):
        """What a register or a location can hold at the end."""
        return self.words_left(place[1]) if place[0] == "location" else self.register_left(*place[1:])

    def words_shown(self, place):
        """What is shown of it: of a location what its last write can leave there, whatever is asked of the last word; where that can be
        any value, what it can leave by what is asked too."""
        if place[0] == "register":
            return self.register_left(*place[1:])
        on_events = Board(self.programs, [fact for fact in self.facts if not isinstance(fact, Holds)], self.rows)
        words = on_events.last_words(place[1])
        return self.last_words(place[1]) if words is None else words

    def allows(self, claim, truth):
        """Whether the proposition can have this truth."""
        return can_have(claim, truth, self.words_at)

    def shown(self, event):
        """The value that is shown of an event, or None."""
        if event.is_write():
            values = self.written(event)
        else:
            values = (self.told_value(event) or self.values(event)) if event.is_read() else None
        return values[0] if values is not None and len(values) == 1 else None


def can_have(claim, truth, words_at):
    """Whether a proposition can have this truth, each of its atoms by itself. `words_at` has what a place may hold; None is any."""
    form = claim[0]
    if form == "truth":
        return claim[1] == truth
    if form in ("register", "location"):
        return can_be(words_at(claim[:-1]), fits_number(truth, claim[-1]))
    if form == "not":
        return can_have(claim[1], not truth, words_at)
    every = (form == "and") == truth
    return (all if every else any)(can_have(part, truth, words_at) for part in claim[1])


def paired(claim):
    """The proposition, where each `and` and each `or` has two parts: several are grouped from the left."""
    form = claim[0]
    if form == "not":
        return form, paired(claim[1])
    if form not in ("and", "or"):
        return claim
    found, *more = map(paired, claim[1])
    for part in more:
        found = form, (found, part)
    return found
