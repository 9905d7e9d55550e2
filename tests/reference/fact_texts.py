"""Facts as they are printed, and read back: docs/REASONS.md, 'What is printed of reasons', its table of facts."""
import re

from . import lexing, litmus, printing, seen
from .conditions import ConditionReader
from .orders import FENCE, Entry
from .possible import Before, From, Holds, Last, Returns, paired
from .refutations import Wrong

NAME = "[A-Za-z_][A-Za-z0-9_]*"
EVENT = r"P[0-7]:[0-9]+ (?:F|(?:LR|LW|R|W) %s(?:=[0-9]+)?)" % NAME
SOURCE = "(?:initial|%s)" % EVENT
PLACE = "(?:[0-7]:(?:%s)|%s)" % ("|".join(litmus.REGISTERS), NAME)
VALUE = "(?:=| not )[0-9]+"

# Each form of a fact, but for propositions that aren't a place's value: these have brackets, or are a word, behind any number of `~`.
FORMS = ("{e}(?: not)? from {s}", "{e} before {e}", "{e}(?: not)? last", "{e} not [0-9]+", "{e}", "{p}{v}", "~*(?:true|false)", "~+{p}=[0-9]+")
FACT = re.compile("|".join(form.format(e=EVENT, s=SOURCE, p=PLACE, v=VALUE) for form in FORMS))


# ---- printed

def event_text(event, board):
    """An event with the value that is shown of it; the initial word is a source too."""
    if event is None:
        return "initial"
    value = board.shown(event)
    return event.action(board.programs.test) if value is None else event._replace(value=value).text(board.programs.test)


def fact_text(fact, board):
    test = board.programs.test
    if isinstance(fact, From):
        return "%s %sfrom %s" % (event_text(fact.read, board), "" if fact.truth else "not ", event_text(fact.write, board))
    if isinstance(fact, Before):
        return "%s before %s" % tuple(event_text(write, board) for write in fact)
    if isinstance(fact, Last):
        return "%s %slast" % (event_text(fact.write, board), "" if fact.truth else "not ")
    if isinstance(fact, Returns):
        return "%s%s%d" % (fact.read.action(test), "=" if fact.truth else " not ", fact.value)
    if fact.claim[0] in ("register", "location"):
        return "%s%s%d" % (place_name(fact.claim[:-1], test), "=" if fact.truth else " not ", fact.claim[-1])
    return ("" if fact.truth else "~") + claim_text(fact.claim, test)


def claim_text(claim, test):
    """A proposition, with brackets around what is joined."""
    form = claim[0]
    if form == "truth":
        return printing.truth_word(claim[1])
    if form in ("register", "location"):
        return "%s=%d" % (place_name(claim[:-1], test), claim[-1])
    if form == "not":
        return "~" + claim_text(claim[1], test)
    return "(%s)" % (" /\\ " if form == "and" else " \\/ ").join(claim_text(part, test) for part in claim[1])


def place_name(place, test):
    return test.locations[place[1]] if place[0] == "location" else "%d:%s" % (place[1], litmus.REGISTERS[place[2]])


# ---- read

def split(text):
    """The answers that stand at the beginning of a text, each as the texts of its facts, and what stands after them."""
    answers, at = [[]], 0
    while True:
        fact = fact_at(text, at)
        at += len(fact)
        answers[-1].append(fact)
        if text.startswith(", ", at):
            at += len(", ")
        elif text.startswith(" or ", at):
            answers.append([])
            at += len(" or ")
        else:
            return answers, text[at:]


def fact_at(text, at):
    if re.match(r"~*\(", text[at:]):
        return text[at:bracket_end(text, at)]
    found = FACT.match(text, at)
    if found is None:
        raise Wrong("no fact: " + text[at:])
    return found[0]


def bracket_end(text, at):
    """The place after the bracket that begins here is closed."""
    opened = 0
    for place in range(at, len(text)):
        opened += (text[place] == "(") - (text[place] == ")")
        if text[place] == ")" and opened == 0:
            return place + 1
    raise Wrong("a bracket isn't closed: " + text[at:])


def joined(answers):
    """Answers as they stand in a line."""
    return " or ".join(", ".join(answer) for answer in answers)


class FactReader:
    """Reads facts that speak of the events, registers and locations of a test."""

    def __init__(self, programs):
        self.programs, self.test = programs, programs.test

    def event(self, text):
        """The event of a text, whatever its value."""
        place, kind, *rest = text.split(" ")
        core, number = place[1:].split(":")
        name = rest[0].partition("=")[0] if rest else None
        location = 0 if kind == FENCE else self.location(name)
        event = Entry(int(core), int(number), kind, location)
        if event not in self.programs.events:
            raise Wrong("no event of the test: " + text)
        return event

    def location(self, name):
        if name not in self.test.locations:
            raise Wrong("no location of the test: %s" % name)
        return self.test.locations.index(name)

    def read(self, text):
        event = self.event(text)
        if not event.is_read():
            raise Wrong("no read: " + text)
        return event

    def write_to(self, location, text):
        """The write of a text, or None of the initial word."""
        event = None if text == "initial" else self.event(text)
        if event is not None and event not in self.programs.writes_to(location):
            raise Wrong("no write to the location: " + text)
        return event

    def write(self, text):
        event = self.event(text)
        return self.write_to(event.location, text)

    def fact(self, text):
        if re.fullmatch(r"~*(?:true|false|\(.*)|~+%s=[0-9]+" % PLACE, text):
            return self.claim_fact(text)
        for form, make in READERS:
            found = re.fullmatch(form, text)
            if found:
                return make(self, *found.groups())
        raise Wrong("no fact: " + text)

    def source_fact(self, read, no, source):
        event = self.read(read)
        return From(event, self.write_to(event.location, source), no is None)

    def order_fact(self, first, second):
        event = self.write(first)
        other = self.write_to(event.location, second)
        if event == other:
            raise Wrong("a write before itself: " + first)
        return Before(event, other)

    def value_fact(self, read, sign, value):
        return Returns(self.read(read), int(value), sign == "=")

    def place_fact(self, place, sign, value):
        core, colon, register = place.partition(":")
        if colon and int(core) >= self.test.cores():
            raise Wrong("no core of the test: " + place)
        atom = ("register", int(core), litmus.REGISTERS.index(register)) if colon else ("location", self.location(place))
        return Holds(atom + (int(value),), sign == "=")

    def claim_fact(self, text):
        """That a proposition is true, or false: of one that begins with `~` the rest is false, but where that is a place's value, which
        would be said in another way."""
        if text[0] != "~" or re.fullmatch("~%s=[0-9]+" % PLACE, text):
            return Holds(self.claim(text), True)
        return Holds(self.claim(text[1:]), False)

    def claim(self, text):
        """The proposition of a text."""
        names, tokens = list(self.test.locations), lexing.Tokens(lexing.Text(text.encode()), 0)
        try:
            with seen.apart():
                claim = ConditionReader(tokens, names, self.test.cores()).proposition()
                ended = tokens.look("").kind == lexing.END
        except lexing.Fault:
            ended = False
        if not ended or names != self.test.locations:
            raise Wrong("no proposition: " + text)
        return paired(claim)


READERS = (
    ("(%s)( not)? from (%s)" % (EVENT, SOURCE), FactReader.source_fact),
    ("(%s) before (%s)" % (EVENT, EVENT), FactReader.order_fact),
    ("(%s)( not)? last" % EVENT, lambda reader, write, no: Last(reader.write(write), no is None)),
    (r"(P\d:\d+ L?R %s)(=| not )(\d+)" % NAME, FactReader.value_fact),
    (r"(%s)(=| not )(\d+)" % PLACE, FactReader.place_fact),
)
