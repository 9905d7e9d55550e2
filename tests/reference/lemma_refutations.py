"""Refutations by lemmas, and whether one refutes: docs/REASONS.md, 'What is printed of reasons', its parts on questions, on closings and
on lemmas.

A part is a `Question`, with an answer and a part for each of its cases as they are printed, or a closing. A branch is what the facts on
the way to a part leave possible (`possible.Board`). What is printed of facts and closings is told here too, for a reason is judged word
by word.
"""
import itertools
import math
import typing

from .candidates import SC, TSO, Relations
from .fact_texts import event_text, fact_text, place_name
from .possible import Before, From, Holds, Last, Programs, Returns, can_have, fits_number, opposite, paired
from .refutations import Wrong, asked_of


# The words of two questions: which load part reads a word, and which part of the claim is so.
READER, PART = "reader", "part"

# The closing that a question is which has no answer.
NONE = "none"

# Final states that are gone through for a line `False`.
MOST_STATES = 20_000


class Case(typing.NamedTuple):
    """Answers that are printed in one line, each as its facts, and their part. `at_once`: a closing stands in the line itself. `said` is
    what is printed of the answers."""
    answers: list
    part: object
    at_once: bool
    said: list


class Question(typing.NamedTuple):
    """The cases of a question, and the word that stands before its answers. `ends`: the last line is `Endcases`, and not `So`."""
    word: str
    cases: list
    ends: bool


class Closing(typing.NamedTuple):
    """Why a case can't be: the name of the closing, and what stands in its line: events, a location, places, or a lemma's number. `said` is
    what is printed of it."""
    name: str
    words: tuple
    said: dict


class Lemma(typing.NamedTuple):
    """Facts that aren't met together, and the part that shows it. `said` is what is printed of the facts."""
    facts: list
    part: object
    said: list


class Edges(Relations):
    """The relations between events as far as a branch tells them: whatever is still possible, they are so."""

    def __init__(self, board):
        super().__init__(board.programs.events, (), ())
        self.board = board

    def rf(self, w, r):
        return r.is_read() and all(source == w for source in self.board.sources(r))

    def co(self, w, v):
        return self.board.comes_before(w, v)

    def fr(self, r, v):
        return r.is_read() and all(self.is_after(source, r, v) for source in self.board.sources(r))


# The relations that are acyclic together, each with its name.
CYCLES = {
    "uniproc": {model: (("po", Edges.po_loc), ("rf", Edges.rf), ("co", Edges.co), ("fr", Edges.fr)) for model in (TSO, SC)},
    "cycle": {
        TSO: (("po", Edges.po_ghb), ("mfence", Edges.mfence), ("implied", Edges.implied), ("rf", Edges.rfe), ("co", Edges.co),
              ("fr", Edges.fr)),
        SC: (("po", Edges.po), ("rf", Edges.rf), ("co", Edges.co), ("fr", Edges.fr)),
    },
}


def claim_of(test):
    """What is asked of a test."""
    return paired(asked_of(test))


# ---- facts that are met

def is_known(board, fact):
    """Whether a fact is met, whatever is still open."""
    if isinstance(fact, From):
        sources = board.sources(fact.read)
        return all(source == fact.write for source in sources) if fact.truth else fact.write not in sources
    if isinstance(fact, Before):
        return board.comes_before(*fact)
    if isinstance(fact, Last):
        return board.is_last(fact.write) if fact.truth else fact.write not in board.last_writes(fact.write.location)
    if isinstance(fact, Returns):
        values, other = board.values(fact.read), fits_number(not fact.truth, fact.value)
        return values is not None and not any(map(other, values))
    return not board.allows(fact.claim, not fact.truth)


# ---- questions

def questions_like(word, answers, board):
    """The answers, as facts, of each question that these may be the cases of."""
    first = answers[0][0]
    if word == PART:
        facts = [fact for fact in board.facts if isinstance(fact, Holds)]
        return [board.programs.cases_of(*fact) for fact in dict.fromkeys(facts)]
    if word == READER:
        return [readers_of(board, *word_read(first))] if isinstance(first, (From, Last)) else []
    if answers == [[first], [opposite(first)]]:
        return [answers]
    if not getattr(first, "truth", False):
        return []
    kinds = ((From, lambda: sources_of(board, first.read)), (Returns, lambda: values_of(board, first.read)),
             (Last, lambda: lasts_of(board, first.write.location)))
    return [answers_due() for kind, answers_due in kinds if isinstance(first, kind)]


def word_read(fact):
    """The location and the word whose reader is asked for."""
    return (fact.read.location, fact.write) if isinstance(fact, From) else (fact.write.location, fact.write)


def sources_of(board, read):
    return [[From(read, source, True)] for source in board.sources(read)]


def values_of(board, read):
    return [[Returns(read, value, True)] for value in board.values(read) or ()]


def lasts_of(board, location):
    return [[Last(write, True)] for write in board.last_writes(location)]


def readers_of(board, location, word):
    """Which load part reads this word, where locked instructions alone write to the location; none of a question that may not be asked."""
    if not board.programs.is_written_locked(location):
        return []
    readers = [[From(read, word, True)] for read in board.programs.load_parts(location) if word in board.sources(read)]
    return readers + ([[Last(word, True)]] if word in board.last_writes(location) else [])


def visible(facts, programs):
    """The facts that are printed: that a register has a value is left out where what its read returns stands next."""
    return [fact for fact, after in itertools.zip_longest(facts, facts[1:])
            if not (is_of_register(fact) and after in programs.returned_by(fact.claim, fact.truth))]


def is_of_register(fact):
    return isinstance(fact, Holds) and fact.claim[0] == "register"


# ---- judging

class Judge:
    """Judges the parts of a refutation of a test under a model. `lemmas` are those that are shown already. In JSON, by `with_json`, places
    stand in the order of their names, and not in that of the line."""

    def __init__(self, test, model, with_json=False):
        self.test, self.model, self.with_json, self.programs, self.lemmas = test, model, with_json, Programs(test), []
        self.claim = claim_of(test)
        self.given = tuple(self.programs.given_by(self.claim, True))

    def board(self, facts=()):
        return self.programs.board(tuple(facts) + self.given)

    def begin(self, said):
        """Judges the line `Given`: what is printed of it, nothing where the claim gives one fact alone."""
        facts = visible(list(self.given), self.programs) if len(self.given) > 1 else []
        self.are_printed(facts, said, self.board())

    def lemma(self, lemma):
        """Judges a lemma, which may use those before it; then it is one that is shown."""
        self.are_printed(lemma.facts, lemma.said, self.board(lemma.facts))
        self.part(lemma.part, self.board(lemma.facts))
        self.lemmas.append(lemma)

    def part(self, part, board):
        """Raises `Wrong` where a part doesn't show that its branch has no candidate."""
        if isinstance(part, Closing):
            self.closing(part, board)
            return
        ends = [case.part.said for case in part.cases if case.at_once]
        if any(one in ends[:at] for at, one in enumerate(ends)):
            raise Wrong("two lines of one question that the same words end: %s" % ends)
        for facts, case, said in self.answered(part, board):
            after = self.programs.board(tuple(facts) + board.facts)
            self.are_printed(visible(facts, self.programs), said, after)
            self.part(case.part, after)

    def are_printed(self, facts, said, board):
        due = [fact_text(fact, board) for fact in facts]
        if said != due:
            raise Wrong("%s, and not %s" % (said, due))

    def answered(self, question, board):
        """Of each answer that is due its facts, its case, and what is printed of it."""
        cases = [(answer, case, said) for case in question.cases for answer, said in zip(case.answers, case.said)]
        given, faults = [answer for answer, _, _ in cases], ["it may not be asked"]
        for due in filter(None, questions_like(question.word, given, board)):
            faults = faults_of_answers(question, due, self.programs)
            if not faults:
                return [(facts,) + case_for(visible(facts, self.programs), cases) for facts in due]
        raise Wrong("not the cases of a question (%s): %s" % (faults[0], [case.said for case in question.cases]))

    # ---- closings

    def closing(self, closing, board):
        """Raises `Wrong` where the closing isn't so, or isn't printed as it is."""
        if not self.is_so(board, closing.name, *closing.words):
            raise Wrong("it isn't so: %s" % closing.said)
        due = self.value_of(closing, board)
        if closing.said != due:
            raise Wrong("%s, and not %s" % (closing.said, due))

    def is_so(self, board, name, *words):
        return CLOSINGS[name](self, board, *words)

    def value_of(self, closing, board):
        """What is printed of a closing, as JSON has it."""
        name, words = closing.name, closing.words
        if name in CYCLES:
            told = {"cycle": [{"from": event_text(x, board), "relation": self.relation(name, board, x, y), "to": event_text(y, board)}
                              for x, y in edges_of(words)]}
        elif name == "false":
            told = {"places": {place_name(place, self.test): list(values) for place, values in words}}
        elif name == "between":
            told = {key: event_text(event, board) for key, event in zip(("read", "between", "write"), words)}
        else:
            told = {"lemma": words[0]} if name == "lemma" else {"question": words[0], "of": self.subject(board, *words[1:])}
        return dict(told, step=name)

    def subject(self, board, first, *word):
        """What a question without answers asks of: an event, a location, or the initial word of one."""
        if not isinstance(first, int):
            return event_text(first, board)
        name = self.test.locations[first]
        return name if not word else event_text(word[0], board) if word[0] is not None else name + " initial"

    def has_no_answer(self, board, question, *subject):
        return NO_ANSWERS[question](self, board, *subject)

    def has_no_source(self, board, read):
        return not board.sources(read)

    def has_no_value(self, board, read):
        return board.values(read) == []

    def has_no_reader(self, board, location, word):
        return self.programs.is_written_locked(location) and not readers_of(board, location, word)

    def has_no_last(self, board, location):
        return bool(self.programs.writes_to(location)) and not board.last_writes(location)

    def is_uniproc(self, board, *events):
        return self.leads_back("uniproc", board, events)

    def is_cycle(self, board, *events):
        return self.leads_back("cycle", board, events)

    def leads_back(self, name, board, events):
        return None not in [self.relation(name, board, x, y) for x, y in edges_of(events)]

    def relation(self, name, board, x, y):
        """The name of the first relation that leads from x to y, or None."""
        edges = Edges(board)
        return next((word for word, related in CYCLES[name][self.model] if related(edges, x, y)), None)

    def is_between(self, board, read, between, write):
        return Edges(board).is_between(read, between, write) and between.is_write()

    def is_false(self, board, *places):
        """A fact is one that can't be: these are the places of the first such fact, with their values."""
        false = self.first_false(board)
        if false is None:
            return False
        due = self.places_of(board, false.claim)
        is_printed = dict(places) == due if self.with_json else list(places) == list(due.items())
        return is_printed and is_false_as_read(board, false, places)

    def first_false(self, board):
        """The first fact that is a proposition which can't be so, or None."""
        return next((fact for fact in board.of_kind(Holds) if not board.allows(*fact)), None)

    def is_by_lemma(self, board, number):
        return 1 <= number <= len(self.lemmas) and all(is_known(board, fact) for fact in self.lemmas[number - 1].facts)

    def places_of(self, board, claim):
        """The places that a part of the claim names, in their order there, with their values, where these are known."""
        words = {place: board.words_shown(place) for place, _ in atoms_of(claim)}
        return {place: tuple(values) for place, values in words.items() if values is not None}


def atoms_of(claim):
    """The registers and locations that a proposition names, in its order, each with the number that it says of it."""
    if claim[0] in ("register", "location"):
        return [(claim[:-1], claim[-1])]
    parts = {"truth": (), "not": claim[1:]}.get(claim[0], claim[1])
    return [atom for part in parts for atom in atoms_of(part)]


CLOSINGS = {NONE: Judge.has_no_answer, "uniproc": Judge.is_uniproc, "cycle": Judge.is_cycle, "between": Judge.is_between,
            "false": Judge.is_false, "lemma": Judge.is_by_lemma}
NO_ANSWERS = {"source": Judge.has_no_source, "value": Judge.has_no_value, "reader": Judge.has_no_reader, "last": Judge.has_no_last}


def is_false_as_read(board, false, places):
    """Whichever of its values each place has, and whatever the others have, one of the propositions that are facts isn't as it has to be. Of a
    place that isn't named the numbers that propositions say of it count, and one that none says. Where that is too much to go through, the
    proposition alone is looked at."""
    held = dict(places)
    if not can_have(*false, held.get):
        return True
    words = dict(held)
    for place, number in (atom for fact in board.of_kind(Holds) for atom in atoms_of(fact.claim)):
        if place not in held:
            words[place] = words.get(place, (2**32,)) + (number,)
    if math.prod(map(len, words.values())) > MOST_STATES:
        return True
    return not any(all_hold(board, dict(zip(words, chosen))) for chosen in itertools.product(*words.values()))


def all_hold(board, state):
    """Whether all propositions that are facts are so where these places have these words."""
    return all(can_have(*fact, lambda place: [state[place]]) for fact in board.of_kind(Holds))


# ---- the cases of a question, as they are printed

def case_for(answer, cases):
    """The case of this answer, and what is printed of it; it is taken away."""
    at = next(at for at, (given, *_) in enumerate(cases) if given == answer)
    return cases.pop(at)[1:]


def faults_of_answers(question, due, programs):
    """How these aren't the cases of a question with the answers that are due, or don't stand in their order: lines that a closing ends come
    first, and each kind of lines stands in the order of their first answers. `Endcases` stands behind two parts or more."""
    order = [visible(facts, programs) for facts in due]
    given = [answer for case in question.cases for answer in case.answers]
    missing, more = left_of(order, given), left_of(given, order)
    if missing or more:
        return ["there are missing %d, and too many %d" % (len(missing), len(more))]
    places = [[order.index(answer) for answer in case.answers] for case in question.cases]
    at_once = [case.at_once for case in question.cases]
    lines = [places[at] for at in range(len(places)) if at_once[at]], [places[at] for at in range(len(places)) if not at_once[at]]
    if at_once != sorted(at_once, reverse=True) or any(one != sorted(one) for one in places + list(lines)):
        return ["they stand in another order"]
    return [] if question.ends == (len(lines[1]) > 1) else ["the last line is `So`, or isn't"]


def left_of(some, taken):
    """Of these answers those that aren't among the others, each of which counts once."""
    left = list(taken)
    return [answer for answer in some if answer not in left or left.remove(answer)]


def edges_of(events):
    return list(zip(events, events[1:] + events[:1]))
