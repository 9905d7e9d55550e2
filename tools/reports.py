"""What a campaign tells beside its table: totals, and a log in herd's form of all states."""
import collections
import re

import answers
import litmus
import registers
import verdicts


class Totals:
    """How the rows of a campaign were judged, of what they are, how long it took, and by which programs, each in words."""

    def __init__(self, lines, tests, seconds, programs):
        self.rows, self.tests, self.seconds, self.programs = len(lines), tests, seconds, programs
        self.looks = sum(line.wants_a_look() for line in lines)
        self.unjudged = sum(line.rank == verdicts.UNJUDGED for line in lines)
        self.states = sum(len(line.members.get("states", ())) for line in lines)
        self.alike = sum("alike" in line.members for line in lines)
        self.claims = collections.Counter(line.claim for line in lines)

    def lines(self):
        """All of it, in two lines."""
        rows = "%d rows, %d of them want to be looked at, %d unjudged" % (self.rows, self.looks, self.unjudged)
        return [rows + self.by_others(), "%d tests, %d states, %s" % (self.tests, self.states, self.end())]

    def line(self):
        """What is to be known where each row was told, in one line."""
        told = ["%d tests" % self.tests] + ["%d rows" % self.rows] * (self.rows != self.tests)
        told += ["%d Ok, %d No" % (self.claims[True], self.claims[False])] if self.claims[True] + self.claims[False] else []
        told += ["%d of the rows want to be looked at" % self.looks] if self.looks else []
        told += ["%d states" % self.states] if self.states else []
        return ", ".join(told) + self.by_others() + ", " + self.end()

    def by_others(self):
        """How many rows weren't made, where there are such."""
        return ", %d made by others that are proved to be alike" % self.alike if self.alike else ""

    def end(self):
        return "%.1f s, by %s" % (self.seconds, " and ".join(self.programs))


# The last line, of a form that readers of herd7's and litmus7's logs pass over: by it a campaign knows its own log.
END_OF_LOG = "% Results of a campaign %\n"
BEGIN_OF_TEST = re.compile(r"^(?=Test |%s)" % END_OF_LOG, re.M)


def log_of(lines, rows):
    """A log of those lines that have states, in the order of the tests' names. All states are in herd7's form, what seeds met in litmus7's.
    Where a test has several rows, its options stand behind its name: `rows` has how many, by the tests' names."""
    told = sorted(filter(has_states, lines), key=lambda line: line.order()[1:])
    texts = [log_of_line(line, line.words if rows[line.members["test"]] > 1 else ()) for line in told]
    return "\n".join([*texts, END_OF_LOG])


def has_states(line):
    return "states" in line.members


def is_log(data):
    """Whether these bytes are a log that a campaign wrote."""
    return data.endswith(b"\n" + END_OF_LOG.encode())


def says_no_more(data, log):
    """Whether these bytes are a log that says of no test what this one, a text, doesn't say."""
    return is_log(data) and set(BEGIN_OF_TEST.split(data.decode("latin-1"))) <= set(BEGIN_OF_TEST.split(log))


def log_of_line(line, words):
    """What a log says of a row, by its test's name and these words, in the names that an imported test's file has."""
    test, states = litmus.read_test(line.test), line.members["states"]
    name = " ".join([test.name, *words])
    names = registers.names_in(test.facts)
    quantifier, claim = test.condition or ("forall", True)
    told = ["Test %s %s" % (name, litmus.QUANTIFIERS[quantifier])]
    if isinstance(states, dict):
        told.append("Histogram (%d states)" % len(states))
        told += [histogram_line(claim, state, count, names) for state, count in states.items()]
    else:
        told += ["States %d" % len(states)] + [state_line(state) for state in states]
    if test.condition:
        true, false = line.members["true"], line.members["false"]
        told += ["Ok" if answers.claim_holds(quantifier, true, false) else "No", "Witnesses", "Positive: %d Negative: %d" % (true, false),
                 "Condition %s (%s)" % (quantifier, claim_in(claim, {ours: theirs for theirs, ours in names.items()})),
                 "Observation %s %s %d %d" % (name, answers.word_of(true, false), true, false)]
    return "\n".join(told) + "\n"


def claim_in(claim, names):
    """A claim's text, with these names in place of those that the test has."""
    return re.sub(r"[^\s()~=]+(?==\d)", lambda found: names.get(found.group(), found.group()), litmus.claim_text(claim))


def state_line(state):
    """A state as herd writes it."""
    return " ".join("%s=%d;" % ("[%s]" % place if place.isidentifier() else place, value) for place, value in state.items())


def histogram_line(claim, words, count, names):
    """A state, given as words PLACE=VALUE, as litmus7 writes it with how often it was met. `names` are the test's for those of its file."""
    state = {place: int(value) for place, value in (word.split("=") for word in words.split())}
    holds = litmus.holds(claim, {place_named(names.get(place, place)): value for place, value in state.items()})
    return "%-6d%s>%s" % (count, "*" if holds else ":", state_line(state))


def place_named(text):
    """The place of a text: a location, or a pair of a core and a register."""
    core, colon, register = text.partition(":")
    return (int(core), register) if colon else text
