"""Logs of tests: of herd7, of litmus7, of this project's program and tools; and what they say in the names of a test."""
import json
import re

import answers
import litmus
import registers

VALUE = re.compile(r"(?:P?(\d+):%?(\w+)|\[?([A-Za-z_]\w*(?:\[\d+\])?)\]?)\s*=\s*(-?\w[\w+.\[\]]*|\{[^{}]*\})")
# litmus7 puts how often, and `*>` or `:>`, before a state; `tso sweep` and tools/hardware put how often after the word State
STATE = re.compile(r"(?:State(?: (\d{1,40}))?(?= |$)|(\d{1,40})\s*[*:]>|(?=P?\d+:%?\w+\s*=|\[?[A-Za-z_]\w*(?:\[\d+\])?\]?\s*=))(.*)")
TABLE = re.compile(r"States (\d{1,40})|Histogram \((\d{1,40}) states?\)|Sweep .* ended=(\d{1,40}) .*|Outcomes .* states=(\d{1,40})(?: .*)?")
NO_TABLE = "has no table of states"
WORDS = ("Never", "Sometimes", "Always")
NUMBER = re.compile(r"-?(?:0[xX][0-9a-fA-F]{1,40}|\d{1,40})")


class BadLog(Exception):
    """A log that names no test, has no answer for one, or a state that isn't read."""


class Outcome:
    """What a log says of one test: its states, each with how often where that is said; its verdict, a word or None; and what is wrong
    with its table of states, or None. A state is a tuple of pairs, each of a place and a value."""

    def __init__(self):
        self.states, self.verdict, self.cut = {}, None, NO_TABLE

    def add(self, state, count):
        self.states[state] = None if count is None else (self.states.get(state) or 0) + count

    def places(self):
        """The places that each state has."""
        return set.intersection(*[{place for place, _ in state} for state in self.states]) if self.states else set()

    def by(self, places):
        """The states by these places alone."""
        found = Outcome()
        for state, count in self.states.items():
            found.add(tuple(pair for pair in state if pair[0] in places), count)
        return found.states

    def renamed(self, names):
        """The same with other names of places."""
        found = Outcome()
        found.verdict, found.cut = self.verdict, self.cut
        for state, count in self.states.items():
            found.add(state_of([(names.get(place, place), value) for place, value in state]), count)
        return found


def state_of(pairs):
    """The state of these pairs, in a form that can be compared."""
    if len({place for place, _ in pairs}) < len(pairs):
        raise BadLog("one place stands twice in a state: %s" % state_text(pairs))
    return tuple(sorted(pairs, key=lambda pair: pair[0]))


def state_text(state):
    return " ".join("%s=%s" % pair for pair in state) or "(no value)"


def value_in(text):
    """A value: a number of 32 bits, or a text, as the name of a location whose address it is."""
    if not NUMBER.fullmatch(text):
        return text
    value = int(text, 16) if "x" in text.lower() else int(text)
    return value % litmus.WORD if value < 0 else value


def state_in(text):
    """The state of a line's text: `0:rax=0; [x]=1;` or `0:EAX=0 x=1`. Elements of an array have a place each."""
    found = []
    for part in filter(None, map(str.strip, text.split(";") if ";" in text else text.split())):
        form = VALUE.fullmatch(part)
        if not form:
            raise BadLog("a state that isn't read: %s" % text.strip())
        core, register, location, value = form.groups()
        place = registers.place(core, register) if core else location
        array = re.fullmatch(r"\{(.*)\}", value)
        if array:
            found += [("%s[%d]" % (place, at), value_in(one.strip())) for at, one in enumerate(array.group(1).split(","))]
        else:
            found.append((place, value_in(value)))
    return state_of(found)


def read_log(text):
    """What a log says, by the tests' names."""
    lines = text.replace("\r", "").split("\n")
    found = read_records(lines) if text.lstrip().startswith("{") else Reader().read(lines)
    if not found:
        raise BadLog("no line `Test NAME`")
    return found


class Reader:
    """Goes along the lines of a log for people."""

    def __init__(self):
        self.tests, self.outcome, self.in_states = {}, None, False
        # How many lines of states there have to be, or how many runs they have to count.
        self.name, self.due, self.counts_runs, self.lines, self.runs = None, 0, False, 0, 0

    def read(self, lines):
        for line in map(str.strip, lines):
            self.take(line)
        self.end_table()
        return self.tests

    def take(self, line):
        words, table = line.split(" "), TABLE.fullmatch(line)
        if words[0] == "Test" and len(words) > 1:
            self.end_table()
            # herd7 and litmus7 put the kind of the question after the name
            self.name = re.sub(r" (?:Allowed|Forbidden|Required)$", "", line[len("Test "):])
            self.outcome = self.tests.setdefault(self.name, Outcome())
        elif self.outcome is None:
            return
        elif table:
            self.begin_table(next(filter(None, table.groups())), bool(table.group(3)))
        elif line.startswith("Observation "):
            self.outcome.verdict = next((word for word in words[2:] if word in WORDS), None)
            self.end_table()
        elif line in ("Ok", "No") or line.startswith(("Witnesses", "Condition", "Hash=", "Time ")):
            self.end_table()
        elif line.startswith("Unfinished "):
            raise BadLog("%s has no answer: %s" % (self.name, line))
        elif self.in_states:
            self.take_state(line)

    def begin_table(self, due, counts_runs):
        self.in_states, self.due, self.counts_runs, self.lines, self.runs = True, int(due), counts_runs, 0, 0

    def take_state(self, line):
        found = STATE.fullmatch(line)
        # herd7 has an empty line for a state of no places.
        if not found and (line or self.lines or self.due != 1):
            return
        count = found and (found.group(1) or found.group(2))
        text = re.sub(r" against=(?:yes|no)$| NOT ALLOWED$", "", found.group(3)) if found else ""
        self.outcome.add(state_in(text), int(count) if count else None)
        self.lines += 1
        self.runs += int(count or 0)

    def end_table(self):
        if self.in_states:
            there = self.runs if self.counts_runs else self.lines
            of = "runs" if self.counts_runs else "states"
            if self.outcome.cut in (None, NO_TABLE):
                self.outcome.cut = None if there == self.due else "is to have %d %s and has %d" % (self.due, of, there)
            self.in_states = False


def read_records(lines):
    """What lines of JSON say: results or a table of tools/campaign, or what `tso outcomes --json` prints."""
    found = {}
    for line in filter(str.strip, lines):
        try:
            one = json.loads(line)
            found.setdefault((one["test"], one.get("options", "")), []).append(outcome_in(one))
        except (ValueError, KeyError, TypeError, AttributeError, RecursionError):
            raise BadLog("a line that is no result: %s" % line[:60]) from None
    many = [test for at, (test, _) in enumerate(found) if test in [other for other, _ in list(found)[:at]]]
    return {"%s %s" % key if key[0] in many else key[0]: merged(key[0], outcomes) for key, outcomes in found.items()}


def merged(test, outcomes):
    """What records of one test with the same options say: the counts of sweeps are added, and else all say the same."""
    total = outcomes[0]
    for one in outcomes[1:]:
        if None in total.states.values() or None in one.states.values():
            if (one.states, one.verdict) != (total.states, total.verdict):
                raise BadLog("%s has two answers" % test)
            continue
        for state, count in one.states.items():
            total.add(state, count)
        total.verdict = total.verdict if one.verdict in (total.verdict, None) else one.verdict if total.verdict is None else "Sometimes"
    return total


def outcome_in(record):
    """What one record says."""
    outcome, states = Outcome(), record.get("states")
    if states is None:
        if "depth" in record:
            raise BadLog("%s has no answer" % record["test"])
        return outcome
    outcome.cut = None
    if isinstance(states, dict):
        for text, count in states.items():
            outcome.add(state_in(text), count)
    else:
        for values in states:
            values = values.get("values", values)
            outcome.add(state_in(" ".join("%s=%s" % pair for pair in values.items())), None)
    counts = record.get("observation", record) or {}
    if counts.get("true") or counts.get("false"):
        outcome.verdict = answers.word_of(counts["true"], counts["false"])
    return outcome
