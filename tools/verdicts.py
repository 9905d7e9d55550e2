"""What is expected of tests, and how what was found differs from it."""
import functools
import re
import signal

import answers
import inputs
import litmus
import registers
import tasks

# What a row of the table begins with; those that want to be looked at come first.
DIFFERS, FAULT, REFUSED, OPEN, UNJUDGED, SAME = "DIFFERS", "FAULT", "REFUSED", "OPEN", "unjudged", "same"
RANKS = (DIFFERS, FAULT, REFUSED, OPEN, UNJUDGED, SAME)

# No program has so many stores that a deeper buffer allows more.
DEEPEST = 32

# Theory isn't asked for the states of a test with more candidates.
MANY_CANDIDATES = 200_000


def read_expected(path):
    """Verdicts by the tests' names: of lines `NAME: ..: VERDICT`, as `tools/cycles --list` prints, or `VERDICT NAME`, as tools/theory.
    What theory refuses has none."""
    found = {}
    for line in filter(str.strip, inputs.text(path).split("\n")):
        listed = re.fullmatch(r"([^:]*):.*: *(allowed|forbidden)\s*", line)
        said = re.fullmatch(r"(allowed|forbidden)\s+(.*?)\s*", line)
        if not listed and not said and line.startswith("refused "):
            continue
        if not listed and not said:
            raise ValueError("%s has a line without a verdict: %s" % (path, line.rstrip()))
        name, verdict = listed.groups() if listed else said.groups()[::-1]
        found[name] = verdict
    return found


def expected(text, depth, verdict):
    """The verdict that is expected at this depth (None: of a sweep), where TSO's own is this one; None where nothing says so."""
    if verdict != "allowed" or depth in (None, DEEPEST):
        return verdict
    without_buffers, least = answers.fact_of(text, "SC"), answers.fact_of(text, "Depth")
    if without_buffers == "allowed" or depth == 0 and without_buffers is not None:
        # what is allowed without buffers is allowed with them
        return without_buffers
    if least is not None and re.fullmatch(r"\d{1,9}", least, re.ASCII):
        return "allowed" if depth >= int(least) else "forbidden"
    return None


class Theory:
    """What tools/theory says of a test: its verdict, and all its final states, as sets of pairs of whatever may be shown; None for these
    where there are too many candidates to try all; and why it says nothing, where that is so."""

    def __init__(self, verdict, states, why=None):
        self.verdict, self.states, self.why = verdict, states, why


def by_theory_within(seconds, theory, text):
    """What theory says of a test, or that it doesn't within so many seconds. For the main thread of a process."""
    def stop(*_):
        raise TimeoutError

    signal.signal(signal.SIGALRM, stop)
    try:
        signal.setitimer(signal.ITIMER_REAL, seconds)
        return by_theory(theory, text)
    except TimeoutError:
        return Theory(None, None, "theory took over %g seconds" % seconds)
    finally:
        signal.setitimer(signal.ITIMER_REAL, 0)


def by_theory(theory, text):
    """What theory, the script as a module, says of a test."""
    test = litmus.read_test(text)
    if theory.candidates_in(test) > MANY_CANDIDATES:
        return Theory(theory.verdict(test) if test.condition else None, None)
    places = litmus.shown(test)
    ends = list(theory.allowed_ends(test, True))
    states = {frozenset((litmus.place_text(place), end.get(place, 0)) for place in places) for end in ends}
    if not test.condition:
        return Theory(None, states)
    return Theory("allowed" if any(litmus.holds(test.condition[1], end) for end in ends) else "forbidden", states)


class Line:
    """A line of the table: of what it is, how that is judged, the members of its JSON line, and its test's text, None where it has none.
    `chosen` is what its options choose, by what may be chosen; `claim`, whether the claim of the test's own condition holds, is None where
    that isn't known, or where there is none."""

    def __init__(self, name, words, rank, members, test=None, chosen=None, claim=None):
        self.rank, self.test, self.words, self.chosen, self.claim = rank, test, words, chosen or {}, claim
        self.members = dict(members, test=name, options=" ".join(words), judged=rank)

    def wants_a_look(self):
        """Whether something is wrong with the row, or open."""
        return self.rank not in (UNJUDGED, SAME)

    def without_theory(self, why):
        """The same line, open where nothing else is to be looked at: theory was asked and has said nothing."""
        self.rank = OPEN if self.rank in (UNJUDGED, SAME) else self.rank
        self.members.update(judged=self.rank, why=[*self.members.get("why", []), why])
        return self

    def order(self):
        """What the lines of a table are sorted by; numbers among the options go by their size."""
        return RANKS.index(self.rank), self.members["test"], *map(in_order, self.words)

    def counted(self):
        """What the caches of all cores did in all runs, by the counts' names."""
        cores = self.members.get("cores") or []
        return {name: sum(core[name]["sum"] for core in cores) for name in (cores[0] if cores else ())}

    def text(self):
        shown = ["%-7s %s" % (self.rank, self.members["test"]), self.members["options"]]
        for name in ("asked", "expected", "found", "leaves", "true", "false", "ended", "unfinished"):
            if self.members.get(name) is not None:
                shown.append("%s=%s" % (name, str(self.members[name]).replace(" ", "-")))
        if "states" in self.members:
            shown.append("states=%d" % len(self.members["states"]))
        shown += ["%s=%d" % pair for pair in self.counted().items()]
        return " ".join(filter(None, shown + ["- " + why for why in self.members.get("why", [])]))


def in_order(word):
    """What a word of options is sorted by: numbers come before words."""
    return (0, int(word), word) if re.fullmatch(r"[0-9]{1,9}", word) else (1, 0, word)


def refused_line(source):
    """The line of a text that is no test."""
    return Line(source.place, [], REFUSED, {"why": [source.why]})


def line_of_row(row, rank, members, claim=None):
    """The line of a row that is judged so, and whose test's claim holds, or doesn't, or is None."""
    if row.made_by is not None:
        members = dict(members, alike=" ".join(row.made_by))
    return Line(answers.name_of(row.text), row.words, rank, members, row.text, row.chosen, claim)


@functools.lru_cache(maxsize=None)
def said_of(text):
    """What a test's text says that its rows need, found once: exists, ~exists or forall, or None of a test without a condition; and the
    names that its file has for those that an imported test has otherwise."""
    test = litmus.known_test(text)
    names = {ours: theirs for theirs, ours in registers.names_in(test.facts).items()}
    return test.condition and test.condition[0], names


def quantifier_of(text):
    """exists, ~exists or forall, or None of a test without a condition."""
    return said_of(text)[0]


def line_of(row, parts, verdict, theory):
    """The line of a row whose tasks have these results; TSO's own verdict is this one, where something says so."""
    faults = sorted({part["fault"] for part in parts if "fault" in part})
    due = expected(row.text, row.depth, verdict)
    if faults:
        return line_of_row(row, FAULT, {"expected": due, "why": faults})
    if "cores" in parts[0]:
        line = counts_line(row, tasks.merged_counts(parts))
    elif row.depth is None:
        line = sweep_line(row, tasks.merged(parts), due)
    elif "--model" in row.words:
        line = why_line(row, parts[0], due)
    else:
        line = outcomes_line(row, parts[0], due, theory)
    line = line if theory is None or theory.why is None else line.without_theory(theory.why)
    return in_names_of_file(row.text, line)


def in_names_of_file(text, line):
    """The line with what an imported test calls otherwise than its file by the file's name."""
    _, names = said_of(text)

    def renamed(said):
        return re.sub(r"\S+(?==\d)", lambda found: names.get(found.group(), found.group()), said)
    for key, found in line.members.items() if names else ():
        if key == "met" or key == "states" and isinstance(found, list):
            line.members[key] = [{names.get(place, place): value for place, value in state.items()} for state in found]
        elif key == "states":
            line.members[key] = {renamed(state): count for state, count in found.items()}
        elif key == "why":
            line.members[key] = [renamed(why) for why in found]
    return line


def counts_line(row, total):
    """What caches did is of the runs that ended alone: where not all did, that is told, and where none did, the row is open."""
    why = ["ended %d of %d" % (total["ended"], total["ended"] + total["unfinished"])] if total["unfinished"] else []
    return line_of_row(row, UNJUDGED if total["ended"] else OPEN, dict(total, why=why) if why else total)


def sweep_line(row, total, due):
    """A sweep claims no 'never': it differs only where something forbidden was seen."""
    wrong = due == "forbidden" and total["true"]
    return line_of_row(row, rank_of(wrong, due is not None), dict(total, expected=due))


def rank_of(wrong, held):
    """How a row is judged that is wrong or not, and that was held against something or nothing."""
    return DIFFERS if wrong else SAME if held else UNJUDGED


def outcomes_line(row, one, due, theory):
    """All outcomes differ where the verdict isn't the one that is due, or where theory has other final states."""
    if "unfinished" in one:
        return met_line(row, one, due)
    found = None if one["true"] + one["false"] == 0 else "allowed" if one["true"] else "forbidden"
    why = [] if due in (None, found) else ["the verdict differs"]
    by_states = theory is not None and theory.states is not None and row.depth == DEEPEST
    if by_states:
        states = {frozenset(state.items()) for state in one["states"]}
        by_theory = those_shown(theory.states, one["states"])
        why += ["not by theory: " + state_text(state) for state in sorted(states - by_theory, key=sorted)]
        why += ["only by theory: " + state_text(state) for state in sorted(by_theory - states, key=sorted)]
    members = {"expected": due, "found": found, "true": one["true"], "false": one["false"], "states": one["states"], "why": why}
    quantifier = quantifier_of(row.text)
    claim = quantifier and answers.claim_holds(quantifier, one["true"], one["false"])
    return line_of_row(row, rank_of(why, due is not None or by_states), members, claim)


def met_line(row, one, due):
    """Where there are too many states, what was met is some of all: that the condition can be true is known where it is so in one."""
    met = one.get("met", [])
    found = "allowed" if one.get("true") else None
    why = ["more than %d states" % one["unfinished"], "%d final states were met" % len(met)]
    is_wrong = found is not None and due == "forbidden"
    members = {"expected": due, "found": found, "met": met, "why": ["the verdict differs"] * is_wrong + why}
    return line_of_row(row, DIFFERS if is_wrong else OPEN, members, claim_of_met(row.text, one.get("true", 0), len(met)))


def claim_of_met(text, true, met):
    """Whether a test's claim holds, where so many of some of its final states make its proposition true; None where these don't decide
    it."""
    quantifier = quantifier_of(text)
    if quantifier in ("exists", "~exists"):
        return quantifier == "exists" if true else None
    return False if quantifier == "forall" and true < met else None


def those_shown(states, shown):
    """Theory's states by the places that the program shows: one that doesn't know --show has those of the condition alone."""
    places = set(shown[0]) if shown else None
    return {frozenset(pair for pair in state if places is None or pair[0] in places) for state in states}


def why_line(row, one, due):
    """An answer of why is held against all final states, where these are known, and against the verdict that is due, where the test asks for
    what makes its condition true."""
    if "unfinished" in one:
        return line_of_row(row, OPEN, {"expected": due, "why": ["more than %d cases" % one["unfinished"]]})
    found, asked = {"never": "forbidden", "allowed": "allowed"}[one["answer"]], one["asked"]
    due = due if asked and asked[1] else None
    why = [] if due in (None, found) else ["the verdict differs"]
    if "states" in one:
        can_be = one["true" if asked[1] else "false"] if asked else len(one["states"])
        why += [] if found == ("allowed" if can_be else "forbidden") else ["not by outcomes"]
    members = {"asked": " ".join([asked[0], str(asked[1]).lower()]) if asked and not asked[1] else None, "expected": due, "found": found,
               "leaves": one.get("leaves"), "why": why}
    members.update({name: one[name] for name in ("true", "false", "states") if name in one})
    # what forall asks for is that its proposition is false
    claim = (found == "allowed") == (asked[0] == "exists") if asked else None
    return line_of_row(row, rank_of(why, due is not None or "states" in one), members, claim)


def state_text(state):
    return " ".join("%s=%d" % pair for pair in sorted(state)) or "(no value)"
