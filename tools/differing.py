"""Which tests end otherwise on one machine of a campaign than on another: by depth, bus, protocol, shape, model or program."""
import verdicts

# What the rows of each command may differ by, each with the option that lists it.
BY_COMMAND = {
    "outcomes": {"depth": "depths", "program": "program"},
    "sweep": {"depth": "depths", "bus": "buses", "protocol": "protocols", "shape": "shapes", "program": "program"},
    "why": {"model": "models", "program": "program"},
    "counts": {},
}
CHOICES = ("depth", "bus", "protocol", "shape", "model", "program")

# A row of which it isn't known how its test ends.
UNKNOWN = (verdicts.FAULT, verdicts.REFUSED, verdicts.OPEN)


def fault_of(asked):
    """Why the rows that are asked for can't be held apart so; None where they can."""
    options = BY_COMMAND[asked.command]
    if asked.differ_by not in options:
        return "--differ-by for %s is %s" % (asked.command, " or ".join(options) or "not there")
    several = len(getattr(asked, options[asked.differ_by])) > 1
    return None if several else "--differ-by %s wants several of --%s" % (asked.differ_by, options[asked.differ_by])


class Group:
    """Rows of one test that end alike: the values of what they are held apart by, in their order, and the states, None where only the
    verdict is known, which is `found`."""

    def __init__(self, values, states, found):
        self.values, self.states, self.found = values, states, found

    def text(self, choice):
        end = self.found if self.states is None else "%d state%s" % (len(self.states), "s" * (len(self.states) != 1))
        return "%s %s: %s" % (choice, ",".join(self.values), end)

    def members(self):
        return {"values": self.values, "found": self.found, "states": None if self.states is None else sorted(self.states)}


class Difference:
    """How a test ends by what its rows are held apart by: the test's name, the options that these rows share, and their groups, by the
    first value of each."""

    def __init__(self, test, shared, choice, groups):
        self.test, self.shared, self.choice, self.groups = test, shared, choice, groups

    def whole(self):
        """The first value whose rows have each state that any row has; None where there is none."""
        states = [group.states or frozenset() for group in self.groups]
        return next((group.values[0] for group in self.groups if group.states == frozenset().union(*states)), None)

    def text(self):
        parts = [" ".join([self.test, *self.shared]), "; ".join(group.text(self.choice) for group in self.groups)]
        whole = self.whole()
        return " ".join(parts) + ("; all from %s %s" % (self.choice, whole) if whole and self.choice == "depth" else "")

    def members(self):
        return {"test": self.test, "options": " ".join(self.shared), "differ_by": self.choice, "whole": self.whole(),
                "groups": [group.members() for group in self.groups]}


def differences(lines, choice):
    """The differences among these rows, in the order of the tests' first rows; those of which it isn't known how they end are left out."""
    found, values = {}, {}
    for line in lines:
        for name, value in line.chosen.items():
            values.setdefault(name, set()).add(value)
    others = [name for name, of_name in values.items() if name != choice and len(of_name) > 1]
    for line in lines:
        if line.rank not in UNKNOWN:
            found.setdefault((line.test, tuple(words_of(line, others))), []).append(line)
    several = [Difference(rows[0].members["test"], list(shared), choice, groups_of(rows, choice)) for (_, shared), rows in found.items()]
    return [one for one in several if len(one.groups) > 1]


def words_of(line, names):
    """What a row chooses by these names."""
    return [word for name in names if name in line.chosen for word in ("--" + name, line.chosen[name])]


def groups_of(rows, choice):
    """The groups of these rows of one test, those that end alike in one."""
    found = {}
    if choice == "depth":
        rows = sorted(rows, key=lambda line: int(line.chosen[choice]))
    as_known = all("states" in line.members for line in rows)
    for line in rows:
        states = states_of(line, choice) if as_known else None
        found.setdefault((states, line.members.get("found")), []).append(line.chosen[choice])
    return [Group(values, states, verdict) for (states, verdict), values in found.items()]


def states_of(line, choice):
    """The states of a row, as texts; between programs what seeds met is held together with how often."""
    states = line.members["states"]
    if isinstance(states, list):
        return frozenset(map(verdicts.state_text, (state.items() for state in states)))
    return frozenset("%s runs=%d" % pair for pair in states.items()) if choice == "program" else frozenset(states)
