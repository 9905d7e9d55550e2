"""What standard error has beside an answer with status 0, and beside one of `outcomes` or `why` that isn't as it was asserted, whose status
is 4: docs/MESSAGES.md, 'Answers that may mislead'."""
import re

from . import litmus, printing, seen

UNUSED = "hint: line %d: the condition names %s, which no program uses and no initial state sets: it stays 0; write a name that a program has\n"
KEPT_REGISTER = "hint: line %d: the condition names %d:%s, which no instruction of core %d writes: it stays %d\n"
KEPT_LOCATION = "hint: line %d: the condition names %s, which no instruction writes: it stays %d\n"
NEVER_TRUE = "hint: line %d: %s=%d /\\ %s=%d is never true: two values of one place are joined by \\/\n"
ALIKE = "hint: %s and %s are two locations, whose names differ in case alone: write one of them where one is meant\n"
LEFT_OUT = "hint: line %d: locations lists %s, which the states leave out: --show %s shows it\n"
NEVER = "hint: Never tells of %s only:%s outcomes --depth %d tells of all runs\n"
MORE_SEEDS = " more seeds (--seeds 1000) take milliseconds, and"

MOST_SEEDS = 1000

# The last line of a sweep that never saw what the condition asks for.
NEVER_SEEN = re.compile(r"^Observation .* Never 0 ([1-9][0-9]*)\n\Z", re.MULTILINE)


def beside(command, json, depth, test, output, show=printing.CONDITION):
    """All of standard error: the hint, or nothing. `output` is what is printed for the test; `show` is that of `outcomes`."""
    if json or command not in ("run", "trace", "sweep", "outcomes", "why"):
        return b""
    for kind, told in (("a location that nothing uses", unused(test)), ("a register that nothing writes", kept_register(test)),
                       ("a location that nothing writes", kept_location(test)), ("two values of one place", never_true(test)),
                       ("names that differ in case alone", alike(test))):
        if told is not None:
            seen.note("hint beside status 0", "%s, of %s" % (kind, command))
            return told.encode()
    told = left_out(test, show) if command == "outcomes" else None
    if told is not None:
        seen.note("hint beside status 0", "what a list has and no state")
        return told.encode()
    found = NEVER_SEEN.search(output) if command == "sweep" else None
    if found is None:
        seen.note("hint beside status 0", "none")
        return b""
    seen.note("hint beside status 0", "never seen")
    runs = int(found[1])
    counted = "1 run" if runs == 1 else "%d runs" % runs
    return (NEVER % (counted, MORE_SEEDS if runs < MOST_SEEDS else "", depth)).encode()


def unused(test):
    """The hint on the first location that the condition alone names, or None."""
    if test.unused is None:
        return None
    line = next(line for atom, line, _ in test.atoms if atom[:2] == ("location", test.unused))
    return UNUSED % (line, test.locations[test.unused])


def kept_register(test):
    """The hint on the first register of the condition that no instruction of its core writes, or None."""
    for atom, line, _ in test.atoms:
        if atom[0] == "register" and not test.is_written(*atom[1:3]):
            core, register = atom[1:3]
            return KEPT_REGISTER % (line, core, litmus.REGISTERS[register], core, test.registers[core][register])
    return None


def kept_location(test):
    """The hint on the first location of the condition that no instruction writes, and that begins with another value than is asked; or
    None."""
    for atom, line, _ in test.atoms:
        if atom[0] == "location" and not test.is_stored(atom[1]) and test.words[atom[1]] != atom[2]:
            return KEPT_LOCATION % (line, test.locations[atom[1]], test.words[atom[1]])
    return None


def never_true(test):
    """The hint on the first two atoms of the condition that can't both be true, and of which neither is enough; or None."""
    found = None if test.proposition is None else contradiction(test.proposition)
    if found is None:
        return None
    *place, value = found[0]
    line = next(name for atom, _, name in test.atoms if list(atom[:-1]) == place)
    shown = "%d:%s" % (place[1], litmus.REGISTERS[place[2]]) if place[0] == "register" else test.locations[place[1]]
    return NEVER_TRUE % (line, shown, value, shown, found[1])


def contradiction(proposition):
    """An atom that another one contradicts, which is joined to it by `/\\`, and that one's value; or None. Of several parts the last is held against
    those before it first, and then these likewise."""
    kind, *inside = proposition
    if kind not in ("not", "and", "or"):
        return None
    parts = [inside[0]] if kind == "not" else inside[0]
    for at in range(len(parts) - 1, 0, -1) if kind == "and" else ():
        found = contradicted_by(parts[:at], parts[at])
        if found is not None:
            return found
    return next(filter(None, map(contradiction, parts)), None)


def contradicted_by(parts, other):
    """The first atom that these parts ask for in any case and another part contradicts, and its value there; or None."""
    beside = asked(other)
    for atom in (atom for part in parts for atom in asked(part)):
        values = [one[-1] for one in beside if one[:-1] == atom[:-1] and one[-1] != atom[-1]]
        if values:
            return atom, values[0]
    return None


def asked(proposition):
    """The atoms of registers and locations that a proposition asks for in any case, in their order."""
    if proposition[0] == "and":
        return [atom for part in proposition[1] for atom in asked(part)]
    return [proposition] if proposition[0] in ("register", "location") else []


def alike(test):
    """The hint on the first location whose name differs from an earlier one's in case alone, or None."""
    for at, name in enumerate(test.locations):
        other = next((other for other in test.locations[:at] if other.lower() == name.lower()), None)
        if other is not None:
            return ALIKE % (other, name)
    return None


def left_out(test, show):
    """The hint on the first register or location of a list `locations [..]` that the states leave out and might show; or None."""
    shown, most = printing.Looked(test, show), printing.Looked(test, printing.ALL)
    for core, name, line in test.listed:
        if core is None:
            places, at = (shown.locations, most.locations), test.locations.index(name) if name in test.locations else None
        else:
            places, at = (shown.registers, most.registers), (core, litmus.register_of(name))
        if at in places[1] and at not in places[0]:
            return LEFT_OUT % (line, name, "all" if core is None else "registers")
    return None
