#!/usr/bin/env python3
"""Holds the JSON that a built program prints against the schemas in docs/schemas/.

    tests/schemas.py PROGRAM

The answers are those of the rows in tests/data/rows/ that ask for JSON and aren't refused, and those of each example and each test of
the gallery. Each must fit the schema of its command. So that a schema which fits anything isn't taken for one, answers are then
spoiled, by a member less, a member more or a value of another type, and must not fit any more: in each place that was spoiled in few
answers before, and in one in twenty of the others. Places are the same that differ in numbers or in names of the test alone. Of traces,
which are long, those of the rows are spoiled alone.

The words of JSON Schema (draft 2020-12) that the schemas use are few, and this script knows just these; another one is an error. The
last line is 'N passed, M failed'.
"""
import collections
import copy
import json
import os
import re
import sys

sys.dont_write_bytecode = True
from checks import instruction_sets, judging, rows

# The commands that print JSON, each with its schema; and the command lines that the examples and the gallery are asked with.
COMMANDS = ("run", "trace", "counts", "outcomes", "why")
LINES = COMMANDS + ("outcomes --show all", "counts --given", "counts --seeds 2 --length 8 --bus split")

# So many places of an answer are spoiled at most. A place is spoiled so often, and then one in so many times.
MOST_PLACES = 150
OFTEN, THEN_EVERY = 40, 20
NOTES = {"$schema", "$defs", "title", "description"}
TYPES = {"object": dict, "array": list, "string": str, "boolean": bool, "integer": int, "null": type(None)}


def is_of(kind, value):
    return isinstance(value, TYPES[kind]) and (kind != "integer" or not isinstance(value, bool))


def is_same(one, other):
    return type(one) is type(other) and one == other


class Schema:
    """A schema, and what doesn't fit it."""

    def __init__(self, path):
        with open(path, encoding="utf-8") as file:
            self.whole = json.load(file)
        # Of each schema in it the words that say something, each with what reads it and what it asks.
        self.words_of = {}
        # How often each place came up to be spoiled.
        self.came_up = collections.Counter()
        # Objects and lists of the last value whose faults were asked for, each with a schema that it fits.
        self.fitting, self.learns = set(), False

    def faults(self, value):
        self.fitting, self.learns = set(), True
        found = list(self.faults_at("", self.whole, value))
        self.learns = False
        return found

    def fits(self, value):
        """Whether it fits. What it shares with the last value whose faults were asked for isn't looked through again."""
        return self.fits_at("", self.whole, value)

    def fits_at(self, place, schema, value):
        """Whether there is no fault; the first one ends the search."""
        return next(self.faults_at(place, schema, value), None) is None

    def faults_at(self, place, schema, value):
        pair, fits = (id(schema), id(value)), True
        if pair in self.fitting:
            return
        words = self.words_of.get(id(schema)) or self.words_of.setdefault(id(schema), [
            (getattr(self, "word_" + word.lstrip("$")), asked) for word, asked in schema.items() if word not in NOTES])
        for faults_of_word, asked in words:
            for fault in faults_of_word(place, schema, asked, value):
                fits = False
                yield fault
        if fits and self.learns and isinstance(value, (dict, list)):
            self.fitting.add(pair)

    def word_ref(self, place, schema, asked, value):
        return self.faults_at(place, self.whole["$defs"][asked.rsplit("/", 1)[1]], value)

    def word_type(self, place, schema, asked, value):
        return () if is_of(asked, value) else ("%s is no %s" % (place, asked),)

    def word_const(self, place, schema, asked, value):
        return () if is_same(asked, value) else ("%s isn't %r" % (place, asked),)

    def word_enum(self, place, schema, asked, value):
        return () if any(is_same(one, value) for one in asked) else ("%s is none of %r" % (place, asked),)

    def word_oneOf(self, place, schema, asked, value):
        fitting = [one for one in asked if self.fits_at(place, one, value)]
        return () if len(fitting) == 1 else ("%s fits %d of %d forms" % (place, len(fitting), len(asked)),)

    def word_minimum(self, place, schema, asked, value):
        return ("%s is below %d" % (place, asked),) if is_of("integer", value) and value < asked else ()

    def word_maximum(self, place, schema, asked, value):
        return ("%s is above %d" % (place, asked),) if is_of("integer", value) and value > asked else ()

    def word_pattern(self, place, schema, asked, value):
        is_wrong = is_of("string", value) and not re.search(asked, value)
        return ("%s isn't of the form %s" % (place, asked),) if is_wrong else ()

    def word_minItems(self, place, schema, asked, value):
        return ("%s has fewer than %d items" % (place, asked),) if is_of("array", value) and len(value) < asked else ()

    def word_maxItems(self, place, schema, asked, value):
        return ("%s has more than %d items" % (place, asked),) if is_of("array", value) and len(value) > asked else ()

    def word_items(self, place, schema, asked, value):
        for at, item in enumerate(value if is_of("array", value) else ()):
            if (id(asked), id(item)) not in self.fitting:
                yield from self.faults_at("%s/%d" % (place, at), asked, item)

    def word_maxProperties(self, place, schema, asked, value):
        return ("%s has more than %d members" % (place, asked),) if is_of("object", value) and len(value) > asked else ()

    def word_required(self, place, schema, asked, value):
        return ["%s lacks %s" % (place, name) for name in asked if name not in value] if is_of("object", value) else ()

    def word_properties(self, place, schema, asked, value):
        for name in asked if is_of("object", value) else ():
            if name in value and (id(asked[name]), id(value[name])) not in self.fitting:
                yield from self.faults_at(place + "/" + name, asked[name], value[name])

    def word_propertyNames(self, place, schema, asked, value):
        for name in value if is_of("object", value) else ():
            yield from self.faults_at("the name %s/%s" % (place, name), asked, name)

    def word_additionalProperties(self, place, schema, asked, value):
        others = [name for name in value if name not in schema.get("properties", {})] if is_of("object", value) else []
        for name in others:
            if asked is False:
                yield "%s has %s" % (place, name)
            else:
                yield from self.faults_at(place + "/" + name, asked, value[name])


def places(value, place=()):
    """Each place in a value, as the names and numbers that lead there."""
    yield place
    for key in value if isinstance(value, dict) else range(len(value)) if isinstance(value, list) else ():
        yield from places(value[key], place + (key,))


def put(value, place, change):
    """The value changed at this place; what doesn't stand on the way there is shared with it."""
    if not place:
        return change(value)
    changed = copy.copy(value)
    changed[place[0]] = put(value[place[0]], place[1:], change)
    return changed


def at(value, place):
    for key in place:
        value = value[key]
    return value


def free(place):
    """Whether members at this place have names of the test's own, so that one less or one more still fits."""
    return bool(place) and place[-1] in ("coherence", "memory", "places", "seen", "values")


def without(name):
    return lambda inside: {key: kept for key, kept in inside.items() if key != name}


def form_of(place):
    """The place without numbers and names of the test's own."""
    return tuple("" if isinstance(key, int) or free(place[:number]) else key for number, key in enumerate(place))


def is_spoiled(place, came_up):
    """Whether this place is spoiled now, by how often it came up before."""
    form = form_of(place)
    came_up[form] += 1
    return came_up[form] <= OFTEN or came_up[form] % THEN_EVERY == 0


def spoiled(value, came_up):
    """The value spoiled in some hundred places at most: a member less, a member more, and another type."""
    every_place = list(places(value))
    for place in every_place[:: len(every_place) // MOST_PLACES + 1]:
        if not is_spoiled(place, came_up):
            continue
        here = at(value, place)
        yield put(value, place, lambda inside: 0.5)
        if isinstance(here, dict) and not free(place):
            yield put(value, place, lambda inside: dict(inside, other=0))
            for name in here:
                if name != "bus":
                    yield put(value, place, without(name))


def answers(program):
    """What the rows, the examples and the gallery print as JSON: a name, the command, and the line."""
    for name, row in sorted(rows.all_rows(without=("hints", "refusals")).items()):
        if "--json" in row.words and row.output.startswith(b"{"):
            yield name, row.words[0], row.output
    for name, given in judging.all_inputs():
        more = instruction_sets.words_for(given.partition(judging.DIVIDER)[0])
        for command, *words in map(str.split, LINES):
            done = judging.run(program, [command, "--json", *words, *more], given)
            if done.stdout.startswith(b"{"):
                yield " ".join([name, *words]), command, done.stdout


def faults_of(schema, line, is_long):
    """How an answer doesn't fit its schema; and, of one that isn't long, how it fits where it is spoiled."""
    value = json.loads(line)
    faults = schema.faults(value)
    if not faults and not is_long:
        faults = ["spoiled it still fits: " + json.dumps(one)[:200] for one in spoiled(value, schema.came_up) if schema.fits(one)]
    return faults[:5]


def main():
    program = judging.asked(__doc__, with_part=False).program
    schemas = {name: Schema(os.path.join(judging.TOP, "docs", "schemas", name + ".json")) for name in COMMANDS}
    tally = judging.Tally()
    for name, command, line in answers(program):
        is_long = command == "trace" and ".litmus" in name
        tally.add(command, [(name, faults_of(schemas[command], line, is_long))])
    return tally.end()


if __name__ == "__main__":
    sys.exit(main())
