"""The numbers of a campaign's table that a picture shows: what its rows say, which of them are asked for, and their means. A number that isn't
there is never 0: it is told, and a mean is over those tests alone that have one at each of its places."""
import csv
import itertools

import tables
import verdicts

# What a row of the table is of; a shape is three of its columns.
SHAPE = ("sets", "ways", "words")
COLUMNS = ("test", "program", "model", "protocol", "bus", "depth", *SHAPE, "core")
AXES = (*COLUMNS, "shape")

# Of what is told in lines, so many of one kind are.
MOST_TOLD = 20


class BadTable(Exception):
    """A table that isn't one of a campaign's, or from which such a picture can't be made."""


class Row:
    """A row of a campaign: what its lines of the table say of it, by column, and its numbers, pairs of a value and of how many runs ended (None
    where that counts for nothing), by core and count."""

    def __init__(self, about):
        self.about, self.numbers = about, {}

    def name(self):
        """The test with its options."""
        return " ".join(filter(None, (self.about["test"], self.about["options"])))

    def is_test(self):
        """Whether it is of a test; else of a text that is none."""
        return self.about["judged"] != verdicts.REFUSED

    def has(self, wheres):
        """Whether it has these values, pairs of a column and some; what they say of cores counts for nothing."""
        return all(self.about[column] in values for column, values in wheres if column != "core")

    def runs(self):
        """How many of its runs ended, and how many were made; None of a row that made none, or whose table doesn't say so."""
        unfinished, ended = self.numbers.get(("", "unfinished"), (0, None))
        return None if ended is None else (ended, ended + unfinished)

    def parts(self, count, cores):
        """The value of a count in one run on the average, by core, of these cores alone, or of all where they are None."""
        return {core: value / runs if core and runs else value for (core, name), (value, runs) in self.numbers.items()
                if name == count and (cores is None or core in cores)}


# ---- the table

def read_table(path):
    """The rows of a table."""
    with open(path, encoding="utf-8", newline="") as file:
        lines = csv.reader(file)
        try:
            if tuple(next(lines, ())) != tables.COLUMNS:
                raise BadTable("%s is no table of a campaign" % path)
            found = {}
            for cells in lines:
                take_line(found, list(map(tables.text_of, cells)))
        except (csv.Error, UnicodeDecodeError, ValueError) as fault:
            raise BadTable("line %d of %s is none of a campaign's table: %s" % (max(1, lines.line_num), path, fault)) from None
    return list(found.values())


def take_line(found, cells):
    """Takes the cells of a line into the row that it is of; ValueError where they are none."""
    if len(cells) != len(tables.COLUMNS):
        raise ValueError("it has %d cells, and %d are wanted" % (len(cells), len(tables.COLUMNS)))
    of_row, number = cells[:len(tables.OF_LINE)], dict(zip(tables.OF_NUMBER, cells[len(tables.OF_LINE):]))
    about = dict(zip(tables.OF_LINE, of_row))
    about["shape"] = "x".join(about[name] for name in SHAPE)
    row = found.setdefault(tuple(of_row), Row(about))
    if not number["count"]:
        return
    place = number["core"], number["count"]
    if place in row.numbers:
        raise ValueError("a line before it has this number too")
    row.numbers[place] = whole(number["value"]), whole(number["runs"]) if number["runs"] else None


def whole(text):
    """A number, 0 or more, of a cell."""
    if not (text.isascii() and text.isdigit()):
        raise ValueError("%r is no number" % text)
    return int(text)


# ---- what is asked for

class Asked:
    """The numbers of a count by the values of these axes, of those rows that `wheres` take. `values` has the number of each place that has one;
    of several tests it's the mean over those that all such places have, `tests`. `gaps` are the places without one. `told` are lines on what
    isn't there, or is of some runs alone."""

    def __init__(self, rows, count, axes, wheres):
        self.count, self.axes, self.wheres = count, axes, wheres
        cores = [set(values) for column, values in wheres if column == "core"]
        self.cores = set.intersection(*cores) if cores else None
        self.rows = [row for row in rows if row.is_test() and row.has(wheres)]
        self.check(rows)
        self.by_place, self.lacking = self.places()
        self.orders = [in_order([place[at] for place in (*self.by_place, *self.lacking)]) for at in range(len(axes))]
        self.tests, self.values = self.means()
        self.gaps = [place for place in self.wanted() if place not in self.values]
        self.told = [*self.told_of_rows(rows), *self.told_of_places()]

    # -- what can't be drawn

    def check(self, rows):
        """Refuses a count that no row has, values that none has, and rows that differ in what no axis shows."""
        counts = sorted({count for row in rows for _, count in row.numbers})
        if self.count not in counts:
            ended = [row.runs() for row in rows if row.runs()]
            none = "; none of its runs ended" if ended and not any(count for count, _ in ended) else ""
            raise BadTable("the table has no count %s; it has %s%s" % (self.count, ", ".join(counts) or "none", none))
        if not any(row.parts(self.count, self.cores) for row in self.rows):
            raise BadTable("no row that --where takes has a number of %s" % self.count if self.rows else "no line has what --where says")
        shown = {column for axis in self.axes for column in (SHAPE if axis == "shape" else (axis,))} | {"test", "core"}
        for column in COLUMNS:
            if column not in shown and len(values := sorted({row.about[column] for row in self.rows})) > 1:
                raise BadTable("the lines differ in %s: choose by --where %s=.. (%s), or show it by --against or --legend" % (
                    column, column, ", ".join(values)))

    # -- where its numbers stand

    def places(self):
        """By place and test the numbers, and the rows that lack one. A table of which two rows stand at one place is refused."""
        by_place, lacking, taken = {}, {}, {}
        for row in self.rows:
            for core, value in self.parts(row).items():
                place = tuple(core if axis == "core" else row.about[axis] for axis in self.axes)
                other = taken.setdefault((place, row.about["test"]), row)
                if other is not row:
                    raise BadTable("two rows would be one number, %s and %s: draw from a table that has one of them" % (other.name(), row.name()))
                if value is None:
                    lacking.setdefault(place, {})[row.about["test"]] = row
                else:
                    by_place.setdefault(place, {})[row.about["test"]] = value
        return by_place, lacking

    def parts(self, row):
        """The numbers of a row, by core where cores are shown and else all in one; None for each that it lacks."""
        parts = row.parts(self.count, self.cores)
        if "core" not in self.axes:
            is_whole = parts and (self.cores is None or parts.keys() == self.cores)
            return {None: sum(parts.values()) if is_whole else None}
        return parts or {core: None for other in self.rows for core in other.parts(self.count, self.cores)}

    def wanted(self):
        """All places that a picture of these axes has: of a column of tests, those that some test has a row for."""
        same = [(at, self.axes.index(axis)) for at, axis in enumerate(self.axes) if self.axes.index(axis) < at]
        places = [place for place in itertools.product(*self.orders) if all(place[at] == place[other] for at, other in same)]
        if len(self.axes) == 2:
            return places
        there = {place[1:] for place in (*self.by_place, *self.lacking)}
        return [place for place in places if place[1:] in there]

    def means(self):
        """The tests that all places have which have any, and the mean over these at each."""
        if "test" in self.axes:
            return None, {place: value for place, of_tests in self.by_place.items() for value in of_tests.values()}
        common, values = shared(self.by_place)
        if not common:
            raise BadTable("no test has a number of %s everywhere, so there is no mean: choose by --where, or draw each test by --heat" % self.count)
        return common, values

    def left_out(self):
        """The tests that have a number somewhere, and aren't of the means."""
        return [] if self.tests is None else sorted(set().union(*self.by_place.values()) - self.tests)

    # -- what is said of them

    def mean_text(self):
        """Of how many tests a number is the mean; nothing where there is one test."""
        if self.tests is None or len(self.tests) == 1 and not self.left_out():
            return ""
        return ", " + mean_of(len(self.tests), len(self.by_place), self.left_out() and list(map(self.did_not_end, self.left_out())))

    def did_not_end(self, test):
        """Whether a test lacks a number only where none of its runs ended."""
        rows = [self.lacking.get(place, {}).get(test) for place, of_tests in self.by_place.items() if test not in of_tests]
        return all(row is not None and row.runs() and row.runs()[0] == 0 for row in rows)

    def told_of_rows(self, rows):
        """What rows lack: the runs that didn't end, and numbers."""
        told = {row: row.runs() for row in self.rows if row.runs() and row.runs()[0] < row.runs()[1]}
        ended = ["%s: ended %d of %d" % (row.name(), *runs) for row, runs in told.items()]
        without = ["%s: has no number of %s" % (row.name(), self.count) for row in self.rows
                   if row not in told and not row.parts(self.count, self.cores)]
        refused = ["%s: is no test" % row.name() for row in rows if not row.is_test()]
        unsaid = any(row.about["command"] == "counts" and row.runs() is None and row.numbers for row in self.rows)
        return [*short(ended), *short(without), *short(refused)] + ["the table doesn't say how many runs had no end: write it anew"] * unsaid

    def told_of_places(self):
        """The gaps, and the tests that the means leave out."""
        gaps = ["no number of %s at %s: a gap, with a mark" % (self.count, " ".join(filter(None, place))) for place in self.gaps]
        left = self.left_out()
        return short(gaps) + (["left out of the means, since they don't have a number everywhere: %s" % ", ".join(short(left))] if left else [])


def shared(by_place):
    """The tests that all places have which have any, of numbers by place and test; and the mean over these at each such place."""
    there = {place: of_tests for place, of_tests in by_place.items() if of_tests}
    common = set.intersection(*map(set, there.values())) if there else set()
    return common, {place: sum(of_tests[test] for test in common) / len(common) for place, of_tests in there.items()} if common else {}


def mean_of(tests, places, left_out):
    """What a mean is of: so many tests, at so many places; `left_out` says of each other test whether it has no number just where none of its
    runs ended."""
    told = "mean of %d test%s" % (tests, "s" * (tests != 1))
    if not left_out:
        return told
    return told + (" that ended under " + ("both" if places == 2 else "all") if all(left_out) else " that have a number everywhere")


def short(lines):
    """These lines, or the first of them and how many more there are."""
    return lines if len(lines) <= MOST_TOLD else [*lines[:MOST_TOLD], "and %d more" % (len(lines) - MOST_TOLD)]


def in_order(values):
    """Values of a column, each once: numbers and shapes by their size, words in the order in which the table has them."""
    found = list(dict.fromkeys(values))
    sizes = [[int(part) for part in value.split("x") if part.isdigit()] for value in found]
    return [value for _, value in sorted(zip(sizes, found), key=lambda pair: pair[0])]
