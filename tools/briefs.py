"""A campaign's rows for a person who waits: a line a test, and whether each test's own claim holds."""
import answers
import verdicts

VERDICTS = {True: "Ok", False: "No"}


def text_of(line, with_options):
    """A row in one line: the test, its options if there are several rows of it, what was found, and the verdict of its condition's claim.
    Of a row that wants to be looked at it says why; and of one whose runs didn't all end how many did."""
    told = [line.members["test"], *(line.words if with_options else ()), *found_in(line)]
    told += [VERDICTS[line.claim]] if line.claim is not None else []
    if line.wants_a_look():
        told.append(line.rank)
        told += ["expected=" + line.members["expected"]] if line.rank == verdicts.DIFFERS else []
    if line.wants_a_look() or "cores" in line.members:
        told += ["- " + why for why in line.members.get("why", [])]
    return " ".join(told)


def found_in(line):
    """What a row has found, as words."""
    members = line.members
    if "cores" in members:
        return ["ended=%d" % members["ended"], *unfinished_in(members), *("%s=%d" % pair for pair in line.counted().items())]
    if "model" in line.chosen and members.get("found"):
        return ["Allowed" if members["found"] == "allowed" else "Never leaves=%d" % members["leaves"]]
    if "states" not in members:
        return []
    true, false = members["true"], members["false"]
    if true + false == 0:
        return ["states=%d" % len(members["states"]), *unfinished_in(members)]
    return [answers.word_of(true, false), str(true), str(false), *unfinished_in(members)]


def unfinished_in(members):
    """How many runs had no end, where there are such."""
    return ["unfinished=%d" % members["unfinished"]] if members.get("unfinished") else []


class Asserted:
    """What of these rows must hold: each test's own claim. `failed` are the rows where it doesn't or isn't known, `without` those whose
    tests have no condition."""

    def __init__(self, lines):
        self.failed = [line for line in lines if line.claim is False or line.claim is None and not self.has_none(line)]
        self.without = [line for line in lines if self.has_none(line)]
        self.count = len(lines)

    @staticmethod
    def has_none(line):
        """Whether a row is of a test without a condition, and was answered."""
        return line.rank in (verdicts.UNJUDGED, verdicts.SAME, verdicts.DIFFERS) and verdicts.quantifier_of(line.test) is None

    def lines(self, with_options):
        """Which rows fail, and which tests claim nothing."""
        for said, lines in (("%d of %d claims don't hold or aren't known" % (len(self.failed), self.count), self.failed),
                            ("%d tests have no condition" % len(self.without), self.without)):
            if lines:
                yield "%s: %s" % (said, ", ".join(name_of(line, with_options) for line in lines))


def name_of(line, with_options):
    """A row's test, with its options if there are several rows of it."""
    return " ".join([line.members["test"], *(line.words if with_options else ())])
