"""Which set of instructions a text needs, for scripts that ask of texts of both."""
from reference import litmus, reading


def set_of(given):
    """The set of instructions that a test's text needs: that of the grammar where it spells a test in it, or in neither."""
    _, refusal, _ = reading.read_once(given, litmus.BASIC)
    return litmus.ALL if refusal is not None and reading.read_once(given, litmus.ALL)[1] is None else litmus.BASIC


def read_test(given):
    """The test that a text spells, in the set that it needs."""
    return reading.read_test(given, set_of(given))


def words_for(given):
    """What a command line has more, that a test's text is read."""
    return [] if set_of(given) == litmus.BASIC else ["--instructions", litmus.ALL]


class Asked:
    """A program, asked to read the set that a test's text needs."""

    def __init__(self, program, given):
        self.program, self.more = program, words_for(given)

    def run(self, words, given):
        return self.program.run(words + self.more, given)
