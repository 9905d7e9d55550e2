"""Why a program can't be judged."""


class NotJudged(Exception):
    """What a program has that isn't read here; `place` says where, as an address and a line of C, once that is known."""

    def __init__(self, why, place=None):
        super().__init__(why)
        self.why, self.place = why, place

    def __str__(self):
        return "%s: %s" % (self.place, self.why) if self.place else self.why
