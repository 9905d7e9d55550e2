"""What is no answer of the program `tso`: kinds of NoAnswer."""
import re
import typing

from .making import made
from .records import State, Trace


class NoAnswer(Exception):
    """The program gave no answer."""


class NoProgram(NoAnswer):
    """There is no program, or it can't be run."""


class BadWords(NoAnswer):
    """The command line was refused: an option or a command that the program hasn't, or a value out of its range."""


class TookTooLong(NoAnswer):
    """The program didn't answer within this many `seconds`."""

    def __init__(self, seconds):
        super().__init__("took over %g seconds" % seconds)
        self.seconds = seconds


class Failed(NoAnswer):
    """The program ended with another `status`: memory, input or output failed."""

    def __init__(self, status, said):
        super().__init__("status %d: %s" % (status, " ".join(said.split())[:200]))
        self.status = status


class Refused(NoAnswer):
    """A text was refused: `text` is which one (test, choices, order or input), `line` of it or `word` the number of the place, counted from
    1, where it has one, `name` the fault's name (docs/MESSAGES.md has each), and `hint` what to do, or None."""

    def __init__(self, said, hint):
        super().__init__(said + (": " + hint if hint else ""))
        found = re.fullmatch(r"Refused (\w+)(?: line (\d+)| word (\d+))? (\w+)", said)
        self.text, line, word, self.name = found.groups() if found else ("input", None, None, said)
        self.line, self.word, self.hint = line and int(line), word and int(word), hint


class Unfinished(NoAnswer):
    """A limit was met before there was an answer: `states` of outcomes, `cases` of why, or of run and trace the choices `used` before the
    test's end, of which so many `stalled`; `trace` is that of `trace`. Of outcomes `met` is a list of the final states that were met, some of
    all that there are, and `verdict` is Ok or No where one of them decides it. What doesn't apply is None."""

    def __init__(self, answer, hint):
        limit = answer["unfinished"]
        super().__init__("unfinished: " + ", ".join("%s=%s" % pair for pair in sorted(limit.items())))
        self.states, self.cases, self.used, self.stalled = map(limit.get, ("states", "cases", "used", "stalled"))
        self.trace, self.hint = made(Trace, answer["trace"]) if "trace" in answer else None, hint
        self.met, self.verdict = made(typing.Optional[list[State]], answer.get("met")), answer.get("verdict")
