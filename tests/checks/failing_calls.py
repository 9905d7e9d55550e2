"""For the scripts that break a program's world: answers under the library that makes calls of the C library fail, failing_calls.c."""

from . import program_starts

LIBRARY = "failing_calls"


def is_there(tally):
    """Whether calls can be made to fail; where not, for want of a C compiler, that counts as a failure."""
    there = program_starts.library(LIBRARY) is not None and program_starts.library("many_starts") is not None
    tally.failed += not there
    return there


def answer(program, words, given, told):
    """The answer under the library, which is told so by the environment, and the words and numbers that it noted, in their order."""
    done, notes = program_starts.answer(program.path, words, given, LIBRARY, told)
    noted = [line.split() for line in notes.decode().splitlines()]
    return done, [(word, int(number)) for word, number in noted]
