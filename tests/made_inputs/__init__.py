"""Inputs made at random for a program and its reference, valid and damaged: `made(seed, number)` is always the same input.

    spelling       white space, comments, letters and leading zeros of tests
    drafts         tests drawn at random, as parts and tokens
    larger_set     cells and numbers of the larger set of instructions
    small_tests    tests small enough that a plain search goes through their every state
    faults         what damages a test in one known way
    fault_table    tests with a fault of each kind, and at each limit
    choice_texts   choices
    order_texts    orders
    command_lines  command lines
    makers         inputs of each kind, made of these
    must_come_up   what has to come up among them
"""
import random
import typing

from . import command_lines
from .larger_set import Larger
from .makers import SHARES, Maker

# Of so many inputs in a row the kind of each, and which of its kind it is.
SLOTS = [(kind, nth) for kind, share in SHARES for nth in range(share)]
SHARE = dict(SHARES)

# The share of inputs whose test may have the larger set of instructions.
LARGER = 0.3


class Input(typing.NamedTuple):
    """The words of a command line, standard input, and what kind of input it is."""
    words: list
    given: bytes
    kind: str


def made(seed, number):
    """The input with this number, of those that are made from this seed."""
    kind, nth = SLOTS[number % len(SLOTS)]
    turn = number // len(SLOTS) * SHARE[kind] + nth
    chance = random.Random("the instructions of %d of %d" % (number, seed))
    maker = Maker(random.Random("%d of %d" % (number, seed)), turn, Larger(chance) if chance.random() < LARGER else None)
    words, given = kind(maker)
    if kind not in (Maker.a_bad_line, Maker.tables):
        words = command_lines.with_instructions(chance, words, maker.larger is not None)
    return Input(words, given, maker.name or kind.__name__.replace("_", " "))
