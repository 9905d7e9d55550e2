"""Tests made at random in which half of the instructions or more are locked: three to eight cores of two to twelve instructions."""
import random

import checks.tools  # noqa: F401: the modules of tools/ are found by it

import litmus as tool_litmus

REGISTERS = tool_litmus.REGISTERS
LOCATIONS = ("x", "y", "z", "u")
SHARES = (0.5, 0.6, 0.7, 0.8, 1.0)
QUANTIFIERS = ("exists", "exists", "exists", "~exists", "forall")


def instructions(draw, share, locations, greatest):
    """One access or fence, and before most locked ones the move of a number into their register."""
    location, register = draw.choice(locations), draw.choice(REGISTERS)
    if draw.random() < share:
        locked = tool_litmus.Instruction(draw.choice(("xchg", "xadd")), location, register)
        number = tool_litmus.Instruction("move", register=register, operand=draw.randint(0, greatest))
        return [number, locked] if draw.random() < 0.9 else [locked]
    return [draw.choices((tool_litmus.Instruction("store", location, operand=draw.randint(1, greatest)),
                          tool_litmus.Instruction("load", location, register), tool_litmus.Instruction("fence")), (50, 45, 5))[0]]


def program(draw, length, *how):
    made = []
    while len(made) < length:
        made += instructions(draw, *how)
    return made


def claim(draw, test, locations, greatest):
    """Values of two to eight places that something reads or writes, joined by "and"; of some the later ones by "or"."""
    read = sorted({(core, one.register) for core, cells in enumerate(test.programs) for one in cells if one.location and one.register})
    places = draw.sample(read, min(len(read), draw.choice((1, 2, 3, 4, 6)))) + draw.sample(locations, draw.randint(0, min(2, len(locations))))
    atoms = [("is", place, draw.randint(0, greatest + 2 * isinstance(place, str))) for place in places]
    if len(atoms) > 3 and draw.random() < 0.3:
        at = draw.randint(1, len(atoms) - 2)
        atoms[at:] = [("or", tuple(atoms[at:]))]
    return ("and", tuple(atoms)) if atoms else True


def made(seed, number):
    """The text of a test."""
    draw = random.Random("locked tests, %d of %d" % (number, seed))
    cores, longest, share = draw.randint(3, 8), draw.randint(2, 12), draw.choice(SHARES)
    locations, greatest = LOCATIONS[:draw.choice((1, 1, 2, 2, 3, 4))], draw.randint(1, 3)
    programs = [program(draw, draw.randint(max(1, longest // 2), longest), share, locations, greatest)[:longest] for _ in range(cores)]
    test, quantifier = tool_litmus.Test("locked%d" % number, programs), draw.choice(QUANTIFIERS)
    asked = claim(draw, test, locations, greatest)
    test.condition = quantifier, ("not", asked) if quantifier == "forall" else asked
    return test.text()
