"""Tests as C programs that run them on the processor: one block of assembler a core, and hardware.c, which runs the blocks."""
import os
import re
import string

import litmus

TOOLS = os.path.dirname(os.path.abspath(__file__))

# Bytes from one location to the next: two cache lines, since processors fetch lines in pairs.
APART = 128

# What stands for itself in a string of C, whatever stands beside it.
PLAIN = set(string.ascii_letters + string.digits + string.punctuation + " ") - set('\\"?')

# How a block names its two operands: where the locations begin, and where the core's registers are kept.
BASE, BANK = "%[memory]", "%[bank]"


def operand(value):
    return "$%d" % value if isinstance(value, int) else register(value)


def register(name):
    return "%%" + name.lower()


# Each kind in AT&T's order of operands: where it stands are the location, the register, the operand and the operator.
LINES = {
    "store": "movl {operand},{place}",
    "load": "movl {place},{register}",
    "move": "movl {operand},{register}",
    "fence": "mfence",
    "xchg": "xchgl {register},{place}",
    "xadd": "lock xaddl {register},{place}",
    "cmpxchg": "lock cmpxchgl {register},{place}",
    "locked": "lock {operator}l {operand},{place}",
    "lockedneg": "lock negl {place}",
    "combine": "{operator}l {operand},{register}",
    "neg": "negl {register}",
    "swap": "xchgl {operand},{register}",
    "nop": "nop",
}


def line_of(instruction, locations):
    """An instruction in AT&T's order of operands, as a string of an assembler block of C."""
    named = {}
    if instruction.location is not None:
        named["place"] = "%d(%s)" % (APART * locations.index(instruction.location), BASE)
    if instruction.register is not None:
        named["register"] = register(instruction.register)
    if instruction.operand is not None:
        named["operand"] = operand(instruction.operand)
    if instruction.operator is not None:
        named["operator"] = instruction.operator.lower()
    return LINES[instruction.kind].format(**named)


def block_of(name, program, locations):
    """The C function of a core: first registers from its bank, its program, last registers back into it."""
    lines = ["movl %d(%s),%s" % (4 * at, BANK, register(one)) for at, one in enumerate(litmus.REGISTERS)]
    lines += [line_of(instruction, locations) for instruction in program]
    lines += ["movl %s,%d(%s)" % (register(one), 4 * at, BANK) for at, one in enumerate(litmus.REGISTERS)]
    clobbered = ", ".join('"%s"' % one.lower().replace("e", "r", 1) for one in litmus.REGISTERS)
    return "static void %s(char *memory, uint32_t *bank) {\n  __asm__ volatile(\n%s\n    : : %s, %s : %s, \"memory\", \"cc\");\n}\n" % (
        name, "\n".join('    "%s\\n\\t"' % line for line in lines), '[memory] "r"(memory)', '[bank] "r"(bank)', clobbered)


def text_of(words):
    """A text as a string of C."""
    return '"%s"' % "".join(letter if letter in PLAIN else "\\%03o" % ord(letter) for letter in words)


def claim_of(claim, places):
    """What a claim says of an array of values, as an expression of C."""
    if isinstance(claim, bool):
        return str(int(claim))
    kind, *parts = claim
    if kind == "is":
        return "values[%d] == %du" % (places.index(parts[0]), parts[1])
    if kind == "not":
        return "!(%s)" % claim_of(parts[0], places)
    return (" && " if kind == "and" else " || ").join("(%s)" % claim_of(part, places) for part in parts[0])


def claim_function(name, test, places):
    """The C function that says whether the condition's claim holds of a state; without a condition it does of none."""
    claim = claim_of(test.condition[1], places) if test.condition else "0"
    return "static int %s(const uint32_t *values) {\n  (void)values;\n  return %s;\n}\n" % (name, claim)


def table_row(number, test, places):
    """The row of the table of tests: names, what is asked, functions, first words and registers, and the places that a state names."""
    locations = test.locations()
    quantifier, claim = test.condition or (None, None)
    condition = "NULL" if quantifier is None else text_of("%s (%s)" % (quantifier, litmus.claim_text(claim)))
    functions = ", ".join("core_%d_%d" % (number, core) for core in range(len(test.programs)))
    words = ", ".join("%du" % test.initial.get(name, 0) for name in locations) or "0"
    banks = ", ".join("{%s}" % ", ".join("%du" % test.initial.get((core, name), 0) for name in litmus.REGISTERS)
                      for core in range(len(test.programs)))
    shown = ", ".join("{-1, %d}" % locations.index(place) if isinstance(place, str) else
                      "{%d, %d}" % (place[0], litmus.REGISTERS.index(place[1])) for place in places) or "{-1, 0}"
    names = ", ".join(text_of("[%s]" % place if isinstance(place, str) else litmus.place_text(place)) for place in places) or "NULL"
    return "  {%s, %s, %s, claim_%d, %d, %d, %d, {%s}, {%s}, {%s}, {%s}, {%s}}," % (
        text_of(test.name), text_of(litmus.QUANTIFIERS[quantifier or "forall"]), condition, number, len(test.programs), len(locations),
        len(places), functions, words, banks, shown, names)


def source_of(tests):
    """The C program of these tests, each a pair of a test and the places that its states name."""
    with open(os.path.join(TOOLS, "hardware.c"), encoding="ascii") as file:
        harness = file.read()
    blocks = [block_of("core_%d_%d" % (number, core), program, test.locations())
              for number, (test, _) in enumerate(tests) for core, program in enumerate(test.programs)]
    blocks += [claim_function("claim_%d" % number, *one) for number, one in enumerate(tests)]
    most = max([1] + [len(places) for _, places in tests])
    sizes = "#define APART %d\n#define PLACES %d\n" % (APART, most)
    rows = "\n".join(table_row(number, *one) for number, one in enumerate(tests))
    table = "%s\nstatic const struct test tests[] = {\n%s\n};" % ("\n".join(blocks), rows)
    return harness.replace("/* the sizes */", sizes.rstrip()).replace("/* the tests */", table)


def is_source(data):
    """Whether these bytes are such a program."""
    with open(os.path.join(TOOLS, "hardware.c"), "rb") as file:
        return data.startswith(file.readline())


def read_counts(lines):
    """How often each tuple of values was seen, by the log of the harness's next test, which an empty line ends."""
    seen = {}
    for line in lines:
        if line == "\n":
            return seen
        found = re.match(r"(\d+) *[*:]>", line)
        if found:
            seen[tuple(map(int, re.findall(r"=(\d+);", line)))] = int(found.group(1))
    raise ValueError("the program that runs the tests ended early")
