"""What instructions make of registers and words: docs/DEFINITIONS.md, 'What a test does'.

The same goes for numbers, for numbers of which some aren't known, and for what is told of reads: each has a class with what is made there.
"""
from . import litmus

WORDS = 2**32

OPERATORS = {
    "ADD": lambda word, value: (word + value) % WORDS,
    "SUB": lambda word, value: (word - value) % WORDS,
    "AND": lambda word, value: word & value,
    "OR": lambda word, value: word | value,
    "XOR": lambda word, value: word ^ value,
}

EAX = litmus.REGISTERS.index("EAX")


class Numbers:
    """Plain numbers."""

    @staticmethod
    def number(value):
        return value

    @staticmethod
    def combined(operator, word, value):
        return OPERATORS[operator](word, value)

    @staticmethod
    def negated(word):
        return -word % WORDS

    @staticmethod
    def exchanged(word, eax, new):
        return new if word == eax else word


class Known(Numbers):
    """Numbers, and None where one isn't known."""

    @staticmethod
    def combined(operator, word, value):
        return None if word is None or value is None else Numbers.combined(operator, word, value)

    @staticmethod
    def negated(word):
        return None if word is None else Numbers.negated(word)

    @staticmethod
    def exchanged(word, eax, new):
        return None if word is None or eax is None else Numbers.exchanged(word, eax, new)


def operand(done, registers, made=Numbers):
    """What an instruction stores, moves or combines with: its number, or what its register holds."""
    return made.number(done.source) if done.kind in litmus.OF_NUMBERS else registers[done.source]


def updated(done, registers, word, made=Numbers):
    """What a locked instruction that read this word writes."""
    if done.kind == litmus.EXCHANGE:
        return registers[done.register]
    if done.kind == litmus.ADD:
        return made.combined("ADD", word, registers[done.register])
    if done.kind == litmus.COMPARE_EXCHANGE:
        return made.exchanged(word, registers[EAX], registers[done.register])
    if done.kind == litmus.LOCKED_NEGATE:
        return made.negated(word)
    return made.combined(done.operator, word, operand(done, registers, made))


def taken_by(done):
    """The register that gets the word that a locked instruction read, or None."""
    if done.kind == litmus.COMPARE_EXCHANGE:
        return EAX
    return done.register if done.kind in (litmus.EXCHANGE, litmus.ADD) else None


def moved(done, registers, made=Numbers):
    """The registers after a move, as a list."""
    after = list(registers)
    if done.kind in (litmus.SET_NUMBER, litmus.SET_REGISTER):
        after[done.register] = operand(done, registers, made)
    elif done.kind in (litmus.COMBINE_NUMBER, litmus.COMBINE_REGISTER):
        after[done.register] = made.combined(done.operator, registers[done.register], operand(done, registers, made))
    elif done.kind == litmus.NEGATE:
        after[done.register] = made.negated(registers[done.register])
    elif done.kind == litmus.SWAP:
        after[done.register], after[done.source] = registers[done.source], registers[done.register]
    return after
