"""What instructions make of registers and words. What isn't known is None, and so is what is made of it."""
import litmus

OPERATORS = {
    "ADD": lambda word, value: (word + value) % litmus.WORD,
    "SUB": lambda word, value: (word - value) % litmus.WORD,
    "AND": lambda word, value: word & value,
    "OR": lambda word, value: word | value,
    "XOR": lambda word, value: word ^ value,
}


def where_known(make, *values):
    return None if None in values else make(*values)


def negated(word):
    return where_known(lambda word: -word % litmus.WORD, word)


def value_of(operand, registers):
    return operand if isinstance(operand, int) else registers[operand]


def written(one, registers, word):
    """What an instruction writes to its location, where it read this word of it; None where it writes nothing."""
    if one.kind in ("store", "xchg"):
        return value_of(one.operand if one.kind == "store" else one.register, registers)
    if one.kind == "xadd":
        return where_known(OPERATORS["ADD"], word, registers[one.register])
    if one.kind == "cmpxchg":
        return where_known(lambda word, eax, new: new if word == eax else word, word, registers["EAX"], registers[one.register])
    if one.kind == "locked":
        return where_known(OPERATORS[one.operator], word, value_of(one.operand, registers))
    return negated(word) if one.kind == "lockedneg" else None


def changed(one, registers, word):
    """The registers that an instruction changes, with their values, where it read this word of its location."""
    if one.kind == "swap":
        return {one.register: registers[one.operand], one.operand: registers[one.register]}
    if one.kind == "move":
        return {one.register: value_of(one.operand, registers)}
    if one.kind == "combine":
        return {one.register: where_known(OPERATORS[one.operator], registers[one.register], value_of(one.operand, registers))}
    if one.kind == "neg":
        return {one.register: negated(registers[one.register])}
    return {name: word for name in one.written()}
