"""What each instruction of x86-64 does to a core: the table MEANINGS, by names of instructions."""
from . import arithmetic
from .arithmetic import mask, signed
from .decoding import RAX, RBP, RDX, RSP, Memory, Number, Register
from .events import FENCE
from .refusals import NotJudged

DEEPEST_CALLS = 16


# What a meaning answers is where to go on, or None for the next instruction.

def _move(core, instruction):
    to, source = instruction.operands
    core.put(to, core.get(source, to.size))


def _extend(core, instruction):
    to, source = instruction.operands
    core.put(to, core.get(source))


def _extend_with_sign(core, instruction):
    to, source = instruction.operands
    core.put(to, signed(core.get(source), source.size))


def _address(core, instruction):
    to, source = instruction.operands
    core.put(to, core.address(source))


def _widen(size):
    """CBW, CWDE, CDQE: the accumulator's lower half, with its sign."""
    def meaning(core, instruction):
        core.set_register(RAX, 2 * size, signed(core.register(RAX, size), size))
    return meaning


def _spread(size):
    """CWD, CDQ, CQO: the accumulator's sign into all of RDX."""
    def meaning(core, instruction):
        core.set_register(RDX, size, -1 if signed(core.register(RAX, size), size) < 0 else 0)
    return meaning


class _Flags:
    """Flags that are set once a read was answered."""

    flags = None


def _binary(core, instruction):
    to, source = instruction.operands
    operation = arithmetic.BINARY[instruction.name]
    if not instruction.is_locked:
        other, flags = core.get(source, to.size), core.flags
        # One of the two is in memory, at most: so one read, at most, waits.
        result, core.flags = operation(core.get(to), other, to.size, flags)
        core.put(to, result)
        return
    other, found = core.get(source, to.size), _Flags()

    def change(old):
        result, found.flags = operation(old, other, to.size, core.flags)
        return result, {"add": other, "sub": -other & mask(4)}.get(instruction.name)
    core.update(to, change)
    core.flags = found.flags


def _compare(core, instruction):
    to, source = instruction.operands
    other = core.get(source, to.size)
    core.flags = arithmetic.COMPARING[instruction.name](core.get(to), other, to.size, core.flags)[1]


def _unary(core, instruction):
    to, = instruction.operands
    operation = arithmetic.UNARY[instruction.name]
    if not instruction.is_locked:
        result, flags = operation(core.get(to), to.size, core.flags)
        core.put(to, result)
        core.flags = flags
        return
    found = _Flags()

    def change(old):
        result, found.flags = operation(old, to.size, core.flags)
        return result, {"inc": 1, "dec": mask(4)}.get(instruction.name)
    core.update(to, change)
    core.flags = found.flags


def _shift(operation):
    def meaning(core, instruction):
        to = instruction.operands[0]
        count = core.get(instruction.operands[1], 1) if len(instruction.operands) == 2 else 1
        result, flags = operation(instruction.name, core.get(to), count, to.size, core.flags)
        core.put(to, result)
        core.flags = flags
    return meaning


def _multiply(core, instruction):
    operands = instruction.operands
    if len(operands) == 1:
        raise NotJudged("%s isn't read" % instruction.text, core.program.image.place_of(core.at))
    to, size = operands[0], operands[0].size
    one, other = operands[-2:]
    result, core.flags = arithmetic.multiply(core.get(one, size), core.get(other, size), size)
    core.put(to, result)


def _bit(core, instruction):
    to, source = instruction.operands
    size, number = to.size, core.get(source, 1 if isinstance(source, Number) else source.size)
    if isinstance(to, Memory) and isinstance(source, Register):
        words = signed(number, source.size) >> (8 * size).bit_length() - 1
        to = Memory(to.base, to.index, to.scale, to.offset + words * size, size)
    number %= 8 * size
    if instruction.is_locked:
        old = core.update(to, lambda value: (arithmetic.change_bit(instruction.name, value, number, core.flags)[0], None))
        core.flags = arithmetic.change_bit(instruction.name, old, number, core.flags)[1]
        return
    result, flags = arithmetic.change_bit(instruction.name, core.get(to), number, core.flags)
    if instruction.name != "bt":
        core.put(to, result)
    core.flags = flags


def _exchange(core, instruction):
    one, other = instruction.operands
    if isinstance(other, Memory):
        one, other = other, one
    value = core.get(other)
    if isinstance(one, Memory):
        # XCHG with memory is locked, whatever stands before it.
        core.put(other, core.update(one, lambda old: (value, None)))
    else:
        first = core.get(one)
        core.put(one, value)
        core.put(other, first)


def _exchange_and_add(core, instruction):
    to, source = instruction.operands
    value, size = core.get(source), to.size
    if instruction.is_locked:
        old = core.update(to, lambda word: ((word + value) & mask(size), value))
        core.put(source, old)
        core.flags = arithmetic.add(old, value, size, core.flags)[1]
        return
    old = core.get(to)
    result, flags = arithmetic.add(old, value, size, core.flags)
    if isinstance(to, Memory):
        core.put(to, result)
        core.put(source, old)
    else:
        core.put(source, old)
        core.put(to, result)
    core.flags = flags


def _compare_and_exchange(core, instruction):
    to, source = instruction.operands
    size = to.size
    expected, value = core.register(RAX, size), core.get(source)
    if instruction.is_locked:
        old = core.update(to, lambda word: (value, None) if word == expected else (None, 0))
    else:
        old = core.get(to)
        # Without LOCK it writes too where the words differ: the old one.
        if isinstance(to, Memory) or old == expected:
            core.put(to, value if old == expected else old)
    core.flags = arithmetic.subtract(expected, old, size, core.flags)[1]
    if old != expected:
        core.set_register(RAX, size, old)


def _condition(core, instruction, prefix):
    met = arithmetic.is_met(instruction.name[len(prefix):], core.flags)
    if met is None:
        raise NotJudged("%s looks at a flag that is undefined" % instruction.text, core.program.image.place_of(core.at))
    return met


def _set(core, instruction):
    core.put(instruction.operands[0], int(_condition(core, instruction, "set")))


def _conditional_move(core, instruction):
    to, source = instruction.operands
    met, value = _condition(core, instruction, "cmov"), core.get(source)
    core.put(to, value if met else core.get(to))


def _branch(core, instruction):
    return instruction.operands[0].value if _condition(core, instruction, "j") else None


def _jump(core, instruction):
    target, = instruction.operands
    return _known_code(core, core.get(target))


def _call(core, instruction):
    target = _known_code(core, core.get(instruction.operands[0]))
    if len(core.frames) >= DEEPEST_CALLS:
        raise NotJudged("calls are nested more than %d deep" % DEEPEST_CALLS, core.program.image.place_of(core.at))
    core.push(instruction.next)
    core.frames = (*core.frames, instruction.next)
    return target


def _known_code(core, target):
    name = core.program.image.outside.get(target)
    if name is not None:
        raise NotJudged("%s is called, which the object doesn't have" % name, core.program.image.place_of(core.at))
    return target


def _return(core, instruction):
    target = core.pop()
    core.frames = core.frames[:-1]
    return target


def _push(core, instruction):
    operand, = instruction.operands
    core.push(core.get(operand, 8), 8)


def _pop(core, instruction):
    core.put(instruction.operands[0], core.pop())


def _leave(core, instruction):
    core.registers[RSP] = core.registers[RBP]
    core.registers[RBP] = core.pop()


def _fence(core, instruction):
    core.record(FENCE)


def _nothing(core, instruction):
    """LFENCE and SFENCE too: total store order keeps loads in order, and stores, without them."""


MEANINGS = {
    "mov": _move, "movabs": _move, "movzx": _extend, "movsx": _extend_with_sign, "movsxd": _extend_with_sign, "lea": _address,
    "cbw": _widen(1), "cwde": _widen(2), "cdqe": _widen(4), "cwd": _spread(2), "cdq": _spread(4), "cqo": _spread(8),
    **{name: _binary for name in arithmetic.BINARY}, **{name: _compare for name in arithmetic.COMPARING},
    **{name: _unary for name in arithmetic.UNARY}, **{name: _shift(arithmetic.shift) for name in arithmetic.SHIFTS},
    "rol": _shift(arithmetic.rotate), "ror": _shift(arithmetic.rotate), "imul": _multiply,
    **{name: _bit for name in arithmetic.BITS},
    "xchg": _exchange, "xadd": _exchange_and_add, "cmpxchg": _compare_and_exchange,
    **{prefix + name: meaning for prefix, meaning in (("set", _set), ("cmov", _conditional_move), ("j", _branch))
       for name in (*arithmetic.CONDITIONS, *arithmetic.OPPOSITE)},
    "jmp": _jump, "call": _call, "ret": _return, "push": _push, "pop": _pop, "leave": _leave,
    "mfence": _fence, "lfence": _nothing, "sfence": _nothing, "pause": _nothing, "nop": _nothing, "endbr64": _nothing,
}
