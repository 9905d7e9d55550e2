"""What instructions compute: a result and flags from numbers, and nothing of memory or registers.

Flags are a tuple (carry, zero, sign, overflow, parity); None is one that the processor leaves undefined. The adjust flag isn't kept, since
no instruction that is read here looks at it.
"""
CARRY, ZERO, SIGN, OVERFLOW, PARITY = range(5)
UNDEFINED = (None,) * 5

# Each condition of jumps, SETcc and CMOVcc: the flags that it reads, and what it says of them.
CONDITIONS = {
    "o": ((OVERFLOW,), lambda o: o), "b": ((CARRY,), lambda c: c), "e": ((ZERO,), lambda z: z),
    "be": ((CARRY, ZERO), lambda c, z: c or z), "s": ((SIGN,), lambda s: s), "p": ((PARITY,), lambda p: p),
    "l": ((SIGN, OVERFLOW), lambda s, o: s != o), "le": ((ZERO, SIGN, OVERFLOW), lambda z, s, o: z or s != o),
}
OPPOSITE = {"no": "o", "ae": "b", "ne": "e", "a": "be", "ns": "s", "np": "p", "ge": "l", "g": "le"}


def mask(size):
    return (1 << 8 * size) - 1


def signed(value, size):
    """This number of so many bytes, read with a sign."""
    value &= mask(size)
    return value - (1 << 8 * size) if value >> (8 * size - 1) else value


def is_met(condition, flags):
    """Whether a condition holds; None where it looks at an undefined flag."""
    reads, says = CONDITIONS[OPPOSITE.get(condition, condition)]
    values = [flags[one] for one in reads]
    if None in values:
        return None
    return bool(says(*values)) != (condition in OPPOSITE)


def flags_of(result, size, carry, overflow):
    """The flags of a result, with this carry and overflow."""
    result &= mask(size)
    return (carry, int(result == 0), result >> (8 * size - 1), overflow, 1 - bin(result & 255).count("1") % 2)


# ---- two operands

def add(one, other, size, flags, carry=0):
    result = (one + other + carry) & mask(size)
    overflow = int(signed(one, size) + signed(other, size) + carry != signed(result, size))
    return result, flags_of(result, size, int(one + other + carry > mask(size)), overflow)


def subtract(one, other, size, flags, borrow=0):
    result = (one - other - borrow) & mask(size)
    overflow = int(signed(one, size) - signed(other, size) - borrow != signed(result, size))
    return result, flags_of(result, size, int(one < other + borrow), overflow)


def add_with_carry(one, other, size, flags):
    return add(one, other, size, flags, flags[CARRY])


def subtract_with_borrow(one, other, size, flags):
    return subtract(one, other, size, flags, flags[CARRY])


def _logic(combine):
    def meaning(one, other, size, flags):
        result = combine(one, other) & mask(size)
        return result, flags_of(result, size, 0, 0)
    return meaning


BINARY = {"add": add, "sub": subtract, "adc": add_with_carry, "sbb": subtract_with_borrow,
          "and": _logic(lambda one, other: one & other), "or": _logic(lambda one, other: one | other),
          "xor": _logic(lambda one, other: one ^ other)}
# They set flags alone.
COMPARING = {"cmp": subtract, "test": BINARY["and"]}


# ---- one operand

def increment(value, size, flags):
    result, found = add(value, 1, size, flags)
    return result, (flags[CARRY], *found[1:])


def decrement(value, size, flags):
    result, found = subtract(value, 1, size, flags)
    return result, (flags[CARRY], *found[1:])


UNARY = {"inc": increment, "dec": decrement, "neg": lambda value, size, flags: subtract(0, value, size, flags),
         "not": lambda value, size, flags: (~value & mask(size), flags)}


# ---- shifts: of a count of 0 nothing changes

def _left(value, count, bits):
    return value << count, (value >> (bits - count)) & 1 if count <= bits else None


def _right(value, count, bits):
    return value >> count, (value >> (count - 1)) & 1 if count <= bits else None


def _arithmetic_right(value, count, bits):
    whole = signed(value, bits // 8)
    return whole >> count, (whole >> (count - 1)) & 1


# The overflow of a shift by 1, from the operand, the result and the carry.
SHIFTS = {
    "shl": (_left, lambda value, result, carry, bits: (result >> (bits - 1)) ^ carry),
    "shr": (_right, lambda value, result, carry, bits: value >> (bits - 1)),
    "sar": (_arithmetic_right, lambda value, result, carry, bits: 0),
}
SHIFTS["sal"] = SHIFTS["shl"]


def shift(name, value, count, size, flags):
    bits = 8 * size
    count &= 63 if size == 8 else 31
    if count == 0:
        return value, flags
    move, overflow_of = SHIFTS[name]
    result, carry = move(value, count, bits)
    result &= mask(size)
    return result, flags_of(result, size, carry, overflow_of(value, result, carry, bits) if count == 1 else None)


def rotate(name, value, count, size, flags):
    bits = 8 * size
    count &= 63 if size == 8 else 31
    if count == 0:
        return value, flags
    turn = count % bits
    left = turn if name == "rol" else (bits - turn) % bits
    result = (value << left | value >> (bits - left)) & mask(size)
    top = result >> (bits - 1)
    carry = result & 1 if name == "rol" else top
    other = top ^ carry if name == "rol" else top ^ (result >> (bits - 2)) & 1
    return result, (carry, flags[ZERO], flags[SIGN], other if count == 1 else None, flags[PARITY])


# ---- products and single bits

def multiply(one, other, size):
    """A product with signs, cut to the size; whether it didn't fit is its carry and its overflow."""
    whole = signed(one, size) * signed(other, size)
    over = int(whole != signed(whole, size))
    return whole & mask(size), (over, None, None, over, None)


BITS = {"bt": lambda value, bit: value, "bts": lambda value, bit: value | bit, "btr": lambda value, bit: value & ~bit,
        "btc": lambda value, bit: value ^ bit}


def change_bit(name, value, number, flags):
    return BITS[name](value, 1 << number), (value >> number & 1, flags[ZERO], None, None, None)
