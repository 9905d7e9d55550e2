"""What to do about an instruction that isn't read: the same words as the program's hints have, which tests/hostile_tools.py looks after."""
import re

# Fences that change nothing in the order of plain loads and stores.
NEEDLESS = ("SFENCE", "LFENCE")

# By how its name begins, an instruction without LOCK; the first that fits counts.
UNLOCKED = (
    (("CLFLUSH", "CLWB", "PREFETCH"), "%s isn't read: leave it out: it changes no final state; what counts tells is without it"),
    (("J", "LOOP"), "%s isn't read: a program has no jumps: leave it out, and join what leads on here: 0:EAX=1 /\\ .. in exists and ~exists, "
                    "~(0:EAX=1) \\/ .. in forall; tools/compiled --object FILE.s P0 P1 reads jumps and loops"),
    (("CMOV",), "%s isn't read: write MOV in a test where it moves, and leave it out in one where it doesn't; the condition asks for the value "
                "that decides; tools/compiled --object FILE.s P0 P1 reads it"),
    (("CMP", "TEST"), "%s isn't read: a program has no compares: leave it out, and join what it finds: 0:EAX=1 /\\ .. in exists and ~exists, "
                      "~(0:EAX=1) \\/ .. in forall; tools/compiled --object FILE.s P0 P1 reads compares"),
    (("CALL",), "%s isn't read: write the instructions of what it calls in its place"),
    (("RET",), "%s isn't read: leave it out: a program ends with its last instruction"),
    (("SHL", "SHR"),
     "%s isn't read: without LOCK it isn't one step. Write a load, as MOV EAX,[x], and a store of the result, as MOV [x],$1; to change a "
     "register, MOV EAX,$1"),
)

# The same of one with LOCK.
LOCKED = (
    (("BT",), "%s isn't read: a lock is taken by MOV EAX,$1, and in the next cell XCHG [x],EAX"),
)

# Shifts whose operands are registers and numbers alone.
REGISTER = r"%?[er](?:[abcd]x|[sd]i)"
IN_REGISTERS = re.compile(r"(?i)sh[lr][lq]?\s+(?:REG\s*,\s*(?:REG|\$?\d+)|\$\d+\s*,\s*REG)".replace("REG", REGISTER))
COMPUTES = "%s isn't read: leave it out, and where its result is used write the number that is meant, as MOV [x],$2"

# Of one that computes in memory without LOCK, and in registers with it.
THREE = "in one step it is LOCK %s %s; without LOCK write three cells: MOV %s,[%s]  %s %s  MOV [%s],%s, with a free register for %s"
NOT_LOCKED = "LOCK stands before an instruction that computes in memory alone"


def is_needless(text):
    """Whether a cell is one of the needless fences."""
    return text.upper() in NEEDLESS


def of_a_step(cell):
    """What is said of a cell that computes in memory without LOCK, or in registers with it."""
    if cell.lock:
        return NOT_LOCKED
    place, mnemonic, others = cell.operands[0].base, cell.mnemonic.upper(), [str(one).lstrip("%").upper() for one in cell.operands[1:]]
    free = "EBX" if others == ["EAX"] else "EAX"
    value = ["$" + one if isinstance(operand, int) else one for one, operand in zip(others, cell.operands[1:])]
    in_one_step = ",".join(["[%s]" % place] + value)
    return THREE % (mnemonic, in_one_step, free, place, mnemonic, ",".join([free] + value), place, free, free)


def remedy(text, mnemonic, is_locked):
    """What is said of an instruction, which has this name in small letters; None where nothing is known of it."""
    name = mnemonic.upper()
    if not is_locked and IN_REGISTERS.fullmatch(text):
        return COMPUTES % name
    for begins, words in LOCKED if is_locked else UNLOCKED:
        if name.startswith(begins):
            return words % name
    return None
