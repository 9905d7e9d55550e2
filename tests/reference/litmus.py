"""What a test is: docs/DEFINITIONS.md, 'What a test does'; the limits are those of docs/INPUT.md, 'Limits'."""
import dataclasses
import typing

REGISTERS = ("EAX", "EBX", "ECX", "EDX", "ESI", "EDI")

# Names that are no location's in any case of letters, and those that are none as they stand here: INPUT.md, 'Rows'.
NO_LOCATIONS = REGISTERS + ("ESP", "EBP")
KEYWORDS = ("true", "false", "not", "exists", "forall", "locations")

MOST_CORES = 8
MOST_LOCATIONS = 16
MOST_INSTRUCTIONS = 32
MOST_ATOMS = 256
MOST_OPEN = 64
LONGEST_TEST_NAME = 64
LONGEST_LOCATION_NAME = 32
GREATEST_WORD = 2**32 - 1
LONGEST_TEST = 65_536
LONGEST_INPUT = 1_048_576
MOST_CHOICES = 100_000

# The instructions, by what they do.
STORE_NUMBER, STORE_REGISTER, LOAD = "store a number", "store a register", "load"
SET_NUMBER, SET_REGISTER, FENCE = "set from a number", "set from a register", "fence"
EXCHANGE, ADD = "exchange", "locked add"

# Those of the larger set alone.
COMPARE_EXCHANGE, LOCKED_NEGATE = "compare and exchange", "locked negate"
LOCKED_NUMBER, LOCKED_REGISTER = "locked operator with a number", "locked operator with a register"
COMBINE_NUMBER, COMBINE_REGISTER = "operator with a number", "operator with a register"
NEGATE, SWAP, NOTHING = "negate", "swap registers", "nothing"

STORES = STORE_NUMBER, STORE_REGISTER
LOCKED = EXCHANGE, ADD, COMPARE_EXCHANGE, LOCKED_NUMBER, LOCKED_REGISTER, LOCKED_NEGATE
MOVES = SET_NUMBER, SET_REGISTER, COMBINE_NUMBER, COMBINE_REGISTER, NEGATE, SWAP, NOTHING

# Those whose source is a number, and a register.
OF_NUMBERS = STORE_NUMBER, SET_NUMBER, COMBINE_NUMBER, LOCKED_NUMBER
OF_REGISTERS = STORE_REGISTER, SET_REGISTER, COMBINE_REGISTER, LOCKED_REGISTER, SWAP

# The sets of instructions.
BASIC, ALL = "basic", "all"


class Instruction(typing.NamedTuple):
    """One instruction: its kind, its location and its register (by their numbers), the number, or the register, that a value comes
    from, and the operator, by its mnemonic."""
    kind: str
    location: typing.Optional[int] = None
    register: typing.Optional[int] = None
    source: typing.Optional[int] = None
    operator: typing.Optional[str] = None

    def registers(self):
        """The registers that it names."""
        source = self.source if self.kind in OF_REGISTERS else None
        eax = 0 if self.kind == COMPARE_EXCHANGE else None
        return {self.register, source, eax} - {None}

    def written(self):
        """The registers that it writes."""
        if self.kind == SWAP:
            return {self.register, self.source}
        if self.kind == COMPARE_EXCHANGE:
            return {0}
        return {self.register} - {None} if self.kind == LOAD or self.kind in MOVES + LOCKED else set()


@dataclasses.dataclass
class Test:
    """A test as its text spells it. `quantifier` and `proposition` are None where it has no condition. `unused` is the number
    of the first location that the condition alone names, or None. `atoms` are those of the condition that name a register or a location,
    each with its line and that of the name in it. `listed` are the names in `locations [..]`, each with a core's number, or None, and its line."""
    name: str
    locations: list
    words: list
    registers: list
    programs: list
    quantifier: typing.Optional[str] = None
    proposition: typing.Optional[tuple] = None
    unused: typing.Optional[int] = None
    atoms: tuple = ()
    listed: tuple = ()

    def cores(self):
        return len(self.programs)

    def is_written(self, core, register):
        """Whether an instruction of a core writes this register of it."""
        return any(register in done.written() for done in self.programs[core])

    def is_stored(self, location):
        """Whether an instruction writes this location."""
        return any(done.kind in STORES + LOCKED and done.location == location for program in self.programs for done in program)


def is_location(name):
    """Whether this name can be a location's: INPUT.md, 'Rows'."""
    return name.upper() not in NO_LOCATIONS and name not in KEYWORDS


def register_of(name):
    """The number of the register with this name in any case of letters, or None."""
    upper = name.upper()
    return REGISTERS.index(upper) if upper in REGISTERS else None
