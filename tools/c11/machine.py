"""A program in machine code: one function for each core, and which words several cores use."""
from .decoding import FLAGS, RBP, RSP, Decoder
from .liveness import ALL_REGISTERS, Liveness
from .processor import Core, fault
from .refusals import NotJudged
from .sharing import STACK, STACK_SIZE, SharedWords

# What a function may use below its stack pointer.
RED_ZONE = 128


class Machine(SharedWords):
    """The functions of an image that the cores run, each with the addresses that it is called with. Loops go round at most `rounds` times
    more. `uses` notes what is used."""

    joins = True

    def __init__(self, image, functions, rounds):
        super().__init__()
        self.image, self.decoder, self.rounds = image, Decoder(image), rounds
        self._functions = functions
        self._entries = {symbol.address for symbol in image.symbols.values() if symbol.kind == "function"}
        self._liveness, self.cores_count = {}, len(functions)

    def cores(self):
        """Each core before its first instruction."""
        return [Core(self, number, self._address_of(name), [self._address_of(one) for one in arguments])
                for number, (name, arguments) in enumerate(self._functions)]

    def core_at(self, address):
        """A core that begins at this address, as the first one."""
        return Core(self, 0, address)

    def _address_of(self, name):
        symbol = self.image.symbols.get(name)
        if symbol is None:
            raise NotJudged("the object has no %s" % name)
        return symbol.address

    # ---- memory

    def initial_content(self, address):
        content = self.image.initial(address, 1)
        return content[0] if content else None

    def uses(self, core, address, size, writes):
        """Notes that a core uses this word; answers whether several cores do."""
        is_shared = self.note(core.number, address, size, writes)
        if is_shared is None:
            fault("no memory lies at %#x" % address)
        if is_shared and address % size:
            raise NotJudged("%s isn't aligned" % self.image.name_at(address), self.image.place_of(core.at))
        return is_shared

    def refuse_overlaps(self):
        """Words that are used whole and in parts are read where one place can stand for them."""
        torn = self.torn()
        if torn:
            raise NotJudged("%s is used in words of %d bytes and in parts of them, which several cores write" % (
                self.image.name_at(torn[0]), torn[1]))

    # ---- loops

    def is_other_function(self, came_from, target):
        """Whether a jump is a call of another function, in the place of a return."""
        return target in self._entries and self.image.symbol_at(came_from) != self.image.symbol_at(target)

    def state_at(self, core):
        """What a core's later steps depend on, where it has jumped back: a state that compares equal has the same later steps."""
        live, dead = self._live_at(core)
        registers = tuple(core.registers[one] if one in live else None for one in range(FLAGS))
        lowest = core.registers[RSP] - RED_ZONE
        own = STACK + core.number * STACK_SIZE
        memory = frozenset((at, byte) for at, byte in core.memory.items() if at not in dead and not own <= at < lowest)
        return core.frames, registers, core.flags if FLAGS in live else None, memory

    def _live_at(self, core):
        """The registers that are live, and the bytes of the frame that are dead."""
        function = self.image.symbol_at(core.at)
        if function is None:
            return ALL_REGISTERS, frozenset()
        if function.address not in self._liveness:
            try:
                self._liveness[function.address] = Liveness(self.decoder, function.address)
            except NotJudged:
                self._liveness[function.address] = None
        known = self._liveness[function.address]
        if known is None:
            return ALL_REGISTERS, frozenset()
        base = core.registers[RBP]
        return known.registers_at(core.at) | {RSP}, {base + at for at in known.dead_slots_at(core.at)}
