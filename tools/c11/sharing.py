"""Which words several cores use. It is found by use: what is known at first is nothing, and what is found only adds to it."""

# Each core's stack, below 2 GB too; what lies beyond the first page is no memory.
STACK, STACK_SIZE, FIRST_PAGE = 0x6A000000, 0x10000, 4096
# What registers and stack hold before anything is put there.
GARBAGE_BYTE = 0xA5


class SharedWords:
    """What programs share that know words by address and size. `shared` are the bytes that several cores use, as far as is known; `noted`
    has each use, and whether it writes. `joined` has for each byte of a word that is used both whole and in parts this word, and
    `part_writers` the cores that store parts of one."""

    cores_count = 0
    # Whether words that are used both whole and in parts can be read.
    joins = False

    def __init__(self):
        self.shared, self.joined, self._bytes = frozenset(), {}, {}
        self.forget_uses()

    def forget_uses(self):
        self.noted, self.part_writers = {}, {}

    def initial_content(self, address):
        """The byte that lies there at first, or None where no variable does."""
        raise NotImplementedError

    def initial_byte(self, address):
        found = self._bytes.get(address)
        if found is None:
            content = self.initial_content(address)
            found = self._bytes[address] = GARBAGE_BYTE if content is None else content
        return found

    def initial_word(self, place):
        address, size = place
        return sum(self.initial_byte(address + at) << 8 * at for at in range(size))

    def is_stack(self, address):
        return STACK <= address < STACK + self.cores_count * STACK_SIZE

    def note(self, core, address, size, writes):
        """Notes that the core with this number uses a word; answers whether several cores do, and None where no memory lies."""
        own = STACK + core * STACK_SIZE
        if own <= address < own + STACK_SIZE and not any(at in self.shared for at in range(address, address + size)):
            return False
        key = (core, address, size)
        if key not in self.noted:
            if not self.is_stack(address) and (address < FIRST_PAGE or any(
                    self.initial_content(at) is None for at in (address, address + size - 1))):
                return None
            self.noted[key] = False
        self.noted[key] |= writes
        return any(at in self.shared for at in range(address, address + size))

    def used_by_several(self):
        """The bytes of which two cores use one, and one writes it; a stack's are its own core's too."""
        users, written = {}, set()
        for (core, address, size), writes in self.noted.items():
            for at in range(address, address + size):
                users.setdefault(at, set()).add(core)
                if self.is_stack(at):
                    users[at].add((at - STACK) // STACK_SIZE)
                    written.add(at)
                if writes:
                    written.add(at)
        return frozenset(at for at, cores in users.items() if len(cores) > 1 and at in written)

    # ---- words that are used both whole and in parts

    def learn(self):
        """Takes up what the uses tell: which bytes several cores use, and which words are joined. Answers whether it was known."""
        joined = self._found_joined() if self.joins else {}
        shared = self.shared | self.used_by_several() | joined.keys()
        known = (shared, joined) == (self.shared, self.joined)
        self.shared, self.joined = shared, joined
        return known

    def _found_joined(self):
        """For each byte of a joined word the word. Words are aligned, so of two that overlap one lies in the other."""
        owners, joined = {}, set(self.joined.values())
        for word in sorted({*self.places_apart(), *joined}, key=lambda word: -word[1]):
            owner = owners.get(word[0])
            if owner is None:
                owners.update((at, word) for at in range(word[0], word[0] + word[1]))
            else:
                joined.add(owner)
        return {at: word for at, word in owners.items() if word in joined}

    def word_of(self, address, size):
        """The place that stands for a word: the joined one that it lies in, or itself."""
        return self.joined.get(address, (address, size))

    def torn(self):
        """A joined word that one place can't stand for, or None. It can where a core that stores a part knows the rest: where all
        writes are this core's, or no store is one of a part alone."""
        for word in sorted(set(self.joined.values())):
            writers = {core for (core, address, _), writes in self.noted.items() if writes and self.word_of(address, 0) == word}
            if word in self.part_writers and len(writers) > 1:
                return word
        return None

    # ---- places

    def overlapping(self):
        """Two words of different sizes or places that overlap and that several cores use, or None; else all such words are `places`."""
        found = self.places()
        for one, other in zip(found, found[1:]):
            if one[0] + one[1] > other[0]:
                return one, other
        return None

    def places(self):
        """The words that several cores use, those that are joined as one."""
        return sorted({self.word_of(address, size) for address, size in self.places_apart()})

    def places_apart(self):
        """The words that several cores use, as they use them."""
        return {(address, size) for _, address, size in self.noted if any(at in self.shared for at in range(address, address + size))}
