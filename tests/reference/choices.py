"""Choice texts, and the choices of seeds: docs/INPUT.md, 'Choices'."""
import functools
import re

from . import lexing, litmus, seen
from .reading import Refused

STEP, DRAIN = "s", "d"

# One turn of the generator PCG32, as its paper has it: 'PCG: A Family of Simple Fast Space-Efficient Statistically Good
# Algorithms for Random Number Generation', and the reference implementation pcg-c-basic.
MULTIPLIER = 6364136223846793005
BITS_64, BITS_32 = 2**64 - 1, 2**32 - 1

# How a seed of 64 bits becomes the generator's state and stream: `seed_from_u64` of the crate rand_core.
EXPANDING_INCREMENT = 11634580027462260723


def output_of(state):
    """The word that PCG32 (XSH RR 64/32) gives of a state: 32 of its bits, turned to the right by a number of them."""
    word, by = (state >> 18 ^ state) >> 27 & BITS_32, state >> 59
    return (word >> by | word << 32 - by) & BITS_32


def generator(state, stream):
    """The words of PCG32 begun with this state, and this odd increment, without end."""
    state = state + stream & BITS_64
    while True:
        state = state * MULTIPLIER + stream & BITS_64
        yield output_of(state)


def generator_of_seed(seed):
    """The words of `Lcg64Xsh32::seed_from_u64(seed)`: a PCG32 gives four words, the lower ones first, which are the state and
    the increment, made odd."""
    words, state = [], seed
    for _ in range(4):
        state = state * MULTIPLIER + EXPANDING_INCREMENT & BITS_64
        words.append(output_of(state))
    return generator(words[0] | words[1] << 32, words[2] | words[3] << 32 | 1)


def choices_of_seed(seed, length, cores):
    """The first choices of a seed, as pairs of core and what it does, one after the other."""
    words = generator_of_seed(seed)
    for _ in range(length):
        core, drain = divmod(next(words) % (2 * cores), 2)
        yield core, DRAIN if drain else STEP


class Choices:
    """The choices that a text spells: how many, and one after the other."""

    def __init__(self, cores):
        self.cores, self.items, self.count = cores, [], 0

    def item_of(self, place):
        """The item of this choice, counted from 0, and the number of the word that begins it."""
        word = 1
        for item in self.items:
            size, words = (1, 1) if len(item) == 2 else (item[2], 3)
            if place < size:
                return item, word
            place, word = place - size, word + words
        raise IndexError(place)

    def word_of(self, place):
        """The number of the word that begins the item of this choice, counted from 0."""
        return self.item_of(place)[1]

    def __iter__(self):
        for item in self.items:
            if len(item) == 2:
                yield item
            else:
                yield from choices_of_seed(item[1], item[2], self.cores)


def read_choices(given, cores):
    """The choices that these bytes spell; raises `Refused` where they spell none."""
    words = re.findall(rb"[^ \t\r\n]+", given)
    note_separators(given)
    choices, at = Choices(cores), 0
    while at < len(words):
        item, size, used = item_at(words, at, cores)
        if choices.count + size > litmus.MOST_CHOICES:
            raise refusal(at, "TooMany")
        choices.items.append(item)
        choices.count += size
        at += used
    return choices


def note_separators(given):
    for name, byte in (("space", b" "), ("tab", b"\t"), ("carriage return", b"\r"), ("line feed", b"\n")):
        if byte in given:
            seen.note("between choices", name)


def item_at(words, at, cores):
    """The item that begins with this word, how many choices it makes, and how many words it has."""
    word = words[at]
    if word == b"seed":
        seed, length = seed_at(words, at)
        seen.note("choice", "seed")
        return ("seed", seed, length), length, 3
    choice, name = plain_choice(word)
    if choice is None:
        raise refusal(at, "BadWord")
    if choice[0] >= cores:
        raise refusal(at, "NoSuchCore")
    seen.note("choice", name)
    return choice, 1, 1


@functools.lru_cache(1000)
def plain_choice(word):
    """The core and what it does, and the name of how this word spells it; None for both where it spells no choice."""
    found = re.fullmatch(rb"([0-9]+)([sd])", word)
    if found is None:
        return None, None
    action = found[2].decode()
    return (lexing.value_of(found[1].decode()), action), action if len(found[1]) == 1 else action + " with leading zeros"


def seed_at(words, at):
    """The two numbers of `seed N M`: N is judged before M."""
    if len(words) < at + 3:
        raise refusal(at, "BadWord")
    numbers = words[at + 1:at + 3]
    for number, word in enumerate(numbers):
        value = lexing.value_of(word.decode()) if re.fullmatch(rb"[0-9]+", word) else None
        if value is None or number == 0 and value >= 2**64:
            raise refusal(at + 1 + number, "BadWord")
    return tuple(lexing.value_of(word.decode()) for word in numbers)


def refusal(at, name):
    seen.note("refusal of choices", name)
    return Refused("Refused choices word %d %s" % (at + 1, name))


def printed_choices(choices):
    """Choices on one line: DEFINITIONS.md, 'printed choices'."""
    return " ".join("%d%s" % choice for choice in choices) + "\n"
