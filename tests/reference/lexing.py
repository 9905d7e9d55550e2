"""Bytes, lines, white space, comments and tokens of a test's text: docs/DEFINITIONS.md, 'The grammar of a test, apart from how it
is read', and docs/INPUT.md, 'The test'."""
import re
import typing

from . import litmus, seen

WHITE = re.compile(rb"[ \t\r\n]*")
LETTERS = b"abcdefghijklmnopqrstuvwxyzABCDEFGHIJKLMNOPQRSTUVWXYZ"
DIGITS = b"0123456789"

NUMBER, NAME, SYMBOL, END = "number", "name", "symbol", "end"

# A token after white space alone; what begins a comment is none.
TOKEN = re.compile(rb"[ \t\r\n]*(?:(?P<number>[0-9]+)|(?P<name>[A-Za-z_][A-Za-z0-9_]*)|(?P<symbol>/\\|\\/|[=;:\[\]{}|,$~)]|\((?!\*)))")

# The same of the larger set: hexadecimal numbers and a sign.
LARGER_TOKEN = re.compile(rb"[ \t\r\n]*(?:(?P<number>0[xX][0-9A-Fa-f]+|[0-9]+)|(?P<name>[A-Za-z_][A-Za-z0-9_]*)"
                          rb"|(?P<symbol>/\\|\\/|[=;:\[\]{}|,$~)-]|\((?!\*)))")

# Numbers of more digits than this are beyond every limit; what they say exactly is never asked.
MANY_DIGITS = 40


class Fault(Exception):
    """A text spells no test: the refusal's name, the place in the text, and which case of the table it is."""

    def __init__(self, name, place, case):
        super().__init__(name, place, case)
        self.name, self.place, self.case = name, place, case


class Token(typing.NamedTuple):
    """A token, its text and the place of its first byte; the end of the text is one too."""
    kind: str
    text: str
    place: int

    def is_symbol(self, text):
        return self.kind == SYMBOL and self.text == text

    def is_word(self, text):
        return self.kind == NAME and self.text == text

    def is_location(self):
        """Whether this is a location's name; asked only where one would fit."""
        if self.kind != NAME:
            return False
        if not litmus.is_location(self.text):
            seen.note("no location", self.text if self.text in litmus.KEYWORDS else self.text.upper())
            return False
        return True

    def is_register(self):
        return self.kind == NAME and litmus.register_of(self.text) is not None


def plain_digits(digits):
    """A number's digits without leading zeros, by which numbers of any size are the same or not."""
    return digits.lstrip("0") or "0"


def value_of(digits):
    """What these digits say; of a number of very many digits, one that is beyond every limit. A negative number, which has a sign before
    its digits, is the word that it is modulo 2^32; below -2^31 it is beyond every limit."""
    if digits.startswith("-"):
        size = value_of(digits[1:])
        return -size % 2**32 if size <= 2**31 else 10**MANY_DIGITS
    if digits[:2] in ("0x", "0X"):
        digits = digits[2:].lstrip("0") or "0"
        return int(digits, 16) if len(digits) <= MANY_DIGITS else 10**MANY_DIGITS
    digits = plain_digits(digits)
    return int(digits) if len(digits) <= MANY_DIGITS else 10**MANY_DIGITS


class Text:
    """A test's text, with the set of instructions that it may have."""

    def __init__(self, given, instructions=litmus.BASIC):
        self.bytes, self.instructions = given, instructions
        self.token = TOKEN if instructions == litmus.BASIC else LARGER_TOKEN

    def line_of(self, place):
        """1 plus the number of line feeds before this place."""
        return 1 + self.bytes.count(b"\n", 0, place)

    def gap_end(self, place, where):
        """The first place from this one on that is neither white space nor in a comment."""
        while True:
            place = WHITE.match(self.bytes, place).end()
            if not self.bytes.startswith(b"(*", place):
                return place
            place = self.comment_end(place, where)

    def comment_end(self, place, where):
        """The place after the comment that begins here; it ends with the first '*)' after its first two bytes."""
        end = self.bytes.find(b"*)", place + 2)
        if end < 0:
            raise Fault("Unclosed", place, "a comment " + where)
        return end + 2

    def line_end(self, place):
        """The place of the first line feed from here on, or the end of the text."""
        end = self.bytes.find(b"\n", place)
        return len(self.bytes) if end < 0 else end


class Tokens:
    """The tokens of a text from a place on, one after the other."""

    def __init__(self, text, place):
        self.text, self.place = text, place
        self.looked = None

    def look(self, where):
        """The next token, which stays. A byte that begins none, and a name that is too long, are refused."""
        if self.looked is None:
            self.looked = self.read(where)
        return self.looked[0]

    def take(self, where):
        """The next token, which is gone then."""
        token = self.look(where)
        self.place, self.looked = self.looked[1], None
        return token

    def read(self, where):
        given = self.text.bytes
        found = self.text.token.match(given, self.place)
        if found is None:
            place = self.text.gap_end(self.place, where)
            if place == len(given):
                return Token(END, "", place), place
            found = self.text.token.match(given, place)
            if found is None:
                raise Fault("BadToken", place, "a byte that begins nothing " + where)
        token = Token(found.lastgroup, found[found.lastgroup].decode(), found.start(found.lastgroup))
        if token.kind == NAME and len(token.text) > litmus.LONGEST_LOCATION_NAME:
            raise Fault("BadToken", token.place, "a name of more than 32 bytes " + where)
        return token, found.end()
