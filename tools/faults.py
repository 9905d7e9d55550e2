"""What a text can't say in this project's form, and the numbers and names that it can."""
import re

import litmus

NUMBER = r"-?(?:0[xX][0-9a-fA-F]+|\d+)"
RESERVED = {"true", "false", "not", "exists", "forall", "locations", "eax", "ebx", "ecx", "edx", "esi", "edi", "esp", "ebp"}
LONGEST_NUMBER = len(str(litmus.WORD))

# Kinds of faults that more than one place tells.
SIZES, TWICE, ADDRESSES, BEYOND, INITIAL = ("other sizes", "a place that is given twice", "addresses that change or are words",
                                            "addresses beyond a word", "initial states of another form")
OPERANDS, ROWS = "operands that no such instruction has", "rows of another form"


# Characters of what is said of a fault, about.
LONGEST_WHY = 400


def shortened(why):
    half = LONGEST_WHY // 2
    return why if len(why) <= LONGEST_WHY else "%s .. %s" % (why[:half], why[-half:])


class Fault(Exception):
    """What can't be said in this project's form; `kind` says it in general, for a summary. Of what is long the middle is left out."""

    def __init__(self, why, kind):
        super().__init__(shortened(why))
        self.kind = shortened(kind)


class Refused(Exception):
    """A text that can't be said in this project's form: its faults, pairs of a line and a Fault; it speaks of the first."""

    def __init__(self, faults):
        self.faults = sorted(faults, key=lambda one: one[0])
        self.line = self.faults[0][0]
        super().__init__(str(self.faults[0][1]))


def number_in(text, is_word=False):
    """A number of 32 bits, decimal or hexadecimal; a negative one where the place has just so many (`is_word`)."""
    number = signed_in(text)
    return number if number >= 0 else word_of(number, text, is_word)


def signed_in(text):
    """A number of 32 bits, which may be negative."""
    if not re.fullmatch(NUMBER, text, re.ASCII):
        raise Fault("%s is no number" % (text or "nothing"), "numbers of another form")
    sign, digits = ("-", text[1:]) if text.startswith("-") else ("", text)
    digits, base = (digits[2:], 16) if digits[:2].lower() == "0x" else (digits, 10)
    digits = digits.lstrip("0") or "0"
    if len(digits) > LONGEST_NUMBER or int(digits, base) > (litmus.WORD // 2 if sign else litmus.WORD - 1):
        told = text if len(text) < 40 else "a number of %d digits" % len(digits)
        raise Fault("%s doesn't fit 32 bits" % told, "numbers over 32 bits")
    return -int(digits, base) if sign else int(digits, base)


def word_of(number, text, is_word):
    """The word of a negative number, where the place has 32 bits."""
    if not is_word:
        raise Fault("%s is negative: where the place has 32 bits write %d; one of 64 bits isn't read" % (text, number % litmus.WORD),
                    "negative numbers")
    return number % litmus.WORD


def location_in(name):
    """A location's name, where it can be one."""
    if not re.fullmatch(r"[A-Za-z_]\w{0,31}", name, re.ASCII) or name.lower() in RESERVED:
        raise Fault("%s is no name of a location here" % name, "names of locations")
    return name
