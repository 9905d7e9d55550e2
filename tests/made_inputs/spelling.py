"""How the tokens of a test, and its lines, are spelled: white space, comments, letters, leading zeros."""

SPACES = ("", " ", "  ", "\t", "\n", "\r\n", "\r", " \t ", "\n\n ")

# What comments, quotations and key lines are filled with, beside bytes of any kind.
FILLING = ("a", "B", "7", " ", "  ", "*", "(", ")", ";", "{", "}", "|", "=", "[", "\t", "(*", "exists", "P0", "\x01", "\xe9",
           "\x80", "$", "\\")

WORD_BYTES = "abcdefghijklmnopqrstuvwxyzABCDEFGHIJKLMNOPQRSTUVWXYZ0123456789_"
DIGITS = "0123456789"

STYLES = ("table", "table", "table", "tight", "spaced", "wild", "wild")


class Speller:
    """Spells a test's parts in one style, drawn or given. Texts are strings whose characters are bytes."""

    def __init__(self, draw, style=None):
        self.draw = draw
        self.style = style or draw.choice(STYLES)

    def filling(self, without):
        """Some text in which none of these strings occurs."""
        text = "".join(self.draw.choice(FILLING) for _ in range(self.draw.randrange(6)))
        for string in without:
            text = text.replace(string, "")
        return text

    def comment(self):
        text = self.filling(()) + self.draw.choice(("", "\n", "\r\n"))
        while "*)" in text:
            text = text.replace("*)", "")
        return "(*" + text + self.draw.choice((" ", "*", "")) + "*)"

    def gap(self):
        """What stands between two tokens."""
        if self.style == "tight":
            return ""
        if self.style in ("table", "spaced"):
            return " "
        gap = self.draw.choice(SPACES)
        return gap + self.comment() + self.draw.choice(SPACES) if self.draw.random() < 0.15 else gap

    def joined(self, tokens):
        """These tokens, with at least a space where two of them would be one."""
        text = ""
        for token in tokens:
            gap = self.gap()
            if not gap and text and text[-1] in WORD_BYTES and token[:1] in WORD_BYTES:
                number_before = self.trailing_word(text).isdigit()
                gap = "" if number_before and token[0] not in DIGITS and self.draw.random() < 0.5 else " "
            text += gap + token
        return text + self.gap()

    def trailing_word(self, text):
        begin = len(text)
        while begin > 0 and text[begin - 1] in WORD_BYTES:
            begin -= 1
        return text[begin:]

    def letters(self, word):
        """A mnemonic or a register, in some case of letters."""
        kind = self.draw.random()
        if kind < 0.6 or self.style == "table":
            return word
        return word.lower() if kind < 0.8 else "".join(self.draw.choice((letter, letter.lower())) for letter in word)

    def number(self, value):
        """A number, sometimes with leading zeros."""
        zeros = self.draw.choice((0, 0, 0, 0, 0, 1, 2, 45)) if self.style != "table" else 0
        return "0" * zeros + str(value)

    def line_end(self):
        return "\r\n" if self.style == "wild" and self.draw.random() < 0.3 else "\n"
