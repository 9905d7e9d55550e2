"""The rows of tests/data/rows/: what a program is asked, and what it must answer. One file a subject, NAME.rows:

    # Comments, and an empty line before each row.

    row both-loads-pass
    words: run --protocol mesi          the words of the command line, as a shell takes them
    status: 0                           the exit status
    input:                              standard input: a text
        X86 SB
        { }
    then 1000 times escaped: 0s\\x20\\    and more of it, so many times; any number of such parts
    output: Check valid                 standard output: a text
    errors:                             standard error: a text. Without it that is left open; `errors like: FORM` is an
                                        expression for its one line

The keys stand in this order; `words`, `status` and `output` are needed, and without `input` there is none. What stands below a line
`each row`, at the head of a file, holds of each of its rows that doesn't say otherwise.

A text is the lines below the key, each after four blanks, or one line beside the key; each line ends with a line feed. An empty line
is one of the text where a further line of the text follows. In an `escaped` text `\\r`, `\\n`, `\\t`, `\\\\` and `\\x20` stand for
bytes, and after a `\\` at a line's end stands no line feed. A text `from`, a long one, is in the file of that name in the same folder.

In place of `status`, `input` and `output` a row may have `beginnings`, a text of which each beginning is an input, and `up to`: lines
with a number of bytes and the answer to the beginnings of up to so many bytes, none where they aren't refused.

What isn't in this form is refused, with its file and line: an unknown key, one out of place, a row twice, blanks at a line's end.
"""
import dataclasses
import os
import re
import shlex

from .judging import TESTS

FOLDER = os.path.join(TESTS, "data", "rows")
ENDING = ".rows"

KEYS = ("words", "status", "input", "then", "output", "errors", "errors like", "beginnings", "up to")
NAME = re.compile(r"row ([a-z0-9][a-z0-9:-]*)")
KEY = re.compile(r"(%s)(?: ([1-9]\d*) times)?(?: (escaped|from))?:(?: (\S.*))?" % "|".join(KEYS))
INDENT = "    "
ESCAPE = re.compile(r"\\(?:([\\rnt])|x([0-9a-f]{2}))")
SIGNS = {"\\": "\\", "r": "\r", "n": "\n", "t": "\t"}


class Refused(Exception):
    """A file of rows isn't in the form; says where and why."""


@dataclasses.dataclass
class Value:
    """What a key says: a text; the lines that say it, from the first to before `end`; and the file that has the text, if another has."""
    text: bytes
    first: int
    end: int
    source: str = ""


@dataclasses.dataclass
class Row:
    """A row: its name, its file, its line there, its own values by key, and those of each row of the file."""
    name: str
    path: str
    line: int
    own: dict
    each: dict

    def value(self, key):
        found = self.own.get(key) or self.each.get(key)
        return found and found.text

    @property
    def place(self):
        return "%s:%d" % (os.path.relpath(self.path), self.line + 1)

    @property
    def words(self):
        """The words of the command line."""
        return shlex.split(self.value("words").decode())

    @property
    def status(self):
        return int(self.value("status"))

    @property
    def given(self):
        """Standard input."""
        return self.value("input") or b""

    @property
    def output(self):
        return self.value("output")

    @property
    def errors(self):
        """What standard error must be: bytes, a compiled expression, or None where it is left open."""
        form = self.value("errors like")
        return re.compile(form) if form else self.value("errors")

    def beginnings(self):
        """Each beginning of the row's text, with the answer that refuses it, or None where it isn't refused."""
        text, length = self.value("beginnings") or b"", 0
        for line in (self.value("up to") or b"").splitlines():
            last, _, answer = line.partition(b" ")
            while length <= int(last):
                yield text[:length], answer + b"\n" if answer else None
                length += 1


# ---- reading

class Reader:
    """Reads a file of rows."""

    def __init__(self, path):
        self.path, self.at, self.rows, self.each = path, 0, {}, {}
        with open(path, "rb") as file:
            *self.lines, last = file.read().decode("latin-1").split("\n")
        if last or self.lines[-1:] in ([], [""]):
            self.refuse("the last line isn't one of a row, with a line feed", len(self.lines))
        for at, line in enumerate(self.lines):
            if not re.fullmatch("[ -~]*", line):
                self.refuse("a byte that isn't printable has to be escaped", at)
            if line.endswith(" "):
                self.refuse("a blank at the line's end has to be escaped", at)

    def refuse(self, why, at=None):
        raise Refused("%s:%d: %s" % (os.path.relpath(self.path), (self.at if at is None else at) + 1, why))

    def read(self):
        """The rows by name."""
        values, row = None, None
        while self.at < len(self.lines):
            line, at = self.lines[self.at], self.at
            if line == "":
                self.empty()
            elif line.startswith("#"):
                self.at += 1
            elif line == "each row" and not self.rows and not self.each:
                values, self.at = self.each, at + 1
            elif NAME.fullmatch(line):
                self.finish(row)
                row = Row(NAME.fullmatch(line)[1], self.path, at, {}, self.each)
                values, self.at = row.own, at + 1
                self.begin(row)
            elif KEY.fullmatch(line) and values is not None:
                self.key(values, *KEY.fullmatch(line).groups())
            else:
                self.refuse("no such key here")
        self.finish(row)
        return self.rows

    def empty(self):
        following = self.lines[self.at + 1]
        if self.at == 0 or not re.match("row |each row$|#", following):
            self.refuse("an empty line that neither stands before a row nor within a text")
        self.at += 1

    def begin(self, row):
        if row.name in self.rows:
            self.refuse("the row %s stands on line %d too" % (row.name, self.rows[row.name].line + 1), row.line)
        if row.line > 0 and self.lines[row.line - 1] and not self.lines[row.line - 1].startswith("#"):
            self.refuse("no empty line before the row", row.line)
        self.rows[row.name] = row

    def finish(self, row):
        """Judges a row that is read, if there is one: whether it has what it needs."""
        if row is None:
            return
        needed = ("words", "up to") if row.value("beginnings") else ("words", "status", "output")
        missing = [key for key in needed if row.value(key) is None]
        if missing:
            self.refuse("the row %s has no %s" % (row.name, missing[0]), row.line)
        if not re.fullmatch(rb"\d+\n", row.value("status") or b"0\n"):
            self.refuse("the row %s has no number for its status" % row.name, row.line)

    def key(self, values, name, times, form, beside):
        at = self.at
        self.at += 1
        last = max([KEYS.index(key) for key in values], default=-1)
        if KEYS.index(name) <= last and not (name == "then" and last <= KEYS.index("then")):
            self.refuse("the key %s stands twice or out of place" % name, at)
        if times and name not in ("input", "then"):
            self.refuse("an input alone is given so many times", at)
        text = self.text(at, form, beside) * int(times or 1)
        if name == "then" and "input" not in values:
            self.refuse("no input stands before", at)
        if name == "then":
            text, name = values["input"].text + text, "input"
            at = values["input"].first
        values[name] = Value(text, at, self.at, beside if form == "from" else "")

    def text(self, at, form, beside):
        """The text of a key: beside it, below it, or in another file."""
        if form == "from":
            return self.content(at, beside or "")
        lines = [beside] if beside else []
        while not beside and self.at < len(self.lines) and self.is_of_text():
            lines.append(self.lines[self.at][len(INDENT):])
            self.at += 1
        if form == "escaped":
            return "".join(self.unescaped(line) for line in lines).encode("latin-1")
        return "".join(line + "\n" for line in lines).encode("latin-1")

    def is_of_text(self):
        """Whether the next line is one of a text: indented, or empty before such a line."""
        following = next((line for line in self.lines[self.at:] if line), "")
        return following.startswith(INDENT)

    def unescaped(self, line):
        goes_on = (len(line) - len(line.rstrip("\\"))) % 2 == 1
        line = line[:-1] if goes_on else line
        if "\\" in ESCAPE.sub("", line):
            self.refuse("no such escape", self.at - 1)
        made = ESCAPE.sub(lambda found: SIGNS.get(found[1]) or chr(int(found[2], 16)), line)
        return made if goes_on else made + "\n"

    def content(self, at, name):
        path = os.path.join(os.path.dirname(self.path), name)
        if not re.fullmatch(r"[a-z0-9.-]+", name) or name.endswith(ENDING) or not os.path.isfile(path):
            self.refuse("no file %s in the same folder" % name, at)
        with open(path, "rb") as file:
            return file.read()


def read(subject, folder=FOLDER):
    """The rows of a subject, by name."""
    return Reader(os.path.join(folder, subject + ENDING)).read()


def subjects(folder=FOLDER):
    return sorted(name[:-len(ENDING)] for name in os.listdir(folder) if name.endswith(ENDING))


def all_rows(without=(), folder=FOLDER):
    """The rows of all subjects but these, by name: of different subjects too, each name stands once. A file that no row names is refused."""
    found, sources = {}, set()
    for subject in subjects(folder):
        for name, row in read(subject, folder).items():
            if name in found:
                raise Refused("%s: the row %s stands in %s too" % (row.place, name, found[name].place))
            found[name] = row
            sources |= {value.source for value in row.own.values()}
    others = sorted(set(os.listdir(folder)) - sources - {subject + ENDING for subject in subjects(folder)})
    if others:
        raise Refused("%s: no row has its text from it" % os.path.join(os.path.relpath(folder), others[0]))
    return {name: row for name, row in found.items() if os.path.basename(row.path)[:-len(ENDING)] not in without}


# ---- writing

def is_plain(text):
    """Whether the text can stand without escapes."""
    return text == b"" or re.fullmatch(rb"[ -~\n]*[!-~]\n", text) is not None and b" \n" not in text


def escaped(line):
    """A line without its line feed, as it stands in an escaped text."""
    line = line.decode("latin-1").replace("\\", "\\\\").replace("\r", "\\r").replace("\t", "\\t")
    return re.sub(r"[^ -~]| $", lambda found: "\\x%02x" % ord(found[0]), line)


def escaped_lines(text):
    *lines, rest = text.split(b"\n")
    lines = [escaped(line) for line in lines]
    if rest:
        return lines + [escaped(rest) + "\\"]
    return lines[:-1] + [lines[-1] or "\\n\\"]


def lines_of(key, text):
    """The lines that say this text for a key, `input` and `then` maybe with how often."""
    plain = is_plain(text)
    head, lines = (key, text.decode().split("\n")[:-1]) if plain else (key + " escaped", escaped_lines(text))
    if len(lines) == 1 and not lines[0].startswith(" "):
        return ["%s: %s" % (head, lines[0])]
    return [head + ":"] + [INDENT + line if line else "" for line in lines]


def write(changes):
    """Writes the rows' files anew with other texts, given as triples of a row, a key of its own and a text; the rest stays as it is."""
    for path in sorted({row.path for row, _, _ in changes}):
        with open(path, encoding="ascii") as file:
            lines = file.read().split("\n")
        here = sorted(((row.own[key], key, text) for row, key, text in changes if row.path == path), key=lambda change: -change[0].first)
        for value, key, text in here:
            if value.source:
                with open(os.path.join(FOLDER, value.source), "wb") as file:
                    file.write(text)
            else:
                lines[value.first:value.end] = lines_of(key, text)
        with open(path, "w", encoding="ascii") as file:
            file.write("\n".join(lines))
