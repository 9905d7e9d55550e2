"""What a user does on a hint, word by word: for each form of a hint the change that it names, where it names it.

A hint of no such form names no change that a script could make.
"""
import re

from checks import judging
from checks.tools import tool_runs

import litmus

# A user gives up after so many hints.
MOST_HINTS = 200

WORD = 2 ** 32


class Text:
    """A test's lines as they are written, with the line that a hint is about."""

    def __init__(self, text, number):
        self.lines, self.at = text.split("\n"), number - 1

    @property
    def line(self):
        return self.lines[self.at]

    @line.setter
    def line(self, line):
        self.lines[self.at] = line

    def text(self):
        return "\n".join(self.lines)

    def replace(self, old, new):
        """Puts a word in the place of another where that stands first on the line."""
        self.line = re.sub(r"(?<!\w)%s(?!\w)" % re.escape(old), lambda _: new, self.line, count=1)

    def rows(self):
        """The numbers of the lines between the row of cores and the condition."""
        begin = next(at for at, line in enumerate(self.lines) if re.match(r"\s*P0\b", line))
        for at in range(begin + 1, len(self.lines)):
            if re.match(r"\s*(?:(?:~\s*exists|exists|forall|locations)\b|====)", self.lines[at]):
                return
            yield at

    def column(self, core):
        """The cells of a core."""
        return [self.lines[at].split("|")[core] for at in self.rows() if self.lines[at].count("|") >= core]

    def core_of(self, name):
        """The core in whose cell a name stands first on the line."""
        return next(core for core, cell in enumerate(self.line.split("|")) if re.search(r"\b%s\b" % re.escape(name), cell))

    def cell(self, core):
        """The cell of a core on the line, without its ends."""
        return self.line.split("|")[core].strip(" ;")

    def put(self, core, *cells):
        """Puts cells in the place of a core's cell on the line: the first there, each further one into a row of its own below."""
        row = [cell.strip(" ;") for cell in self.line.split("|")]
        rows = [row[:core] + [cells[0]] + row[core + 1:]] + [[""] * core + [cell] + [""] * (len(row) - core - 1) for cell in cells[1:]]
        self.lines[self.at:self.at + 1] = [" %s ;" % " | ".join(row) for row in rows]

    def words_of(self, core):
        """All words of a core's cells, and of what else names its registers."""
        named = re.findall(r"\b0*%d\s*:\s*(%%?\w+)" % core, self.text())
        return re.findall(r"\w+", " ".join(self.column(core) + named))

    def free_register(self, core):
        """The first register that a core doesn't use, by none of its names."""
        words = self.words_of(core)
        used = {parent_of(word) for word in words} | {word.upper() for word in words}
        if any(word.lower().startswith("cmpxchg") for word in words):
            # It compares with EAX, which it doesn't name.
            used.add("rax")
        return next(one for one in litmus.REGISTERS if one not in used and "r" + one[1:].lower() not in used)

    def rename(self, core, name):
        """Gives a register of a core, by whatever names it has there, one that is read: its own, or the first free one."""
        names = names_of(name)
        own = "E" + (parent_of(name) or name)[1:].upper()
        new = own if own in litmus.REGISTERS else self.free_register(core)
        form = re.compile(r"\b(%s)\b" % "|".join(names), re.I)
        for at in self.rows():
            cells = self.lines[at].split("|")
            if core < len(cells):
                cells[core] = form.sub(new, cells[core])
            self.lines[at] = "|".join(cells)
        form = re.compile(r"(\b0*%d\s*:\s*%%?)(%s)\b" % (core, "|".join(names)), re.I)
        self.lines = form.sub(lambda found: found[1] + new, self.text()).split("\n")


def parent_of(name):
    """The register of 64 bits of which this names all or the half; None where it is none."""
    found = re.fullmatch(r"(?:[er]([abcd]x|[sd]i)|(r(?:8|9|1[0-5]))d?)", name.lower())
    return found and (found[2] or "r" + found[1])


def names_of(name):
    """The names of the register that has this one."""
    parent = parent_of(name)
    return [name] if parent is None else [parent, parent + "d"] if re.search(r"\d", parent) else [parent, "e" + parent[1:]]


def is_register(name):
    return parent_of(name) is not None or re.fullmatch(r"(?i)[abcd][lhx]|[sd]il?|[sb]p", name)


# ---- the changes of words

def write_header(text, word):
    text.replace(word, "X86")


def write_comment(text):
    text.line = re.sub(r"(?:;;|#|//)(.*)", r"(*\1 *)", text.line, count=1)


def write_divider(text):
    text.line = "===="


def write_character(text, code_point, column, cure):
    """What stands for a character, in its column."""
    before, rest = text.line[:int(column) - 1], text.line[int(column):]
    assert text.line[int(column) - 1] == chr(int(code_point, 16))
    if cure.startswith("a number has no sign"):
        number, rest = re.fullmatch(r"(\d+)(.*)", rest).groups()
        text.line = before + str(WORD - int(number)) + rest
    elif cure.startswith("leave it out"):
        text.line = before + rest
    elif cure == 'write " here and at its other end':
        text.line = before + '"' + re.sub("[\u201c-\u201e\u00ab\u00bb]", '"', rest, count=1)
    else:
        text.line = before + {"write a space": " ", "cells are split by the vertical bar |": "|"}.get(cure, cure[len("write "):]) + rest


def leave_out_type(text, kind):
    """Leaves a type out, or all of its item where that has no value."""
    place = re.search(r"\b%s\b\s*" % kind, text.line)
    rest = text.line[place.end():]
    item = re.match(r"[^;}]*", rest)[0]
    text.line = text.line[:place.start()] + (rest if "=" in item else rest[len(item):])


def leave_out_percent(text):
    text.line = text.line.replace("%", "", 1)


def close(text, bracket, number):
    """Closes a bracket at the end of the line on which it is opened."""
    text.lines[int(number) - 1] += bracket


def end_row(text):
    text.line += " ;"


def split_cells(text, sign):
    text.line = text.line.replace(sign, "|", 1)


def write_unsigned(text, signed, number):
    text.line = text.line.replace(signed, number, 1)


def leave_out_line(text):
    del text.lines[text.at]


def leave_out_above(text, number):
    del text.lines[:int(number) - 1]


def leave_out_second_test(text):
    del text.lines[text.at:]


# ---- the changes of cells

def write_cell(text, cell, told, has_end=None):
    """Writes what is told in the place of a cell, and of a second one below it; with the registers that are told to be put for others.
    Where the cell has an end of its own, it is left out."""
    cell = cell[:-2] if cell.endswith("..") else cell
    if has_end:
        text.line = re.sub(r";(?=\s*\|)", "", text.line, count=1)
    core = next(core for core, one in enumerate(text.line.split("|")) if one.strip(" ;").startswith(cell))
    first, second, rest = re.fullmatch(r"(.*?)(?:, and in the next cell (.*?))?((?:, (?:with|which|where) |; ).*)?", told).groups()
    held = re.match(r", with a free register for (\w+)", rest or "")
    # The registers that are told to be put for others, those first.
    foreign = re.findall(r"(?:; |, and )(\w+) (?:is )?for (\w+)", rest or "")
    cells = [one for one in (first, second) if one]
    for written, name in foreign:
        cells = [re.sub(r"\b%s\b" % written, name, one) for one in cells]
    if held:
        free = text.free_register(core)
        cells = [re.sub(r"\b%s\b" % held[1], free, one) for one in cells]
    text.put(core, *cells)
    for _, name in foreign:
        text.rename(core, name)


def leave_out_word(text, word):
    text.replace(word, "")


def load_compared(text, name, place):
    core = text.core_of(name)
    text.put(core, "MOV %s,[%s]" % (text.free_register(core), place))


def leave_out_cell(text, name):
    text.put(text.core_of(name), "")


def leave_out_jump(text, name):
    """Leaves out a label, or all of a cell with a jump or a compare."""
    core = text.core_of(name)
    label = re.match(r"\w+\s*:(.*)", text.cell(core))
    text.put(core, label[1].strip() if label else "")


def load_and_store(text, name):
    """A load and a store of what an instruction gives, or a register set to it; the number is the user's to find."""
    core = text.core_of(name)
    place = re.search(r"\[\w+\]", text.cell(core))
    if place:
        text.put(core, "MOV %s,%s" % (text.free_register(core), place[0]), "MOV %s,$1" % place[0])
    else:
        text.put(core, "MOV %s,$1" % re.search(r"\be\w+", text.cell(core), re.I)[0])


def go_through_register(text):
    core = next(core for core, cell in enumerate(text.line.split("|")) if cell.count("[") == 2)
    to, source = re.findall(r"\[\w+\]", text.cell(core))
    register = text.free_register(core)
    text.put(core, "MOV %s,%s" % (register, source), "MOV %s,%s" % (to, register))


def leave_out_dollar(text, register):
    text.line = text.line.replace("$" + register, register, 1)


def load_change_and_store(text, cell, *told):
    """The three instructions that one in memory is, with a register that is free."""
    core = next(core for core, one in enumerate(text.line.split("|")) if one.strip(" ;").startswith(cell))
    named, free = told[-1], text.free_register(core)
    text.put(core, *(one.replace(named, free) for one in told[:-1]))


def part_word(text, word, first):
    text.replace(word, word[:len(first)] + " " + word[len(first):].lstrip("_"))


def write_told(text, cell, told):
    core = next(core for core, one in enumerate(text.line.split("|")) if one.strip(" ;").startswith(cell))
    text.put(core, told)


def put_into_brackets(text, sign, name):
    text.line = text.line.replace(sign + name, "[%s]" % name, 1)


# ---- the changes of rows

def leave_out_bar(text, where):
    line = text.line.rstrip(" ;")
    text.line = line[:-1] + ";" if where == "at the row's end" else text.line.replace("|", "", 1)


def leave_out_cells(text, cells, cores):
    text.line = " | ".join(text.line.rstrip(" ;").split("|")[:int(cores)]) + " ;"


def add_cells(text, cells, cores):
    text.line = text.line.rstrip(" ;") + " |" * (int(cores) - int(cells)) + " ;"


# ---- the changes of places

def rename_register(text, name):
    """On a line with the register of a core, or in the core's column. What is no register is a location, which is written `[x]`."""
    found = re.search(r"\b(\d+)\s*:\s*%%?%s\b" % name, text.line)
    if is_register(name):
        text.rename(int(found[1]) if found else text.core_of(name), name)
    else:
        text.line = re.sub(r"[\[(]\s*%s\s*[\])]|\b%s\b" % (name, name), lambda _: "[%s]" % name, text.line, count=1)


def number_core(text, name):
    text.replace(name, name[1:])


def name_location(text, name):
    text.line = re.sub(r"\[\s*%s\s*\]" % name, "[x]", text.line)


def name_by_letter(text, name):
    """A location's name that began with a digit, everywhere."""
    text.lines = re.sub(r"\b%s\b" % name, "_" + name, text.text()).split("\n")


def write_number(text, name):
    text.line = re.sub(r"=\s*&?\s*%s\b" % name, "=1", text.line, count=1)


def write_equal(text):
    """Two places that are equal, each with a number."""
    places = r"((?:\d+\s*:\s*)?[A-Za-z_]\w*)"
    text.line = re.sub(places + r"\s*=\s*" + places,
                       lambda found: "((%s=0 /\\ %s=0) \\/ (%s=1 /\\ %s=1))" % (found.groups() * 2), text.line, count=1)


def write_unequal(text, sign, place, number, told):
    sign = "\u2260" if sign == "U+2260" else sign.strip("'")
    text.line = re.sub(r"%s\s*%s\s*%s\b" % tuple(map(re.escape, (place, sign, number))), lambda _: told, text.line, count=1)


def write_values(text):
    """An atom for each of several values."""
    def written(found):
        return "(%s)" % " \\/ ".join("%s=%s" % (found[1], value) for value in re.findall(r"\d+", found[2]))
    text.line = re.sub(r"((?:\d+\s*:\s*)?[A-Za-z_]\w*)\s*(?:in|=)\s*(\{[^}]*\}|\d+(?:\s*(?:,|\||or)\s*\d+)+)", written, text.line, count=1)


def leave_out_address(text, name):
    text.line = re.sub(r"\d+\s*:\s*\w+\s*=\s*%s\b" % name, "", text.line, count=1)


CURES = [
    (r"X86_64 tests aren't read: .*; if you do so by hand, begin with X86 and .*", lambda text: write_header(text, "X86_64")),
    (r"(\w+) is (?:another processor|a language): write its programs as X86 instructions, below a line X86 NAME; .*", write_header),
    (r"C is a language: tools/compiled FILE reads such a test; tso reads programs of X86 instructions, below a line X86 NAME",
     lambda text: write_header(text, "C")),
    (r"(\w+) isn't X86, and the cells below are X86's: write X86 in its place", write_header),
    (r"the cells below are X86's: write X86 in place of (X86_64)", write_header),
    (r"(\w+): write X86, in capitals", write_header),
    (r"the test begins on line (\d+), with X86: leave out what stands above it, .*", leave_out_above),
    (r"'(.*)'(?: is AT&T's order, source first; here the destination stands first(?:, and words have 32 bits)?)?: "
     r"(?:no register can hold an address: |if it is one step, |registers and locations have 32 bits: |"
     r"no register can hold an address; for the location's word |"
     r"\$ stands before numbers alone: for a constant write its number; for a location's word )?write "
     r"((?:MOV|XCHG|LOCK|MFENCE|ADD|SUB|AND|OR|XOR|INC|DEC|NEG|NOT)\b(?!.* address is in [a-z]).*?)(; leave out the ; behind it, which ends a row)?", write_cell),
    (r"(\w+) stands behind the instruction: leave it out; .*", leave_out_word),
    (r"(not) begins no condition: write (~exists) in its place", Text.replace),
    (r"(\w+) isn't read: a program has no (?:compares|jumps): leave .*", leave_out_jump),
    (r"(\w+) isn't read: a program has no compares: load the location here, as MOV EAX,\[(\w+)\], .*", load_compared),
    (r"(CALL) isn't read: write the instructions of what it calls in its place", leave_out_cell),
    (r"(\w+) isn't read: leave it out, and where its result is used write .*", leave_out_cell),
    (r"%\w+: a register is written without %: \w+|'%' can't stand in (?:the initial state|a condition): .*", leave_out_percent),
    (r"(\w+) is no register: write (\w+)", Text.replace),
    (r"'?(.*?)'?: in one step it is LOCK .*?; without LOCK write three cells: (.*?)  (.*?)  (.*?), with a free register for (\w+)", load_change_and_store),
    (r"'?(.*?)'? isn't read without LOCK, which makes it one step: (LOCK (?:CMPXCHG|XADD) .*)", write_told),
    (r"'?(.*?)'?: LOCK stands before what changes a location in one step: leave it out here: (.*)", write_told),
    (r"(\w+): write a space behind (\w+)", part_word),
    (r"(&)(\w+): a location is written \[x\] in an instruction: .*", put_into_brackets),
    (r"\$ stands before (\w+): it stands before numbers alone, and a register is written without it", leave_out_dollar),
    (r"(\w+) begins with a digit, as a number: a name begins with a letter or _, .*", name_by_letter),
    (r"(\w+): a location begins with a number, as x=1: .*", write_number),
    (r"\S+ an atom compares a place with one number: that two places are equal is written .*", write_equal),
    (r"\S+ write an atom for each value, joined by .*", write_values),
    (r"this row has \d+ cells?, and the test has \d+ cores?: \| stands only between cells, so leave out the one (at the row's end|that begins .*)",
     leave_out_bar),
    (r"this row has (\d+) cells?, and the test has (\d+) cores?: leave a cell out, .*", leave_out_cells),
    (r"this row has (\d+) cells?, and the test has (\d+) cores?: write a cell for each core, .*", add_cells),
    (r"(\w+): write (\w+), for words of 32 bits", Text.replace),
    (r"(\w+) is none of EAX, EBX, ECX, EDX, ESI, EDI\b.*", rename_register),
    (r"(\w+) has 64 bits, and registers have 32 here: .*", rename_register),
    (r"(\w+) is a part of \w+: if the whole register will do, write (\w+)", Text.replace),
    (r"(\w+): numbers are decimal: write (\d+)", Text.replace),
    (r"(\w+) is a type, and items have no types here: leave it out; if the item has no value, leave out the whole item, .*", leave_out_type),
    (r"(\w+) isn't read: for a location write a load, as MOV EAX,\[x\], and a store of the result, .*", load_and_store),
    (r"(\w+) is a label, and a program has no jumps: leave it out, .*", leave_out_jump),
    (r"(\w+) isn't read: (?:it changes .*, so leave it out|leave it out: it changes .*)", leave_out_cell),
    (r"(\S+): that (\S+) isn't (\d+) is written (~\(\S+=\d+\))", write_unequal),
    (r"MOV has the forms .*; from \[y\] to \[x\] go through a register: .*", go_through_register),
    (r"(P\w+): a core is its number alone here, as in 0:EAX", number_core),
    (r"(\w+) names no location, and no register can hold an address here: .*", name_location),
    (r"(\w+): no register can hold an address here: .*", leave_out_address),
    (r"U\+(\w+), in column (\d+), isn't ASCII: (.*)", write_character),
    (r"a comment is written \(\* \.\. \*\)", write_comment),
    (r"the dividing line between a test and its choices is ==== alone", write_divider),
    (r"a second test begins here: an input has only one, .*", leave_out_second_test),
    (r"a second header stands here: .*", leave_out_line),
    (r"(\w+) is no instruction: write ((?:LOCK )?\w+)", Text.replace),
    (r"(\w+) is an edge, and no instruction: write (MFENCE)", Text.replace),
    (r"(\w+) begins no condition: write (~exists|exists|forall)\b.*", Text.replace),
    (r"(for all) is one word here: write (forall)", Text.replace),
    (r"no ([)}]) closes the [({] of line (\d+)", close),
    (r"no ; ends (?:the row that begins with|this row at its line's end)\b.*: a row ends with ;", end_row),
    (r"'([/!])': cells are split by the vertical bar \|", split_cells),
    (r"a number has no sign: write (-\d+) as (\d+)", write_unsigned),
    (r"``` encloses a text in Markdown: leave this line out, .*", leave_out_line),
    (r"'?(.*?)'?: write (\d+[sd])(?:, in small letters)?", Text.replace),
]


def cured(text, hint):
    """The text as a user leaves it who is told this hint; None where it names no change."""
    told = re.fullmatch(r"hint: (line|word) (\d+): (.*)\n", hint)
    if not told:
        return None
    number = int(told[2]) if told[1] == "line" else line_of_word(text, int(told[2]))
    for form, change in CURES:
        found = re.fullmatch(form, told[3])
        if found:
            changed = Text(text, number)
            change(changed, *found.groups())
            return changed.text()
    return None


def line_of_word(text, number):
    """The line of a text on which this word of its choices stands, from 1."""
    test, _, choices = text.partition("\n====\n")
    before = re.match(r"\s*(?:\S+\s+){%d}" % (number - 1), choices)[0]
    return test.count("\n") + 3 + before.count("\n")


# What a hint adds to the command line where the larger set of instructions has what stands there.
LARGER_SET = "--instructions all"


def followed(program, text):
    """What a text is where its hints are followed until it is read, or None where one names no change; and the hints."""
    hints, words = [], ["run"]
    for _ in range(MOST_HINTS):
        done = program.run(words, text.encode())
        if done.returncode != judging.REFUSED:
            return text, hints
        hints.append(done.stdout.decode().strip() + ", " + done.stderr.decode().strip())
        if LARGER_SET in hints[-1] and LARGER_SET not in " ".join(words):
            words = ["run", *LARGER_SET.split()]
            continue
        text = cured(text, done.stderr.decode())
        if text is None:
            return None, hints
    return None, hints
