"""A test of herd or diy, for X86 or X86_64, in this project's form; or all that can't be said in it, each with its line."""
import bisect
import contextlib
import re

import claims
import comments
import forms
import litmus
import registers
import remedies
import words
from cells import COMPUTING, DOING_NOTHING, Memory, cell_in
from faults import ADDRESSES, INITIAL, NUMBER, OPERANDS, ROWS, TWICE, Fault, Refused, number_in, word_of
from litmus import Instruction

# Faults that are told of one text, and tokens that its condition has, at most.
MOST_FAULTS, MOST_TOKENS = 200, 20_000

# The line of facts that says which fences a test was left without, each with its core.
LEFT_OUT = "Left out"


def is_address(value):
    """Whether the text of an item's value, or None, is no number."""
    return value is not None and not re.fullmatch(NUMBER, value)


class Importer:
    """One text on its way: lines are counted by what stands before. Fences that change nothing are left out, if so asked."""

    def __init__(self, text, leave_out=False):
        self.length, self.leave_out = len(text), leave_out
        self.text = forms.DIVIDER.split(text.replace("\r", ""), maxsplit=1)[0]
        self.faults, self.names, self.words, self.left_out = [], {}, None, []
        self.breaks = [found.start() for found in re.finditer("\n", self.text)]

    def test(self):
        """The test, or Refused."""
        if self.length > litmus.LONGEST_TEXT:
            told = "a test's text has at most %d bytes, and this one has %d" % (litmus.LONGEST_TEXT, self.length)
            self.refuse(1, told, "limits of a test")
        name, facts, opened = self.beginning()
        closed = self.closing(opened)
        items = self.items(opened + 1, closed)
        end = self.end_of_rows(closed + 1)
        columns = self.columns(closed + 1, end)
        tokens, shown = self.condition_tokens(end)
        self.name_registers(items, columns, tokens, shown)
        programs = [self.program(core, column) for core, column in enumerate(columns)]
        initial = self.initial(items)
        condition = self.condition(self.without_signs(tokens))
        for location, line in self.words.too_narrow():
            with self.at(line):
                raise Fault("%s has words of 4 bytes, and 8 are used: one size alone is read" % location, "more bytes than a word has")
        initial.update(self.words.first_words())
        test = litmus.Test(name, programs, initial, facts, condition)
        self.keep_limits(test)
        if self.faults:
            raise Refused(self.faults)
        test.facts = self.facts(test, shown)
        return test

    # ---- lines and faults

    def line(self, place):
        return 1 + bisect.bisect_left(self.breaks, place)

    def last_line(self):
        return self.line(len(self.text.rstrip()))

    @contextlib.contextmanager
    def at(self, line):
        """What is refused within stands on this line, and the rest of the text is looked at all the same."""
        try:
            yield
        except Fault as fault:
            self.faults.append((line, fault))
            if len(self.faults) >= MOST_FAULTS:
                self.refuse(line, "the text has more faults than are told", "texts with very many faults")

    def refuse(self, line, why, kind):
        """Ends the reading: nothing more of this text can be looked at."""
        raise Refused(self.faults + [(line, Fault(why, kind))])

    # ---- what stands before the initial state

    def beginning(self):
        """The test's name, its lines of facts, and the place of the initial state. What follows has blanks for comments."""
        self.comments = comments.Nested(self.text)
        at = self.behind_comments(0)
        header = forms.HEADER.match(self.text, at)
        if not header:
            self.refuse(self.line(at) if self.text[at:] else 1, "a test begins with X86 NAME or X86_64 NAME", "no header of X86 or X86_64")
        self.words = words.Words(self.text, header.group(1) == "X86_64")
        name = comments.without_comments(header.group(2), "").strip()
        if not name or len(name) > litmus.LONGEST_NAME or not re.fullmatch(r"[ -~]+", name):
            with self.at(self.line(header.start(1))):
                raise Fault("a name has 1 to %d printable bytes" % litmus.LONGEST_NAME, "names of tests")
        facts, at = [], self.behind_comments(header.end())
        while self.text[at:at + 1] != "{":
            if at == len(self.text):
                self.refuse(self.last_line(), "there is no initial state { .. }", "no initial state")
            found = litmus.FACT.match(self.text, at)
            if found:
                facts.append(found.group().rstrip())
            at = self.behind_comments(found.end() if found else forms.REST_OF_LINE.match(self.text, at).end())
        self.blank_comments(at)
        return name, facts, at

    def comment_end(self, begin):
        """The end of the comment that begins here."""
        end = self.comments.end(begin)
        return end or self.refuse(self.line(begin), "a comment isn't closed", "comments that aren't closed")

    def behind_comments(self, at):
        """The first place from here on where no white space and no comment stands."""
        while True:
            at = comments.BLANKS.match(self.text, at).end()
            if not self.text.startswith("(*", at):
                return at
            at = self.comment_end(at)

    def blank_comments(self, at):
        parts, done = [], 0
        while (at := self.text.find("(*", at)) >= 0:
            end = self.comment_end(at)
            parts += [self.text[done:at], re.sub(r"[^\n]", " ", self.text[at:end])]
            at = done = end
        self.text = "".join(parts + [self.text[done:]])

    # ---- the initial state

    def closing(self, opened):
        """The place of the brace that ends the initial state."""
        depth = 0
        for mark in re.compile(r"[{}]").finditer(self.text, opened):
            depth += 1 if mark.group() == "{" else -1
            if depth == 0:
                return mark.start()
        return self.refuse(self.last_line(), "there is no initial state { .. }", "no initial state")

    def items(self, begin, end):
        """The items of the initial state but for arrays: a place, a text (None where it says a type alone), and a line."""
        found, place = [], begin
        for item in self.text[begin:end].split(";"):
            line = self.line(place + len(item) - len(item.lstrip()))
            place += len(item) + 1
            with self.at(line):
                read = self.item(" ".join(item.split()))
                if read is not None:
                    found.append((*read, line))
        return found

    def item(self, item):
        """The place and the text of an item; None where it is empty, or an array."""
        array = forms.ARRAY.fullmatch(item)
        if array:
            self.words.add_array(item, *array.groups())
        if array or not item:
            return None
        if "*" in item or re.search(r"\w\s*\[", item):
            raise Fault("%s: arrays and pointers aren't read" % item, "pointers, or arrays of another form")
        form = forms.ITEM.fullmatch(item)
        if not form:
            raise Fault("%s is no item of an initial state that is read here" % item, INITIAL)
        kind, core, register, location, value = form.groups()
        size = words.size_of_type(item, kind)
        if kind is None and value is None:
            raise Fault("%s has no value" % item, INITIAL)
        if is_address(value):
            self.keep_address(item, register, value)
        if core is not None:
            return (number_in(core), register), value
        self.words.state(self.words.location(location), size)
        return location, value

    def keep_address(self, item, register, value):
        """Refuses an address that isn't that of a location in a whole register."""
        if register is None or not re.fullmatch(r"[A-Za-z_]\w*", value):
            raise Fault("%s: addresses aren't read, a word begins as a number" % item, ADDRESSES)
        if self.words.wide and (registers.whole(register) or ("", 8))[1] == 4:
            raise Fault("%s: an address has a whole register" % item, ADDRESSES)

    def initial(self, items):
        """First words and registers; those of elements come later."""
        found, valued = {}, set()
        for given, value, line in items:
            with self.at(line):
                place = self.named(given)
                if isinstance(place, str):
                    found.setdefault(place, 0)
                if value is None or place is None:
                    continue
                if place in valued:
                    raise Fault("%s is given twice" % litmus.place_text(place), TWICE)
                valued.add(place)
                found[place] = number_in(value, self.is_word(given))
        return found

    def is_word(self, place):
        """Whether a place, by its name in the file, has 32 bits and no more."""
        if isinstance(place, str):
            return self.words.is_word(place)
        return registers.whole(place[1]) is not None and registers.whole(place[1])[1] == 4

    def named(self, place):
        """A place of the initial state with the name that it has here; None for a register that holds an address, or that has no name
        since something is refused."""
        if isinstance(place, str):
            return self.words.location(place)
        found = registers.whole(place[1])
        name = self.names[place[0]].given.get(found[0]) if found and place[0] in self.names else None
        return None if name is None or self.holds_address(place) else (place[0], name)

    # ---- the programs

    def end_of_rows(self, begin):
        """The place where the condition begins, or a list of locations."""
        found = forms.CONDITION.search(self.text, begin)
        return found.start() if found else len(self.text)

    def columns(self, begin, end):
        """Each core's cells, pairs of a Cell and its line."""
        found, place = None, begin
        for row in self.text[begin:end].split(";"):
            cells, at = row.split("|"), place
            place += len(row) + 1
            if not row.strip():
                continue
            first = self.line(at + len(row) - len(row.lstrip()))
            if found is None:
                if [cell.strip() for cell in cells] != ["P%d" % core for core in range(len(cells))]:
                    self.refuse(first, "the cores are P0, P1 and so on, with | between them", ROWS)
                found = [[] for _ in cells]
                continue
            with self.at(first):
                if len(cells) != len(found):
                    raise Fault("a row has one cell for each core", ROWS)
            for core, cell in enumerate(cells[:len(found)]):
                line = self.line(at + len(cell) - len(cell.lstrip()))
                at += len(cell) + 1
                if cell.strip():
                    with self.at(line):
                        self.take_cell(core, found[core], " ".join(cell.split()), line)
        if found is None:
            self.refuse(self.line(end), "there are no cores", ROWS)
        return found

    def take_cell(self, core, column, text, line):
        """Takes the cell of a core, but for a fence that is to be left out."""
        if self.leave_out and remedies.is_needless(text):
            self.left_out.append("%d:%s" % (core, text.upper()))
        else:
            column.append((cell_in(text), line))

    def name_registers(self, items, columns, tokens, shown):
        """Gives each register a name: those of the initial state, of the programs, of the condition, and of the list of locations."""
        self.names = {core: registers.Names() for core in range(len(columns))}
        for place, address, line in [item for item in items if is_address(item[1])]:
            with self.at(line):
                self.names_of(place[0]).hold(place[1], address)
        wanted = [(place, line) for place, value, line in items if not is_address(value)]
        wanted += [((core, one), line) for core, column in enumerate(columns) for cell, line in column for one in cell.operands
                   if isinstance(one, str)]
        # A compare and exchange uses this one too.
        wanted += [((core, "eax"), line) for core, column in enumerate(columns) for cell, line in column if cell.mnemonic == "cmpxchg"]
        wanted += tokens + [one for one in shown if not self.holds_address(one[0])]
        self.settle(self.want([one for one in wanted if isinstance(one[0], tuple)]))

    def want(self, places):
        """Wants a name for each of these registers. Answers the line where each was first wanted."""
        found = {}
        for (core, name), line in places:
            with self.at(line):
                self.names_of(core).want(name)
                found.setdefault((core, registers.whole(name)[0]), line)
        return found

    def settle(self, lines):
        for core, names in self.names.items():
            without = names.settle()
            if without:
                with self.at(lines[core, without]):
                    raise Fault("%s is the core's seventh register: there are %d" % (without, len(litmus.REGISTERS)),
                                "a seventh register of a core")

    def names_of(self, core):
        if core not in self.names:
            raise Fault("there is no core %d" % core, "cores that aren't there")
        return self.names[core]

    def holds_address(self, place):
        """Whether a place is a register that holds an address."""
        found = registers.whole(place[1]) if isinstance(place, tuple) and place[0] in self.names else None
        return found is not None and found[0] in self.names[place[0]].addresses

    def program(self, core, column):
        found = []
        for cell, line in column:
            with self.at(line):
                found.append(self.instruction(cell, [self.operand(core, cell, one, line) for one in cell.operands]))
        return found

    def operand(self, core, cell, operand, line):
        """What an operand becomes: a number, a register's name, or a location's."""
        names = self.names[core]
        if isinstance(operand, Memory):
            return self.words.place(cell, operand, names.addresses, line)
        if isinstance(operand, str):
            return names.given.get((registers.whole(operand) or [None])[0])
        if operand < 0:
            # only of X86 a cell that says no size has words of 32 bits
            return word_of(operand, "%s: %d" % (cell.text, operand), cell.size == 4 or cell.size is None and not self.words.wide)
        return operand

    def instruction(self, cell, values):
        kinds = cell.kinds()
        if cell.mnemonic == "mfence":
            return Instruction("fence")
        if cell.mnemonic in DOING_NOTHING:
            return Instruction("nop")
        if cell.mnemonic in COMPUTING:
            return self.computing(cell, kinds, values)
        if cell.mnemonic == "mov":
            if kinds in (("memory", "number"), ("memory", "register")):
                return Instruction("store", values[0], operand=values[1])
            if kinds == ("register", "memory"):
                return Instruction("load", values[1], values[0])
            if kinds in (("register", "number"), ("register", "register")):
                return Instruction("move", register=values[0], operand=values[1])
        elif kinds == ("memory", "register"):
            return Instruction(cell.mnemonic, *values)
        elif cell.mnemonic == "xchg" and kinds == ("register", "memory"):
            return Instruction(cell.mnemonic, values[1], values[0])
        elif cell.mnemonic == "xchg" and kinds == ("register", "register") and not cell.lock:
            return Instruction("swap", register=values[0], operand=values[1])
        raise Fault("%s: such operands aren't read" % cell.text, OPERANDS)

    def computing(self, cell, kinds, values):
        """Arithmetic, on a location in one step or on a register."""
        if cell.size is None and self.words.wide:
            raise Fault("%s: a sum of 64 bits isn't one of 32, and the cell says no size" % cell.text, "sums of 64 bits")
        if kinds[0] == "number" or kinds[1:] == ("memory",):
            raise Fault("%s: such operands aren't read" % cell.text, OPERANDS)
        operator, operand = litmus.SHORT.get(cell.mnemonic.upper(), (cell.mnemonic.upper(), values[-1]))
        place = {"location": values[0]} if cell.lock else {"register": values[0]}
        if operator == "NEG":
            return Instruction("lockedneg" if cell.lock else "neg", **place)
        return Instruction("locked" if cell.lock else "combine", operand=operand, operator=operator, **place)

    # ---- the condition, and what is shown

    def condition_tokens(self, begin):
        """The tokens of the condition, and what the list of locations names, each with its line."""
        found, shown, at, end = [], [], begin, len(self.text.rstrip())
        while at < end:
            asked = claims.LIST.match(self.text, at)
            token = asked or claims.TOKEN.match(self.text, at)
            at = token.end()
            line = self.line(at - 1)
            if len(found) == MOST_TOKENS:
                self.refuse(line, "the condition is too long", "limits of a test")
            with self.at(line):
                if asked:
                    shown += [(place, line) for place in claims.listed(asked.group(1))]
                else:
                    found.append((claims.token_in(token.groups(), self.words), line))
        return found, shown

    def without_signs(self, tokens):
        """The tokens with each negative number as the word that it is; what a place is compared with stands after it and a sign."""
        found = []
        for at, (token, line) in enumerate(tokens):
            if isinstance(token, str) and re.fullmatch(r"-\d+", token):
                with self.at(line):
                    place = tokens[at - 2][0] if at > 1 else ""
                    token = str(word_of(int(token), token, self.is_word(place)))
            found.append((token, line))
        return found

    def condition(self, tokens):
        """The condition; None where there is none, or where it can't be looked at since something is refused."""
        if not tokens or self.faults:
            return None
        found, at = claims.claim_in([token for token, _ in tokens], self.names, self.words)
        if at is None:
            return found
        self.faults.append((tokens[at][1], found))
        return None

    def facts(self, test, shown):
        """The lines of facts: those of the file, what the test calls otherwise, and what its list of locations asks for."""
        own = tuple(key + "=" for key in (registers.RENAMED, registers.ELEMENTS, litmus.SHOW, LEFT_OUT))
        kept = [line for line in test.facts if not line.startswith(own)]
        names = self.renamed(registers.names_in(test.facts))
        for key, is_register in ((registers.RENAMED, True), (registers.ELEMENTS, False)):
            of_key = {theirs: ours for theirs, ours in names.items() if (":" in theirs) == is_register}
            kept += [registers.line_of(key, of_key)] if of_key else []
        left_out = [word for line in test.facts if line.startswith(LEFT_OUT + "=") for word in line.split("=")[1].split()] + self.left_out
        kept += ["%s=%s" % (LEFT_OUT, " ".join(left_out))] if left_out else []
        show = self.shown(test, [place for place, _ in shown]) or litmus.show_of(test.facts)
        return kept + (["%s=%s" % (litmus.SHOW, show)] if show else [])

    def renamed(self, before):
        """What the test calls otherwise than its file; a file that was imported itself says so of its own file `before`."""
        now = {"%d:%s" % (core, theirs): "%d:%s" % (core, ours) for core, names in self.names.items() for theirs, ours in names.renamed()}
        now.update(("%s[%d]" % one, name) for one, name in self.words.elements.items())
        return {**{theirs: now.pop(ours, ours) for theirs, ours in before.items()}, **now}

    def shown(self, test, places):
        """What `tso outcomes --show` has to show more than the condition's values: registers, all, or None."""
        asked, known = set(litmus.observed(test)), set(test.locations()) | set(self.words.arrays)
        if any(place is None or place in known - asked for place in places):
            return "all"
        listed = {self.named(place) for place in places if isinstance(place, tuple)} - {None}
        return "registers" if listed - asked else None

    def keep_limits(self, test):
        for of in litmus.beyond_limits(test):
            with self.at(self.last_line()):
                raise Fault(of, "limits of a test")
