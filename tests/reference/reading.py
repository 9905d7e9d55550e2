"""Reads a test's text: docs/INPUT.md, 'The test' and 'The grammar'; what is refused, and where, is the table of
docs/DEFINITIONS.md, 'What a text is told that spells no test'."""
import functools

from . import conditions, lexing, litmus, seen
from .conditions import ConditionReader, number_of, read_setting
from .lexing import Fault, Text, Tokens
from .litmus import Instruction

INITIAL, COLUMNS, ROWS = "in the initial state", "in the row of cores", "in the rows"
LOCATIONS, BRACKETS = "after locations", "in the brackets of locations"

KEY = lexing.LETTERS + lexing.DIGITS + b"_- \t"
ROWS_END = ("locations", "exists", "forall")


class Refused(Exception):
    """A text is refused; `line` is the whole line that says so."""

    def __init__(self, line):
        super().__init__(line)
        self.line = line


def read_test(given, instructions=litmus.BASIC):
    """The test that these bytes spell, with instructions of this set; raises `Refused` where they spell none. Nobody changes it: who makes
    an input and who answers it may have the same."""
    test, refusal, counts = read_once(given, instructions)
    seen.add(counts)
    if refusal is not None:
        raise Refused(refusal)
    return test


@functools.lru_cache(16)
def read_once(given, instructions=litmus.BASIC):
    """The test that these bytes spell or else the line of the refusal, and what comes up in reading them."""
    text = Text(given, instructions)
    with seen.apart() as counts:
        try:
            return TestReader(text).test(), None, counts
        except Fault as fault:
            seen.note("refusal of a test", fault.name)
            seen.note("fault of a test", "%s: %s" % (fault.name, fault.case))
            return None, "Refused test line %d %s" % (text.line_of(fault.place), fault.name), counts


class TestReader:
    """Reads the parts of a test in their order."""

    def __init__(self, text):
        self.text = text
        self.names, self.listed, self.named_before = [], [], 0
        self.settings = []

    def test(self):
        if len(self.text.bytes) > litmus.LONGEST_TEST:
            raise Fault("TooLarge", 0, "the text")
        name, place = self.header()
        self.tokens = Tokens(self.text, self.information(place))
        self.initial_state()
        self.programs = [[] for _ in range(self.columns())]
        self.check_cores()
        self.rows()
        self.locations()
        quantifier, proposition, atoms = self.condition()
        return litmus.Test(name, self.names, self.first_words(), self.first_registers(), self.programs, quantifier, proposition,
                           self.unused(), atoms, self.listed)

    # Header line and information lines: INPUT.md, 'Header line', 'Information lines'.

    def header(self):
        """The test's name, and the place after its line."""
        given = self.text.bytes
        place = self.text.gap_end(0, "before the header line")
        end = self.text.line_end(place)
        line = given[place:end]
        name = line[3:].strip(b" \t\r")
        if line[:3] != b"X86" or line[3:4] not in (b" ", b"\t") or not name or any(byte < 32 or byte > 126 for byte in name):
            raise Fault("NoHeader", place, "no header line" if line else "no text")
        if len(name) > litmus.LONGEST_TEST_NAME:
            raise Fault("TooLarge", place, "the test's name")
        seen.note("spelling", "tab after X86" if line[3:4] == b"\t" else "space after X86")
        return name.decode(), end

    def information(self, place):
        """The place of the `{` of the initial state."""
        given = self.text.bytes
        while True:
            place = self.text.gap_end(place, "before the initial state")
            if place == len(given):
                raise Fault("Unclosed", place, "no initial state")
            if given[place] == ord("{"):
                return place
            if given[place] == ord('"'):
                end = given.find(b'"', place + 1)
                if end < 0:
                    raise Fault("Unclosed", place, "a quotation")
                seen.note("spelling", "quotation")
                place = end + 1
            else:
                place = self.key_line_end(place)

    def key_line_end(self, place):
        given, end = self.text.bytes, place
        if given[place] not in lexing.LETTERS:
            raise Fault("BadToken", place, "no information line")
        while end < len(given) and given[end] in KEY:
            end += 1
        if given[end:end + 1] != b"=":
            raise Fault("BadToken", place, "a key without its =")
        seen.note("spelling", "key line")
        return self.text.line_end(end)

    # Initial state: INPUT.md, 'Initial state'.

    def initial_state(self):
        opener = self.tokens.take(INITIAL)

        def unfit(token):
            if token.kind == lexing.END:
                return Fault("Unclosed", opener.place, "the initial state")
            return Fault("BadInit", token.place, "a token in the initial state")

        given = set()
        while True:
            token = self.tokens.take(INITIAL)
            if token.is_symbol("}"):
                return
            if token.is_symbol(";"):
                continue
            setting = read_setting(self.tokens, token, INITIAL, unfit)
            after = self.tokens.look(INITIAL)
            if not (after.is_symbol(";") or after.is_symbol("}")):
                raise unfit(after)
            self.judge_setting(setting, given)

    def judge_setting(self, setting, given):
        """What an item is refused for as the `;` or `}` after it is read. `given` is what has a value already."""
        if lexing.value_of(setting.number) > litmus.GREATEST_WORD:
            raise Fault("BadNumber", setting.place, "of the initial state")
        if setting.location is not None:
            key = number_of(setting.location, self.names)
            if key is None:
                raise Fault("TooLarge", setting.place, "a 17th location in the initial state")
        else:
            key = lexing.plain_digits(setting.core), setting.register
        if key in given:
            raise Fault("TwiceInit", setting.place, "a location" if setting.location is not None else "a register")
        given.add(key)
        self.settings.append(setting)

    def first_words(self):
        words = [0] * len(self.names)
        for setting in self.settings:
            if setting.location is not None:
                words[self.names.index(setting.location)] = lexing.value_of(setting.number)
        return words

    def first_registers(self):
        registers = [[0] * len(litmus.REGISTERS) for _ in self.programs]
        for setting in self.settings:
            if setting.location is None:
                registers[lexing.value_of(setting.core)][setting.register] = lexing.value_of(setting.number)
        return registers

    # The row of cores: INPUT.md, 'Cores'.

    def columns(self):
        """How many cores there are."""
        cores = 0
        while True:
            token = self.tokens.take(COLUMNS)
            if not token.is_word("P%d" % cores):
                raise self.unfit_column(token)
            if cores == litmus.MOST_CORES:
                raise Fault("TooLarge", token.place, "a ninth core")
            cores += 1
            token = self.tokens.take(COLUMNS)
            if token.is_symbol(";"):
                return cores
            if not token.is_symbol("|"):
                raise self.unfit_column(token)

    def unfit_column(self, token):
        return Fault("BadHeaderRow", token.place, "the end" if token.kind == lexing.END else "a token")

    def check_cores(self):
        for setting in self.settings:
            if setting.core is not None and lexing.value_of(setting.core) >= len(self.programs):
                raise Fault("NoSuchCore", setting.place, "of the initial state")

    # Rows: INPUT.md, 'Rows'.

    def rows(self):
        while True:
            first = self.tokens.look(ROWS)
            if first.kind == lexing.END or first.is_symbol("~") or first.kind == lexing.NAME and first.text in ROWS_END:
                return
            self.row(first)

    def row(self, first):
        """A row is taken to its `;`, then its cells are counted, then each is read."""
        cells = [[]]
        while True:
            token = self.tokens.take(ROWS)
            if token.kind == lexing.END:
                raise Fault("Unclosed", first.place, "a row")
            if token.is_symbol(";"):
                break
            if token.is_symbol("|"):
                cells.append([])
            else:
                cells[-1].append(token)
        if len(cells) != len(self.programs):
            raise Fault("WrongCells", first.place, "too few" if len(cells) < len(self.programs) else "too many")
        for core, cell in enumerate(cells):
            if cell:
                self.cell(self.programs[core], cell)
            else:
                seen.note("spelling", "empty cell")

    def cell(self, program, cell):
        """A cell is judged for its form, its number, and then a 17th location or a 33rd instruction."""
        place = cell[0].place
        form = Cell(cell, self.text.instructions).form()
        if form is None:
            raise Fault("BadInstruction", place, "a cell")
        kind, location, register, source, operator = form + (None,) * (5 - len(form))
        if kind in litmus.OF_NUMBERS:
            source = lexing.value_of(source)
            if source > litmus.GREATEST_WORD:
                raise Fault("BadNumber", place, "of a row")
        if location is not None:
            location = number_of(location, self.names)
            if location is None:
                raise Fault("TooLarge", place, "a 17th location in the rows")
        if len(program) == litmus.MOST_INSTRUCTIONS:
            raise Fault("TooLarge", place, "a 33rd instruction")
        program.append(Instruction(kind, location, register, source, operator))

    # Locations, condition and end: INPUT.md, 'Locations', 'Condition'.

    def locations(self):
        """`locations [..]` is read over."""
        if not self.tokens.look(ROWS).is_word("locations"):
            return
        self.tokens.take(ROWS)
        opener = self.tokens.take(LOCATIONS)
        if not opener.is_symbol("["):
            case = "the end after locations" if opener.kind == lexing.END else "no [ after locations"
            raise Fault("BadToken", opener.place, case)
        self.listed = self.names_listed(opener.place + 1)
        given, place = self.text.bytes, opener.place + 1
        while given[place:place + 1] != b"]":
            if place >= len(given):
                raise Fault("Unclosed", opener.place, "the brackets of locations")
            place = self.text.comment_end(place, BRACKETS) if given.startswith(b"(*", place) else place + 1
        seen.note("spelling", "locations")
        self.tokens = Tokens(self.text, place + 1)

    def names_listed(self, place):
        """The names from this place up to a `]`, each with the core whose number stands before it, or None, and its line. Any bytes may
        stand there, so what is no token ends them."""
        tokens, found, core = Tokens(self.text, place), [], None
        try:
            while True:
                token = tokens.take(BRACKETS)
                if token.kind == lexing.END or token.is_symbol("]"):
                    return found
                if token.kind == lexing.NUMBER:
                    value = lexing.value_of(token.text)
                    core = value if value <= litmus.GREATEST_WORD else None
                elif token.kind == lexing.NAME:
                    found.append((core, token.text, self.text.line_of(token.place)))
                elif token.is_symbol(";"):
                    core = None
        except Fault:
            return found

    def condition(self):
        """The quantifier, the proposition, and its atoms, each with its line and that of the name in it; after them nothing stands."""
        first = self.tokens.look(conditions.WHERE)
        quantifier = proposition = None
        self.named_before, atoms = len(self.names), []
        if first.is_symbol("~") or first.is_word("exists") or first.is_word("forall"):
            reader = ConditionReader(self.tokens, self.names, len(self.programs))
            quantifier, proposition = reader.quantifier(), reader.proposition()
            atoms = [(atom, self.text.line_of(place), self.text.line_of(name)) for atom, place, name in reader.named]
        seen.note("quantifier", quantifier)
        token = self.tokens.look(conditions.WHERE)
        if token.kind != lexing.END:
            raise Fault("Trailing", token.place, "after a condition" if quantifier else "without a condition")
        return quantifier, proposition, atoms

    def unused(self):
        """The number of the first location that the condition alone names, or None."""
        return self.named_before if len(self.names) > self.named_before else None


class Cell:
    """The tokens of one cell, and what they spell: INPUT.md, 'Rows' and 'The grammar'."""

    def __init__(self, tokens, instructions=litmus.BASIC):
        self.tokens = tokens
        self.forms, self.words = FORMS[instructions], WORDS[instructions]

    def form(self):
        """Kind, location's name, register, source (digits of a number, or a register) and operator, or None where nothing is spelled."""
        words, rest = [], list(self.tokens)
        while rest and rest[0].kind == lexing.NAME and rest[0].text.upper() in self.words:
            words.append(rest.pop(0).text.upper())
            if words[-1] != "LOCK":
                break
        operands = self.operands(rest)
        if operands is None:
            return None
        found = self.forms.get((tuple(words), tuple(kind for kind, _ in operands)))
        if found is None:
            return None
        seen.note("cell", " ".join(words + [",".join(kind for kind, _ in operands)]).strip())
        for token in self.tokens[:len(words)] + [token for token in self.tokens if token.is_register()]:
            seen.note("case of letters",
                      "small letters" if token.text.islower() else "capitals" if token.text.isupper() else "mixed case")
        return found([value for _, value in operands])

    def operands(self, tokens):
        """Pairs of 'memory', 'register', 'number' or '$number' and its value, separated by commas; None where it isn't so."""
        if not tokens:
            return []
        parts = [[]]
        for token in tokens:
            if token.is_symbol(","):
                parts.append([])
            else:
                parts[-1].append(token)
        operands = [operand_of(part) for part in parts]
        return None if None in operands else operands


def operand_of(tokens):
    if len(tokens) == 3 and tokens[0].is_symbol("[") and tokens[1].is_location() and tokens[2].is_symbol("]"):
        return "memory", tokens[1].text
    kind, number = ("$number", tokens[1:]) if tokens and tokens[0].is_symbol("$") else ("number", tokens)
    sign, digits = ("-", number[1:]) if number and number[0].is_symbol("-") else ("", number)
    if len(digits) == 1 and digits[0].kind == lexing.NUMBER:
        return kind, sign + digits[0].text
    if len(tokens) == 1 and tokens[0].is_register():
        return "register", litmus.register_of(tokens[0].text)
    return None


def _forms():
    """Each form of a cell: its words and the kinds of its operands, and what makes the instruction of their values."""
    forms = {
        (("MOV",), ("memory", "register")): lambda v: (litmus.STORE_REGISTER, v[0], None, v[1]),
        (("MOV",), ("register", "memory")): lambda v: (litmus.LOAD, v[1], v[0], None),
        (("MOV",), ("register", "register")): lambda v: (litmus.SET_REGISTER, None, v[0], v[1]),
        (("MFENCE",), ()): lambda v: (litmus.FENCE, None, None, None),
        (("LOCK", "XADD"), ("memory", "register")): lambda v: (litmus.ADD, v[0], v[1], None),
    }
    for number in ("number", "$number"):
        forms[("MOV",), ("memory", number)] = lambda v: (litmus.STORE_NUMBER, v[0], None, v[1])
        forms[("MOV",), ("register", number)] = lambda v: (litmus.SET_NUMBER, None, v[0], v[1])
    for words in (("XCHG",), ("LOCK", "XCHG")):
        forms[words, ("memory", "register")] = lambda v: (litmus.EXCHANGE, v[0], v[1], None)
        forms[words, ("register", "memory")] = lambda v: (litmus.EXCHANGE, v[1], v[0], None)
    return forms


def _larger_forms():
    """Those of the larger set."""
    forms = _forms()
    forms[("LOCK", "CMPXCHG"), ("memory", "register")] = lambda v: (litmus.COMPARE_EXCHANGE, v[0], v[1], None)
    forms[("LOCK", "NEG"), ("memory",)] = lambda v: (litmus.LOCKED_NEGATE, v[0], None, None)
    forms[("NEG",), ("register",)] = lambda v: (litmus.NEGATE, None, v[0], None)
    forms[("XCHG",), ("register", "register")] = lambda v: (litmus.SWAP, None, v[0], v[1])
    for word in NOTHINGS:
        forms[(word,), ()] = lambda v: (litmus.NOTHING, None, None, None)
    for word in OPERATORS:
        for number in ("number", "$number"):
            forms[("LOCK", word), ("memory", number)] = lambda v, word=word: (litmus.LOCKED_NUMBER, v[0], None, v[1], word)
            forms[(word,), ("register", number)] = lambda v, word=word: (litmus.COMBINE_NUMBER, None, v[0], v[1], word)
        forms[("LOCK", word), ("memory", "register")] = lambda v, word=word: (litmus.LOCKED_REGISTER, v[0], None, v[1], word)
        forms[(word,), ("register", "register")] = lambda v, word=word: (litmus.COMBINE_REGISTER, None, v[0], v[1], word)
    for word, (operator, number) in STEPS.items():
        forms[("LOCK", word), ("memory",)] = lambda v, o=operator, n=number: (litmus.LOCKED_NUMBER, v[0], None, n, o)
        forms[(word,), ("register",)] = lambda v, o=operator, n=number: (litmus.COMBINE_NUMBER, None, v[0], n, o)
    return forms


NOTHINGS = ("NOP", "PAUSE", "LFENCE", "SFENCE")
OPERATORS = ("ADD", "SUB", "AND", "OR", "XOR")
STEPS = {"INC": ("ADD", "1"), "DEC": ("SUB", "1"), "NOT": ("XOR", "4294967295")}

FORMS = {litmus.BASIC: _forms(), litmus.ALL: _larger_forms()}
BASIC_WORDS = ("MOV", "MFENCE", "XCHG", "LOCK", "XADD")
WORDS = {litmus.BASIC: BASIC_WORDS, litmus.ALL: BASIC_WORDS + NOTHINGS + OPERATORS + tuple(STEPS) + ("NEG", "CMPXCHG")}
