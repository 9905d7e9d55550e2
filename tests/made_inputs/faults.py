"""What damages a test in one known way, or takes it just up to a limit.

Each damage is a function of the draw, a drafter and a draft, and answers the text. Of several forms of it the drafter picks the one
whose turn it is. What a program must say to that text, it doesn't know: the reference finds it.
"""
from .spelling import Speller

# Tokens that may stand where they don't fit.
TOKENS = tuple("""
    = ; : [ ] { } | , $ ~ ( ) /\\ \\/ 0 1 7 4294967296 x q EIP AL EAX eax ESP esp EBP Ebp MOV MFENCE XCHG LOCK XADD SFENCE
    exists EXISTS forall filter locations not true True false P0 P1 P8
""".split())

# What ends a list of tokens: a byte that begins none, a name that is too long, a comment that doesn't end.
STOPS = {
    "byte": ("@", "\x00", "\x0b", "\x0c", "-", "\xe9", "/", "\\", "#", "'", "\"", "*"),
    "name": ("n" * 33, "_" + "Z9" * 30, "MOV" * 11),
    "comment": ("(* open", "(*)"),
}

NO_LOCATIONS = ("EAX", "EBX", "ECX", "EDX", "ESI", "EDI", "ESP", "EBP", "true", "false", "not", "exists", "forall", "locations")

PARTS = ("initial", "columns", "rows", "condition")


def plain(text):
    """No comment is closed in this text, so one that is opened before it stays open."""
    return text.replace(b"*)", b"* )")


def edited(draw, tokens, inserted):
    """One token is put in, taken out, replaced, or changes places."""
    tokens = list(tokens)
    at = draw.randint(0, len(tokens))
    kind = draw.choice(("insert", "insert", "delete", "replace", "replace", "swap", "double"))
    if kind == "insert" or at == len(tokens):
        return tokens[:at] + [inserted] + tokens[at:]
    if kind == "delete":
        return tokens[:at] + tokens[at + 1:]
    if kind == "replace":
        return tokens[:at] + [inserted] + tokens[at + 1:]
    if kind == "double":
        return tokens[:at] + [tokens[at]] + tokens[at:]
    other = draw.randrange(len(tokens))
    tokens[at], tokens[other] = tokens[other], tokens[at]
    return tokens


def edit(draw, drafter, draft, part, inserted):
    """A token of this part is changed."""
    if part != "rows":
        setattr(draft, part, edited(draw, getattr(draft, part), inserted))
        return draft.spelled(drafter.speller)
    if not draft.rows:
        draft.rows.append([[] for _ in range(draft.cores())])
    row = draw.choice(draft.rows)
    tokens = edited(draw, draft.row_tokens(row), inserted)
    cells = [[]]
    for token in tokens[:-1] if tokens[-1:] == [";"] else tokens:
        if token == "|":
            cells.append([])
        else:
            cells[-1].append(token)
    row[:] = cells
    return draft.spelled(drafter.speller)


def misfits(part):
    return lambda draw, drafter, draft: edit(draw, drafter, draft, part, draw.choice(TOKENS))


def stops(part, kind):
    """A stop of this kind within a part; no comment of the test ends one that it opens."""
    def made(draw, drafter, draft):
        stop = STOPS[kind][(drafter.round * len(PARTS) + PARTS.index(part)) % len(STOPS[kind])]
        if part == "rows":
            draft.rows.insert(draw.randint(0, len(draft.rows)), [draw.choice(([stop], ["MOV", stop], ["MFENCE", stop]))])
        else:
            tokens = getattr(draft, part) or ["exists", "x", "=", "1"]
            at = draw.randint(0 if part == "columns" else 1, len(tokens) - (part != "condition"))
            setattr(draft, part, tokens[:at] + [stop] + tokens[at:])
        text = draft.spelled(drafter.speller)
        at = text.find(stop.encode("latin-1"))
        return text if kind != "comment" else text[:at] + plain(text[at:])
    return made


def cut_in(part):
    """The text ends within a part, after some of its tokens."""
    def made(draw, drafter, draft):
        for later in PARTS[PARTS.index(part) + 1:]:
            setattr(draft, later, [])
        draft.locations = None
        if part == "rows":
            row = [token for token in draft.row_tokens(draw.choice(draft.rows or [[[]]])) if token != ";"] or ["|"]
            text = draft.spelled(drafter.speller)
            return text + drafter.speller.joined(row[:draw.randint(1, len(row))]).encode("latin-1")
        tokens = getattr(draft, part)
        setattr(draft, part, tokens[:draw.randint(1, max(1, len(tokens) - 1))])
        return draft.spelled(drafter.speller)
    return made


def header(*lines):
    def made(draw, drafter, draft):
        draft.header = drafter.pick(lines)
        return draft.spelled(drafter.speller)
    return made


def before(*texts):
    """Some text before the header line; no comment of the test ends one that it opens."""
    def made(draw, drafter, draft):
        text = drafter.pick(texts).encode("latin-1")
        rest = draft.spelled(drafter.speller)
        return text + (plain(rest) if b"(*" in text else rest)
    return made


def information(*lines):
    """A line before the initial state; no comment and no quotation of the test ends one that it opens."""
    def made(draw, drafter, draft):
        line = drafter.pick(lines)
        draft.information = draft.information[:draw.randint(0, len(draft.information))] + [line]
        text = draft.spelled(drafter.speller)
        at = text.rindex(line.encode("latin-1"))
        end = at + len(line)
        rest = text[end:].replace(b'"', b"'") if line.startswith('"') else text[end:]
        return text[:end] + (plain(rest) if "(*" in line else rest)
    return made


def cut_before_initial(draw, drafter, draft):
    text = draft.spelled(Speller(draw, "table"))
    return text[:draw.randint(0, text.index(b"{"))]


def initial_item(*items):
    """An item more in the initial state, or two; tokens with spaces between them."""
    def made(draw, drafter, draft):
        item = drafter.pick(items)
        inner = draft.initial[1:-1]
        inner += [";"] if inner and inner[-1] != ";" else []
        draft.initial = ["{"] + (inner + item.split() if draw.random() < 0.7 else item.split() + [";"] + inner) + ["}"]
        return draft.spelled(drafter.speller)
    return made


def row(*cells):
    """A row more, with one of these cells; tokens with spaces between them."""
    def made(draw, drafter, draft):
        cell = drafter.pick(cells).split()
        added = [cell if at == 0 else [] for at in range(draft.cores())]
        draw.shuffle(added)
        draft.rows.insert(draw.randint(0, len(draft.rows)), added)
        return draft.spelled(drafter.speller)
    return made


def reserved_name(nth, make, *forms):
    """A name that no location has, in place of one, in one of these forms. Which name, goes by the drafter's round and this
    kind's own number."""
    def made(draw, drafter, draft):
        name = NO_LOCATIONS[(drafter.round * 4 + nth) % len(NO_LOCATIONS)]
        name = name if name.islower() else draw.choice((name, name.lower(), name.capitalize()))
        return make(draw.choice(forms).replace("?", name))(draw, drafter, draft)
    return made


def wrong_cells(further):
    """A row of empty cells, so many more than there are cores."""
    def made(draw, drafter, draft):
        if draft.cores() + further == 0:
            draft.columns, draft.rows = ["P0", "|", "P1", ";"], []
        draft.rows.append([[] for _ in range(draft.cores() + further)])
        return draft.spelled(drafter.speller)
    return made


def unclosed_row(draw, drafter, draft):
    text = draft.spelled(Speller(draw, "table"))
    at = text.rfind(b";") if draft.rows else text.index(b";")
    return text[:at] + text[at + 1:]


def brackets(*texts):
    def made(draw, drafter, draft):
        draft.locations = drafter.pick(texts)
        text = draft.spelled(drafter.speller)
        at = text.rindex(b"locations")
        rest = text[at:]
        if "(*" in draft.locations:
            rest = plain(rest)
        elif "[" in draft.locations and "]" not in draft.locations:
            rest = rest.replace(b"]", b"")
        return text[:at] + rest
    return made


def locations_at_end(draw, drafter, draft):
    draft.locations = drafter.pick(("locations", "locations (* c *)\n", "locations [", "locations [x;\n"))
    draft.condition = []
    return draft.spelled(drafter.speller)


def condition(*texts):
    """Another condition: tokens."""
    def made(draw, drafter, draft):
        draft.condition = drafter.pick(texts).split()
        return draft.spelled(drafter.speller)
    return made


def after(*texts):
    """Something after the end of the test."""
    def made(draw, drafter, draft):
        return draft.spelled(drafter.speller) + b" " + drafter.pick(texts).encode("latin-1")
    return made


def many_locations(count, where):
    """So many locations in all, the last of which stands in this part."""
    def made(draw, drafter, draft):
        names = ["l%d" % number for number in range(count)]
        draft.initial, draft.rows, draft.condition = ["{", "}"], [], []
        cores = draft.cores()
        split = {"initial": count, "rows": 0, "condition": draw.choice((0, 8, count - 1))}[where]
        for name in names[:split]:
            draft.initial[-1:] = ([name] if draw.random() < 0.5 else ["[", name, "]"]) + ["=", "1", ";", "}"]
        rest = names[split:]
        if where == "condition":
            rows, rest = rest[:-1], rest[-1:]
            if draw.random() < 0.3:
                rows, rest = rows[:3], rows[3:] + rest
        else:
            rows, rest = rest, []
        for name in rows:
            store = ["MOV", "[", name, "]", ",", "1"]
            draft.rows.append([store if core == len(draft.rows) % cores else [] for core in range(cores)])
        if rest:
            draft.condition = ["exists"] + " /\\ ".join(name + " = 0" for name in rest).split()
        return draft.spelled(drafter.speller)
    return made


def many_instructions(count):
    def made(draw, drafter, draft):
        cores, core = draft.cores(), draw.randrange(draft.cores())
        draft.rows = [[["MOV", "EAX", ",", "1"] if at == core else [] for at in range(cores)] for _ in range(count)]
        return draft.spelled(drafter.speller)
    return made


def many_atoms(count):
    def made(draw, drafter, draft):
        atoms = [draw.choice(("true", "false", "x = 0", "0 : EAX = 1")) for _ in range(count)]
        text = atoms[0] + "".join(draw.choice((" /\\ ", " \\/ ")) + atom for atom in atoms[1:])
        draft.condition = ("exists " + text).split()
        draft.initial, draft.rows = ["{", "}"], [[["MOV", "EAX", ",", "[", "x", "]"]] + [[] for _ in range(draft.cores() - 1)]]
        return draft.spelled(drafter.speller)
    return made


def nested(count):
    def made(draw, drafter, draft):
        opened = [draw.choice(("~", "not", "(")) for _ in range(count)]
        draft.condition = [draw.choice(("exists", "forall"))] + opened + ["true"] + [")"] * opened.count("(")
        return draft.spelled(drafter.speller)
    return made


def side_by_side(count):
    """So many negations and brackets, none within another."""
    def made(draw, drafter, draft):
        units = [draw.choice(("~ true", "not false", "( true )", "~ ( false )")) for _ in range(count)]
        text = units[0] + "".join(draw.choice((" /\\ ", " \\/ ")) + unit for unit in units[1:])
        draft.condition = ("exists " + text).split()
        return draft.spelled(drafter.speller)
    return made


def next_core(make, *forms):
    """The first core that isn't there, in one of these forms."""
    def made(draw, drafter, draft):
        return make(drafter.pick(forms).replace("?", str(draft.cores())))(draw, drafter, draft)
    return made


def many_cores(count):
    def made(draw, drafter, draft):
        draft.columns, draft.rows = " | ".join("P%d" % core for core in range(count)).split() + [";"], []
        draft.condition = []
        return draft.spelled(drafter.speller)
    return made


def of_size(size):
    """The text filled up to so many bytes, with white space and a comment."""
    def made(draw, drafter, draft):
        text = draft.spelled(drafter.speller)
        return text + b" " * (size - len(text) - 4) + b"(**)"
    return made


def damaged_bytes(draw, drafter, draft):
    """Some bytes of the text are replaced, put in, taken out or doubled, or the text is cut."""
    text = bytearray(draft.spelled(drafter.speller))
    for _ in range(draw.choice((1, 1, 1, 2, 3))):
        at, kind = draw.randrange(len(text)), draw.choice(("replace", "insert", "delete", "double", "cut", "swap"))
        byte = draw.choice((draw.randrange(256), ord(draw.choice(" \t\r\n;|{}[](),$=:~*/\\PEAX01x\"\x0b"))))
        if kind == "replace":
            text[at] = byte
        elif kind == "insert":
            text.insert(at, byte)
        elif kind == "delete" and len(text) > 1:
            del text[at]
        elif kind == "double":
            text[at:at] = text[at:at + draw.randint(1, 12)]
        elif kind == "cut" and draw.random() < 0.3 and at > 0:
            del text[at:]
        else:
            other = draw.randrange(len(text))
            text[at], text[other] = text[other], text[at]
    return bytes(text)
