"""Pictures of what stands: the protocols' states, the models, the crates; for tests/document_pictures.py."""
import re

from . import drawing_sheet

# Where the middle of each state's circle is.
STATES = {"M": (380, 50), "O": (627, 230), "E": (133, 230), "S": (533, 520), "I": (227, 520)}
RADIUS = 24
# Where on its way an arrow has its label, of what the core does itself and of what others ask; and the arrows with another place, so that no
# two labels meet, and none is on another arrow.
LABEL, LABEL_OF_OTHERS = 0.3, 0.46
LABELS = {("S", "M", True): 0.64, ("I", "S", True): 0.54, ("E", "S", False): 0.24, ("O", "I", False): 0.66}


def transitions(table):
    """From the table as `tso tables` prints it: each pair of different states, with what leads from the one to the other. What the core does
    itself is a read, a write, or that the line leaves its cache; GetS and GetM are those of other cores."""
    found = {}

    def add(start, end, word, is_own):
        if start != end:
            words = found.setdefault((start, end), [])
            if (word, is_own) not in words:
                words.append((word, is_own))
    for line in table.splitlines():
        row = dict(word.split("=") for word in line.split() if "=" in word)
        if line.startswith("Fill"):
            alone, shared = row["alone"], row["shared"]
            add("I", shared, "read" if alone == shared else "read, shared", True)
            add("I", alone, "read" if alone == shared else "read, alone", True)
            add("I", "M", "write", True)
        elif re.match(r"[MOES] ", line):
            state = line[0]
            add(state, "M", "write", True)
            add(state, "I", "evict", True)
            for word in ("GetS", "GetM"):
                add(state, row[word], word, False)
    return found


def protocol(table, told):
    """The states of a line in one cache, and what leads from one to another."""
    sheet = drawing_sheet.Sheet(760, 580, told)
    found = transitions(table)
    pairs = {"I"} | {state for pair in found for state in pair}
    for (start, end), words in sorted(found.items()):
        for is_own in (True, False):
            named = [word for word, own in words if own == is_own]
            if not named:
                continue
            both = len({own for _, own in words}) == 2
            bend = {(True, True): 9, (True, False): 30}.get((both, is_own), 14)
            p, q = STATES[start], STATES[end]
            far = ((p[0] - q[0]) ** 2 + (p[1] - q[1]) ** 2) ** 0.5
            shift = (q[0] - p[0]) / far, (q[1] - p[1]) / far
            side = bend / 3
            p = p[0] + shift[0] * RADIUS + shift[1] * side, p[1] + shift[1] * RADIUS - shift[0] * side
            q = q[0] - shift[0] * (RADIUS + 2) + shift[1] * side, q[1] - shift[1] * (RADIUS + 2) - shift[0] * side
            at = LABELS.get((start, end, is_own), LABEL if is_own else LABEL_OF_OTHERS)
            sheet.arrow(p, q, "po" if is_own else "other", bend, ", ".join(named), at, 12,
                        title="%s>%s %s" % (start, end, " ".join(word.split(",")[0] for word in named)))
    for state, (x, y) in STATES.items():
        if state in pairs:
            sheet.box(x - RADIUS, y - RADIUS, 2 * RADIUS, 2 * RADIUS, "lit" if state in "MO" else "box", RADIUS)
            sheet.text(x, y, state, size=18)
    return sheet.svg()


def faults_of_protocol(picture, table):
    """The arrows of a picture, by the titles of their labels, against the table, read apart."""
    shown = set()
    for start, end, words in re.findall(r"<title>(\w)&gt;(\w) ([\w ]+)</title>", picture):
        shown |= {(start, end, word) for word in words.split()}
    fill = re.search(r"^Fill alone=(\w) shared=(\w)$", table, re.MULTILINE)
    wanted = {("I", fill.group(1), "read"), ("I", fill.group(2), "read"), ("I", "M", "write")}
    for state, gets, getm in re.findall(r"^(\w) GetS=(\w) .* GetM=(\w) ", table, re.MULTILINE):
        wanted |= {(state, gets, "GetS"), (state, getm, "GetM"), (state, "M", "write"), (state, "I", "evict")}
    wanted = {arrow for arrow in wanted if arrow[0] != arrow[1]}
    return ["%s is missing" % (arrow,) for arrow in sorted(wanted - shown)] + ["%s isn't in the table" % (arrow,) for arrow in sorted(shown - wanted)]


def rings(tests, told):
    """What each model allows, one in another. `tests` are triples of a name and the facts TSO and SC of the gallery with its depth."""
    def named(holds):
        names = [name for name, facts in tests if holds(facts)]
        few = "   ".join(sorted(names, key=lambda name: (len(name), name))[:4])
        return "%d test%s of the gallery\n%s" % (len(names), "" if len(names) == 1 else "s", few + "   .." * (len(names) > 4))
    sheet = drawing_sheet.Sheet(900, 480, told)
    rows = [
        ("in1", "all candidates: events, reads-from, coherence", "Forbidden by each model: " + named(lambda facts: facts["TSO"] == "forbidden")),
        ("in2", "TSO: axioms = relational model = abstract machine = flat machine at depth 32",
         "Allowed from depth 2 on: " + named(lambda facts: facts["TSO"] == "allowed" and int(facts["Depth"]) > 1)),
        ("in3", "flat machine at depth 1",
         "Allowed at depth 1: " + named(lambda facts: facts["TSO"] == "allowed" and facts["SC"] == "forbidden" and int(facts["Depth"]) == 1)),
        ("in4", "sequential consistency = flat machine at depth 0", "Allowed without buffers: " + named(lambda facts: facts["SC"] == "allowed"))]
    for at, (kind, title, words) in enumerate(rows):
        inset, y = 10 + at * 26, 10 + at * 104
        sheet.box(inset, y, 900 - 2 * inset, 460 - y - at * 12, kind, 14)
        sheet.text(450, y + 24, title, size=14)
        sheet.text(450, y + 56, words, size=12, kind="small")
    return sheet.svg()


def crates_in(text):
    """The crates of crates.txt, each with those that it names and that are crates of the project."""
    named = {line.split(":")[0]: line.split(":")[1].split() for line in text.splitlines() if ":" in line}
    return {name: [other for other in others if other in named] for name, others in named.items()}


def below_of(crates):
    """All crates below each."""
    below = {}

    def all_below(name):
        if name not in below:
            below[name] = set(crates[name]).union(*(all_below(other) for other in crates[name]), set())
        return below[name]
    for name in crates:
        all_below(name)
    return below


def crates(text, told):
    """The crates: the lowest is in the lowest row. A line leads to those directly below, of which no other one below stands on them."""
    named = crates_in(text)
    below = below_of(named)
    direct = {name: sorted(other for other in below[name] if not any(other in below[third] for third in below[name])) for name in named}
    level = {}
    for name in sorted(named, key=lambda name: len(below[name])):
        level[name] = 1 + max((level[other] for other in direct[name]), default=-1)
    rows = [[name for name in named if level[name] == at] for at in range(max(level.values()) + 1)]
    across = {name: 0.0 for name in named}
    wide = max(sum(drawing_sheet.width(name, 12) + 40 for name in row) for row in rows) + 20
    for _ in range(8):  # each crate goes to the middle of those below and above it
        for row in rows:
            def wanted(name):
                near = direct[name] + [other for other in named if name in direct[other]]
                return sum(across[other] for other in near) / max(1, len(near))
            row.sort(key=lambda name: (round(wanted(name), 3), name))
            room = (wide - sum(drawing_sheet.width(name, 12) + 16 for name in row)) / (len(row) + 1)
            x = room
            for name in row:
                half = (drawing_sheet.width(name, 12) + 16) / 2
                across[name] = x + half
                x += 2 * half + room
    apart = 62
    sheet = drawing_sheet.Sheet(int(wide), apart * len(rows) + 20, told)
    places = {name: (across[name], 36 + apart * (len(rows) - 1 - level[name])) for name in named}
    for name, others in direct.items():
        for other in others:
            (x0, y0), (x1, y1) = places[name], places[other]
            sheet.line(x0, y0, x1, y1, "thin")
    for name, (x, y) in places.items():
        is_law = name not in below["tso"] and name != "tso"
        sheet.boxed(x, y, name, "lit" if name == "tso" else "box" if not is_law else "in2", size=12)
    return sheet.svg()
