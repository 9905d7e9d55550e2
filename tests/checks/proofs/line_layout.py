"""Lays out one long line of antt's text: of a definition, a lemma, a proof or an import.

A line is taken apart at its spaces alone, and first where its text is loosest: behind `in`, `=`, `↦` and a λ's dot; at the parts of a
record, a tuple or an `elim`; before `→`, which begins each premise; before operators; between arguments. What is inside brackets is
broken where nothing outside is left to break. `rt fmt` then sets the indentation, which is one for all lines that go on.
"""
import re

WIDTH = 120  # of a line that is broken
TIGHT = 150  # of a part that would have to be broken between arguments, or within brackets

# The operators, the loosest first; those of one line are broken alike.
OPERATORS = [
    ("→",),
    ("↔",),
    ("⊎",),
    ("×",),
    ("≡", "≢"),
    ("then", "else"),
    ("∷", "++"),
    (">>=",),
    ("∙",),
    ("||",),
    ("&&",),
    ("==",),
    ("≤", "<"),
    ("+", "-"),
    ("*", "/", "%"),
    ("^",),
]
EVERY = {word for group in OPERATORS for word in group}
FILLED = {"∷", "++", "+", "-", "*", "/", "%", "^"}
OPENERS, CLOSERS = "({", ")}"
NEVER_BEFORE = {"in", "=", ":", "↦", "as", "[", "]", "."}
NEVER_AFTER = {"let", "λ", "if", "then", "else", "record", "elim", "pub", "abbrev", "unfoldable", "|", "¬", "unfold", "unfolding", ":", "do",
               "where", "data", "ensures", "requires", "invariant", "decreases", "as", "ghost", "←"}
QUOTED = re.compile(r'"(?:\\.|[^"\\])*"|«[^»]*»')
WORD = re.compile(r'(?:"(?:\\.|[^"\\])*"|«[^»]*»|[^\s"«»])+')
SHORT = 24  # of a part that gets no line of its own
FILLING = 60  # of an argument that may stand behind another one


def words_of(text):
    return WORD.findall(text)


def core(word):
    """A word without the brackets and separators around it."""
    return word.lstrip(OPENERS).rstrip(CLOSERS + ",;")


def plain(word):
    """A word without its quoted texts, for counting brackets."""
    return QUOTED.sub(lambda found: "x" * len(found.group(0)), word)


def opens(word):
    bare = plain(word)
    return sum(bare.count(one) for one in OPENERS) + (core(word) == "[")


def closes(word):
    bare = plain(word)
    return sum(bare.count(one) for one in CLOSERS) + (core(word) == "]")


def depths(words):
    """How deep within brackets each place before a word is; the last is the place behind all."""
    found, depth = [0], 0
    for word in words:
        depth += opens(word) - closes(word)
        found.append(depth)
    return found


def width(words, indent):
    return indent + sum(len(word) + 1 for word in words) - 1


def is_dotted(word):
    """Whether the word ends a λ's binders."""
    return word.endswith(".") and word != "."


def bound_places(words):
    """The places within the binders of a λ, none of which is broken."""
    places, inside = set(), False
    for at, word in enumerate(words):
        if inside:
            places.add(at)
        if core(word) == "λ":
            inside = True
        if inside and is_dotted(word):
            inside = False
    return places


class Segment:
    """Words that belong on one line if they fit there."""

    def __init__(self, words):
        self.words = words
        self.depths = depths(words)
        self.bound = bound_places(words)

    def may_break(self, at):
        words = self.words
        if at <= 0 or at >= len(words) or at in self.bound:
            return False
        before, after = words[at - 1], words[at]
        if core(after) in NEVER_BEFORE or after[0] in CLOSERS or after == "{" or before == "{" or before.lstrip(OPENERS) in NEVER_AFTER | EVERY:
            return False
        if after.startswith("{") and "record" in (core(before), core(words[at - 2]) if at > 1 else ""):
            return False
        return not (at > 1 and core(words[at - 2]) == "unfold")

    def places(self, depth):
        return [at for at in range(1, len(self.words)) if self.depths[at] == depth and self.may_break(at)]

    def levels(self):
        return sorted({self.depths[at] for at in range(1, len(self.words)) if self.may_break(at)})


def cut(words, places):
    ends = [0] + places + [len(words)]
    return [words[begin:end] for begin, end in zip(ends, ends[1:]) if begin < end]


def joined(pieces, indent, may_join):
    """The pieces, each put behind the one before where that is wanted and fits."""
    found = []
    for piece in pieces:
        if found and may_join(found[-1], piece) and width(found[-1] + piece, indent) <= WIDTH:
            found[-1] = found[-1] + piece
        else:
            found.append(piece)
    return found


def is_binder(piece):
    """Whether a premise only binds: `→ (x : A)`."""
    words = piece[1:] if piece[0] == "→" else piece
    return bool(words) and re.match(r"[({][^({]", words[0]) is not None and ":" in words and all(depth > 0 for depth in depths(words)[1:-1])


def group_at(segment, at):
    """The brackets around a place: the word that opens them and the word that closes them, where the words have them."""
    depth = segment.depths[at]
    begin = at - 1
    while begin >= 0 and segment.depths[begin] >= depth:
        begin -= 1
    end = at
    while end < len(segment.words) and segment.depths[end + 1] >= depth:
        end += 1
    return begin, end


def parts_of_group(segment, at, ends_part):
    """The words before a bracket, each of its parts, and what begins with the bracket that closes it."""
    words, depth = segment.words, segment.depths[at]
    begin, end = group_at(segment, at)
    head, items, tail = [], list(words), []
    if begin >= 0:
        head, first = split_opener(words[begin])
        head = words[:begin] + [head]
        items = ([first] if first else []) + words[begin + 1:]
    shift = len(words) - len(items)
    if end < len(words):
        place = end - shift
        last, closer = split_closer(items[place], segment.depths[end] - depth)
        tail = [closer] + items[place + 1:]
        items = items[:place] + ([last] if last else [])
    inner, found, part = 0, [], []
    for word in items:
        if part and inner == 0 and ends_part(part[-1], word):
            found.append(part)
            part = []
        part.append(word)
        inner += opens(word) - closes(word)
    return [piece for piece in [head] + found + [part, tail] if piece]


def split_opener(word):
    """A word after the last bracket that it opens and leaves open: `((λ` is `((` and `λ`."""
    if core(word) == "[":
        return word, ""
    open_at = []
    for at, letter in enumerate(plain(word)):
        if letter in OPENERS:
            open_at.append(at)
        elif letter in CLOSERS and open_at:
            open_at.pop()
    left = open_at[-1] + 1
    return word[:left], word[left:]


def split_closer(word, depth):
    """A word before the bracket that closes the group, where so many brackets of the group's parts are open before the word."""
    if core(word) == "]":
        return "", word
    for at, letter in enumerate(plain(word)):
        depth += (letter in OPENERS) - (letter in CLOSERS)
        if depth < 0:
            return word[:at], word[at:]
    return word, ""


# ---- the rules, the loosest first: each gives the pieces of a segment at one depth, or None


def by_lets(segment, depth, indent):
    """Behind each `in`; where a sign stands before the first `let`, that is the looser one."""
    here = [at for at, word in enumerate(segment.words) if segment.depths[at] == depth]
    first = next((segment.words[at] for at in here if segment.words[at] in ("let", "=", "↦")), None)
    places = [at for at in segment.places(depth) if segment.words[at - 1] == "in"]
    return cut(segment.words, places) if places and first not in ("=", "↦") else None


def by_parts(segment, depth, indent):
    """The parts of a record, a tuple or the cases of an `elim`."""
    words = segment.words
    for at in segment.places(depth):
        if words[at - 1].endswith(";"):
            return parts_of_group(segment, at, lambda before, after: before.endswith(";"))
        if words[at - 1].endswith(","):
            return parts_of_group(segment, at, lambda before, after: before.endswith(","))
    for at in range(1, len(words)):
        if segment.depths[at] == depth and (words[at] == "|" or words[at] == "↦"):
            begin, _ = group_at(segment, at)
            if begin >= 0 and core(words[begin]) == "[":
                return parts_of_group(segment, at, lambda before, after: after == "|")
    return None


def by_sign(segment, depth, indent):
    """Behind `=` or `↦`; not where a record, a tuple, cases or a λ's body go on from there and don't fit on one line."""
    words = segment.words
    for at in range(1, len(words)):
        if segment.depths[at] == depth and words[at - 1] in ("=", "↦"):
            rest = words[at:]
            if width(rest, indent + 4) > WIDTH or words[at] == "record":
                block = as_block(segment, at, indent)
                if block:
                    return block
            return [words[:at], rest]
    return None


def as_block(segment, at, indent):
    """What stands behind a sign, if it is broken within itself: pieces of which the first ends in the bracket or dot."""
    words = segment.words
    if words[at] == "λ":
        end = next(place for place in range(at, len(words)) if is_dotted(words[place])) + 1
        if end < len(words) and width(words[:end], indent) <= WIDTH:
            return [words[:end], words[end:]]
        return None
    rest = Segment(words[at:])
    if words[at] == "record" or words[at][0] == "(" or words[at] == "elim":
        for depth in rest.levels():
            if depth == 0 and words[at] != "elim":
                return None
            pieces = by_parts(rest, depth, indent)
            if pieces and width(words[:at] + pieces[0], indent) <= WIDTH and depths(pieces[0])[-1] >= 1 and is_whole(pieces):
                return [words[:at] + pieces[0]] + pieces[1:]
            if pieces:
                return None
    return None


def is_whole(pieces):
    """Whether nothing stands behind the bracket that closes the pieces."""
    return len(pieces[-1]) == 1 or pieces[-1][1:] == ["in"]


def by_binders(segment, depth, indent):
    """Behind a λ's dot, or before `let`, where nothing looser stands before it."""
    words = segment.words
    for at in segment.places(depth):
        if is_dotted(words[at - 1]) or words[at] == "let":
            return [words[:at], words[at:]]
        if core(words[at]) in EVERY:
            return None
    return None


def until_binder(segment, depth):
    """The places at this depth up to a λ or a `let`, which take the rest of the line."""
    found = []
    for at in range(1, len(segment.words)):
        if segment.depths[at] == depth:
            word = segment.words[at]
            if segment.may_break(at):
                found.append(at)
            if word in ("λ", "let"):
                break
    return found


def by_operators(segment, depth, indent):
    words = segment.words
    places = until_binder(segment, depth)
    for group in OPERATORS:
        here = [at for at in places if words[at] in group and at + 1 < len(words)]
        if not here:
            continue
        pieces = cut(words, here)
        if group == ("→",):
            return joined(pieces, indent, lambda one, other: is_binder(one))
        if "≡" in group and width(pieces[0], 0) < SHORT and len(pieces) == 2 and width(pieces[1], indent) > WIDTH:
            continue
        if group[0] in FILLED:
            return joined(pieces, indent, lambda one, other: True)
        return pieces
    return None


def by_arguments(segment, depth, indent):
    """Between arguments: short ones fill a line, and one that is long stands on lines of its own."""
    places = until_binder(segment, depth)
    if not places:
        return None
    pieces = cut(segment.words, places)
    last = Segment(pieces[-1])
    for level in last.levels()[:1]:
        block = by_parts(last, level, indent)
        if block and len(pieces) > 1 and width(segment.words, indent) - width(pieces[-1], 0) + width(block[0], 0) <= WIDTH and opens(block[0][-1]):
            head = [word for piece in pieces[:-1] for word in piece]
            return [head + block[0]] + block[1:]
    return joined(pieces, indent, lambda one, other: width(one, indent) <= WIDTH and width(other, 0) <= FILLING)


LOOSE = (by_lets, by_parts, by_sign, by_binders, by_operators)


def lay(words, indent, deeper=4):
    """The lines of a segment, each as its words."""
    if width(words, indent) <= WIDTH:
        return [words]
    segment = Segment(words)
    levels = segment.levels()
    for number, level in enumerate(levels):
        for rule in LOOSE:
            pieces = rule(segment, level, indent)
            if pieces and len(pieces) > 1:
                if number and rule is not by_parts and width(words, indent) <= TIGHT:
                    return [words]
                return lines_of(pieces, indent, deeper)
        if width(words, indent) <= TIGHT and not is_signature(segment):
            continue
        pieces = by_arguments(segment, level, indent)
        if pieces and len(pieces) > 1:
            return with_head(lines_of(pieces, indent, deeper), indent)
    return [words]


def with_head(lines, indent):
    """The lines of an application, its first argument behind a short head."""
    if len(lines) > 1 and width(lines[0], 0) <= SHORT and width(lines[0] + lines[1], indent) <= WIDTH:
        return [lines[0] + lines[1]] + lines[2:]
    return lines


def is_signature(segment):
    return any(segment.depths[at] == 0 and word == ":" for at, word in enumerate(segment.words))


def lines_of(pieces, indent, deeper):
    found = []
    for number, piece in enumerate(pieces):
        found += lay(piece, indent if number == 0 else indent + deeper, deeper if number == 0 else 0)
    return found


# ---- whole lines

USE = re.compile(r"^((?:ghost )?(?:unfoldable )?(?:pub )?use [^{}]+\.\{)(.*)(\};?)$")
IMPORT_WIDTH = 140


def laid_import(line):
    """Several lines of one import."""
    head, names, end = USE.match(line).groups()
    found, current = [], head
    for name in [name.strip() for name in names.split(",") if name.strip()]:
        if current != head and len(current) + len(name) + 3 > IMPORT_WIDTH:
            found.append(current + end)
            current = head
        current += (", " if current != head else "") + name
    return found + [current + end]


def laid(line):
    """The lines that a long line becomes; itself alone, where no rule breaks it."""
    if USE.match(line):
        return laid_import(line)
    indent = len(line) - len(line.lstrip())
    if line.lstrip().startswith("--"):
        return laid_comment(line.strip(), indent)
    rows = lay(words_of(line), indent)
    return [" " * (indent if number == 0 else indent + 4) + " ".join(row) for number, row in enumerate(rows)]


def laid_comment(text, indent):
    found, current = [], "--"
    for word in text[2:].split():
        if indent + len(current) + 1 + len(word) > WIDTH:
            found.append(current)
            current = "--"
        current += " " + word
    return [" " * indent + one for one in found + [current]]
