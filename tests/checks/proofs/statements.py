"""Statements of definitions and lemmas as words: where they are cut, what they take and what they say."""
import re

WORD = r"[^\W\d][\w'-]*"
TOKEN = re.compile(r"\.\d+|\." + WORD + r"|" + WORD + r"|\d+|[(){}\[\];,]|[^\s\w(){}\[\];,.]+|\.")
OPEN, SHUT = {"(", "{", "["}, {")", "}", "]"}


def tokens(text):
    return TOKEN.findall(text)


def closing(words, at):
    """Where the bracket that opens at this place is shut."""
    depth = 0
    for place in range(at, len(words)):
        depth += (words[place] in OPEN) - (words[place] in SHUT)
        if depth == 0:
            return place
    return len(words) - 1


def parted(words, mark):
    """These words, cut at each mark that stands in no bracket."""
    if mark not in words:
        return [list(words)]
    found, depth = [[]], 0
    for word in words:
        depth += (word in OPEN) - (word in SHUT)
        if word == mark and depth == 0:
            found.append([])
        else:
            found[-1].append(word)
    return found


def bare(words):
    """These words without brackets round the whole."""
    while words and words[0] == "(" and closing(words, 0) == len(words) - 1:
        words = words[1:-1]
    return words


def arguments(words):
    """What a statement takes, and what it says: pairs of a name, or None, and a type's words; and the words of the rest."""
    *taken, last = parted(words, "→")
    found = []
    for part in taken:
        at = 0
        while at < len(part) and part[at] in ("(", "{"):
            end = closing(part, at)
            inside = part[at + 1:end]
            if ":" not in inside or "→" in inside[:inside.index(":")]:
                break
            middle = inside.index(":")
            if part[at] == "(":
                found += [(name, inside[middle + 1:]) for name in inside[:middle]]
            at = end + 1
        if at < len(part):
            found.append((None, part[at:]))
    return found, last


def atoms(words):
    """The words in groups, a bracket with all that is in it as one."""
    found, at = [], 0
    while at < len(words):
        end = closing(words, at) if words[at] in OPEN else at
        found.append(words[at:end + 1])
        at = end + 1
    return found
