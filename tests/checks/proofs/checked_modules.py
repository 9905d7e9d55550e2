"""What a check leaves of each module in crates/*/out/incremental: which fields its proofs project, also those that a tactic found.

A module's file has a table of the names that its terms use, the terms, and the names of all that it rests on. A projection is the
byte 10 (138 where it is the last of its kind), how many nodes before it that one stands which it is of, and the number of the field's
name: `x.a.b` are two that follow each other, the second at distance 1. The terms aren't parsed: such bytes can stand there by chance, so
this is for finding users, and no proof that something is one.
"""
import glob
import os
import re

IDENTIFIER = re.compile(r"^[^\W\d][\w'-]*$")
PROJECTIONS = re.compile(rb"[\x0a\x8a]")
CONSTRUCTIONS = re.compile(rb"[\x09\x89]")


def number_at(data, at):
    """A number in groups of seven bits, the least first, and the place after it."""
    value, shift = 0, 0
    while True:
        byte = data[at]
        at += 1
        value |= (byte & 127) << shift
        shift += 7
        if byte < 128:
            return value, at


def names_at(data, at):
    """A table of names, and the place after it."""
    count, at = number_at(data, at)
    found = []
    for _ in range(count):
        length, at = number_at(data, at)
        found.append(data[at:at + length].decode("utf-8", "replace"))
        at += length
    return found, at


class Module:
    """A checked module: the names that its terms project and build, and what it rests on."""

    def __init__(self, path):
        self.name = os.path.basename(path)[:-len(".oantt")]
        with open(path, "rb") as file:
            data = file.read()
        data = data[re.search(rb"\n(?!--@)", data).end():]
        if not data.startswith(b"ATB2"):
            raise SystemExit("%s has a form that this script doesn't know" % path)
        self.names, at = names_at(data, 4)
        end = data.find(b"ADR2", at)
        self.terms = data[at:end]
        self.rests_on, at = set(), data.find(b"ARD2", end)
        while at >= 0:
            self.rests_on.update(names_at(data, at + 4)[0])
            at = data.find(b"ARD2", at + 4)

    def name_at(self, at):
        number, at = number_at(self.terms, at)
        return (self.names[number], at) if number < len(self.names) and IDENTIFIER.match(self.names[number]) else (None, at)

    def projections(self):
        """Each projection that may stand in its terms: by its place the place after it, its distance, and the field's name."""
        found = {}
        for place in PROJECTIONS.finditer(self.terms):
            try:
                distance, at = number_at(self.terms, place.end())
                name, end = self.name_at(at)
            except IndexError:
                continue
            if name:
                found[place.start()] = end, distance, name
        return found

    def projected(self):
        """The names of the fields that its terms may project."""
        return {name for _, _, name in self.projections().values()}

    def ensured(self):
        """The pairs of a step and a clause of which its terms may say `step.ensures.clause`, and of a step and "" where they may say
        `step.ensures`; the step is "" where it stands elsewhere."""
        found, pairs = self.projections(), set()
        follows = {end: at for at, (end, _, _) in found.items()}

        def step_of(at):
            step = follows.get(at) if found[at][1] == 1 else None
            return "" if step is None else found[step][2]

        for at, (_, distance, clause) in found.items():
            of = follows.get(at)
            if clause == "ensures":
                pairs.add((step_of(at), ""))
            if distance == 1 and of is not None and found[of][2] == "ensures":
                pairs.add((step_of(of), clause))
        return pairs

    def built(self):
        """The names of the fields of the records that its terms may build."""
        found = set()
        for place in CONSTRUCTIONS.finditer(self.terms):
            try:
                count, at = number_at(self.terms, place.end())
                fields = []
                for _ in range(count if 0 < count <= 40 else 0):
                    name, at = self.name_at(at)
                    fields.append(name)
                    _, at = number_at(self.terms, at)
                if None not in fields:
                    found.update(fields)
            except IndexError:
                pass
        return found


def modules(tree):
    """The modules of answers, proofs, lemmas and definitions that checks left in this tree, crate by crate."""
    for room in sorted(glob.glob(os.path.join(tree, "crates", "*", "out", "incremental", "antt-checked*"))):
        crate = room.split(os.sep)[-4]
        for path in sorted(glob.glob(os.path.join(room, "Rattle-%s-*.oantt" % crate))):
            parts = os.path.basename(path)[:-len(".oantt")].split(".")
            kind = parts[0].rpartition("-")[2]
            written = os.path.exists(os.path.join(tree, "crates", crate, kind, *parts[1:]) + ".antt")
            if written or kind == "proofs" and parts[-1] in ("Answers", "Proof", "Invariants"):
                yield Module(path)
