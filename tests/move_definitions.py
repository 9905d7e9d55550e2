#!/usr/bin/env python3
"""Moves definitions of specs/ from one file to another, and has every import follow.

    tests/move_definitions.py FROM TO NAME..       as tso_terms/Execution tso_terms/Axioms IsWhole StandsIn
    tests/move_definitions.py FROM TO              all of the file

A file is told by its crate and its path below specs/; TO is made where it isn't there yet, with the head of FROM, and FROM goes where
nothing is left in it. A definition takes its comment along. Both files get the imports that their definitions use; Lib.antt, or the
file of the folder, names a new file. Edits that name one of the files, and documents, are left to the hand: tests/try_edits.py and
tests/documents.py tell them.
"""
import os
import re
import sys

sys.dont_write_bytecode = True
from checks import judging
from checks.judging import TOP

CRATES = os.path.join(TOP, "crates")
NAME = r"[^\W\d][\w'-]*"
BEGINS = re.compile(r"(?:pub )?(abbrev|unfoldable|record|data)(?: pub)? ([^\s{]\S*)")
USE = re.compile(r"^(\s*)(ghost use|pub use|use) ((?:Rattle\.)?[\w.]+?)(?:\.\{(.*)\})?(?: as (\w+))?(;?)$")
OURS = "Rattle."
LONGEST_USE = 120


class Item:
    """A definition with the comment above it; its name is None for what belongs to no definition."""

    def __init__(self, comment):
        self.name, self.comment, self.text = None, comment, []

    def members(self):
        """The names that others may import beside the definition's own: constructors, and definitions within a section."""
        within = [BEGINS.match(line.strip()).group(2) for line in self.text[1:] if line.startswith("  ") and BEGINS.match(line.strip())]
        if within:
            return within
        if not self.text or not re.match(r"(?:pub )?data", self.text[0]):
            return []
        return [name for line in self.text[1:] for name in re.findall(r"^  (?:pub )?(" + NAME + ") :", line)]


def whole(module):
    """A module's name as an import has it; one outside the folders of the crates begins with a dot here."""
    return module[1:] if module.startswith(".") else OURS + module


class Import:
    """One line of imports: its word, its module, pairs of a name and its other name (None for the whole module), and the alias."""

    def __init__(self, found):
        self.indent, self.word, module, names, self.alias, self.end = found.groups()
        self.module = module[len(OURS):] if module.startswith(OURS) else "." + module
        self.names = None
        if names is not None:
            pairs = (part.strip().partition(" as ") for part in names.split(","))
            self.names = [(name, other or None) for name, _, other in pairs if name]

    def line(self, module, names):
        if names is None:
            return "%s%s %s%s%s" % (self.indent, self.word, whole(module), " as " + self.alias if self.alias else "", self.end)
        inside = ", ".join(name + (" as " + other if other else "") for name, other in names)
        return "%s%s %s.{%s}%s" % (self.indent, self.word, whole(module), inside, self.end)


class File:
    """A file of definitions, cut into its head, its imports and its items."""

    def __init__(self, module):
        self.module, self.path = module, path_of(module)
        self.head, self.imports, self.items = [], [], []
        if os.path.exists(self.path):
            self.read(open(self.path, encoding="utf-8").read().split("\n"))

    def read(self, lines):
        comment, item, in_head = [], None, True
        for at, line in enumerate(lines):
            found = USE.match(line)
            if found or BEGINS.match(line) or line.startswith("infix"):
                if in_head and found:
                    self.head, comment, in_head = comment, [], False
                if found:
                    self.imports.append(Import(found))
                    item = None
                elif item is None or item.name is not None:
                    item = Item(strip_blank(comment))
                    comment = []
                    self.items.append(item)
                if not found:
                    item.name = BEGINS.match(line).group(2) if BEGINS.match(line) else None
                    item.text.append(line)
            elif line.startswith("--") and (item is None or begins_next(lines[at:])):
                comment.append(line)
                item = None
            elif item is not None:
                item.text.append(line)
            elif comment and not line.strip():
                comment.append(line)
        for one in self.items:
            one.text = strip_blank(one.text)
        self.head = strip_blank(self.head)

    def names(self):
        return {name for item in self.items for name in [item.name] + item.members() if name}

    def write(self, candidates, partner):
        """Writes the file with those of these imports, and of its own and the other file's names for whole files, that its items use."""
        if not self.items:
            os.remove(self.path)
            return
        text = "\n".join(line.split(" -- ")[0] for item in self.items for line in item.text if not line.startswith("--"))
        words, own, taken, grouped = set(re.findall(NAME, text)), self.names(), set(), {}
        for word, module, name, other in candidates:
            local = other or name
            if module == self.module or local in own or (module, name, other) in taken or not is_used(local, text, words):
                continue
            taken.add((module, name, other))
            grouped.setdefault((word, module), []).append((name, other))
        lines = list(self.head)
        for (word, module), names in grouped.items():
            lines += import_lines(word, module, names)
        for one in self.imports + [one for one in partner.imports if one.word == "use"]:
            if one.names is None and (one.word == "pub use" or re.search(r"\b%s\." % one.alias, text)):
                line = one.line(one.module, None)
                lines += [] if line in lines else [line]
        for item in self.items:
            lines += [""] + item.comment + item.text
        os.makedirs(os.path.dirname(self.path), exist_ok=True)
        with open(self.path, "w", encoding="utf-8") as file:
            file.write("\n".join(lines) + "\n")


def path_of(module):
    crate, _, inner = module.partition(".specs.")
    return os.path.join(CRATES, crate, "specs", inner.replace(".", "/") + ".antt")


def strip_blank(lines):
    lines = list(lines)
    while lines and not lines[-1].strip():
        lines.pop()
    while lines and not lines[0].strip():
        lines.pop(0)
    return lines


def begins_next(lines):
    """Whether these lines of comment stand before a definition, and not amid one."""
    after = next((line for line in lines if line.strip() and not line.startswith("--")), "")
    return bool(BEGINS.match(after)) or after.startswith("infix")


def is_used(local, text, words):
    """Whether a text uses an imported name; of an operator each part must stand there."""
    if local == "◌>>=◌" and "do" in words:
        return True
    if "◌" in local:
        return all(part in words if re.fullmatch(NAME, part) else part in text for part in local.split("◌") if part)
    return local in words if re.fullmatch(NAME, local) else local in text


def import_lines(word, module, names):
    """Imports of these names, on as many lines as they need."""
    form, lines, row = Import(USE.match("%s %s.{x}" % (word, whole(module)))), [], []
    for one in names:
        if row and len(form.line(module, row + [one])) > LONGEST_USE:
            lines.append(form.line(module, row))
            row = []
        row.append(one)
    return lines + [form.line(module, row)]


def candidates_of(file, other, moved, target):
    """All that a file may have to import: what it and the other file import, and what the other defines."""
    found = []
    for source in (file, other):
        for one in source.imports:
            for name, new in one.names or []:
                module = target if (one.module, name) in moved else one.module
                found.append((one.word, module, name, new))
    return found + [("use", other.module, name, None) for name in sorted(other.names())]


def joined(lines, module):
    """The lines with the imports of this module put together where they stand together, as far as a line holds them."""
    kept, first = [], {}
    for line in lines:
        found = USE.match(line)
        one = Import(found) if found else None
        if one is None or one.module != module or one.alias:
            if one is None and line.strip():
                first = {}
            kept.append(line)
            continue
        key = one.word, one.names is None
        if key not in first:
            first[key] = len(kept), one
            kept.append(line)
        elif one.names is not None:
            at, before = first[key]
            names = before.names + [pair for pair in one.names if pair not in before.names]
            if len(before.line(module, names)) > LONGEST_USE:
                kept.append(line)
            else:
                before.names = names
                kept[at] = before.line(module, names)
    return kept


def followed_paths(text, path, source, target, names):
    """The text with the definitions that code names by a path, as in `unfolding(crate::specs::Cells::cell_in)`."""
    crate, before = source.split(".", 1)
    after = target.split(".", 1)[1]
    own = "crate|" if os.path.relpath(path, CRATES).split(os.sep)[0] == crate else ""
    form = r"\b(%s%s)::%s::(%s)(?![\w'])" % (own, crate, before.replace(".", "::"), names)
    return re.sub(form, r"\1::%s::\2" % after.replace(".", "::"), text)


def follow(path, source, target, moved, is_gone):
    """Rewrites the imports of one file of code, proofs or definitions."""
    with open(path, encoding="utf-8") as file:
        lines = file.read().split("\n")
    names = "|".join(sorted((re.escape(name) for _, name in moved), key=len, reverse=True))
    after, renamed = [], None
    for line in lines:
        found = USE.match(line)
        one = Import(found) if found else None
        if one is None or one.module != source:
            after.append(line)
        elif one.names is None and one.alias:
            if not is_gone:
                after.append(line)
            if is_gone or re.search(r"(?<![\w.])%s\.(%s)(?![\w'-])" % (one.alias, names), "\n".join(lines)):
                renamed = one.alias, one.alias if is_gone else "inner"
                one.alias = renamed[1]
                after.append(one.line(target, None))
        elif one.names is None:
            after += [] if is_gone else [line]
            if not is_gone and target.split(".")[-1] == source.split(".")[-1]:
                one.alias = "".join(part[0].upper() + part[1:] for part in target.split(".")[-2:])
            after.append(one.line(target, None))
        else:
            stay = [pair for pair in one.names if (source, pair[0]) not in moved]
            go = [pair for pair in one.names if (source, pair[0]) in moved]
            after += [one.line(source, stay)] if stay else []
            after += [one.line(target, go)] if go else []
    text = "\n".join(joined(after, target))
    if renamed:
        text = re.sub(r"(?<![\w.])%s\.(%s)(?![\w'-])" % (renamed[0], names), renamed[1] + r".\1", text)
    if renamed and renamed[0] != renamed[1] and not re.search(r"(?<![\w.])%s\." % renamed[0], text):
        text = re.sub(r"(?m)^.*use Rattle\.%s as %s;?\n" % (re.escape(source), renamed[0]), "", text)
        text = re.sub(r"( as |(?<![\w.:]))%s(?=;?$|\.)" % renamed[1], r"\g<1>" + renamed[0], text, flags=re.M)
    text = followed_paths(text, path, source, target, names)
    if text != "\n".join(lines):
        with open(path, "w", encoding="utf-8") as file:
            file.write(text)


def name_in_folder(module, is_there):
    """Has the file that names the files of a folder name this one, or not."""
    crate, _, inner = module.partition(".specs.")
    room, parts = os.path.join(CRATES, crate, "specs"), inner.split(".")
    owner = os.path.join(room, "/".join(parts[:-1]) + ".antt") if len(parts) > 1 else os.path.join(room, "Lib.antt")
    if len(parts) > 1 and not os.path.exists(owner):
        with open(owner, "w", encoding="utf-8") as file:
            file.write("-- Words of contracts inside the project.\n")
        name_in_folder(crate + ".specs." + ".".join(parts[:-1]), True)
    with open(owner, encoding="utf-8") as file:
        lines = file.read().rstrip("\n").split("\n")
    line = "pub mod " + parts[-1]
    if is_there and line not in lines:
        last = max([at for at, one in enumerate(lines) if one.startswith("pub mod ")], default=len(lines) - 1)
        lines.insert(last + 1, line)
    elif not is_there and line in lines:
        lines.remove(line)
    with open(owner, "w", encoding="utf-8") as file:
        file.write("\n".join(lines) + "\n")


def module_named(text):
    crate, _, inner = text.partition("/")
    return "%s.specs.%s" % (crate, inner.replace("/", "."))


def main(arguments):
    judging.tell(__doc__)
    if len(arguments) < 2 or arguments[0].startswith("-"):
        sys.exit(__doc__)
    source, target = File(module_named(arguments[0])), File(module_named(arguments[1]))
    wanted = set(arguments[2:]) or {item.name for item in source.items}
    missing = wanted - {item.name for item in source.items}
    if missing:
        sys.exit("%s has no %s" % (arguments[0], ", ".join(sorted(missing))))
    wanted |= {item for item in source.items if item.name is None and set(item.text[0].split()) & wanted}
    going = [item for item in source.items if item.name in wanted or item in wanted]
    moved = {(source.module, name) for item in going for name in [item.name] + item.members()}
    source.items = [item for item in source.items if item not in going]
    target.items += going
    target.head = target.head or list(source.head)
    for file, other in ((source, target), (target, source)):
        candidates = candidates_of(file, other, moved, target.module)
        file.write(candidates, other)
        name_in_folder(file.module, bool(file.items))
    for folder, folders, names in os.walk(CRATES):
        folders[:] = [name for name in folders if name not in ("out", "must-fail")]
        for name in names:
            path = os.path.join(folder, name)
            if name.endswith((".antt", ".rt")) and path not in (source.path, target.path):
                follow(path, source.module, target.module, moved, not source.items)


if __name__ == "__main__":
    main(sys.argv[1:])
