#!/usr/bin/env python3
"""Lists what of the code has to be read to believe the headline: the types that its definitions mention.

    tests/declared_types.py

It follows the words of `Headline` through the definitions of the project's crates. Each type of the code that one names, and
each that such a type holds, has a line: its crate, its name and its file. Of some definitions have the value that their
`ghost view` says; these are the views, and the last line counts them apart.
"""
import os
import re
import sys

sys.dont_write_bytecode = True
from checks import judging
from checks.judging import TOP, content
from checks.proofs import code_texts
from checks.proofs.code_texts import CRATES

HEADLINE = ("tso_cli.specs.Headline", "Headline")

USE = re.compile(r"(?:pub )?use Rattle\.([\w.]+?)(?:\.\{(.*)\}| as (\w+))?$")
HEAD = re.compile(r"(?:(?:pub|abbrev|unfoldable|record|data)\s+)*([A-Za-z_][\w']*)")
PART = re.compile(r"^\s+(?:pub\s+)?([A-Za-z_][\w']*)\s*:", re.MULTILINE)
WORD = re.compile(r"[A-Za-z_][\w']*")
DECLARED = re.compile(r"(\w+)\.specs\.declared\.(?:\w+\.)*?(\w+)(?:\.TheVariants)?$")


def imported(line):
    """The names that a `use` brings in, each with its module and the name that it has there."""
    module, names, alias = USE.match(line).groups()
    if alias:
        yield alias, (module, None)
    for name in filter(None, (name.strip() for name in (names or "").split(","))):
        original, _, new = name.partition(" as ")
        yield new or original, (module, original)


def module_of(name, known={}):
    """The imports of a module of definitions, its definitions by name, and the definition that each part stands in."""
    path = os.path.join(CRATES, *name.split(".")) + ".antt"
    if name not in known:
        imports, texts, current = {}, {}, None
        for line in content(path).splitlines() if os.path.exists(path) else []:
            line = line.split("--")[0].rstrip()
            if USE.match(line):
                imports.update(imported(line))
            elif HEAD.match(line):
                current = HEAD.match(line).group(1)
            if current:
                texts[current] = texts.get(current, "") + line + "\n"
        parts = {part: definition for definition, text in texts.items() for part in PART.findall(text)}
        known[name] = imports, texts, parts
    return known[name]


def declared_from(start):
    """The crate and the name of each type of the code that the definitions reach from this one."""
    seen, waiting, found = set(), [start], set()
    while waiting:
        place = module, name = waiting.pop()
        if place in seen:
            continue
        seen.add(place)
        declared = DECLARED.match(module)
        if declared:
            found.add(declared.groups())
            continue
        imports, texts, parts = module_of(module)
        if name in imports and name not in texts:
            waiting.append(imports[name])  # This module hands the word on.
            continue
        text = texts.get(name) or texts.get(parts.get(name), "")
        words = set(WORD.findall(text))
        waiting += [imports[word] for word in words if word in imports]
        waiting += [(module, word) for word in words if word in texts and word not in imports]
    return sorted(found)


def declarations():
    """The file and the text of each type that the code declares, by its crate and its name."""
    form = re.compile(r"^pub (?:enum|struct) (\w+).*?(?:^}|;$)", re.MULTILINE | re.DOTALL)
    return {(crate, found.group(1)): (os.path.join(CRATES, path), re.sub(r"//.*", "", found.group()))
            for crate in code_texts.crates() for path, text in code_texts.files_of(crate) for found in form.finditer(text)}


def viewed_names():
    """The names of the types with a `ghost view`."""
    crates = {crate for crate, _ in declarations()}
    return {name for crate in crates for _, text in code_texts.files_of(crate) for name in re.findall(r"^impl Model for (\w+)", text, re.MULTILINE)}


def with_held(types):
    """These types and those that they hold, each a crate and a name; a type of another crate has but one of its name."""
    texts, found, waiting = declarations(), set(), list(types)
    crates_of = {}
    for crate, name in texts:
        crates_of.setdefault(name, []).append(crate)
    while waiting:
        crate, name = type = waiting.pop()
        if type in found:
            continue
        found.add(type)
        # A line's first word is the name of a variant or a field, and no type.
        for word in set(WORD.findall(re.sub(r"(?m)^\s*(?:pub )?\w+", "", texts[type][1]))):
            if (crate, word) in texts:
                waiting.append((crate, word))
            elif len(crates_of.get(word, [])) == 1:
                waiting.append((crates_of[word][0], word))
    return sorted(found), texts


def short(path):
    return os.path.relpath(path, TOP)


def main():
    judging.tell(__doc__)
    types, texts = with_held(declared_from(HEADLINE))
    viewed = viewed_names()
    for crate, name in types:
        print("%s %s%s: %s" % (crate, name, ", by its view" if name in viewed else "", short(texts[crate, name][0])))
    count = sum(name in viewed for _, name in types)
    print("%d types, %d views" % (len(types) - count, count))
    return 0


if __name__ == "__main__":
    sys.exit(main())
