#!/usr/bin/env python3
"""Holds that no line of code, of a definition or of a proof is wider than 160 columns, but for those that STAY names.

    tests/long_lines.py [--list]         the last line is 'N passed, M failed'; --list shows each such line that stays, with the reason
    tests/long_lines.py --write [CRATE..]  lays out the long lines of definitions, proofs and contracts, by tests/checks/proofs/line_layout.py and then rt fmt

What --write changes is the layout alone: it compares each file's words before and after, and puts back a file where they differ. A line
stays as it is where an edit that the prover must refuse names it and couldn't be found afterwards.
"""
import collections
import glob
import os
import re
import subprocess
import sys

sys.dont_write_bytecode = True
import try_edits
from checks.judging import TOP
from checks.proofs import line_layout

LIMIT = 160
MOST = 300
ROUNDS = 6
CRATES = os.path.join(TOP, "crates")

# What stays, and why: the file below crates/, and words of the line.
STAY = {
}

# A text that a program says is one line of the code, as it is one line for its reader.
MESSAGE = re.compile(r'"[^"]{90,}"')

Line = collections.namedtuple("Line", "path number text")


def sources():
    return sorted(path for ending in ("rt", "antt") for folder in ("src", "specs", "proofs")
                  for path in glob.glob(os.path.join(CRATES, "*", folder, "**", "*." + ending), recursive=True))


def lines_of(path):
    with open(path, encoding="utf-8") as file:
        return file.read().split("\n")


def long_lines(paths):
    return [Line(path, number, text) for path in paths for number, text in enumerate(lines_of(path), 1) if len(text) > LIMIT]


def named(path):
    return os.path.relpath(path, CRATES)


def reason(line, edits):
    """Why a line may be as wide as it is, or None."""
    for (path, words), why in STAY.items():
        if path == named(line.path) and words in line.text:
            return why
    if MESSAGE.search(line.text):
        return "a text that the program says"
    if any(old in line.text for old in edits.get(named(line.path), ())):
        return "an edit names it"
    return None


def edited_texts():
    """The texts that edits look for, by the file."""
    found = collections.defaultdict(set)
    for folder in (os.path.join(CRATES, "*", "must-fail"), os.path.join(try_edits.EDITS, "*")):
        for path in sorted(glob.glob(os.path.join(folder, "*.edit"))):
            crate = os.path.basename(os.path.dirname(path))
            crate = os.path.basename(os.path.dirname(os.path.dirname(path))) if crate == "must-fail" else crate
            edit = try_edits.read_edit(path, crate)
            for file, old, _ in edit.changes:
                found[os.path.join(edit.crate, file)].add(old)
    return found


def check(shown):
    edits = edited_texts()
    lines = long_lines(sources())
    kept = [(line, reason(line, edits)) for line in lines]
    faults = ["%s:%d: %d columns" % (named(line.path), line.number, len(line.text)) for line, why in kept if why is None]
    texts = collections.Counter((path, words) for path, words in STAY for line in lines if path == named(line.path) and words in line.text)
    faults += ["%s: no long line has %s" % key for key in STAY if not texts[key]]
    stays = len([why for _, why in kept if why])
    if stays > MOST:
        faults.append("%d lines stay, more than %d" % (stays, MOST))
    if shown:
        for line, why in kept:
            if why:
                print("%s:%d: %s" % (named(line.path), line.number, why))
    for fault in faults:
        print(fault)
    print("%d passed, %d failed" % (stays, len(faults)))
    return 1 if faults else 0


# ---- laying out

TOKEN = re.compile(r'"(?:\\.|[^"\\])*"|«[^»]*»|\.(?=\s)|[(){}.;,@]|[^\s(){}.;,@"«»]+|["«»]')
USE = re.compile(r"((?:ghost )?(?:unfoldable )?(?:pub )?use) ([^\s{}]+)\.\{([^{}]*)\};?")
# The lines of code that are antt's text: imports and what contracts say.
CLAUSE = re.compile(r" *(?:ghost use .*\};$|ensures |requires |invariant |[→≡(])")


def meaning(text):
    """The words of a text that its layout doesn't change: a last comma and a first bar go, an import stands for each of its names."""
    code = "\n".join(line for line in text.split("\n") if not line.lstrip().startswith(("--", "//")))
    remarks = [word for line in text.split("\n") if line.lstrip().startswith(("--", "//")) for word in line.split() if word != "--"]
    imports = []

    def take(found):
        imports.extend((found.group(1), found.group(2), " ".join(name.split())) for name in found.group(3).split(",") if name.strip())
        return " "

    tokens = [("." + found.string[found.end()] .replace("\n", " ") if found.group(0) == "." and found.end() < len(found.string) and
               found.string[found.end()].isspace() else found.group(0)) for found in TOKEN.finditer(USE.sub(take, code))]
    kept = [token for token, after in zip(tokens, tokens[1:] + [""]) if not (token in (",", ";") and after in (")", "}"))]
    return [token for before, token in zip([""] + kept, kept) if not (token == "|" and before == "[")], imports, remarks


def write(names):
    edits = edited_texts()
    paths = [path for path in sources() if not names or named(path).split(os.sep)[0] in names]
    before, stays = {}, collections.defaultdict(set)
    for number in range(ROUNDS):
        changed = [path for path in paths if lay_out(path, edits.get(named(path), ()), before, stays[path])]
        print("round %d: %d files" % (number + 1, len(changed)), flush=True)
        if not changed:
            break
        for crate in sorted({named(path).split(os.sep)[0] for path in changed}):
            formatted = subprocess.run(["rt", "fmt"], cwd=os.path.join(CRATES, crate), stdout=subprocess.PIPE, stderr=subprocess.STDOUT)
            if formatted.returncode:
                print(formatted.stdout.decode("utf-8", "replace").rstrip())
                put_back([path for path in changed if named(path).split(os.sep)[0] == crate], before)
                return 1
    wrong = [path for path, text in before.items() if meaning(text) != meaning("\n".join(lines_of(path)))]
    for path in wrong:
        print("%s: other words" % named(path))
    put_back(wrong, before)
    return 1 if wrong else 0


def put_back(paths, before):
    for path in paths:
        with open(path, "w", encoding="utf-8") as file:
            file.write(before[path])


def lay_out(path, olds, before, stays):
    """Lays out the long lines of a file; whether any was."""
    lines, found = lines_of(path), []
    for line in lines:
        new = [line]
        if len(line) > LIMIT and line.strip() not in stays and (path.endswith(".antt") or CLAUSE.match(line)):
            new = line_layout.laid(line)
            if any(old in line and not any(old in part for part in new) for old in olds) or len(new) == 1:
                stays.add(line.strip())
                new = [line]
        found += new
    if len(found) == len(lines):
        return False
    before.setdefault(path, "\n".join(lines))
    with open(path, "w", encoding="utf-8") as file:
        file.write("\n".join(found))
    return True


def main():
    if sys.argv[1:2] == ["--write"]:
        return write(sys.argv[2:])
    if sys.argv[1:] in ([], ["--list"]):
        return check(bool(sys.argv[1:]))
    print(__doc__)
    return 2


if __name__ == "__main__":
    sys.exit(main())
