#!/usr/bin/env python3
"""Tries the edits of tests/data/edits/, which the prover must refuse.

    tests/try_edits.py [CRATE..]                 those of these crates; without a name all, for a release
    tests/try_edits.py --oldest MOST SECONDS     so many at most, in so many processor seconds: those that were refused longest ago
    tests/try_edits.py --applies                 proves nothing: whether each edit, those of must-fail/ too, still finds its text

Run it for a crate whose code or contracts change; outside the gate `--oldest` tries a few that were refused longest ago. An edit has the form of those in
crates/NAME/must-fail/: a line 'file: src/lib.rt' and pairs of lines 'old: TEXT' and 'new: TEXT'. Where the file is one of a crate below, a
line 'crate: OTHER' stands before it: then what stands between the two is built anew over the edited file, and NAME is checked. Everything
happens in a scratch copy, by 'rt check'.

A function is judged by its own body and the contracts of what it calls. So edits of the bodies of functions of different
names are tried by one check, and each is refused where a function that it changes isn't proved. Any other edit has a
check of its own, and so has each that its group's check doesn't refuse. The last line is 'N passed, M failed'.

tests/data/refused_edits.list says of each edit when it was refused last, and by what. What is refused now is written there: commit it, that
the next run tries others.
"""
import collections
import glob
import os
import re
import shutil
import subprocess
import sys
import tempfile

sys.dont_write_bytecode = True
from checks import judging
from checks.judging import TOP
from checks.proofs import refused_edits

CRATES = os.path.join(TOP, "crates")
EDITS = os.path.join(TOP, "tests", "data", "edits")
# Maximum number of edits that one check tries.
GROUP = 12

# An edit: its name, the crate whose files it changes, and of each change the file, the text there and the new one.
Edit = collections.namedtuple("Edit", "name crate changes")


def link_or_copy(source, target):
    """Links what a check left in a crate's out/, gigabytes that the next check replaces and never writes into; copies all else, and
    where no link can be made."""
    if os.path.relpath(source, CRATES).split(os.sep)[1] == "out":
        try:
            return os.link(source, target)
        except OSError:
            pass
    return shutil.copy2(source, target)


def scratch_copy(room):
    """Copies the crates, with the libraries that were built of them, so that only what an edit changes is proved."""
    for name in ("crates.txt", "HANDLES"):
        shutil.copy(os.path.join(TOP, name), room)
    skipped = shutil.ignore_patterns("must-fail")
    shutil.copytree(CRATES, os.path.join(room, "crates"), ignore=skipped, symlinks=True, copy_function=link_or_copy)


def read_edit(path, crate):
    changes, file, old = [], None, None
    with open(path) as opened:
        for line in opened.read().split("\n"):
            key, _, value = line.partition(": ")
            if key == "crate":
                crate = value
            elif key == "file":
                file = value
            elif key == "old":
                old = value
            elif key == "new":
                changes.append((file, old, value))
    return Edit(os.path.basename(path), crate, changes)


def body_at(source, at):
    """The name of the function in whose body this byte of a source stands; None where it stands elsewhere."""
    before = source[:at].split("\n")
    opened = False
    for line in reversed(before[:-1]):
        if re.match(r" *\{$", line) or re.match(r" *(pub(\(\w+\))? )?(const )?fn .*\{$", line):
            opened = True
        if re.match(r"( {4})?\}$", line):
            return None
        declared = re.match(r" *(?:pub(?:\(\w+\))? )?(?:const )?fn (\w+)", line)
        if declared:
            return declared[1] if opened else None
    return None


def bodies_of(room, edit):
    """The names of the functions whose bodies, and nothing else, an edit changes; None where it changes more. (The checker names a
    method by its type, in whatever file it stands.)"""
    bodies = set()
    for file, old, _ in edit.changes:
        with open(os.path.join(room, "crates", edit.crate, file)) as opened:
            source = opened.read()
        name = body_at(source, source.find(old)) if file.startswith("src/") else None
        if name is None:
            return None
        bodies.add(name)
    return bodies


def in_groups(room, edits):
    """The edits in groups that one check can try: those of bodies together, where no two change one function."""
    groups = []
    for edit in edits:
        bodies = bodies_of(room, edit)
        for group, taken in groups:
            if bodies and taken and len(group) < GROUP and not bodies & taken:
                group.append(edit)
                taken |= bodies
                break
        else:
            groups.append(([edit], bodies and set(bodies)))
    return [group for group, _ in groups]


class Changed:
    """The scratch copy while some edits are made in it."""

    def __init__(self, room, edits):
        self.kept, self.made, self.bad = {}, {}, []
        for edit in edits:
            for file, old, new in edit.changes:
                path = os.path.join(room, "crates", edit.crate, file)
                if path not in self.kept:
                    with open(path) as opened:
                        self.kept[path] = opened.read()
                if self.kept[path].count(old) != 1:
                    self.bad.append("%s: an 'old:' text stands there %d times" % (edit.name, self.kept[path].count(old)))
                self.made.setdefault(path, []).append((self.kept[path].find(old), old, new))

    def __enter__(self):
        for path, changes in self.made.items():
            text = self.kept[path]
            for at, old, new in sorted(changes, reverse=True):
                text = text[:at] + new + text[at + len(old):]
            with open(path, "w") as opened:
                opened.write(text)
        return self

    def __exit__(self, *_):
        for path, text in self.kept.items():
            with open(path, "w") as opened:
                opened.write(text)


def check(room, crate, edits):
    """Checks the crate with these edits made. Answers the functions that aren't proved, each with what was said of it, or a
    sentence where the crate itself wasn't judged."""
    with Changed(room, edits) as changed:
        if changed.bad:
            return "; ".join(changed.bad)
        done = subprocess.run(["rt", "check", "--jobs", "1"], cwd=os.path.join(room, "crates", crate), stdin=subprocess.DEVNULL,
                              stdout=subprocess.PIPE, stderr=subprocess.STDOUT, text=True, errors="replace")
    lines = done.stdout.split("\n")
    # Where a crate in between fails, the crate itself was never checked, and nothing was refused.
    if not any(line.startswith("crate %s:" % crate) for line in lines):
        return ([line for line in lines if ": error" in line] or ["no verdict"])[0][:160]
    found = (re.match(r"fn %s::(\S+): (?!proved$)(.*)" % crate, line) for line in lines)
    return [(match[1].split("::"), match[2]) for match in found if match]


def said_of(bodies, unproved):
    """What is said of an edit by the functions that aren't proved; None where all that it changes are. A function that only calls one
    that isn't proved says nothing of its own body."""
    said = []
    for path, verdict in unproved:
        if bodies is None or any(name in path for name in bodies) and not verdict.startswith("no proof: it calls "):
            clauses = re.findall(r"`returns-clause-(\w+)`", verdict)
            said.append("::".join(path) + (" (%s)" % ", ".join(clauses) if clauses else ""))
    return ", ".join(said) or None


def try_group(room, crate, group):
    """Tries the edits of a group, and once more alone each that this check doesn't refuse. Yields the name of each and what refused it, or
    None."""
    unproved, is_alone = check(room, crate, group), len(group) == 1
    for edit in group:
        if isinstance(unproved, str):
            by, said = None, "NOT JUDGED: " + unproved
        else:
            by = said_of(None if is_alone else bodies_of(room, edit), unproved)
            said = "refused, as it must be: " + by if by else "NOT REFUSED"
        if by or is_alone:
            print("%s/%s: %s" % (crate, edit.name, said), flush=True)
            yield "%s/%s" % (crate, edit.name), by
        else:
            yield from try_group(room, crate, [edit])


def tried(room, named, within):
    """Tries these edits, each given as CRATE/FILE, group by group, while what they are expected to cost leaves room within so many
    processor seconds. Yields of each that was tried its name and what refused it, or None."""
    began = refused_edits.processor_seconds()
    for crate in sorted({name.partition("/")[0] for name in named}):
        edits = [read_edit(os.path.join(EDITS, name), crate) for name in named if name.startswith(crate + "/")]
        for group in in_groups(room, edits):
            spent, names = refused_edits.processor_seconds() - began, ["%s/%s" % (crate, edit.name) for edit in group]
            if spent + refused_edits.expected_seconds(names) > within:
                print("left for the next gate, as %d s are spent: %s" % (spent, ", ".join(names)), flush=True)
                continue
            before = refused_edits.processor_seconds()
            judged = list(try_group(room, crate, group))
            refused_edits.note(judged, refused_edits.processor_seconds() - before)
            yield from judged


def named_edits(crates):
    """The edits of these crates, of all where none is named, each as CRATE/FILE."""
    return [os.path.relpath(path, EDITS) for crate in crates or sorted(os.listdir(EDITS))
            for path in sorted(glob.glob(os.path.join(EDITS, crate, "*.edit")))]


def all_edits():
    """Each edit of tests/data/edits/ and of crates/NAME/must-fail/, with the crate that it is for."""
    for name in named_edits([]):
        yield read_edit(os.path.join(EDITS, name), os.path.dirname(name))
    for path in sorted(glob.glob(os.path.join(CRATES, "*", "must-fail", "*.edit"))):
        yield read_edit(path, os.path.relpath(path, CRATES).split(os.sep)[0])


def faults_of(edit):
    """What keeps an edit from being made: each old text that doesn't stand in its file exactly once."""
    for file, old, _ in edit.changes:
        path, text = os.path.join(CRATES, edit.crate, file), ""
        if os.path.exists(path):
            with open(path) as opened:
                text = opened.read()
        if text.count(old) != 1:
            yield "%s: %d times in %s/%s: %s" % (edit.name, text.count(old), edit.crate, file, old.strip()[:80])


def try_to_apply():
    """Whether each edit finds its text. An edit that doesn't is refused by nobody, and tries nothing."""
    edits = list(all_edits())
    unfit = [faults for faults in ([*faults_of(edit)] for edit in edits) if faults]
    for faults in unfit:
        print("\n".join(faults))
    print("%d passed, %d failed" % (len(edits) - len(unfit), len(unfit)))
    return 1 if unfit else 0


def main(words):
    judging.tell(__doc__)
    if words == ["--applies"]:
        return try_to_apply()
    within = float("inf")
    if words[:1] == ["--oldest"]:
        most, within = (int(word) for word in words[1:])
        named = refused_edits.longest_ago(named_edits([]), most, within)
    else:
        named = named_edits(words)
    with tempfile.TemporaryDirectory(prefix="tso-edits-") as room:
        scratch_copy(room)
        judged = list(tried(room, named, within))
    refused_edits.keep(named_edits([]))
    failed = sum(by is None for _, by in judged)
    print("%d tried, %d left; %d were never refused by a run that wrote the list"
          % (len(judged), len(named) - len(judged), len(refused_edits.never(named_edits([])))))
    print("%d passed, %d failed" % (len(judged) - failed, failed or not judged))
    return 1 if failed or not judged else 0


if __name__ == "__main__":
    sys.exit(main(sys.argv[1:]))
