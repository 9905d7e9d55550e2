"""Files in the forms that diy7, litmus7 and herd's libraries have (tests/data/imports), for tests/batteries.py.

Those of refused/ are refused, each fault with its line and words. Those of read/ are read, and all that the program finds for them is what
it finds for the same test written by hand (hand/), as tools/compare says, in the names of the files; and so is theory's verdict.
"""
import collections
import json
import os
import tempfile

import answers
import faults
import importer
import litmus
import shows
import tso
import verdicts
from scripts import COULD_NOT, script

from . import hardware_runs
from .log_forms import IRIW, IRIW_LOG, OTHER_NAME, SHOWN
from .tool_runs import TESTS, described, stand_in, tool, write

FOLDER = os.path.join(TESTS, "data", "imports")
READ, HAND, REFUSED = (os.path.join(FOLDER, name) for name in ("read", "hand", "refused"))
LEAST = 120


def content(*names):
    with open(os.path.join(*names), encoding="latin-1", newline="") as file:
        return file.read()


def judge_refused(tally):
    due = collections.defaultdict(list)
    for line in content(REFUSED, "why.list").splitlines():
        if not line.startswith("#"):
            place, _, words = line.partition(": ")
            due[place.split(":")[0]].append((int(place.split(":")[1]), words))
    for name in sorted(set(os.listdir(REFUSED)) - {"why.list"} | set(due)):
        try:
            importer.Importer(content(REFUSED, name)).test()
            tally.add(name, "isn't refused")
        except faults.Refused as fault:
            told = [(line, str(one)) for line, one in fault.faults]
            same = len(told) == len(due[name]) and all(line == at and words in why for (line, why), (at, words) in zip(told, due[name]))
            tally.add(name, None if same else "refused: %s" % told)


def judge_read(program, tally, room):
    """All that the program finds for both, as two logs."""
    theory, folder, logs = script("theory"), os.path.join(room, "imported"), ["", ""]
    done = tool("import", "-o", folder, READ)
    names = sorted(os.listdir(READ))
    counts = "import: %d tests, %d read, 0 refused\n" % (len(names), len(names))
    tally.add("a folder is imported", None if (done.returncode, done.stdout, done.stderr) == (0, "", counts) else described(done))
    for name in names:
        here, by_hand = content(folder, name), content(HAND, name)
        said, due = verdicts.by_theory(theory, here), verdicts.by_theory(theory, by_hand)
        tally.add(name, None if said.verdict == due.verdict else "theory says %s, and by hand %s" % (said.verdict, due.verdict))
        logs = [log + tso.call(["outcomes", "--instructions", "all"], text, program, 60)[0] for log, text in zip(logs, (here, by_hand))]
        again = importer.Importer(here).test().text()
        tally.add(name, None if again == here else "isn't imported as itself:\n" + again)
    paths = [write(os.path.join(room, "log %d" % number), log) for number, log in enumerate(logs)]
    done = tool("compare", *paths, "--tests", READ)
    counts = "%d tests in both logs, 0 differences\n" % len(names)
    tally.add("imported, and by hand", None if (done.returncode, done.stdout) == (0, counts) else described(done))


def judge_names(program, tally, room):
    """IRIW with r8 to r15: herd's log of the file, and the program's answer to the imported test."""
    file, log = write(os.path.join(room, "iriw.litmus"), IRIW), write(os.path.join(room, "herd"), IRIW_LOG)
    found = write(os.path.join(room, "found"), tso.call(["outcomes"], importer.Importer(IRIW).test().text(), program, 60)[0])
    done = tool("compare", found, log, "--tests", file)
    said = "IRIW: x is shown in the second log alone\nIRIW: y is shown in the second log alone\n1 tests in both logs, 0 differences\n"
    tally.add("IRIW with r8 to r15", None if (done.returncode, done.stdout) == (0, said) else described(done))
    done = tool("compare", found, log)
    tally.add("IRIW with other names", None if done.returncode == 1 and "10 differences" in done.stdout else described(done))
    results = os.path.join(room, "results")
    done = tool("campaign", "outcomes", program, "--theory", "--json", "--results", results, file)
    rows = write(os.path.join(room, "rows"), done.stdout)
    tally.add("a campaign has the file's names", None if '"1:R8": 0' in done.stdout and "1:EAX" not in done.stdout else described(done))
    done = tool("compare", found, results, rows, log, "--tests", file)
    same = done.returncode == 0 and "1 tests in all logs, 0" in done.stdout
    tally.add("a campaign's results and herd's log", None if same else described(done))


def judge_shown(program, tally, room):
    """`Show=..` is handed to a program that knows --show, and to no other one; and so is the set of instructions."""
    asked, note = os.path.join(room, "asked"), """case "$*" in *--help*) %s ;; *) echo "$*" >> '%s' ;; esac"""
    knows = stand_in(os.path.join(room, "knows"), program, note % ("true", asked))
    older = stand_in(os.path.join(room, "older"), program, note % ("'%s' \"$@\" 2>&1 | grep -v -e --show; exit 2" % program, asked))
    first = stand_in(os.path.join(room, "first"), program,
                     note % ("'%s' \"$@\" 2>&1 | grep -v -e --show -e --instructions; exit 2" % program, asked))
    for name, text, words in SHOWN:
        test = importer.Importer(text).test().text()
        of_larger_set = words.replace("--json", "--json --instructions all")
        for one, due in ((knows, of_larger_set), (older, "outcomes --json --instructions all\n"), (first, "outcomes --json\n")):
            write(asked, "")
            found = answers.outcomes(one, test, shows.words_of_show(one, test), 60)
            tally.add(name, None if "states" in found else str(found))
            tally.add(name, None if content(asked) == due else content(asked))


def judge_more_shown(program, tally, room):
    """Of all that a file asks to show the program has what herd's log has, and theory and the processor are held against it."""
    file, log = write(os.path.join(room, "iriw.litmus"), IRIW), write(os.path.join(room, "herd"), IRIW_LOG)
    test = importer.Importer(IRIW).test().text()
    found = write(os.path.join(room, "found"), tso.call(["outcomes", *shows.words_of_show(program, test)], test, program, 60)[0])
    done = tool("compare", found, log, "--tests", file)
    same = (done.returncode, done.stdout) == (0, "1 tests in both logs, 0 differences\n")
    tally.add("IRIW with all that herd shows", None if same else described(done))
    file = write(os.path.join(room, "SB.litmus"), OTHER_NAME.replace("exists", "locations [x; y;]\nexists"))
    places = ["0:R8", "1:EAX", "x", "y"]
    for command, words in (("outcomes", ["--theory"]), ("why", [])):
        done = tool("campaign", command, program, *words, "--json", "--results", os.path.join(room, command), file)
        row = json.loads(done.stdout) if done.returncode == 0 else {"judged": described(done), "states": [{}]}
        same = (row["judged"], sorted(row["states"][0])) == ("same", places)
        tally.add("a campaign of %s that shows all" % command, None if same else str(row))
    if hardware_runs.why_not() is None:
        done = tool("hardware", "--program", program, "--seconds", "0.2", file)
        tally.add("all that is shown, on the processor", None if done.returncode == 0 and " x=1 y=1\n" in done.stdout else described(done))


def judge_targets(tally, room):
    """What `-o` writes, what it refuses to write, and how refused tests are summed up."""
    two = [write(os.path.join(room, name, "one.litmus"), IRIW) for name in ("a", "b") if not os.makedirs(os.path.join(room, name))]
    done = tool("import", "-o", os.path.join(room, "out"), *two)
    told = "import: two files would be %s\n" % os.path.join(room, "out", "one.litmus")
    nothing = not os.path.exists(os.path.join(room, "out"))
    tally.add("two files of one name", None if nothing and (done.returncode, done.stderr) == (2, told) else described(done))
    listed = write(os.path.join(room, "all"), "a\nb/one.litmus\n")
    done = tool("import", "-o", os.path.join(room, "of-list"), "@" + listed)
    there = [os.path.exists(os.path.join(room, "of-list", name, "one.litmus")) for name in ("a", "b")]
    tally.add("a list is imported", None if done.returncode == 0 and all(there) else described(done))
    done = tool("import", "-o", os.path.join(room, "out"), FOLDER)
    sums = [line for line in done.stderr.splitlines() if line.startswith("import:")]
    counts = [len(os.listdir(folder)) - (folder == REFUSED) for folder in (READ, HAND, REFUSED)]
    due = ["import: %d tests, %d read, %d refused" % (sum(counts), counts[0] + counts[1], counts[2])]
    of = sum(line.endswith("refused: negative numbers") and line.split()[1] == "1" for line in sums)
    same = (done.returncode, sums[:1], of) == (COULD_NOT, due, 1) and os.listdir(os.path.join(room, "out", "read")) and not os.path.exists(
        os.path.join(room, "out", "refused"))
    tally.add("a folder with what is refused", None if same else described(done))
    tally.add("as many files as are wanted", None if counts[0] + counts[2] >= LEAST and counts[0] == counts[1] else "there are %s" % counts)


def judge(program, tally):
    judge_refused(tally)
    for part in (judge_read, judge_names, judge_shown, judge_more_shown):
        with tempfile.TemporaryDirectory() as room:
            part(program, tally, room)
    with tempfile.TemporaryDirectory() as room:
        judge_targets(tally, room)
