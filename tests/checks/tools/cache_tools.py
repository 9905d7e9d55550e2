"""tools/workload and tools/plot, for tests/batteries.py: tests for caches, and pictures of what caches did."""
import csv
import os
import re
import shlex
import subprocess
import sys
import tempfile
import xml.etree.ElementTree

import litmus
import means
import tables
from scripts import COULD_NOT, SAME

from .tool_runs import TOOLS, described, tool, write

KINDS = ("false-sharing", "ping-pong", "migratory", "producer-consumer", "read-mostly")
PROTOCOLS, SHAPES = ("msi", "mesi", "moesi", "mosi"), ("1x2x1", "1x2x4")

# The runs of the tests with which pictures are made.
SEEDS, LENGTH = 4, 5000


def judge_workloads(program, tally, room):
    """Each kind is read back as it is, ends, and keeps its condition; sizes beyond the limits are refused."""
    folder = os.path.join(room, "loads")
    done = tool("workload", "all", "--cores", "2,4", "--rounds", "4", "--apart", "1,4", "-o", folder)
    names = [name for name in sorted(os.listdir(folder)) if name.endswith(".litmus")]
    tally.add("workloads", None if done.returncode == SAME and len(names) == 16 else described(done) + str(names))
    with open(os.path.join(folder, "@all"), encoding="ascii") as file:
        tally.add("a list of workloads", None if sorted(file.read().split()) == names else "another list")
    for name in names:
        with open(os.path.join(folder, name), encoding="ascii") as file:
            text = file.read()
        tally.add(name, None if litmus.read_test(text).text() == text and text.startswith("X86 %s\n" % name[:-7]) else "is read as another")
    done = tool("campaign", "counts", "--program", program, "--seeds", "3", "--length", "5000", folder)
    ended = [line.split(" ", 1)[0] for line in done.stdout.splitlines() if " ended=3 " in line]
    tally.add("workloads end", None if done.returncode == SAME and len(ended) == len(names) else described(done))
    small = tool("workload", "all", "--cores", "2", "--rounds", "2").stdout
    done = tool("campaign", "outcomes", "--program", program, "--assert", "-", input=small)
    tally.add("the sum of a migratory word", None if done.returncode == SAME and "migratory-2x2 Always 1 0 Ok\n" in done.stdout
              else described(done))
    for words, why in ((["false-sharing", "--cores", "9"], "a test has at most 8 cores"), (["migratory", "--rounds", "17"], "32 instructions"),
                       (["false-sharing", "--cores", "8", "--apart", "4"], "16 locations"), (["ping-pong", "--rounds", "0"], "--rounds")):
        done = tool("workload", *words)
        tally.add("a workload beyond the limits", None if done.returncode == COULD_NOT and why in done.stderr and not done.stdout
                  else described(done))


def judge_sharing(program, tally, room):
    """Locations in one line cost more than those in lines of their own, with long lines alone."""
    table = os.path.join(room, "sharing.csv")
    tests = tool("workload", "false-sharing", "--cores", "4", "--apart", "1,4").stdout
    words = ["--shapes", ",".join(SHAPES), "--seeds", str(SEEDS), "--length", str(LENGTH), "--csv", table]
    tool("campaign", "counts", "--program", program, *words, "-", input=tests)
    misses = {}
    with open(table, encoding="ascii", newline="") as file:
        for row in csv.DictReader(file):
            if row["count"] == "misses":
                misses[row["test"], row["words"]] = misses.get((row["test"], row["words"]), 0) + int(row["value"])
    near, far = "false-sharing-4x4", "false-sharing-4x4-apart4"
    same = misses[near, "1"] == misses[far, "1"] == misses[far, "4"] < misses[near, "4"]
    tally.add("false sharing is seen", None if same else str(misses))


def pythons_with(module):
    """Pythons of this machine that have a module."""
    return [python for python in (sys.executable, "/usr/bin/python3") if os.path.exists(python) and subprocess.run(
        [python, "-c", "import " + module], capture_output=True).returncode == 0]


def judge_pictures(program, tally, room):
    """Pictures of each kind, light and dark, name their axes, unit and legend; the same table makes the same bytes."""
    table = os.path.join(room, "counts.csv")
    tests = tool("workload", "all", "--cores", "2,4").stdout
    words = ["--protocols", ",".join(PROTOCOLS), "--shapes", ",".join(SHAPES), "--seeds", str(SEEDS), "--length", str(LENGTH), "--csv", table]
    tool("campaign", "counts", "--program", program, *words, "-", input=tests)
    judge_means(table, tally)
    judge_refusals(table, tally, room)
    python = next(iter(pythons_with("matplotlib")), None)
    if python is None:
        print("not tried: pictures by matplotlib (Debian: python3-matplotlib)")
        return
    judge_gaps(python, tally, room)
    judge_legends(python, tally, room)
    unit = ", mean of 10 tests"
    for name, words, named in (
            ("bars", ["--bars", "misses"], ["misses a run, all cores" + unit, "shape of the caches (sets x ways x words)", *PROTOCOLS, *SHAPES]),
            ("dark bars", ["--bars", "flushes", "--against", "test", "--where", "words=4", "--dark"], ["flushes a run, all cores", "test"]),
            ("a line", ["--line", "write_backs", "--against", "words"], ["write-backs a run, all cores" + unit, "words of a line", "protocol"]),
            ("a heat map", ["--heat", "misses", "--dark"], ["test", "msi 1x2x1", "migratory-4x4", "misses a run, all cores"])):
        path = os.path.join(room, name.replace(" ", "-") + ".svg")
        done = plotted(python, table, "-o", path, *words)
        tally.add("a picture: " + name, None if done.returncode == SAME else described(done))
        with open(path, "rb") as file:
            data = file.read()
        told = {"".join(part.itertext()).strip() for part in xml.etree.ElementTree.fromstring(data).iter() if part.tag.endswith("}text")}
        tally.add("what it names: " + name, None if told.issuperset(named) else "%s lacks %s" % (sorted(told), set(named) - told))
    plotted(python, table, "-o", path, *words)
    with open(path, "rb") as file:
        tally.add("the same picture of the same table", None if file.read() == data else "other bytes")
    path = os.path.join(room, "bars.png")
    for title in ("What it costs", "Another, in the place of this tool's own"):
        done = plotted(python, table, "-o", path, "--bars", "misses", "--title", title)
        with open(path, "rb") as file:
            tally.add("a picture of dots", None if done.returncode == SAME and file.read(4) == b"\x89PNG" else described(done))


def plotted(python, *words):
    return subprocess.run([python, os.path.join(TOOLS, "plot"), *words], capture_output=True, text=True)


def judge_means(table, tally):
    """What bars stand for is the mean of the tests' sums over cores and runs."""
    rows = means.read_table(table)
    asked = means.Asked(rows, "misses", ("shape", "protocol"), [("words", ["4"])])
    wanted = {}
    for row in asked.rows:
        place = row.about["shape"], row.about["protocol"]
        misses = sum(value for (core, count), (value, _) in row.numbers.items() if core and count == "misses")
        wanted[place] = wanted.get(place, 0) + misses / SEEDS / 10
    same = len(asked.tests) == 10 and asked.values.keys() == wanted.keys() and not asked.gaps and all(
        abs(asked.values[place] - wanted[place]) < 1e-9 for place in wanted)
    tally.add("what bars stand for", None if same else "%s, %s, not %s" % (asked.tests, asked.values, wanted))
    tally.add("numbers by their size", None if means.in_order(["10", "2", "1x2x10", "1x2x4"]) == ["1x2x4", "1x2x10", "2", "10"]
              and means.in_order(["msi", "mesi", "msi"]) == ["msi", "mesi"] else "another order")


def table_of(numbers):
    """A campaign's table of tests of one core: for each of these the test, its machine, and misses in one run; None where no run ended. Of ten
    runs eight ended where the test is named Slow."""
    lines = [",".join(tables.COLUMNS)]
    for test, protocol, words, misses in numbers:
        about = "%s,counts,,,%s,atomic,4,1,2,%d,'--protocol %s --words %d,unjudged," % (test, protocol, words, protocol, words)
        ended = 0 if misses is None else 8 if test == "Slow" else 10
        lines += [] if misses is None else ["%s0,misses,%d,,,%d" % (about, misses * ended, ended)]
        lines += ["%s,unfinished,%d,,,%d" % (about, 10 - ended, ended), "%s,ended,%d,,,%d" % (about, ended, ended)]
    return "".join(line + "\n" for line in lines)


# Tables and words for them, with what the axis says, what is said on standard error, and the heights of bars in their order.
TWO = [("A", "msi", 1, 2), ("B", "msi", 1, 4), ("C", "msi", 1, 100), ("A", "mesi", 1, 3), ("B", "mesi", 1, 5), ("C", "mesi", 1, None)]
GAPS = (
    ("a mean of the tests that ended under both", TWO, ["--bars"], "misses a run, all cores, mean of 2 tests that ended under both",
     ["C --protocol mesi --words 1: ended 0 of 10", "left out of the means, since they don't have a number everywhere: C"], [3, 4]),
    ("a mean of the tests that have a row everywhere", TWO[:-1], ["--bars"], "misses a run, all cores, mean of 2 tests that have a number everywhere",
     ["left out of the means, since they don't have a number everywhere: C"], [3, 4]),
    ("a machine of which there is no number", [*TWO[:2], *((test, "mesi", 1, None) for test in "AB")], ["--bars"],
     "misses a run, all cores, mean of 2 tests", ["A --protocol mesi --words 1: ended 0 of 10", "B --protocol mesi --words 1: ended 0 of 10",
                                                  "no number of misses at 1x2x1 mesi: a gap, with a mark"], [3]),
    ("a machine that has no row", [("A", "msi", 1, 2), ("A", "msi", 4, 1), ("A", "mesi", 1, 3)], ["--line", "--against", "words"],
     "misses a run, all cores", ["no number of misses at 4 mesi: a gap, with a mark"], None),
    ("a field that has no number", [*TWO], ["--heat"], "misses a run, all cores",
     ["C --protocol mesi --words 1: ended 0 of 10", "no number of misses at C mesi 1x2x1: a gap, with a mark"], None),
    ("runs that didn't all end", [("A", "msi", 1, 2), ("Slow", "msi", 1, 2)], ["--bars"], "misses a run, all cores, mean of 2 tests",
     ["Slow --protocol msi --words 1: ended 8 of 10"], [2]),
)


def judge_gaps(python, tally, room):
    """A number that isn't there is a gap with a mark, and a line; means are over the tests that all bars have, and say so."""
    table = os.path.join(room, "gaps.csv")
    for name, numbers, words, unit, told, heights in GAPS:
        write(table, table_of(numbers))
        path = os.path.join(room, name.replace(" ", "-") + ".svg")
        done = plotted(python, table, "-o", path, words[0], "misses", *words[1:])
        said = sorted(line.removeprefix("plot: ") for line in done.stderr.splitlines())
        tally.add(name, None if done.returncode == SAME and said == sorted(told) else described(done))
        drawn = Drawn(path)
        gaps = sum(": a gap" in line for line in told)
        named = unit in " ".join(drawn.texts) and ("no number" in " ".join(drawn.texts)) == (gaps > 0) and drawn.texts.count("\u00d7") == gaps
        tally.add("what it shows: " + name, None if named else str(drawn.texts))
        if heights:
            shares = [height / max(drawn.bars) for height in drawn.bars]
            same = len(shares) == len(heights) and all(abs(share - height / max(heights)) < 1e-3 for share, height in zip(shares, heights))
            tally.add("its bars: " + name, None if same else str(drawn.bars))


class Drawn:
    """What a picture has: its texts, its bars' heights and colours from the left, and how far its legend and the whole reach."""

    def __init__(self, path):
        root = xml.etree.ElementTree.parse(path).getroot()
        self.texts = ["".join(part.itertext()).strip() for part in root.iter() if part.tag.endswith("}text")]
        across, high = map(float, root.get("viewBox").split()[2:])
        ids = {part.get("id"): part for part in root.iter() if part.get("id")}
        bars = [box(part) for name, part in ids.items() if name.startswith("patch_") and part[0].get("clip-path") and part[0].get("d")]
        bars = sorted(bar for bar in bars if "fill: #" in bar[-1])
        self.bars, self.colours = [bar[3] - bar[1] for bar in bars], [re.search(r"fill: (#\w+)", bar[-1]).group(1) for bar in bars]
        legend = ids.get("legend_1")
        corner = box(next(part for part in legend.iter() if (part.get("id") or "").startswith("patch_"))) if legend is not None else None
        self.has_legend = corner is not None and 0 <= corner[0] <= corner[2] <= across and 0 <= corner[1] <= corner[3] <= high


def box(part):
    """The box of the first path of a part of a picture, and its style."""
    numbers = list(map(float, re.findall(r"-?\d+(?:\.\d+)?", part[0].get("d"))))
    return min(numbers[::2]), min(numbers[1::2]), max(numbers[::2]), max(numbers[1::2]), part[0].get("style")


def judge_legends(python, tally, room):
    """A protocol has one colour in every picture, a legend is whole, and more styles than eyes tell apart are refused with a cure that is
    accepted."""
    table, path, colours = os.path.join(room, "legends.csv"), os.path.join(room, "legends.svg"), {}
    for protocols in (["mosi"], ["mesi", "msi"], ["msi", "mesi", "moesi", "mosi"]):
        write(table, table_of([("A", protocol, 1, 1) for protocol in protocols]))
        done = plotted(python, table, "-o", path, "--bars", "misses")
        for protocol, colour in zip(protocols, Drawn(path).colours):
            colours.setdefault(protocol, set()).add(colour)
    one_each = len(colours) == 4 == len(set().union(*colours.values()))
    tally.add("one colour for one protocol", None if done.returncode == SAME and one_each else str(colours))
    names = ["_a test of a name that is long, and of number %d, which costs $%d$" % (number, number) for number in range(12)]
    write(table, table_of([('"%s"' % name, "msi", words, 1) for name in names for words in (1, 4)]))
    for kind in ("--bars", "--line"):
        done = plotted(python, table, "-o", path, kind, "misses", "--against", "words", "--legend", "test")
        tally.add("more styles than eight", None if done.returncode == COULD_NOT and "plot: a legend tells 8 of test apart, and there are 12: " in
                  done.stderr else described(done))
    names = ["_test-%d-of-a-name-that-is-long-and-costs-$%d$-%s" % (number, number, "w" * 40) for number in range(12)]
    write(table, table_of([(name, "msi", words, 1) for name in names for words in (1, 4)]))
    done = plotted(python, table, "-o", path, "--line", "misses", "--against", "words", "--legend", "test")
    cure = shlex.split(re.search(r"choose some, as (--where .*), or draw all by --heat", done.stderr).group(1))
    for words in (["--line", "misses", "--against", "words", "--legend", "test", *cure], ["--heat", "misses"]):
        done = plotted(python, table, "-o", path, *words)
        tally.add("the cure of too many styles", None if done.returncode == SAME and not done.stderr else described(done))
        drawn = Drawn(path)
        count = sum(name in text for name in names for text in drawn.texts)
        wanted = drawn.has_legend and count == 8 if words[0] == "--line" else count == 12
        tally.add("a legend that is whole", None if wanted else str(drawn.texts))


def judge_refusals(table, tally, room):
    """What can't be drawn is said in one line."""
    path, other = os.path.join(room, "none.svg"), write(os.path.join(room, "other.svg"), "mine\n")
    # by the standard library alone there is no matplotlib
    for words, why in (([table, "-o", path, "--bars", "nothing"], r"plot: the table has no count nothing; it has ended, flushes, .*\n"),
                       ([table, "-o", path, "--line", "misses"], r"plot: the lines differ in words: choose by .*\n"),
                       ([table, "-o", path, "--bars", "misses", "--where", "bus=split"], r"plot: no line has what --where says\n"),
                       ([other, "-o", path, "--bars", "misses"], r"plot: .*other\.svg is no table of a campaign\n"),
                       ([table, "-o", other, "--bars", "misses"], r"plot: .*other\.svg is there already, .*\n"),
                       ([table, "-o", path, "--bars", "misses"], r"plot: this Python, .*, has no matplotlib.*\n")):
        done = tool("plot", *words)
        tally.add("what can't be drawn", None if done.returncode == COULD_NOT and re.fullmatch(why, done.stderr) else described(done))
    tally.add("nothing is drawn", None if not os.path.exists(path) else "there is a picture")


def judge(program, tally):
    with tempfile.TemporaryDirectory() as room:
        for part in (judge_workloads, judge_sharing, judge_pictures):
            part(os.path.abspath(program), tally, room)
