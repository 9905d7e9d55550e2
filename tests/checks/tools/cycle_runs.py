"""What tools/cycles makes of wildcards, lists of edges, draws and folders, for tests/batteries.py."""
import hashlib
import itertools
import os
import random
import resource
import tempfile

from scripts import COULD_NOT

import edges
import litmus

from .tool_runs import described, tool

# What all critical cycles of four edges are made of.
PLAIN = "Pod**,MFenced**,Rf*,Fr*,Co*"

# Seconds of processor time for thirty drawn tests of eight edges.
SECONDS = 10


def listed(*words):
    """The lines of a list of cycles, and how the call ended."""
    done = tool("cycles", *words, "--list")
    return done.stdout.splitlines(), done


def edges_in(line):
    return line.split(": ")[1].split()


def judge_words(tally):
    """A wildcard stands for each edge that it fits; what is out of range is refused."""
    for words, wanted in (
            (["Pod**", "Rfe", "Pod**", "Fre"], ["MP: PodWW Rfe PodRR Fre: forbidden"]),
            (["PodW*", "Fre", "*********", "Fre"], ["SB+mfence+po: MFencedWR Fre PodWR Fre: allowed"]),
            (["PodWR*P", "Fre**", "PodWR**", "Fre"],
             ["SB: PodWR Fre PodWR Fre: allowed", "PodWR-FrePA-PodWRAP-Fre: PodWR FrePA PodWRAP Fre: allowed"])):
        lines, done = listed(*words)
        tally.add(" ".join(words), None if sorted(lines) == sorted(wanted) else described(done))
    for words in (["--length", "0"], ["--size", "1"], ["--length", "4", "--some", "0"], ["--length", "4", "--cores", "1"], [],
                  ["--length", "4", "--size", "4"], ["PodWR", "Fre", "PodWR", "Fre", "--locked"]):
        done = tool("cycles", *words)
        tally.add("cycles " + " ".join(words), None if done.returncode == COULD_NOT and not done.stdout else described(done))
    done = tool("cycles", "--length", "3")
    tally.add("no cycle has three edges", None if (done.returncode, done.stderr) == (COULD_NOT, "cycles: there is no such cycle\n") else described(done))


def judge_lists(tally):
    """Lists of all edges make all critical cycles; with --relax each cycle has one or more of those; --cores leaves out the others."""
    whole, _ = listed("--length", "4")
    made, done = listed("--length", "4", "--safe", PLAIN)
    tally.add("cycles of all plain edges", None if sorted(whole) == sorted(made) else described(done))
    relaxed, done = listed("--size", "5", "--relax", "PodWR,Rfi", "--safe", "Fr*,Rf*,Pod**,MFenced**,Co*")
    wanted = [line for length in "45" for line in listed("--length", length)[0] if {"PodWR", "Rfi"} & set(edges_in(line))]
    tally.add("cycles with edges of --relax", None if wanted and sorted(relaxed) == sorted(wanted) else described(done))
    whole = tool("cycles", "--length", "5", "--no-verdict").stdout.split("X86 ")
    done = tool("cycles", "--length", "5", "--no-verdict", "--cores", "2")
    wanted = [text for text in whole if "| P2" not in text]
    tally.add("cycles on two cores", None if 1 < len(wanted) < len(whole) and done.stdout.split("X86 ") == wanted else described(done))
    kept, done = listed("--length", "6", "--safe", "PosWR,PodRR,Fre,Rfe,PodWW,Rmw", "--relax", "PosWR")
    tally.add("cycles of edges that keep their location", None if kept and all("PosWR" in edges_in(line) for line in kept) else described(done))


def judge_draws(tally):
    """What is drawn are cycles of the list, at their places, each once; all of it where more are asked for than there are."""
    every = list(edges.cycles(5, True))
    drawn = list(itertools.islice(edges.drawn_cycles([5], True, litmus.MOST_CORES, random.Random(7)), 500))
    same = len({place for place, _ in drawn}) == 500 and all(every[place] == cycle for place, cycle in drawn)
    tally.add("cycles that are drawn", None if same else str(drawn)[:300])
    tally.add("all that there are", None if listed("--length", "4", "--some", "99")[0] == listed("--length", "4")[0] else "others")
    before = resource.getrusage(resource.RUSAGE_CHILDREN)
    done = tool("cycles", "--length", "8", "--locked", "--some", "30")
    after = resource.getrusage(resource.RUSAGE_CHILDREN)
    took = after.ru_utime + after.ru_stime - before.ru_utime - before.ru_stime
    names = [line[len("X86 "):] for line in done.stdout.splitlines() if line.startswith("X86 ")]
    tally.add("thirty tests of eight edges", None if len(set(names)) == 30 and took < SECONDS else "%d tests, %.1f s" % (len(names), took))
    words = [line.strip('"').split() for line in done.stdout.splitlines() if line.startswith('"')]
    wrong = [name for name, cycle in zip(names, words) if len("-".join(cycle)) > litmus.LONGEST_NAME and name != "%s-%s" % (
        "-".join(cycle)[:58], hashlib.sha256(" ".join(cycle).encode()).hexdigest()[:5])]
    tally.add("long names", None if max(map(len, names)) <= litmus.LONGEST_NAME and not wrong else str(wrong))


def judge_folders(tally):
    """A folder has a file for each test, and a list of all that other tools read."""
    with tempfile.TemporaryDirectory() as room:
        folder = os.path.join(room, "made")
        done = tool("cycles", "--length", "4", "-o", folder)
        printed = tool("cycles", "--length", "4").stdout
        with open(os.path.join(folder, "@all"), encoding="ascii") as file:
            names = file.read().splitlines()
        found = ""
        for name in names:
            with open(os.path.join(folder, name), encoding="ascii") as file:
                found += file.read()
        same = found == printed and sorted(names + ["@all"]) == sorted(os.listdir(folder)) and not done.stdout
        tally.add("tests in a folder", None if same and done.returncode == 0 else described(done))
        judged = tool("theory", "@" + os.path.join(folder, "@all"))
        tally.add("a list of a folder's tests", None if judged.stdout.count("\n") == len(names) == 21 else described(judged))


def judge(_, tally):
    for part in (judge_words, judge_lists, judge_draws, judge_folders):
        part(tally)
