#!/usr/bin/env python3
"""Holds the tools for many tests, tools/, against each other, the gallery, the plain search and a built program.

    tests/batteries.py PROGRAM

- tools/cycles: how many cycles there are of each length, with and without locked accesses; names of the literature have the
  gallery's verdict; what is printed is read back as the same test, and the program takes it.
- The verdict by the program's `outcomes`, by theory (tools/theory), by the plain search of all runs (checks/machines/flat_machine.py), and by the
  rule of such cycles: allowed exactly where some core's first access is a plain store, its last a plain load, with no fence or locked access
  between; and all final states by the program and by theory. All cycles of length 4 and 5 with locked accesses, all of length 6 without.
- Cycles given by hand (checks/tools/cycle_meanings.py): all of two to four edges, and 1,000 drawn ones of five and six, with and without locked
  accesses. One that contradicts itself is refused. Of the others each candidate that makes the condition true has every edge, some
  candidate does, and the verdict is that of the candidates that have the cycle.
- Wildcards, lists of edges, draws and folders of tools/cycles (checks/tools/cycle_runs.py).
- The battery that ships, examples/cycles.list, has just the cycles of length 4 and 5 with locked accesses, with these verdicts.
- Cycles of ten names have the gallery's states, up to names of cores, locations and registers, and stored values.
- Theory has the gallery's verdict of each of its tests; and of those with few candidates it allows just the final states that
  the plain search finds.
- tools/compare: logs of herd7's, litmus7's and this project's forms, and what is said of two of them, or of three.
- tools/import: forms that are read, each with what it becomes, and forms that are refused, each with its line and why; a test of the
  gallery is imported as itself. Files in the forms of diy7, litmus7 and herd's libraries (checks/tools/imported_files.py): what is read has the same
  final states as the same test written by hand, and a log of the file compares with the answer to what is imported. The gallery's tests in
  nine such forms are imported as the gallery's own, up to names of registers (checks/tools/foreign_forms.py). Tests with words of
  two sizes, arrays and addresses in registers have the final states of a plain machine whose memory has bytes (checks/tools/byte_machine.py).
- tools/theory, tools/hardware and tools/campaign read each form that tools/import reads; a text that is no test is named, and the others
  go on; a folder without a test is an error; each that is interrupted ends with one line.
- tools/tso, the module: each of its answers is what the program prints, and what is no answer is an exception (checks/tools/module_runs.py).
- tools/graph: pictures of the gallery's runs and reasons have the events and edges of the run's candidate, or of the reason's cycle; what
  can't be drawn is said.
- tools/hardware: short runs of the gallery on this machine's processor; a wrong table of allowed states is noticed.
- tools/campaign: tests of a folder, a list and a stream; seeds cut in two ways, a torn line, a wrong verdict, calls that fail, stops, theory
  that takes long, answers of why, logs and pages; on a
  cluster, where Dask is there: the same with workers that end or are paused, and a test that ends its workers is named.

- tools/campaign that keeps nothing: a line a test as the program answers it, the program that its words name, claims that must hold, tests
  that end otherwise by depth, bus, model or program, rows that are alike, counts of caches as `run` has them, and tables of numbers.
- A week's questions of what caches do, by one call beside a shell loop of `run`; its table in pandas, and pictures, where they can be made.
- What caches did, in reports and campaigns, by a count of its own over the steps of traces (cache_counts.py); that script takes more runs.
- tools/fences: of each test of the gallery just the least sets of fences that theory finds among all placements.
- tools/workload: its tests are read back, end, and show what they are named for. tools/plot: pictures of such a table, where matplotlib is there.

The last line is 'N passed, M failed'.
"""
import json
import os
import re
import subprocess
import sys
import tempfile

sys.dont_write_bytecode = True
from checks import instruction_sets, judging
from checks.campaigns import cache_questions, cluster_campaigns, kept_campaigns, unkept_campaigns
from checks.machines import flat_machine
from checks.tools import (byte_machine, cache_tools, cycle_meanings, cycle_runs, fences_runs, foreign_forms, gallery_shapes, graph_runs,
                          hardware_runs, imported_files, module_runs, test_sources, tool_runs)
from checks.tools.import_forms import READ, REFUSED
from checks.tools.log_forms import COMPARED, LAID_SIDE_BY_SIDE
from checks.tools.tool_runs import TOOLS, TOP, Tally, gallery, script, tool, write

import cache_counts
import edges
import faults
import importer
import litmus
import verdicts

theory, cycles = script("theory"), script("cycles")

COUNTS = {(4, False): 21, (5, False): 96, (6, False): 386, (4, True): 300, (5, True): 3072, (6, True): 24128}
JUDGED = ((4, True), (5, True), (6, False))
DEPTH = 32
BATTERY = os.path.join(TOP, "examples", "cycles.list")


def rule(cycle):
    """The verdict that such a cycle has by its shape alone."""
    cores, core = [], []
    for edge in cycle:
        core.append(edge)
        if edge.leaves_core:
            cores.append(core)
            core = []
    for core in cores:
        first, last = core[0], core[-1]
        fenced = any(edge.kind == "MFence" for edge in core[:-1])
        locked = any(edge.locked[0] for edge in core)
        if len(core) > 1 and (first.source, last.source) == ("W", "R") and not fenced and not locked:
            return "allowed"
    return "forbidden"


def judge_cycle(work):
    """The name of a cycle's test, its line in a list of cycles, and what is wrong with it, if anything is."""
    program, cycle = work
    test = cycles.test_of(cycle)
    text = test.text()
    again = litmus.read_test(text)
    if (again.programs, again.initial, again.condition) != (test.programs, test.initial, test.condition):
        return test.name, None, "is read back as another test"
    searched = flat_machine.choices_to_outcome(flat_machine.Test(text), DEPTH) is not None
    said, done = verdicts.by_theory(theory, text), judging.run(program, ["outcomes", "--json"], text.encode())
    line = cycles.line_of(test, said.verdict)
    if done.returncode != judging.ENDED:
        return test.name, line, judging.described(done)
    found = json.loads(done.stdout)
    told = said.verdict, "allowed" if searched else "forbidden", rule(cycle), "allowed" if found["observation"]["true"] else "forbidden"
    if len(set(told)) > 1:
        return test.name, line, "theory, search, rule and the program say %s, %s, %s, %s" % told
    states = {frozenset(state["values"].items()) for state in found["states"]}
    return test.name, line, None if states == said.states else "theory allows other final states than the program"


def fact(text, key):
    return re.search(r"^%s=(.*)$" % key, text, re.M).group(1)


FEW_CANDIDATES = 2_000


def fault_of_states(text):
    """What is wrong with the final states that theory allows, held against those of the plain search."""
    test = litmus.read_test(text)
    allowed = {frozenset((litmus.place_text(place), value) for place, value in end.items() if value)
               for end in theory.allowed_ends(test, True)}
    found = flat_machine.final_states(flat_machine.Test(text), DEPTH)
    return None if allowed == found else "theory allows %d final states, the search finds %d" % (len(allowed), len(found))


def judge_gallery(tally):
    named = {}
    for name, text in gallery():
        test = litmus.read_test(text)
        named[name] = fact(text, "TSO")
        said = theory.verdict(test)
        tally.add(name, None if said == named[name] else "theory says " + said)
        if theory.candidates_in(test) <= FEW_CANDIDATES:
            tally.add(name, fault_of_states(text.split("\n====")[0]))
        imported = importer.Importer(text).test()
        same = (imported.programs, imported.initial, imported.condition) == (test.programs, test.initial, test.condition)
        tally.add(name, None if same else "isn't imported as itself")
    for length, locked in JUDGED:
        for cycle in edges.cycles(length, locked):
            found = cycles.literature_name(cycle)
            if found and found[1] in named:
                said = theory.verdict(cycles.test_of(cycle))
                tally.add(found[1], None if said == named[found[1]] else "the cycle of this name is " + said)


def judge_program(program, tally):
    """The program takes what the tools print: no test is refused."""
    texts = [cycles.test_of(cycle).text() for cycle in edges.cycles(4, True)]
    texts += [importer.Importer(text).test().text() for _, text, _ in READ]
    for text in texts:
        ended = judging.run(program, ["sweep", *instruction_sets.words_for(text.encode())], text.encode())
        tally.add(text.split("\n")[0], None if ended.returncode in (0, 3) else ended.stdout.decode().strip())


def judge_imports(tally):
    for name, text, wanted in READ:
        try:
            printed = importer.Importer(text).test().text()
            missing = [line for line in wanted if line not in printed]
            tally.add(name, "has no %r in\n%s" % (missing, printed) if missing else None)
        except faults.Refused as fault:
            tally.add(name, "refused: line %d, %s" % (fault.line, fault))
    for name, text, line, why in REFUSED:
        try:
            importer.Importer(text).test()
            tally.add(name, "isn't refused")
        except faults.Refused as fault:
            told = "line %d, %s" % (fault.line, fault)
            tally.add(name, None if fault.line == line and why in str(fault) else "refused: " + told)


def judge_comparisons(tally):
    with tempfile.TemporaryDirectory() as room:
        for name, within, first, second, wanted, status in COMPARED:
            paths = [os.path.join(room, "first"), os.path.join(room, "second")]
            for path, text in zip(paths, (first, second)):
                with open(path, "w", encoding="ascii") as file:
                    file.write(text)
            words = [os.path.join(TOOLS, "compare")] + (["--within"] if within else []) + paths
            done = subprocess.run(words, capture_output=True, text=True)
            same = (done.stdout.splitlines(), done.returncode) == (wanted, status)
            tally.add(name, None if same else "%d, %s" % (done.returncode, done.stdout))
        for name, words, texts, wanted, status in LAID_SIDE_BY_SIDE:
            paths = [write(os.path.join(room, "log%d" % (number + 1)), text) for number, text in enumerate(texts)]
            done = tool("compare", *words, *[os.path.basename(path) for path in paths], cwd=room)
            same = (done.stdout.splitlines(), done.returncode) == (wanted, status)
            tally.add(name, None if same else "%d, %s%s" % (done.returncode, done.stdout, done.stderr))


def main():
    tally, program = Tally(), judging.asked(__doc__, with_part=False).program
    for (length, locked), wanted in COUNTS.items():
        count = sum(1 for _ in edges.cycles(length, locked))
        tally.add("cycles of length %d" % length, None if count == wanted else "there are %d, not %d" % (count, wanted))
    lines = set()
    for length, locked in JUDGED:
        work = [(program, cycle) for cycle in edges.cycles(length, locked)]
        for name, line, fault in judging.in_processes(judge_cycle, work):
            tally.add(name, fault)
            if locked:
                lines.add(line)
    with open(BATTERY, encoding="ascii") as file:
        shipped = file.read().splitlines()
    for line in sorted(lines ^ set(shipped), key=str):
        tally.add("examples/cycles.list", "%s: %s" % ("missing" if line in lines else "no such cycle or verdict", line))
    tally.add("examples/cycles.list", None if len(shipped) == len(lines) else "has %d lines, not %d" % (len(shipped), len(lines)))
    judge_gallery(tally)
    judge_imports(tally)
    judge_comparisons(tally)
    judge_program(program, tally)
    for part in (imported_files, foreign_forms, byte_machine, cycle_meanings, cycle_runs, gallery_shapes, test_sources, module_runs,
                 graph_runs, hardware_runs, kept_campaigns, unkept_campaigns, cache_questions, cache_counts, cache_tools,
                 fences_runs, cluster_campaigns):
        part.judge(program, tally)
    return tally.end()


if __name__ == "__main__":
    sys.exit(main())
