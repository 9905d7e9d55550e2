#!/usr/bin/env python3
"""Holds what the caches did, as `run`, `counts` and `tools/campaign counts` have it, against a count of its own over the steps of `trace --json`.

    tests/cache_counts.py PROGRAM [--runs N] [--seed S]

Runs (2000) are drawn by a seed (1): a test of the gallery or of tools/workload, a protocol, a bus, a shape of the caches, a depth and a seed. Of
each that ends the six counts of every core are those of the report, and `counts --given` has these and six more. Of four seeds each, `counts`
and `campaign counts` have the sums, the least and the greatest, over the runs that ended. What is counted of a step goes by the machine before
it: a request is an upgrade where its core has the line, and else another core's copy in M, O or E supplies the line, or memory does. So each
miss and each upgrade is one request, and each miss is supplied once. The last line is 'N passed, M failed'.
"""
import json
import os
import random
import re
import subprocess
import sys
import tempfile

sys.dont_write_bytecode = True
from checks import judging
from checks.tools.tool_runs import Tally, described, gallery, tool, write
from scripts import SAME

RUNS, IN_GATE, LENGTH = 2000, 80, 4000

COUNTED_BY_ACCESS = {"hit": "hits", "miss": "misses", "upgrade": "upgrades"}
REQUESTS = {"GetS": "get_s", "GetM": "get_m"}

# The numbers of a core, in the order in which they are printed; the first six are those of a report.
OF_REPORT = ("hits", "misses", "upgrades", "forwards", "write_backs", "flushes")
NUMBERS = OF_REPORT + ("get_s", "get_m", "invalidations", "from_caches", "from_memory", "to_memory")

SUPPLYING = ("M", "O", "E")

SHAPES = ("1x1x1", "1x2x1", "1x2x4", "2x1x2", "2x2x2", "1x8x1")


def counts_of(trace, cores):
    """What the caches did in a trace, for each core."""
    found, before = [dict.fromkeys(NUMBERS, 0) for _ in range(cores)], trace["start"]
    for step in trace["steps"]:
        core = int(step["choice"][:-1])
        own = found[core]
        own["forwards"] += step["forwarded"]
        own["write_backs"] += step["write_back"] is not None
        own["to_memory"] += (step["write_back"] is not None) + (step["flush"] is not None)
        if step["access"]:
            own[COUNTED_BY_ACCESS[step["access"]]] += 1
        if step["flush"]:
            found[int(step["flush"].lstrip("P"))]["flushes"] += 1
        if step["transaction"]:
            count_request(own, core, step, before)
        before = step["after"]
    return found


def count_request(own, core, step, before):
    """Adds what a step's request moved; `before` is the machine before the step."""
    request, line = step["transaction"].split()
    own[REQUESTS[request]] += 1
    own["invalidations"] += sum(re.fullmatch(r"P(\d)\.\S+ [MOES]>I", change) is not None and change[1] != str(core) for change in step["states"])
    states = [[copy["state"] for copies in one["lines"] for copy in copies if copy["line"] == line] for one in before["cores"]]
    if not states[core]:
        is_there = any(state in SUPPLYING for other in states for state in other)
        own["from_caches" if is_there else "from_memory"] += 1


def words_of(machine):
    """The words of a command line for a protocol, a bus, a shape and a depth."""
    protocol, bus, shape, depth = machine
    sizes = [word for pair in zip(("--sets", "--ways", "--words"), shape.split("x")) for word in pair]
    return ["--protocol", protocol, "--bus", bus, *sizes, "--depth", depth]


def asked(program, words, given):
    return subprocess.run([program, *words], input=given, capture_output=True, text=True)


def of_runs(found):
    """What runs count, for each core, as sum, least and greatest; None where there are none."""
    return None if not found else [
        {name: {"sum": sum(run[core][name] for run in found), "least": min(run[core][name] for run in found),
                "greatest": max(run[core][name] for run in found)} for name in NUMBERS} for core in range(len(found[0]))]


def judge_run(work):
    """What the steps of a run count, for each core; None where it doesn't end; and what is wrong with it."""
    program, text, machine, seed = work
    given = text.split("\n====")[0].rstrip("\n") + "\n====\nseed %d %d\n" % (seed, LENGTH)
    done = asked(program, ["trace", "--json", *words_of(machine)], given)
    if done.returncode == judging.UNFINISHED:
        return None, None
    if done.returncode != judging.ENDED:
        return None, described(done)
    answer = json.loads(done.stdout)
    found = counts_of(answer["trace"], len(answer["cache"]))
    for core, (own, told) in enumerate(zip(found, answer["cache"])):
        if {name: own[name] for name in OF_REPORT} != told:
            return None, "core %d: %s, not %s" % (core, told, own)
        if own["misses"] + own["upgrades"] != own["get_s"] + own["get_m"] or own["misses"] != own["from_caches"] + own["from_memory"]:
            return None, "core %d: requests or supplies that aren't its misses and upgrades: %s" % (core, own)
    return found, fault_of_counts(asked(program, ["counts", "--given", "--json", *words_of(machine)], given), [found], 1)


def fault_of_counts(done, found, runs):
    """How an answer of `counts --json` differs from what these runs count that ended, of so many."""
    answer = json.loads(done.stdout or "{}")
    wanted, told = (of_runs(found), len(found), runs - len(found)), answer.get("runs", {})
    same = (answer.get("cores"), told.get("ended"), told.get("unfinished")) == wanted
    due = judging.ENDED if len(found) == runs else judging.UNFINISHED
    return None if same and done.returncode == due else "%s: %s" % (wanted, described(done))


def fault_of_lines(done, found):
    """The same of its lines."""
    wanted = ["Counts P%d%s" % (core, "".join(" %s=%d/%d/%d" % (name, one["sum"], one["least"], one["greatest"]) for name, one in own.items()))
              for core, own in enumerate(of_runs(found) or [])]
    told = [line for line in done.stdout.splitlines() if line.startswith("Counts ")]
    return None if told == wanted else "%s: %s" % (wanted, described(done))


def drawn_groups(runs, seed):
    """Tests with a machine and some seeds, of so many runs in all."""
    draw = random.Random(seed)
    made = tool("workload", "all", "--cores", "2,4", "--rounds", "3", "--apart", "1,2").stdout
    tests = [text for _, text in gallery()] + ["X86 " + text for text in made.split("X86 ")[1:]]
    for _ in range(runs // 4):
        machine = draw.choice(judging.PROTOCOLS), draw.choice(judging.BUSES), draw.choice(SHAPES), draw.choice(("0", "1", "4", "32"))
        yield draw.choice(tests), machine, draw.randrange(1000)


def judge_group(program, tally, group, found, room):
    """What `counts` and `campaign counts` have of four seeds."""
    text, machine, first = group
    protocol, bus, shape, depth = machine
    ended = [counts for counts in found if counts]
    words = ["counts", "--from", str(first), "--seeds", "4", "--length", str(LENGTH), *words_of(machine)]
    tally.add("counts of four seeds", fault_of_counts(asked(program, [*words, "--json"], text), ended, 4))
    tally.add("lines of four seeds", fault_of_lines(asked(program, words, text), ended))
    test = write(os.path.join(room, "test.litmus"), text)
    words = ["--protocols", protocol, "--buses", bus, "--shapes", shape, "--depths", depth, "--from", str(first), "--seeds", "4"]
    done = tool("campaign", "counts", "--program", program, "--json", "--length", str(LENGTH), *words, test)
    one = json.loads(done.stdout or "{}")
    same = done.returncode == SAME and (one["cores"], one["ended"], one["unfinished"]) == (of_runs(ended), len(ended), 4 - len(ended))
    tally.add("counts of a campaign", None if same else "%s: %s" % (of_runs(ended), described(done)))


def judge(program, tally, runs=IN_GATE, seed=1):
    groups = list(drawn_groups(runs, seed))
    work = [(program, text, machine, first + at) for text, machine, first in groups for at in range(4)]
    judged = list(judging.in_processes(judge_run, work))
    with tempfile.TemporaryDirectory() as room:
        for at, group in enumerate(groups):
            four = judged[4 * at:4 * at + 4]
            for found, fault in four:
                tally.add("%s on %s" % (group[0].split("\n")[0], " ".join(words_of(group[1]))), fault)
            if not any(fault for _, fault in four):
                judge_group(program, tally, group, [found for found, _ in four], room)
    ended = sum(found is not None for found, _ in judged)
    print("what caches do in %d runs, of which %d ended, by the steps of their traces" % (len(work), ended))


def main():
    parser, tally = judging.with_program(__doc__, with_part=False), Tally()
    parser.add_argument("--runs", type=int, default=RUNS)
    parser.add_argument("--seed", type=int, default=1)
    asked_for = parser.parse_args()
    judge(os.path.abspath(asked_for.program), tally, asked_for.runs, asked_for.seed)
    return tally.end()


if __name__ == "__main__":
    sys.exit(main())
