"""tools/fences, for tests/batteries.py: the sets that it finds for the gallery's tests are those that theory finds among all placements."""
import dataclasses
import itertools
import json
import os
import tempfile

from checks import judging

import litmus
from scripts import COULD_NOT, INTERRUPTED, SAME

from .tool_runs import GALLERY, described, gallery, interrupted, script, stand_in, test_file, tool, write

# Tests of the gallery whose outcome is allowed: those that fences can forbid, and the one that none can.
FORBIDDABLE, BEYOND = 34, ["INC"]

MEMORY = ("store", "load", "fence", "xchg", "xadd")

LOCKED_WANTED = """SB: Allowed, and 4 sets of fences forbid it
  P0 after MOV [x],$1; P1 after MOV [y],$1: Never, leaves=1
    without P0 after MOV [x],$1: Allowed
    without P1 after MOV [y],$1: Allowed
"""

# Each register of core 0 is used, so its store can't be XCHG; core 1 reads with a locked instruction.
NO_REGISTER = """X86 Full
{ 0:EBX=1; 0:ECX=1; 0:EDX=1; 0:ESI=1; 0:EDI=1; 1:EAX=1; }
 P0          | P1                ;
 MOV [x],$1  | XCHG [y],EAX      ;
 MOV EAX,[y] | MOV EBX,[x]       ;
exists (0:EAX=0 /\\ 1:EBX=0)
"""

ALWAYS = "X86 Always\n{ }\n P0 | P1 ;\n MOV [x],$1 | MOV EAX,[x] ;\nforall (1:EAX=0)\n"


def fenced(test, places):
    """A test with an MFENCE after each of these instructions, by core and number."""
    programs = [[one for at, instruction in enumerate(program) for one in
                 [instruction] + [litmus.Instruction("fence")] * ((core, at) in places)] for core, program in enumerate(test.programs)]
    return dataclasses.replace(test, programs=programs)


def by_theory(text):
    """The least sets of MFENCEs that forbid what a test asks for, by theory, of all placements between two accesses; the second part is
    whether all together do."""
    theory, test = script("theory"), litmus.read_test(text.split("\n====")[0])
    places = [(core, at) for core, program in enumerate(test.programs)
              for at in [at for at, one in enumerate(program) if one.kind in MEMORY][:-1]]
    forbidding = []
    for size in range(len(places) + 1):
        for one in map(frozenset, itertools.combinations(places, size)):
            # a set with such a part is no least one, and theory itself says that it forbids too
            if theory.verdict(fenced(test, one)) == "forbidden":
                forbidding.append(one)
    least = [one for one in forbidding if not any(other < one for other in forbidding)]
    closed = all(frozenset(one) in set(forbidding) for other in least for one in [other | {place} for place in places])
    return least, closed


def judge_test(work):
    """What is wrong with the sets that were found for a test of the gallery."""
    name, text, found = work
    if found["answer"] == "never":
        return name, None if found["sets"] == [] and "TSO=forbidden" in text else str(found)
    least, closed = by_theory(text)
    sets = {frozenset((fence["core"], fence["after"]) for fence in one["fences"]) for one in found["sets"]}
    sizes = [len(one["fences"]) for one in found["sets"]]
    if sets != set(least) or len(sets) != len(least) or sizes != sorted(sizes) or found["none"] != (not least):
        return name, "%s, by theory %s" % (sorted(map(sorted, sets)), sorted(map(sorted, least)))
    words = {word for one in found["sets"] for word in one["without"]}
    return name, None if closed and words <= {"allowed"} and not found["open"] else "parts: %s, %s, %s" % (words, closed, found["open"])


def judge_gallery(program, tally):
    """Each test of the gallery, and how many fences can forbid."""
    done = tool("fences", "--json", "--program", program, GALLERY)
    found = {line["test"]: line for line in map(json.loads, done.stdout.splitlines())}
    texts = dict(gallery())
    tally.add("fences of the gallery", None if done.returncode == SAME and found.keys() == texts.keys() else described(done))
    for name, fault in judging.in_processes(judge_test, [(name, texts[name], found[name]) for name in found]):
        tally.add(name, fault)
    allowed = [one for one in found.values() if one["answer"] == "allowed"]
    beyond = [one["test"] for one in allowed if one["none"]]
    tally.add("how many fences can forbid", None if len(allowed) - len(beyond) == FORBIDDABLE and beyond == BEYOND
              else "%d, not %s" % (len(allowed), beyond))


def judge_told(program, tally, room):
    """Forms of what is told: sets with their parts, tests with fences, stores as XCHG, and what can't be judged."""
    done = tool("fences", "--program", program, "--locked", test_file("SB"))
    same = done.returncode == SAME and done.stdout.startswith(LOCKED_WANTED) and done.stdout.count("as XCHG: Never") == 2
    tally.add("stores as XCHG", None if same else described(done))
    full = write(os.path.join(room, "full"), NO_REGISTER)
    done = tool("fences", "--program", program, "--locked", full)
    wanted = ("Full: Allowed, and 1 set of fences forbids it\n  P0 after MOV [x],$1: Never, leaves=1\n"
              "    without P0 after MOV [x],$1: Allowed\n")
    tally.add("a core without a free register", None if (done.returncode, done.stdout) == (SAME, wanted) else described(done))
    done = tool("fences", "--program", program, "--tests", "--locked", *map(test_file, ("SB", "n6", "Peterson")))
    again = tool("campaign", "outcomes", "--program", program, "-", input=done.stdout)
    lines = again.stdout.splitlines()
    same = again.returncode == SAME and len(lines) > 9 and all(" Never 0 " in line for line in lines) and "XCHG" in done.stdout
    tally.add("tests with their fences", None if same else described(done) + described(again))
    done = tool("fences", "--program", program, "--most", "1", test_file("SB"))
    tally.add("sets of few fences", None if done.stdout == "SB: Allowed, and no set that was tried is known to forbid it\n" else described(done))
    done = tool("fences", "--program", program, write(os.path.join(room, "always"), ALWAYS))
    tally.add("what forall asks", None if done.stdout == "Always: Allowed with all fences: none forbid it\n" else described(done))
    bare = write(os.path.join(room, "bare"), ALWAYS.split("forall")[0])
    done = tool("fences", "--program", program, bare, test_file("MP"))
    same = done.returncode == COULD_NOT and done.stdout == "MP: Never without fences\n" and "without a condition asks nothing" in done.stderr
    tally.add("a test that asks nothing", None if same else described(done))


def judge_open(program, tally, room):
    """Where `why` meets its limit, a set is open, and what has it for a part isn't known to be least."""
    unfinished = ("[ $(printf '%%s' \"$text\" | grep -o MFENCE | wc -l) -%s 1 ] && "
                  "{ echo '{\"test\":\"SB\",\"model\":\"tso\",\"unfinished\":{\"cases\":1}}'; exit 3; }")
    one = "  %s after MOV [%s],$1: open, more than 1 cases\n"
    both = "SB: Allowed, and 1 set of fences forbids it\n  P0 after MOV [x],$1; P1 after MOV [y],$1: Never, leaves=1\n"
    none = ["SB: Allowed, and no set that was tried is known to forbid it\n", "  P0 after MOV [x],$1; P1 after MOV [y],$1: open"]
    for how, wanted in (("ge", none),
                        ("eq", [both, "    without P0 after MOV [x],$1: open\n", one % ("P0", "x"), one % ("P1", "y")])):
        done = tool("fences", "--program", stand_in(os.path.join(room, "open"), program, unfinished % how), test_file("SB"))
        same = done.returncode == COULD_NOT and all(part in done.stdout for part in wanted)
        tally.add("open sets", None if same else described(done))
    done = tool("fences", "--program", stand_in(os.path.join(room, "slow"), program, "case \"$*\" in why*) sleep 9;; esac"), "--limit", "0.2",
                test_file("SB"))
    told = done.stdout == "SB: open without fences: took over 0.2 seconds\n"
    tally.add("a call that takes long", None if done.returncode == COULD_NOT and told else described(done))


def judge_stops(program, tally, room):
    """Fences that are stopped end at once, with what they started."""
    slow = stand_in(os.path.join(room, "sleeps"), program, "case \"$*\" in why*) [ -e '%s' ] || { : > '%s'; exit 1; }; sleep 30;; esac" % (
        (os.path.join(room, "first"),) * 2))
    words = ["--program", slow, "--processes", "2", test_file("SB"), test_file("n6")]
    done = interrupted("fences", *words, ready=lambda running: running.stdout.readline())
    tally.add("fences that are stopped", None if (done.returncode, done.stderr) == (INTERRUPTED, "fences: stopped\n") else described(done))


def judge(program, tally):
    with tempfile.TemporaryDirectory() as room:
        judge_gallery(program, tally)
        for part in (judge_told, judge_open, judge_stops):
            part(program, tally, room)
