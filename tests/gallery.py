#!/usr/bin/env python3
"""Holds the gallery of litmus tests, examples/gallery/, against a built program, and makes its page.

    tests/gallery.py PROGRAM [PART-OF-NAME] [--also PROGRAM]
    tests/gallery.py --write PROGRAM           makes examples/GALLERY.md anew from the tests, and from the program's runs

NAME.litmus is an input of `run`: a test, and choices. Its key lines are the facts: Family, Asks, TSO and SC (allowed or
forbidden), Source; where TSO allows the outcome, Depth, and Seen (by how many of the seeds 0 to 999); Breach where TSO
forbids it. NAME.order stands beside a forbidden one: the same test, and an order that would show the outcome. Held
against them are

- the page, and the form of each file;
- `outcomes`: TSO at depth 32, SC at depth 0, and Depth, from which on the outcome is there and at one less isn't, by its words and its
  verdicts; the states that its line `True` names, one or more of an allowed one, with choices under which `run` has the outcome;
- `why`: the same verdicts of TSO and SC; a forbidden one has a cycle, which the page shows;
- a plain reference, checks/machines/flat_machine.py, which explores all runs: the same verdicts;
- of an allowed one: `run` at that depth has the outcome, no choice stalled and none left over; `witness` finds
  choices for that run's order at that depth, and at one less it says which depth is needed;
- of a forbidden one: its choices end without the outcome; the order has it, by its own read values, and `check` names
  the stated breach;
- `sweep` over 1,000 seeds: how many meet the outcome; none of a forbidden one;
- `counts` over the same seeds: all of them end; each miss and each upgrade is one request, and each miss is supplied once.

The last line is 'N passed, M failed'.
"""
import functools
import json
import os
import re
import sys
import urllib.parse

sys.dont_write_bytecode = True

from checks import judging
from checks.judging import EXAMPLES, GALLERY
from checks.machines import flat_machine

PAGE = os.path.join(EXAMPLES, "GALLERY.md")

ENDED, INVALID = 0, 4
DIVIDING_LINE = "====\n"
TITLES = ("Test", "What it asks", "TSO", "SC", "Depth, or what the order breaks", "Seen", "From")
SEEDS = 1000

FAMILIES = {
    "Store buffering": "Each core stores, and then loads what another one stores. The buffers let the loads come first.",
    "Message passing": "One core stores twice, another loads twice. Stores keep their order, and so do loads.",
    "Load buffering": "Each core loads, and then stores what another one loads. A store never comes before an earlier load.",
    "Orders of stores": "Two stores to one location, and which of them stays. Stores keep their order; a load may still pass "
    "the store before it.",
    "Causality between three cores": "What one core has seen and passed on, and what a third core may still miss. Where some "
    "core of the chain stores and then loads, with neither fence nor locked instruction, the outcome is allowed; else it is "
    "forbidden.",
    "Four cores and one order of stores": "All stores have one order, the same for every other core; the core that stores may read its own store early.",
    "Coherence of one location": "Whatever the cores do, each location alone behaves as under sequential consistency.",
    "A core reads its own store early": "A load is given the newest store of its own core's buffer, before memory has it.",
    "Locked instructions are one step": "Nothing comes between the load part and the store part.",
    "Mutual exclusion and other uses": "Algorithms that are right under sequential consistency, and what they need under TSO.",
    "How deep the buffers must be": "A load passes all stores that its core's buffer holds, and no more.",
}

HEAD = """# Gallery

Litmus tests of the literature and of the processor manuals, and what becomes of each under total store order (TSO) and under sequential
consistency (SC). `tests/gallery.py --write PROGRAM` makes this page of the files of `gallery/`: don't change it by hand.

Each question asks about one outcome, which is the test's condition. A fence is MFENCE, a locked exchange XCHG, a locked addition LOCK XADD.

**Allowed** means that some run ends in the outcome. `NAME.litmus` has choices that show it, with buffers of the smallest
depth that the outcome needs. (An outcome that SC allows needs no buffer: its depth is given as 1.)

    ./tso run --depth 1 < examples/gallery/SB.litmus

Its **picture** is this run, drawn by `view/index.html`: which stores waited, what passed them, and where each value came from.
After the `#` its address has what `./tso run --depth 1 --json` prints. [Pictures of three tests](../docs/PICTURES.md) show where no script
runs, as on a code host.

**Forbidden** means that no run ends in it: `./tso outcomes` prints `Never` of it, which is a proof. `NAME.order` is an order that would
show it, and `check` names [the first axiom that this order breaks](../docs/MESSAGES.md#breaches). That refuses this order alone.

    ./tso check < examples/gallery/MP.order

Its **cycle** says why. `./tso why` prints it, and [the last table](#the-cycles-of-those-that-are-forbidden) has it for each.

    ./tso why < examples/gallery/MP.litmus

**Seen** is how many of the seeds 0 to 999 meet the outcome, at the default depth. Allowed, and met by none of them: UNSEEN
([never seen isn't forbidden](../docs/TUTORIAL.md#never-seen-isnt-forbidden)).

    ./tso sweep --seeds 1000 < examples/gallery/SB.litmus

The **verdicts** are those of `outcomes`, for SC with `--depth 0`: `Verdict Ok` where the outcome is allowed, else `Verdict No`.

    ./tso outcomes < examples/gallery/MP.litmus

`tests/gallery.py PROGRAM` checks each row against `outcomes` and `why`, the program's runs, and a plain search of all runs.
"""

CYCLES = """## The cycles of those that are forbidden

Each row has one line with which `./tso why` closes a case ([how to read it](../docs/REASONS.md#what-is-printed-of-reasons)). It is a
cycle of the published model, `x86tso.cat`, a write between the parts of a locked instruction, or a question without an answer. Lines
`False` are left out. Of several lines it is one of the global relation if it can. The last column says how many there are.
"""

SOURCES = """## Sources

- x86-TSO, Primer: the sources of [the definitions](../docs/DEFINITIONS.md). Herding cats: a source of
  [the models](../docs/MODELS.md).
- x86-TSO report: Owens, Sarkar, Sewell: A Better x86 Memory Model: x86-TSO (extended version). University of Cambridge,
  technical report 745, 2009. Its names iwp2.1 to iwp2.8 are the sections of Intel's white paper on memory ordering of
  2007.
- Intel: Intel 64 and IA-32 Architectures Software Developer's Manual, volume 3A, memory ordering, examples 8-1 to 8-10. Later
  editions count the chapter as the ninth.
- AMD: AMD64 Architecture Programmer's Manual, volume 2, multiprocessor memory access ordering. The examples have no numbers
  there; amd1 to amd10 are the x86-TSO report's names.
- Power tutorial: Maranget, Sarkar, Sewell: A Tutorial Introduction to the ARM and POWER Relaxed Memory Models, 2012.
- diy: the names that the tool diy of Alglave and Maranget gives. `+po`, `+mfence` say what comes between the two
  instructions of each core in turn, and `+mfences` that a fence does on each. `rfi` says that a core reads its own store.
- Lamport 1974: A New Solution of Dijkstra's Concurrent Programming Problem. Lamport 1987: A Fast Mutual Exclusion Algorithm.
- Dijkstra 1965: Cooperating Sequential Processes, which has Dekker's algorithm. Peterson 1981: Myths about the Mutual
  Exclusion Problem. Szymanski 1988: A Simple Solution to Lamport's Concurrent Programming Problem with Linear Wait.
- Chase and Lev 2005: Dynamic Circular Work-Stealing Deque. The thief's compare-and-swap is an exchange here, of a run in which
  it succeeds.
- Morrison and Afek 2014: Fence-Free Work Stealing on Bounded TSO Processors.
- A variant is this gallery's own: the named test with something put in or exchanged.

A name in brackets after its source is the source's. Those from diy are less sure: they were made by the rule above, and not
looked up in a list of diy's. Algorithms have no names as litmus tests: `Dekker`, `Szymanski`, `ChaseLev`, `Peterson`, `Bakery` and
`FastMutex` are names of this gallery.
"""

# What the page lists by the names of the manuals and of the x86-TSO papers.
NAMED = re.compile(r"Intel 8-[0-9]+|amd[0-9]+|iwp[0-9.]+[0-9ab]|n[0-9]b?(?=\))")


def read(name):
    return judging.content(GALLERY, name)


class Piece:
    """One test of the gallery: its parsed test, its facts by key, and what stands after the dividing line."""

    def __init__(self, name):
        self.name = name
        self.text, _, self.rest = read(name + ".litmus").partition(DIVIDING_LINE)
        self.test = flat_machine.Test(self.text)
        self.facts = dict(self.test.facts)
        self.allowed = self.facts["TSO"] == "allowed"
        self.seen = int(self.facts["Seen"]) if self.allowed else 0
        self.link = "[%s](gallery/%s.litmus)" % (name, name)

    def before(self, rest):
        """An input of the program: this test, and what stands after the dividing line."""
        return self.text + DIVIDING_LINE + rest

    def order_input(self):
        return read(self.name + ".order")


def pieces():
    names = [name[: -len(".litmus")] for name in os.listdir(GALLERY) if name.endswith(".litmus")]
    return sorted(map(Piece, names), key=place_on_page)


def place_on_page(piece):
    """Family by family, in each the small tests first."""
    programs = piece.test.programs
    accesses = sum(kind != "fence" for program in programs for kind, *_ in program)
    return list(FAMILIES).index(piece.facts["Family"]), len(programs), accesses, natural(piece.name)


def natural(name):
    return [int(part) if part.isdigit() else part.lower() for part in re.split(r"([0-9]+)", name)]


# The page.

def row_of(piece):
    facts = piece.facts
    if piece.allowed:
        shown = "depth %s, [picture][picture of %s]" % (facts["Depth"], piece.name)
    else:
        shown = "[%s](gallery/%s.order)" % (facts["Breach"], piece.name)
    return piece.link, facts["Asks"], facts["TSO"], facts["SC"], shown, str(piece.seen), facts["Source"]


def table(titles, rows):
    lines = [titles, ["---"] * len(titles), *rows]
    return "".join("| %s |\n" % " | ".join(line) for line in lines)


def names_of(all_pieces):
    """The names of the manuals and of the x86-TSO papers, each with its test and the verdict of TSO."""
    named = [(name, piece) for piece in all_pieces if not piece.facts["Source"].startswith("variant")
             for name in NAMED.findall(piece.facts["Source"])]
    return [(name, piece.link, piece.facts["TSO"]) for name, piece in sorted(named, key=lambda pair: natural(pair[0]))]


def picture_of(program, piece):
    """The address of the picture of an allowed test's run: after the `#` the line of the run. What a browser encodes by itself stands as it
    is, since the addresses are read more easily so."""
    _, line = run_of(program, piece, "--json")
    return "[picture of %s]: ../view/index.html#%s\n" % (piece.name, urllib.parse.quote(line.strip(), safe=':,="{}[]'))


def cycles_of(program, piece):
    """The lines of a forbidden test's reason that say more than values do, those of the global relation first."""
    status, text = answer(program, ["why"], piece.text)
    found = [line for word in ("Cycle", "Between", "Uniproc", "No") for line in re.findall(r"^(?:.*: | *)(%s .*)$" % word, text, re.MULTILINE)]
    return found if status == ENDED and "\nNever tso " in text else []


def row_of_cycles(program, piece):
    found = cycles_of(program, piece)
    shown = "`%s`" % found[0] if found else "none: false by its values"
    return piece.name, shown, str(len(found))


def page_of(program, all_pieces):
    allowed = [piece for piece in all_pieces if piece.allowed]
    unseen = ", ".join(piece.link for piece in allowed if piece.seen == 0)
    counts = len(all_pieces), len(allowed), len(all_pieces) - len(allowed)
    contents = ", ".join("[%s](#%s)" % (family, family.lower().replace(" ", "-")) for family in FAMILIES)
    parts = [HEAD.replace("UNSEEN", unseen), "%d tests: TSO allows the outcome of %d, and forbids it in %d.\n" % counts, contents + ".\n"]
    for family, about in FAMILIES.items():
        rows = [row_of(piece) for piece in all_pieces if piece.facts["Family"] == family]
        parts += ["## " + family + "\n", about + "\n", table(TITLES, rows)]
    names = table(("Name", "Test", "TSO"), names_of(all_pieces))
    pictures = "".join(picture_of(program, piece) for piece in allowed)
    cycles = table(("Test", "One", "Of"), [row_of_cycles(program, piece) for piece in all_pieces if not piece.allowed])
    return "\n".join(parts + [CYCLES, cycles, "## By the names of the manuals and of the x86-TSO papers\n", names, SOURCES, pictures])


def faults_of_page(program, all_pieces):
    is_made = judging.content(PAGE) == page_of(program, all_pieces)
    return [] if is_made else ["examples/GALLERY.md isn't what tests/gallery.py --write makes with this program"]


def faults_of_folder(all_pieces):
    wanted = {piece.name + ".litmus" for piece in all_pieces}
    wanted |= {piece.name + ".order" for piece in all_pieces if not piece.allowed}
    return ["gallery/ has %s, or lacks it" % name for name in sorted(wanted ^ set(os.listdir(GALLERY)))]


# Each test against its own form, against the reference, and against the program.

def faults_of_form(piece):
    keys = ["Family", "Asks", "TSO", "SC"] + (["Depth", "Seen"] if piece.allowed else ["Breach"]) + ["Source"]
    faults = []
    if [key for key, _ in piece.test.facts] != keys:
        faults.append("its key lines aren't " + ", ".join(keys))
    if piece.test.name != piece.name:
        faults.append("its header says " + piece.test.name)
    if not piece.allowed and piece.order_input().partition(DIVIDING_LINE)[0] != piece.text:
        faults.append("%s.order has another test" % piece.name)
    # An order whose entries aren't the programs' (C1), or whose stores have other values (C2), would show nothing.
    if not piece.allowed and piece.facts["Breach"][:2] not in ("C3", "C4", "C5"):
        faults.append("its breach is none of C3, C4 and C5")
    return faults


@functools.cache
def verdicts_of_reference(test):
    """TSO, SC and the smallest depth that the program has, as the reference finds them."""
    least = flat_machine.least_depth(test)
    words = ["forbidden", "allowed"]
    return words[least is not None], words[least == 0], None if least is None else str(max(least, 1))


def faults_of_verdicts(piece):
    found = verdicts_of_reference(piece.test)
    said = piece.facts["TSO"], piece.facts["SC"], piece.facts.get("Depth")
    return [] if said == found else ["it says %s, and the reference finds %s" % (said, found)]


FOUND = re.compile(r"^Observation .+ (Never|Sometimes|Always) (\d+) \d+\nTrue((?: \d+)*)\nVerdict (Ok|No)\n\Z", re.MULTILINE)


def searched(program, piece, depth):
    """What `outcomes` says of the condition at this depth: whether it is so of some state, allowed or forbidden; and the choices of each
    state that its line `True` names."""
    status, text = answer(program, ["outcomes", "--depth", str(depth)], piece.text)
    found, ways = FOUND.search(text), re.findall(r"^By ?(.*)$", text, re.MULTILINE)
    if status != ENDED or found is None:
        return text, []
    word, count, numbers, verdict = found.groups()
    agree = (word != "Never") == (verdict == "Ok") and len(numbers.split()) == int(count)
    return {"Ok": "allowed", "No": "forbidden"}[verdict] if agree else text, [ways[int(number) - 1] for number in numbers.split()]


def faults_of_outcomes(program, piece):
    said = [searched(program, piece, depth)[0] for depth in (32, 0)]
    faults = differs("TSO and SC by outcomes", said, [piece.facts["TSO"], piece.facts["SC"]])
    if not piece.allowed:
        return faults
    depth = int(piece.facts["Depth"])
    if depth > 1:
        faults += differs("outcomes at one less", searched(program, piece, depth - 1)[0], "forbidden")
    ways = searched(program, piece, depth)[1]
    reports = [answer(program, ["run", "--depth", str(depth)], piece.before(way))[1] for way in ways]
    all_show = reports and all("Condition exists true\n" in report for report in reports)
    return faults + ([] if all_show else ["the choices of outcomes don't show it"])


def answer(program, words, text):
    done = program.run(words, text.encode())
    return done.returncode, done.stdout.decode()


def run_of(program, piece, *words):
    """The run of a test's choices, at the depth that its outcome needs."""
    return answer(program, ["run", "--depth", piece.facts.get("Depth", "4"), *words], piece.before(piece.rest))


def differs(what, got, wanted):
    return [] if got == wanted else ["%s: %r, and not %r" % (what, got, wanted)]


def faults_of_run(program, piece):
    status, report = run_of(program, piece)
    condition = "Condition exists %s\n" % ("true" if piece.allowed else "false")
    faults = differs("status of run", status, ENDED)
    if condition not in report:
        faults.append("run doesn't print " + condition.strip())
    if piece.allowed and " stalled=0 unused=0\n" not in report:
        faults.append("a choice stalled or was left over")
    return faults


def faults_of_witness(program, piece):
    depth = int(piece.facts["Depth"])
    _, report = run_of(program, piece)
    status, choices = answer(program, ["witness", "--depth", str(depth)], piece.before(report))
    _, again = answer(program, ["run", "--depth", str(depth)], piece.before(choices))
    faults = differs("status of witness", status, ENDED)
    faults += differs("the order of witness's choices", entries_of(again), entries_of(report))
    if depth > 1:
        needed = answer(program, ["witness", "--depth", str(depth - 1)], piece.before(report))
        faults += differs("witness at one less", needed, (INVALID, "Depth needed=%d\n" % depth))
    return faults


def entries_of(text):
    """The entries of the first order in this text: (core, place, kind, location, value); a fence has None and 0."""
    lines = re.search(r"^Order\n(.*?)^Endorder ", text, re.MULTILINE | re.DOTALL)
    entries = re.findall(r"^P(\d+):(\d+) (\w+)(?: (\w+)=(\d+))?$", lines.group(1) if lines else "", re.MULTILINE)
    return [(int(core), int(place), kind, location or None, int(value or 0)) for core, place, kind, location, value in entries]


def faults_of_order(program, piece):
    given = piece.order_input()
    words = flat_machine.words_after(piece.test, entries_of(given))
    faults = [] if piece.test.has_outcome(words) else ["the order doesn't have the outcome"]
    return faults + differs("check", answer(program, ["check"], given), (INVALID, "Check invalid %s\n" % piece.facts["Breach"]))


def faults_of_sweep(program, piece):
    status, report = answer(program, ["sweep", "--seeds", str(SEEDS)], piece.text)
    word = {0: "Never", SEEDS: "Always"}.get(piece.seen, "Sometimes")
    observation = "Observation %s %s %d %d" % (piece.name, word, piece.seen, SEEDS - piece.seen)
    return differs("status of sweep", status, ENDED) + differs("sweep's last line", report.splitlines()[-1:], [observation])


def faults_of_counts(program, piece):
    status, report = answer(program, ["counts", "--seeds", str(SEEDS), "--json"], piece.text)
    found = json.loads(report) if report.startswith("{") else {"cores": None, "runs": {}}
    faults = differs("status of counts", status, ENDED) + differs("runs of counts that ended", found["runs"].get("ended"), SEEDS)
    for core in found["cores"] or []:
        misses, upgrades, *moved = (core[name]["sum"] for name in ("misses", "upgrades", "get_s", "get_m", "from_caches", "from_memory"))
        faults += differs("requests", sum(moved[:2]), misses + upgrades) + differs("supplied lines", sum(moved[2:]), misses)
    return faults


def faults_of_why(program, piece):
    """Of x86-TSO and of sequential consistency: an execution where it is allowed, else a reason."""
    words = [(model, verdict, answer(program, ["why", "--model", model], piece.text)[1].splitlines()[1:2])
             for model, verdict in (("tso", piece.facts["TSO"]), ("sc", piece.facts["SC"]))]
    faults = ["why --model %s prints %s of what is %s" % (model, line, verdict) for model, verdict, line in words
              if not re.match("Allowed" if verdict == "allowed" else r"Never \w+ leaves=\d+$", "".join(line))]
    return faults


def rows_of(piece):
    yield "form", lambda program: faults_of_form(piece)
    yield "why", lambda program: faults_of_why(program, piece)
    yield "outcomes", lambda program: faults_of_outcomes(program, piece)
    yield "reference", lambda program: faults_of_verdicts(piece)
    yield "run", lambda program: faults_of_run(program, piece)
    if piece.allowed:
        yield "witness", lambda program: faults_of_witness(program, piece)
    else:
        yield "order", lambda program: faults_of_order(program, piece)
    yield "sweep", lambda program: faults_of_sweep(program, piece)
    yield "counts", lambda program: faults_of_counts(program, piece)


def check(words):
    all_pieces, tally, part = pieces(), judging.Tally(shown=100), words.part
    rows = [("page", lambda program: faults_of_page(program, all_pieces)), ("folder", lambda program: faults_of_folder(all_pieces))]
    rows = [] if part else rows
    rows += [("%s: %s" % (piece.name, what), judge) for piece in all_pieces if part in piece.name for what, judge in rows_of(piece)]
    tally.add("gallery", judging.judged(rows, judging.programs_in(words)))
    return tally.end()


def write(words):
    page = page_of(judging.Program(words.program), pieces())
    with open(PAGE, "w", encoding="utf-8") as file:
        file.write(page)
    return 0


if __name__ == "__main__":
    sys.exit(judging.check_or_write(judging.with_programs(__doc__), check, write))
