"""C11 tests from critical cycles: of each thread two accesses of different places, with memory orders and perhaps a fence between them.

A cycle has one edge of program order for each thread. From a thread's second access to the next thread's first one it goes by rf, fr or co:
both are of one place, which has no other accesses. The condition is the outcome that the cycle asks for.
"""
import itertools
from collections import namedtuple

# What a thread of a cycle does: its accesses' kinds, as WR, their orders, and whether a fence stands between them.
Thread = namedtuple("Thread", "kind first second is_fenced")

ORDERS = {"R": {"rlx": "relaxed", "acq": "acquire", "sc": "seq_cst"}, "W": {"rlx": "relaxed", "rel": "release", "sc": "seq_cst"}}
# Strengths that both accesses of a thread share: the order of a read, of a write, and whether there is a fence.
STRENGTHS = {"rlx": ("rlx", "rlx", False), "ra": ("acq", "rel", False), "sc": ("sc", "sc", False), "fence": ("rlx", "rlx", True)}
NAMES = {("WW", "RR"): "MP", ("WR", "WR"): "SB", ("RW", "RW"): "LB", ("WW", "RW"): "S", ("WW", "WR"): "R", ("WW", "WW"): "2+2W"}
KINDS = ("WW", "WR", "RW", "RR")
PLACES = "xyzw"
FENCE = "atomic_thread_fence(memory_order_seq_cst);"


def shared_strengths(kind):
    """The threads of a kind whose two accesses have one strength, by its name."""
    found = {}
    for name, (read, write, is_fenced) in STRENGTHS.items():
        first, second = (read if letter == "R" else write for letter in kind)
        found[name] = Thread(kind, first, second, is_fenced)
    return found


def mixed_strengths(kind):
    """All threads of a kind, those of shared strengths first: each access has an order of its own, with a fence and without."""
    every = [Thread(kind, first, second, is_fenced)
             for first in ORDERS[kind[0]] for second in ORDERS[kind[1]] for is_fenced in (False, True)]
    return list(dict.fromkeys([*shared_strengths(kind).values(), *every]))


def cycles(threads, is_mixed=False):
    """All cycles of so many threads, of shared strengths or of mixed ones; of those that differ by a turn alone there is one."""
    of_kind = {kind: mixed_strengths(kind) if is_mixed else list(shared_strengths(kind).values()) for kind in KINDS}
    seen = set()
    for kinds in itertools.product(KINDS, repeat=threads):
        # No edge goes from a read to a read.
        if any(one[1] == other[0] == "R" for one, other in zip(kinds, kinds[1:] + kinds[:1])):
            continue
        for cycle in itertools.product(*(of_kind[kind] for kind in kinds)):
            turned = [cycle[at:] + cycle[:at] for at in range(threads)]
            if not seen & set(turned):
                seen.add(cycle)
                yield min(turned, key=lambda one: (_kinds(one) not in NAMES, turned.index(one)))


def _kinds(cycle):
    return tuple(thread.kind for thread in cycle)


def name_of(cycle):
    """A cycle's name: of the literature where its kinds have one there, and its threads' strengths."""
    kinds = _kinds(cycle)
    return "%s+%s" % (NAMES.get(kinds, "-".join(kinds)), "+".join(map(strength_of, cycle)))


def strength_of(thread):
    """A thread's strength in short: one that both accesses share, or their orders, with an F for a fence."""
    for name, other in shared_strengths(thread.kind).items():
        if other == thread:
            return name
    return "-".join([thread.first, *["F"] * thread.is_fenced, thread.second])


def test_of(cycle):
    """The test of a cycle, in C."""
    lines, condition = parts_of(cycle)
    return "\n".join(["/* %s */" % condition, "#include <stdatomic.h>", "", *lines]) + "\n"


def parts_of(cycle, prefix=""):
    """The lines of a cycle's variables and functions, whose names begin with this prefix, and its condition."""
    threads = len(cycle)
    places = [prefix + name for name in PLACES[:threads]]
    results = ["%so%d" % (prefix, number) for number in range(2 * threads)]
    lines = ["atomic_int %s;" % ", ".join(places)]
    lines += ["int %s;" % name for number, name in enumerate(results) if cycle[number // 2].kind[number % 2] == "R"]
    asked = []
    for at, thread in enumerate(cycle):
        # The first access is of the place that the thread before leaves.
        first, second = thread.kind
        value = 2 if cycle[at - 1].kind[1] == first == "W" else 1
        steps = [_access(first, places[(at - 1) % threads], value, results[2 * at], thread.first), *[FENCE] * thread.is_fenced,
                 _access(second, places[at], 1, results[2 * at + 1], thread.second)]
        lines += ["", "void %sP%d(void)" % (prefix, at), "{", *("  " + step for step in steps), "}"]
        after = (at + 1) % threads
        if second == "R":
            asked.append("%s=0" % results[2 * at + 1])
        elif cycle[after].kind[0] == "R":
            asked.append("%s=1" % results[2 * after])
        else:
            asked.append("%s=2" % places[at])
    return lines, "exists " + " /\\ ".join(asked)


def _access(kind, place, value, result, order):
    order = ORDERS[kind][order]
    if kind == "R":
        return "%s = atomic_load_explicit(&%s, memory_order_%s);" % (result, place, order)
    return "atomic_store_explicit(&%s, %d, memory_order_%s);" % (place, value, order)
