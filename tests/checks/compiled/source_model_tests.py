"""Tests of the source's model, for tests/compiled.py: the paper's own, and classics that tell its rules apart. Each has its threads in
short, what is asked, and whether RC11 allows it, whether release and acquire alone do, and whether one order of all does.

A thread's steps: `x=1 rlx` stores, `r=x acq` loads, `r=x+1 sc` adds and loads the old word, `F sc` is a fence; `na` is a plain access.
"""
import re

ORDERS = {"rlx": "relaxed", "acq": "acquire", "rel": "release", "ar": "acq_rel", "sc": "seq_cst"}

MODELS = ("rc11", "ra", "sc")
# Name, threads, condition, what each of the models says: + allowed, - forbidden.
TABLE = (
    ("SB+rlx", ("x=1 rlx; a=y rlx", "y=1 rlx; b=x rlx"), "a=0 /\\ b=0", "++-"),
    ("SB+ra", ("x=1 rel; a=y acq", "y=1 rel; b=x acq"), "a=0 /\\ b=0", "++-"),
    ("SB+sc", ("x=1 sc; a=y sc", "y=1 sc; b=x sc"), "a=0 /\\ b=0", "-+-"),
    ("SB+sc+ra", ("x=1 sc; a=y acq", "y=1 sc; b=x acq"), "a=0 /\\ b=0", "++-"),
    ("SB+fences", ("x=1 rlx; F sc; a=y rlx", "y=1 rlx; F sc; b=x rlx"), "a=0 /\\ b=0", "-+-"),
    ("SB+fence", ("x=1 rlx; F sc; a=y rlx", "y=1 rlx; b=x rlx"), "a=0 /\\ b=0", "++-"),
    ("SB+ra-fences", ("x=1 rlx; F ar; a=y rlx", "y=1 rlx; F ar; b=x rlx"), "a=0 /\\ b=0", "++-"),
    ("SB+rmws", ("x=1 rlx; c=z+0 ar; a=y rlx", "y=1 rlx; d=z+0 ar; b=x rlx"), "a=0 /\\ b=0", "---"),
    ("MP+rlx", ("x=1 rlx; y=1 rlx", "a=y rlx; b=x rlx"), "a=1 /\\ b=0", "+--"),
    ("MP+ra", ("x=1 rlx; y=1 rel", "a=y acq; b=x rlx"), "a=1 /\\ b=0", "---"),
    ("MP+rel", ("x=1 rlx; y=1 rel", "a=y rlx; b=x rlx"), "a=1 /\\ b=0", "+--"),
    ("MP+fences", ("x=1 rlx; F rel; y=1 rlx", "a=y rlx; F acq; b=x rlx"), "a=1 /\\ b=0", "---"),
    ("MP+rel+fence", ("x=1 rlx; y=1 rel", "a=y rlx; F acq; b=x rlx"), "a=1 /\\ b=0", "---"),
    ("MP+relseq-rmw", ("x=1 rlx; y=1 rel", "c=y+1 rlx", "a=y acq; b=x rlx"), "a=2 /\\ b=0", "---"),
    ("MP+relseq-store", ("x=1 rlx; y=1 rel; y=2 rlx", "a=y acq; b=x rlx"), "a=2 /\\ b=0", "---"),
    ("MP+no-relseq", ("x=1 rlx; y=1 rel", "y=2 rlx", "a=y acq; b=x rlx"), "a=2 /\\ b=0", "+++"),
    ("LB", ("a=x rlx; y=1 rlx", "b=y rlx; x=1 rlx"), "a=1 /\\ b=1", "---"),
    ("CoRR", ("x=1 rlx", "a=x rlx; b=x rlx"), "a=1 /\\ b=0", "---"),
    ("CoWR", ("x=1 rlx; a=x rlx", "x=2 rlx"), "a=2 /\\ x=1", "---"),
    ("CoRW", ("a=x rlx; x=1 rlx",), "a=1", "---"),
    ("CoWW", ("x=1 rlx; x=2 rlx",), "x=1", "---"),
    ("2+2W", ("x=1 rlx; y=2 rlx", "y=1 rlx; x=2 rlx"), "x=1 /\\ y=1", "++-"),
    ("2+2W+sc", ("x=1 sc; y=2 sc", "y=1 sc; x=2 sc"), "x=1 /\\ y=1", "-+-"),
    ("IRIW+ra", ("x=1 rel", "y=1 rel", "a=x acq; b=y acq", "c=y acq; d=x acq"), "a=1 /\\ b=0 /\\ c=1 /\\ d=0", "++-"),
    ("IRIW+sc", ("x=1 sc", "y=1 sc", "a=x sc; b=y sc", "c=y sc; d=x sc"), "a=1 /\\ b=0 /\\ c=1 /\\ d=0", "-+-"),
    ("IRIW-acq-sc", ("x=1 sc", "a=x acq; b=y sc", "c=y acq; d=x sc", "y=1 sc"), "a=1 /\\ b=0 /\\ c=1 /\\ d=0", "++-"),
    ("Z6.U", ("x=1 sc; y=1 rel", "b=y+1 sc; c=y rlx", "y=3 sc; a=x sc"), "a=0 /\\ b=1 /\\ c=3", "++-"),
    ("RWC+sc", ("x=1 sc", "a=x sc; b=y sc", "y=1 sc; c=x sc"), "a=1 /\\ b=0 /\\ c=0", "-+-"),
    ("RWC+fences", ("x=1 rlx", "a=x rlx; F sc; b=y rlx", "y=1 rlx; F sc; c=x rlx"), "a=1 /\\ b=0 /\\ c=0", "-+-"),
    ("W+RWC+fences", ("x=1 rlx; z=1 rel", "a=z acq; F sc; b=y rlx", "y=1 rlx; F sc; c=x rlx"), "a=1 /\\ b=0 /\\ c=0", "-+-"),
    ("WRC+ra", ("x=1 rlx", "a=x acq; y=1 rel", "b=y acq; c=x rlx"), "a=1 /\\ b=1 /\\ c=0", "---"),
    ("WRC+rel", ("x=1 rel", "a=x acq; y=1 rel", "b=y acq; c=x rlx"), "a=1 /\\ b=1 /\\ c=0", "---"),
    ("S+ra", ("x=2 rlx; y=1 rel", "a=y acq; x=1 rlx"), "a=1 /\\ x=2", "---"),
    ("S+rlx", ("x=2 rlx; y=1 rlx", "a=y rlx; x=1 rlx"), "a=1 /\\ x=2", "+--"),
    ("R+sc", ("x=1 sc; y=1 sc", "y=2 sc; a=x sc"), "y=2 /\\ a=0", "-+-"),
    ("R+rlx", ("x=1 rlx; y=1 rlx", "y=2 rlx; a=x rlx"), "y=2 /\\ a=0", "++-"),
    ("INC", ("a=x+1 rlx", "b=x+1 rlx"), "a=0 /\\ b=0", "---"),
)
# Whether there is a data race.
RACES = (
    ("MP+na", ("x=1 na; y=1 rlx", "a=y rlx; b=x na"), True),
    ("MP+na+ra", ("x=1 na; y=1 rel", "while y acq 1; b=x na"), False),
    ("MP+na+rlx", ("x=1 na; y=1 rlx", "while y rlx 1; b=x na"), True),
    ("CO+na", ("x=1 na", "x=2 na"), True),
    ("R+na", ("a=x na", "b=x na"), False),
)


def text_of(threads):
    """The test in C of threads in short."""
    plain = {name for thread in threads for step in re.findall(r"(\S+) na", thread) for name in re.findall(r"[xyz]", step)}
    shared = sorted({name for thread in threads for name in re.findall(r"\b([xyz])\b", thread)})
    outputs = sorted({name for thread in threads for name in re.findall(r"\b([a-d])=", thread)})
    lines = ["#include <stdatomic.h>", *("%s %s;" % ("int" if name in plain else "atomic_int", name) for name in shared)]
    lines += ["int %s;" % name for name in outputs]
    lines += ["void P%d(void) { %s }" % (number, " ".join(map(_step, thread.split("; ")))) for number, thread in enumerate(threads)]
    return "\n".join(lines) + "\n"


def _step(words):
    """One step in C."""
    what, order = words.rsplit(" ", 1)
    if what.startswith("while"):
        _, name, mode = what.split(" ")
        return "while (atomic_load_explicit(&%s, memory_order_%s) != %s) ;" % (name, ORDERS[mode], order)
    order = None if order == "na" else "memory_order_" + ORDERS[order]
    if what == "F":
        return "atomic_thread_fence(%s);" % order
    to, source = what.split("=")
    if source.isdigit():
        return "%s = %s;" % (to, source) if order is None else "atomic_store_explicit(&%s, %s, %s);" % (to, source, order)
    if "+" in source:
        return "%s = atomic_fetch_add_explicit(&%s, %s, %s);" % (to, *source.split("+"), order)
    return "%s = %s;" % (to, source) if order is None else "%s = atomic_load_explicit(&%s, %s);" % (to, source, order)


def is_met(condition, state):
    """Whether a state, words by name, meets a condition of atoms NAME=NUMBER, conjunctions, disjunctions and brackets."""
    words = re.findall(r"/\\|\\/|~|[()]|[\w:+]+=\d+", condition)
    spelled = {"/\\": "and", "\\/": "or", "~": "not", "(": "(", ")": ")"}
    parts = [spelled[word] if word in spelled else str(state.get(word.split("=")[0], 0) == int(word.split("=")[1])) for word in words]
    return eval(" ".join(parts), {"__builtins__": {}})  # made of these words alone
