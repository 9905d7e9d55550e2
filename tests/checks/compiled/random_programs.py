"""Programs made at random, for tests/compiled.py: threads of a few accesses, of two variables in C11, or of a word and its two halves."""

ORDERS = {"load": ("relaxed", "acquire", "seq_cst"), "store": ("relaxed", "release", "seq_cst"),
          "update": ("relaxed", "acq_rel", "seq_cst"), "fence": ("acquire", "release", "seq_cst")}
HEAD = """#include <stdatomic.h>
atomic_int x, y;
"""
# What an access does: %(x)s is a variable, %(o)s a result of its own, %(v)d a number.
ACCESSES = (
    ("load", "%(o)s = atomic_load_explicit(&%(x)s, %(m)s);"),
    ("load", "%(o)s = atomic_load_explicit(&%(x)s, %(m)s);"),
    ("store", "atomic_store_explicit(&%(x)s, %(v)d, %(m)s);"),
    ("store", "atomic_store_explicit(&%(x)s, %(v)d, %(m)s);"),
    ("update", "%(o)s = atomic_fetch_add_explicit(&%(x)s, %(v)d, %(m)s);"),
    ("update", "atomic_fetch_or_explicit(&%(x)s, %(v)d, %(m)s);"),
    ("update", "%(o)s = atomic_exchange_explicit(&%(x)s, %(v)d, %(m)s);"),
    ("update", "{ int e = %(w)d; %(o)s = 10 * e + atomic_compare_exchange_strong(&%(x)s, &e, %(v)d); }"),
    ("fence", "atomic_thread_fence(%(m)s);"),
    ("load", "if (atomic_load_explicit(&%(x)s, %(m)s) == %(w)d) atomic_store_explicit(&%(z)s, %(v)d, memory_order_relaxed);"),
    ("load", "{ int k = 0; while (atomic_load_explicit(&%(x)s, %(m)s) != %(w)d && k < 2) k++; %(o)s = k; }"),
    ("load", "{ int e = atomic_load_explicit(&%(x)s, %(m)s); while (!atomic_compare_exchange_weak(&%(x)s, &e, e + %(v)d)) ; }"),
    ("load", "{ int r = atomic_load_explicit(&%(x)s, %(m)s); %(o)s = r; atomic_store_explicit(&%(z)s, r + 1, memory_order_release); }"),
)
# The most accesses of all threads together, so that the plain walk comes to an end.
MOST_ACCESSES = 7


# A word in two halves, and what is done to it; not C11's atomics, which have one size.
PAIR = """union { volatile int half[2]; volatile long long whole; } n;
int x;
"""
HALF_ACCESSES = ("n.half[%(h)d] = %(v)d;", "%(o)s = n.half[%(h)d];", "__atomic_fetch_add(&n.half[%(h)d], %(v)d, __ATOMIC_SEQ_CST);")
PAIR_ACCESSES = ("n.whole = %(v)dLL << 32 | %(w)d;", "%(o)s = n.whole;", "%(o)s = n.half[%(h)d];",
                 "%(o)s = __atomic_exchange_n(&n.whole, %(v)d, __ATOMIC_SEQ_CST);", "*(volatile int *)&x = %(v)d;", "%(o)s = *(volatile int *)&x;")


def program(draw):
    """A program in C11, by a source of random numbers."""
    return _program(draw, HEAD, lambda thread, results: _access(draw, results))


def pair_program(draw):
    """A program with a word and its halves. In most of them one thread stores halves, or none does."""
    storing = draw.choice((0, 0, 1, None, "all"))

    def access(thread, results):
        text = draw.choice(_pair_accesses(storing, thread))
        if "%(o)s" in text:
            results.append("o%d" % len(results))
        return text % {"h": draw.randrange(2), "v": draw.randint(1, 3), "w": draw.randint(1, 3), "o": results[-1] if results else ""}
    return _program(draw, PAIR, access, "long long")


def _pair_accesses(storing, thread):
    """What a thread may do, where this one, all or none stores halves."""
    if storing in (thread, "all"):
        return PAIR_ACCESSES + HALF_ACCESSES
    if storing is None:
        return PAIR_ACCESSES + HALF_ACCESSES[2:]
    # The others only read the word.
    return PAIR_ACCESSES[1:3] + PAIR_ACCESSES[4:]


def _program(draw, head, access, kind="int"):
    threads = draw.choice((2, 2, 2, 3))
    counts = [1] * threads
    for _ in range(draw.randint(1, MOST_ACCESSES - threads)):
        counts[draw.randrange(threads)] += 1
    results, functions = [], []
    for number, count in enumerate(counts):
        steps = [access(number, results) for _ in range(count)]
        functions.append("void P%d(void)\n{\n%s\n}\n" % (number, "\n".join("  " + step for step in steps)))
    return head + "".join("%s %s;\n" % (kind, name) for name in results) + "".join(functions)


def _access(draw, results):
    kind, text = draw.choice(ACCESSES)
    x = draw.choice("xy")
    if "%(o)s" in text:
        results.append("o%d" % len(results))
    return text % {"x": x, "z": draw.choice("xy"), "o": results[-1] if results else "", "v": draw.randint(1, 3), "w": draw.randint(0, 3),
                   "m": "memory_order_" + draw.choice(ORDERS[kind])}
