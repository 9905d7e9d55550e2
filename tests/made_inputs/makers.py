"""Inputs of each kind: a command line and what it reads."""
import functools
import itertools

from checks import judging
from reference import litmus, machine
from reference.choices import STEP, DRAIN, choices_of_seed, printed_choices
from reference.machine import Configuration
from reference.reading import Refused, read_test
from reference.search import Search
from reference.tracing import MOST_STEPS

from . import choice_texts, command_lines, fault_table, locked_tests, order_texts, small_tests
from .drafts import PLAIN_NAMES, Drafter

# Sizes of tests, as `Drafter.draft` takes them: the most cores (0 stands for two), instructions and locations.
CROWDED = ((2, 12, 3), (3, 10, 6), (4, 8, 8), (3, 12, 16), (8, 5, 4), (2, 30, 5))
SPLIT = ((2, 6, 2), (3, 6, 2), (4, 5, 3), (3, 8, 5))
SMALL = ((1, 2, 2), (2, 3, 2), (4, 2, 2))
JUDGED = ((2, 4, 2), (2, 6, 3), (3, 5, 3))
RACING = ((0, 2, 2), (0, 3, 2), (0, 4, 2), (3, 2, 2), (3, 3, 2))
GREATEST = ((8, 32, 16), (4, 32, 8), (2, 32, 4))
# Of tests whose every state is searched: the kinds of their instructions, and the number of cores with a size, in turn.
SEARCHED_KINDS = (["store", "load"], ["store", "load"], ["store", "load", "fence"], ["store", "load", "exchange"],
                  ["exchange", "add", "load"], ["store register", "store", "load", "set", "copy"], None)
SEARCHED = ((2, (2, 4, 2)), (3, (3, 3, 2)), (4, (4, 3, 3)), (5, (5, 2, 3)), (6, (6, 2, 2)), (7, (7, 2, 2)), (8, (8, 2, 2)), (2, (2, 6, 3)),
            (3, (3, 4, 3)), (1, (1, 8, 4)))
# The same of tests of which a reason is asked.
REASONED = ((2, (2, 4, 2)), (3, (3, 3, 2)), (1, (1, 6, 2)), (4, (4, 3, 3)), (2, (2, 3, 1)), (5, (5, 2, 3)), (2, (2, 6, 3)), (6, (6, 2, 2)),
            (3, (3, 4, 3)), (7, (7, 2, 2)), (8, (8, 2, 2)))
# What stands between the stores and the loads of a core.
BETWEEN = ([], [], [], ["fence"], ["exchange"], ["add"])

DIVIDERS = ("====\n",) * 8 + ("====\r\n",)
# Lines that divide an input, or look so; '?' stands for the choices.
ODD_DIVIDERS = ("====", "====\r", "====?", "====\r?", "====\r\n?", "====\r\r\n?", " ====\n?", "==== \n?", "=====\n?", "===\n?",
                "(*\n====\n*)\n?", "\"\n====\n\"?", "====\n====\n?", "\n\n====\n?", "====\n0s\n====\r\n?")


@functools.cache
def gallery_tests():
    """The texts of the gallery's tests, by their names."""
    return [test for _, test, _ in judging.tests_in(judging.GALLERY)]


def test_of(text, instructions):
    """The test that this text spells in this set of instructions, or None."""
    try:
        return read_test(text, instructions)
    except Refused:
        return None


class Maker:
    """Makes one input. `turn` counts the inputs of its kind; `name` says more of the kind, where there is more to say. `larger` draws what
    the larger set of instructions alone has, and is None where a test has that of the grammar."""

    def __init__(self, draw, turn, larger=None):
        self.draw, self.turn, self.name, self.larger = draw, turn, None, larger

    def test_of(self, text):
        return test_of(text, litmus.BASIC if self.larger is None else litmus.ALL)

    def test(self, asked=0.4, most=3, few_states=False, bare=False, **how):
        """A test's text, which most often spells one, and that test or None. So often its condition asks for what a run leaves, in so many
        registers at most; a bare one has none."""
        drafter = Drafter(self.draw, larger=self.larger)
        draft = drafter.draft(**how)
        if few_states:
            small_tests.cut(self.draw, draft, lambda draft: self.test_of(draft.spelled(drafter.speller)))
        if bare:
            draft.condition = []
        elif self.draw.random() < asked:
            self.ask_what_a_run_leaves(drafter, draft, most)
        text = draft.spelled(drafter.speller)
        if not text.endswith(b"\n"):
            text += b"\n"
        return text, self.test_of(text)

    def ask_what_a_run_leaves(self, drafter, draft, most):
        """Gives the draft a condition on the end of one of its runs."""
        draft.condition = []
        test = self.test_of(draft.spelled(drafter.speller))
        if test is not None:
            run = machine.run(test, Configuration(), self.seeded(test))
            if run.machine is not None:
                draft.condition = drafter.condition_on(test, *run.state(), most)

    def seeded(self, test):
        """Choices that nearly always end the test, drawn from some seed."""
        return choices_of_seed(self.draw.randrange(2**32), choice_texts.ending_length(test), test.cores())

    def joined(self, text, second):
        """An input of two parts."""
        return text + (self.draw.choice(DIVIDERS) + second).encode("latin-1")

    def cores(self):
        """Every fourth time how many cores a test has, one to eight in turn."""
        return None if self.turn % 4 else self.turn // 4 % litmus.MOST_CORES + 1

    # Runs.

    def run_of(self, text, test, drawn, **options):
        """`run` of this test under choices that are drawn so; a text that spells no test has no choices."""
        words = command_lines.run(self.draw, **options)
        return words, text if test is None else self.joined(text, drawn(self.draw, test))

    def a_run(self, **how):
        text, test = self.test(**how)
        return self.run_of(text, test, choice_texts.stores_first if self.draw.random() < 0.2 else choice_texts.choices)

    def a_crowded_run(self):
        """Many accesses to few lines, or to more lines than the caches hold."""
        kinds = self.draw.choice(("store load", "store load exchange add", "load add", "load load store")).split()
        return self.a_run(size=self.draw.choice(CROWDED), kinds=kinds)

    def a_shallow_run(self):
        """Buffers that are full, fences and locked instructions that wait."""
        text, test = self.test(kinds=["store", "store", "fence", "exchange", "load"])
        return self.run_of(text, test, choice_texts.stores_first, depth=self.draw.choice((0, 1, 1, 2)))

    def a_split_run(self):
        """The split bus, with accesses of several cores in between."""
        kinds = ["store", "load", "load", "exchange", "add", "store register"]
        text, test = self.test(size=self.draw.choice(SPLIT), kinds=kinds)
        return self.run_of(text, test, choice_texts.choices, bus="split")

    def a_split_trace(self):
        """The same as JSON, with lines of several words, of which the last one has fewer."""
        text, test = self.test(size=(4, 5, 3), kinds=["store", "load", "load", "exchange", "add"])
        words = command_lines.trace_as_json(self.draw, bus="split", words=self.draw.choice((2, 4)))
        return words, text if test is None else self.joined(text, choice_texts.choices(self.draw, test))

    def a_great_run(self):
        """As many cores and instructions as there may be."""
        text, test = self.test(size=self.draw.choice(GREATEST))
        return self.run_of(text, test, choice_texts.seed_alone)

    def a_long_trace(self):
        """`trace --json` that uses as many choices as it may, or one more. They stall at first; the last ones end the test, as words or
        of a seed, or stall too."""
        text, test = self.test(size=(2, 3, 3))
        words = command_lines.trace_as_json(self.draw, depth=4, bus="atomic")
        if test is None:
            return words, text
        seed, over, form = self.draw.randrange(2**32), self.turn % 2, self.turn // 2 % 3
        length = choice_texts.ending_length(test)
        used = machine.run(test, Configuration(), choices_of_seed(seed, length, test.cores())).used
        endings = ["seed %d %d" % (seed, length), printed_choices(itertools.islice(choices_of_seed(seed, length, test.cores()), used)), ""]
        stalling = ["0d"] * (MOST_STEPS + over - (used if endings[form] else 0))
        return words, self.joined(text, " ".join(stalling + [endings[form]]))

    # Searches.

    def a_search(self):
        """`outcomes` of a test of few states, with one to eight cores and at every depth in turn."""
        cores, size = SEARCHED[self.turn % len(SEARCHED)] if self.turn % 35 else (self.turn // 35 % 8 + 1, (1, 0, 2))
        text, test = self.test(size=size, cores=cores, kinds=self.draw.choice(SEARCHED_KINDS), few_states=True,
                               full=self.draw.random() < 0.8, alike=self.draw.random() < 0.25, asked=0.75, most=6, bare=self.turn % 12 == 7)
        return self.a_search_of(text, test, self.turn % 33)

    def a_shallow_search(self):
        """`outcomes` of two or three cores that store and then load, with buffers that hold all of these stores or nearly."""
        shape = [["store"] * self.draw.randint(1, 3) + self.draw.choice(BETWEEN) + ["load"] * self.draw.randint(1, 2)
                 for _ in range(self.draw.choice((2, 2, 3)))]
        text, test = self.test(size=(3, 5, self.draw.choice((2, 2, 3))), shape=shape, few_states=True, asked=0.9, most=6)
        return self.a_search_of(text, test, self.draw.choice((0, 1, 1, 2, 2, 3)))

    def a_search_of(self, text, test, depth):
        """`outcomes` of this test, with its second part, which isn't looked at."""
        words = command_lines.outcomes(self.draw, None if depth == 32 else depth, None if test is None else self.limit(test, depth))
        return words, text if self.draw.random() < 0.7 else self.joined(text, "x y z\n====\n")

    def limit(self, test, depth):
        """How many states may be kept, None where nothing is said: now and then just as many as can be reached, or one less."""
        form = self.turn // len(SEARCHED) % 6
        if form < 2:
            return max(1, len(Search(test, depth).reached) - form)
        return (None, None, 10_000_000, self.draw.choice((1, 2, 5, 40)))[form - 2]

    # Reasons.

    def a_reason(self):
        """`why` of a test: every third time one of the gallery, most of which have cycles; sometimes one of locked instructions; else a small
        one."""
        cases = (None, None, 1_000_000, 1, 2, self.draw.randrange(3, 50))[self.turn // len(REASONED) % 6]
        if self.turn % 6 == 1:
            text, cases = locked_tests.locked_test(self.draw, self.turn // 6), (cases, 1)[self.turn // 24 % 2]
        else:
            text = self.a_test_of_the_gallery() if self.turn % 3 == 2 else self.a_small_test()
        words = command_lines.why(self.draw, cases)
        return words, text if self.draw.random() < 0.7 else self.joined(text, "x y z\n====\n")

    def a_test_of_the_gallery(self):
        tests = gallery_tests()
        return tests[self.turn // 3 % len(tests)]

    def a_small_test(self):
        """A small test, of which a condition asks for what a run leaves, or for what may never be. Many locked instructions of many cores
        are hard to tell apart, so these have none."""
        cores, size = REASONED[self.turn % len(REASONED)]
        kinds = SEARCHED_KINDS if cores < 3 else SEARCHED_KINDS[:4 if cores == 3 else 3]
        text, _ = self.test(size=size, cores=cores, kinds=self.draw.choice(kinds), full=self.draw.random() < 0.8,
                            asked=0.3, most=6, bare=self.turn % 12 == 7)
        return text

    # Texts with a fault.

    def a_faulty_test(self):
        text, fault = fault_table.faulty(self.draw, Drafter(self.draw), self.turn)
        self.name = "a test: " + fault
        words = command_lines.any_with_a_test(self.draw, searched=self.test_of(text) is None)
        second = self.draw.choice(("", "0s 1s 0d\n", "seed 1 100\n", "Order\nEndorder 0\n"))
        return words, text if self.draw.random() < 0.7 else self.joined(text + b"\n", second)

    def faulty_choices(self):
        text, test = self.test(size=self.draw.choice(SMALL))
        words, given = self.run_of(text, test, lambda draw, test: choice_texts.faulty_choices(draw, test, self.turn))
        return words if self.turn % 5 else command_lines.counts_of_given(self.draw), given

    def a_faulty_order(self):
        text, test = self.test(size=(2, 3, 2), names=PLAIN_NAMES[:2])
        if test is None:
            return ["check"], text
        if self.turn % 12 == 11:
            order = order_texts.limits_of_entries(self.draw, test)
        else:
            order = order_texts.faulty_text(self.draw, test, self.order_of(test), self.turn)
        return command_lines.judge(self.draw), self.joined(text, order)

    # Orders.

    def order_of(self, test):
        """The order of a run of this test, whose buffers drain early or late."""
        depth = self.draw.choice((0, 1, 4, 32))
        steps = [(core, STEP) for core in range(test.cores()) for _ in test.programs[core]]
        self.draw.shuffle(steps)
        first = steps if self.draw.random() < 0.5 else []
        run = machine.run(test, Configuration(depth=depth), first + list(self.seeded(test)))
        return run.machine.order if run.machine is not None else []

    def judged(self, text, test, order, depth=None):
        """`check` or `witness` of this order."""
        return command_lines.judge(self.draw, depth), self.joined(text, order_texts.spelled(self.draw, test, order))

    def an_order(self):
        """An execution, and `witness` at every depth in its turn."""
        text, test = self.test(cores=self.cores())
        depth = self.turn % 32 + 1 if self.turn % 3 else None
        return (["check"], text) if test is None else self.judged(text, test, self.order_of(test), depth)

    def a_deep_order(self):
        """An execution whose loads pass many stores, and `witness` at a small depth."""
        text, test = self.test(size=(2, 7, 3), kinds=["store", "store", "load"])
        if test is None:
            return ["witness"], text
        return self.judged(text, test, self.deepest(test), self.draw.choice((1, 1, 2, 3, 32)))

    def deepest(self, test):
        """The order of the run in which all steps are taken, as far as they can be, before any store is drained."""
        steps = [(core, STEP) for core in range(test.cores()) for _ in test.programs[core]]
        run = machine.run(test, Configuration(depth=32), steps + [(core, DRAIN) for core, _ in steps])
        return run.machine.order if run.machine is not None else []

    def a_deepest_order(self):
        """An execution in which a load passes as many stores as the turn says, up to all that a program can have before it; and
        `witness` at about the depth that it needs."""
        stores = self.turn % (litmus.MOST_INSTRUCTIONS - 1) + 1
        text, test = self.test(size=(2, 1, 3), shape=[["store"] * stores + ["load"], ["store", "load"]])
        if test is None:
            return ["witness"], text
        return self.judged(text, test, self.deepest(test), min(32, stores + self.draw.choice((-1, 0, 0, 1)) or 1))

    def a_broken_order(self):
        """An order that was changed, so that as a rule it breaks an axiom."""
        separated = order_texts.change_of(self.turn) is order_texts.separated
        kinds = ["exchange", "add", "load", "store"] if separated or self.draw.random() < 0.4 else None
        text, test = self.test(size=self.draw.choice(JUDGED), kinds=kinds, cores=self.cores())
        if test is None:
            return ["check"], text
        return self.judged(text, test, order_texts.mutated(self.draw, test, self.order_of(test), self.turn))

    # Sweeps, counts, lines and the rest.

    def a_sweep(self):
        """A test whose cores race, as a rule, under seeds enough to show it; and plans at their limits."""
        kinds = self.draw.choice(("store load", "store load", "store load fence", "store load exchange", "")).split()
        names = self.draw.choice((PLAIN_NAMES[:1], PLAIN_NAMES[:2], None))
        full = self.draw.random() < 0.8
        text, test = self.test(size=self.draw.choice(RACING), kinds=kinds, names=names, full=full, cores=self.cores(), asked=0.7)
        first, seeds, length = self.plan(80 if test is None else 8 * test.cores() * choice_texts.work_of(test))
        words = command_lines.sweep(self.draw, first, seeds, length, depth=self.turn % 33 if self.turn % 2 else None)
        return words, text if self.draw.random() < 0.7 else self.joined(text, "x y z\n====\n")

    def a_count(self):
        """A test whose cores race for few lines, under seeds; or, every fourth time, under choices that are given."""
        kinds = self.draw.choice(("store load", "store load exchange add", "load load store", "load add")).split()
        text, test = self.test(size=self.draw.choice(RACING + SPLIT), kinds=kinds, full=self.draw.random() < 0.8, cores=self.cores())
        depth = self.turn % 33 if self.turn % 2 else None
        if self.turn % 4 == 3:
            words = command_lines.counts_of_given(self.draw, depth=depth)
            return words, text if test is None else self.joined(text, choice_texts.choices(self.draw, test))
        plan = self.plan(80 if test is None else 8 * test.cores() * choice_texts.work_of(test))
        words = command_lines.counts(self.draw, *plan, depth=depth)
        return words, text if self.draw.random() < 0.7 else self.joined(text, "x y z\n====\n")

    def plan(self, length):
        """First seed, how many, and how many choices each makes, None where nothing is said; `length` is about enough."""
        plans = (
            (self.draw.randrange(1000), self.draw.randint(5, 40), self.draw.choice((None, 1000, length))),
            (self.draw.randrange(2**32), self.draw.randint(5, 40), length),
            (None, None, self.draw.randrange(100)),
            (2**32 - 1, self.draw.randint(2, 20), length),
            (0, 1, 100_000),
            (self.draw.randrange(50), 1000, 12),
            (0, 3, 0),
        )
        return plans[self.turn % len(plans) if self.turn % 35 < 14 else self.turn % 3]

    def a_bad_line(self):
        words = command_lines.BAD_LINES[self.turn % len(command_lines.BAD_LINES)]
        return words, b"X86 t\n{ }\nP0;\n" if self.draw.random() < 0.5 else b""

    def tables(self):
        return command_lines.tables(self.draw, self.turn), b"" if self.draw.random() < 0.5 else b"not read"

    def a_divided_input(self):
        """Lines that divide an input, or look so; inputs at their limit."""
        text, test = self.test(size=(2, 2, 2), names=PLAIN_NAMES[:2])
        choices = "" if test is None else choice_texts.choices(self.draw, test)
        over = self.turn % 20 - 18
        if over >= 0:
            given = self.joined(text, choices)
            given += self.draw.choice((b" ", b"\n")) * (litmus.LONGEST_INPUT + over - len(given))
        else:
            given = text + ODD_DIVIDERS[self.turn % len(ODD_DIVIDERS)].replace("?", choices).encode("latin-1")
        return self.draw.choice((command_lines.run(self.draw), ["check"], command_lines.outcomes(self.draw),
                                 command_lines.why(self.draw))), given


# Of so many inputs in a row, how many there are of each kind.
SHARES = (
    (Maker.a_run, 12), (Maker.a_crowded_run, 7), (Maker.a_shallow_run, 5), (Maker.a_split_run, 9), (Maker.a_great_run, 1),
    (Maker.a_split_trace, 1), (Maker.a_long_trace, 1), (Maker.a_search, 10), (Maker.a_shallow_search, 8), (Maker.a_reason, 12),
    (Maker.a_faulty_test, 36), (Maker.faulty_choices, 6), (Maker.a_faulty_order, 5),
    (Maker.an_order, 4), (Maker.a_deep_order, 3), (Maker.a_deepest_order, 2), (Maker.a_broken_order, 9),
    (Maker.a_sweep, 6), (Maker.a_count, 6), (Maker.a_bad_line, 6), (Maker.tables, 1), (Maker.a_divided_input, 2),
)
