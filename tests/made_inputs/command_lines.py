"""Command lines: options with values of every kind, and lines that are refused."""

PROTOCOLS, BUSES, MODELS = ("msi", "mesi", "moesi", "mosi"), ("atomic", "split"), ("tso", "sc")
SHOWN = ("condition", "registers", "all")

# Lines that are refused, a word between each two spaces.
BAD_LINES = [line.split() for line in """
    runs
    Run
    help
    --help
    --version
    run --help
    trace --help
    sweep --help
    counts --help
    check --help
    witness --help
    outcomes --help
    why --help
    tables --help
    --depth 4 run
    run 4
    tables msi
    check order
    run --unknown 1
    run --dep 4
    run --depth 1 --depth 2
    run --depth=4 --depth 4
    tables --protocol msi --protocol mesi
    run --json --json
    run --json=true
    run --depth
    run --depth=
    run --depth 33
    trace --depth 33
    run --depth -1
    run --depth x
    run --depth 99999999999999999999999
    run --depth 4.0
    run --depth 0x4
    run --protocol mesif
    run --protocol MSI
    run --protocol=
    sweep --protocol mesi,msi
    tables --protocol moesif
    run --sets 0
    run --sets 9
    run --ways 0
    sweep --ways 9
    run --words 0
    run --words 5
    run --words 3
    sweep --words 3
    trace --words 3
    run --words=03 --sets 8
    run --bus shared
    sweep --bus Split
    sweep --from 4294967296
    sweep --from -1
    sweep --seeds 0
    sweep --seeds 1001
    sweep --length 100001
    sweep --json
    counts --given --seeds 5
    counts --from 1 --given
    counts --json --length=5 --given
    counts --given=true
    counts --given --given
    counts --words 3
    counts --given --words=3
    counts --seeds 0
    counts --length 100001
    counts --show all
    counts --assert
    run --given
    sweep --given
    run --seeds 5
    trace --seeds 5
    run --from 1
    run --length 1
    outcomes --states 0
    outcomes --states 10000001
    outcomes --states many
    outcomes --depth 33
    outcomes --protocol msi
    outcomes --bus split
    outcomes --seeds 5
    outcomes --json=true
    outcomes --states 5 --states 5
    outcomes --show
    outcomes --show locations
    outcomes --show=All
    outcomes --show all --show all
    outcomes --assert=true
    outcomes --assert --assert
    why --show all
    why --assert=No
    run --assert
    sweep --show all
    outcomes SB
    why SB
    why --model x86
    why --model=TSO
    why --cases 0
    why --cases 1000001
    why --cases few
    why --depth 4
    why --states 5
    why --json=true
    why --cases 5 --cases 5
    outcomes --model sc
    run --cases 5
    run --states 5
    sweep --states 5
    check --depth 4
    check --bus split
    witness --protocol msi
    witness --bus atomic
    witness --sets 1
    witness --depth 0
    witness --depth 33
    run --instructions
    run --instructions more
    outcomes --instructions=All
    check --instructions basic --instructions all
    tables --instructions all
    tables --depth 4
""".strip().splitlines()] + [[], ["run", ""], ["run", "--protocol", ""]]


def number(draw, value):
    """A number as the command line may have it."""
    return draw.choice(("%d",) * 6 + ("0%d", "+%d", "000%d")) % value


def option(draw, name, value):
    text = str(value) if isinstance(value, str) else number(draw, value)
    return ["--%s=%s" % (name, text)] if draw.random() < 0.4 else ["--" + name, text]


def machine_options(draw, depth=None, bus=None, words=None):
    """Some of the machine's options, in any order; those that are given stand in it."""
    options = [option(draw, "protocol", draw.choice(PROTOCOLS))] if draw.random() < 0.8 else []
    for name, value, values, share in (("sets", None, range(1, 9), 0.6), ("ways", None, (1,) + tuple(range(1, 9)), 0.6),
                                       ("words", words, (1, 2, 4), 0.6), ("depth", depth, range(33), 0.7), ("bus", bus, BUSES, 0.7)):
        if value is not None or draw.random() < share:
            options.append(option(draw, name, draw.choice(values) if value is None else value))
    return options


def joined(draw, options):
    draw.shuffle(options)
    return [word for words in options for word in words]


def run(draw, **fixed):
    """`run`, or `trace`, which reads the same."""
    options = machine_options(draw, **fixed)
    command = "trace" if draw.random() < 0.4 else "run"
    if draw.random() < 0.3:
        options.append(["--json"])
    return [command] + joined(draw, options)


def trace_as_json(draw, **fixed):
    return ["trace"] + joined(draw, machine_options(draw, **fixed) + [["--json"]])


def sweep(draw, *plan, **fixed):
    return ["sweep"] + joined(draw, machine_options(draw, **fixed) + plan_options(draw, *plan))


def counts(draw, *plan, **fixed):
    return ["counts"] + joined(draw, machine_options(draw, **fixed) + plan_options(draw, *plan) + sometimes(draw, "--json"))


def counts_of_given(draw, **fixed):
    """What caches do in the one run whose choices stand in the input."""
    return ["counts"] + joined(draw, machine_options(draw, **fixed) + [["--given"]] + sometimes(draw, "--json"))


def plan_options(draw, first, seeds, length):
    """A plan's three numbers are None where nothing is said of them."""
    plan = (("from", first), ("seeds", seeds), ("length", length))
    return [option(draw, name, value) for name, value in plan if value is not None]


def sometimes(draw, word):
    return [[word]] if draw.random() < 0.5 else []


def outcomes(draw, depth=None, states=None):
    """A search; of its limit nothing is said where it is None."""
    options = [] if depth is None else [option(draw, "depth", depth)]
    options += [] if states is None else [option(draw, "states", states)]
    if draw.random() < 0.6:
        options.append(option(draw, "show", draw.choice(SHOWN)))
    return ["outcomes"] + joined(draw, options + answer_forms(draw))


def answer_forms(draw):
    """Some of the options that say how a search answers."""
    return [[word] for word, share in (("--json", 0.4), ("--assert", 0.3)) if draw.random() < share]


def why(draw, cases=None):
    """A search for a reason; of its limit nothing is said where it is None."""
    options = [option(draw, "model", draw.choice(MODELS))] if draw.random() < 0.7 else []
    options += [] if cases is None else [option(draw, "cases", cases)]
    return ["why"] + joined(draw, options + answer_forms(draw))


def judge(draw, depth=None):
    """`check`, or `witness` at some depth."""
    if depth is None and draw.random() < 0.5:
        return ["check"]
    if depth is None and draw.random() < 0.3:
        return ["witness"]
    return ["witness"] + option(draw, "depth", draw.randint(1, 32) if depth is None else depth)


def with_instructions(chance, words, is_all):
    """A command line that asks for all instructions; or for those of the grammar, which it needn't say."""
    if not is_all and chance.random() < 0.8:
        return words
    return words[:1] + option(chance, "instructions", "all" if is_all else "basic") + words[1:]


def tables(draw, turn):
    return ["tables"] + option(draw, "protocol", PROTOCOLS[turn % 4]) if turn % 5 else ["tables"]


def any_with_a_test(draw, searched=False):
    """A command that reads a test, with some of its options; `outcomes` and `why` too where that is asked for."""
    searches = [outcomes(draw, 32), why(draw)] if searched else []
    return draw.choice([run(draw), ["check"], judge(draw, 4), sweep(draw, 0, 3, 50), counts(draw, 0, 3, 50)] + searches)
