"""Command lines, the parts of an input, and the whole answer: docs/REFERENCE.md, 'Commands' to 'Exit statuses', docs/INPUT.md, 'The
input', and docs/MESSAGES.md, 'Command lines'."""
import re
import typing

from . import axioms, candidates, conditions, hints, litmus, machine, outcomes, printing, reasons, seen, tracing, witness
from .choices import choices_of_seed, printed_choices, read_choices
from .machine import Configuration
from .orders import read_order
from .reading import Refused, read_test

ENDED, REFUSED, BAD_LINE, UNFINISHED, INVALID = 0, 1, 2, 3, 4

MACHINE_OPTIONS = {
    "protocol": ("msi", "mesi", "moesi", "mosi"), "depth": range(33), "sets": range(1, 9), "ways": range(1, 9),
    "words": range(1, 5), "bus": (machine.ATOMIC, machine.SPLIT),
}
SWEEP_OPTIONS = {"from": range(2**32), "seeds": range(1, 1001), "length": range(100_001)}
SEARCH_OPTIONS = {"depth": range(33), "states": range(1, 10_000_001), "show": (printing.CONDITION, printing.REGISTERS, printing.ALL)}
REASON_OPTIONS = {"model": (candidates.TSO, candidates.SC), "cases": range(1, 1_000_001)}
READING_OPTIONS = {"instructions": (litmus.BASIC, litmus.ALL)}

# Options without a value.
ANSWER_FORMS = {"json": None, "assert": None}
COUNT_FORMS = {"given": None, "json": None}

# The options of each command, and their values, None of those without.
OPTIONS = {
    "run": dict(MACHINE_OPTIONS, json=None), "trace": dict(MACHINE_OPTIONS, json=None), "sweep": dict(MACHINE_OPTIONS, **SWEEP_OPTIONS),
    "counts": dict(MACHINE_OPTIONS, **SWEEP_OPTIONS, **COUNT_FORMS),
    "outcomes": dict(SEARCH_OPTIONS, **ANSWER_FORMS), "why": dict(REASON_OPTIONS, **ANSWER_FORMS), "check": {},
    "witness": {"depth": range(1, 33)},
}
OPTIONS = {command: dict(options, **READING_OPTIONS) for command, options in OPTIONS.items()}
OPTIONS["tables"] = {"protocol": MACHINE_OPTIONS["protocol"]}
DEFAULTS = {"protocol": "msi", "depth": 4, "sets": 1, "ways": 2, "words": 1, "bus": machine.ATOMIC, "json": False,
            "from": 0, "seeds": 10, "length": 1000, "states": 1_000_000, "model": candidates.TSO, "cases": 100_000,
            "show": printing.CONDITION, "assert": False, "given": False, "instructions": litmus.BASIC}
OWN_DEFAULTS = {"outcomes": {"depth": 32}}

# Options with so many values that their ends alone are told apart.
GREAT_RANGES = tuple(SWEEP_OPTIONS) + ("states", "cases")

# The commands that say whether the condition is as it is claimed.
SEARCHING = ("outcomes", "why")

# `--words` is read as one of these, and then refused where it isn't one of its values.
WORDS = (1, 2, 4)


class BadLine(Exception):
    """A command line is refused; `errors` is all of standard error where that is known, else None."""

    def __init__(self, why, errors=None):
        super().__init__(why, errors)
        self.errors = errors
        seen.note("command line", why)


class Answer(typing.NamedTuple):
    """Exit status and standard output; of standard error what it must be, where that is known: of status 0 always."""
    status: int
    output: bytes
    errors: typing.Optional[bytes] = None


def settings_of(words):
    """The command, and the value of each of its options; raises `BadLine`."""
    if not words:
        raise BadLine("no command")
    command, rest = words[0], list(words[1:])
    settings = dict(DEFAULTS, **OWN_DEFAULTS.get(command, {}))
    if command in ("--help", "--version"):
        raise BadLine(command)
    if command not in OPTIONS:
        raise BadLine("option before the command" if command.startswith("-") else "unknown command")
    given = set()
    while rest:
        name, value = option_of(command, rest)
        if name in given:
            raise BadLine("option twice")
        given.add(name)
        settings[name] = value
    if settings["given"] and given.intersection(SWEEP_OPTIONS):
        raise BadLine("choices that are given, and seeds")
    if settings["words"] not in WORDS:
        hint = b"hint: --words is 1, 2 or 4\n" if spells_three(words) else b""
        raise BadLine("lines of three words", b"fault range\n" + hint)
    return command, settings


def spells_three(words):
    """Whether the value of `--words` is the one digit; `03` gets no hint."""
    return "--words=3" in words or ("--words", "3") in zip(words, words[1:])


def option_of(command, rest):
    """Takes an option and its value from the words that are left."""
    word = rest.pop(0)
    if word in ("--help", "-h"):
        raise BadLine("help of a command")
    name, equals, value = word[2:].partition("=")
    if not word.startswith("--"):
        raise BadLine("stray word")
    if name not in OPTIONS[command]:
        raise BadLine("option of another command" if name in DEFAULTS else "unknown option")
    values = OPTIONS[command][name]
    if values is None:
        if equals:
            raise BadLine("flag with a value")
        return name, True
    if not equals:
        if not rest or rest[0].startswith("-"):
            raise BadLine("option without its value")
        value = rest.pop(0)
    seen.note("option's form", "equals sign" if equals else "space")
    if isinstance(values, range):
        if not re.fullmatch(r"\+?[0-9]+", value):
            raise BadLine("value that is no number")
        value = int(value)
    if value not in values:
        raise BadLine("value out of range: " + name)
    return name, value


def note_options(command, settings):
    """Counts the values of a command that answered; of great ranges their ends alone."""
    for name, values in OPTIONS[command].items():
        value = settings[name]
        if name in GREAT_RANGES:
            value = "least" if value == values[0] else "greatest" if value == values[-1] else "between"
        seen.note("%s of %s" % (name, command), value)


def parts_of(given):
    """The parts before and after the first line that is '====', a carriage return at its end or not."""
    found = re.search(rb"(?:\A|(?<=\n))====\r?(?:\n|\Z)", given)
    return (given, b"") if found is None else (given[:found.start()], given[found.end():])


def note_test(command, test):
    """Counts how many cores a test has that a command answers, and the registers that its instructions and its condition name."""
    seen.note("cores of " + command, test.cores())
    for register in {number for program in test.programs for done in program for number in done.registers()}:
        seen.note("register in a program of " + command, litmus.REGISTERS[register])
    if test.proposition is not None:
        for _, register in conditions.named_in(test.proposition)[0]:
            seen.note("register in a condition of " + command, litmus.REGISTERS[register])


def answer(words, given, told=b""):
    """The program's answer to this command line and this input. What the documents leave open is taken from the answer that is told,
    where it is right there."""
    try:
        command, settings = settings_of(words)
    except BadLine as line:
        return Answer(BAD_LINE, b"", line.errors)
    if command == "tables":
        note_options(command, settings)
        return Answer(ENDED, printing.table(settings["protocol"]).encode(), b"")
    try:
        test, status, output = answer_to_input(command, settings, given, told.decode("latin-1"))
        note_options(command, settings)
        note_test(command, test)
    except Refused as refused:
        test, status, output = None, REFUSED, refused.line + "\n"
    seen.note("status of " + command, status)
    is_open = command == "outcomes" and outcomes.is_unfinished(output, settings["json"])
    is_hinted = (status == ENDED or status == INVALID and command in SEARCHING) and not is_open
    errors = hints.beside(command, settings["json"], settings["depth"], test, output, settings["show"]) if is_hinted else None
    return Answer(status, output.encode(), errors)


def answer_to_input(command, settings, given, told):
    """The test, status and output: the input's size is judged first, then its first part, then its second."""
    if len(given) > litmus.LONGEST_INPUT:
        seen.note("refusal of an input", "TooLarge")
        raise Refused("Refused input TooLarge")
    first, second = parts_of(given)
    test = read_test(first, settings["instructions"])
    if command in ("check", "witness"):
        return (test,) + judged(test, command, settings["depth"], second)
    if command in SEARCHING:
        output, ended, verdict = searched(test, command, settings, told)
        is_refuted = settings["assert"] and verdict == "No"
        seen.note("asserted of " + command, "nothing" if not settings["assert"] else verdict or "no verdict")
        is_open = not ended and not (settings["assert"] and verdict)
        return test, UNFINISHED if is_open else INVALID if is_refuted else ENDED, output
    configuration = Configuration(*(settings[name] for name in Configuration._fields))
    if command == "sweep":
        output, ended = printing.sweep(test, configuration, settings["from"], settings["seeds"], settings["length"])
        return test, ENDED if ended else UNFINISHED, output
    if command == "counts":
        output, ended = counted(test, configuration, settings, second)
        return test, ENDED if ended else UNFINISHED, output
    choices = read_choices(second, test.cores())
    if command == "trace":
        return (test,) + traced(test, configuration, choices, settings["json"])
    run = machine.run(test, configuration, choices)
    if run.machine is None:
        return test, UNFINISHED, printing.unfinished_json(run) if settings["json"] else printing.unfinished(run)
    printed = printing.report_json if settings["json"] else printing.report
    return test, ENDED, printed(test, configuration, run, choices.count - run.used)


def searched(test, command, settings, told):
    """What `outcomes` and `why` print, whether they came to their end, and herd's word, None where there is none."""
    if command == "outcomes":
        return outcomes.answer(test, settings["depth"], settings["states"], settings["show"], settings["json"], told)
    return reasons.answer(test, settings["model"], settings["cases"], settings["json"], told)


def counted(test, configuration, settings, second):
    """What `counts` prints of the runs of its seeds, or of the run whose choices are given, and whether all ended."""
    if settings["given"]:
        seen.note("runs of counts", "given")
        runs, plan = [machine.run(test, configuration, read_choices(second, test.cores()))], {}
    else:
        seen.note("runs of counts", "of seeds")
        plan = {name: settings[name] for name in SWEEP_OPTIONS}
        runs = [machine.run(test, configuration, choices_of_seed(seed, plan["length"], test.cores()))
                for seed in range(plan["from"], plan["from"] + plan["seeds"])]
    return printing.counts(test, configuration, runs, plan, settings["json"])


def traced(test, configuration, choices, with_json):
    """What `run` answers, with the trace after its first two lines; or its JSON with a few members more."""
    made = tracing.TracedMachine(test, configuration, with_json)
    run = machine.run(test, configuration, choices, made)
    if with_json:
        tracing.note_length(run, choices)
        if run.used > tracing.MOST_STEPS:
            raise Refused("Refused choices word %d TooMany" % choices.word_of(tracing.MOST_STEPS))
        more = tracing.members(test, made)
        if run.machine is None:
            return UNFINISHED, printing.unfinished_json(run, more)
        return ENDED, printing.report_json(test, configuration, run, choices.count - run.used, more)
    head = printing.head(test, configuration) + made.text()
    if run.machine is None:
        return UNFINISHED, head + printing.unfinished(run)
    return ENDED, head + printing.after_head(test, run, choices.count - run.used)


def judged(test, command, depth, text):
    """The answer of `check` and `witness` to an order."""
    order = read_order(text, test)
    breach = axioms.first_breach(test, order)
    if breach is not None:
        return INVALID, "Check invalid %s\n" % breach
    if command == "check":
        return ENDED, "Check valid\n"
    needed = witness.needed(order)
    seen.note("depth that an order needs", needed)
    seen.note("depth needed", "%s there is" % ("less than" if needed < depth else "as much as" if needed == depth else "more than"))
    if needed > depth:
        return INVALID, "Depth needed=%d\n" % needed
    return ENDED, printed_choices(witness.choices_along(test, order))
