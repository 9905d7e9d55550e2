"""The program `tso` from Python: each command is a function of a test, and each answer an object.

    import tso

    found = tso.outcomes(text)
    print(found.observation.word, [state.values for state in found.states])

A test is its text, or an object whose method `text` gives that. What stands behind a line ==== in it is read by commands that read
choices or an order, where these aren't given. Options are the command's own, with their defaults: `depth=1`, `show="all"`; but of
instructions all are read, those of the larger set too, where `instructions="basic"` doesn't ask for the grammar's own alone.
Members of answers have the names of docs/schemas/, but for `from`, which is `from_` here. Texts are ASCII.

Each function takes `program`, a path or a command's name (else `find()` says which), `limit`, after how many seconds it gives up, and
`further`, a list of words for the command line. What is no answer is an exception, a kind of NoAnswer: Refused has the line and the
hint, Unfinished the limit that was met. The folder stands alone, with the standard library; docs/PYTHON.md has examples.
"""
import functools
import json
import os
import re
import shutil
import subprocess
import sys

from . import processes
from .faults import BadWords, Failed, NoAnswer, NoProgram, Refused, TookTooLong, Unfinished
from .making import made
from .records import (Allowed, Asked, Cache, Check, Choices, Closing, Condition, Copy, Core, Counted, Counts, Edge, Holder, Machine, Met,
                      Moment, Never, Observation, Outcomes, Reason, Run, Runs, Source, Spread, State, Step, Sweep, Trace, Traced, Witness)

# Statuses of the program.
ANSWERED, REFUSED, BAD_WORDS, UNFINISHED, NOT_VALID = 0, 1, 2, 3, 4

# The status of ./tso, the script, where it has no program.
NO_PROGRAM = 70

# Seconds in which a program says what it is.
TOLD_WITHIN = 10

# The program that a call without `program` asks: its path, once it was looked for.
default = []

# Of each program that was asked, whether it has the larger set of instructions.
known = {}


# ---- the program

def find(program=None):
    """The path of the program: of this file or command, or else of the one that stands beside the folder of tools, as in a checkout and
    where it was installed, or of `tso` on the path. Of a script that tells the program that it runs, as ./tso does, it is that one."""
    name = program or next(filter(os.path.isfile, map(beside, (os.path.abspath(__file__), os.path.realpath(__file__)))), "tso")
    path = os.path.realpath(name) if os.path.isfile(name) else shutil.which(name)
    if path is None:
        raise NoProgram("there is no program %s" % name)
    return told_by_script(path) if is_script(path) else path


def beside(path):
    """What is called tso beside the folder of tools in which this file of the module is."""
    return os.path.join(os.path.dirname(os.path.dirname(os.path.dirname(path))), "tso")


def is_script(path):
    with open(path, "rb") as file:
        return file.read(2) == b"#!"


def told_by_script(path):
    """The program that a script runs, where it tells that; else the script."""
    try:
        done = processes.answered([path, "--program"], limit=TOLD_WITHIN)
    except OSError as fault:
        raise NoProgram(str(fault)) from None
    except subprocess.TimeoutExpired:
        return path
    said, errors = (os.fsdecode(text) for text in (done.stdout, done.stderr))
    if done.returncode == NO_PROGRAM:
        raise NoProgram(errors.strip())
    told = said.strip()
    if done.returncode != 0 or not os.path.isfile(told):
        return path
    sys.stderr.write(errors)
    return told


def chosen(program):
    """The program to call: this one, or the one that is found, which is looked for once."""
    if program is None and not default:
        default.append(find())
    return program or default[0]


def version(program=None):
    """The program's name and version, or None where it tells none."""
    try:
        done = processes.answered([chosen(program), "--version"], limit=TOLD_WITHIN)
    except (OSError, subprocess.TimeoutExpired):
        return None
    # as its help, it is on standard error
    found = re.match(r"tso \d+\.\d+\.\d+", (done.stdout or done.stderr).decode("latin-1"))
    return found.group() if found else None


def commands(program=None):
    """The names of the program's commands."""
    listed = re.search(r"^Commands:\n((?:  .*\n)*)", help_of([], program), re.M)
    return re.findall(r"^  (\w+)", listed.group(1), re.M) if listed else []


def options(command, program=None):
    """The names of a command's options."""
    return re.findall(r"^ +(?:-\w, )?--([\w-]+)", help_of([command], program), re.M)


def has_larger_set(program=None):
    """Whether the program has the larger set of instructions: older ones read those of the grammar alone."""
    path = chosen(program)
    if path not in known:
        try:
            known[path] = "instructions" in re.findall(r"--([\w-]+)", help_of(["run"], path, TOLD_WITHIN))
        except (NoProgram, subprocess.TimeoutExpired):
            return False
    return known[path]


def help_of(words, program, limit=None):
    """What the program says of itself, or of a command."""
    try:
        done = processes.answered([chosen(program), *words, "--help"], limit=limit)
    except OSError as fault:
        raise NoProgram(str(fault)) from None
    return (done.stdout + done.stderr).decode("latin-1")


def call(words, given, program=None, limit=None):
    """What the program prints of this command line and input, and the status: ANSWERED, UNFINISHED or NOT_VALID. All else is raised."""
    return Question(words, given, program, limit).ask()


class Question:
    """What is asked of the program: the words of its command line, an input, and within how many seconds it is to answer. `read` makes the
    answer of what it prints and its status."""

    def __init__(self, words, given, program=None, limit=None, read=lambda said, status: (said, status)):
        self.words, self.limit, self.read = [chosen(program), *map(str, words)], limit, read
        self.given = given.encode("latin-1", "replace")

    def ask(self):
        """The answer, for which this waits."""
        try:
            done = processes.answered(self.words, self.given, self.limit)
        except (OSError, subprocess.TimeoutExpired) as fault:
            done = fault
        return self.answer(done)

    def answer(self, done):
        """The answer of the program that ended so, as processes.AtOnce tells it."""
        if isinstance(done, subprocess.TimeoutExpired):
            raise TookTooLong(self.limit)
        if isinstance(done, OSError):
            raise NoProgram(str(done))
        return self.read(*said_by(done))


def said_by(done):
    """What a program has printed that ended so, and its status. All but an answer is raised."""
    said, errors = done.stdout.decode("latin-1"), done.stderr.decode("latin-1")
    hint = re.search(r"^hint: (.*)", errors, re.M)
    if done.returncode == REFUSED and said.startswith("Refused "):
        raise Refused(said.strip(), hint and hint.group(1))
    if done.returncode == BAD_WORDS:
        raise BadWords(errors.split("\n\n")[0].strip())
    if done.returncode not in (ANSWERED, UNFINISHED, NOT_VALID):
        raise Failed(done.returncode, said or errors)
    if said.startswith("{") and (done.returncode == UNFINISHED or "--assert" in done.args):
        answered = json.loads(said)
        # with --assert the status is that of a verdict where a state that was met decides it
        if "unfinished" in answered:
            raise Unfinished(answered, hint and hint.group(1))
    return said, done.returncode


# ---- its commands

def text_of(test, more=None):
    """An input: a test, and behind ==== this text, if it is given, in place of what stands there."""
    text = test if isinstance(test, str) else test.text()
    return text if more is None else re.split(r"^====\r?$", text, flags=re.M)[0].rstrip("\n") + "\n====\n" + more


def order_text(order):
    """An order as check and witness read it: a text, or the entries of Run.order."""
    return order if order is None or isinstance(order, str) else "\n".join(["Order", *order, "Endorder %d" % len(order), ""])


def question(command, given, how):
    """What a command is asked of an input. `how` has options, and program, limit and further words. All instructions are read where the
    program has them, and nothing else is asked for."""
    how = dict(how)
    program, limit, further = how.pop("program", None), how.pop("limit", None), how.pop("further", ())
    if not any(str(word).split("=")[0] == "--instructions" for word in further) and has_larger_set(program):
        how.setdefault("instructions", "all")
    words = [command] + ["--json"] * (command in PRINT_JSON)
    words += [word for name, value in how.items() if value is not None for word in ("--" + name.rstrip("_"), value)]
    return Question(words + list(further), given, program, limit, lambda said, status: answer_in(command, said, status))


def answer_in(command, said, status):
    """The answer of a command that printed this and ended so."""
    try:
        return READ[command](json.loads(said) if command in PRINT_JSON else said.splitlines())
    except (AttributeError, IndexError, KeyError, TypeError, ValueError):
        raise Failed(status, said) from None


def run(test, choices=None, **options):
    """The run of a test under choices, a text (`0s 1s 0d`, `seed 1 1000`)."""
    return question("run", text_of(test, choices), options).ask()


def trace(test, choices=None, **options):
    """The same run, and what each choice did."""
    return question("trace", text_of(test, choices), options).ask()


def outcomes(test, **options):
    """All final states that a test can reach: of TSO, or at the depth that is given. They show what the condition names; with `show` also
    each register that is written (registers), and all locations (all)."""
    return question("outcomes", text_of(test), options).ask()


def sweep(test, **options):
    """What the runs of many seeds met: `seeds=1000`; the first is `from_`."""
    return question("sweep", text_of(test), options).ask()


def counts(test, choices=None, **options):
    """What the caches did in the runs of many seeds: `seeds=1000`; the first is `from_`. With choices, a text, in the run under these."""
    if choices is not None:
        options["further"] = [*options.get("further", ()), "--given"]
    return question("counts", text_of(test, choices), options).ask()


def why(test, **options):
    """Allowed, an execution in which what the test asks is so, or Never, a proof that there is none; `model` is tso or sc, `cases` the most
    leaves of a proof."""
    return question("why", text_of(test), options).ask()


def check(test, order=None, **options):
    """Whether an order, a text or a list of entries, is an execution of the test."""
    return question("check", text_of(test, order_text(order)), options).ask()


def witness(test, order=None, **options):
    """Choices that reach an order."""
    return question("witness", text_of(test, order_text(order)), options).ask()


# ---- what its commands print

def sweep_in(lines):
    """What a sweep's lines tell."""
    ended, unfinished = map(int, re.search(r" ended=(\d+) unfinished=(\d+)", lines[2]).groups())
    met = [line.split(" ", 2) for line in lines if line.startswith("State ")]
    states = [Met(int(runs), {place: int(word) for place, word in (value.split("=") for value in " ".join(values).split())})
              for _, runs, *values in met]
    seen = [line.split()[-3:] for line in lines if line.startswith("Observation ")]
    observation = Observation(seen[0][0], int(seen[0][1]), int(seen[0][2])) if seen else None
    return Sweep(lines[0][len("Test "):], states, ended, unfinished, observation)


def check_in(lines):
    """What the line of a check tells."""
    return Check(True) if lines[0] == "Check valid" else Check(False, lines[0][len("Check invalid "):])


def witness_in(lines):
    """What the line of a witness tells."""
    line = lines[0]
    if line.startswith("Depth needed="):
        return Witness(needed=int(line[len("Depth needed="):]))
    if line.startswith("Check invalid "):
        return Witness(breach=line[len("Check invalid "):])
    return Witness(choices=line)


def reason_in(found):
    """Which of the two kinds of reasons this JSON is."""
    return made({"never": Never, "allowed": Allowed}[found["answer"]], found)


# The commands that are asked for JSON; and what makes an answer of each command's JSON, or of its lines.
PRINT_JSON = ("run", "trace", "outcomes", "counts", "why")
READ = {"run": functools.partial(made, Run), "trace": functools.partial(made, Traced), "outcomes": functools.partial(made, Outcomes),
        "counts": functools.partial(made, Counts), "why": reason_in, "sweep": sweep_in, "check": check_in, "witness": witness_in}
