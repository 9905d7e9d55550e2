"""What the scripts share: their command lines, the tests that the repository has, running a program, and judging and counting its answers."""
import argparse
import concurrent.futures
import difflib
import glob
import multiprocessing
import os
import re
import subprocess
import sys

from . import program_starts
from .program_starts import PATIENCE, TESTS

TOP = os.path.dirname(TESTS)
EXAMPLES = os.path.join(TOP, "examples")
GALLERY = os.path.join(EXAMPLES, "gallery")

PROTOCOLS = ("msi", "mesi", "moesi", "mosi")
BUSES = ("atomic", "split")

ENDED, REFUSED, BAD_LINE, UNFINISHED, INVALID, FAULT = 0, 1, 2, 3, 4, 5

# Where a text is refused or a run doesn't end, standard error has a hint, one line.
HINT = re.compile(rb"hint: [ -~]{1,249}\n")
WITH_HINT = (REFUSED, UNFINISHED)

# Where a search for final states ended at its limit, a second line may have choices that lead to one that was looked for.
SEARCH_HINT = re.compile(rb"hint: [ -~]{1,249}\n(?:hint: run these: [0-9sd ]{2,2030}\n)?")
UNFINISHED_SEARCH = re.compile(rb"^Unfinished states=|\"unfinished\":\{\"states\":")

# Answers with status 0 that have one too: that of a sweep that never saw what the condition asks for.
MISLEADING = (re.compile(rb"^Sweep .*\n(?:State .*\n)*Observation .* Never 0 [1-9][0-9]*\n\Z", re.MULTILINE),)

MEMORY_FAULT = b"fault memory\n"

# Of a search a second line has how many states it had kept.
MEMORY_HINT = re.compile(rb"hint: states that were kept when memory was refused: [1-9][0-9]*; lower --depth, name fewer atoms in the "
                         rb"condition, or use why, which keeps none\n")

# A device that failed: which one it is, and what is likely, stands on a second line.
INPUT_FAULT = (b"fault device\nhint: standard input can't be read: is it closed, a folder, open for writing alone, or a stream that "
               b"doesn't block?\n")
OUTPUT_FAULT = (b"fault device\nhint: standard output can't be written: is it closed, is the disk full, has the reader of the pipe "
                b"left, or is it a stream that doesn't block?\n")

LONGEST_INPUT, LONGEST_TEST = 1_048_576, 65_536

# Of inputs that are made by the hundreds a further program has one of so many.
EVERY = 4

DIVIDER = b"====\n"

STORE_BUFFERING = (b"X86 SB\n{ }\n P0          | P1          ;\n MOV [x],$1  | MOV [y],$1  ;\n"
                   b" MOV EAX,[y] | MOV EAX,[x] ;\nexists (0:EAX=0 /\\ 1:EAX=0)\n")
BOTH_LOADS_PASS = b"0s 1s 0s 1s 0d 1d\n"

OWN_STORE_FIRST = (b"X86 n6\n{ }\n P0          | P1         ;\n MOV [x],$1  | MOV [y],$2 ;\n"
                   b" MOV EAX,[x] | MOV [x],$2 ;\n MOV EBX,[y] |            ;\n"
                   b"exists (0:EAX=1 /\\ 0:EBX=0 /\\ x=1)\n")
LOADS_BEFORE_OWN_STORE = b"0s 0s 0s 1s 1s 1d 1d 0d\n"
OWN_STORE_FIRST_ORDER = (b"Order\nP0:1 R x=1\nP0:2 R y=0\nP1:0 W y=2\nP1:1 W x=2\nP0:0 W x=1\nEndorder 5\n")

# Three cores exchange numbers of their own, and one reads what another one wrote: always so, by one case for each order of the three.
THREE_TURNS = (b"X86 turns\n{ 0:EAX=1; 1:EAX=2; 2:EAX=3; }\n P0           | P1           | P2           ;\n"
               b" XCHG [x],EAX | XCHG [x],EAX | XCHG [x],EAX ;\nforall (0:EAX=0 /\\ (1:EAX=1 \\/ 2:EAX=1) \\/ "
               b"1:EAX=0 /\\ (0:EAX=2 \\/ 2:EAX=2) \\/ 2:EAX=0 /\\ (0:EAX=3 \\/ 1:EAX=3))\n")

NAMES_OF_TEST_FAULTS = ("NoHeader", "Unclosed", "BadToken", "BadInit", "BadHeaderRow", "WrongCells", "BadInstruction",
                        "BadNumber", "TwiceInit", "NoSuchCore", "TooLarge", "BadCondition", "Trailing")
NAMES_OF_CHOICE_FAULTS = ("BadWord", "NoSuchCore", "TooMany")


# ---- command lines

def parser(document):
    """A parser of a script's command line; its --help is the document, which says what the script holds."""
    return argparse.ArgumentParser(description=document, formatter_class=argparse.RawDescriptionHelpFormatter)


def with_program(document, with_part=True):
    """A parser of a command line PROGRAM [PART-OF-NAME]; the program becomes a path from the root."""
    words = parser(document)
    words.add_argument("program", metavar="PROGRAM", type=os.path.abspath)
    if with_part:
        words.add_argument("part", metavar="PART-OF-NAME", nargs="?", default="")
    return words


def add_also(words):
    """Adds [--also PROGRAM]: further programs, which the same sources make, each judged like the first one."""
    words.add_argument("--also", metavar="PROGRAM", type=os.path.abspath, action="append", default=[], help="a further program to judge")
    return words


def with_programs(document, with_part=True):
    """The same with [--also PROGRAM]."""
    return add_also(with_program(document, with_part))


def asked(document, with_part=True):
    """The words PROGRAM [PART-OF-NAME] of a script's command line."""
    return with_program(document, with_part).parse_args()


def check_or_write(words, check, write):
    """A script that holds something against a program, or writes it anew where --write is among its words. Answers its status."""
    words.add_argument("--write", action="store_true", help="write anew what is held against the program")
    words = words.parse_args()
    return (write if words.write else check)(words)


def tell(document):
    """For a script that reads its own words: where they ask for help, says what it holds, and ends it."""
    if {"-h", "--help"} & set(sys.argv[1:]):
        print(document.strip())
        sys.exit(0)


# ---- the tests and texts that the repository has

def content(*path):
    """The text of a file, its path given in parts."""
    with open(os.path.join(*path), encoding="utf-8") as file:
        return file.read()


def tests_in(folder):
    """The name of each litmus file in this folder, its test, and what stands after the dividing line."""
    for name in sorted(name for name in os.listdir(folder) if name.endswith(".litmus")):
        with open(os.path.join(folder, name), "rb") as file:
            test, _, rest = file.read().partition(DIVIDER)
        yield name, test, rest


def all_inputs():
    """The path of each litmus file of examples/ from the top, and the whole input."""
    for path in sorted(glob.glob(os.path.join(EXAMPLES, "**", "*.litmus"), recursive=True)):
        with open(path, "rb") as file:
            yield os.path.relpath(path, TOP), file.read()


# ---- judging

class Tally:
    """Counts what was judged, and says what wasn't as it must be, of each group the first few alone."""

    def __init__(self, shown=5):
        self.passed = self.failed = 0
        self.shown = shown

    def add(self, group, judged):
        """Takes pairs of a name and its faults, none where it is as it must be. Answers how many pairs there were."""
        before = self.passed + self.failed
        failed = 0
        for name, faults in judged:
            if not faults:
                self.passed += 1
                continue
            failed += 1
            if failed <= self.shown:
                print("%s: %s" % (group, name))
                print("\n".join("    " + fault for fault in faults), flush=True)
        if failed > self.shown:
            print("%s: %d more" % (group, failed - self.shown), flush=True)
        self.failed += failed
        return self.passed + self.failed - before

    def end(self):
        """Prints the last line, and answers the script's own status."""
        print("%d passed, %d failed" % (self.passed, self.failed))
        return 1 if self.failed or not self.passed else 0


def faults_told(judge):
    """The faults that this function answers; where it fails itself, that."""
    try:
        return judge()
    except Exception as fault:
        return ["%s: %s" % (type(fault).__name__, fault)]


def in_threads(function, items, workers=None):
    """The function's answers for these items, in their order."""
    # built before several threads ask for it at once
    program_starts.library("many_starts")
    with concurrent.futures.ThreadPoolExecutor(workers or os.cpu_count()) as pool:
        return list(pool.map(function, items))


# What the processes of `in_processes` do: a function, and its items.
_work = []


def _stay(processors):
    """Keeps this process, and all that it starts, on the next of these processors: a program that is woken on another one costs more."""
    os.sched_setaffinity(0, {processors.get()})


def _at(number):
    function, items = _work[-1]
    return function(items[number])


def in_processes(function, items, at_once=16):
    """The same by forks of this process, one for each processor, each of which takes so many items at once."""
    items = list(items)
    program_starts.library("many_starts")
    _work.append((function, items))
    context = multiprocessing.get_context("fork")
    processors = context.SimpleQueue()
    for processor in sorted(os.sched_getaffinity(0)):
        processors.put(processor)
    with concurrent.futures.ProcessPoolExecutor(len(os.sched_getaffinity(0)), context, _stay, (processors,)) as pool:
        found = list(pool.map(_at, range(len(items)), chunksize=at_once))
    _work.pop()
    return found


def judged(rows, programs, part="", at_once=16, rows_every=1, answers_every=1):
    """Judges rows, pairs of a name and a function of a program's faults: those whose name has this part, on each of these programs. Where
    rows or their inputs are made by the hundreds, a further program has one in so many of the rows, or of what the first one was asked."""
    rows = [row for row in rows if part in row[0]]

    def faults_of(at):
        return faults_on_each(in_turn(programs, at, rows_every), rows[at][1], answers_every)
    found = in_processes(faults_of, range(len(rows)), at_once)
    return [(name, faults) for (name, _), each in zip(rows, found) for faults in each]


def judged_in_turn(rows, programs, part="", at_once=16):
    """The same where a further program has one in four of the rows."""
    return judged(rows, programs, part, at_once, rows_every=EVERY)


def in_turn(programs, number, every=EVERY):
    """The programs that have the made input with this number: the first one, and in turn the further ones, which the same sources make.
    Of each `every` that follow each other they have one, and each time the next: so each kind comes up of what comes up in turn."""
    return programs if (number + number // every) % every == 0 else programs[:1]


def judge_rows(document, group, rows, kind=None, **how):
    """A script whose command line is PROGRAM [PART-OF-NAME] [--also PROGRAM] and which judges rows, as `judged` is told how; `rows` answers
    them, and may ask the first program which there are. The programs are of this kind, Program where none is named."""
    words = with_programs(document).parse_args()
    tally = Tally(shown=100)
    programs = programs_in(words, kind or Program)
    tally.add(group, judged(rows(programs[0]), programs, words.part, **how))
    return tally.end()


# ---- running a program

def started(words, given, **how):
    """The answer of these words, with pipes where nothing else is said; where none comes in time, its status says so."""
    how = dict({"stdout": subprocess.PIPE, "stderr": subprocess.PIPE}, **how)
    try:
        return subprocess.run(words, input=given, timeout=PATIENCE, **how)
    except subprocess.TimeoutExpired:
        return subprocess.CompletedProcess(words, "none within %d seconds" % PATIENCE, b"", b"")


def run(path, words, given):
    """The answer of the program with this path to this input."""
    return Program(path).run(words, given)


class Program:
    """A built program."""

    def __init__(self, path):
        self.path = path

    def run(self, words, given):
        """Its answer to this input. On its command line it has its own name, whatever its file is called."""
        if program_starts.library("many_starts") is None:
            return started([program_starts.NAME] + words, given, executable=self.path)
        return program_starts.answer(self.path, words, given)[0]


class Started(Program):
    """The same, by a start of its own each time."""

    def run(self, words, given):
        return started([program_starts.NAME] + words, given, executable=self.path)


class Noted:
    """The same, with its answers noted. They aren't all that a row goes by where its path was asked for too."""

    def __init__(self, program):
        self.program, self.answers, self.are_all = program, [], True

    def run(self, words, given):
        done = self.program.run(words, given)
        self.answers.append((words, given, done))
        return done

    @property
    def path(self):
        self.are_all = False
        return self.program.path

    def is_repeated_by(self, other, every=1):
        """Whether another program gives the same answers, byte for byte; it is asked for the first one, and one in so many."""
        return self.are_all and bool(self.answers) and all(
            is_same_answer(other.run(words, given), done) for words, given, done in self.answers[::every])


def with_turns(programs):
    """Each program with the number of inputs for one of which it is asked: of those that are made by the hundreds the first has each."""
    return [(program, EVERY if number else 1) for number, program in enumerate(programs)]


def is_same_answer(one, other):
    return (one.returncode, one.stdout, one.stderr) == (other.returncode, other.stdout, other.stderr)


def programs_in(words, kind=Program):
    """The programs of a command line."""
    return [kind(path) for path in [words.program, *words.also]]


def faults_on_each(programs, judge, every=1):
    """A row's faults on each of these programs. Where the first one has none, another that gives its answers to the same inputs, or to one
    in so many, has none either: a row goes by the answers alone. Where it gives others, it is judged by them."""
    first = Noted(programs[0])
    found = [faults_told(lambda: judge(first))]
    for other in programs[1:]:
        is_judged = not found[0] and first.is_repeated_by(other, every)
        found.append([] if is_judged else ["%s: %s" % (other.path, fault) for fault in faults_told(lambda: judge(other))])
    return found


def shown(text):
    return repr(text[:160])[1:] + (".." if len(text) > 160 else "")


def described(done):
    return "status %s, standard output %s, standard error %s" % (done.returncode, shown(done.stdout), shown(done.stderr))


def is_told(status, output, errors):
    """Whether standard error is as it is beside such an answer: a hint where it has one, else nothing. The conditions of the
    tests that are given name no location that nothing else of them names, and nothing that no instruction writes."""
    is_open = UNFINISHED_SEARCH.search(output) is not None
    has_hint = status in WITH_HINT or status == ENDED and any(form.search(output) for form in MISLEADING) or is_open and output[:1] != b"{"
    form = SEARCH_HINT if is_open else HINT
    return form.fullmatch(errors) is not None if has_hint else errors == b""


def lines_that_differ(wanted, got):
    """How a text differs from the wanted one, line by line."""
    wanted, got = (text.decode("utf-8", "replace").split("\n") for text in (wanted, got))
    lines = difflib.unified_diff(wanted, got, "wanted", "got", lineterm="", n=1)
    return [repr(line)[1:-1][:200] for line in lines][:20]


def difference(done, status, output, errors=None):
    """How an answer differs from what it must be; without `errors`, standard error must be as such an answer has it."""
    faults = []
    if done.returncode != status:
        faults.append("status %s, and not %d" % (done.returncode, status))
    if done.stdout != output:
        faults.append("standard output %s, and not %s" % (shown(done.stdout), shown(output)))
    if errors is None and not is_told(status, output, done.stderr):
        faults.append("standard error %s" % shown(done.stderr))
    if errors is not None and done.stderr != errors:
        faults.append("standard error %s, and not %s" % (shown(done.stderr), shown(errors)))
    return faults
