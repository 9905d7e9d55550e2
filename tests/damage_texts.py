#!/usr/bin/env python3
"""Gives a built program texts that were cut, damaged, or are as great as they can be.

    tests/damage_texts.py PROGRAM [--also PROGRAM]

Each beginning of a generated test, of a list of choices and of a report is read, with the answer that it must get. In a
small test, its choices and an order each byte is replaced by each of the 256 in turn: the answer must be of a form that
the program has, with a name of a refusal and a place that the text has. And the greatest inputs, with their answers,
under a small stack and within a bound of processor time. All of it also on the split bus, without store buffers, traced,
counted and searched, and of a test of the larger set of instructions, where a byte is replaced by one of each kind that a text tells
apart. A further program has one in four of the damaged texts, in turn, and all else. The last line is 'N passed, M failed'.
"""
import collections
import functools
import re
import resource
import sys

sys.dont_write_bytecode = True
from checks import instruction_sets, judging, rows
from checks.great_texts import ONE_STORE, great_texts, greatest_test
from checks.judging import DIVIDER, ENDED, INVALID, REFUSED, UNFINISHED
from reference import hints, printing, reasons

# So many texts a process takes at once.
AT_ONCE = 64

COUNTS = "counts --given"
RUNS = ["run", "run --bus split", "run --depth 0", "trace --bus split", COUNTS]
SEARCHES = ["outcomes", "outcomes --show all", "why"]
JUDGES = ["check", "witness"]

SMALL_TEST = b"X86 t\n{x=1;}\nP0;\nMOV [x],2;\nexists x=2\n"
SMALL_CHOICES = b"0s 0d\n"
SMALL_ORDER = b"Order\nP0:0 W x=2\nEndorder 1\n"

# A test of the larger set, and under what it is damaged.
SMALL_LARGER_TEST = b"X86 t\n{x=-1;}\nP0;\nLOCK XOR [x],0x2;\nNEG EAX;\nexists x=-3\n"
LARGER = ["run --instructions all", "outcomes --instructions all", "why --instructions all"]

# What a byte is replaced by: any of the 256; and one of each kind that some part of a text tells apart.
ALL_BYTES = range(256)
KINDS_OF_BYTES = b"\0\t\n\r \"#$%&'()*+,-./019:;<=>?@AEMPXZ[\\]^_adsxz{|}~\x7f\x80\xff"

# The stack that the greatest inputs have, in units of 1024 bytes, and the processor time, in seconds.
STACK = 256
SECONDS = 2

TRACE = re.compile(rb"(Test .+\nMachine .+\n)Trace\n((?:\d.*\n)*)Endtrace (\d+)\n")
REPORT = re.compile(rb"Test .+\nMachine .+\nOrder\n((?:P\d+:\d+ .+\n)*)Endorder (\d+)\n(?:Registers P\d .+\n)+Memory.*\n"
                    rb"Condition .+\nChoices used=\d+ stalled=\d+ unused=\d+\n(?:Cache P\d .+\n)*")
OUTCOMES = re.compile(rb"Test .+\nOutcomes depth=32 states=(\d+)\n((?:State.*\nBy.*\n)*)"
                      rb"(?:Observation .+ (\d+) \d+\nTrue((?: [1-9]\d*)*)\nVerdict (?:Ok|No)\n)?")
ENTRY = re.compile(rb"P\d+:\d+ (?:F|(?:R|W|LR|LW) \w+=\d+)")


def parts_of(given):
    """The two parts of an input, which the first line that is '====' parts."""
    parts = re.split(rb"(?:\A|(?<=\n))====\r?(?:\n|\Z)", given, maxsplit=1)
    return parts if len(parts) == 2 else [given, b""]


def is_test_refusal(output, test):
    """Whether this is the refusal of a test, by a name that there is and on a line that the test has, or its end."""
    found = re.fullmatch(rb"Refused test line ([1-9]\d*) (\w+)\n", output)
    return found and found[2].decode() in judging.NAMES_OF_TEST_FAULTS and int(found[1]) <= test.count(b"\n") + 1


def is_choice_refusal(output, choices):
    """Whether this is the refusal of choices, by a name that there is and at a word that they have."""
    found = re.fullmatch(rb"Refused choices word ([1-9]\d*) (\w+)\n", output)
    words = [word for word in re.split(rb"[ \t\r\n]+", choices) if word]
    return found and found[2].decode() in judging.NAMES_OF_CHOICE_FAULTS and int(found[1]) <= len(words)


def is_order_refusal(output, order):
    """Whether this is the refusal of an order, at a line that it has where it names one."""
    found = re.fullmatch(rb"Refused order (?:NoOrder|BadCount|line ([1-9]\d*) BadLine)\n", output)
    return found and int(found[1] or 1) <= order.count(b"\n") + 1


def is_report(output):
    found = REPORT.fullmatch(output)
    entries = found[1].splitlines() if found else []
    return found and int(found[2]) == len(entries) and all(ENTRY.fullmatch(entry) for entry in entries)


def report_in(command, output):
    """The report, or the line Unfinished, without the trace that may stand in it; None where `trace` has none, or it counts wrongly."""
    if command == "run":
        return output
    found = TRACE.match(output)
    if found is None or int(found[3]) != found[2].count(b"\n"):
        return None
    rest = output[found.end():]
    return rest if rest.startswith(b"Unfinished ") else found[1] + rest


def is_outcomes(output):
    found = OUTCOMES.fullmatch(output)
    if not found or found[2].count(b"\nBy") != int(found[1]):
        return False
    numbers = list(map(int, (found[4] or b"").split()))
    is_ascending = numbers == sorted(set(numbers)) and all(number <= int(found[1]) for number in numbers)
    return is_ascending and len(numbers) == int(found[3] or 0)


@functools.lru_cache(1024)
def test_of(text):
    return instruction_sets.read_test(text)


def is_told(command, given, done, show):
    """Whether standard error is as it must be; beside an answer that tells of final states, as the reference has it. `show` says what
    these show."""
    if done.returncode == ENDED and command in ("run", "trace", "outcomes", "why"):
        test = test_of(parts_of(given)[0])
        return done.stderr == hints.beside(command, False, None, test, done.stdout.decode(), show)
    return judging.is_told(done.returncode, done.stdout, done.stderr)


def has_form(command, given, done, show):
    """Whether the command has answers like this one, to this input, of states that show this."""
    output, status = done.stdout, done.returncode
    if not is_told(command, given, done, show):
        return False
    if status == REFUSED:
        test, rest = parts_of(given)
        if command in SEARCHES:
            return is_test_refusal(output, test)
        is_refusal_of_rest = is_choice_refusal if command in ("run", "trace", "counts") else is_order_refusal
        return is_test_refusal(output, test) or is_refusal_of_rest(output, rest)
    if command == "counts":
        counted = rb"Runs ended=1 unfinished=0\n(?:Counts P\d(?: \w+=\d+/\d+/\d+){12}\n)+" if status == ENDED else rb"Runs ended=0 unfinished=1\n"
        return status in (ENDED, UNFINISHED) and re.fullmatch(rb"Test .+\nMachine .+\n" + counted, output)
    if command in ("run", "trace"):
        output = report_in(command, output)
        return output is not None and (
            status == ENDED and is_report(output)
            or status == UNFINISHED and re.fullmatch(rb"Unfinished used=\d+ stalled=\d+\n", output))
    if command == "outcomes":
        return status == ENDED and is_outcomes(output)
    if command == "why":
        return status == ENDED and not reasons.faults_of(test_of(parts_of(given)[0]), "tso", output.decode())
    if status == INVALID:
        return re.fullmatch(rb"Check invalid C[1-5] .+\n|Depth needed=[1-9]\d*\n", output) and (
            command == "witness" or output.startswith(b"Check"))
    whole = rb"Check valid\n" if command == "check" else rb"(?:\d[sd](?: \d[sd])*)?\n"
    return status == ENDED and re.fullmatch(whole, output)


def faults_of_form(line, given, done):
    command, *words = line.split()
    if has_form(command, given, done, words[-1] if "--show" in words else printing.CONDITION):
        return []
    return ["no such answer is there: " + judging.described(done)]


def faults_of_cut(line, given, done, refusal):
    """The faults of the answer to a text that was cut: it must be this refusal; where that is None, the form of any other answer."""
    if refusal is not None:
        return judging.difference(done, REFUSED, b"Refused " + refusal + b"\n")
    if done.returncode == REFUSED:
        return ["refused: " + judging.shown(done.stdout)]
    return faults_of_form(line, given, done)


def judge_texts(programs, tally, line, texts, faults_of, what, every=1):
    """Judges the answers to these texts, each a name, an input, and what else `faults_of` takes: the first program's, and a further one's
    to one in so many. Answers how many texts they were."""
    def judged(numbered):
        number, (name, given, *due) = numbered
        statuses = []

        def judge(program):
            done = program.run(line.split(), given)
            statuses.append(done.returncode)
            return faults_of(line, given, done, *due)
        return name, judging.faults_on_each(judging.in_turn(programs, number, every), judge), statuses[:1]
    found = judging.in_processes(judged, enumerate(texts), AT_ONCE)
    tally.add(line, [(name, faults) for name, each, _ in found for faults in each])
    statuses = collections.Counter(status for _, _, first in found for status in first)
    counts = ", ".join("%d with status %s" % (count, status) for status, count in sorted(statuses.items(), key=str))
    print("%s: %d %s, answered: %s" % (line, len(found), what, counts), flush=True)
    return len(found)


def test_beginnings():
    """The beginnings of the tests among the rows of refusals, and the refusal of each, which stands there."""
    for row in rows.read("refusals").values():
        for text, refusal in row.beginnings():
            yield text, refusal and refusal[len("Refused "):].rstrip(b"\n")


def choice_beginnings():
    """The beginnings of a list of choices after their test: a word without its letter is no choice."""
    for length in range(len(judging.BOTH_LOADS_PASS) + 1):
        cut = judging.BOTH_LOADS_PASS[:length]
        words = cut.split()
        bad = [at for at, word in enumerate(words, 1) if not re.fullmatch(rb"\d+[sd]", word)]
        refusal = b"choices word %d BadWord" % bad[0] if bad else None
        yield judging.STORE_BUFFERING + DIVIDER + cut, refusal


def order_refusal(text):
    """The refusal of an order text over the locations x and y, by the rule of its lines; None where it is read."""
    lines = text.split(b"\n")
    lines = lines[:-1] if lines[-1] == b"" else lines
    if b"Order" not in lines:
        return b"order NoOrder"
    number = r"(?:0|[1-9]\d*)".encode()
    entry = rb"P%b:%b (?:F|(?:R|W|LR|LW) [xy]=%b)" % (number, number, number)
    first = lines.index(b"Order") + 1
    for at, line in enumerate(lines[first:], first + 1):
        found = re.fullmatch(rb"Endorder (%b)" % number, line)
        if found:
            return None if int(found[1]) == at - first - 1 else b"order BadCount"
        if not re.fullmatch(entry, line):
            return b"order line %d BadLine" % at
    return b"order BadCount"


def order_beginnings(report):
    for length in range(len(report) + 1):
        cut = report[:length]
        yield judging.OWN_STORE_FIRST + DIVIDER + cut, order_refusal(cut)


def judge_cuts(programs, tally):
    """Cuts the texts. Answers how many were cut."""
    given = judging.OWN_STORE_FIRST + DIVIDER + judging.LOADS_BEFORE_OWN_STORE
    reports = [program.run(["run"], given).stdout for program in programs]
    for report in reports:
        faults = [] if judging.OWN_STORE_FIRST_ORDER in report and report == reports[0] else [judging.shown(report)]
        tally.add("run", [("the report that is cut", faults)])
    beginnings = dict.fromkeys(RUNS, [*test_beginnings(), *choice_beginnings()])
    beginnings.update(dict.fromkeys(SEARCHES, [*test_beginnings()]))
    beginnings.update(dict.fromkeys(JUDGES, [*order_beginnings(reports[0])]))
    return sum(judge_texts(programs, tally, line, [("cut to %d bytes" % len(given), given, refusal) for given, refusal in cut],
                           faults_of_cut, "texts cut") for line, cut in beginnings.items())


def damaged(text, first, others):
    """The text with each byte from this place on replaced by each of these others, as pairs of a name and the text."""
    for at in range(first, len(text)):
        for byte in others:
            yield "byte %d in place %d" % (byte, at), text[:at] + bytes([byte]) + text[at + 1:]


def judge_damage(programs, tally):
    """Damages bytes. Answers how many."""
    whole = SMALL_TEST + DIVIDER + SMALL_CHOICES
    ordered = SMALL_TEST + DIVIDER + SMALL_ORDER
    jobs = [(line, whole, 0, ALL_BYTES if line == "run" else KINDS_OF_BYTES) for line in RUNS + SEARCHES]
    jobs.append(("check", ordered, len(SMALL_TEST + DIVIDER), ALL_BYTES))
    jobs += [(line, SMALL_LARGER_TEST + DIVIDER + b"0s 0s\n", 0, KINDS_OF_BYTES) for line in LARGER]
    return sum(judge_texts(programs, tally, line, damaged(text, first, others), faults_of_form, "bytes damaged", judging.EVERY)
               for line, text, first, others in jobs)


class Limits:
    """Runs the greatest inputs under a small stack, and keeps the processor time of the slowest."""

    def __init__(self, program):
        self.program = program
        self.slowest = (0.0, "")

    def answer(self, name, line, given):
        """The answer, and its faults: one that took too long or was ended by a signal."""
        words = ["sh", "-c", 'ulimit -s %d && exec "$0" "$@"' % STACK, self.program.path] + line.split()
        before = resource.getrusage(resource.RUSAGE_CHILDREN)
        done = judging.started(words, given)
        after = resource.getrusage(resource.RUSAGE_CHILDREN)
        seconds = after.ru_utime + after.ru_stime - before.ru_utime - before.ru_stime
        self.slowest = max(self.slowest, (seconds, "%s: %s" % (line, name)))
        return done, ["%.1f seconds of processor time" % seconds] if seconds > SECONDS else []

    def faults(self, name, line, given, wanted):
        """The faults of the answer to a status and an output, to a status alone, or to nothing but that it is no refusal."""
        done, faults = self.answer(name, line, given)
        if wanted is not None and wanted[1] is not None:
            return faults + judging.difference(done, wanted[0], wanted[1])
        if wanted is not None and done.returncode != wanted[0]:
            faults.append("status %s, and not %d" % (done.returncode, wanted[0]))
        if done.returncode == REFUSED:
            faults.append("refused: " + judging.shown(done.stdout))
        return faults + faults_of_form(line, given, done)


def faults_at_all_limits(limits, name, line, test):
    """A run at all limits at once, the judgement of its order, and the choices that lead to it again."""
    done, faults = limits.answer(name, line + " --sets 8 --ways 8 --words 4", test + DIVIDER + b"seed 1 100000\n")
    if done.returncode != ENDED or not is_report(report_in(line.split()[0], done.stdout) or b""):
        return faults + faults_of_form(line, test, done) + ["the run has no report"]
    order = done.stdout[done.stdout.index(b"Order\n"):done.stdout.index(b"Registers")]
    entries = order.splitlines(keepends=True)
    found, more = limits.answer(name, "check", test + DIVIDER + order)
    faults += more + judging.difference(found, ENDED, b"Check valid\n")
    turned = b"".join(entries[:1] + entries[-2:0:-1] + entries[-1:])
    found, more = limits.answer(name, "check", test + DIVIDER + turned)
    faults += more + ([] if found.returncode == INVALID else ["the order turned round isn't judged invalid"])
    found, more = limits.answer(name, "witness --depth 32", test + DIVIDER + order)
    again, last = limits.answer(name, "run --depth 32", test + DIVIDER + found.stdout)
    faults += more + last
    if order not in again.stdout or b" stalled=0 unused=0\n" not in again.stdout:
        faults.append("the choices found don't lead to the order")
    return faults


def judge_limits(program, tally):
    """Gives the greatest inputs. Answers how many they were, and the slowest."""
    limits, texts = Limits(program), 0
    tests, choices, orders = great_texts()
    for line in RUNS:
        results = [(name, limits.faults(name, line, text, wanted)) for name, text, wanted in tests]
        for name, text, wanted in choices:
            # What is run of a list hangs on the buffer and the bus; what refuses it doesn't.
            wanted = wanted if line == "run" or wanted and wanted[0] == REFUSED else None
            results.append((name, limits.faults(name, line, ONE_STORE + DIVIDER + text, wanted)))
        texts += tally.add(line, results)
    for line in JUDGES:
        results = [(name, limits.faults(name, line, ONE_STORE + DIVIDER + text, wanted)) for name, text, wanted in orders]
        texts += tally.add(line, results)
    greatest = [("all limits at once", greatest_test(lambda row, core: row + core)),
                ("all limits at once, with locked instructions alone", greatest_test(lambda row, core: 3 + row % 2)),
                ("all limits at once, with stores alone", greatest_test(lambda row, core: row % 2))]
    for line in RUNS[:RUNS.index(COUNTS)]:
        line = line if "--depth" in line else line + " --depth 32"
        texts += tally.add(line, [(name, faults_at_all_limits(limits, name, line, test)) for name, test in greatest])
    print("the slowest of the greatest texts took %.2f seconds: %s" % limits.slowest)
    return texts


def main():
    programs = judging.programs_in(judging.with_programs(__doc__, with_part=False).parse_args())
    tally = judging.Tally()
    print("texts cut: %d" % judge_cuts(programs, tally), flush=True)
    for program in programs:
        print("greatest texts: %d" % judge_limits(program, tally), flush=True)
    print("bytes damaged: %d" % judge_damage(programs, tally), flush=True)
    return tally.end()


if __name__ == "__main__":
    sys.exit(main())
