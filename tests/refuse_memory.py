#!/usr/bin/env python3
"""Refuses a built program its requests for memory, one after the other.

    tests/refuse_memory.py PROGRAM [--also PROGRAM]

For each command line and input below, the Nth request is refused, for N = 1, 2, .. until a run has none refused: first
that request alone, then all from it on. A further program (--also) has every fourth N. Where the parser of the command line is
refused, the status is 2. Before it, while the words are kept, and from the first request after it on, it is 5 with the line
'fault memory', after which `outcomes` may say how many states it had kept. Either way nothing is written to standard output.

Two other answers are right. One, only where one request alone was refused: the whole answer, where the very next request
asked for no more than the refused one and was granted. A list that is collected from an iterator first asks for all the
room that it may come to need. Where that is refused it asks for the room of one item; where that is refused too, memory is
wanting. The other is the whole answer without its hint, on standard error: a hint is left out where there is no memory for
it, or for keeping the input of which it is made.

The requests are refused by a small library, tests/checks/failing_calls.c, which is built with the C compiler and preloaded; without
a C compiler nothing is judged, and that counts as a failure. The last line is 'N passed, M failed'.
"""
import itertools
import sys

sys.dont_write_bytecode = True
from checks import failing_calls, judging
from checks.judging import BAD_LINE, DIVIDER, ENDED, FAULT, INVALID, MEMORY_FAULT, REFUSED, UNFINISHED

EVERY_FORM = (b"(* a comment *) X86 every-form\n\"a quotation\" Key=value\n{ x=1; [y]=2; 0:EAX=3; }\n"
              b" P0          | P1               ;\n"
              b" MOV [x],$1  | XCHG [y],EAX     ;\n MOV EBX,[y] | LOCK XADD [z],EBX ;\n MFENCE      | MOV ECX,EAX      ;\n"
              b" MOV EDX,7   | MOV [x],ECX      ;\n MOV [z],EDX |                  ;\nlocations [x; 0:EAX;]\n"
              b"~exists ((not 0:EBX=1 \\/ true) /\\ (x=1 /\\ ~false))\n")
SEEDED = b"0s 1d seed 5 4000\n"

LARGER_SET = (b"X86 larger\n{ x=-1; 0:EBX=0x2; }\n P0                   | P1          ;\n LOCK CMPXCHG [x],EBX | LOCK OR [y],-2 ;\n"
              b" SUB EBX,$0x10        | MOV EAX,[x] ;\n XCHG EAX,EBX         | LOCK INC [x] ;\n MOV [y],EAX          | PAUSE       ;\n"
              b"exists (y=0x10 /\\ 1:EAX=-1)\n")

LATE_LOAD = b"X86 t\n{ }\n P0 ;\n MOV [x],$1 ;\n MOV [y],$1 ;\n MOV EAX,[z] ;\n"
LATE_LOAD_ORDER = b"Order\nP0:2 R z=0\nP0:0 W x=1\nP0:1 W y=1\nEndorder 3\n"

# A command line, an input, and the status of its answer where memory is there.
JOBS = [
    ("run", judging.STORE_BUFFERING + DIVIDER + judging.BOTH_LOADS_PASS, ENDED),
    ("run", judging.STORE_BUFFERING + DIVIDER + b"0s 0s 0d", UNFINISHED),
    ("run", judging.STORE_BUFFERING + DIVIDER + b"0s 2s", REFUSED),
    ("run", judging.STORE_BUFFERING + b")", REFUSED),
    ("run", EVERY_FORM + DIVIDER + SEEDED, ENDED),
    ("run --protocol moesi --depth 1 --sets 2 --ways 1 --words 2", EVERY_FORM + DIVIDER + SEEDED, ENDED),
    ("run --depth 0", EVERY_FORM + DIVIDER + SEEDED, ENDED),
    ("run --bus split", EVERY_FORM + DIVIDER + SEEDED, ENDED),
    ("run --bus split --depth 0", EVERY_FORM + DIVIDER + SEEDED, ENDED),
    ("run --json", EVERY_FORM + DIVIDER + SEEDED, ENDED),
    ("run --json", judging.STORE_BUFFERING + DIVIDER + b"0s 0s 0d", UNFINISHED),
    ("run --json --bus split", judging.OWN_STORE_FIRST + DIVIDER + SEEDED, ENDED),
    ("trace", judging.STORE_BUFFERING + DIVIDER + judging.BOTH_LOADS_PASS, ENDED),
    ("trace", judging.STORE_BUFFERING + DIVIDER + b"0s 0s 0d", UNFINISHED),
    ("trace", judging.STORE_BUFFERING + DIVIDER + b"0s 2s", REFUSED),
    ("trace --protocol moesi --depth 1 --sets 2 --ways 1 --words 2", EVERY_FORM + DIVIDER + SEEDED, ENDED),
    ("trace --bus split", EVERY_FORM + DIVIDER + SEEDED, ENDED),
    ("check", judging.OWN_STORE_FIRST + DIVIDER + judging.OWN_STORE_FIRST_ORDER, ENDED),
    ("check", judging.OWN_STORE_FIRST + DIVIDER + b"Order\nEndorder 0\n", INVALID),
    ("check", LATE_LOAD + DIVIDER + b"Order\nP0:1 W y=1\nP0:0 W x=1\nP0:2 R z=0\nEndorder 3\n", INVALID),
    ("check", judging.OWN_STORE_FIRST + DIVIDER + b"Order\n", REFUSED),
    ("witness", judging.OWN_STORE_FIRST + DIVIDER + judging.OWN_STORE_FIRST_ORDER, ENDED),
    ("witness --depth 1", LATE_LOAD + DIVIDER + LATE_LOAD_ORDER, INVALID),
    ("outcomes", judging.OWN_STORE_FIRST, ENDED),
    ("outcomes --json", judging.OWN_STORE_FIRST, ENDED),
    ("outcomes --depth 0", EVERY_FORM, ENDED),
    ("outcomes --show registers", EVERY_FORM, ENDED),
    ("outcomes --show all --json", judging.OWN_STORE_FIRST, ENDED),
    ("outcomes --assert --depth 0", judging.STORE_BUFFERING, INVALID),
    ("outcomes --states 3", judging.STORE_BUFFERING, UNFINISHED),
    ("outcomes", judging.STORE_BUFFERING + b")", REFUSED),
    ("why", judging.OWN_STORE_FIRST, ENDED),
    ("why --json", judging.OWN_STORE_FIRST, ENDED),
    ("why", EVERY_FORM, ENDED),
    ("why --model sc", judging.STORE_BUFFERING, ENDED),
    ("why --model sc --json", judging.STORE_BUFFERING, ENDED),
    ("why --model sc --assert", judging.STORE_BUFFERING, INVALID),
    ("why", judging.STORE_BUFFERING + b")", REFUSED),
    ("run --instructions all", LARGER_SET + DIVIDER + SEEDED, ENDED),
    ("trace --instructions all --bus split", LARGER_SET + DIVIDER + SEEDED, ENDED),
    ("outcomes --instructions all --show all", LARGER_SET, ENDED),
    ("why --instructions all", LARGER_SET.replace(b"SUB EBX,$0x10", b"PAUSE        "), ENDED),
    ("why", LARGER_SET, REFUSED),
    ("sweep --seeds 3 --length 2000", EVERY_FORM, ENDED),
    ("sweep --seeds 3 --length 6", judging.STORE_BUFFERING, UNFINISHED),
    ("sweep --seeds 3 --length 2000 --bus split", EVERY_FORM, ENDED),
    ("sweep --seeds 3 --length 2000 --depth 0", EVERY_FORM, ENDED),
    ("counts --seeds 3 --length 2000", EVERY_FORM, ENDED),
    ("counts --seeds 3 --length 2000 --json --bus split", EVERY_FORM, ENDED),
    ("counts --seeds 3 --length 6", judging.STORE_BUFFERING, UNFINISHED),
    ("counts --given --json", judging.STORE_BUFFERING + DIVIDER + b"0s 1s 0s 1s 0d 1d", ENDED),
    ("counts --given", judging.STORE_BUFFERING + DIVIDER + b"0s 2s", REFUSED),
    ("tables", b"", ENDED),
    ("tables --protocol mesi", b"", ENDED),
    ("tables --protocol moesi", b"", ENDED),
    ("tables --protocol mosi", b"", ENDED),
]


class Answer:
    """A run's answer, and what the library noted of it."""

    def __init__(self, done, notes):
        self.done = done
        self.refused = [number for word, number in notes if word == "failed"]
        self.before_reading = next((number for word, number in notes if word == "reading"), None)
        self.next_request = next((number for word, number in notes if word == "again"), None)


def answer(program, words, given, first, last):
    """The answer where the requests from the first to the last are refused; a first of 0 is none, a last of 0 no end."""
    told = {"FAIL_CALL": "memory", "FAIL_FIRST": str(first), "FAIL_LAST": str(last)}
    return Answer(*failing_calls.answer(program, words, given, told))


def answers_until_none_is_refused(program, words, given, alone, every):
    """The answers by N, each so many on from 1, up to and without the first run that has no request refused."""
    found = {}
    for at in itertools.count(1, every):
        one = answer(program, words, given, at, at if alone else 0)
        if not one.refused:
            return found
        found[at] = one


def is_of_the_line(one):
    return one.done.returncode == BAD_LINE and one.done.stdout == b"" and one.done.stderr != b""


def is_fault(one, searches):
    """Whether it says that memory was refused; a search may say how many states it had kept then."""
    told = one.done.stderr
    if searches and told.startswith(MEMORY_FAULT) and judging.MEMORY_HINT.fullmatch(told[len(MEMORY_FAULT):]):
        told = MEMORY_FAULT
    return (one.done.returncode, one.done.stdout, told) == (FAULT, b"", MEMORY_FAULT)


def is_whole(one, ample, alone):
    """Whether it is the answer of ample memory, by a next request for no more than the refused one."""
    asked_again = one.next_request is not None and one.next_request <= one.refused[0]
    same = (one.done.returncode, one.done.stdout, one.done.stderr) == \
        (ample.done.returncode, ample.done.stdout, ample.done.stderr)
    return alone and asked_again and same


def is_without_hint(one, ample):
    """Whether it is the answer of ample memory but for the hint."""
    same = (one.done.returncode, one.done.stdout) == (ample.done.returncode, ample.done.stdout)
    return same and one.done.stderr == b""


def judged(found, ample, alone, searches):
    """For each refused request its faults: first come faults of memory, then refusals of the line, then faults of memory."""
    of_the_line = [at for at, one in found.items() if is_of_the_line(one)]
    first, last = (of_the_line[0], of_the_line[-1]) if of_the_line else (0, 0)
    results = []
    for at, one in found.items():
        within = first <= at <= last
        may_be_line = within and (ample.before_reading is None or at <= ample.before_reading)
        fits = (may_be_line and is_of_the_line(one) or not within and is_fault(one, searches)
                or is_whole(one, ample, alone) or is_without_hint(one, ample))
        said = "%s; asked for %s bytes, then for %s" % (judging.described(one.done), one.refused[0], one.next_request)
        results.append(("request %d %s" % (at, "alone" if alone else "and all after it"), [] if fits else [said]))
    if not of_the_line or last == max(found):
        results.append(("requests", ["none was refused in the command line's parser, or none after it"]))
    return results


def judge_job(program, every, line, given, status):
    """The results of all requests of this command line and input, or of one in so many, and how many were granted at the next request."""
    words = line.split()
    undisturbed = program.run(words, given)
    ample = answer(program, words, given, 0, 0)
    faults = judging.difference(ample.done, status, undisturbed.stdout)
    results, granted = [("ample memory", faults)], 0
    for alone in (True, False):
        found = answers_until_none_is_refused(program, words, given, alone, every)
        results += judged(found, ample, alone, words[0] == "outcomes")
        granted += sum(is_whole(one, ample, alone) for one in found.values())
    return results, granted


def main():
    programs = judging.programs_in(judging.with_programs(__doc__, with_part=False).parse_args())
    tally, requests, granted = judging.Tally(), 0, 0
    turns = judging.with_turns(programs) if failing_calls.is_there(tally) else []
    jobs = [(program, every, *job) for program, every in turns for job in JOBS]
    for job, (results, again) in zip(jobs, judging.in_processes(lambda job: judge_job(*job), jobs, at_once=1)):
        requests += tally.add(job[2], results) - 1
        granted += again
    print("requests for memory refused: %d, of which %d were made again at once and granted" % (requests, granted))
    return tally.end()


if __name__ == "__main__":
    sys.exit(main())
