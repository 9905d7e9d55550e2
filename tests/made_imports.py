#!/usr/bin/env python3
"""Texts for the importer, made of those in herd's, diy's and AT&T's forms by changes that a seed draws: each is read or refused.

    tests/made_imports.py [--made N] [--seed S]

Of N texts (100,000) none makes the importer end in any other way, and none of 64 KiB takes it a second of the processor's time, nor the
tools that import by themselves. What it reads it reads again as the same. tests/hostile_tools.py makes a few. The last line is
'N passed, M failed'.
"""
import os
import random
import re
import sys
import time

sys.dont_write_bytecode = True
from checks import judging
from checks.tools import import_forms, imported_files, tool_runs

import faults
import importer
import litmus
import sources

# Texts that one item of work makes, by a seed of its own.
AT_ONCE = 250

# Seconds of the processor's time for a text of 64 KiB.
SECONDS = 1.0

PIECES = ["(*", "*)", "{", "}", ";", "|", "\"", "\n", "\r", "\r\n", "====\n", "P0", "P1 |", "exists ", "~exists", "forall (",
          "filter", "locations [", "]", "~", "not ", "/\\", "\\/", "(", ")", "[", "]", "$", "%", "-", "-1", "0x", "0xffffffff",
          "99999999999", "lock ", "LOCK; ", "X86 t\n", "X86_64 t\n", "\0", "\xff", "\x1b[31m", " ", "\t", ":", "=", ",", "x",
          "0:rax", "0:EAX=1", "P0:r8=1", "int x[2]={1,2};", "int ", "uint64_t y=5;", "*p", "movl $1,(x)", "movq (x),%rax",
          "MOV [x],$1", "MOV EAX,[y]", "mfence", "MFENCE", "xchgl %eax,(x)", "lock xaddl %eax,(x)", "sfence", "lock incl (x)",
          "dword ptr [x]", "qword ptr ", "(%rsi)", "4(%rsi)", "[rsi+4]", "%r8d", "%al", "jmp L", "L:", "a" * 40,
          "Registers=0:R8=EAX\n", "Elements=x[0]=x_0\n", "Show=all\n", "TSO=allowed\n", "true", "false", "x[1]", "&x", "<>",
          "=>"]


def bases():
    """The texts that others are made of."""
    found = [text for _, text, *_ in import_forms.READ + import_forms.REFUSED] + [text for _, text in tool_runs.gallery()]
    for folder in (imported_files.READ, imported_files.REFUSED):
        found += [imported_files.content(folder, name) for name in sorted(os.listdir(folder)) if name.endswith(".litmus")]
    return [text for text in found if len(text) < 4000]


def slice_of(draw, text):
    begin = draw.randrange(len(text) + 1)
    return begin, min(len(text), begin + draw.choice((1, 2, 5, 20, 80, 400)))


def put(draw, text, _):
    at = draw.randrange(len(text) + 1)
    return text[:at] + draw.choice(PIECES) + text[at:]


def cut(draw, text, _):
    begin, end = slice_of(draw, text)
    return text[:begin] + text[end:]


def put_for(draw, text, _):
    begin, end = slice_of(draw, text)
    return text[:begin] + draw.choice(PIECES) + text[end:]


def move(draw, text, _):
    begin, end = slice_of(draw, text)
    at = draw.randrange(len(text) + 1)
    return text[:at] + text[begin:end] + text[at:]


# How often a slice is repeated: 0 is as often as a text may have it, and more.
TIMES = (2, 3, 9, 9, 40, 40, 40, 40) * 3 + (0,)


def repeat(draw, text, _):
    """A slice again and again: the text may come near its limit, or pass it."""
    begin, end = slice_of(draw, text)
    part = draw.choice((text[begin:end], draw.choice(PIECES))) or "("
    times = draw.choice(TIMES) or litmus.LONGEST_TEXT // len(part)
    return text[:begin] + part * times + text[end:]


def join(draw, text, others):
    """The beginning of one and the end of another."""
    other = draw.choice(others)
    return text[:draw.randrange(len(text) + 1)] + other[draw.randrange(len(other) + 1):]


def swap_lines(draw, text, _):
    lines = text.split("\n")
    one, other = draw.randrange(len(lines)), draw.randrange(len(lines))
    lines[one], lines[other] = lines[other], lines[one]
    return "\n".join(lines)


def turn_number(draw, text, _):
    found = list(re.finditer(r"\d+", text))
    if not found:
        return text
    one = draw.choice(found)
    other = draw.choice(("-1", "0", "4294967295", "4294967296", "-2147483648", "0x10", "7", "9" * 5000))
    return text[:one.start()] + other + text[one.end():]


CHANGES = (put, put, cut, put_for, put_for, move, repeat, join, swap_lines, turn_number, turn_number)


def made(draw, texts):
    """A text, made by one change or some."""
    text = draw.choice(texts)
    for _ in range(draw.choice((1, 1, 2, 3, 5))):
        text = draw.choice(CHANGES)(draw, text, texts)
    return text[:litmus.LONGEST_TEXT + draw.choice((0, 0, 0, 1))]


def outcome(text):
    """Whether the importer reads a text; what is wrong, and how many seconds it took."""
    began, wrong, read = time.process_time(), None, False
    try:
        printed = importer.Importer(text, leave_out=True).test().text()
        read = True
        if importer.Importer(printed).test().text() != printed:
            wrong = "isn't imported as itself"
    except faults.Refused:
        pass
    except Exception as fault:
        wrong = "%s: %s" % (type(fault).__name__, fault)
    imported = time.process_time()
    try:
        for line, piece in sources.pieces_of(text):
            sources.source_of("t", line, piece).name()
    except Exception as fault:
        wrong = wrong or "a source: %s: %s" % (type(fault).__name__, fault)
    return read, wrong, max(imported - began, time.process_time() - imported)


def made_at_once(work):
    """Of so many texts, made by a seed: how many are read, the longest time, and what is wrong."""
    seed, count = work
    draw, texts, reads, longest, wrong = random.Random(seed), bases(), 0, 0.0, []
    for number in range(count):
        text = made(draw, texts)
        read, fault, took = outcome(text)
        reads, longest = reads + read, max(longest, took)
        if fault or took > SECONDS:
            wrong.append(("text %d of seed %s" % (number, seed), ["%s, %.2f s: %r" % (fault, took, text[:200])]))
    return reads, longest, count - len(wrong), wrong


def judged(count, seed):
    """Pairs of a text's name and its faults, of so many texts."""
    work = [("%d.%d" % (seed, at), min(AT_ONCE, count - at)) for at in range(0, count, AT_ONCE)]
    done = judging.in_processes(made_at_once, work, at_once=1)
    print("%d texts for the importer: %d read, the longest took %.2f s" % (
        count, sum(reads for reads, *_ in done), max(longest for _, longest, *_ in done)))
    return [("", [])] * sum(good for _, _, good, _ in done) + [one for *_, wrong in done for one in wrong]


def main():
    parser = judging.parser(__doc__)
    parser.add_argument("--made", type=int, default=100_000)
    parser.add_argument("--seed", type=int, default=1)
    asked = parser.parse_args()
    tally = judging.Tally(shown=20)
    tally.add("made texts", judged(asked.made, asked.seed))
    return tally.end()


if __name__ == "__main__":
    sys.exit(main())
