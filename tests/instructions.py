#!/usr/bin/env python3
"""Runs each instruction of the larger set on this machine's processor with many words and registers, and compares what the program, the
second program (tests/reference) and tools/meanings.py make of them.

    tests/instructions.py PROGRAM [--values N] [--seed S] [--also PROGRAM]

Each instruction has N (1000) values, drawn from the seed S (1). The program is asked of eight at once: each core of a test has the
instruction, with a location and registers of its own. A further program has one in four. The last line is 'N passed, M failed'.
"""
import os
import random
import re
import subprocess
import sys
import tempfile

sys.dont_write_bytecode = True
from checks import judging
from checks.tools import hardware_runs
from reference import arithmetic, reading
from reference import litmus as voice

import assembler
import litmus
import meanings

VALUES = 1_000

# So many values the program has at once: a core each.
AT_ONCE = voice.MOST_CORES

# Values at which instructions differ most.
EDGES = (0, 1, 2, 2**31 - 1, 2**31, 2**31 + 1, 2**32 - 2, 2**32 - 1)

OPERATORS = ("ADD", "SUB", "AND", "OR", "XOR")
SHORT = ("INC", "DEC", "NEG", "NOT")
NUMBERS = ("$1", "$-1", "$0x7fffffff", "$-2147483648", "$4294967295", "$0")

PROGRAM = """#include <stdint.h>
#include <stdio.h>

%s
static void (*const cells[])(char *, uint32_t *) = {%s};

int main(void) {
  unsigned cell;
  uint32_t bank[6], word;
  while (scanf("%%u %%u %%u %%u %%u %%u %%u %%u", &cell, &word, &bank[0], &bank[1], &bank[2], &bank[3], &bank[4], &bank[5]) == 8) {
    cells[cell]((char *)&word, bank);
    printf("%%u %%u %%u %%u %%u %%u %%u\\n", word, bank[0], bank[1], bank[2], bank[3], bank[4], bank[5]);
  }
  return 0;
}
"""


def cells():
    """Each instruction, with operands of each kind."""
    pairs = [("EAX", "EBX"), ("EBX", "EAX"), ("ECX", "EDI"), ("EDX", "EDX"), ("EAX", "EAX")]
    found = ["NOP", "PAUSE", "LFENCE", "SFENCE", "MFENCE", "MOV [x],$-5", "MOV ESI,0xffffffff", "MOV [x],EDX", "MOV EDX,[x]"]
    for one in OPERATORS:
        found += ["%s %s,%s" % (one, *pair) for pair in pairs] + ["%s EAX,%s" % (one, number) for number in NUMBERS]
        found += ["LOCK %s [x],%s" % (one, name) for name in ("EAX", "EDI")] + ["LOCK %s [x],%s" % (one, number) for number in NUMBERS]
    for one in SHORT:
        found += ["%s %s" % (one, name) for name in ("EAX", "ESI")] + ["LOCK %s [x]" % one]
    for name in litmus.REGISTERS:
        found += ["XCHG [x],%s" % name, "LOCK XADD [x],%s" % name, "LOCK CMPXCHG [x],%s" % name]
    return found + ["XCHG %s,%s" % pair for pair in pairs]


def text_of(cell):
    return "X86 one\n{ x=0; }\n P0 ;\n %s ;\n" % cell


def by_voice(one, word, registers):
    """The word and the registers after an instruction, by the second program."""
    registers = list(registers)
    if one.kind in voice.LOCKED:
        taken, written = arithmetic.taken_by(one), arithmetic.updated(one, registers, word)
        if taken is not None:
            registers[taken] = word
        return [written, *registers]
    if one.kind in voice.STORES:
        return [arithmetic.operand(one, registers), *registers]
    if one.kind == voice.LOAD:
        registers[one.register] = word
        return [word, *registers]
    return [word, *arithmetic.moved(one, registers)]


def by_tools(one, word, registers):
    """The same by the tools."""
    named = dict(zip(litmus.REGISTERS, registers))
    written = meanings.written(one, named, word)
    named.update(meanings.changed(one, named, word))
    return [word if written is None else written, *named.values()]


def drawn_value(chance, others):
    return chance.choice(EDGES) if chance.random() < 0.3 else chance.choice(others) if others and chance.random() < 0.3 else chance.getrandbits(32)


def drawn_values(chance):
    """A word and registers, some of them alike."""
    values = []
    while len(values) < 1 + len(litmus.REGISTERS):
        values.append(drawn_value(chance, values))
    return values


def by_processor(instructions, values):
    """The words and registers after each instruction with each of its values, by this machine's processor."""
    blocks = [assembler.block_of("cell_%d" % at, [one], ["x"]) for at, one in enumerate(instructions)]
    with tempfile.TemporaryDirectory() as room:
        source, made = os.path.join(room, "cells.c"), os.path.join(room, "cells")
        with open(source, "w", encoding="ascii") as file:
            file.write(PROGRAM % ("\n".join(blocks), ", ".join("cell_%d" % at for at in range(len(blocks)))))
        subprocess.run([*(os.environ.get("CC") or "cc").split(), "-O1", "-o", made, source], check=True)
        lines = "".join("%d %s\n" % (at, " ".join(map(str, row))) for at, rows in enumerate(values) for row in rows)
        done = subprocess.run([made], input=lines, capture_output=True, text=True, check=True)
    found = iter([list(map(int, line.split())) for line in done.stdout.splitlines()])
    return [[next(found) for _ in rows] for rows in values]


def test_for(cell, group):
    """A test in which each core has this instruction, with one of these words and registers, and each its own location."""
    first = "".join("x%d=%d; " % (core, values[0]) + "".join("%d:%s=%d; " % (core, name, value)
                                                             for name, value in zip(litmus.REGISTERS, values[1:]))
                    for core, values in enumerate(group))
    cells = " | ".join(re.sub(r"\[x\]", "[x%d]" % core, cell) for core in range(len(group)))
    return "X86 one\n{ %s}\n%s ;\n%s ;\n" % (first, " | ".join("P%d" % core for core in range(len(group))), cells)


def by_program(program, cell, group):
    """The words and registers after each of these, by the program: its buffers have no room, so each core takes one step."""
    choices = " ".join("%ds" % core for core in range(len(group)))
    given = test_for(cell, group).encode() + judging.DIVIDER + choices.encode()
    done = program.run(["run", "--depth", "0", "--instructions", voice.ALL], given)
    report = done.stdout.decode()
    words = dict(re.findall(r" x(\d)=(\d+)", re.search(r"^Memory.*$", report, re.M)[0])) if done.returncode == judging.ENDED else {}
    registers = [list(map(int, re.findall(r"=(\d+)", line))) for line in re.findall(r"^Registers (.*)$", report, re.M)]
    return [[int(words[str(core)]), *row] for core, row in enumerate(registers)] if words else [[judging.described(done)]] * len(group)


def faults_of_program(program, cell, asked, answers):
    """Of which values the program makes something else of an instruction."""
    found = [one for at in range(0, len(asked), AT_ONCE) for one in by_program(program, cell, asked[at:at + AT_ONCE])]
    return ["of %s %s, and not %s" % one for one in zip(asked, found, answers) if one[1] != one[2]][:3]


def faults_of(cell, ours, theirs, asked, answers):
    """Of which values the second program, or the tools, make something else of it."""
    faults = []
    for values, answer in zip(asked, answers):
        told = {"the second program": by_voice(theirs, values[0], values[1:]), "the tools": by_tools(ours, values[0], values[1:])}
        faults += ["%s, of %s: %s, and not %s" % (who, values, said, answer) for who, said in told.items() if said != answer]
    return faults[:3]


def main():
    words = judging.with_programs(__doc__, with_part=False)
    words.add_argument("--values", type=int, default=VALUES)
    words.add_argument("--seed", type=int, default=1)
    asked = words.parse_args()
    missing, tally, found = hardware_runs.why_not(), judging.Tally(), cells()
    chance = random.Random(asked.seed)
    values = [[drawn_values(chance) for _ in range(asked.values)] for _ in found]
    ours = [litmus.read_test(text_of(cell)).programs[0][0] for cell in found]
    theirs = [reading.read_test(text_of(cell).encode("ascii"), voice.ALL).programs[0][0] for cell in found]
    if missing:
        print("not tried: instructions on this machine's processor: %s" % missing)
        answers = [[by_voice(one, row[0], row[1:]) for row in rows] for one, rows in zip(theirs, values)]
    else:
        answers = by_processor(ours, values)
    tally.add("instructions", [(cell, faults_of(cell, *one)) for cell, *one in zip(found, ours, theirs, values, answers)])
    rows = [("%s, the program" % cell, lambda program, one=(cell, row, due): faults_of_program(program, *one))
            for cell, row, due in zip(found, values, answers)]
    tally.add("instructions", judging.judged_in_turn(rows, judging.programs_in(asked), at_once=2))
    print("%d instructions, each with %d values" % (len(found), asked.values))
    return tally.end()


if __name__ == "__main__":
    sys.exit(main())
