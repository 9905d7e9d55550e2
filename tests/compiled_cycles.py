#!/usr/bin/python3
"""Judges the cycles of `tools/cycles --c11 --mixed` as compilers make them, many of them in one file of C.

    tests/compiled_cycles.py PROGRAM                 all of two and of three threads, by gcc and clang in three levels
    --length N                                       those of N threads alone
    --some K --seed S                                of each length K, drawn by a seed
    --processes N                                    at once (as many as there are processors)

Each cycle is judged as tools/compiled does it. None may leave a state that C11 doesn't allow. At the end stands how many cycles there are,
of how many C11 allows the outcome that the cycle asks for, how many compiled programs can come to it, and how long it took. The gate has a
few of these, by tests/compiled.py. It needs what tools/compiled needs.
"""
import bisect
import collections
import io
import multiprocessing
import os
import random
import re
import sys
import time

sys.dont_write_bytecode = True
import checks.tools
from checks import judging
from checks.judging import Tally

from elftools.elf.elffile import ELFFile

from c11 import compiling, cycles, verdicts
from c11.asking import Asker
from c11.objects import Image
from c11.refusals import NotJudged
from c11.states import name_of
from c11.tests import Test

COMPILERS = ("gcc -O0", "gcc -O1", "gcc -O3", "clang -O0", "clang -O1", "clang -O3")
# Cycles in one file of C.
TOGETHER = 60


class Joined:
    """Cycles in one file of C, the names of each with a prefix of its own, and what clang says of each."""

    def __init__(self, found):
        self.cycles = {"c%d_" % number: cycle for number, cycle in enumerate(found)}
        lines = [line for prefix, cycle in self.cycles.items() for line in cycles.parts_of(cycle, prefix)[0]]
        self.text = "#include <stdatomic.h>\n" + "\n".join(lines) + "\n"
        pieces = collections.defaultdict(list)
        for found in re.finditer(r"^@(c\d+_)[^\n]*$|^define [^@\n]*@(c\d+_).*?^\}$", compiling.source_of(self.text, "cycles"), re.M | re.S):
            pieces[found.group(1) or found.group(2)].append(found.group())
        self._said = {prefix: "\n".join(some).replace("@" + prefix, "@") + "\n" for prefix, some in pieces.items()}

    def source(self, prefix):
        """The source of one cycle."""
        cycle = self.cycles[prefix]
        functions = tuple(("P%d" % number, ()) for number in range(len(cycle)))
        test = Test(cycles.name_of(cycle), "", functions, cycles.parts_of(cycle)[1])
        return verdicts.SourceJudge(test, "rc11", self._said[prefix])


class Codes:
    """The code of the functions of an object, as it is before addresses are put in: what has the same code does the same."""

    def __init__(self, content):
        file = ELFFile(io.BytesIO(content))
        symbols, code = list(file.get_section_by_name(".symtab").iter_symbols()), file.get_section_by_name(".text").data()
        fixes = sorted((fix["r_offset"], fix["r_info_type"], symbols[fix["r_info_sym"]].name, fix["r_addend"])
                       for fix in file.get_section_by_name(".rela.text").iter_relocations())
        offsets = [fix[0] for fix in fixes]
        self._of = {}
        for symbol in symbols:
            if symbol["st_info"]["type"] == "STT_FUNC":
                begin, end = symbol["st_value"], symbol["st_value"] + symbol["st_size"]
                some = fixes[bisect.bisect_left(offsets, begin):bisect.bisect_left(offsets, end)]
                self._of[symbol.name] = code[begin:end], [(offset - begin, *rest) for offset, *rest in some]

    def key(self, prefix, threads):
        """The code of the threads whose functions and variables have this prefix."""
        found = []
        for number in range(threads):
            code, fixes = self._of["%sP%d" % (prefix, number)]
            if not all(name.startswith(prefix) for _, _, name, _ in fixes):
                return None
            found.append((code, tuple((offset, kind, name[len(prefix):], addend) for offset, kind, name, addend in fixes)))
        return tuple(found)


def verdicts_on(found, compilers, asker, known):
    """For each of these cycles and each compiler: its source, the compiler, the verdict's word, what isn't allowed, and the cells and states
    of the compiled program. `known` has the cells and states of code that was judged before."""
    joined = Joined(found)
    objects = {compiler: compiling.object_of(compiler, joined.text, "cycles") for compiler in compilers}
    codes, images = {compiler: Codes(content) for compiler, content in objects.items()}, {}
    for prefix, cycle in joined.cycles.items():
        source = joined.source(prefix)
        for compiler in compilers:
            key = codes[compiler].key(prefix, len(cycle))
            if key in known:
                cells, states = known[key]
                if states <= source.allowed(1, cells).states:
                    yield source, compiler, verdicts.OK, [], cells, states, None
                    continue
            if compiler not in images:
                images[compiler] = Image(objects[compiler])
            try:
                found, (compiled, cells, states, _, _) = verdicts.judge(source, compiler, images[compiler].part(prefix), 1, asker)
            except NotJudged as fault:
                yield source, compiler, verdicts.NOT_JUDGED, [str(fault)], [], set(), None
                continue
            if key is not None and found.is_exact:
                known[key] = cells, set(states)
            yield source, compiler, found.word, found.extra, cells, set(states), compiled


def is_asked(condition, cells, states):
    """Whether one of these states meets a condition of NAME=NUMBER and conjunctions."""
    names = list(map(name_of, cells))
    asked = [(names.index(name), int(number)) for name, number in re.findall(r"(\w+)=(\d+)", condition) if name in names]
    return any(all(state[at] == number for at, number in asked) for state in states)


def batches(found):
    return [found[at:at + TOGETHER] for at in range(0, len(found), TOGETHER)]


def drawn(length, how_many, seed):
    """Cycles of so many threads, drawn by a seed, or all."""
    found = list(cycles.cycles(length, True))
    return found if how_many is None or how_many >= len(found) else random.Random(seed).sample(found, how_many)


def begin(program):
    """A process of the pool begins."""
    global ASKER, KNOWN
    ASKER, KNOWN = Asker(program, 1, 120), {}


def batch_verdicts(found):
    """Of each program of a batch its name, the verdict's word and what isn't allowed, whether C11 allows what the cycle asks for, and
    whether the compiled program can come to it."""
    return [("%s %s" % (source.test.name, compiler), word, extra, is_asked(source.test.condition, cells, source.allowed(1, cells).states),
             is_asked(source.test.condition, cells, states))
            for source, compiler, word, extra, cells, states, _ in verdicts_on(found, COMPILERS, ASKER, KNOWN)]


def main():
    words = judging.with_program(__doc__, with_part=False)
    words.add_argument("--length", type=int, choices=(2, 3), action="append", help="of so many threads")
    words.add_argument("--some", type=int, help="so many of each length")
    words.add_argument("--seed", type=int, default=0)
    words.add_argument("--processes", type=int, default=len(os.sched_getaffinity(0)))
    asked = words.parse_args()
    tally, began = Tally(shown=20), time.monotonic()
    with multiprocessing.get_context("fork").Pool(asked.processes, begin, (asked.program,)) as pool:
        for length in asked.length or (2, 3):
            found, counts = drawn(length, asked.some, asked.seed), collections.Counter()
            for some in pool.imap_unordered(batch_verdicts, batches(found)):
                for _, word, _, is_allowed, is_reached in some:
                    counts.update([word, *["allowed"] * is_allowed, *["reached"] * is_reached])
                tally.add("cycles of %d" % length, [(name, [] if word == verdicts.OK else ["%s %s" % (word, extra)])
                                                   for name, word, extra, _, _ in some])
            print("%d cycles of %d threads, %d programs: %s; C11 allows what is asked in %d, %d come to it; %.0f s" % (
                len(found), length, len(found) * len(COMPILERS),
                ", ".join("%d %s" % (counts[word], word) for word in sorted(counts) if word not in ("allowed", "reached")),
                counts["allowed"], counts["reached"], time.monotonic() - began), flush=True)
    return tally.end()


if __name__ == "__main__":
    sys.exit(main())
