#!/usr/bin/env python3
"""How long a built program takes for its main jobs, and how that grows with the work.

    tests/speed.py PROGRAM [OTHER..] [--runs N] [--instructions] [PART-OF-NAME]

Each job is run at a small size and at ten times that. Shown are the processor time of the larger, in milliseconds, the
least of N runs (21); what that is for each piece of work; and the growth: by how much the time grows from the small size
to the large, without the time that the program takes to start. A job that is linear in its work grows by 10; where the
small size takes too little time to tell, no growth is shown.

Times hang on the machine and on what else it does. With --instructions, which needs valgrind, executed instructions are
counted in place of times: they hardly change from run to run. With OTHER, the programs take turns, run by run.
"""
import os
import re
import shutil
import subprocess
import sys
import tempfile

sys.dont_write_bytecode = True
from checks import judging

LOCATIONS = "x y z a b c d e f g h i j k l m".split()
REGISTERS = "EAX EBX ECX EDX ESI EDI".split()
STORE_BUFFERING = judging.STORE_BUFFERING.decode()
BEGIN = "the start: an example's run"
ENDING = "0s 1s 0s 1s 0d 1d"


def instruction(core, row):
    """Of ten instructions four store, four load, one adds and one is a fence."""
    kind = (7 * core + 3 * row) % 10
    place, register = LOCATIONS[(core + 5 * row) % 16], REGISTERS[row % 6]
    if kind < 4:
        return f"MOV [{place}],${100 * core + row}"
    if kind < 8:
        return f"MOV {register},[{place}]"
    return f"LOCK XADD [{place}],{register}" if kind == 8 else "MFENCE"


def table(rows):
    """A test of four cores with so many instructions each."""
    lines = ["X86 table", "{ }", " | ".join(f"P{core}" for core in range(4)) + " ;"]
    lines += [" | ".join(instruction(core, row) for core in range(4)) + " ;" for row in range(rows)]
    return "\n".join(lines) + "\nexists (0:EAX=0 /\\ x=1)\n"


def rounds(rows):
    """Choices that end that test: in each round each core steps and drains."""
    return " ".join(f"{core}s {core}d" for _ in range(2 * rows) for core in range(4))


def waiting(count):
    """Choices that don't end it: the last core never drains."""
    kinds = "0s 0d 1s 1d 2s 2d 3s".split()
    return " ".join(kinds[(5 * at + at // 7) % 7] for at in range(count))


def of_two(test, rest):
    return f"{test}====\n{rest}\n".encode()


def longer(test, piece, size):
    """The start's input, with so many bytes of this piece before the test's initial state."""
    head, after = test.split("{", 1)
    return of_two(head + piece * (size // len(piece)) + "{" + after, ENDING)


def jobs(program):
    """Each job: its name, what its work is counted in, the words, and the inputs of both sizes."""
    full, few = table(32), STORE_BUFFERING
    report = subprocess.run([program, "run"], input=of_two(full, rounds(32)), stdout=subprocess.PIPE, check=False).stdout.decode()
    foreign = lambda count: "Order\n" + "P9:9 F\n" * count + f"Endorder {count}\n"
    yield BEGIN, "", ["run"], [(1, of_two(few, ENDING))]
    yield "run: a test of 128 instructions, its report", "", ["run"], [(1, of_two(full, rounds(32)))]
    yield "run --json: the same", "", ["run", "--json"], [(1, of_two(full, rounds(32)))]
    yield "check: that report's order", "", ["check"], [(1, of_two(full, report))]
    yield "witness: that report's order", "", ["witness", "--depth", "32"], [(1, of_two(full, report))]
    for bus in "atomic", "split":
        yield (f"run: choices as text, {bus} bus", "choices", ["run", "--bus", bus],
               [(count, of_two(full, waiting(count))) for count in (10_000, 100_000)])
    yield "run: choices of a seed", "choices", ["run"], [(count, of_two(few, f"seed 17 {count}")) for count in (10_000, 100_000)]
    yield "check: entries that no program has", "entries", ["check"], [(count, of_two(full, foreign(count))) for count in (14_000, 140_000)]
    yield "a test's comments and white space", "bytes", ["run"], [(size, longer(few, "(* a *) \n", size)) for size in (6_500, 65_000)]
    yield "a test's key lines", "bytes", ["run"], [(size, longer(few, "Com=Fr Fr\n", size)) for size in (6_500, 65_000)]
    for name, test in (("of 4 instructions", few), ("of 128 instructions", full)):
        yield (f"sweep: runs of a test {name}", "runs", ["sweep", "--length", "1000"],
               [(seeds, test.encode(), ["--seeds", str(seeds)]) for seeds in (100, 1000)])


def spent(program, words, source):
    """Processor seconds of one run."""
    pid = os.posix_spawn(program, [program, *words], {}, file_actions=[
        (os.POSIX_SPAWN_OPEN, 0, source, os.O_RDONLY, 0),
        (os.POSIX_SPAWN_OPEN, 1, os.devnull, os.O_WRONLY, 0),
        (os.POSIX_SPAWN_OPEN, 2, os.devnull, os.O_WRONLY, 0),
    ])
    usage = os.wait4(pid, 0)[2]
    return usage.ru_utime + usage.ru_stime


def executed(program, words, source):
    """Instructions of one run."""
    command = ["valgrind", "--tool=cachegrind", "--cache-sim=no", "--cachegrind-out-file=/dev/null", program, *words]
    with open(source, "rb") as given:
        done = subprocess.run(command, stdin=given, stdout=subprocess.DEVNULL, stderr=subprocess.PIPE, check=False)
    return int(re.search(rb"I +refs: +([0-9,]+)", done.stderr).group(1).replace(b",", b""))


def cost(programs, words, data, given, room):
    source = os.path.join(room, "input")
    with open(source, "wb") as file:
        file.write(data)
    if given.instructions:
        return [executed(program, words, source) / 1000 for program in programs]
    turns = [[1000 * spent(program, words, source) for program in programs] for _ in range(given.runs)]
    return [min(turn) for turn in zip(*turns)]


def main():
    parser = judging.parser(__doc__)
    parser.add_argument("program", nargs="+")
    parser.add_argument("--runs", type=int, default=21)
    parser.add_argument("--instructions", action="store_true")
    given = parser.parse_intermixed_args()
    part = "" if len(given.program) == 1 or os.path.isfile(given.program[-1]) else given.program.pop()
    if given.instructions and not shutil.which("valgrind"):
        sys.exit("tests/speed.py: valgrind isn't on the path")
    programs = [os.path.abspath(program) for program in given.program]
    unit = "thousand instructions" if given.instructions else "ms of processor time"
    print(f"{unit:44}" + "".join(f"{os.path.basename(program):>34}" for program in programs))
    start = [0] * len(programs)
    # A smaller difference tells nothing.
    least = 1 if given.instructions else 0.2
    with tempfile.TemporaryDirectory() as room:
        for name, work, words, inputs in jobs(programs[0]):
            if part not in name and name != BEGIN:
                continue
            costs = [cost(programs, words + more, data, given, room) for _, data, *extra in inputs for more in (extra or [[]])]
            if name == BEGIN:
                start = costs[0]
            cells = []
            for at in range(len(programs)):
                cell = f"{costs[-1][at]:.2f}"
                if len(costs) == 2:
                    small_cost, great_cost = costs[0][at] - start[at], costs[1][at] - start[at]
                    each = great_cost / inputs[1][0] * 1000
                    cell += f"  {each:.0f} each" if given.instructions else f"  {each:.3f} us each"
                    cell += f"  x{great_cost / small_cost:.1f}" if small_cost > least else "      "
                cells.append(f"{cell:>34}")
            size = f"{inputs[-1][0]:,} {work}" if len(inputs) == 2 else ""
            print(f"{name:44}" + "".join(cells) + f"   {size}".rstrip())
            sys.stdout.flush()
    return 0


if __name__ == "__main__":
    sys.exit(main())
