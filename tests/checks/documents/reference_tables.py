"""The tables of docs/REFERENCE.md and docs/INPUT.md against a program, for tests/documents.py: commands, options, limits and statuses, by what the
program answers, its help, the manual page, and the limits as plain numbers (crates/promises/src/limits.rt).
"""
import os
import re
import subprocess

from checks import judging
from checks.judging import BAD_LINE, REFUSED, TOP, content

SECONDS = 120

README = os.path.join(TOP, "README.md")
MANUAL = os.path.join(TOP, "docs", "tso.1")
INPUT = os.path.join(TOP, "docs", "INPUT.md")
REFERENCE = os.path.join(TOP, "docs", "REFERENCE.md")

SB = (judging.STORE_BUFFERING + judging.DIVIDER).decode()


def answer(program, words, given):
    return subprocess.run([program] + words, input=given.encode(), capture_output=True, timeout=SECONDS)


def table_after(path, heading):
    """The rows of the first table after this heading, each a list of its cells."""
    text = content(path).split("\n%s\n" % heading, 1)[1]
    rows = re.search(r"^\|(?:.*\n\|)*.*$", text, re.MULTILINE).group().splitlines()
    return [[cell.replace("\\|", "|").strip() for cell in re.split(r"(?<!\\)\|", row.strip()[1:-1])] for row in rows[2:]]


def given_values(cell):
    """The values that an option's range allows, and those next to them."""
    numbers = re.fullmatch(r"(\d+) to (\d+)", cell)
    if numbers:
        least, most = int(numbers.group(1)), int(numbers.group(2))
        return [str(least), str(most)], [str(value) for value in (least - 1, most + 1) if value >= 0]
    names = re.findall(r"`(\w+)`", cell) or re.split(r", | or ", cell)
    return names, ["0" if names[0].isdigit() else "none"]


def words_of(row):
    """The option of a row of the reference's table, the commands that take it, its range and its default."""
    return row[0].strip("`"), re.findall(r"`(\w+)`", row[1]), row[2], row[3].strip("`")


def faults_of_option(program, row):
    option, commands, values, default = words_of(row)
    if not values:
        return ["%s %s isn't taken" % (command, option) for command in commands
                if answer(program, [command, option], SB).returncode == BAD_LINE]
    good, bad = given_values(values)
    faults = []
    for command in commands:
        faults += ["%s %s %s is refused" % (command, option, value) for value in good
                   if answer(program, [command, option, value], SB).returncode == BAD_LINE]
        faults += ["%s %s %s isn't refused" % (command, option, value) for value in bad
                   if answer(program, [command, option, value], SB).returncode != BAD_LINE]
        with_default, without = answer(program, [command, option, default], SB + "seed 1 100"), answer(program, [command], SB + "seed 1 100")
        faults += ["%s: the default isn't %s" % (option, default)] if with_default.stdout != without.stdout else []
    return faults


def faults_of_help(program, row):
    """The manual page and each command's help have the option, its default and, where it is a range, its values."""
    option, commands, values, default = words_of(row)
    faults = [] if "Fl " + option[1:] in content(MANUAL) else ["docs/tso.1 doesn't have it"]
    if " to " in values and values not in content(MANUAL):
        faults.append("docs/tso.1 doesn't say " + values)
    for command in commands:
        line = re.search(r"^ +%s\b.*$" % option, answer(program, [command, "--help"], "").stderr.decode(), re.MULTILINE)
        wanted = [option] + (["[default: %s]" % default] if default else []) + ([values] if " to " in values else [])
        faults += ["the help of %s doesn't say %s" % (command, text) for text in wanted if line is None or text not in line.group()]
    return faults


def help_of(program, *words):
    return answer(program, [*words, "--help"], "").stderr.decode()


def faults_of_commands(program):
    """Each command of the help is in docs/REFERENCE.md's tables, in docs/INPUT.md's and in the manual page, with its options and no other."""
    known = set(re.findall(r"^  (\w+) ", help_of(program).partition("Commands:\n")[2].partition("\n\n")[0], re.MULTILINE)) - {"help"}
    tables = {"docs/REFERENCE.md": table_after(REFERENCE, "## Commands"), "docs/INPUT.md": table_after(INPUT, "## The input")}
    faults = ["%s tells of other commands than the help" % name for name, rows in tables.items()
              if known != {command for row in rows for command in re.findall(r"`(\w+)`", row[0])}]
    faults += ["docs/tso.1 doesn't have " + command for command in known if "\n.It Cm %s\n" % command not in content(MANUAL)]
    options = [words_of(row) for row in table_after(REFERENCE, "## Options")]
    for command in sorted(known):
        told = {option for option, commands, *_ in options if command in commands}
        there = set(re.findall(r"^ +(?:-\w, )?(--\w+)", help_of(program, command), re.MULTILINE)) - {"--help"}
        faults += ["%s: %s is in one of docs/REFERENCE.md and the help" % (command, option) for option in sorted(told ^ there)]
    return faults


def plain_numbers():
    """The limits as crates/promises has them, each by its name."""
    text = content(TOP, "crates", "promises", "src", "limits.rt").partition("fn limits_are_these_numbers")[2].partition("\n{")[0]
    return {name: int(number) for name, number in re.findall(r"ensures (\w+) \{ \w+ ≡ (\d+) \}", text)}


NUMBERS = {
    "cores": "cores",
    "locations": "locations",
    "instructions of a core": "instructions",
    "bytes of the test's name": "test_name",
    "bytes of a location's name": "name",
    "atoms of the condition": "atoms",
    "brackets and negations within one another": "nesting",
    "bytes of the test's text": "text",
    "choices": "choices",
    "choices that `trace --json` uses": "steps_as_json",
    "bytes of the whole input": "input",
    "`--depth`": "deepest",
    "`--sets`": "sets",
    "`--ways`": "ways",
    "`--words`": "words",
    "`--states`": "states",
    "`--seeds`": "seeds",
    "`--length`": "choices",
}


def greatest(cell):
    """The last number of a range."""
    return int(re.findall(r"[\d,]*\d", cell)[-1].replace(",", ""))


def faults_of_numbers():
    """The limits of texts and options are the numbers that the proofs have."""
    limits, numbers = {row[0]: row[1] for row in table_after(INPUT, "## Limits")}, plain_numbers()
    ranges = list(limits.items()) + [(row[0], row[2]) for row in table_after(REFERENCE, "## Options")]
    faults = ["%s: %s, and not %d" % (name, cell, numbers[NUMBERS[name]]) for name, cell in ranges
              if name in NUMBERS and greatest(cell) != numbers[NUMBERS[name]]]
    return faults + ["no limit of " + name for name in NUMBERS if name not in dict(ranges)]


def unlimited(programs, initial="", condition="", name="t"):
    """A test with these programs, by core."""
    rows = max(map(len, programs))
    cells = [["P%d" % core for core in range(len(programs))]]
    cells += [[program[row] if row < len(program) else "" for program in programs] for row in range(rows)]
    return "X86 %s\n{ %s }\n%s%s\n" % (name, initial, "".join(" | ".join(row) + " ;\n" for row in cells), condition)


LIMITS = {
    "cores": lambda n: unlimited([[]] * n),
    "locations": lambda n: unlimited([[]], "".join("v%d=0; " % at for at in range(n))),
    "instructions of a core": lambda n: unlimited([["MFENCE"] * n]),
    "bytes of the test's name": lambda n: unlimited([[]], name="n" * n),
    "bytes of a location's name": lambda n: unlimited([[]], "v" * n + "=0"),
    "atoms of the condition": lambda n: unlimited([[]], "", "exists " + " /\\ ".join(["true"] * n)),
    "brackets and negations within one another": lambda n: unlimited([[]], "", "exists " + "(" * n + "true" + ")" * n),
    "value of a register or a location": lambda n: unlimited([[]], "x=%d" % n),
    "bytes of the test's text": lambda n: unlimited([[]]) + " " * (n - len(unlimited([[]]))),
    "bytes of the whole input": lambda n: unlimited([[]]) + "====\n" + " " * (n - 5 - len(unlimited([[]]))),
    "choices": lambda n: unlimited([[]]) + "====\nseed 1 %d" % n,
    "choices that `trace --json` uses": lambda n: unlimited([["MFENCE"]]) + "====\n" + "0d " * n,
}


def faults_of_limit(program, row):
    made, most, words = LIMITS[row[0]], greatest(row[1]), (re.findall(r"`(.*?)`", row[0]) or ["run"])[0].split()
    faults = []
    if answer(program, words, made(most)).returncode == REFUSED:
        faults.append("%s: %d is refused" % (row[0], most))
    refused = answer(program, words, made(most + 1))
    if refused.returncode != REFUSED or row[2].strip("`") not in refused.stdout.decode():
        faults.append("%s: %d isn't refused by %s" % (row[0], most + 1, row[2]))
    return faults


STATUSES = {
    "0": ["run", SB + "0s 1s 0d 1d 0s 1s"],
    "1": ["run", "X86 SB"],
    "2": ["run --depth 33", SB],
    "3": ["run", SB],
    "4": ["check", SB + "Order\nEndorder 0\n"],
}


def faults_of_statuses(program):
    """docs/REFERENCE.md tells of the statuses that the help has, and of that of ./tso; the manual page of the same; and the program has them."""
    told = {row[0] for row in table_after(REFERENCE, "## Exit statuses")}
    there = set(re.findall(r"^  (\d)  ", help_of(program).partition("Exit status:\n")[2], re.MULTILINE))
    faults = [] if there == set("012345") and told == there | {"70"} else ["docs/REFERENCE.md tells of other statuses than the help"]
    if told != set(re.findall(r"^\.It (\d+)$", content(MANUAL), re.MULTILINE)):
        faults.append("docs/tso.1 tells of other statuses than docs/REFERENCE.md")
    for status, (words, given) in STATUSES.items():
        got = answer(program, words.split(), given).returncode
        faults += ["status %d, and not %s" % (got, status)] if str(got) != status else []
    folder = os.open(TOP, os.O_RDONLY)
    got = subprocess.run([program, "run"], stdin=folder, capture_output=True, timeout=SECONDS).returncode
    os.close(folder)
    return faults + (["status %d, and not 5, of a folder as input" % got] if got != 5 else [])


def rows_of(program):
    """What is held of the tables, by its name."""
    for row in table_after(REFERENCE, "## Options"):
        yield "option " + row[0], lambda row=row: faults_of_option(program, row)
        yield "help of " + row[0], lambda row=row: faults_of_help(program, row)
    yield "commands", lambda: faults_of_commands(program)
    yield "limits as numbers", faults_of_numbers
    for row in table_after(INPUT, "## Limits"):
        yield "limit of " + row[0], lambda row=row: faults_of_limit(program, row)
    yield "statuses", lambda: faults_of_statuses(program)
