"""A campaign's rows as a table of numbers, for spreadsheets and for programs that calculate: CSV, a line a test, machine and count."""
import csv
import dataclasses
import io
import re

import tso

# What a row is of, and one of its numbers.
OF_LINE = ("test", "command", "program", "model", "protocol", "bus", "depth", "sets", "ways", "words", "options", "judged")
OF_NUMBER = ("core", "count", "value", "least", "greatest", "runs")
COLUMNS = OF_LINE + OF_NUMBER

# A spreadsheet takes a cell that begins so for a formula, in quotes too; a ' before it has it be a text. One that begins with ' already has
# one more, so that each text is read back.
FORMULA = re.compile(r"'*[=+@-]")

# A test that ends at once.
SMALLEST = "X86 smallest\n{ }\n P0 ;\n MFENCE ;\n"

# The numbers of a row that are of no core, in their order.
OF_ROW = ("states", "true", "false", "leaves", "unfinished", "ended")


def table_of(command, lines, program):
    """The table of these rows. `program` is one that says what machine it takes where none is named."""
    usual = usual_machine(program) if command in ("sweep", "counts") else {}
    text = io.StringIO()
    writer = csv.writer(text, lineterminator="\n")
    writer.writerow(COLUMNS)
    for line in lines:
        about = dict(about_row(command, line), **machine_of(line, usual))
        told = [cell_of(about.get(name)) for name in OF_LINE]
        writer.writerows(told + [numbers.get(name) for name in OF_NUMBER] for numbers in numbers_of(line.members) or [{}])
    return text.getvalue()


def cell_of(value):
    """What the cell of a text, a number or None has: a text that would be a formula has a ' before it."""
    return "'" + value if isinstance(value, str) and FORMULA.match(value) else value


def text_of(cell):
    """The text that a cell has."""
    return cell[1:] if cell.startswith("'") and FORMULA.match(cell) else cell


def is_table(data):
    """Whether these bytes are a table that a campaign wrote."""
    return data.startswith((",".join(COLUMNS) + "\n").encode())


def about_row(command, line):
    """What every line of a row has, but for its machine."""
    chosen = {name: line.chosen.get(name) for name in ("program", "model")}
    return {"test": line.members["test"], "command": command, "options": line.members["options"], "judged": line.rank, **chosen}


def machine_of(line, usual):
    """A row's machine by the columns' names: what its options say, and else what is usual."""
    said = dict(re.findall(r"--(protocol|bus|depth|sets|ways|words)[ =](\S+)", " ".join(line.words)))
    return {**(usual if line.test else {}), **said}


def usual_machine(program):
    """The machine that a program takes where none is named, by the columns' names."""
    return dataclasses.asdict(tso.run(SMALLEST, "0s", program=program).machine)


def numbers_of(members):
    """The numbers of a row, each as columns."""
    of_cores = [{"core": core, "count": name, "value": count["sum"], "least": count["least"], "greatest": count["greatest"],
                 "runs": members["ended"]} for core, counts in enumerate(members.get("cores") or []) for name, count in counts.items()]
    runs = sum(members["states"].values()) if isinstance(members.get("states"), dict) else members.get("ended")
    found = {name: members[name] for name in OF_ROW if members.get(name) is not None}
    return of_cores + [{"count": name, "value": len(value) if name == "states" else value, "runs": runs} for name, value in found.items()]
