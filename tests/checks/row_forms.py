"""Files of rows for tests/run_rows.py: one that is in the form, and what makes it one that is refused, each with the line and the reason."""
import os
import tempfile

from . import rows

FORMED = """# A comment.

each row
words: run

row first
status: 0
input:
    X86

     P0
then 3 times escaped: 0s\\x20\\
output:
errors like: hint: .*

# Another.
row second:1
words: check
status: 4
output escaped:
    a\\\\\\
    b\\n\\
errors: none
"""

READ = {"first": (["run"], 0, b"X86\n\n P0\n0s 0s 0s ", b"", b"hint: .*\n"), "second:1": (["check"], 4, b"", b"a\\b\n", b"none\n")}

# What of it becomes something else, and how that is refused.
REFUSED = [
    ("an unknown key", "errors like:", "mistakes:", 14, "no such key here"),
    ("a key in another place", "status: 0\n", "output: a\nstatus: 0\n", 8, "the key status stands twice or out of place"),
    ("a key twice", "status: 4\n", "status: 4\nstatus: 4\n", 20, "the key status stands twice or out of place"),
    ("a row twice", "row second:1", "row first", 17, "the row first stands on line 6 too"),
    ("a row without its status", "status: 4\n", "", 17, "the row second:1 has no status"),
    ("a row without its output", "output:\n", "", 6, "the row first has no output"),
    ("a status that is no number", "status: 4", "status: -", 17, "the row second:1 has no number for its status"),
    ("a name with a capital", "row second:1", "row Second", 17, "no such key here"),
    ("no empty line before a row", "\n\nrow first", "\nrow first", 5, "no empty line before the row"),
    ("two empty lines before a row", "\n\n# Another", "\n\n\n# Another", 15, "an empty line that neither stands before a row nor within a text"),
    ("an empty line within a row", "status: 0\n", "status: 0\n\n", 8, "an empty line that neither stands before a row nor within a text"),
    ("a text beside a key and below it", "input:\n", "input: a\n", 9, "no such key here"),
    ("a blank at a line's end", "X86", "X86 ", 9, "a blank at the line's end has to be escaped"),
    ("a tab", "X86", "X86\tt", 9, "a byte that isn't printable has to be escaped"),
    ("carriage returns", "\n", "\r\n", 1, "a byte that isn't printable has to be escaped"),
    ("an escape that isn't there", "\\x20", "\\q", 12, "no such escape"),
    ("an output so many times", "output escaped", "output 2 times escaped", 20, "an input alone is given so many times"),
    ("more of no input", "input:", "then:", 8, "no input stands before"),
    ("a text from no file", "errors: none", "errors from: none.txt", 23, "no file none.txt in the same folder"),
    ("a text from another folder", "errors: none", "errors from: ../rows.py", 23, "no file ../rows.py in the same folder"),
    ("no last line feed", "none\n", "none", 23, "the last line isn't one of a row, with a line feed"),
    ("an empty last line", "none\n", "none\n\n", 25, "the last line isn't one of a row, with a line feed"),
]


def read(text):
    """The rows of a file with this text; or how it is refused."""
    with tempfile.TemporaryDirectory() as room:
        path = os.path.join(room, "made" + rows.ENDING)
        with open(path, "wb") as file:
            file.write(text.encode())
        try:
            return rows.Reader(path).read()
        except rows.Refused as fault:
            return str(fault)[len(os.path.relpath(path)):]


def faults_of_formed():
    found = {row.name: (row.words, row.status, row.given, row.output, getattr(row.errors, "pattern", row.errors)) for row in read(FORMED).values()}
    return [] if found == READ else ["it is read as %s" % found]


def faults_of_refused(old, new, line, why):
    got, due = read(FORMED.replace(old, new)), ":%d: %s" % (line, why)
    return [] if got == due else ["%s, and not %s" % (got, due)]


def works():
    """The names of these files, each with a function of its faults."""
    yield "form of rows", faults_of_formed
    for name, *told in REFUSED:
        yield "form of rows: " + name, lambda told=told: faults_of_refused(*told)
