"""The tests that words of a command line name, in this project's form; and of a text that is no test, its place and why it is none."""
import os
import re
import stat
import sys
from dataclasses import dataclass

import answers
import comments
import faults
import inputs
import litmus
import scripts

importer = scripts.later("importer")

# What begins a comment, or is a test's first line.
MARK = re.compile(r"\(\*|^X86(?:_64)?[ \t][^\n]*\n?", re.M)
LIST = re.compile(r"\blocations\s*\[")
DIVIDER = re.compile(r"^====\r?$", re.M)

# How the names of tests' files end.
ENDING = ".litmus"

# A file has at most so many bytes: tests for many hours.
MOST_BYTES = 2 ** 28


# The lists whose words are gone through now.
OPEN_LISTS = []


class NoTests(Exception):
    """A word that stands for no file at all."""


@dataclass(frozen=True)
class Source:
    """A text that should be a test: its text in this project's form; or, with `why` it is no test, the place FILE:LINE of its fault."""

    text: str = None
    place: str = None
    why: str = None

    def name(self):
        """The test's name, or the place of the fault."""
        return answers.name_of(self.text) if self.why is None else self.place


def sources_in(words):
    """The sources that these words stand for, one after the other."""
    return list(coming_in(words))


def coming_in(words):
    """The same, each as it is asked for; that there are such files is looked at now."""
    paths = [path for word in words for path in paths_in(word)]
    return (source_of(path, line, text) for path in paths for line, text in pieces_of(content(path)))


def paths_in(word):
    """Paths: of a file; -, for standard input; of all files *.litmus below a folder; or of what a list names, such a word a line, where
    the word is @LIST. What a folder or a list has beside files, as a pipe that nobody writes, is passed over with a line."""
    if word == "-":
        yield word
    elif word.startswith("@"):
        for inner in words_of_list(word[1:]):
            yield from paths_in(inner)
    elif os.path.isdir(word):
        yield from files_below(word)
    else:
        os.stat(word)
        yield word


def content(path):
    """The text of a file, or of standard input, whose path is -."""
    if path == "-":
        sys.stdin.reconfigure(encoding="latin-1")
        text = sys.stdin.read(MOST_BYTES + 1)
    else:
        with open(path, encoding="latin-1") as file:
            text = file.read(MOST_BYTES + 1)
    if len(text) > MOST_BYTES:
        raise NoTests("%s has more than %d bytes" % (path, MOST_BYTES))
    return text


def files_in(word):
    """Paths and contents of the files that a word stands for."""
    return ((path, content(path)) for path in paths_in(word))


def words_of_list(path):
    """The words of a list, a line each. Its paths begin where it stands. While they are gone through, the list can't be one of them."""
    place = os.path.realpath(path)
    if place in OPEN_LISTS:
        raise NoTests("@%s names itself" % path)
    lines = inputs.text(path, "utf-8", "surrogateescape").split("\n")
    lines = [line.strip() for line in lines if line.strip() and not line.startswith("#")]
    folder = os.path.dirname(path)
    words = ["@" + os.path.join(folder, line[1:]) if line.startswith("@") else line if line == "-" else os.path.join(folder, line)
             for line in lines if "\0" not in line]
    words = [word for word in words if word == "-" or word.startswith("@") or can_be_read(word)]
    if not words or "\0" in "".join(lines):
        raise NoTests("@%s names no file" % path)
    OPEN_LISTS.append(place)
    try:
        yield from words
    finally:
        OPEN_LISTS.remove(place)


def files_below(folder, endings=(ENDING,)):
    """All files below a folder whose names end so, in the order of their names."""
    found = []
    for inner, folders, names in os.walk(folder):
        folders.sort()
        found += [os.path.join(inner, name) for name in sorted(names) if name.endswith(endings)]
    found = list(filter(can_be_read, found))
    if not found:
        raise NoTests("%s has no file %s" % (folder, " or ".join("*" + ending for ending in endings)))
    return found


def can_be_read(path):
    """Whether a path that a folder or a list has is a file or a folder. Another one, as a pipe or a device, is told and passed over: to read
    it may have no end. What isn't there is told where it's read."""
    try:
        mode = os.stat(path).st_mode
    except OSError:
        return True
    if not (stat.S_ISREG(mode) or stat.S_ISDIR(mode)):
        scripts.note("%s is no file, and is passed over" % path)
        return False
    return True


def begins_of(text):
    """The places where tests begin in a text that has several: at their first lines. Within a comment, and within the lines of facts
    after such a line, none does."""
    at, last = 0, text.rfind("*)")
    while mark := MARK.search(text, at):
        at = mark.end()
        if mark.group() == "(*":
            at = comments.comment_end(text, mark.start(), last) or at
            continue
        yield mark.start()
        while found := litmus.FACT.match(text, at := comments.blanks_end(text, at, last)):
            at = found.end()


def pieces_of(text):
    """The tests of a text that has several, one after the other, each with how many lines are before it; without choices or orders. Where
    no line begins a test, the whole text is one piece."""
    begins = list(begins_of(text)) or [comments.blanks_end(text, 0)]
    line, before = 0, 0
    for begin, end in zip(begins, begins[1:] + [len(text)]):
        line, before = line + text.count("\n", before, begin), begin
        yield line, DIVIDER.split(text[begin:end], maxsplit=1)[0]


def source_of(path, lines_before, text):
    """The source of a piece of a file. A text that isn't in this project's form is imported; so is one whose list of locations asks that
    more is shown than its condition names."""
    test = native_test(text)
    if test is None:
        return imported(path, lines_before, text)
    if LIST.search(text) and not litmus.show_of(test.facts):
        source = imported(path, lines_before, text)
        if source.why is None and litmus.show_of(litmus.read_test(source.text).facts):
            return source
    return Source(text)


def native_test(text):
    """The test of a text in this project's form; None of another one, and of one that is too long."""
    try:
        return litmus.known_test(text) if len(text) <= litmus.LONGEST_TEXT else None
    except (litmus.BadTest, RecursionError):
        return None


def imported(path, lines_before, text):
    """The source of a text that is imported."""
    try:
        return Source(importer.Importer(text).test().text())
    except faults.Refused as fault:
        line, why = fault.line, fault
    except RecursionError:
        line, why = 1, "its condition is nested too deeply"
    return Source(place="%s:%d" % (path, lines_before + line), why=str(why))
