"""Which programs a campaign asks: those that its words name, or the one that stands beside the tools."""
import hashlib
import os
import shutil

import sources
import tso

# How a file begins that the system can run.
BEGINNINGS = (b"\x7fELF", b"#!")


class Program:
    """A program: its path, the name that it was called by, and the digest of its bytes."""

    def __init__(self, name):
        self.name, self.path = name or "tso", tso.find(name)
        with open(self.path, "rb") as file:
            self.digest = hashlib.sha256(file.read()).hexdigest()

    def text(self):
        """The program's version and digest."""
        return "%s, sha256 %s" % (tso.version(self.path) or "a program without a version", self.digest)


def parted(words, named):
    """The names of the programs, and the words for tests. Without names the first word is the program, if it is one and stands for no
    tests here; else it's the one that the tools find by themselves, whose name is None."""
    if named:
        return named, words
    if is_program(words[0]):
        return words[:1], words[1:]
    if not stands_for_tests(words[0]) and not os.path.lexists(words[0]):
        raise tso.NoProgram("there is no file, folder or program %s" % words[0])
    return [None], words


def is_program(word):
    """Whether a word is a program's: an executable file's, or a command's, and no word for tests."""
    return not stands_for_tests(word) and (os.path.isfile(word) or shutil.which(word) is not None)


def stands_for_tests(word):
    """Whether a word stands for tests here: standard input, a list, a folder that has some, or a file that the system can't run."""
    if word == "-" or word.startswith("@"):
        return True
    if os.path.isdir(word):
        return any(name.endswith(sources.ENDING) for _, _, names in os.walk(word) for name in names)
    return os.path.isfile(word) and not can_run(word)


def can_run(path):
    """Whether a file is executable, and begins as programs and scripts do."""
    if not os.access(path, os.X_OK):
        return False
    with open(path, "rb") as file:
        beginning = file.read(max(map(len, BEGINNINGS)))
    return beginning.startswith(BEGINNINGS)
