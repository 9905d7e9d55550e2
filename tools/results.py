"""The file of a campaign's results: a JSON line a task, each once, written whole as it comes."""
import fcntl
import itertools
import json
import os
import re
import stat
import tempfile

import outputs

# How each result's line begins, as its members are sorted: no other text is taken for one that was torn.
BEGINNINGS = (b'{"answer": ', b'{"cores": ', b'{"false": ', b'{"met": ', b'{"options": ')

PLACE = r"(?:\d+:\w+|[A-Za-z_]\w*)"
STATE = re.compile(r"(?:%s=\d+(?: %s=\d+)*)?" % (PLACE, PLACE), re.ASCII)


class NoResults(ValueError):
    """A file that can't be one of results, or a line of it that is none."""


def is_count(value):
    return type(value) is int and value >= 0


def is_states(value):
    """Whether these are states by their values, or how often each was met."""
    if isinstance(value, dict):
        return all(STATE.fullmatch(state) and is_count(count) for state, count in value.items())
    return isinstance(value, list) and all(isinstance(state, dict) and all(
        re.fullmatch(PLACE, place, re.ASCII) and is_count(word) for place, word in state.items()) for state in value)


def is_asked(value):
    return value is None or isinstance(value, list) and len(value) == 2 and value[0] in ("exists", "~exists", "forall") and (
        type(value[1]) is bool)


def is_cores(value):
    """Whether these are counts over runs of each core; None where no run ended."""
    return value is None or isinstance(value, list) and all(isinstance(core, dict) and all(
        isinstance(count, dict) and count.keys() == {"sum", "least", "greatest"} and all(map(is_count, count.values()))
        for count in core.values()) for core in value)


def is_result(one):
    """Whether a value is what a task of a campaign answers."""
    if not isinstance(one, dict) or not all(isinstance(one.get(name), str) for name in ("task", "test", "options")):
        return False
    if not all(is_count(one[name]) for name in ("true", "false", "unfinished", "leaves", "ended") if name in one):
        return False
    if "cores" in one:
        return is_cores(one["cores"]) and {"ended", "unfinished"} <= one.keys()
    if not (isinstance(one.get("met", []), list) and is_states(one.get("met", []))):
        return False
    if "states" in one and not ({"true", "false"} <= one.keys() and is_states(one["states"])):
        return False
    if "answer" in one:
        return one["answer"] == ("never" if "leaves" in one else "allowed") and is_asked(one.get("asked", "")) and (
            isinstance(one.get("states", []), list))
    return "unfinished" in one or isinstance(one.get("states"), list)


def is_of(command, one):
    """Whether a result is one of this command's tasks."""
    by_seeds, is_open = isinstance(one.get("states"), dict), "unfinished" in one
    if command == "counts" or "cores" in one:
        return command == "counts" and "cores" in one
    if command == "sweep":
        return by_seeds and is_open
    if command == "why":
        return "answer" in one or is_open and not by_seeds
    return "answer" not in one and not by_seeds


class Unkept:
    """Results that are kept nowhere, by task."""

    def __init__(self):
        self.found = {}

    def has(self, task):
        return task.key in self.found

    def add(self, one):
        self.found[one["task"]] = one


class Results:
    """The results in a file, by task. A torn last line is cut off; two campaigns can't write one file at once. Where the file is replaced,
    removed or changed by others meanwhile, all results go into a new one beside it, and that is told."""

    beginnings, is_result = BEGINNINGS, staticmethod(is_result)
    # all that a call has opened
    written = []

    def __init__(self, path):
        self.path, self.found, self.length, self.is_apart = path, {}, 0, False
        if os.path.exists(path) and not stat.S_ISREG(os.stat(path).st_mode):
            raise NoResults("results are kept in a file, and %s is none" % path)
        self.file = opened(path)
        with open(path, "rb") as lines:
            self.read(lines)
        self.file.truncate(self.length)
        self.written.append(self)

    def read(self, lines):
        """Takes the results that are there. What is no file of results is told, and stays as it is."""
        while True:
            line = lines.readline(max(map(len, self.beginnings)))
            if not line:
                return
            if not any(line.startswith(one) or one.startswith(line) for one in self.beginnings):
                raise self.refused()
            line += b"" if line.endswith(b"\n") else lines.readline()
            self.take(line)
            if not line.endswith(b"\n"):
                return

    def take(self, line):
        """Takes the result of a line; one that isn't whole is passed over, if it is the beginning of a result."""
        try:
            one = json.loads(line)
        except (ValueError, RecursionError):
            if line.endswith(b"\n"):
                raise self.refused() from None
            return
        if not self.is_result(one):
            raise self.refused()
        if line.endswith(b"\n"):
            self.found[one["task"]] = one
            self.length += len(line)

    def refused(self):
        return NoResults("line %d of %s is no result of a campaign: another file has to have the results" % (
            len(self.found) + 1, self.path))

    def has(self, task):
        """Whether there is a result of this task."""
        one = self.found.get(task.key)
        if one is not None and "fault" not in one and not is_of(task.command, one):
            raise NoResults("%s has a result of another command by the name of one of %s" % (self.path, task.command))
        return one is not None

    def add(self, one):
        """Takes a result. A fault isn't written, so that a campaign that goes on tries its task again. Where a line can't be written whole,
        nothing of it is."""
        self.found[one["task"]] = one
        if "fault" in one:
            return
        self.settle()
        line = line_of(one)
        try:
            outputs.write_whole(self.file.fileno(), line)
        except OSError as fault:
            self.file.truncate(self.length)
            raise OSError(fault.errno, os.strerror(fault.errno), self.path) from None
        self.length += len(line)

    def settle(self):
        """Has all results stand in a file that is still there. Where that isn't the one of this name any more, NoResults tells which it is."""
        if self.is_apart or self.stands():
            return
        self.is_apart = True
        lines = [line_of(one) for one in self.found.values() if "fault" not in one]
        lost = "%s was replaced, removed or changed while this campaign wrote it: " % self.path
        try:
            raise NoResults("%sall its results, %d, are in %s; with that as --results the same words go on" % (
                lost, len(lines), written_apart(self.path, b"".join(lines))))
        except OSError as fault:
            raise NoResults("%sits results couldn't be written elsewhere, %s" % (lost, fault)) from None

    def stands(self):
        """Whether the file of this name is the one that was opened, and has what was read and written, and no more."""
        here = os.fstat(self.file.fileno())
        try:
            return os.path.samestat(here, os.stat(self.path)) and here.st_size == self.length
        except OSError:
            return False


def settle_all():
    """The same for all results that this call has opened."""
    for one in Results.written:
        one.settle()


def line_of(one):
    return json.dumps(one, sort_keys=True).encode("ascii") + b"\n"


def opened(path):
    """The file of this path, which is made where it isn't there, opened to be written at its end, and locked."""
    while True:
        file = open(path, "ab", buffering=0)
        try:
            fcntl.flock(file, fcntl.LOCK_EX | fcntl.LOCK_NB)
            if os.path.samestat(os.stat(path), os.fstat(file.fileno())):
                return file
        except BlockingIOError:
            file.close()
            raise NoResults("another campaign writes %s" % path) from None
        except FileNotFoundError:
            pass
        # it was replaced or removed before it was locked
        file.close()


def written_apart(path, data):
    """The path of a new file, which has these bytes: beside the one of this path, or where its folder takes none, among those for the moment."""
    folder, name = os.path.split(os.path.abspath(path))
    beside = os.path.join(folder, name[:outputs.KEPT_OF_NAME] + ".kept")
    try:
        return written_anew(beside, data)
    except OSError:
        return written_anew(os.path.join(tempfile.gettempdir(), os.path.basename(beside)), data)


def written_anew(path, data):
    """The path of a new file that has these bytes; a number stands behind it where something has this name. What can't have all has none."""
    for number in itertools.count(1):
        place = path if number == 1 else "%s-%d" % (path, number)
        try:
            file = os.open(place, os.O_WRONLY | os.O_CREAT | os.O_EXCL, 0o666)
        except FileExistsError:
            continue
        try:
            outputs.write_whole(file, data)
            return place
        except OSError:
            os.unlink(place)
            raise
        finally:
            os.close(file)
