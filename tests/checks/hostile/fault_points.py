"""Breaks a command at each system call by which it changes a file: every process is killed after the call, or the disk is full from it on,
or the call alone fails, or a signal comes, or the file is replaced. The tracer is failing_files.c.

A script makes a fresh copy of what the command works on for each point, breaks the command there, and then judges what is left, by
`tree`. It is for whole command lines in any language: the calls of each process that the command starts are counted together.

    done, changes = fault_points.changes(command)            # nothing is broken
    for kind, number in fault_points.points(changes):
        done, _ = fault_points.broken(kind, number, command)
"""
import collections
import functools
import hashlib
import itertools
import os
import random
import stat
import subprocess
import tempfile

from checks import program_starts

KILL, FULL, FAIL, INT, TERM, HUP, REPLACE = "kill", "full", "fail", "int", "term", "hup", "replace"
SIGNALS = (INT, TERM, HUP)

# What the tracer says where it couldn't run a command.
NOT_RUN = 125

# A command that takes so many seconds hangs; on a machine that is busy a good one takes a minute.
HANGS = 600

# A call that changes a file: its name, whether it needs room on the disk, and the path, or the number of the open file, that it changes;
# and whether the system refused it where nothing was broken, so that it changed nothing.
Change = collections.namedtuple("Change", "name needs_room what is_refused")


@functools.cache
def tracer():
    """The path of the tracer, built; None, with a word, where it can't be built or may not trace."""
    made = program_starts.built(os.path.join(os.path.dirname(os.path.abspath(__file__)), "failing_files.c"), "failing_files")
    if made is None:
        return None
    done = subprocess.run([made, "none", "0", os.devnull, "true"], stdout=subprocess.PIPE, stderr=subprocess.STDOUT, text=True)
    if done.returncode != 0:
        print("tests/checks/hostile/failing_files.c may not trace here:\n%s" % done.stdout)
        return None
    return made


def broken(kind, number, command, given=b"", **options):
    """The answer of a command that is broken so at its change of this number, and all changes that it tried. Its process group ends with
    it. The options are those of subprocess.run, as cwd and env."""
    with tempfile.NamedTemporaryFile(dir=program_starts.room().name) as notes:
        words = [tracer(), kind, str(number), notes.name] + command
        done = subprocess.run(words, input=given, stdout=subprocess.PIPE, stderr=subprocess.PIPE, timeout=HANGS, check=False, **options)
        lines = [line.split(" ", 2) for line in notes.read().decode(errors="surrogateescape").splitlines()]
    if done.returncode == NOT_RUN:
        raise OSError("the tracer: %s" % done.stderr.decode(errors="replace"))
    refused = {int(at) for name, at, _ in lines if name == "refused"}
    tried = [line for line in lines if line[0] != "refused"]
    return done, [Change(name, room == "room", what, at in refused) for at, (name, room, what) in enumerate(tried, 1)]


def changes(command, given=b"", **options):
    """The answer of a command that isn't broken, and the changes that it makes."""
    return broken("none", 0, command, given, **options)


def points(made, kinds=(KILL, FULL)):
    """The points at which a command that makes these changes can be broken, pairs of a kind and a number: a disk is full where a change
    needs room, and a file replaced where it is written. A call that the system refuses in any case is none: all is then as after the call
    before it."""
    return [(kind, number) for kind in kinds for number, change in enumerate(made, 1)
            if not change.is_refused and (change.needs_room or kind != FULL) and (change.name == "write" or kind != REPLACE)]


def situations(made):
    """The numbers of these changes, but of those by which one file is written bit by bit only the first and the last: between them is
    nothing but a file that isn't whole."""
    numbers = []
    runs = itertools.groupby(enumerate(made, 1), key=lambda one: one[1][:3] if one[1].name == "write" else one[0])
    for run in (list(run) for _, run in runs):
        numbers += {run[0][0]: None, run[-1][0]: None}
    return numbers


def drawn(all_points, seed, count):
    """So many of these points, drawn by the seed; all, where they aren't more. They keep their order."""
    if len(all_points) <= count:
        return list(all_points)
    chosen = random.Random(seed).sample(range(len(all_points)), count)
    return [all_points[at] for at in sorted(chosen)]


def tree(folder):
    """What stands in a folder, by its name there: kind and mode, and the bytes of a file or the target of a link."""
    found = {}
    for above, folders, files in os.walk(os.fsencode(folder)):
        for name in folders + files:
            path = os.path.join(above, name)
            mode = os.lstat(path).st_mode
            content = b""
            if stat.S_ISLNK(mode):
                content = os.readlink(path)
            elif stat.S_ISREG(mode):
                with open(path, "rb") as file:
                    content = file.read()
            found[os.path.relpath(path, os.fsencode(folder))] = stat.filemode(mode), content
    return found


def state(folder):
    """A digest of all that decides what a command makes of a folder: its tree, and which names are one file. Times aren't part of it."""
    digest = hashlib.sha256()
    first = {}
    for name, what in sorted(tree(folder).items()):
        file = os.lstat(os.path.join(os.fsencode(folder), name)).st_ino
        digest.update(repr((name, what, first.setdefault(file, name))).encode())
    return digest.digest()


def differences(wanted, found):
    """What differs between two trees, a line each: the first few."""
    names = sorted(name for name in wanted.keys() | found.keys() if wanted.get(name) != found.get(name))
    words = {(True, False): "lost", (False, True): "left", (True, True): "changed"}
    told = ["%s: %s" % (words[name in wanted, name in found], os.fsdecode(name)) for name in names]
    return told[:5] + (["%d more" % (len(told) - 5)] if len(told) > 5 else [])
