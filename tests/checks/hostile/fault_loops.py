"""The fault loops of what writes around the program: each is a command in a room of its own, which is broken at each call that changes a
file, and then called again. tests/hostile.py judges them; tests/checks/hostile/fault_points.py breaks them."""
import os
import shutil
import subprocess
import tempfile

from checks import program_starts

from . import fault_points, small_checkout
from .fault_points import FAIL, FULL, HUP, INT, KILL, TERM

# What a call says where it leaves something that the next one does.
ONCE_MORE = b"once more"
NOTHING_INSTALLED = b"nothing is installed in "

FOREIGN = {"bin/other": "mine\n", "share/doc/tso/notes": "mine too\n", "empty/": ""}

ROOM = "room"

# Where an installer makes its files, and what it is about to do (tools/placing.bash).
IN_ROOM, PLAN = ".tso-installing/new", ".tso-installing/plan.new"


class Loop:
    """A command, the rooms in which it works, and what must be true of them. What begins with `own` is the command's own, so that nothing of it
    need be there after a call that was killed."""

    def __init__(self, name, source, words, prepare, may_say=(), own=b"\0", makes_as_another=False):
        self.name = name
        self.makes_as_another = makes_as_another
        self.own = own
        self.source = source
        self.words = words
        self.prepare = prepare
        self.may_say = may_say
        self.template = tempfile.mkdtemp(dir=program_starts.room().name)
        small_checkout.make(os.path.join(self.template, "checkout"), source)
        os.mkdir(os.path.join(self.template, "temporary"))
        os.mkdir(os.path.join(self.template, ROOM))
        # The toolchain's own start would cost more than all of a point.
        small_checkout.write(self.template, "path/rt", small_checkout.saying("a toolchain"), 0o755)
        # ./tso remembers files that are older than a second: without their times none is, and a slow machine has the same calls.
        small_checkout.write(self.template, "path/stat", "#!/bin/sh\n", 0o755)
        prepare(self)
        self.before = self.tree(self.template)
        with self.copy() as place:
            done, self.changes = fault_points.changes(self.command(place), **self.options(place))
            self.after = self.tree(place)
        self.second_calls = {}
        self.faults = [] if done.returncode == 0 else ["unbroken: status %d, %r" % (done.returncode, done.stderr)]

    def options(self, place):
        """Where a command of the loop runs, and what it finds in its environment."""
        path = os.path.join(place, "path") + ":" + os.environ["PATH"]
        return {"cwd": place, "env": dict(os.environ, TMPDIR=os.path.join(place, "temporary"), HOME=place, PATH=path)}

    def command(self, place):
        return [os.path.join(place, "checkout", self.words[0])] + [word.replace("ROOM", os.path.join(place, ROOM)) for word in self.words[1:]]

    def copy(self):
        return Copy(self.template)

    def run(self, place, *words):
        """Runs a script of the checkout in a room, for what a loop begins with."""
        subprocess.run([os.path.join(place, "checkout", words[0]), *words[1:]], check=True, stdout=subprocess.DEVNULL, stderr=subprocess.DEVNULL,
                       **self.options(place))

    @staticmethod
    def tree(place):
        """What stands in a place, but for what ./tso remembers."""
        return {name: what for name, what in fault_points.tree(place).items() if not name.startswith(b"checkout/out")}

    def points(self):
        """All points at which the command can be broken."""
        return fault_points.points(self.changes, (KILL, FULL, FAIL, INT, TERM, HUP))

    def situations(self):
        """Those of them that differ in more than how much of a file is written. Of the two signals that the scripts heed alike each call has
        one, and of calls that only make what is to be put, as another loop's do, one in ten has any."""
        numbers = fault_points.situations(self.changes)
        making = making_of(self.changes) if self.makes_as_another else ()
        places = {number: at for at, number in enumerate(numbers) if number not in making or number % 10 == 0}
        return [(kind, number) for kind, number in self.points() if number in places and kind != (TERM, HUP)[places[number] % 2]]

    def judge(self, point):
        """The faults where the command is broken at this point."""
        kind, number = point
        with self.copy() as place:
            done, tried = fault_points.broken(kind, number, self.command(place), **self.options(place))
            if len(tried) < number:
                return ["only %d calls changed a file" % len(tried)]
            faults = self.faults_after(kind, done, self.tree(place)) + self.faults_of_second(place)
        return ["%s at %s %s" % (line, tried[number - 1].name, tried[number - 1].what) for line in faults]

    def faults_of_second(self, place):
        """What is wrong with a second call in a place. Where an earlier point left the same state, that one's answer is the answer."""
        state = fault_points.state(place)
        if state not in self.second_calls:
            again = subprocess.run(self.command(place), stdout=subprocess.PIPE, stderr=subprocess.PIPE, stdin=subprocess.DEVNULL,
                                   timeout=fault_points.HANGS, check=False, **self.options(place))
            left = fault_points.differences(self.after, self.tree(place))
            if again.returncode != 0 and not any(word in again.stderr for word in self.may_say):
                left.append("status %d: %s" % (again.returncode, told(again)))
            self.second_calls[state] = ["the second call: " + line for line in left]
        return self.second_calls[state]

    def faults_after(self, kind, done, found):
        """What is wrong in a place after the broken call: it is as it was, or as it is after the whole; or the call says that more is to be
        done. A call that was killed says nothing, but what isn't its own is as it was."""
        if kind == KILL:
            strange = [name for name, what in self.before.items()
                       if self.after.get(name) == what and found.get(name) != what and not name.startswith(self.own)]
            return ["lost or changed: " + os.fsdecode(name) for name in strange]
        if done.returncode == 0:
            return ["status 0: " + line for line in fault_points.differences(self.after, found)]
        if ONCE_MORE in done.stderr or found == self.after:
            return []
        return ["%s: %s" % (told(done), line) for line in fault_points.differences(self.before, found)]


def making_of(changes):
    """The numbers of the changes by which an installer makes all files, in its room, before it writes down what it is about to do."""
    begin = next(number for number, change in enumerate(changes, 1) if IN_ROOM in change.what or change.what == "new")
    return range(begin, next(number for number, change in enumerate(changes, 1) if change.what.endswith(PLAN)))


class Copy:
    """A copy of a folder, which goes again."""

    def __init__(self, template):
        self.template = template

    def __enter__(self):
        self.path = tempfile.mkdtemp(dir=program_starts.room().name)
        subprocess.run(["cp", "-a", self.template + "/.", self.path], check=True)
        return self.path

    def __exit__(self, *_):
        shutil.rmtree(self.path)


def told(done):
    """What a call said last."""
    lines = done.stderr.decode(errors="replace").splitlines() or ["nothing said"]
    return "status %d, %s" % (done.returncode, lines[-1])


def put_foreign(loop):
    for name, text in FOREIGN.items():
        path = os.path.join(loop.template, ROOM, name)
        if name.endswith("/"):
            os.makedirs(path)
        else:
            small_checkout.write(os.path.join(loop.template, ROOM), name, text)


def put_earlier(loop):
    """An earlier version is installed, with a file more, and with other bytes in two."""
    put_foreign(loop)
    checkout = os.path.join(loop.template, "checkout")
    small_checkout.write(checkout, "docs/inner/OLD.md", "# Old\n")
    small_checkout.write(checkout, "docs/PAGE.md", "# An older page\n")
    small_checkout.write_release(checkout, small_checkout.saying("earlier"))
    loop.run(loop.template, "tso", "--install", os.path.join(loop.template, ROOM))
    shutil.rmtree(os.path.join(checkout, "docs", "inner"))
    small_checkout.write(checkout, "docs/PAGE.md", small_checkout.TEXTS["docs/PAGE.md"])
    small_checkout.write_release(checkout, small_checkout.saying("release"))


def put_installed(loop):
    put_foreign(loop)
    loop.run(loop.template, "tso", "--install", os.path.join(loop.template, ROOM))


def put_installed_below(loop):
    loop.run(loop.template, "tso", "--install", os.path.join(loop.template, ROOM, "a", "b"))


def put_built(loop):
    """A program is built, and a stamp of what was there before."""
    checkout = os.path.join(loop.template, "checkout")
    small_checkout.write(checkout, "crates/tso/out/tso", small_checkout.saying("proved"), 0o755)
    small_checkout.write(checkout, "crates/tso/out/stamp", "an older stamp\n")
    small_checkout.write(loop.template, ROOM + "/sources", small_checkout.sums(checkout, ["crates.txt", "crates/tso/src/main.rt"]))


def put_other_tree(loop):
    """Another checkout, in which a program is built."""
    checkout = os.path.join(loop.template, ROOM, "tree")
    small_checkout.make(checkout, loop.source)
    small_checkout.write(checkout, "crates/tso/out/tso", small_checkout.saying("proved"), 0o755)


def nothing(_):
    pass


LOOPS = [
    ("install", ["tso", "--install", "ROOM"], put_foreign, []),
    ("install below folders that aren't there", ["tso", "--install", "ROOM/a/b"], nothing, [], b"\0", True),
    ("install over an earlier version", ["tso", "--install", "ROOM"], put_earlier, [], b"\0", True),
    ("uninstall", ["tso", "--uninstall", "ROOM"], put_installed, [NOTHING_INSTALLED]),
    ("uninstall with the folders above", ["tso", "--uninstall", "ROOM/a/b"], put_installed_below, [NOTHING_INSTALLED]),
    ("stamp", ["tools/stamp", "ROOM/sources"], put_built, []),
    ("release --from", ["tools/release", "--from", "ROOM/tree"], put_other_tree, [], b"checkout/release"),
]


def loops(source, part=""):
    """The loops of this checkout's scripts, those with this word in their names."""
    return (Loop(name, source, *given) for name, *given in LOOPS if part in name)
