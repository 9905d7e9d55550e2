"""A process that outlives a tool, however that ends, by a signal that nothing can heed too, and then ends what the tool has started and
removes its folders for the moment."""
import fcntl
import glob
import os
import shutil
import signal
import time

# Each program that the tool starts has this word in its environment, and so has whatever that starts.
MARK = "TSO_STARTED_BY"

# How the folders for the moment are called.
ROOM = "tso-room-"

# A process that was about to begin has its mark a moment later: so often in a row none is to be found, so many seconds apart.
LOOKS, APART, MOST_LOOKS = 2, 0.02, 500


class Keeper:
    """What keeps a tool, from here on until its end."""

    def __init__(self):
        self.mark = "%d-%s" % (os.getpid(), os.urandom(8).hex())
        os.environ[MARK] = self.mark
        reader, self.writer = os.pipe()
        if os.fork() == 0:
            try:
                watch(reader, self.mark)
            finally:
                os._exit(0)
        os.close(reader)

    def remove_later(self, folder):
        """Has a folder removed at the end."""
        os.write(self.writer, os.fsencode(folder) + b"\0")


class Room:
    """A new folder for the moment, which goes even if the tool is killed. Those that nobody holds any more go now."""

    def __init__(self, keeper):
        above = os.path.abspath(os.environ.get("TMPDIR") or "/tmp")
        for path in glob.glob(os.path.join(glob.escape(above), ROOM + "*")):
            remove_unheld(path)
        self.path = os.path.join(above, ROOM + keeper.mark)
        keeper.remove_later(self.path)

    def __enter__(self):
        os.mkdir(self.path, 0o700)
        self.folder = held(self.path)
        if self.folder is None:
            raise OSError("another call has removed %s" % self.path)
        return self.path

    def __exit__(self, *_):
        shutil.rmtree(self.path, ignore_errors=True)
        os.close(self.folder)


def held(path):
    """This folder of one's own, opened and locked; None where another process has it, or where it's gone."""
    try:
        folder = os.open(path, os.O_RDONLY | os.O_DIRECTORY | os.O_NOFOLLOW)
    except OSError:
        return None
    try:
        fcntl.flock(folder, fcntl.LOCK_EX | fcntl.LOCK_NB)
        found = os.lstat(path)
        if found.st_uid == os.geteuid() and os.path.samestat(found, os.fstat(folder)):
            return folder
    except OSError:
        pass
    os.close(folder)
    return None


def remove_unheld(path):
    """Removes a folder for the moment that a tool has left which was killed together with its keeper."""
    folder = held(path)
    if folder is not None:
        shutil.rmtree(path, ignore_errors=True)
        os.close(folder)


def watch(reader, mark):
    """Waits for the tool's end, which closes the other end of this pipe; then ends what it has started, and removes its folders."""
    os.setsid()
    for one in (signal.SIGINT, signal.SIGTERM, signal.SIGHUP):
        signal.signal(one, signal.SIG_IGN)
    nothing = os.open(os.devnull, os.O_RDWR)
    for number in range(3):
        os.dup2(nothing, number)
    os.closerange(3, reader)
    os.closerange(reader + 1, os.sysconf("SC_OPEN_MAX"))
    folders = b""
    while block := os.read(reader, 4096):
        folders += block
    end_marked(mark)
    for path in filter(None, folders.split(b"\0")):
        shutil.rmtree(path, ignore_errors=True)


def end_marked(mark):
    """Kills each process with this mark, until there is none."""
    without = 0
    for _ in range(MOST_LOOKS):
        found = marked(os.fsencode("%s=%s" % (MARK, mark)))
        for process in found:
            try:
                os.kill(process, signal.SIGKILL)
            except ProcessLookupError:
                pass
        without = 0 if found else without + 1
        if without == LOOKS:
            return
        time.sleep(APART)


def marked(word):
    """The processes that have this word in their environment."""
    found = []
    for name in filter(str.isdigit, os.listdir("/proc")):
        try:
            with open("/proc/%s/environ" % name, "rb") as file:
                if word in file.read().split(b"\0"):
                    found.append(int(name))
        except OSError:
            pass
    return found
