"""Programs that are started for an answer, each in a process group of its own: with it end all the processes that it has started."""
import os
import selectors
import signal
import subprocess
import time

# What runs now; and, once nothing more may be started, why.
running, closed = set(), []


class Ended(Exception):
    """Nothing is started any more: who asks is about to end."""


def begin(words, **how):
    """A process of these words; the options are those of subprocess.Popen."""
    process = subprocess.Popen(words, start_new_session=True, **how)
    running.add(process)
    if closed:
        end(process)
        raise Ended(closed[0])
    return process


def end(process):
    """Ends a process, and all that it has started."""
    try:
        os.killpg(process.pid, signal.SIGKILL)
    except (ProcessLookupError, PermissionError):
        process.kill()
    process.wait()
    running.discard(process)


def end_all(why):
    """Ends all that run, and lets none begin after that."""
    closed.append(why)
    for process in list(running):
        try:
            os.killpg(process.pid, signal.SIGKILL)
        except (ProcessLookupError, PermissionError):
            pass


def answered(words, given=None, limit=None):
    """How the process of these words ended, with the bytes of its output and its errors; subprocess.TimeoutExpired where it hasn't in so
    many seconds. Without `given` its input is empty."""
    process = begin(words, stdin=subprocess.DEVNULL if given is None else subprocess.PIPE, stdout=subprocess.PIPE, stderr=subprocess.PIPE)
    try:
        output, errors = process.communicate(given, timeout=limit)
    except BaseException:
        end(process)
        raise
    running.discard(process)
    return subprocess.CompletedProcess(words, process.returncode, output, errors)


# ---- several at once

# So many bytes are read at once.
BLOCK = 2 ** 16

# A program that has closed its streams is about to end: it is looked at after so many seconds, then after twice as many, up to the most.
SOON, MOST_APART = 0.0002, 0.05

# So many seconds it waits at a time: Python hears of a signal that came just before a wait only after it.
LONGEST = 1


class Talk:
    """A program that runs: what is left of its input, what it has printed, and when its time is over. `mark` is whose it is."""

    def __init__(self, mark, words, given, limit):
        self.mark, self.words, self.left, self.limit = mark, words, given, limit
        self.process = begin(words, stdin=subprocess.PIPE, stdout=subprocess.PIPE, stderr=subprocess.PIPE, bufsize=0)
        self.printed = {self.process.stdout: [], self.process.stderr: []}
        self.streams = {self.process.stdin, *self.printed}
        self.over = None if limit is None else time.monotonic() + limit
        os.set_blocking(self.process.stdin.fileno(), False)

    def go_on(self, stream):
        """Gives the program as much of its input as it takes now, or takes what it has printed; whether that was all."""
        return self.take(stream) if stream in self.printed else self.give()

    def give(self):
        try:
            self.left = self.left[os.write(self.process.stdin.fileno(), self.left):]
        except BlockingIOError:
            return False
        except BrokenPipeError:
            return True
        return not self.left

    def take(self, stream):
        block = os.read(stream.fileno(), BLOCK)
        self.printed[stream].append(block)
        return not block

    def has_ended(self):
        return not self.streams and self.process.poll() is not None

    def done(self):
        """How the program ended."""
        return subprocess.CompletedProcess(self.words, self.process.returncode, *map(b"".join, self.printed.values()))


class AtOnce:
    """Programs that run at once, for a single thread, which begins them and asks which have ended. What passes while it does something else
    doesn't count for their time."""

    def __init__(self):
        self.talks, self.faults, self.selector = [], [], selectors.DefaultSelector()
        self.apart, self.since = SOON, time.monotonic()

    def __len__(self):
        return len(self.talks) + len(self.faults)

    def begin(self, mark, words, given, limit):
        """Begins a program, which `ended` names by this mark."""
        try:
            talk = Talk(mark, words, given, limit)
        except OSError as fault:
            self.faults.append((mark, fault))
            return
        self.talks.append(talk)
        for stream in talk.printed:
            self.selector.register(stream, selectors.EVENT_READ, talk)
        self.selector.register(talk.process.stdin, selectors.EVENT_WRITE, talk)
        self.go_on(talk, talk.process.stdin)

    def ended(self, waits):
        """The marks of the programs that have ended, each with how: a CompletedProcess, the OSError with which it couldn't begin, or
        TimeoutExpired. Where none has, it waits until one does, if it is to."""
        found, self.faults = self.faults, []
        away = time.monotonic() - self.since
        for talk in self.talks:
            talk.over = talk.over and talk.over + away
        self.listen(waits and not found)
        found += self.settled()
        while waits and self.talks and not found:
            self.listen(True)
            found += self.settled()
        self.since = time.monotonic()
        return found

    def listen(self, waits):
        """Feeds and hears the programs that are ready for it. Where none is, it waits for one, no longer than until one is to be looked at."""
        times = [talk.over - time.monotonic() for talk in self.talks if talk.over is not None]
        times += [self.apart] * any(not talk.streams for talk in self.talks)
        times = [*times, LONGEST] if waits else [0]
        for key, _ in self.selector.select(max(0, min(times))):
            self.go_on(key.data, key.fileobj)

    def go_on(self, talk, stream):
        """Goes on at a stream of a program that is ready, and closes it where that was all."""
        if talk.go_on(stream):
            self.close(talk, stream)

    def close(self, talk, stream):
        self.selector.unregister(stream)
        talk.streams.remove(stream)
        stream.close()

    def settled(self):
        """Those that have ended, or whose time is over, with how. They are gone then."""
        found, now = [], time.monotonic()
        for talk in list(self.talks):
            if talk.has_ended():
                found.append((talk, talk.done()))
                running.discard(talk.process)
            elif talk.over is not None and now >= talk.over:
                found.append((talk, subprocess.TimeoutExpired(talk.words, talk.limit)))
                end(talk.process)
        for talk, _ in found:
            self.talks.remove(talk)
            for stream in list(talk.streams):
                self.close(talk, stream)
        self.apart = min(2 * self.apart, MOST_APART) if not found and any(not talk.streams for talk in self.talks) else SOON
        return [(talk.mark, how) for talk, how in found]
