"""Processes that are forked from a tool for what Python itself works out. They end with the tool, however it ends; and where one of them is
killed alone, that is a fault, for which nothing waits."""
import concurrent.futures
import ctypes
import multiprocessing
import os
import signal
from concurrent.futures.process import BrokenProcessPool

# That of prctl which has the system send a process a signal when what made it ends.
DEATH_SIGNAL = 1

# What ends the tool, and is often sent to all of its processes. The tool ends these.
SIGNALS = (signal.SIGINT, signal.SIGTERM, signal.SIGHUP)

# What a process of a pool works on: a function, and its items. It knows them from its beginning, and is only told which is the next.
_work = []


def _begin(parent):
    for one in SIGNALS:
        signal.signal(one, signal.SIG_IGN)
    signal.pthread_sigmask(signal.SIG_UNBLOCK, SIGNALS)
    ctypes.CDLL(None).prctl(DEATH_SIGNAL, signal.SIGKILL)
    # what made it may have ended before the system knew of this
    if os.getppid() != parent:
        os._exit(1)


def _at(number):
    function, items = _work
    return function(items[number])


class Pool:
    """So many processes."""

    def __init__(self, processes):
        self._processes, self._pool = processes, None

    def imap(self, function, items):
        """The function's answers for these items, in their order."""
        return self._answers(self._begun(function, items))

    def imap_unordered(self, function, items):
        """The same as they come."""
        return self._answers(concurrent.futures.as_completed(self._begun(function, items)))

    def terminate(self):
        """Ends the processes, whatever they do."""
        for process in multiprocessing.active_children():
            process.kill()
        if self._pool is not None:
            self._pool.shutdown(cancel_futures=True)

    def _begun(self, function, items):
        """The work on each of these items. What comes for a process that isn't ready waits until it is."""
        _work[:] = function, list(items)
        context = multiprocessing.get_context("fork")
        before = signal.pthread_sigmask(signal.SIG_BLOCK, SIGNALS)
        try:
            self._pool = concurrent.futures.ProcessPoolExecutor(self._processes, context, _begin, (os.getpid(),))
            return [self._pool.submit(_at, number) for number in range(len(_work[1]))]
        finally:
            signal.pthread_sigmask(signal.SIG_SETMASK, before)

    @staticmethod
    def _answers(futures):
        try:
            for future in futures:
                yield future.result()
        except BrokenProcessPool:
            raise OSError("a process that worked for this one was killed") from None
