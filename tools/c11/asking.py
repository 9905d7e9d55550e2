"""Asks `tso outcomes` of tests, each once, some at the same time."""
import concurrent.futures
import subprocess

from .refusals import NotJudged

ANSWERED, UNFINISHED = 0, 3


class Asker:
    """Asks the program with this path; no test may take longer than so many seconds."""

    def __init__(self, program, processes=2, limit=60):
        self._program, self._limit, self._known, self.asked = program, limit, {}, 0
        self._pool = concurrent.futures.ThreadPoolExecutor(processes)

    def all_outcomes(self, texts):
        """The final states of these tests: for each a list of values by name."""
        new = [text for text in dict.fromkeys(texts) if text not in self._known]
        self.asked += len(new)
        self._known.update(zip(new, self._pool.map(self._outcomes, new)))
        return [self._known[text] for text in texts]

    def why(self, text):
        """What `tso why` prints of a test."""
        return self._run(["why"], text).stdout.decode("ascii", "replace")

    def run(self, text):
        """What `tso run` prints of a test with choices, at the depth at which `outcomes` finds its states."""
        return self._run(["run", "--depth", "32"], text).stdout.decode("ascii", "replace")

    def _outcomes(self, text):
        done = self._run(["outcomes", "--show", "all"], text)
        if done.returncode == UNFINISHED:
            raise NotJudged("a path's test has too many states")
        if done.returncode != ANSWERED:
            raise NotJudged("tso refuses a path's test: %s" % done.stdout.decode("ascii", "replace").strip().split("\n")[0])
        return [_values(line) for line in done.stdout.decode("ascii").split("\n") if line.startswith("State")]

    def _run(self, words, text):
        try:
            return subprocess.run([self._program, *words], input=text.encode("ascii"), stdout=subprocess.PIPE,
                                  stderr=subprocess.DEVNULL, timeout=self._limit)
        except subprocess.TimeoutExpired:
            raise NotJudged("a path's test takes longer than %d seconds" % self._limit) from None


def _values(line):
    """The values of a line State."""
    return {name: int(value) for name, _, value in (word.rpartition("=") for word in line.split()[1:])}
