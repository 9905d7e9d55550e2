"""Compiled tests by the thousands, for tools/campaign: each test by each compiler, side by side, with a file of results that goes on.

    tools/campaign compiled TEST.. --cc 'gcc -O2' --cc 'clang -O3' --results FILE

    --cc 'COMPILER WORDS'     a compiler; each is a row (gcc -O2)
    --results FILE            keeps each verdict in this file: the same words go on where a campaign was stopped
    --model rc11|ra|sc        the source's model (rc11)
    --unroll N                how often a loop may go round again (1)
    --program FILE            whose `outcomes` is asked (the one beside this tool, or tso on the path); a first word that is a program too
    --processes N             at once (as many as there are processors)
    --limit S                 seconds that a test and compiler may take (600)
    --scheduler ADDRESS       a cluster of Dask's judges what compilers of this machine make, in place of processes of this machine
    --json                    a JSON line a row in place of the table
    --log FILE                writes a log of all states too, in herd's form; of one compiler alone
    --page FILE               writes a page for a browser too: totals, findings first, a test with its states at a click
    --force                   log and page may take the place of files that no campaign wrote

TEST is what tools/compiled reads: a file of C or in herd's form, a folder, or @LIST. The table begins with what wants to be looked at:
DIFFERS (a state isn't allowed by C11), FAULT (too slow, or the tool failed), REFUSED (a text that is no test), OPEN (something isn't read).
Then come those that say little (unjudged: a bounded answer, a race, undefined behaviour), and the others (same). The status is 0 where these
two are all, 1 where one DIFFERS, and 2 where another one wants to be looked at. A verdict is made anew where the test, the program, a
compiler's version or this tool has changed. On a cluster the workers need Debian's packages python3-capstone and python3-pyelftools.
docs/COMPILED.md has more.
"""
import argparse
import glob
import hashlib
import json
import os
import shlex
import signal
import subprocess
import sys
import time

import engines
import outputs
import pages
import reports
import results
import scripts
import tso
import verdicts as table

from . import apart, clustered, judging, verdicts
from .asking import Asker
from .refusals import NotJudged

RANKS = {verdicts.NOT_ALLOWED: table.DIFFERS, verdicts.NOT_JUDGED: table.OPEN, verdicts.RACE: table.UNJUDGED,
         verdicts.UNDEFINED: table.UNJUDGED, verdicts.BOUNDED: table.UNJUDGED, verdicts.OK: table.SAME}


def words_of(given):
    """The arguments, and the parser that refuses what is wrong with them."""
    parser = argparse.ArgumentParser(prog="campaign compiled", usage="%(prog)s TEST.. [--cc 'gcc -O2'].. [--results FILE]",
                                     description=__doc__, formatter_class=argparse.RawDescriptionHelpFormatter)
    parser.add_argument("tests", nargs="+", metavar="TEST")
    parser.add_argument("--cc", action="append", default=[])
    parser.add_argument("--results", metavar="FILE")
    parser.add_argument("--model", choices=("rc11", "ra", "sc"), default="rc11")
    parser.add_argument("--unroll", type=int, default=1)
    parser.add_argument("--program")
    parser.add_argument("--processes", type=int, default=len(os.sched_getaffinity(0)))
    parser.add_argument("--limit", type=scripts.seconds, default=600)
    parser.add_argument("--scheduler", metavar="ADDRESS")
    parser.add_argument("--json", action="store_true")
    parser.add_argument("--log", metavar="FILE")
    parser.add_argument("--page", metavar="FILE")
    parser.add_argument("--force", action="store_true")
    asked = parser.parse_intermixed_args(given)
    asked.cc = list(dict.fromkeys(asked.cc)) or ["gcc -O2"]
    if asked.unroll < 0 or asked.processes < 1 or asked.limit <= 0:
        parser.error("--unroll is 0 or more, --processes and --limit are more than 0")
    if asked.log and len(asked.cc) > 1:
        parser.error("--log has each test once: give one compiler")
    first = asked.tests[0]
    if asked.program is None and os.path.isfile(first) and os.access(first, os.X_OK) and not first.endswith((".c", ".litmus")):
        asked.program, asked.tests = first, asked.tests[1:]
    if not asked.tests:
        parser.error("tests are wanted: a file, a folder, or @LIST")
    # What tools/compiled has beside these: a campaign tells reasons, and reads what compilers make.
    asked.code = asked.keep = None
    asked.why = True
    return asked


# ---- tasks and their results

class Task:
    """A test and a compiler. The key is a digest of all that the verdict depends on."""

    command = "compiled"

    def __init__(self, stamp, test, compiler):
        self.test, self.compiler = test, compiler
        self.key = hashlib.sha256(json.dumps([stamp, compiler, test.name, test.text]).encode()).hexdigest()[:32]

    def members(self):
        """What names it in its result."""
        return {"task": self.key, "test": self.test.name, "options": self.compiler}


def stamp_of(asked, digest):
    """What all verdicts of a campaign depend on: the program, this tool, the compilers' versions, and the model."""
    tool = hashlib.sha256()
    for path in sorted(glob.glob(os.path.join(os.path.dirname(__file__), "*.py"))):
        with open(path, "rb") as file:
            tool.update(file.read())
    return [digest, tool.hexdigest(), {compiler: version_of(compiler) for compiler in asked.cc}, asked.model, asked.unroll]


def version_of(compiler):
    """The first line that a compiler says of its version; of one that isn't there none."""
    try:
        done = subprocess.run([*shlex.split(compiler)[:1], "--version"], stdout=subprocess.PIPE, stderr=subprocess.DEVNULL, check=False)
    except OSError:
        return None
    return done.stdout.decode("utf-8", "replace").split("\n")[0]


def is_verdict(one):
    """Whether a value is what a task of such a campaign answers."""
    return (isinstance(one, dict) and all(isinstance(one.get(name), str) for name in ("task", "test", "options", "told"))
            and one.get("word") in RANKS and isinstance(one.get("is_exact"), bool)
            and all(isinstance(one.get(name), list) and all(isinstance(text, str) for text in one[name])
                    for name in ("states", "allowed", "extra", "why")))


class Kept(results.Results):
    """The verdicts in a file of results, by task."""

    beginnings = (b'{"allowed": ',)
    is_result = staticmethod(is_verdict)

    def has(self, task):
        return task.key in self.found


# ---- the work, in processes of a pool

ASKERS = {}


def carry_out(work):
    """The verdicts on one test by some compilers; each takes at most so many seconds."""
    asked, tasks = work
    if asked.program not in ASKERS:
        ASKERS[asked.program] = Asker(asked.program, 1, min(asked.limit, apart.LONGEST_CALL))
    source = verdicts.SourceJudge(tasks[0].test, asked.model)
    return [dict(_within(asked, source, task), **task.members()) for task in tasks]


class TooSlow(Exception):
    """A test and compiler take longer than they may; no fault of the system's that a compiler's call could meet."""


def _within(asked, source, task):
    def stop(*_):
        raise TooSlow

    signal.signal(signal.SIGALRM, stop)
    try:
        signal.setitimer(signal.ITIMER_REAL, asked.limit)
        return apart.members_of(judging.judged(source, task.compiler, asked, ASKERS[asked.program]))
    except TooSlow:
        return clustered.too_slow(asked.limit)
    except Exception as fault:
        return apart.fault_of(fault)
    finally:
        signal.setitimer(signal.ITIMER_REAL, 0)


class Progress:
    """A line on standard error, where that is a terminal: how many programs are judged of how many."""

    def __init__(self, known):
        self._known, self._ended, self._since, self._is_shown = known, 0, time.monotonic(), sys.__stderr__ and sys.__stderr__.isatty()

    def one_more(self):
        self._ended += 1
        if self._is_shown:
            sys.__stderr__.write("\r%d of %d programs, %d s " % (self._ended, self._known, time.monotonic() - self._since))
            sys.__stderr__.flush()

    def say(self, words):
        """Says something, on a line of its own."""
        self.end()
        print("campaign: " + words, file=sys.stderr, flush=True)

    def end(self):
        if self._is_shown and self._ended:
            sys.__stderr__.write("\n")


def by_processes(asked, work, pool_of):
    """The results of these tasks, lists of those of one test, by processes of this machine, as they come."""
    pool = pool_of(min(asked.processes, len(work)))
    try:
        for found in pool.imap_unordered(carry_out, [(asked, some) for some in work]):
            yield from found
    finally:
        pool.terminate()


def run(asked, digest, tasks, kept, pool_of):
    """Has the tasks carried out that have no result, those of one test together, and keeps what they answer as it comes."""
    work = {}
    for task in tasks:
        if not kept.has(task):
            work.setdefault(task.test, []).append(task)
    if not work:
        return
    progress, work = Progress(sum(map(len, work.values()))), list(work.values())
    coming = clustered.results(asked, digest, work, progress.say) if asked.scheduler else by_processes(asked, work, pool_of)
    try:
        for one in coming:
            kept.add(one)
            progress.one_more()
    finally:
        progress.end()
        coming.close()


# ---- the table

class Row(table.Line):
    """A row of the table: a test by a compiler."""

    def text(self):
        members = self.members
        shown = ["%-7s %s" % (self.rank, members["test"]), members["options"], members.get("word", "")]
        shown += ["%s=%d" % (name, len(members[name])) for name in ("states", "allowed") if members.get(name)]
        shown += ["--unroll %d" % members["unroll"]] if members.get("word") == verdicts.BOUNDED else []
        told = members.get("told") or members.get("fault") or " and ".join(members.get("extra", [])[:2])
        return " ".join(filter(None, shown)) + (" - " + told if told else "")


def row_of(task, one, asked):
    if "fault" in one:
        return Row(task.test.name, [task.compiler], table.FAULT, {"fault": one["fault"], "why": [one["fault"]]}, task.test.text)
    members = {name: value for name, value in one.items() if name not in ("task", "test", "options", "tests")}
    members.update(states=list(map(state_of, one["states"])), unroll=asked.unroll)
    return Row(task.test.name, [task.compiler], RANKS[one["word"]], members, task.test.text)


def state_of(text):
    """A state's words by name."""
    pairs = [word.partition("=") for word in text.split()]
    if not all(sign for _, sign, _ in pairs):
        return {"fault": text}
    return {name: int(value) if value.isdigit() else value for name, _, value in pairs}


def log_of(rows):
    """A log of the rows that have states, in herd's form."""
    told = [judging.log_of(row.members["test"], [" ".join("%s=%s" % pair for pair in state.items()) for state in row.members["states"]])
            for row in rows if row.members.get("states")]
    return "\n".join([*told, reports.END_OF_LOG])


class Totals:
    """What a campaign tells at its end."""

    def __init__(self, rows, tests, asked, seconds):
        self._rows, self._tests, self._asked, self._seconds = rows, tests, asked, seconds

    def lines(self):
        """All of it, in two lines."""
        looks = sum(row.wants_a_look() for row in self._rows)
        unjudged = sum(row.rank == table.UNJUDGED for row in self._rows)
        program = tso.version(self._asked.program) or "a program without a version"
        return ["%d rows, %d of them want to be looked at, %d unjudged" % (len(self._rows), looks, unjudged),
                "%d tests by %s, %.1f s, by %s" % (self._tests, " and ".join(self._asked.cc), self._seconds, program)]


def check(asked, tests):
    """Refuses files for the results, the log and the page that are one, or that have something else; and a log that can't tell tests."""
    named = [path for path in (asked.results, asked.log, asked.page) if path and os.path.realpath(path) != os.devnull]
    for at, path in enumerate(named):
        if any(outputs.same_file(path, other) for other in named[:at]):
            raise outputs.Occupied("two of --results, --log and --page are one file, %s" % path)
    for path, is_own in ((asked.log, reports.is_log), (asked.page, pages.is_page)):
        if path:
            outputs.check(path, asked.force, is_own)
    names = sorted(test.name for test in tests)
    twice = [name for name, other in zip(names, names[1:]) if name == other]
    if asked.log and twice:
        raise ValueError("--log can't tell two tests of one name apart: %s" % twice[0])


def main(given, pool_of):
    """A campaign by these words. `pool_of` makes a pool of so many processes. Answers the status."""
    asked, since = words_of(given), time.monotonic()
    asked.program = tso.find(asked.program)
    found = list(judging.tests_in(asked.tests))
    tests = list(dict.fromkeys(test for _, test in found if not isinstance(test, NotJudged)))
    check(asked, tests)
    with open(asked.program, "rb") as file:
        digest = hashlib.sha256(file.read()).hexdigest()
    stamp = stamp_of(asked, digest)
    tasks = [Task(stamp, test, compiler) for test in tests for compiler in asked.cc]
    kept = Kept(asked.results) if asked.results else results.Unkept()
    with judging.room():
        run(asked, digest, tasks, kept, pool_of)
    rows = [row_of(task, kept.found[task.key], asked) for task in tasks]
    rows += [Row(path, [], table.REFUSED, {"told": str(fault), "why": [str(fault)]}) for path, fault in found if isinstance(fault, NotJudged)]
    rows.sort(key=Row.order)
    for row in rows:
        print(json.dumps(row.members, sort_keys=True) if asked.json else scripts.printable(row.text()))
    sys.stdout.flush()
    totals = Totals(rows, len(tests), asked, time.monotonic() - since)
    for line in totals.lines():
        print("campaign: " + line, file=sys.stderr)
    if asked.page:
        outputs.write_all({asked.page: pages.page_of("compiled", totals, rows).encode()}, asked.force, pages.is_page)
    if asked.log:
        outputs.write_all({asked.log: log_of(rows).encode("utf-8")}, asked.force, reports.is_log)
    if any(row.rank == table.DIFFERS for row in rows):
        return scripts.DIFFERS
    return scripts.COULD_NOT if any(row.wants_a_look() for row in rows) else scripts.SAME
