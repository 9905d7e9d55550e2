"""Compiled tests on a cluster of Dask's. The compilers run here, so all objects are of the same ones. A worker gets the object, what clang
says of the source, the program and this tool, and has a process of its own judge each."""
import collections
import concurrent.futures
import glob
import hashlib
import json
import os
import shutil
import signal
import subprocess
import sys

import engines
from engines import Placer, place_of

from . import apart, compiling, judging, verdicts
from .refusals import NotJudged

TOOLS = os.path.dirname(os.path.dirname(os.path.abspath(__file__)))
# So many tests are compiled before they are wanted, for each process.
AHEAD = 4


def files_of_tool():
    """The files that a worker's process needs, by their places below the tools' folder."""
    found = {}
    for folder in ("", "c11", "tso"):
        for path in sorted(glob.glob(os.path.join(TOOLS, folder, "*.py"))):
            with open(path, "rb") as file:
                found[os.path.relpath(path, TOOLS)] = file.read()
    return found


def digest_of(files):
    """A digest of some files, by their names and bytes."""
    return hashlib.sha256(json.dumps([[name, hashlib.sha256(content).hexdigest()] for name, content in sorted(files.items())]).encode()).hexdigest()


def tool_of(worker, digest):
    """The folder of the tool at a worker."""
    return os.path.join(worker.local_directory, "tso-c11-" + digest)


class ToolPlacer(Placer):
    """Puts the program and this tool in the folder of each worker."""

    def __init__(self, program, digest, files, tool):
        super().__init__(program, digest)
        self.files, self.tool, self.name = files, tool, "%s-c11-%s" % (self.name, tool)

    def setup(self, worker):
        """Called by Dask in each worker."""
        super().setup(worker)
        folder = tool_of(worker, self.tool)
        if os.path.exists(folder):
            return
        new = folder + ".new"
        shutil.rmtree(new, ignore_errors=True)
        for name, content in self.files.items():
            path = os.path.join(new, name)
            os.makedirs(os.path.dirname(path), exist_ok=True)
            with open(path, "wb") as file:
                file.write(content)
        os.rename(new, folder)


def function_for(digest, tool):
    """What a worker is to call, with the plain data of a task. It is no name of a module: only so Dask sends it by value."""
    def at_worker(members, told, limit):
        import distributed
        worker = distributed.get_worker()
        found = judged_apart(tool_of(worker, tool), dict(told, program=place_of(worker, digest)), limit)
        if "lacks" in found:
            found["lacks"] = worker.address
        return dict(found, **members)
    return at_worker


def too_slow(limit):
    """The result of a task that took longer than so many seconds."""
    return {"fault": "it took over %g seconds" % limit}


def judged_apart(folder, told, limit):
    """The result of a task by a process of its own, which ends with the worker, and after so many seconds."""
    words = [*(["setpriv", "--pdeathsig", "KILL"] if shutil.which("setpriv") else []), sys.executable, os.path.join(folder, "c11")]
    with subprocess.Popen(words, stdin=subprocess.PIPE, stdout=subprocess.PIPE, stderr=subprocess.PIPE, start_new_session=True) as judge:
        try:
            output, errors = judge.communicate(json.dumps(told).encode("ascii"), limit)
        except subprocess.TimeoutExpired:
            os.killpg(judge.pid, signal.SIGKILL)
            return too_slow(limit)
    try:
        return json.loads(output)
    except ValueError:
        said = errors.decode("utf-8", "replace").strip().split("\n")[-1]
        return {"fault": "the process that judges ended with status %d: %s" % (judge.returncode, said)}


class Compiled:
    """A task of a cluster: a test and a compiler, with what the worker is told."""

    def __init__(self, task, told, limit):
        self.key, self.limit, self._task, self._told = task.key, limit, task, told

    def plain(self):
        return self._task.members(), self._told, self.limit

    def fault(self, why):
        return dict(self._task.members(), fault=why)


def compiled(asked, some):
    """The tasks of one test, compiled; of those whose compiler refuses the test or is too slow, or whose source isn't read, the results."""
    source, found = verdicts.SourceJudge(some[0].test, asked.model), []
    for task in some:
        try:
            content = compiling.object_of(task.compiler, task.test.text, task.test.name, asked.limit)
            source.read(asked.limit)
            found.append(Compiled(task, apart.told_of(source, task.compiler, content, asked), asked.limit))
        except NotJudged as fault:
            found.append(dict(apart.members_of(judging.not_judged(task.test.name, task.compiler, fault)), **task.members()))
        except subprocess.TimeoutExpired:
            found.append(dict(too_slow(asked.limit), **task.members()))
    return found


def compiled_ahead(asked, work):
    """The same of each of these tests, in their order, made a little before it is wanted."""
    coming, made, pool = iter(work), collections.deque(), concurrent.futures.ThreadPoolExecutor(asked.processes)
    try:
        while True:
            while len(made) < AHEAD * asked.processes and (some := next(coming, None)):
                made.append(pool.submit(compiled, asked, some))
            if not made:
                return
            yield from made.popleft().result()
    finally:
        # a compiler that runs has no end of its own that anybody waits for
        pool.shutdown(wait=False, cancel_futures=True)


def results(asked, digest, work, say):
    """The results of these tasks, lists of those of one test, as they come."""
    files = files_of_tool()
    tool = digest_of(files)
    with open(asked.program, "rb") as file:
        program = file.read()
    modules = [engines, sys.modules[__name__]]
    asking = engines.Work(modules, function_for(digest, tool), ToolPlacer, program, digest, files, tool)
    cluster = engines.Cluster(asked.scheduler, asking, say)
    refused = collections.deque()

    def to_workers():
        for one in compiled_ahead(asked, work):
            if isinstance(one, Compiled):
                yield one
            else:
                refused.append(one)

    try:
        for one in cluster.run(to_workers()):
            yield one
            while refused:
                yield refused.popleft()
        yield from refused
    finally:
        cluster.close()
