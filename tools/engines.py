"""What carries out the tasks of a campaign: processes of this machine, or a cluster of Dask's."""
import collections
import glob
import os
import queue
import shutil
import sys
import time

import answers
import tasks
import tso

# Seconds for a result to come from the worker that has it.
FETCH = 5

# Seconds without a worker until that is said.
ALONE = 5

# What a campaign whose scheduler ends is told.
GONE = "the scheduler is gone; the same words go on"

# A task that failed is tried so often before its fault is the result.
TRIES = 2


class Waiting:
    """The tasks that wait to be given out; those that come are taken while others are carried out."""

    def __init__(self, coming):
        self.coming, self.tasks = iter(coming), collections.deque()

    def take_one(self):
        """Takes one more of those that come. Whether there was one."""
        task = next(self.coming, None)
        self.tasks.extend([task] if task else [])
        return task is not None

    def is_one(self):
        return bool(self.tasks) or self.take_one()


class Asking:
    """A task that is carried out by a program: its steps, and the question that is asked now."""

    def __init__(self, task, program):
        self.task, self.steps = task, task.steps(program)
        self.question = next(self.steps)

    def asked(self):
        """Words, input and limit of the call that asks the question."""
        asked = self.question.asked
        return asked.words, asked.given, asked.limit

    def result(self, done):
        """The task's result, once the program has ended so; None where there is a further question then."""
        try:
            self.question = self.steps.send(self.question.record(done))
        except StopIteration as end:
            return end.value
        return None


def by_processes(program, coming, processes):
    """The results of these tasks, which may still be made, by processes of this machine, as they come. There is a single thread: several
    would wait for each other longer than for most answers."""
    waiting, tried, running = Waiting(coming), collections.Counter(), tso.processes.AtOnce()
    try:
        while waiting.is_one() or running:
            while len(running) < processes and waiting.is_one():
                asking = Asking(waiting.tasks.popleft(), program)
                tried[asking.task.key] += 1
                running.begin(asking, *asking.asked())
            for asking, done in running.ended(not waiting.take_one()):
                one = asking.result(done)
                if one is None:
                    running.begin(asking, *asking.asked())
                elif "fault" in one and tried[asking.task.key] < TRIES:
                    waiting.tasks.append(asking.task)
                else:
                    yield one
    except BaseException:
        # what runs has no end of its own that anybody waits for
        tso.processes.end_all("stopped")
        raise


class NoCluster(Exception):
    """There is no cluster that can take the tasks."""


def dask():
    """Dask's modules, asked for only where a scheduler is named."""
    try:
        import cloudpickle
        import distributed
        return distributed, cloudpickle
    except ImportError:
        pass
    for other in ["/usr/bin/python3"] + sorted(glob.glob("/usr/bin/python3.*[0-9]")):
        if os.path.exists(other) and tso.processes.answered([other, "-c", "import distributed"]).returncode == 0:
            raise NoCluster("this Python, %s, has no Dask distributed, but %s has: run `%s %s ..`" % (
                sys.executable, other, other, sys.argv[0]))
    raise NoCluster("this Python, %s, has no Dask distributed; Debian's package python3-distributed has it, for /usr/bin/python3"
                    % sys.executable)


# How a worker starts the program: it ends with the worker, whatever ends that.
BOUND = """#!/bin/sh
exec setpriv --pdeathsig KILL "$0.program" "$@"
"""


def place_of(worker, digest):
    return os.path.join(worker.local_directory, "tso-" + digest)


class Placer:
    """Puts the program in the folder of each worker, also of one that comes later, and looks whether it can run there."""

    def __init__(self, program, digest):
        self.program, self.digest, self.name, self.bound = program, digest, "tso-" + digest, BOUND.encode()
        self.wanted = "%d.%d" % sys.version_info[:2]

    def setup(self, worker):
        """Called by Dask in each worker."""
        self.check()
        path = place_of(worker, self.digest)
        if shutil.which("setpriv"):
            self.put(path + ".program", self.program)
            self.put(path, self.bound)
        else:
            self.put(path, self.program)

    def check(self):
        """Refuses a worker on which the program or what is sent to it can't run."""
        here, library = "%d.%d" % sys.version_info[:2], os.confstr("CS_GNU_LIBC_VERSION") or "no glibc"
        if here != self.wanted:
            raise RuntimeError("a worker has Python %s, not %s" % (here, self.wanted))
        if not library.startswith("glibc ") or tuple(map(int, library[6:].split("."))) < (2, 34):
            raise RuntimeError("a worker has %s, older than glibc 2.34" % library)

    def put(self, path, content):
        """Writes a program for a worker, whole, by its name."""
        with open(path + ".new", "wb") as file:
            file.write(content)
        os.chmod(path + ".new", 0o755)
        os.replace(path + ".new", path)


def function_for(digest):
    """What a worker is to call, with the plain data of a task. It is no name of a module: only so Dask sends it by value."""
    def at_worker(command, text, words, limit, seeds, show):
        import distributed
        return tasks.Task(digest, command, text, words, limit, seeds, show).carry_out(place_of(distributed.get_worker(), digest))
    return at_worker


class Work:
    """What a cluster is to do: `modules`, which travel by value; `function`, which a worker calls with the plain data of a task; and
    `placer`, of which one, made of `placed`, puts what the tasks need in each worker's folder."""

    def __init__(self, modules, function, placer, *placed):
        self.modules, self.function, self.placer, self.placed = modules, function, placer, placed


def asking(program, digest):
    """The work of asking the program with this path and digest."""
    with open(program, "rb") as file:
        return Work([answers, tasks, tso, sys.modules[__name__]], function_for(digest), Placer, file.read(), digest)


class Workers:
    """How many threads the workers of a cluster have, which is looked at each second; where there are none for some seconds, that is
    said once."""

    def __init__(self, count, address, say):
        self.count, self.address, self.say = count, address, say
        self.threads, self.looked, self.since, self.said = 0, None, time.monotonic(), False

    def looked_at(self):
        """Looks, where the last look is a second ago; whether it did."""
        now = time.monotonic()
        if self.looked is not None and now - self.looked < 1:
            return False
        self.threads, self.looked = self.count(), now
        if self.threads:
            self.since, self.said = now, False
        elif now - self.since >= ALONE and not self.said:
            self.said = True
            self.say("no workers at %s; the tasks wait for them" % self.address)
        return True


class Given:
    """A task that is given out: since when, how often, how often it failed, its futures, and the workers that may have it, None for all.
    The task has a `key`, a `limit` in seconds, its `plain` data for a worker, and a `fault` by a reason."""

    def __init__(self, task):
        self.task, self.since, self.times, self.failed, self.futures, self.workers = task, 0.0, 0, 0, [], None


class Cluster:
    """A cluster of Dask's, for some work. Programs and functions travel by value, so workers need nothing of this project. What people
    are to know, it tells `say`."""

    def __init__(self, address, work, say):
        self.distributed, cloudpickle = dask()
        self.address, self.say = address, say
        # what Dask says of connections that end is told in one line here
        import logging
        logging.disable(logging.CRITICAL)
        for module in work.modules:
            cloudpickle.register_pickle_by_value(module)
        try:
            self.client = self.distributed.Client(address, timeout=10, set_as_default=False)
        except (OSError, ValueError, TypeError) as fault:
            # a TypeError is what it says of TLS without a certificate
            raise NoCluster("no scheduler answers at %s: %s" % (address, " ".join(str(fault).split()))) from None
        self.check_versions()
        self.function, self.done, self.given = work.function, queue.SimpleQueue(), {}
        self.waiting, self.suspects, self.alone = Waiting(()), collections.deque(), False
        self.lacking, self.has_answered = set(), False
        self.place(work)

    def place(self, work):
        """Has what the tasks need put in each worker's folder."""
        placer = type("Placer", (work.placer, self.distributed.WorkerPlugin), {})(*work.placed)
        # newer versions of Dask have it under this name
        register = getattr(self.client, "register_plugin", None) or self.client.register_worker_plugin
        try:
            register(placer, name=placer.name)
        except RuntimeError as fault:
            raise NoCluster(str(fault)) from None

    def check_versions(self):
        """Dask asks that its versions are the same all over the cluster."""
        told = self.client.get_versions()
        own = told["client"]["packages"]
        others = dict(told["workers"], scheduler=told["scheduler"])
        for name in ("python", "dask", "distributed"):
            for where, one in others.items():
                if one["packages"][name] != own[name]:
                    raise NoCluster("%s has %s %s, and here is %s" % (where, name, one["packages"][name], own[name]))

    def able(self):
        """The threads of each worker that lacks nothing; of all where each lacks something, and none has answered that doesn't: such a one
        comes again."""
        threads = self.client.nthreads()
        return {worker: count for worker, count in threads.items() if worker not in self.lacking} or ({} if self.has_answered else threads)

    def threads(self):
        return sum(self.able().values())

    def holders(self, one):
        """The workers that have this task, or its result."""
        if not one.futures:
            return set()
        keys = {future.key for future in one.futures}
        found = {worker for worker, having in self.client.processing().items() if keys & set(having)}
        return found.union(*self.client.who_has(one.futures).values())

    def give(self, one):
        """Gives a task out, under a new key each time, and not to a worker that holds it already, or lacks what it needs."""
        holders = self.holders(one)
        one.workers = [worker for worker in self.able() if worker not in holders] or None if holders or self.lacking else None
        one.times += 1
        one.since = time.monotonic()
        key = "%s-%d" % (one.task.key, one.times)
        future = self.client.submit(self.function, *one.task.plain(), key=key, pure=False, workers=one.workers)
        one.futures.append(future)
        self.given[one.task.key] = one
        future.add_done_callback(lambda ended: self.done.put((one.task.key, ended)))

    def settled(self, seconds):
        """The next task that came back, and its result or what ended it; None where none comes in so many seconds. The first answer to
        a task counts."""
        try:
            key, future = self.done.get(timeout=seconds)
        except queue.Empty:
            return None
        one = self.given.get(key)
        if one is None or future.status not in ("finished", "error"):
            return None
        fault = result = None
        try:
            if future.status == "error":
                fault = future.exception()
            else:
                result = future.result(timeout=FETCH)
        except (self.distributed.TimeoutError, self.distributed.CancelledError):
            # its worker was paused when it had the result
            self.give(one)
            return None
        del self.given[key]
        for other in one.futures:
            other.release()
        one.futures.clear()
        return one, result, fault

    def give_again(self):
        """Gives out once more each task that is past its time: a paused worker may have it, or one that hangs. No more than one other is
        before a task at its worker, so it has ended in twice its limit or never. So it goes with a task none of whose workers is left."""
        there = self.client.nthreads().keys()
        for one in list(self.given.values()):
            if time.monotonic() - one.since > 2 * one.task.limit + 2 or one.workers and there.isdisjoint(one.workers):
                self.give(one)

    def give_more(self, threads):
        """Keeps each thread with a task and one more before it. What may have ended its workers comes last, and alone."""
        while len(self.given) < 2 * threads and self.waiting.is_one():
            self.give(self.waiting.tasks.popleft())
        self.alone = self.alone or not self.waiting.is_one() and not self.given
        if self.alone and self.suspects and not self.given and threads:
            self.give(self.suspects.popleft())

    def judge(self, one, result, fault):
        """The result that a task came back with; None where it is to be tried once more."""
        if isinstance(fault, self.distributed.KilledWorker):
            if self.alone:
                return one.task.fault("it ended its workers")
            self.suspects.append(one)
            return None
        if result is not None and "fault" not in result:
            self.has_answered = True
            return result
        if result is not None and "lacks" in result and self.is_left_out(result.pop("lacks"), result["fault"]):
            self.waiting.tasks.append(one)
            return None
        one.failed += 1
        if one.failed < TRIES:
            self.waiting.tasks.append(one)
            return None
        return result or one.task.fault("%s: %s" % (type(fault).__name__, fault))

    def is_left_out(self, worker, why):
        """Leaves out a worker that lacks what the tasks need, and says so once; False where no other one is there or comes again."""
        if worker not in self.lacking:
            self.lacking.add(worker)
            self.say("%s at %s: it gets no more tasks while others are there" % (why, worker))
        return self.has_answered or not self.lacking.issuperset(self.client.nthreads())

    def run(self, coming):
        """The results of these tasks, which may still be made, as they come."""
        self.waiting = Waiting(map(Given, coming))
        workers = Workers(self.threads, self.address, self.say)
        while self.waiting.is_one() or self.suspects or self.given:
            result = self.next_result(workers)
            if result is not None:
                yield result

    def next_result(self, workers):
        """Keeps the workers with tasks, and waits a moment for a result; None where none comes. NoCluster where the scheduler is gone."""
        try:
            if workers.looked_at():
                self.give_again()
            if self.client.status != "running":
                raise NoCluster(GONE)
            self.give_more(workers.threads)
            found = self.settled(0 if self.waiting.take_one() else 0.5)
        except (OSError, self.distributed.CancelledError, self.distributed.TimeoutError, RuntimeError):
            raise NoCluster(GONE) from None
        return None if found is None else self.judge(*found)

    def close(self):
        """Ends the connection, if it doesn't end by itself: a scheduler that is gone says nothing more."""
        try:
            self.client.close(timeout=2)
        except (OSError, self.distributed.TimeoutError):
            pass
