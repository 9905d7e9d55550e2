"""tools/campaign on a cluster of Dask's, for tests/batteries.py and tests/cluster.py: four workers of this machine, of which one is
ended, one paused, and one ended with its nanny; no workers, and a scheduler that ends."""
import os
import re
import signal
import subprocess
import sys
import tempfile
import time

from checks.hostile.attacked_tools import processes_with, waited_for
from checks.tools.tool_runs import GALLERY, TOOLS, described, heed_interrupts, sorted_lines, stand_in, test_file, tool, write
from scripts import COULD_NOT

from . import compiled_campaigns

# So many cycles of six edges in the gate; tests/cluster.py takes another number.
CYCLES, SEED = 120, 1

# Tests of a campaign whose client, workers and scheduler are killed; and how long a program sleeps that nobody else has.
KILLED, LONG_SLEEP = 60, "301.0625"

# The cluster's workers, and the script that is one of its processes.
WORKERS = 4
LOCAL_CLUSTER = os.path.join(os.path.dirname(os.path.abspath(__file__)), "local_cluster.py")

# Seconds that a task may take here: a paused worker has its task for twice as long. Where a worker is ended by its task, others'
# tasks are lost with it, and wait as long; no task of those may be ended because the machine is busy.
LIMIT, PATIENT_LIMIT = "2", "10"


def dask_python():
    """A Python that has Dask's distributed, or None."""
    for python in (sys.executable, "/usr/bin/python3"):
        if os.path.exists(python) and subprocess.run([python, "-c", "import distributed"], capture_output=True).returncode == 0:
            return python
    return None


class LocalCluster:
    """A scheduler and some workers, each of which a process of its own, its nanny, begins anew where it ends. Further words of `begin` are
    of the environment."""

    def __init__(self, python, how_many):
        self.python = python
        self.scheduler = self.begin("scheduler")
        self.address = self.scheduler.stdout.readline().strip()
        self.nannies = [self.begin("nanny", self.address) for _ in range(how_many)]
        self.workers = [int(nanny.stdout.readline()) for nanny in self.nannies]

    def begin(self, *words, **more):
        # two deaths make a task suspect, so that this is soon tried
        environment = dict(os.environ, DASK_DISTRIBUTED__SCHEDULER__ALLOWED_FAILURES="1")
        environment.update(more)
        return subprocess.Popen([self.python, LOCAL_CLUSTER, *words], stdin=subprocess.DEVNULL,
                                stdout=subprocess.PIPE, stderr=subprocess.DEVNULL, text=True, env=environment)

    def __enter__(self):
        return self

    def __exit__(self, *_):
        for one in [*self.nannies, self.scheduler]:
            one.terminate()
        for one in [*self.nannies, self.scheduler]:
            try:
                one.wait(10)
            except subprocess.TimeoutExpired:
                one.kill()
                one.wait()
            one.stdout.close()


class Campaign:
    """A campaign that runs beside this script, so that something can be done to it."""

    def __init__(self, python, words, results):
        self.results = results
        self.running = subprocess.Popen([python, os.path.join(TOOLS, "campaign"), *words, "--results", results],
                                        stdout=subprocess.PIPE, stderr=subprocess.PIPE, text=True, preexec_fn=heed_interrupts)

    def wait_for(self, count):
        """Waits until there are so many results, or the campaign has ended."""
        while self.running.poll() is None and (not os.path.exists(self.results) or len(sorted_lines(self.results)) < count):
            time.sleep(0.05)

    def end(self, seconds=900):
        """What it said and how it ended; one that doesn't end in so many seconds is ended, and has failed."""
        try:
            said, errors = self.running.communicate(timeout=seconds)
        except subprocess.TimeoutExpired:
            self.running.kill()
            said, errors = self.running.communicate()
            errors += "it didn't end in %d seconds" % seconds
        return subprocess.CompletedProcess([], self.running.returncode, said, errors)


def judge_deaths(cluster, words, whole, tally, room):
    """One worker is ended in the middle, one paused, one ended with its nanny: the results are those of one process."""
    place, count = os.path.join(room, "cluster"), len(whole)
    campaign = Campaign(cluster.python, words + ["--scheduler", cluster.address, "--limit", LIMIT], place)
    campaign.wait_for(count // 4)
    os.kill(cluster.workers[0], signal.SIGKILL)
    campaign.wait_for(count // 3)
    cluster.nannies[1].kill()
    campaign.wait_for(count // 2)
    os.kill(cluster.workers[2], signal.SIGSTOP)
    before = len(sorted_lines(place))
    done = campaign.end()
    os.kill(cluster.workers[2], signal.SIGCONT)
    tally.add("workers were ended and paused in the middle", None if 0 < before < count else "there were %d results" % before)
    same = sorted_lines(place) == whole
    tally.add("the same results by one process and by a cluster", None if done.returncode == 0 and same else described(done))


def judge_stops(cluster, words, whole, tally, room):
    """A campaign on a cluster is stopped, and goes on where it was."""
    place, words = os.path.join(room, "stopped"), words + ["--scheduler", cluster.address]
    campaign = Campaign(cluster.python, words, place)
    campaign.wait_for(len(whole) // 4)
    campaign.running.send_signal(signal.SIGINT)
    campaign.end(60)
    before = len(sorted_lines(place))
    done = Campaign(cluster.python, words, place).end()
    tally.add("a campaign on a cluster is stopped", None if 0 < before < len(whole) else "there were %d results" % before)
    same = sorted_lines(place) == whole
    tally.add("and goes on", None if done.returncode == 0 and same else described(done))


def judge_kills(python, program, tally, room):
    """After the first results the client is killed; it goes on, and then a worker with its nanny, and the scheduler; with another cluster
    the same words end it. The results are those of one process, byte for byte."""
    slow = stand_in(os.path.join(room, "slower"), program, "sleep 0.05")
    drawn = tool("cycles", "--length", "6", "--locked", "--some", str(KILLED), "--no-verdict").stdout
    words = ["outcomes", slow, write(os.path.join(room, "few"), drawn)]
    Campaign(sys.executable, words, os.path.join(room, "few alone")).end()
    whole, place = sorted_lines(os.path.join(room, "few alone")), os.path.join(room, "kills")
    counts = []
    with LocalCluster(python, 2) as cluster:
        client = Campaign(python, words + ["--scheduler", cluster.address], place)
        client.wait_for(KILLED // 6)
        client.running.kill()
        client.end()
        counts.append(len(sorted_lines(place)))
        again = Campaign(python, words + ["--scheduler", cluster.address], place)
        again.wait_for(KILLED // 2)
        cluster.nannies[0].kill()
        os.kill(cluster.workers[0], signal.SIGKILL)
        cluster.scheduler.kill()
        done = again.end(60)
        counts.append(len(sorted_lines(place)))
    told = done.returncode == COULD_NOT and 0 < counts[0] < counts[1] < KILLED
    tally.add("client, worker and scheduler were killed in the middle", None if told else "%s; %s" % (counts, described(done)))
    with LocalCluster(python, 2) as cluster:
        done = Campaign(python, words + ["--scheduler", cluster.address], place).end()
    same = sorted_lines(place) == whole and len(whole) == KILLED
    tally.add("and with another cluster the results are the same", None if done.returncode == 0 and same else described(done))


def judge_left(python, program, tally, room):
    """A program that a worker has started ends with the worker, whatever ends that."""
    endless = stand_in(os.path.join(room, "endless"), program, 'case "$*" in --*) exit 2;; esac; exec sleep ' + LONG_SLEEP)
    with LocalCluster(python, 1) as cluster:
        campaign = Campaign(python, ["outcomes", endless, "--scheduler", cluster.address, test_file("SB")], os.path.join(room, "left"))
        begun = waited_for(lambda: processes_with("sleep\0" + LONG_SLEEP))
        cluster.nannies[0].kill()
        os.kill(cluster.workers[0], signal.SIGKILL)
        gone = waited_for(lambda: not processes_with("sleep\0" + LONG_SLEEP), 10)
        campaign.running.send_signal(signal.SIGINT)
        done = campaign.end(60)
    left = processes_with("sleep\0" + LONG_SLEEP)
    for process in left:
        os.kill(process, signal.SIGKILL)
    tally.add("a worker's program ends with it", None if begun and gone else "left running: %s; %s" % (left, described(done)))


def judge_killer(cluster, program, tally, room):
    """A test that ends its workers is named, and no other test is."""
    killer = stand_in(os.path.join(room, "killer"), program, "case $text in *'X86 SB\n'*) kill -9 $PPID; sleep 9;; esac")
    tests = [test_file(name) for name in ("SB", "MP", "CoRR", "LB", "2+2W")]
    words = ["outcomes", killer, "--scheduler", cluster.address, "--limit", PATIENT_LIMIT, *tests]
    done = Campaign(cluster.python, words, os.path.join(room, "killed")).end()
    named = done.stdout.startswith("FAULT   SB --depth 32 expected=allowed - it ended its workers\n") and done.stdout.count("FAULT") == 1
    tally.add("a test that ends its workers", None if done.returncode == COULD_NOT and named else described(done))


def judge_absences(python, program, tally, room):
    """A cluster without workers is said, and a scheduler that ends, each in one line; then the same words go on."""
    slow, place = stand_in(os.path.join(room, "slow"), program, "sleep 0.1"), os.path.join(room, "absences")
    with LocalCluster(python, 0) as cluster:
        words = ["outcomes", slow, "--scheduler", cluster.address, GALLERY]
        campaign = Campaign(python, words, place)
        told = campaign.running.stderr.readline()
        tally.add("no workers", None if told == "campaign: no workers at %s; the tasks wait for them\n" % cluster.address else told)
        cluster.nannies.append(cluster.begin("nanny", cluster.address))
        campaign.wait_for(3)
        cluster.scheduler.kill()
        done = campaign.end(60)
    told = [line for line in done.stderr.splitlines() if line and not re.match(r"\d+ of \d+ tasks, ", line)]
    same = done.returncode == COULD_NOT and told == ["campaign: the scheduler is gone; the same words go on"]
    tally.add("a scheduler that is ended", None if same else described(done))
    before = sorted_lines(place)
    done = Campaign(python, ["outcomes", slow, GALLERY], place).end()
    tally.add("and without a cluster", None if done.returncode == 0 and set(before) < set(sorted_lines(place)) else described(done))


def judge_other_python(python, program, tally, room):
    """Where another Python is first on the path, the tool says which has Dask."""
    words = ["outcomes", program, "--results", os.path.join(room, "none"), "--scheduler", "tcp://127.0.0.1:1", test_file("SB")]
    done = tool("campaign", *words)
    told = done.returncode == 2 and "but %s has" % python in done.stderr
    tally.add("another Python is first on the path", None if told else described(done))


def judge(program, tally, how_many=CYCLES, seed=SEED):
    python = dask_python()
    if python is None:
        print("not tried: campaigns on a cluster, which need Dask's distributed (Debian: python3-distributed)")
        return
    with tempfile.TemporaryDirectory() as room:
        if python != sys.executable:
            judge_other_python(python, program, tally, room)
        drawn = tool("cycles", "--length", "6", "--locked", "--some", str(how_many), "--seed", str(seed), "--no-verdict").stdout
        words = ["outcomes", program, write(os.path.join(room, "cycles"), drawn)]
        begun, place = time.monotonic(), os.path.join(room, "alone")
        done = Campaign(sys.executable, words + ["--processes", "1"], place).end(3600)
        whole = sorted_lines(place)
        tally.add("a campaign by one process", None if done.returncode == 0 and len(whole) == how_many else described(done))
        took = [time.monotonic() - begun]
        judge_absences(python, program, tally, room)
        judge_kills(python, program, tally, room)
        judge_left(python, program, tally, room)
        with LocalCluster(python, WORKERS) as cluster:
            for part in (judge_deaths, judge_stops):
                begun = time.monotonic()
                part(cluster, words, whole, tally, room)
                took.append(time.monotonic() - begun)
            judge_killer(cluster, program, tally, room)
        compiled_campaigns.judge(python, program, tally, room)
    print("%d cycles of six edges: by one process %d s, by a cluster of which workers were ended and paused %d s, "
          "and stopped and gone on with %d s" % (how_many, *took))
