"""tools/campaign of compiled code on a cluster of Dask's, for tests/checks/campaigns/cluster_campaigns.py: the results are those of one machine,
where a worker is ended, where the campaign is stopped, and where a worker lacks a package; a compiler that doesn't end, and a scheduler that does."""
import os
import shutil
import signal
import subprocess

from checks.hostile.attacked_tools import processes_with, waited_for
from checks.tools.tool_runs import TOP, described, sorted_lines
from scripts import COULD_NOT, DIFFERS

from . import cluster_campaigns

EXAMPLES = os.path.join(TOP, "examples", "c11")

# How long a compiler sleeps that nobody else has.
LONG_SLEEP = "302.0625"

# A compiler that makes a plain store of each exchange, and one that doesn't end by itself.
BAD = """#!/bin/sh
[ "$1" = --version ] && exec gcc --version
gcc -O2 "$1" "$2" "$3" -S -o "$6.s" "$7" || exit 1
sed -i -E 's/xchgl\\s+(\\w+\\(%rip\\)), (%\\w+)/movl \\2, \\1/; s/xchgl\\s+(%\\w+), (\\w+\\(%rip\\))/movl \\1, \\2/' "$6.s"
exec gcc -c -o "$6" "$6.s"
"""
ENDLESS = """#!/bin/sh
[ "$1" = --version ] && exec gcc --version
exec sleep %s
""" % LONG_SLEEP


def lacks(python):
    """What isn't there that compiled code needs; None where all is."""
    for word in ("gcc", "clang"):
        if shutil.which(word) is None:
            return word
    for module, package in (("capstone", "python3-capstone"), ("elftools", "python3-pyelftools")):
        if subprocess.run([python, "-c", "import " + module], capture_output=True).returncode:
            return package
    return None


def script(path, text):
    with open(path, "w", encoding="ascii") as file:
        os.fchmod(file.fileno(), 0o755)
        file.write(text)
    return path


def without(room, module):
    """A folder by which a worker's Python lacks a module."""
    folder = os.path.join(room, "without " + module)
    os.mkdir(folder)
    with open(os.path.join(folder, module + ".py"), "w", encoding="ascii") as file:
        file.write("raise ModuleNotFoundError('none', name='%s')\n" % module)
    return os.pathsep.join(filter(None, (folder, os.environ.get("PYTHONPATH"))))


class Judge:
    """Campaigns of the examples by a compiler with a bug and by two without, on one machine and on clusters."""

    def __init__(self, python, program, tally, room):
        self.python, self.tally, self.room = python, tally, room
        bad = script(os.path.join(room, "bad-cc"), BAD)
        self.base = ["compiled", "--program", program, "--cc", bad]
        self.words = [*self.base, EXAMPLES, "--cc", "gcc -O1", "--cc", "no-such-cc"]

    def campaign(self, words, name, cluster=None):
        words = words + (["--scheduler", cluster.address] if cluster else [])
        return cluster_campaigns.Campaign(self.python, words, os.path.join(self.room, name))

    def lines(self, name):
        return sorted_lines(os.path.join(self.room, name))

    def is_whole(self, done, name):
        """Whether a campaign ended as the one of this machine did, with its table and results."""
        return (done.returncode, done.stdout, self.lines(name)) == (DIFFERS, self.table, self.whole)

    def add(self, name, holds, done):
        self.tally.add(name, None if holds else described(done))

    def alone(self):
        done = self.campaign(self.words, "compiled alone").end()
        self.table, self.whole = done.stdout, self.lines("compiled alone")
        self.add("compiled code on one machine", done.returncode == DIFFERS and done.stdout.startswith("DIFFERS "), done)

    def deaths(self, cluster):
        campaign, count = self.campaign(self.words, "compiled ended", cluster), len(self.whole)
        campaign.wait_for(count // 4)
        os.kill(cluster.workers[0], signal.SIGKILL)
        campaign.wait_for(count // 2)
        cluster.nannies[1].kill()
        before, done = len(self.lines("compiled ended")), campaign.end()
        self.add("compiled code by a cluster, workers of which are ended", 0 < before < count and self.is_whole(done, "compiled ended"), done)

    def stops(self, cluster):
        campaign, count = self.campaign(self.words, "compiled stopped", cluster), len(self.whole)
        campaign.wait_for(count // 3)
        campaign.running.send_signal(signal.SIGINT)
        stopped, before = campaign.end(60), self.lines("compiled stopped")
        told = stopped.returncode == 130 and "campaign: stopped; the same words go on\n" in stopped.stderr and 0 < len(before) < count
        self.add("compiled code by a cluster is stopped", told, stopped)
        done = self.campaign(self.words, "compiled stopped").end()
        self.add("and goes on without a cluster", self.is_whole(done, "compiled stopped"), done)

    def endless(self, cluster):
        """A compiler that doesn't end is ended, by its limit and by a signal to the tool."""
        slow = script(os.path.join(self.room, "slow-cc"), ENDLESS)
        test, words = os.path.join(EXAMPLES, "SB+sc.c"), ["--cc", slow]
        done = self.campaign([*self.base, test, *words, "--limit", "3"], "compiled slow", cluster).end(60)
        fault = "FAULT   SB+sc %s - it took over 3 seconds\n" % slow
        self.add("a compiler that doesn't end", done.returncode == DIFFERS and fault in done.stdout, done)
        campaign = self.campaign([*self.base, test, *words], "compiled slow, stopped", cluster)
        begun = waited_for(lambda: processes_with("sleep\0" + LONG_SLEEP))
        campaign.running.send_signal(signal.SIGTERM)
        done = campaign.end(60)
        left = processes_with("sleep\0" + LONG_SLEEP)
        self.add("and is stopped", begun and done.returncode == 128 + signal.SIGTERM and not left, done)

    def lacking(self):
        """Workers that lack a package: others take their tasks; where there are none, each task says so."""
        environment = {"PYTHONPATH": without(self.room, "capstone")}
        said = "Debian's package python3-capstone isn't there"
        with cluster_campaigns.LocalCluster(self.python, 0) as cluster:
            cluster.nannies.append(cluster.begin("nanny", cluster.address, **environment))
            cluster.nannies[0].stdout.readline()
            done = self.campaign([*self.base, os.path.join(EXAMPLES, "SB+sc.c")], "compiled lacking", cluster).end()
            fault = "FAULT   SB+sc %s - %s\n" % (self.base[-1], said)
            self.add("workers that lack a package", (done.returncode, done.stdout) == (COULD_NOT, fault), done)
            cluster.nannies.append(cluster.begin("nanny", cluster.address))
            able = int(cluster.nannies[1].stdout.readline())
            campaign = self.campaign(self.words, "compiled lacking some", cluster)
            campaign.wait_for(len(self.whole) // 2)
            os.kill(able, signal.SIGKILL)
            done = campaign.end(300)
            told = done.stderr.count(said + " at tcp://") == 1
            self.add("one worker that lacks a package, and the other is ended", told and self.is_whole(done, "compiled lacking some"), done)
            campaign = self.campaign(self.words, "compiled gone", cluster)
            campaign.wait_for(len(self.whole) // 3)
            cluster.scheduler.kill()
            done = campaign.end(60)
            gone = done.returncode == COULD_NOT and "campaign: the scheduler is gone; the same words go on\n" in done.stderr
            self.add("compiled code, and a scheduler that is ended", gone, done)


def judge(python, program, tally, room):
    lacking = lacks(python)
    if lacking is not None:
        print("not tried: compiled code on a cluster, which needs %s" % lacking)
        return
    one = Judge(python, program, tally, room)
    one.alone()
    with cluster_campaigns.LocalCluster(python, 2) as cluster:
        one.deaths(cluster)
    with cluster_campaigns.LocalCluster(python, 2) as cluster:
        one.stops(cluster)
        one.endless(cluster)
    one.lacking()
