"""Faults of the tools that write, for tests/hostile_tools.py: each is killed after a system call that changes a file, or the disk is full
from one on (fault_points.py). What isn't the tool's own is as before then, and a second call ends as if there had been no fault. And a campaign's
file of results is replaced at each write: all that was written is there then, by its name or in the file that the campaign names."""
import os
import re
import shutil
import subprocess
import sys
import tempfile

from checks import judging
from checks.tools import tool_runs

from . import fault_points

COULD_NOT = 2

# What a tool says where it finds no more room, or where its compiler doesn't.
FULL = re.compile(rb"\w+: (\[Errno 28\]|no program for this processor)")

# Points of each tool that are tried in the gate.
DRAWN = 6

SB = judging.STORE_BUFFERING.decode()
AT_AND_T = ("X86_64 A\n{ int x=0; }\n P0 | P1 ;\n movl $1,(x) | movl $1,(y) ;\n movl (y),%eax | movl (x),%eax ;\n"
            "exists (0:rax=0 /\\ 1:rax=0)\n")

# A compiler that is quick: it has built the program before.
COMPILER = """#!/bin/sh
for one; do
  [ "$before" = -o ] && target=$one
  before=$one
done
cp built "$target"
"""

# The folder that each call begins with; what stands there beside a tool's own files is to stay.
FILES = {"mine.txt": "mine\n", "in/SB.litmus": SB, "in/A.litmus": AT_AND_T, "in/deep/B.litmus": AT_AND_T.replace("X86_64 A", "X86_64 B"),
         "in/notes": "notes\n", "made/mine.litmus": "mine\n"}


class Job:
    """A call that writes: its tool and words, and the names of its own files that may change, of those that are there before."""

    def __init__(self, tool, *words, own=(), before=(), environment=None):
        self.tool, self.words, self.own, self.before, self.environment = tool, words, own, before, environment or {}

    def line(self):
        return [sys.executable, "-S", os.path.join(tool_runs.TOOLS, self.tool), *self.words]


def jobs(program):
    """The calls, by name."""
    written = ["--results", "results", "--page", "page.html", "--log", "all.log", "--csv", "all.csv"]
    campaign, earlier = ["outcomes", program, "--processes", "1", *written, "in"], ["outcomes", program, *written, "in/SB.litmus"]
    return {
        "import": Job("import", "-o", "out", "in"),
        "import over what it reads": Job("import", "--force", "-o", "in", "in", own=("in/A.litmus", "in/deep/B.litmus", "in/SB.litmus")),
        "cycles": Job("cycles", "Pod**", "Rfe", "Pod**", "Fre", "-o", "made"),
        "workload": Job("workload", "ping-pong", "migratory", "--cores", "2", "-o", "made"),
        "campaign": Job("campaign", *campaign),
        "campaign that goes on": Job("campaign", *campaign, own=("results", "page.html", "all.log", "all.csv"), before=[Job("campaign", *earlier)]),
        "hardware that writes a program": Job("hardware", "-o", "tests.c", "in"),
        "hardware": Job("hardware", "--program", program, "--runs", "1000", "in/SB.litmus", environment={"CC": "./compiler"}),
    }


def environment(room, job):
    return dict(os.environ, TMPDIR=os.path.join(room, "tmp"), **job.environment)


def called(job, room):
    """How the call ends that nothing breaks."""
    return subprocess.run(job.line(), cwd=room, env=environment(room, job), stdin=subprocess.DEVNULL, capture_output=True,
                          timeout=fault_points.HANGS)


def template(room, job):
    """Fills a folder with what a call begins with."""
    for name, text in FILES.items():
        path = os.path.join(room, name)
        os.makedirs(os.path.dirname(path), exist_ok=True)
        tool_runs.write(path, text)
    os.mkdir(os.path.join(room, "tmp"))
    tool_runs.write(os.path.join(room, "compiler"), COMPILER)
    os.chmod(os.path.join(room, "compiler"), 0o755)
    if job.environment:
        build(room)
    for one in job.before:
        called(one, room)


def build(room):
    """Builds the program of the test that hardware runs, as it would do itself."""
    source = os.path.join(room, "tests-of-SB.c")
    words = [sys.executable, "-S", os.path.join(tool_runs.TOOLS, "hardware"), "-o", source, os.path.join(room, "in", "SB.litmus")]
    subprocess.run(words, check=True, stdin=subprocess.DEVNULL)
    subprocess.run([*(os.environ.get("CC") or "cc").split(), "-O1", "-pthread", "-o", os.path.join(room, "built"), source], check=True)


def settled(tree):
    """A tree without what differs from call to call: times, and the order of results."""
    found = {}
    for name, (mode, content) in tree.items():
        if name == b"page.html":
            content = re.sub(rb"\d+\.\d s", b"some s", content)
        if name == b"results":
            content = b"".join(sorted(content.splitlines(True)))
        if not name.startswith(b"tmp/"):
            found[name] = mode, content
    return found


def is_for_the_moment(name):
    return name.startswith(b"tmp/") or os.path.basename(name).startswith(b".") and name.endswith(b".tso-new")


def wrong_after_fault(job, before, after, wanted):
    """What isn't as before: each file but the tool's own, which may have what it is to have in the end."""
    own = set(map(os.fsencode, job.own))
    for name in before.keys() | after.keys():
        if before.get(name) == after.get(name) or is_for_the_moment(name):
            continue
        if name in before and name not in own:
            return "%s: %s" % ("changed" if name in after else "lost", os.fsdecode(name))
        if name == b"results":
            if not set(after[name][1].splitlines(True)) <= set(wanted[name][1].splitlines(True)):
                return "results has a line that isn't whole"
        elif after.get(name) != wanted.get(name):
            return "left: %s" % os.fsdecode(name)
    return None


def fault_of(job, kind, number, source, wanted, ended):
    """What is wrong with a call that is broken at this point, and with the one after it."""
    with tempfile.TemporaryDirectory() as room:
        shutil.copytree(source, room, symlinks=True, dirs_exist_ok=True)
        before = settled(fault_points.tree(room))
        done, _ = fault_points.broken(kind, number, job.line(), cwd=room, env=environment(room, job))
        wrong = wrong_after_fault(job, before, settled(fault_points.tree(room)), wanted)
        lines = [line for line in done.stderr.replace(b"\r", b"\n").split(b"\n") if FULL.match(line)]
        if kind == fault_points.FULL and (done.returncode != COULD_NOT or len(lines) != 1 or b"Traceback" in done.stderr):
            wrong = wrong or "status %d, %r" % (done.returncode, done.stderr[-300:])
        again = called(job, room)
        left = fault_points.tree(room)
        wrong = wrong or "; ".join(fault_points.differences(wanted, settled(left))) or None
        if again.returncode != ended.returncode or job.tool != "hardware" and again.stdout != ended.stdout:
            wrong = wrong or "the second call: status %d, %r" % (again.returncode, again.stderr[-300:])
        held = [name for name in left if name.startswith(b"tmp/")]
        return wrong or ("left by the second call: %s" % held if held else None)


# What a campaign says whose results others replaced.
APART = re.compile(rb"campaign: results was replaced, removed or changed while this campaign wrote it: all its results, (\d+), are in (\S+); [^\n]*\n\Z")


def fault_of_replaced(job, number, source, wanted, ended):
    """What is wrong with a campaign one of whose files is replaced at this write, and with a second call: nothing is lost, whatever it was, and
    where it was the file of results, the status is 2."""
    with tempfile.TemporaryDirectory() as room:
        shutil.copytree(source, room, symlinks=True, dirs_exist_ok=True)
        done, changes = fault_points.broken(fault_points.REPLACE, number, job.line(), cwd=room, env=environment(room, job))
        there = fault_points.tree(room)
        lines = {name: set(content.splitlines(True)) for name, (_, content) in there.items()}
        whole, told = set(wanted[b"results"][1].splitlines(True)), APART.search(done.stderr)
        if told:
            kept = lines[os.path.relpath(told.group(2), os.fsencode(os.path.realpath(room)))]
            wrong = None if done.returncode == COULD_NOT and len(kept) == int(told.group(1)) and lines[b"results"] <= kept <= whole else (
                "status %d, %d lines kept, %d by the name" % (done.returncode, len(kept), len(lines[b"results"])))
        else:
            wrong = None if done.returncode == ended.returncode and lines[b"results"] == whole else "status %d, %r" % (done.returncode, done.stderr)
        again = called(job, room)
        left = {name: what for name, what in settled(fault_points.tree(room)).items() if not name.startswith(b"results.kept")}
        wrong = wrong or "; ".join(fault_points.differences(wanted, left)) or None
        return wrong or (None if again.returncode == ended.returncode else "the second call: status %d, %r" % (again.returncode, again.stderr))


def replaced(name, job, room):
    """Rows for each write of a campaign: its name, and what is wrong."""
    with tempfile.TemporaryDirectory() as copy:
        shutil.copytree(room, copy, symlinks=True, dirs_exist_ok=True)
        ended, changes = fault_points.changes(job.line(), cwd=copy, env=environment(copy, job))
        wanted = settled(fault_points.tree(copy))
    points = fault_points.points(changes, (fault_points.REPLACE,))
    print("files replaced under %s: %d writes" % (name, len(points)))
    return [("%s: a file is replaced at write %d" % (name, number), (job, number, room, wanted, ended)) for _, number in points]


def points_of(job, room):
    """All points of a call, the tree that it leaves, and how it ends; room is where it begins."""
    with tempfile.TemporaryDirectory() as copy:
        shutil.copytree(room, copy, symlinks=True, dirs_exist_ok=True)
        ended, changes = fault_points.changes(job.line(), cwd=copy, env=environment(copy, job))
        return fault_points.points(changes), settled(fault_points.tree(copy)), ended


def judged(program, part, seed):
    """Pairs of a point's name and its faults: of each tool's points those that the seed draws, or without one all."""
    if fault_points.tracer() is None:
        return []
    rows, rooms, under = [], [], []
    for name, job in jobs(program).items():
        if job.tool == "campaign" and part in "fault of " + name:
            rooms.append(tempfile.TemporaryDirectory())
            template(rooms[-1].name, job)
            under += replaced("fault of " + name, job, rooms[-1].name)
        # campaign and a run on the processor have a keeper beside them: these are tried outside the gate
        if seed is not None and job.tool in ("campaign", "hardware") and "-o" not in job.words:
            continue
        if part not in "fault of " + name or job.environment and shutil.which("cc") is None:
            continue
        rooms.append(tempfile.TemporaryDirectory())
        template(rooms[-1].name, job)
        points, wanted, ended = points_of(job, rooms[-1].name)
        chosen = points if seed is None else fault_points.drawn(points, "%s %s" % (seed, name), DRAWN)
        print("faults of %s: %d points, %d of them tried" % (name, len(points), len(chosen)))
        rows += [("fault of %s: %s %d" % (name, kind, number), (job, kind, number, rooms[-1].name, wanted, ended))
                 for kind, number in chosen]

    def judge(row):
        return row[0], judging.faults_told(lambda: list(filter(None, [fault_of(*row[1])])))
    def judge_replaced(row):
        return row[0], judging.faults_told(lambda: list(filter(None, [fault_of_replaced(*row[1])])))
    found = [*judging.in_processes(judge, rows, at_once=1), *judging.in_processes(judge_replaced, under, at_once=1)]
    for room in rooms:
        room.cleanup()
    return found
