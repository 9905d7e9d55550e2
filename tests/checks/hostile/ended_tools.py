"""Whatever ends a tool, what it has started ends, and its folders for the moment go; for tests/hostile_tools.py."""
import os
import shutil
import signal
import subprocess
import time

from . import files_of_others
from .attacked_tools import COULD_NOT, INTERRUPTED, ONE, SB, SECONDS, children_in_its_session, processes_with, waited_for

# What a program does that doesn't end: it starts one that doesn't, and waits. So a tool that waits for it never ends.
FOR_EVER = "touch '%s'; sleep infinity & wait"

# A test that theory takes days for: each load reads one of two words, and no choice of these is so.
MANY_SOURCES = "X86 Sources\n{ }\n P0 | P1 ;\n MOV [x],$1 | MOV EAX,[x] ;\n%sexists (x=9)\n" % (31 * " | MOV EAX,[x] ;\n")

# The tools that are Python's.
READING = ("campaign", "compare", "cycles", "fences", "graph", "hardware", "import", "plot", "theory", "workload")

SIGNALS = (signal.SIGINT, signal.SIGTERM, signal.SIGHUP, signal.SIGKILL)
# by an interrupt before it heeds it a tool ends as any command
STATUSES = {signal.SIGINT: (INTERRUPTED, -signal.SIGINT), signal.SIGTERM: (143,), signal.SIGHUP: (129,), signal.SIGKILL: (-9,)}


def ended(calls, running, number, send=os.kill):
    """What is wrong with how a tool ends by this signal, which is sent to it alone, or to all of its processes: it is to end, though what it
    has started never does, in one line, and to leave nothing."""
    send(running.pid, number)
    try:
        _, errors = running.communicate(timeout=SECONDS)
    except subprocess.TimeoutExpired:
        running.kill()
        return "doesn't end"
    errors = errors.decode()
    if not waited_for(lambda: not processes_with(calls.room)):
        return "left running: %d processes" % len(processes_with(calls.room))
    if not waited_for(lambda: not os.listdir(calls.path("tmp"))):
        return "left in the folder for the moment: %s" % os.listdir(calls.path("tmp"))
    if running.returncode not in STATUSES[number] or "Traceback" in errors:
        return "status %d, %r" % (running.returncode, errors[-300:])
    return None


def campaign_ends(command, number, *words):
    """A campaign whose program doesn't end."""
    def judge(calls):
        mark = calls.path("begun")
        listed = 'case "$*" in *--help*) printf "Commands:\\n  why  all\\n"; exit 0;; --version|--program) exit 2;; esac\n'
        program, test = calls.stand_in("program", listed + FOR_EVER % mark), calls.write("SB.litmus", SB)
        others = [calls.write("%d.litmus" % at, SB.replace("X86 SB", "X86 SB%d" % at)) for at in range(8)]
        running = calls.begun("campaign", command, program, *words, "--results", calls.path("results"), test, *others)
        waited_for(lambda: os.path.exists(mark))
        return ended(calls, running, number)
    return judge


def fences_end(number):
    """Fences whose program doesn't end."""
    def judge(calls):
        mark = calls.path("begun")
        listed = 'case "$*" in *--help*) printf "Commands:\\n  why  all\\n"; exit 0;; --version|--program) exit 2;; esac\n'
        program, test = calls.stand_in("program", listed + FOR_EVER % mark), calls.write("SB.litmus", SB)
        running = calls.begun("fences", "--program", program, test)
        waited_for(lambda: os.path.exists(mark))
        return ended(calls, running, number)
    return judge


def asks_theory(calls):
    """A campaign whose theory takes long, once two processes work on that."""
    calls.write("sources.litmus", MANY_SOURCES)
    words = ["--theory", "--processes", "2", "--results", calls.path("results"), "sources.litmus"]
    running = calls.begun("campaign", "outcomes", calls.program, *words)
    waited_for(lambda: len(children_in_its_session(running.pid)) == 2)
    return running


def theory_ends(number, send=os.kill):
    """A campaign whose theory takes long."""
    def judge(calls):
        return ended(calls, asks_theory(calls), number, send)
    return judge


def theory_without_one(calls):
    """One of the processes of a campaign's theory is killed: the campaign says so, and ends."""
    running = asks_theory(calls)
    os.kill(children_in_its_session(running.pid)[0], signal.SIGKILL)
    _, errors = running.communicate(timeout=SECONDS)
    told = errors.decode().replace("\r", "\n").split("\n")[-2]
    if not waited_for(lambda: not processes_with(calls.room)):
        return "left running: %d processes" % len(processes_with(calls.room))
    due = COULD_NOT, "campaign: a process that worked for this one was killed"
    return None if (running.returncode, told) == due else "status %d, %r" % (running.returncode, errors)


def compiler_ends(number):
    """Tests for the processor whose compiler doesn't end."""
    def judge(calls):
        mark = calls.path("begun")
        compiler, test = calls.stand_in("compiler", FOR_EVER % mark), calls.write("SB.litmus", SB)
        running = calls.begun("hardware", "--program", calls.program, test, CC=compiler)
        waited_for(lambda: os.path.exists(mark))
        return ended(calls, running, number)
    return judge


def runs_end(number):
    """Tests on the processor that take long."""
    def judge(calls):
        calls.write("SB.litmus", SB)
        running = calls.begun("hardware", "--program", calls.program, "--runs", str(10 ** 9), "--seconds", "1000000", "SB.litmus")

        def runs():
            rooms = [os.path.join(calls.path("tmp"), name) for name in os.listdir(calls.path("tmp"))]
            return any(os.path.exists(os.path.join(room, "tests")) and len(processes_with(os.path.join(room, "tests"))) for room in rooms)
        waited_for(runs)
        time.sleep(0.2)
        return ended(calls, running, number)
    return judge


def picture_ends(number):
    """A picture whose `dot` doesn't end."""
    def judge(calls):
        mark = calls.path("begun")
        calls.stand_in("bin/dot", FOR_EVER % mark)
        order = calls.write("run.json", '{"test": "t", "order": ["P0:0 W x=1"]}')
        running = calls.begun("graph", "--svg", order, PATH="%s:%s" % (calls.path("bin"), os.environ["PATH"]))
        waited_for(lambda: os.path.exists(mark))
        return ended(calls, running, number)
    return judge


def reading_ends(tool):
    """A tool that is interrupted while it reads the modules that it needs, of which one takes long."""
    def judge(calls):
        mark = calls.path("begun")
        calls.write("modules/re.py", "import time\nopen(%r, 'w').close()\ntime.sleep(%d)\n" % (mark, SECONDS))
        running = calls.begun(tool, "--help", PYTHONPATH=calls.path("modules"))
        if not waited_for(lambda: os.path.exists(mark)):
            return "doesn't read the module"
        return ended(calls, running, signal.SIGINT)
    return judge


def limited_call(calls):
    """A program that takes longer than a task may ends with all that it has started, and the campaign goes on."""
    program = calls.stand_in("program", 'case "$*" in --program|--version) exit 2;; esac\nsleep infinity & wait')
    test = calls.write("SB.litmus", SB)
    done = calls.call("campaign", "outcomes", program, "--limit", "3", "--results", calls.path("results"), test)
    if not waited_for(lambda: not processes_with(calls.room)):
        return "left running: %d processes" % len(processes_with(calls.room))
    return None if done.stdout.startswith("FAULT   SB") else files_of_others.described(done)


def stale_room(calls):
    """The folder that was left when a tool and its keeper were killed together goes with the next call."""
    calls.write("one.litmus", ONE)
    left = os.path.join(calls.environment()["TMPDIR"], "tso-room-1-0123456789abcdef")
    os.mkdir(left)
    done = calls.call("hardware", "--program", calls.program, "--runs", "1000", "one.litmus")
    return None if done.returncode == 0 and not os.path.exists(left) else files_of_others.described(done)


def name_of(number):
    return signal.Signals(number).name[3:]


ROWS = [("a campaign of %s that is ended by %s" % (command, name_of(number)), campaign_ends(command, number))
        for command in ("outcomes", "sweep", "why", "counts") for number in SIGNALS]
ROWS += [("fences that are ended by " + name_of(number), fences_end(number)) for number in SIGNALS]
ROWS += [("theory of a campaign that is ended by " + name_of(number), theory_ends(number)) for number in SIGNALS]
ROWS += [("theory of a campaign all of which gets " + name_of(number), theory_ends(number, os.killpg)) for number in SIGNALS[:3]]
ROWS += [("theory of a campaign one of whose processes is killed", theory_without_one)]
ROWS += [("a picture that is ended by " + name_of(number), picture_ends(number)) for number in SIGNALS]
ROWS += [("a task that takes too long", limited_call)]
ROWS += [("%s that is interrupted while it reads its modules" % tool, reading_ends(tool)) for tool in READING]
if shutil.which(os.environ.get("CC") or "cc"):
    ROWS += [("a compiler for the processor that is ended by " + name_of(number), compiler_ends(number)) for number in SIGNALS]
    ROWS += [("runs on the processor that are ended by " + name_of(number), runs_end(number)) for number in SIGNALS]
    ROWS += [("a folder that was left", stale_room)]
