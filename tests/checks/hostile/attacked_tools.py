"""What the parts of tests/hostile_tools.py share: calls of the tools of some checkout, in folders that are made for one row each."""
import os
import resource
import shutil
import signal
import subprocess
import sys
import tempfile
import time

from checks import judging
from checks.tools import tool_runs

from . import fault_points

# A call that takes longer hangs: a machine that is busy isn't a fault, and what has to be quick is held by the processor's time. One that
# needs more memory has failed.
SECONDS, BYTES = fault_points.HANGS, 3 << 30

DIFFERS, COULD_NOT, INTERRUPTED = 1, 2, 130

# A test of one core, which runs on any processor.
ONE = "X86 one\n{ }\n P0 ;\n MOV [x],$1 ;\n MOV EAX,[x] ;\nexists (0:EAX=1)\n"

SB = judging.STORE_BUFFERING.decode()
ESCAPE = "\x1b[31m"


class Calls:
    """The tools of this folder, which ask this program; each row has a folder of its own."""

    def __init__(self, tools, program):
        self.tools, self.program, self.room = os.path.abspath(tools), os.path.abspath(program), None

    def path(self, *names):
        return os.path.join(self.room, *names)

    def write(self, name, content):
        """Writes a file of the row's folder. Answers its path."""
        path = self.path(name)
        os.makedirs(os.path.dirname(path), exist_ok=True)
        with open(path, "wb") as file:
            file.write(content if isinstance(content, bytes) else content.encode("latin-1"))
        return path

    def read(self, name):
        with open(self.path(name), "rb") as file:
            return file.read()

    def stand_in(self, name, lines):
        """A program of these lines of a shell script."""
        path = self.write(name, "#!/bin/sh\n%s\n" % lines)
        os.chmod(path, 0o755)
        return path

    def words(self, tool, *words):
        return [sys.executable, "-S", os.path.join(self.tools, tool), *words]

    def environment(self, **more):
        os.makedirs(self.path("tmp"), exist_ok=True)
        return dict(os.environ, TMPDIR=self.path("tmp"), **more)

    def call(self, tool, *words, shell="", seconds=SECONDS, limits=(), **how):
        """How a tool ended, called with its streams redirected so: words of a shell. Where it takes too long, its status says so."""
        line = ["sh", "-c", 'exec "$@" ' + shell, "sh", *self.words(tool, *words)] if shell else self.words(tool, *words)

        def limit():
            resource.setrlimit(resource.RLIMIT_AS, (BYTES, BYTES))
            for kind, most in limits:
                resource.setrlimit(kind, (most, most))
        how = dict(dict(stdin=None if "input" in how else subprocess.DEVNULL), **how)
        running = subprocess.Popen(line, stdout=subprocess.PIPE, stderr=subprocess.PIPE, preexec_fn=limit, cwd=self.room,
                                   env=self.environment(), start_new_session=True,
                                   stdin=subprocess.PIPE if "input" in how else how["stdin"])
        try:
            output, errors = running.communicate(how.get("input"), timeout=seconds)
            status = running.returncode
        except subprocess.TimeoutExpired:
            os.killpg(running.pid, signal.SIGKILL)
            output, errors = running.communicate()
            status = "none within %d seconds" % seconds
        return subprocess.CompletedProcess(line, status, output.decode("latin-1"), errors.decode("latin-1"))

    def quick(self, tool, *words, limits=()):
        """The same in this process's own time, by a fork of it, where the tools are those that it has loaded; a start costs more than most
        calls."""
        def limit():
            for kind, most in limits:
                resource.setrlimit(kind, (most, most))
        if self.tools != tool_runs.TOOLS:
            return self.call(tool, *words, limits=limits)
        return tool_runs.forked(os.path.join(self.tools, tool), words, cwd=self.room, prepare=limit)

    def begun(self, tool, *words, **environment):
        """A tool that runs, and heeds interrupts."""
        return subprocess.Popen(self.words(tool, *words), stdin=subprocess.DEVNULL, stdout=subprocess.PIPE, stderr=subprocess.PIPE,
                                cwd=self.room, env=self.environment(**environment), start_new_session=True,
                                preexec_fn=lambda: signal.signal(signal.SIGINT, signal.SIG_DFL))

    def in_room(self, judge):
        """What a row's function finds wrong, in a new folder; None where nothing is. Whatever the row has left running ends."""
        with tempfile.TemporaryDirectory() as room:
            self.room = room
            os.mkdir(self.path("work"))
            try:
                return judge(self)
            except Exception as fault:
                return "%s: %s" % (type(fault).__name__, fault)
            finally:
                for process in processes_with(room):
                    os.kill(process, signal.SIGKILL)


def processes_with(word):
    """The processes in whose command line or environment this word is, but for this one."""
    found = []
    for name in filter(str.isdigit, os.listdir("/proc")):
        for part in ("cmdline", "environ"):
            try:
                with open("/proc/%s/%s" % (name, part), "rb") as file:
                    if word.encode() in file.read() and int(name) != os.getpid():
                        found.append(int(name))
                        break
            except OSError:
                pass
    return found


def children_in_its_session(process):
    """The processes that this one has forked, and that have no session of their own, as a keeper and a program that was asked have."""
    found = []
    for name in filter(str.isdigit, os.listdir("/proc")):
        try:
            with open("/proc/%s/stat" % name, "rb") as file:
                parent = int(file.read().rpartition(b")")[2].split()[1])
            if parent == process and os.getsid(int(name)) == os.getsid(process):
                found.append(int(name))
        except OSError:
            pass
    return found


def a_start():
    """How many seconds of the processor's time it takes here and now to begin and end something small."""
    before = os.times()
    subprocess.run([sys.executable, "-S", "-c", "import argparse, subprocess"], check=True)
    return os.times().children_user - before.children_user


def waited_for(condition, seconds=SECONDS):
    """Whether this becomes so in time."""
    until = time.monotonic() + seconds
    while not condition():
        if time.monotonic() > until:
            return False
        time.sleep(0.02)
    return True


def described(done):
    return "status %s, %r, %r" % (done.returncode, done.stdout[-300:], done.stderr[-500:])


def is_one_line(done, tool):
    """Whether a tool told in one line why it couldn't do what was asked, and didn't tell of its own code."""
    return done.stderr.startswith(tool + ": ") and done.stderr.count("\n") == 1


def refused(done, tool, *words):
    """What is wrong with a call that has to end with one line that has these words, and status 2."""
    told = done.returncode == COULD_NOT and is_one_line(done, tool) and all(word in done.stderr for word in words)
    return None if told else described(done)


def copied(source, target):
    """A copy of a folder; what is there goes."""
    shutil.rmtree(target, ignore_errors=True)
    shutil.copytree(source, target, symlinks=True)
