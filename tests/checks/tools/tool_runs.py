"""What the parts of tests/batteries.py share: calling tools/, and the gallery."""
import os
import runpy
import signal
import subprocess
import sys
import tempfile
import traceback

from checks import judging
from checks.judging import GALLERY, TESTS, TOP

from scripts import script

from . import TOOLS


class Tally(judging.Tally):
    """Counts what was judged one by one."""

    def add(self, name, fault=None):
        super().add("batteries", [(name, [fault] if fault else [])])


def heed_interrupts():
    """For a process that is to be interrupted: what a shell begins in the background ignores that, and so does all it begins."""
    signal.signal(signal.SIGINT, signal.SIG_DFL)


def gallery():
    """Names and texts of the gallery's tests."""
    for name in sorted(os.listdir(GALLERY)):
        if name.endswith(".litmus"):
            with open(os.path.join(GALLERY, name), encoding="ascii") as file:
                yield name[:-len(".litmus")], file.read()


def test_file(name):
    """The path of a test of the gallery."""
    return os.path.join(GALLERY, name + ".litmus")


# Tools that are called often. The first call of each is a start of its own; later ones are forks of this process, which has loaded what
# they need: a start takes longer than what most calls ask for.
CALLED_OFTEN, _started = ("campaign", "compare", "cycles", "graph", "import", "theory"), set()


def tool(name, *words, **how):
    """What a tool answers. It needs the standard library alone, so Python doesn't look for more (-S): that takes longer than most tools."""
    path = os.path.join(TOOLS, name)
    if name in _started and not how.keys() - {"cwd", "input"}:
        return forked(path, words, **how)
    _started.update({name} & set(CALLED_OFTEN))
    return subprocess.run([sys.executable, "-S", path, *words], capture_output=True, text=True, **how)


def forked(path, words, cwd=None, input=None, prepare=lambda: None):
    """The same by a fork of this process, which prepares itself so."""
    given, output, errors = (tempfile.TemporaryFile("w+", errors="backslashreplace") for _ in range(3))
    with given, output, errors:
        given.write(input or "")
        given.seek(0)
        child = os.fork()
        if child == 0:
            prepare()
            os._exit(carried_out(path, words, (given, output, errors), cwd))
        _, status = os.waitpid(child, 0)
        texts = []
        for file in (output, errors):
            file.seek(0)
            texts.append(file.read())
    return subprocess.CompletedProcess([path, *words], os.waitstatus_to_exitcode(status), *texts)


def carried_out(path, words, files, cwd):
    """The status with which the script of this path ends, in this process, whose standard input, output and error are these files."""
    status = 0
    try:
        for number, file in enumerate(files):
            os.dup2(file.fileno(), number)
        sys.stdin, sys.stdout, sys.stderr = open(0, closefd=False), open(1, "w", closefd=False), open(2, "w", closefd=False)
        sys.argv = [path, *words]
        os.chdir(cwd or ".")
        runpy.run_path(path, run_name="__main__")
    except SystemExit as end:
        status = end.code or 0
        if isinstance(status, str):
            print(status, file=sys.stderr)
            status = 1
    except BaseException:
        traceback.print_exc()
        status = 1
    sys.stdout.flush()
    sys.stderr.flush()
    return status


def interrupted(name, *words, ready):
    """How a tool ended that was interrupted once `ready`, given the process, returned."""
    with subprocess.Popen([sys.executable, os.path.join(TOOLS, name), *words], stdout=subprocess.PIPE, stderr=subprocess.PIPE, text=True,
                          preexec_fn=heed_interrupts) as running:
        ready(running)
        running.send_signal(signal.SIGINT)
        said, errors = running.communicate(timeout=30)
    return subprocess.CompletedProcess([], running.returncode, said, errors)


def described(done):
    return "status %d, %s, %s" % (done.returncode, done.stdout[-600:], done.stderr[-600:])


def write(path, text):
    with open(path, "w", encoding="ascii") as file:
        file.write(text)
    return path


def sorted_lines(path):
    with open(path, encoding="ascii") as file:
        return sorted(file)


def stand_in(path, program, first):
    """A program that carries out the lines `first` of a shell script, with the test in $text, and then answers as the other one does."""
    write(path, "#!/bin/sh\ntext=$(cat)\n%s\nprintf '%%s\\n' \"$text\" | '%s' \"$@\"\n" % (first, program))
    os.chmod(path, 0o755)
    return path
