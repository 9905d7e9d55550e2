"""Starts programs many times: each is loaded once, and begins again and again with the memory that it had then (many_starts.c).

A start of its own costs ten times the processor time, and the gate makes some hundred thousand. Those of tests/run_rows.py are their own.
Without a C compiler each start is one of its own.
"""
import functools
import multiprocessing.util
import os
import shlex
import shutil
import socket
import struct
import subprocess
import tempfile
import threading

HERE = os.path.dirname(os.path.abspath(__file__))
TESTS = os.path.dirname(HERE)

# What a program is called on its own command line, whatever its file is called.
NAME = "tso"

# For so many seconds an answer is waited for.
PATIENCE = 60

# A message is shorter.
LONGEST = 65_536

# What comes back of a start: its status, and the lengths of what it wrote to its output, its errors and its notes.
ANSWER = struct.Struct("4l")


@functools.cache
def room():
    """A folder for what is built, which goes when the script ends."""
    return tempfile.TemporaryDirectory()


def built(source, name, *words):
    """The path under which the C compiler puts what it makes of this source file; None, with a word, where it can't be built."""
    compiler, shown = shlex.split(os.environ.get("CC") or "cc"), os.path.relpath(source, os.path.dirname(TESTS))
    if shutil.which(compiler[0]) is None:
        print("no C compiler is there to build " + shown)
        return None
    made = os.path.join(room().name, name)
    done = subprocess.run(compiler + ["-O1", "-o", made, source, *words], stdout=subprocess.PIPE, stderr=subprocess.STDOUT, text=True)
    if done.returncode != 0:
        print("%s can't be built:\n%s" % (shown, done.stdout))
        return None
    return made


@functools.cache
def library(name):
    """The path of the library of this source file beside this module, built; None, with a word, where it can't be built."""
    return built(os.path.join(HERE, name + ".c"), name + ".so", "-shared", "-fPIC", "-ldl")


class Starter:
    """A program that is loaded under these libraries, and waits where it would begin."""

    def __init__(self, program, libraries):
        self.files = [os.memfd_create(name) for name in ("input", "output", "errors", "notes")]
        taken, output, errors, notes = self.files
        self.given = b""
        self.socket, other = socket.socketpair(socket.AF_UNIX, socket.SOCK_SEQPACKET)
        # What the program calls is looked up once, at the load, and not at each start.
        told = {"LD_PRELOAD": ":".join(libraries), "LD_BIND_NOW": "1", "STARTS": str(other.fileno()), "FAIL_NOTES": str(notes)}
        with other:
            self.process = subprocess.Popen([program], stdin=taken, stdout=output, stderr=errors, env=dict(os.environ, **told),
                                            pass_fds=(other.fileno(), notes))
        multiprocessing.util.Finalize(self, end, (self.socket, self.process), exitpriority=1)

    def answer(self, words, given, told):
        """The answer to this input, and what was written to the file of notes."""
        if given != self.given:
            os.pwrite(self.files[0], given, 0)
            os.ftruncate(self.files[0], len(given))
            self.given = given
        texts = ["%s=%s" % pair for pair in told.items()] + ["", NAME] + words
        message = os.fsencode("\0".join(texts) + "\0")
        if len(message) >= LONGEST:
            raise ValueError("a command line of %d bytes" % len(message))
        self.socket.send(message)
        status, *lengths = ANSWER.unpack(self.socket.recv(ANSWER.size))
        output, errors, notes = (os.pread(file, length, 0) if length else b"" for file, length in zip(self.files[1:], lengths))
        return subprocess.CompletedProcess(words, os.waitstatus_to_exitcode(status), output, errors), notes


def end(asks, process):
    """Ends a program that waits, once nothing more is asked."""
    asks.close()
    process.wait()


# The programs that this process has loaded, by their paths, their libraries and its thread that asks them. A fork of it loads its own.
_starters = {}
os.register_at_fork(after_in_child=_starters.clear)


def answer(program, words, given, under="", told={}):
    """The program's answer to this input, and what failing_calls.c noted, where that is the library under which it runs, which is told
    so by the environment."""
    key = program, under, threading.get_ident()
    if key not in _starters:
        _starters[key] = Starter(program, [library(name) for name in ("many_starts", under) if name])
    return _starters[key].answer(words, given, told)
