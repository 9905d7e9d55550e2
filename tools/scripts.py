"""The scripts of this folder as modules, and how those that people call begin and end."""
import argparse
import importlib.machinery
import importlib.util
import os
import re
import signal
import sys

import tso.processes

TOOLS = os.path.dirname(os.path.abspath(__file__))
# The Python for which Debian's packages are.
DEBIANS = "/usr/bin/python3"

# What a tool ends with: nothing differs, something does, it couldn't judge or write what was asked, or it was interrupted, as shells
# have it.
SAME, DIFFERS, COULD_NOT, INTERRUPTED = 0, 1, 2, 130


def script(name):
    """A script of this folder, as a module; processes that are forked from this one know it too."""
    if name not in sys.modules:
        loader = importlib.machinery.SourceFileLoader(name, os.path.join(TOOLS, name))
        module = importlib.util.module_from_spec(importlib.util.spec_from_loader(name, loader))
        sys.modules[name] = module
        loader.exec_module(module)
    return sys.modules[name]


def later(name):
    """A module of this folder that few calls need: it's read when it is first used."""
    if name not in sys.modules:
        spec = importlib.util.find_spec(name)
        spec.loader = importlib.util.LazyLoader(spec.loader)
        sys.modules[name] = importlib.util.module_from_spec(spec)
        spec.loader.exec_module(sys.modules[name])
    return sys.modules[name]


# ---- what is asked

# Seconds of a limit, at most: what waits for more has no end.
MOST_SECONDS = 10_000_000


def seconds(word):
    """So many seconds, as a word of a command line says."""
    try:
        found = float(word)
    except ValueError:
        found = 0.0
    if not 0 < found <= MOST_SECONDS:
        raise argparse.ArgumentTypeError("%r is no number of seconds over 0, and up to %d" % (word, MOST_SECONDS))
    return found


def refuse_dashes(words):
    """Refuses two dashes as the value of an option: argparse takes them away, and leaves a list."""
    for word in words:
        if re.fullmatch(r"(--[\w-]+=|-\w)--", word):
            raise OSError("%s has no value" % word)


# ---- what is told

def printable(text, kept="\n\t"):
    """A text with each character that isn't seen, as those that steer a terminal, written as its number."""
    return text if text.isprintable() else "".join(one if one.isprintable() or one in kept else number_of(one) for one in text)


def number_of(character):
    """A character as its number: a byte of an argument that is no text stands for itself."""
    number = ord(character)
    if 0xDC80 <= number <= 0xDCFF:
        number -= 0xDC00
    return "\\x%02x" % number if number < 0x100 else "\\u%04x" % number if number < 0x10000 else "\\U%08x" % number


class Printable:
    """A stream for people: what is written to it has no character that isn't seen."""

    def __init__(self, stream):
        self.stream = stream

    def write(self, text):
        return self.stream.write(printable(text))

    def __getattr__(self, name):
        return getattr(self.stream, name)


class Closed:
    """A stream that was closed when the tool began."""

    def __init__(self, name):
        self.name = name

    def refuse(self, *_):
        raise OSError("%s is closed" % self.name)

    read = write = refuse

    def flush(self):
        pass

    def isatty(self):
        return False

    def reconfigure(self, **_):
        pass


def open_streams():
    """Has standard error tell what is seen alone. Where a stream is closed, no file that is opened gets its number."""
    while (file := os.open(os.devnull, os.O_RDWR)) < 3:
        os.set_inheritable(file, True)
    os.close(file)
    sys.stdin = sys.stdin or Closed("standard input")
    sys.stdout = sys.stdout or Closed("standard output")
    sys.stderr = Printable(sys.stderr or open(os.devnull, "w", encoding="ascii", errors="replace"))


# Debian's packages of modules that aren't Python's own.
PACKAGES = {"capstone": "python3-capstone", "elftools": "python3-pyelftools"}


def missing(fault):
    """What is said where such a module isn't there."""
    return "Debian's package %s isn't there" % PACKAGES.get(fault.name, fault.name)


def by_debians_python():
    """Begins the tool anew by the Python for which Debian's packages are, if that isn't the one that runs it."""
    if sys.executable != DEBIANS and os.path.exists(DEBIANS):
        os.execv(DEBIANS, [DEBIANS, *sys.argv])


# ---- the end

class Stopped(BaseException):
    """A signal that ends the tool, as one from the terminal does."""


def heed_signals():
    """Has the signals that end a process end it as an interrupt does, with what it has started. What is ignored stays so."""
    def stop(number, _):
        raise Stopped(number)

    for number in (signal.SIGTERM, signal.SIGHUP):
        if signal.getsignal(number) == signal.SIG_DFL:
            signal.signal(number, stop)
    # a tool begins so, by the part of `signal` that reads no other module: an interrupt while it reads its own would be told in full
    if signal.getsignal(signal.SIGINT) == signal.SIG_DFL:
        signal.signal(signal.SIGINT, signal.default_int_handler)


def forsake_output():
    """Has what is left for standard output go nowhere: nobody takes it."""
    os.dup2(os.open(os.devnull, os.O_WRONLY), 1)


def note(words):
    """Tells in one line what is to be known beside the tool's answer."""
    print(printable("%s: %s" % (os.path.basename(sys.argv[0]).removeprefix("tso-"), words), kept=""), file=sys.stderr)


def tell(name, why):
    """Says in one line why the tool ends, if there is something to be said and somebody to whom."""
    try:
        if why is not None:
            print(printable("%s: %s" % (name, why), kept=""), file=sys.stderr, flush=True)
    except OSError:
        os.dup2(os.open(os.devnull, os.O_WRONLY), 2)


def status_of(main):
    """The status with which `main` ends, once standard output has all that it printed."""
    refuse_dashes(sys.argv[1:])
    try:
        status = main(sys.argv[1:])
    except SystemExit as end:
        status = end.code
    sys.stdout.flush()
    return status


def end_with(main, name, faults, stopped="stopped"):
    """Ends with the status of `main`. Where that is interrupted, or meets one of these faults, one line says so; where nobody reads its
    output any more, none does. Any other fault is the tool's own: it is told in full, and the tool couldn't answer."""
    open_streams()
    heed_signals()
    try:
        sys.exit(status_of(main))
    except KeyboardInterrupt:
        status, why = INTERRUPTED, stopped
    except Stopped as signalled:
        status, why = 128 + signalled.args[0], stopped
    except BrokenPipeError:
        status, why = COULD_NOT, None
    except (OSError, *faults) as fault:
        status, why = COULD_NOT, fault
    except MemoryError:
        status, why = COULD_NOT, "out of memory"
    except Exception as fault:
        sys.excepthook(type(fault), fault, fault.__traceback__)
        status, why = COULD_NOT, None
    tso.processes.end_all(stopped)
    forsake_output()
    tell(name, why)
    sys.exit(status)
