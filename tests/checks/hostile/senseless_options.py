"""Options of the tools that are given nothing, or what they can't mean, for tests/hostile_tools.py. Each tool tells its options by --help;
each option gets no value, an empty one, a word, a number below 0, two dashes, a folder, and a file that can't be read. The call answers, or it
is refused with a status of the tools and says why in a line. It tells nothing of its own code."""
import os
import re
import shutil
import tempfile

from checks import judging
from checks.tools import tool_runs

from .attacked_tools import COULD_NOT, DIFFERS, SB

# A file that opens, and can't be read; and one that never ends.
UNREADABLE, ENDLESS = "/proc/self/mem", "/dev/zero"

# What options are given, each in a folder that has these files.
FILES = {"SB.litmus": SB, "bytes": "\xff\xfe\0\x01" * 50, "log": "Test SB\nStates 1\n0:EAX=0;\nObservation SB Always 1 0\n",
         "run.json": '{"test": "t", "order": ["P0:0 W x=1"]}', "SB.c": "int x, o;\nvoid P0(void) { x = 1; }\nvoid P1(void) { o = x; }\n"}
VALUES = ("", "inf", "-1", "--", "folder", UNREADABLE)

# Words of a call of each tool that is quick, to which an option is added. That of hardware has no compiler.
CALLS = {"campaign": ["outcomes", "PROGRAM", "--results", "results", "SB.litmus"], "compare": ["log", "log"],
         "compiled": ["--program", "PROGRAM", "SB.c"], "cycles": ["PodWR", "Fre", "PodWR", "Fre"], "graph": ["run.json"],
         "hardware": ["--program", "PROGRAM", "SB.litmus"], "import": ["SB.litmus"]}

# Words that stand for files to be read: by themselves, as a list, and for the options that have a log or a list of verdicts.
READING = [("campaign", ["outcomes", "PROGRAM", "--results", "results"], "%s"), ("campaign", ["sweep", "PROGRAM", "--results", "results"], "@%s"),
           ("compare", ["log"], "%s"), ("compare", ["log", "log", "--tests"], "@%s"), ("graph", [], "%s"), ("graph", ["--svg"], "%s"),
           ("hardware", ["--program", "PROGRAM"], "%s"), ("import", [], "%s"), ("import", [], "@%s"), ("import", ["-o", "out"], "%s"),
           ("theory", [], "%s"), ("theory", [], "@%s")]

# Dask as far as a call needs it that comes to no scheduler: of TLS without a certificate it says this.
DASK = {"cloudpickle.py": "def register_pickle_by_value(module):\n    pass\n",
        "distributed.py": "def Client(*_, **__):\n    raise TypeError('TLS expects a `ssl_context` argument')\n"}

OPTION = re.compile(r"^  (?:-\w(?: \w+)?, )?(--?[\w-]+)(?: ([A-Z_.]+|\{.*\}))?", re.M)


def called(folder, tool, words, program):
    """How a call in this folder ended: by a fork of this process, which has loaded what most tools need."""
    words = [program if word == "PROGRAM" else word for word in words]
    return tool_runs.forked(os.path.join(tool_runs.TOOLS, tool), words, cwd=folder)


def fault_of(tool, words, done):
    """What is wrong with how a call ended."""
    told = done.stderr.replace("\r", "\n").strip().split("\n")[-1]
    if done.returncode not in (0, DIFFERS, COULD_NOT) or "Traceback" in done.stderr:
        return "%s %s: status %s, %r" % (tool, words, done.returncode, done.stderr[-300:])
    # theory tells of each test, and so what is none, on standard output
    if done.returncode == COULD_NOT and not re.match("%s: |%s:" % (tool, re.escape(words[-1])), told) and tool != "theory":
        return "%s %s: %r" % (tool, words, told)
    return None


def begun(folder):
    """Fills a folder with what calls are given."""
    for name, text in FILES.items():
        with open(os.path.join(folder, name), "w", encoding="latin-1") as file:
            file.write(text)
    os.mkdir(os.path.join(folder, "folder"))
    return folder


def faults_of_option(tool, option, program):
    """The faults of a tool's option: without a value, and with each that it can't mean."""
    with tempfile.TemporaryDirectory() as room:
        folder, good = begun(room), CALLS[tool]
        calls = [[*good, option]] + [[option + "=" + value if option.startswith("--") else option + value, *good] for value in VALUES]
        return [fault for words in calls if (fault := fault_of(tool, words, called(folder, tool, words, program)))]


def faults_of_reading(tool, words, form, program):
    """The faults of a tool that is given what can't be read. What never ends is for compare alone: it costs a second, and all read alike."""
    with tempfile.TemporaryDirectory() as room:
        folder = begun(room)
        files = ["", "missing", "folder", UNREADABLE, "bytes", "SB.litmus/x", "\udcff"] + [ENDLESS] * (tool == "compare")
        calls = [[*words, form % name] for name in files]
        return [fault for words in calls if (fault := fault_of(tool, words, called(folder, tool, words, program)))]


def faults_of_scheduler(program):
    """The faults of a campaign on a cluster with TLS that has no certificate."""
    with tempfile.TemporaryDirectory() as room:
        folder = begun(room)
        for name, text in DASK.items():
            tool_runs.write(os.path.join(folder, name), text)
        words = ["outcomes", program, "--results", "results", "--scheduler", "tls://localhost:8786", "SB.litmus"]
        done = tool_runs.tool("campaign", *words, cwd=folder, env=dict(os.environ, PYTHONPATH=folder))
        told = "campaign: no scheduler answers at tls://localhost:8786: TLS expects a `ssl_context` argument\n"
        return [] if (done.returncode, done.stderr) == (COULD_NOT, told) else [tool_runs.described(done)]


def options_of(tool):
    """The options of a tool, as it tells them itself."""
    told = called(".", tool, ["--help"], "").stdout
    return [name for name, value in OPTION.findall(told.split("\noptions:")[-1]) if value]


def judged(program, part):
    """Pairs of a row's name and its faults."""
    rows = [("%s %s with what it can't mean" % (tool, option), (faults_of_option, (tool, option))) for tool in CALLS for option in options_of(tool)]
    rows += [("%s with %s that can't be read" % (" ".join([tool, *words]), "@LIST" if form[0] == "@" else "a file"),
              (faults_of_reading, (tool, words, form))) for tool, words, form in READING]
    rows.append(("campaign with a scheduler and no certificate", (faults_of_scheduler, ())))

    def judge(row):
        os.environ["CC"] = shutil.which("false")
        name, (function, given) = row
        return name, judging.faults_told(lambda: function(*given, program))
    return judging.in_processes(judge, [row for row in rows if part in row[0]], at_once=1)
