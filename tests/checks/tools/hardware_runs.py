"""tools/hardware, for tests/batteries.py: short runs of the gallery on this machine's processor, a wrong table that must be
noticed, and the C program that is kept."""
import os
import re
import shutil
import subprocess
import tempfile

import answers
import litmus
from scripts import COULD_NOT, INTERRUPTED

from .log_forms import OTHER_NAME, OTHER_NAME_LOG, OUTCOMES
from .tool_runs import GALLERY, described, gallery, interrupted, test_file, tool, write

# Of each test of the gallery.
SECONDS = "0.01"

# A state that each processor shows soon: both cores one after the other.
SEEN_SOON = "State 0:EAX=0 1:EAX=1 against=yes\n"


def why_not():
    """Why tests can't be run on this machine's processor, or None."""
    if os.uname().machine != "x86_64":
        return "this is no x86-64"
    if shutil.which((os.environ.get("CC") or "cc").split()[0]) is None:
        return "no C compiler is there"
    if len(os.sched_getaffinity(0)) < 2:
        return "there is one processor alone"
    return None


def judge_ends(program, tally):
    """Where there is no C compiler, or the log is none, the status is 2, and one line says why. One line says that it is interrupted."""
    for name, words, environment, told in (
            ("no C compiler", ["--program", program], dict(os.environ, CC="/no/compiler"), "without a C compiler"),
            ("a log that is none", ["--allowed", test_file("SB")], os.environ, "no line `Test NAME`")):
        done = tool("hardware", *words, test_file("SB"), env=environment)
        one_line = done.stderr.startswith("hardware: ") and told in done.stderr and done.stderr.count("\n") == 1
        tally.add(name, None if done.returncode == COULD_NOT and one_line else described(done))
    words = ["--program", program, "--seconds", "0.2"] + [test_file(name) for name in ("SB", "MP", "LB", "S", "R")]
    done = interrupted("hardware", *words, ready=lambda running: running.stdout.readline())
    tally.add("tests on this processor are stopped",
              None if (done.returncode, done.stderr) == (INTERRUPTED, "hardware: stopped\n") else described(done))


# Conditions of each kind, of registers and locations.
ASKED = ("forall (0:EAX=0 \\/ ~(x=1) \\/ 1:EAX=1)", "~exists (not (0:EAX=0 /\\ y=0) /\\ (1:EAX=0 \\/ x=7))", "exists true", "forall false", "")


def judge_program_alone(program, tally, room):
    """The C program that is kept: cc alone builds it, and its log has allowed states alone, and of each condition what its states say."""
    with open(test_file("SB"), encoding="ascii") as file:
        text = file.read().split("exists")[0]
    asked = [write(os.path.join(room, "asked%d" % at), text.replace("X86 SB", 'X86 SB"%d\\?' % at) + claim + "\n")
             for at, claim in enumerate(ASKED)]
    tests = [test_file(name) for name, text in gallery() if "P2" not in text][::3] + asked
    source, made = os.path.join(room, "kept.c"), os.path.join(room, "kept")
    done = tool("hardware", "-o", source, *tests)
    tally.add("a C program is kept", None if (done.returncode, done.stdout, done.stderr) == (0, "", "") else described(done))
    compiler = (os.environ.get("CC") or "cc").split()
    built = subprocess.run([*compiler, "-Wall", "-Wextra", "-o", made, source], capture_output=True, text=True)
    tally.add("cc alone builds it", None if built.returncode == 0 and not built.stderr else described(built))
    ran = subprocess.run([made, "512", "1000"], capture_output=True, text=True)
    tally.add("and it ends", None if ran.returncode == 0 and ran.stdout.count("Test ") == len(tests) else described(ran))
    seen = write(os.path.join(room, "kept.log"), ran.stdout)
    own = write(os.path.join(room, "own.log"), "".join(printed(program, path) for path in tests))
    compared = tool("compare", "--within", seen, own)
    counted = [line for line in compared.stdout.splitlines() if "only in the first log" in line]
    tally.add("its log beside that of all outcomes", described(compared) if counted or not compared.stdout else None)
    for path, block in zip(tests, ran.stdout.split("\n\n")):
        with open(path, encoding="ascii") as file:
            fault = fault_of_log(litmus.read_test(file.read()), block.splitlines())
        tally.add("the log of " + os.path.basename(path), fault)


def printed(program, path):
    with open(path, "rb") as file:
        return subprocess.run([program, "outcomes"], stdin=file, capture_output=True).stdout.decode("ascii")


def fault_of_log(test, lines):
    """What is wrong with a test's block of a log, if anything is: its states tell how often the condition was so."""
    counts = {True: 0, False: 0}
    for line in lines:
        found = re.match(r"(\d+) *([*:])>(.*)", line)
        if found:
            values = re.findall(r"(\d+):(\w+)=(\d+);|\[(\w+)\]=(\d+);", found.group(3))
            state = {location or (int(core), register): int(value or word) for core, register, value, location, word in values}
            holds = litmus.holds(test.condition[1], state) if test.condition else False
            counts[holds] += int(found.group(1))
            if "*:"[not holds] != found.group(2):
                return "a state is marked as it isn't: " + line
    wanted = ["Test %s %s" % (test.name, litmus.QUANTIFIERS[test.condition[0] if test.condition else "forall"])]
    if test.condition:
        is_so = {"exists": counts[True] > 0, "~exists": counts[True] == 0, "forall": counts[False] == 0}[test.condition[0]]
        wanted += ["Ok" if is_so else "No", "Positive: %d Negative: %d" % (counts[True], counts[False])]
        wanted += ["Observation %s %s %d %d" % (test.name, answers.word_of(counts[True], counts[False]), counts[True], counts[False])]
    return next(("no line %r in %s" % (line, lines) for line in wanted if line not in lines), None)


def judge_few_processors(program, tally):
    """A test of more cores than there are processors is run without pinning, and that is said."""
    two = sorted(os.sched_getaffinity(0))[:2]
    words = ["--program", program, "--runs", "256", "--seconds", "1", test_file("3.SB"), test_file("SB")]
    done = tool("hardware", *words, preexec_fn=lambda: os.sched_setaffinity(0, two))
    told = "hardware: there are 2 processors; not pinned, with their cores: 3.SB (3)\n"
    same = (done.returncode, done.stderr) == (0, told) and done.stdout.splitlines()[-1].startswith("2 tests, ")
    tally.add("more cores than processors", None if same else described(done))


def judge(program, tally):
    missing = why_not()
    if missing:
        print("not tried: tests on this machine's processor: %s" % missing)
        return
    judge_ends(program, tally)
    judge_few_processors(program, tally)
    with tempfile.TemporaryDirectory() as room:
        judge_program_alone(program, tally, room)
    done = tool("hardware", "--program", program, "--seconds", SECONDS, GALLERY)
    tally.add("the gallery on this processor", None if done.returncode == 0 and "NOT ALLOWED" not in done.stdout else described(done))
    print("on this machine's processor: " + done.stdout.splitlines()[-1] if done.stdout else described(done))
    with tempfile.TemporaryDirectory() as room:
        log = write(os.path.join(room, "log"), OUTCOMES)
        wrong = write(os.path.join(room, "wrong"), OUTCOMES.replace(SEEN_SOON, "").replace("states=4", "states=3"))
        for name, table, status in (("a table of allowed states", log, 0), ("a wrong table of allowed states", wrong, 1)):
            done = tool("hardware", "--allowed", table, "--seconds", "1", "--runs", "100000", test_file("SB"))
            told = "NOT ALLOWED, AND SEEN: SB: 0:EAX=0 1:EAX=1\n" in done.stdout
            tally.add(name, None if done.returncode == status and told == bool(status) else described(done))
        seen = write(os.path.join(room, "seen"), done.stdout)
        compared = tool("compare", "--within", seen, log)
        tally.add("a processor's log beside that of all outcomes", None if compared.returncode == 0 else described(compared))
        named, file = write(os.path.join(room, "named"), OTHER_NAME_LOG), write(os.path.join(room, "SB.litmus"), OTHER_NAME)
        done = tool("hardware", "--allowed", named, "--runs", "1000", file)
        tally.add("a table in the names of the file", None if done.returncode == 0 and "1 tests, " in done.stdout else described(done))
        cut = write(os.path.join(room, "cut"), OUTCOMES.replace(SEEN_SOON, ""))
        done = tool("hardware", "--allowed", cut, test_file("SB"))
        told = "hardware: SB isn't judged: the log is to have 4 states and has 3\n"
        tally.add("a table that was cut", None if (done.returncode, done.stderr) == (COULD_NOT, told) else described(done))
        done = tool("hardware", "--allowed", log, test_file("MP"))
        tally.add("a test that the table hasn't", None if done.returncode == 2 else described(done))
