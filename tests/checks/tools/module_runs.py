"""The module tso, tools/tso, for tests/batteries.py: its answers are what the program prints, and what is no answer is an exception."""
import dataclasses
import json
import os
import re
import subprocess
import sys
import tempfile
import time

from checks.reasons import why_answers

import litmus
import tso
from tso import processes

from .tool_runs import TOOLS, TOP, described, gallery, stand_in, test_file, write

CHOICES = "seed 1 1000"

# Of the gallery every so many tests is asked.
EVERY = 4


def printed(program, words, given):
    """What the program prints."""
    return subprocess.run([program, *words], input=given, capture_output=True, text=True).stdout


def plain(answer):
    """An answer as the JSON that it was made of: None stands where a member may be null."""
    if hasattr(answer, "__dataclass_fields__"):
        return {name.rstrip("_"): plain(getattr(answer, name)) for name in answer.__dataclass_fields__}
    if isinstance(answer, dict):
        return {name: plain(one) for name, one in answer.items()}
    return [plain(one) for one in answer] if isinstance(answer, list) else answer


def fits(whole, said):
    """Whether an answer has just what was said; what wasn't said is None, or the bus that needs no word."""
    if isinstance(said, dict):
        same = isinstance(whole, dict) and set(said) <= set(whole) and all(fits(whole[name], said[name]) for name in said)
        return same and all(whole[name] in (None, "atomic") for name in set(whole) - set(said))
    if isinstance(said, list):
        return isinstance(whole, list) and len(whole) == len(said) and all(map(fits, whole, said))
    return whole == said


def judge_json(program, tally):
    """Answers have all that the JSON has, and no more."""
    for name, text in list(gallery())[::EVERY]:
        alone = text.split("\n====")[0]
        asked = alone + "\n====\n" + CHOICES
        bare = re.sub(r"^(?:~?exists|forall)\b.*\Z", "", alone, flags=re.M | re.S)
        for function, answer, words, given in (
                ("outcomes", tso.outcomes(text, program=program), ["outcomes"], alone),
                ("outcomes, all", tso.outcomes(text, show="all", program=program), ["outcomes", "--show", "all"], alone),
                ("outcomes, none asked", tso.outcomes(bare, show="registers", program=program), ["outcomes", "--show", "registers"], bare),
                ("run", tso.run(text, CHOICES, bus="split", depth=2, program=program), ["run", "--bus", "split", "--depth", "2"], asked),
                ("counts", tso.counts(text, seeds=3, bus="split", program=program), ["counts", "--seeds", "3", "--bus", "split"], alone),
                ("counts of given choices", tso.counts(text, CHOICES, words=2, program=program), ["counts", "--given", "--words", "2"], asked),
                ("trace", tso.trace(litmus.read_test(text), CHOICES, program=program), ["trace"], asked)):
            said = json.loads(printed(program, words + ["--json"], given))
            tally.add("tso.%s of %s" % (function, name), None if fits(plain(answer), said) else "%s is not %s" % (answer, said))


def judge_lines(program, tally):
    """Answers of commands that print lines are these lines."""
    for name, text in list(gallery())[1::EVERY]:
        met = tso.sweep(text, seeds=20, from_=3, depth=1, program=program)
        lines = ["State %d" % one.runs + "".join(" %s=%d" % pair for pair in one.values.items()) for one in met.states]
        if met.observation:
            lines.append("Observation %s %s %d %d" % (met.test, met.observation.word, met.observation.true, met.observation.false))
        said = printed(program, ["sweep", "--seeds", "20", "--from", "3", "--depth", "1"], text).splitlines()
        same = said[3:] == lines and " ended=%d " % met.ended in said[2]
        tally.add("tso.sweep of " + name, None if same else "%s is not %s" % (met, said))
        order = tso.run(text, CHOICES, depth=32, program=program).order
        judged = tso.check(text, order, program=program), tso.check(text, order[1:], program=program)
        found = tso.witness(text, order, depth=32, program=program)
        same = tso.run(text, found.choices, depth=32, program=program).order == order
        tally.add("tso.check and tso.witness of " + name, None if judged[0].valid and judged[1].breach[0] == "C" and same else str(judged))
    with open(test_file("SB+stores-2"), encoding="ascii") as file:
        text = file.read()
    deep = [state.choices for state in tso.outcomes(text, program=program).states if not any(state.values.values())]
    order = tso.run(text, deep[0], depth=32, program=program).order
    needed = tso.witness(text, "\n".join(["Order", *order, "Endorder %d" % len(order)]), depth=1, program=program)
    tally.add("tso.witness tells the depth", None if needed == tso.Witness(needed=2) else str(needed))
    broken = tso.witness(text, order[1:], program=program)
    tally.add("tso.witness tells a breach", None if broken.breach and broken.breach.startswith("C1 missing") else str(broken))


def judge_faults(program, tally, room):
    """What is no answer is an exception that says why."""
    with open(test_file("SB"), encoding="ascii") as file:
        text = file.read()
    broken, slow = (stand_in(os.path.join(room, name), program, first) for name, first in (("broken", "echo {; exit 0"), ("slow", "sleep 9")))
    for call, kind, members in (
            (lambda: tso.outcomes("X86 SB\n{ }\n P0 ;\n MOV [x],$4294967296 ;\n", program=program), tso.Refused,
             {"text": "test", "line": 4, "word": None, "name": "BadNumber",
              "hint": "line 4: 4294967296 is over 4294967295, the greatest value: write that or a smaller one"}),
            (lambda: tso.run(text, "0s 9s", program=program), tso.Refused, {"text": "choices", "line": None, "word": 2, "name": "NoSuchCore"}),
            (lambda: tso.check(text, "", program=program), tso.Refused, {"text": "order", "line": None, "word": None, "name": "NoOrder"}),
            (lambda: tso.outcomes("(*" + "x" * 2_000_000, program=program), tso.Refused, {"text": "input", "name": "TooLarge"}),
            (lambda: tso.outcomes(text, states=2, program=program), tso.Unfinished,
             {"states": 2, "used": None, "trace": None, "verdict": "Ok"}),
            (lambda: tso.outcomes(text, states=2, program=program, further=["--assert"]), tso.Unfinished, {"states": 2, "verdict": "Ok"}),
            (lambda: tso.run(text, "0s", program=program), tso.Unfinished, {"used": 1, "stalled": 0, "trace": None}),
            (lambda: tso.outcomes(text, depth=99, program=program), tso.BadWords, {}),
            (lambda: tso.sweep(text, further=["--nothing"], program=program), tso.BadWords, {}),
            (lambda: tso.outcomes(text, program=broken), tso.Failed, {"status": 0}),
            (lambda: tso.outcomes(text, limit=0.2, program=slow), tso.TookTooLong, {"seconds": 0.2}),
            (lambda: tso.outcomes(text, program=os.path.join(room, "none")), tso.NoProgram, {}),
            (lambda: tso.find(os.path.join(room, "none")), tso.NoProgram, {})):
        try:
            fault = "no exception, but %s" % (call(),)
        except tso.NoAnswer as met:
            same = type(met) is kind and all(getattr(met, name) == value for name, value in members.items())
            fault = None if same else "%s: %s, %s" % (type(met).__name__, met, vars(met))
        tally.add("%s %s" % (kind.__name__, members), fault)
    try:
        tso.trace(text, "0s 1s", program=program)
        tally.add("the trace of a run that doesn't end", "isn't unfinished")
    except tso.Unfinished as met:
        tally.add("the trace of a run that doesn't end", None if [step.choice for step in met.trace.steps] == ["0s", "1s"] else str(vars(met)))


def judge_reasons(program, tally, room):
    """Answers of why are the objects of their JSON; a program without the command has none."""
    program = why_answers.program(room, program)
    for given, kind in ((why_answers.NEVER, tso.Never), (why_answers.SHORT, tso.Never), (why_answers.ALLOWED, tso.Allowed)):
        answer = tso.why("X86 %s\n" % given["test"], model="tso", program=program)
        said = {name: value for name, value in given.items() if name != "answer"}
        tally.add("tso.why of " + given["test"], None if type(answer) is kind and fits(plain(answer), said) else str(answer))
    try:
        tally.add("why without an end", str(tso.why("X86 LB\n", program=program)))
    except tso.Unfinished as met:
        tally.add("why without an end", None if met.cases == 100000 else str(vars(met)))
    named = tso.commands(program)
    tally.add("the commands of a program", None if {"outcomes", "why"} <= set(named) else str(named))


# Shell scripts that never end; and others, each with an input, that print much before they read, read nothing, read late and are killed, close
# their streams and go on, or leave behind what holds these for a moment.
NEVER_END = "cat > /dev/null; sleep 60", "exec >&- 2>&-; sleep 60", "while :; do echo more; done"
BEHAVE_BADLY = (
    ("head -c 300000 /dev/zero; cat", b"x" * 300_000), ("exit 3", b"x" * 300_000), ("echo a; echo b >&2", b""),
    ("sleep 0.1; cat; echo b >&2; kill -9 $$", b"x" * 70_000), ("exec >&- 2>&- <&-; sleep 0.2; exit 7", b"x"), ("sleep 0.2 & echo left", b""))

# Seconds that each of them may take.
BRIEF, PATIENT = 1, 20


def judge_at_once(tally):
    """Programs that run at once, four at a time, end as each does alone; those that never end are ended at once, and none is left."""
    left = [(["sh", "-c", script], b"x") for script in NEVER_END] + [(["sh", "-c", script], given) for script, given in BEHAVE_BADLY]
    left.insert(1, ([os.path.join(TOP, "no such program")], b""))
    wanted = {words[-1]: subprocess.TimeoutExpired if words[-1] in NEVER_END else ended_alone(words, given) for words, given in left}
    found, at_once, begun = {}, processes.AtOnce(), time.monotonic()
    while left or at_once:
        while left and len(at_once) < 4:
            words, given = left.pop(0)
            at_once.begin(words[-1], words, given, BRIEF if words[-1] in NEVER_END else PATIENT)
        for mark, done in at_once.ended(True):
            found[mark] = type(done) if isinstance(done, Exception) else (done.returncode, done.stdout, done.stderr)
    for mark, due in wanted.items():
        tally.add("at once: " + mark, None if found.get(mark) == due else "%.300s is not %.300s" % (found.get(mark), due))
    took = time.monotonic() - begun
    tally.add("programs at once", None if not processes.running and took < PATIENT else "%s run, %.1f s" % (processes.running, took))
    at_once.begin("late", ["sh", "-c", "sleep 0.1; echo late"], b"", BRIEF)
    time.sleep(1.1 * BRIEF)
    done = at_once.ended(True)[0][1]
    tally.add("what ended while nobody asked", None if getattr(done, "stdout", None) == b"late\n" else str(done))


def ended_alone(words, given):
    """How a program ends alone."""
    try:
        done = processes.answered(words, given, PATIENT)
    except (OSError, subprocess.TimeoutExpired) as fault:
        return type(fault)
    return done.returncode, done.stdout, done.stderr


def judge_records(tally):
    """Answers are dataclasses whose members can't be set."""
    first, same = (tso.Spread(sum=3, least=1, greatest=2) for _ in range(2))
    told = dataclasses.asdict(first), repr(first), first == same, hash(first) == hash(same), first == tso.Spread(3, 1, 1)
    wanted = {"sum": 3, "least": 1, "greatest": 2}, "Spread(sum=3, least=1, greatest=2)", True, True, False
    tally.add("a record", None if told == wanted else str(told))
    tally.add("a record like another", None if dataclasses.replace(first, sum=4) == tso.Spread(4, 1, 2) else "another record")
    for name, wrong, kind in (("a member that is set", lambda: setattr(first, "sum", 4), dataclasses.FrozenInstanceError),
                              ("a member that goes", lambda: delattr(first, "sum"), dataclasses.FrozenInstanceError),
                              ("too few members", lambda: tso.Spread(1, 2), TypeError),
                              ("too many members", lambda: tso.Spread(1, 2, 3, 4), TypeError),
                              ("an unknown member", lambda: tso.Spread(1, 2, 3, most=4), TypeError),
                              ("a member said twice", lambda: tso.Spread(1, 2, 3, sum=4), TypeError)):
        try:
            tally.add(name, "no exception, but %s" % (wrong(),))
        except kind:
            tally.add(name)


def judge_places(program, tally, room):
    """The program is found: where it is named, of a script that tells it, and beside the module."""
    real, link, script = os.path.realpath(program), os.path.join(room, "tso"), os.path.join(room, "script")
    os.symlink(real, link)
    write(script, "#!/bin/sh\n[ \"$*\" = --program ] && echo '%s' && exit\nexit 9\n" % real)
    os.chmod(script, 0o755)
    for name, named in (("a program's path", link), ("a script that tells its program", script)):
        tally.add(name, None if tso.find(named) == real else tso.find(named))
    told = subprocess.run([os.path.join(TOP, "tso"), "--program"], capture_output=True, text=True).stdout.strip()
    done = subprocess.run([sys.executable, "-c", "import tso; print(tso.find())"], capture_output=True, text=True, cwd="/",
                          env=dict(os.environ, PYTHONPATH=TOOLS))
    tally.add("the program of a checkout", None if told and done.stdout.strip() == told else "%s, not %s" % (described(done), told))


def judge(program, tally):
    judge_json(program, tally)
    judge_lines(program, tally)
    judge_at_once(tally)
    judge_records(tally)
    with tempfile.TemporaryDirectory() as room:
        for part in (judge_faults, judge_reasons, judge_places):
            part(program, tally, room)
