"""What tools/theory, tools/hardware and tools/campaign take as tests, for tests/batteries.py: each form that is read, and no other."""
import os
import tempfile

from scripts import COULD_NOT, INTERRUPTED

from . import hardware_runs
from .tool_runs import described, interrupted, test_file, tool, write

X86_64 = """X86_64 SB
"PodWR Fre PodWR Fre"
{ uint32_t x=0x0; }
 P0             | P1            ;
 movl $1,(x)    | movl $1,(y)   ;
 movl (y),%r8d  | movl (x),%eax ;
exists (0:r8=0 /\\ 1:rax=0)
"""
AT_AND_T = X86_64.replace("X86_64 SB", "X86 SB+mfences").replace(" movl (y)", " mfence | mfence ;\n movl (y)")
OTHER_MACHINE = "AArch64 MP\n{ }\n P0 ;\n MOV W0,#1 ;\n"
HALF_WORDS = X86_64.replace("X86_64 SB", "X86_64 Halves").replace("movl $1,(y)", "movw $1,(y)")

FILES = (("1.litmus", X86_64 + "\n" + HALF_WORDS), ("2.litmus", OTHER_MACHINE), ("3.litmus", ""), ("4.litmus", "\0\1{"),
         ("5.litmus", AT_AND_T), ("6.litmus", "X86 Digits\n{ }\n P0 ;\n MOV [x],$%s ;\n" % ("9" * 5000)))
NO_HEADER = "a test begins with X86 NAME or X86_64 NAME"
REFUSED = (("1.litmus:13", "movw $1,(y): words of 32 bits alone are read"), ("2.litmus:1", NO_HEADER), ("3.litmus:1", NO_HEADER),
           ("4.litmus:1", NO_HEADER), ("6.litmus:4", "a number of 5000 digits doesn't fit 32 bits"))

# A test that theory tries for long: so many orders of stores, none of which makes the condition true.
LONG = "X86 Long\n{ }\n P0 ;\n%sexists (x=10)\n" % "".join(" MOV [x],$%d ;\n" % value for value in range(1, 10))


def calls(program, room, word):
    """The tools, each with the words that ask it of this one."""
    found = [("theory", [word]), ("campaign", ["outcomes", program, "--theory", "--results", os.path.join(room, "results"), word])]
    if hardware_runs.why_not() is None:
        found.append(("hardware", ["--program", program, "--seconds", "0.05", word]))
    return found


def wanted_of(folder):
    """What each tool says of the folder: its status, and lines of its standard output and of standard error."""
    refused = [(os.path.join(folder, place), why) for place, why in REFUSED]
    of_theory = ["refused   %s: %s" % one for one in refused]
    verdicts = ["same    SB --depth 32 expected=allowed found=allowed true=1 false=3 states=4",
                "same    SB+mfences --depth 32 expected=forbidden found=forbidden true=0 false=3 states=3"]
    return {"theory": (COULD_NOT, ["allowed   SB"] + of_theory[:-1] + ["forbidden SB+mfences"] + of_theory[-1:], []),
            "campaign": (COULD_NOT, ["REFUSED %s - %s" % one for one in refused] + verdicts, []),
            "hardware": (COULD_NOT, ["Test SB", "Test SB+mfences"], ["hardware: %s isn't judged: %s" % one for one in refused])}


def judge_forms(program, tally, room):
    """Tests in each form that tools/import reads are read by each tool; a text that is none is named, and the others go on."""
    folder = os.path.join(room, "forms")
    os.mkdir(folder)
    for name, text in FILES:
        write(os.path.join(folder, name), text)
    for name, words in calls(program, room, folder):
        done, (status, said, errors) = tool(name, *words), wanted_of(folder)[name]
        lines = done.stdout.splitlines()
        found = [line for line in lines if line.startswith("Test ")] if name == "hardware" else lines
        same = (done.returncode, found) == (status, said) and set(errors) <= set(done.stderr.splitlines())
        tally.add("tools/%s of each form" % name, None if same else described(done))


def judge_words(program, tally, room):
    """A folder without a test, a list of nothing and one that names itself are errors, one line each."""
    empty = os.path.join(room, "empty")
    os.mkdir(empty)
    nothing, itself = write(os.path.join(room, "nothing"), "# no file\n"), write(os.path.join(room, "itself"), "@itself\n")
    for word, why in ((empty, "%s has no file *.litmus" % empty), ("@" + nothing, "@%s names no file" % nothing),
                      ("@" + itself, "@%s names itself" % itself), (empty + "/none", None)):
        for name, words in calls(program, room, word):
            done = tool(name, *words)
            one_line = done.stderr == "%s: %s\n" % (name, why) if why else done.stderr.count("\n") == 1
            tally.add("tools/%s %s" % (name, os.path.basename(word)),
                      None if done.returncode == COULD_NOT and not done.stdout and one_line else described(done))


def judge_interrupt(tally, room):
    """Theory that is interrupted keeps what it has said."""
    done = interrupted("theory", test_file("SB"), write(os.path.join(room, "long"), LONG), ready=lambda running: running.stdout.readline())
    tally.add("theory is stopped", None if (done.returncode, done.stderr) == (INTERRUPTED, "theory: stopped\n") else described(done))


def judge(program, tally):
    with tempfile.TemporaryDirectory() as room:
        judge_forms(program, tally, room)
        judge_words(program, tally, room)
        judge_interrupt(tally, room)
