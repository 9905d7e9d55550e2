"""What tools/compiled prints and how it ends, for tests/compiled.py."""
import json
import os
import re
import subprocess

from checks.judging import TOP, content

TOOL = os.path.join(TOP, "tools", "compiled")

STORE_BUFFERING = """#include <stdatomic.h>
/* exists o0=0 /\\ o1=0 */
atomic_int x, y; int o0, o1;
void P0(void) { atomic_store(&x, 1); o0 = atomic_load(&y); }
void P1(void) { atomic_store(&y, 1); o1 = atomic_load(&x); }
"""
HERD = """C MP
(* message passing *)
{ x=0; y=0; }

P0 (atomic_int* x, atomic_int* y) {
  atomic_store_explicit(x, 1, memory_order_relaxed);
  atomic_store_explicit(y, 1, memory_order_release);
}

P1 (atomic_int* x, atomic_int* y) {
  int r0 = atomic_load_explicit(y, memory_order_acquire);
  int r1 = atomic_load_explicit(x, memory_order_relaxed);
}

exists (1:r0=1 /\\ 1:r1=0)
"""
RACE = """int x, o;
void P0(void) { x = 1; }
void P1(void) { o = x; }
"""
LOOP = """#include <stdatomic.h>
atomic_int x; int o;
void P0(void) { for (int i = 0; i < 3; i++) atomic_fetch_add(&x, 1); }
void P1(void) { while (atomic_fetch_add(&x, 1) < 2) ; o = 1; }
"""
NULL = """#include <stdatomic.h>
int v = 1; int *_Atomic p; int o;
void P0(void) { atomic_store_explicit(&p, &v, memory_order_release); }
void P1(void) { o = *atomic_load_explicit(&p, memory_order_acquire); }
"""
# Code with a bug: the stores aren't locked.
PLAIN_STORES = """
.text
.globl P0
.type P0, @function
P0: movl $1, x(%rip)
 movl y(%rip), %eax
 movl %eax, o0(%rip)
 ret
.size P0, .-P0
.globl P1
.type P1, @function
P1: movl $1, y(%rip)
 movl x(%rip), %eax
 movl %eax, o1(%rip)
 ret
.size P1, .-P1
.comm x,4,4
.comm y,4,4
.comm o0,4,4
.comm o1,4,4
"""
UNREAD = PLAIN_STORES.replace("movl y(%rip), %eax", "rdtsc")


def rows(program, folder):
    """Pairs of what is tried and its faults; files are written into this folder."""
    for name, text in (("SB.c", STORE_BUFFERING), ("MP.litmus", HERD), ("race.c", RACE), ("loop.c", LOOP), ("null.c", NULL),
                       ("bug.s", PLAIN_STORES), ("unread.s", UNREAD), ("list", "SB.c\nMP.litmus\n"), ("bad.c", "int P0(void) {"),
                       ("herd.litmus", "C\n")):
        with open(os.path.join(folder, name), "w", encoding="ascii") as file:
            file.write(text)

    def run(*words):
        return subprocess.run([TOOL, "--program", program, "--processes", "2", *words], cwd=folder, stdout=subprocess.PIPE,
                              stderr=subprocess.PIPE, encoding="utf-8", check=False)

    def row(name, words, status, *wanted):
        done = run(*words)
        faults = [] if done.returncode == status else ["status %d, and not %d: %s" % (done.returncode, status, done.stderr)]
        return name, faults + ["no %s in %s" % (one, done.stdout + done.stderr) for one in wanted
                               if not re.search(one, done.stdout + done.stderr)]

    yield row("a test in C", ["SB.c"], 0, r"^SB +gcc -O2 +3 states of 3 that C11 allows +exact +Ok$")
    yield row("two compilers", ["SB.c", "--cc", "gcc -O1", "--cc", "clang -O2"], 0, r"gcc -O1 .*Ok\n", r"clang -O2 .*Ok\n",
              r"compiled: 2 programs: 2 Ok")
    yield row("herd's form", ["MP.litmus"], 0, r"^MP +gcc -O2 +3 states of 3")
    yield row("a list", ["@list"], 0, r"SB .*Ok\nMP .*Ok")
    yield row("a race", ["race.c", "--why"], 0, r"a data race on x: undefined +RACE", r"P0 line 2 writes x and P1 line 3 reads x")
    yield row("a loop that counts", ["loop.c"], 0, r"--unroll 1 +Bounded")
    yield row("a loop that counts, longer", ["loop.c", "--unroll", "4"], 0, r"exact +Ok")
    yield row("a null pointer", ["null.c"], 0, r"an access where no memory lies: undefined +UNDEFINED")
    yield row("a bug", ["SB.c", "--code", "bug.s", "--why"], 1, r"4 states of 3 .* NOT ALLOWED o0=0 o1=0", r"P0\+10 .* reads y=0",
              r"P0 line 4 writes x=1 \(seq_cst\), sb", r"P0 line 4 reads y=0 \(seq_cst\), rb", r"psc has a cycle")
    yield row("a weaker model", ["SB.c", "--code", "bug.s", "--model", "ra"], 0, r"4 states of 4")
    yield row("a stronger model", ["MP.litmus", "--model", "sc"], 0, r"3 states of 3")
    yield row("code that isn't read", ["SB.c", "--code", "unread.s"], 2, r"P0\+10: rdtsc isn't read +NOT JUDGED")
    yield row("C that isn't C", ["bad.c"], 2, r"gcc refuses it: bad\.c:1", "NOT JUDGED")
    yield row("a text without a test", ["herd.litmus"], 2, r"no test|no functions")
    yield row("no such compiler", ["SB.c", "--cc", "no-such-cc"], 2, r"no-such-cc can't be run")
    subprocess.run(["gcc", "-c", "-o", "bug.o", "bug.s"], cwd=folder, check=True)
    subprocess.run(["gcc", "-shared", "-fPIC", "-O1", "-o", "lib.so", "SB.c"], cwd=folder, check=True)
    yield row("an object", ["--object", "bug.o", "P0", "P1"], 0, r"P0\+P1 .*4 states +exact +Ok", r"o0=0 o1=0|o1=0 o0=0|x=1.*o0=0.*o1=0")
    yield row("a library", ["--object", "lib.so", "P0", "P1"], 0, r"P0\+P1 .*3 states +exact +Ok")
    yield row("no such function", ["--object", "bug.o", "P7"], 2, r"the object has no P7")
    yield row("a log", ["SB.c", "--log"], 0, r"^Test SB Allowed\nStates 3\no0=0; o1=1;")
    done = run("SB.c", "--json", "--code", "bug.s")
    try:
        said = json.loads(done.stdout)
        faults = [] if (said["word"], said["extra"], len(said["states"])) == ("NOT ALLOWED", ["o0=0 o1=0 x=1 y=1"], 4) else [done.stdout]
    except ValueError:
        faults = [done.stdout + done.stderr]
    yield "JSON", faults
    run("SB.c", "--keep", "kept")
    kept = os.listdir(os.path.join(folder, "kept"))
    yield "tests are kept", [] if kept == ["SB-gcc_-O2-0.litmus"] else [str(kept)]
    listed = [subprocess.run([os.path.join(TOP, "tools", "cycles"), "--c11", "--length", "2", "--list", *more], capture_output=True,
                             encoding="utf-8", check=False).stdout.split() for more in ([], ["--mixed"])]
    yield "cycles of two threads", [] if [len(one) for one in listed] == [78, 1485] and set(listed[0]) < set(listed[1]) else [str(listed)[:300]]
    yield from _picture_rows(run("SB.c", "--json", "--why", "--code", "bug.s").stdout, done.stdout)
    yield from _package_rows(folder, run)
    yield from _campaign_rows(program, folder)


def _picture_rows(found, without_reason):
    """The picture of a finding: machine and source side by side; and what can't be drawn."""
    reason = json.loads(found)["reason"]
    for name, given, words, status, wanted in (
            ("a picture", found, [], 0, [r"cluster_part0 .*the machine: bug\.s", r"cluster_part1 .*C11: psc has a cycle",
                                         r"<\d: R y=0.*P0\+10", r"<reads y=0 \(seq_cst\).*line 4"]),
            ("a picture of the second of two findings", "\n".join([found, json.dumps({"word": "Ok"}), found]), ["--leaf", "2"], 0, ["C11: psc"]),
            ("a picture without a reason", without_reason, [], 2, ["the finding has no reason"]),
            ("a picture without a finding", '{"word":"Ok"}', [], 2, ["no state is one that C11 doesn't allow"]),
            ("a picture of a finding that isn't there", found, ["--leaf", "2"], 2, ["there is no finding 2: there are 1"])):
        done = subprocess.run([os.path.join(TOP, "tools", "graph"), *words], input=given, capture_output=True, encoding="utf-8", check=False)
        faults = [] if done.returncode == status else ["status %d: %s" % (done.returncode, done.stderr)]
        yield name, faults + ["no %s in %s" % (one, done.stdout + done.stderr) for one in wanted
                              if not re.search(one, done.stdout + done.stderr)]
        if name == "a picture":
            bold = set(re.findall(r'C_(\d+) -> C_(\d+) \[label=" (\w+) ".*penwidth', done.stdout))
            links = reason["cycle"]
            due = {(str(one["number"]), str(other["number"]), one["relation"]) for one, other in zip(links, links[1:] + links[:1])}
            yield "the picture's cycle", [] if bold == due else ["%s, and not %s" % (bold, due)]


# A compiler with a bug: what is an exchange, it makes a store.
BAD_COMPILER = """#!/bin/sh
gcc -O2 "$1" "$2" "$3" -S -o "$6.s" "$7" || exit 1
sed -i -E 's/xchgl\\s+(\\w+\\(%rip\\)), (%\\w+)/movl \\2, \\1/; s/xchgl\\s+(%\\w+), (\\w+\\(%rip\\))/movl \\1, \\2/' "$6.s"
exec gcc -c -o "$6" "$6.s"
"""


def _campaign_rows(program, folder):
    """tools/campaign of compiled tests: its table, that it goes on, what it finds, and what it refuses."""
    with open(os.path.join(folder, "bad-cc"), "w", encoding="ascii") as file:
        os.fchmod(file.fileno(), 0o755)
        file.write(BAD_COMPILER)

    def campaign(*words):
        return subprocess.run(["/usr/bin/python3", os.path.join(TOP, "tools", "campaign"), "compiled", "--program", program, *words],
                              cwd=folder, capture_output=True, encoding="utf-8", check=False)

    def row(name, done, status, table, *wanted):
        faults = [] if done.returncode == status else ["status %d, and not %d: %s" % (done.returncode, status, done.stderr)]
        faults += [] if table is None or done.stdout == table else [done.stdout]
        return name, faults + ["no %s in %s" % (one, done.stdout + done.stderr) for one in wanted
                               if not re.search(one, done.stdout + done.stderr)]

    words = ["@list", "race.c", "loop.c", "herd.litmus", "--cc", "gcc -O1", "--cc", "clang -O2", "--results", "results"]
    table = ("REFUSED herd.litmus - the test has no functions P0, P1 and so on\n"
             "unjudged loop clang -O2 Bounded states=2 --unroll 1\nunjudged loop gcc -O1 Bounded states=2 --unroll 1\n"
             "unjudged race clang -O2 RACE - a data race on x: undefined\nunjudged race gcc -O1 RACE - a data race on x: undefined\n"
             "same    MP clang -O2 Ok states=3 allowed=3\nsame    MP gcc -O1 Ok states=3 allowed=3\n"
             "same    SB clang -O2 Ok states=3 allowed=3\nsame    SB gcc -O1 Ok states=3 allowed=3\n")
    yield row("a campaign", campaign(*words), 2, table, r"campaign: 9 rows, 1 of them want to be looked at, 4 unjudged")
    results = os.path.join(folder, "results")
    with open(results, "rb") as file:
        whole = file.read()
    with open(results, "rb+") as file:
        file.truncate(len(whole) - 5)
    yield row("a campaign that goes on", campaign(*words), 2, table)
    with open(results, "rb") as file:
        again = file.read()
    kept = whole[:whole.rindex(b"\n", 0, -1) + 1]
    yield "what it had isn't made again", [] if again.startswith(kept) and again.count(b"\n") == whole.count(b"\n") else ["another file"]
    done = campaign("SB.c", "MP.litmus", "--cc", "./bad-cc", "--page", "page.html", "--log", "log")
    yield row("a campaign by a compiler with a bug", done, 1, None, r"\ADIFFERS SB \./bad-cc NOT ALLOWED states=4 allowed=3 - o0=0 o1=0",
              r"same    MP \./bad-cc Ok states=")
    page, log = (content(folder, name) for name in ("page.html", "log"))
    yield "its page", [] if re.search(r"<li>.*psc has a cycle</li>", page) and "atomic_store(&amp;x, 1)" in page else [page]
    yield "its log", [] if re.search(r"^Test SB Allowed\nStates 4\no0=0; o1=0;", log, re.M) else [log]
    yield row("a log of two compilers", campaign(*words, "--log", "other"), 2, "", "give one compiler")
    yield row("another file", campaign("SB.c", "--results", "SB.c"), 2, "", "is no result of a campaign")
    done = subprocess.run([os.path.join(TOP, "tools", "campaign"), "compiled", program, "SB.c", "--cc", "no-such-cc", "--json"], cwd=folder,
                          capture_output=True, encoding="utf-8", check=False)
    yield row("a campaign as JSON, without a compiler", done, 2, None,
              r'^\{"allowed": \[\].*"judged": "OPEN".*"told": "no-such-cc can.t be run: .*"word": "NOT JUDGED"')


def _package_rows(folder, run):
    """What it says where a package is missing."""
    for module, package in (("capstone", "python3-capstone"), ("elftools", "python3-pyelftools")):
        place = os.path.join(folder, "without-" + module)
        os.makedirs(place)
        with open(os.path.join(place, module + ".py"), "w", encoding="ascii") as file:
            file.write("raise ModuleNotFoundError('none', name='%s')\n" % module)
        before = os.environ.get("PYTHONPATH")
        os.environ["PYTHONPATH"] = place
        try:
            done = run("SB.c")
        finally:
            os.environ.pop("PYTHONPATH")
            if before is not None:
                os.environ["PYTHONPATH"] = before
        said = "compiled: Debian's package %s isn't there\n" % package
        yield "without " + module, [] if (done.returncode, done.stderr) == (2, said) else [str(done)]
