"""Texts that would take long to import, for tests/hostile_tools.py: each of 64 KiB, or more; and what hostile texts, names and streams
have the tools say."""
import csv
import html.parser
import json
import os
import re
import resource
import subprocess

from checks import judging
from checks.tools import tool_runs  # it finds the tools

import means

from .attacked_tools import COULD_NOT, DIFFERS, ESCAPE, ONE, SB, a_start, described, refused

LONGEST = 65_536

# Seconds of the processor's time of a call for a text, and those after which it is ended.
SECONDS, MOST_SECONDS = 1.0, 5

# Seconds after which a call waits for what never comes.
MOST_WAIT = 120

# On a machine that is busy or slow it's as many times what a start of Python takes.
STARTS = 24


def filled(beginning, part, end="", length=LONGEST):
    """A text of so many bytes: a part again and again between a beginning and an end."""
    return beginning + (part * (length // len(part) + 1))[:length - len(beginning) - len(end)] + end


HEAD, ROWS_HEAD = "X86 t\n", "X86 t\n{ }\n P0 ;\n"

SLOW = {
    "comments that aren't closed": filled("", "(*"),
    "comments that aren't closed, after a header": filled(HEAD, "(*"),
    "comments that aren't closed in rows": filled(ROWS_HEAD, "(* "),
    "comments within one another": filled(ROWS_HEAD, "(* (* *) "),
    "closed comments": filled(ROWS_HEAD, "(*a*)"),
    "closed comments without a header": filled("", "(*a*)", "Y"),
    "headers with comments that aren't closed": filled("", "X86 a\n(*"),
    "ends of comments": filled(ROWS_HEAD + "(*", " *)"),
    "rows": filled(ROWS_HEAD, " MFENCE ;\n"),
    "rows that are no instruction": filled(ROWS_HEAD, "a;"),
    "cells": filled(ROWS_HEAD, "a|"),
    "cores": filled("X86 t\n{ }\n P0 | ", "P1 | "),
    "many cores and many rows": filled("X86 t\n{ }\n%s;\n" % " | ".join("P%d" % core for core in range(4000)), "a;"),
    "brackets": filled(ROWS_HEAD + " MOV EAX,", "("),
    "brackets of a location": filled(ROWS_HEAD + " MOV EAX,", "["),
    "brackets of a condition": filled(ROWS_HEAD + " MFENCE ;\nexists ", "("),
    "negations": filled(ROWS_HEAD + " MFENCE ;\nexists ", "~"),
    "braces": filled(HEAD, "{"),
    "pairs of braces": filled(HEAD, "{}"),
    "empty lines": filled(ROWS_HEAD, "\n", "a"),
    "blanks": filled(ROWS_HEAD, " ", "a"),
    "blanks before nothing": filled("", " "),
    "blanks at the end": filled(SB, " "),
    "blanks in a line of facts": filled("X86 t\nTSO=", " ", "x\n{ }\n P0 ;\n MOV [x],$1 ;\nexists (x=1)\n"),
    "comments that are not closed in a header": filled("X86 t", "(*"),
    "digits in a line of facts": filled("X86 t\nRegisters=", "1", "\n{ }\n P0 ;\n movl $1,(x) ;\n"),
    "letters in a line of facts": filled("X86 t\nElements=", "a", "\n{ }\n P0 ;\n movl $1,(x) ;\n"),
    "lines of facts": filled(HEAD, "a=\n", "{ }\n P0 ;\n movl $1,(x) ;\n"),
    "quotation marks": filled(HEAD, '"', "x"),
    "items": filled("X86 t\n{ ", "x=1;", "}\n P0 ;\n MFENCE ;\n"),
    "an item of many words": filled("X86 t\n{ ", "a ", "}\n P0 ;\n MFENCE ;\n"),
    "an array of many values": filled("X86_64 t\n{ int x[60000]={", "1,", "1}; }\n P0 ;\n movl $1,(x) ;\n"),
    "elements of an array": "X86_64 t\n{ int x[65536]; }\n P0 ;\n mfence ;\nexists (%s)\n" % " /\\ ".join(
        "x[%d]=1" % at for at in range(5000)),
    "a name of many letters": filled(ROWS_HEAD + " MOV [", "a", "],$1 ;\n"),
    "a number of many digits": filled(ROWS_HEAD + " MOV [x],$", "1", " ;\n"),
    "atoms of a condition": filled(ROWS_HEAD + " MFENCE ;\nexists (", "x=1 /\\ ", "x=1)"),
    "lists of locations": filled(ROWS_HEAD + " MFENCE ;\n", "locations ["),
    "closed lists of locations": filled(ROWS_HEAD + " MFENCE ;\n", "locations [x];"),
    "dividing lines": filled("", "====\n"),
    "carriage returns": filled(SB, "\r"),
    "headers": filled("", "X86 a\n"),
    "bytes of no text": filled("", "\0\xff"),
    "twice as many brackets": filled(ROWS_HEAD + " MOV EAX,", "(", length=2 * LONGEST),
    "four times as many rows": filled(ROWS_HEAD, " MFENCE ;\n", length=4 * LONGEST),
    "sixteen times as many negations": filled(ROWS_HEAD + " MFENCE ;\nexists ", "~", length=16 * LONGEST),
}


# The tools that take a folder or a list of tests, with words before these, and what each says of SB.
TAKING = {"import": ([], "X86 SB"), "campaign": (["outcomes", "PROGRAM"], "SB Sometimes"), "fences": (["--program", "PROGRAM"], "SB: Allowed"),
          "theory": ([], "allowed   SB"), "hardware": (["-o", "tests.c"], ""), "compare": (["log", "log", "--tests"], "1 tests in both logs")}


def passed_over(tool, word, is_alone=False):
    """A tool to which a folder or a list gives what is no file, beside a test or alone: it is told in a line, and nothing waits for it."""
    def judge(calls):
        words, said = TAKING[tool]
        calls.write("log", "Test SB\nStates 1\nx=1;\n")
        if not is_alone:
            calls.write("in/SB.litmus", SB)
        os.makedirs(calls.path("in"), exist_ok=True)
        os.mkfifo(calls.path("in", "pipe.litmus"))
        calls.write("list", ("" if is_alone else "in/SB.litmus\n") + "in/pipe.litmus\n/dev/zero\n")
        done = calls.call(tool, *[calls.program if one == "PROGRAM" else one for one in words], word, seconds=MOST_WAIT)
        told = done.stderr.count(" is no file, and is passed over\n")
        wanted = (COULD_NOT if is_alone else 0), 1 if word == "in" else 2
        return None if (done.returncode, told) == wanted and (is_alone or said in done.stdout) and "Traceback" not in done.stderr else described(done)
    return judge


def lists_in_a_circle(tool):
    """Lists that name each other are told in a line."""
    def judge(calls):
        calls.write("one", "SB.litmus\n@two\n")
        calls.write("two", "@one\n")
        calls.write("SB.litmus", SB)
        calls.write("log", "Test SB\nStates 1\nx=1;\n")
        words = [calls.program if one == "PROGRAM" else one for one in TAKING[tool][0]]
        return refused(calls.call(tool, *words, "@one", seconds=MOST_WAIT), tool, "@one names itself")
    return judge


def formula_cells(calls):
    """A name that a spreadsheet would take for a formula is a text in a table, and read back as it was."""
    names = ["=1+1", "+1", "-1", "@SUM(A1)", "'=1", "''@x", "'plain", "a=b", '"=1"']
    for at, name in enumerate(names):
        calls.write("in/%d.litmus" % at, SB.replace("X86 SB", "X86 " + name))
    done = calls.call("campaign", "counts", calls.program, "--seeds", "2", "--csv", calls.path("table"), calls.path("in"))
    with open(calls.path("table"), encoding="utf-8", newline="") as file:
        cells = [cell for line in csv.reader(file) for cell in line]
    if done.returncode != 0 or any(cell.startswith(tuple("=+-@")) for cell in cells):
        return described(done)
    found = [row.about["test"] for row in means.read_table(calls.path("table"))]
    return None if sorted(found) == sorted(names) else str(found)


def slow_text(text):
    """A text is imported, or refused, in a second, and theory and the others that import by themselves take no longer."""
    def judge(calls):
        path = calls.write("text", text)
        for tool in ("import", "theory"):
            # on a busy machine the same takes twice as long at times
            for _ in range(3):
                before = os.times()
                done = calls.quick(tool, path, limits=[(resource.RLIMIT_CPU, MOST_SECONDS)])
                took = os.times().children_user - before.children_user
                if took <= SECONDS or took > MOST_SECONDS / 2:
                    break
            if took > max(SECONDS, STARTS * a_start()) or done.returncode not in (0, COULD_NOT) or "Traceback" in done.stderr:
                return "%s: %.1f s, %s" % (tool, took, described(done))
        return None
    return judge


def tasks_begin(calls):
    """The first tasks begin before the last file is imported: the program, asked for the first one, writes the last, a named pipe."""
    first, last = calls.write("first.litmus", SB), calls.path("last.litmus")
    os.mkfifo(last)
    other = calls.write("other", SB.replace("X86 SB", "X86 other"))
    first_lines = ('case "$*" in --program|--version) exit 2;; *--help) exec "%s" "$@";; esac\n[ -e begun ] || { : > begun; cat "%s" > "%s"; }\n'
                   'exec "%s" "$@"' % (calls.program, other, last, calls.program))
    program = calls.stand_in("program", first_lines)
    done = calls.call("campaign", "outcomes", program, "--processes", "1", "--results", calls.path("results"), first, last)
    return None if done.returncode == 0 and done.stdout.count("\n") == 2 and " other " in done.stdout else described(done)


# ---- names

NAMES = ["<script>alert(1)</script>", "<img src=x onerror=alert(1)>", "</pre><b>", "</details>", "</title><b>", "<!--", "-->", "]]>",
         "&lt;b&gt;", "&amp;", "&#60;b&#62;", "\"", "'", "\" onclick=\"x", "a\\", "a\\\"b", "a\\n", "%s%s%n", "%(rows)s", "{0}", "`id`",
         "$(id)", "a;b", "=1+1", "Test SB Allowed", "../../x", "label=<b>"]


class Elements(html.parser.HTMLParser):
    """The elements of a page, with their attributes, and what is left open."""

    def __init__(self, text):
        super().__init__()
        self.found, self.open = set(), []
        self.feed(text)

    def handle_starttag(self, tag, attributes):
        self.found.add((tag, *(name for name, _ in attributes)))
        if tag not in ("meta", "input"):
            self.open.append(tag)

    def handle_endtag(self, tag):
        if self.open and self.open[-1] == tag:
            self.open.pop()


ELEMENTS = {("html", "lang"), ("meta", "charset"), ("meta", "http-equiv", "content"), ("meta", "name", "content"),
            ("details", "class", "data-test", "data-states", "data-true", "data-false"), ("details", "class", "data-test"),
            ("form", "id", "hidden"), ("input", "id", "type", "placeholder"), ("select", "id"), ("option", "value"), ("output", "id"),
            ("div", "id"),
            *((name,) for name in "head title style script body h1 p label option summary b ul li pre table tr th td".split())}


def named(name):
    return SB.replace("X86 SB", "X86 " + name)


def names_in_reports(calls):
    """Tests of such names in a campaign's page, log and JSON, and in pictures: markup of a name is none."""
    texts = [named(name) for name in NAMES]
    tests = calls.write("tests", "".join(texts) + "X86 <b>\n{ }\n P0 ;\n <i> ;\n")
    page, log = calls.path("page"), calls.path("log")
    words = ["--json", "--results", calls.path("results"), "--page", page, "--log", log, tests]
    done = calls.call("campaign", "outcomes", calls.program, *words)
    rows = [json.loads(line) for line in done.stdout.splitlines()]
    if {row["test"] for row in rows} - {tests + ":%d" % (SB.count("\n") * len(NAMES) + 4)} != set(NAMES):
        return described(done)
    text = calls.read("page").decode()
    read = Elements(text)
    if read.found - ELEMENTS or read.open:
        return "the page has %s, and leaves open %s" % (read.found - ELEMENTS, read.open)
    if 'http-equiv="Content-Security-Policy" content="default-src \'none\'; style-src \'sha256-' not in text or "unsafe" in text:
        return "the page has no policy"
    if text.count("<script>") != 1 or text.count("script-src 'sha256-") != 1:
        return "another script than the page's own"
    done = calls.call("compare", log, log)
    if done.returncode or not done.stdout.startswith("%d tests in both logs, 0" % len(NAMES)):
        return described(done)
    pictures = {}
    for name in ["t", *NAMES]:
        order = calls.write("run.json", json.dumps({"test": name, "order": ["P0:0 W x=1", "P1:0 R x=1"]}))
        done = calls.call("graph", order)
        quotations = re.findall(r'"((?:[^"\\]|\\.)*)"', done.stdout)
        if re.sub(r"\\(.)", r"\1", quotations[0]) != name:
            return "%s: %s" % (name, described(done))
        pictures[done.stdout.replace('"%s"' % quotations[0], "the name")] = name
    return None if len(pictures) == 1 else "pictures differ in more than names: %s" % list(pictures.values())


def escapes_in_names(calls):
    """What steers a terminal in a test's name or cells is written as its number, but for tests that are printed as they are."""
    text = named("a%sb" % ESCAPE) + "X86 c\n{ }\n P0 ;\n %s ;\n" % ESCAPE
    path = calls.write("tests", text)
    campaign = ["outcomes", calls.program, "--results", calls.path("results")]
    for tool, words in (("theory", []), ("hardware", ["--program", calls.program, "--runs", "10"]), ("campaign", campaign),
                        ("import", ["-o", calls.path("out")])):
        done = calls.call(tool, *words, path)
        if "\x1b" in done.stdout + done.stderr or "Traceback" in done.stderr:
            return "%s: %s" % (tool, described(done))
    done = calls.call("graph", calls.write("run.json", json.dumps({"test": "a" + ESCAPE, "order": ["P0:0 W x=1"]})))
    return None if "\x1b" not in done.stdout and done.returncode == 0 else described(done)


def escapes_in_words(calls):
    """What steers a terminal in an argument is written as its number, or as Python does."""
    for tool, words in (("campaign", ["outcomes", calls.program, "--results", "r"]), ("compare", ["x"]), ("cycles", []), ("graph", []),
                        ("fences", []), ("hardware", []), ("import", []), ("plot", ["-o", "x.svg", "--bars", "misses"]), ("theory", []),
                        ("workload", [])):
        for one in ("x" + ESCAPE, "@x" + ESCAPE, "--x" + ESCAPE, "x\x07\r\x9b1m"):
            done = calls.call(tool, *words, one)
            if re.search("[\x00-\x08\x0b-\x1f\x7f-\x9f]", re.sub("\xc2\x9b", "\x9b", done.stderr)) or done.returncode != COULD_NOT:
                return "%s %r: %s" % (tool, one, described(done))
    return None


# ---- lists and JSON

def list_of_itself(content, word):
    def judge(calls):
        calls.write("work/all", content)
        return refused(calls.call("theory", word % calls.path("work")), "theory", "names itself")
    return judge


# What `why --json` and `run --json` don't print.
PICTURES = ["[]", "{}", "7", "null", '"x"', '{"test": 7, "order": []}', '{"test": ["x"], "order": ["P0:0 W x=1"]}',
            '{"order": ["P0:0 W x=1"]}', '{"test": "t", "order": 7}', '{"test": "t", "order": [7]}',
            '{"test": "t", "order": [["P0:0 W x=1"]]}', '{"test": "t", "answer": "never"}',
            '{"test": "t", "answer": "never", "steps": 7}', '{"test": "t", "answer": "never", "steps": [7]}',
            '{"test": "t", "answer": "never", "steps": [{"step": "cycle", "depth": 0, "cycle": 7}]}',
            '{"test": "t", "answer": "never", "steps": [{"step": "cycle", "depth": 0, "cycle": '
            '[{"from": "P0:0 W x=1", "relation": "x", "to": "P0:0 W x=1"}]}]}',
            '{"test": "t", "answer": "allowed", "coherence": [], "sources": []}',
            '{"test": "t", "answer": "allowed", "coherence": {"x": 7}, "sources": 7}',
            '{"test": "t", "order": ["P%s:0 W x=1"]}' % ("9" * 5000), "[" * 100_000, '{"a":' * 100_000, "", "\0", "\xff\xfe"]


def other_json(calls):
    for text in PICTURES:
        wrong = refused(calls.quick("graph", calls.write("json", text)), "graph")
        if wrong:
            return "%s: %s" % (text[:60], wrong)
    return None


# ---- streams

def calls_that_print(calls):
    """A call of each tool that prints something."""
    path, log = calls.write("SB.litmus", SB), calls.write("log", "Test SB\nStates 1\n0:EAX=0;\nObservation SB Always 1 0\n")
    order = calls.write("run.json", '{"test": "t", "order": ["P0:0 W x=1"]}')
    hardware = ["--program", calls.program, "--runs", "10", calls.write("one.litmus", ONE)]
    return [("campaign", ["outcomes", calls.program, "--results", calls.path("results"), path]), ("campaign", ["outcomes", calls.program, path]),
            ("compare", [log, log]), ("cycles", ["--length", "4"]), ("fences", ["--program", calls.program, path]), ("graph", [order]),
            ("hardware", hardware), ("import", [path]), ("theory", [path]), ("workload", ["ping-pong"])]


def output(shell):
    """Standard output that takes nothing: one line says so, and the status is 2."""
    def judge(calls):
        for tool, words in calls_that_print(calls):
            done = calls.call(tool, *words, shell=shell)
            lines = [line for line in done.stderr.replace("\r", "\n").split("\n") if line and " tasks, " not in line]
            if done.returncode != COULD_NOT or len(lines) != 1 or not lines[0].startswith(tool + ": "):
                return "%s: %s" % (tool, described(done))
        return None
    return judge


def output_without_reader(calls):
    """Where nobody reads the output any more nothing is said, and the status is 2."""
    for tool, words in calls_that_print(calls):
        reader, writer = os.pipe()
        os.close(reader)
        line = ["sh", "-c", 'exec "$@" >&%d' % writer, "sh", *calls.words(tool, *words)]
        done = subprocess.run(line, stdin=subprocess.DEVNULL, stderr=subprocess.PIPE, pass_fds=[writer],
                                            env=calls.environment(), cwd=calls.room)
        os.close(writer)
        if done.returncode != COULD_NOT or b"Traceback" in done.stderr or b"Exception" in done.stderr:
            return "%s: status %s, %r" % (tool, done.returncode, done.stderr[-300:])
    return None


def input_closed(calls):
    for tool, words in calls_that_print(calls):
        if tool in ("campaign", "fences", "graph", "hardware", "import", "theory"):
            words = [*words[:-1], "-"]
            wrong = refused(calls.call(tool, *words, shell="<&-"), tool, "standard input is closed")
            if wrong:
                return "%s: %s" % (tool, wrong)
    return None


def streams_closed(calls):
    """With all streams closed no file of the tool takes their numbers: what is told doesn't come into it."""
    path = calls.write("SB.litmus", SB)
    calls.call("campaign", "outcomes", calls.program, "--results", calls.path("results"), "--depths", "0,32", path, shell="<&- >&- 2>&-")
    calls.call("cycles", "--length", "4", "-o", calls.path("made"), shell="<&- >&- 2>&-")
    lines = calls.read("results").splitlines()
    whole = len(lines) == 2 and all("task" in json.loads(line) for line in lines)
    return None if whole and calls.read("made/@all").count(b"\n") == 21 else str(lines)


# ---- statuses

def statuses(calls):
    """0 where nothing differs, 1 where something does, 2 where what was asked couldn't be judged or written: in all tools."""
    good, bad = calls.write("good.litmus", SB + "\n"), calls.write("bad.litmus", "X86 b\n{ }\n P0 ;\n NOP NOP ;\nexists (x=1)\n")
    wrong = calls.write("wrong.litmus", SB.replace("{ }", "TSO=forbidden\n{ }", 1))
    log, other, cut = (calls.write(name, "Test SB\nStates %d\n0:EAX=%d;\nObservation SB Always 1 0\n" % pair) for name, pair in (
        ("log", (1, 0)), ("other", (1, 1)), ("none", (1, 0))))
    calls.write("none", "nothing\n")
    campaign, one = ["outcomes", calls.program, "--results"], calls.write("one.litmus", ONE)
    for tool, words, status in (
            ("campaign", campaign + ["r0", good], 0), ("campaign", campaign + ["r1", wrong], DIFFERS),
            ("campaign", campaign + ["r2", bad], COULD_NOT), ("campaign", campaign + ["r3", wrong, bad], DIFFERS),
            ("campaign", campaign + ["r4", "--states", "1", good], COULD_NOT), ("campaign", campaign + ["r5", "nowhere"], COULD_NOT),
            ("campaign", ["outcomes", "/bin/false", "--results", "r6", good], COULD_NOT), ("compare", [log, log], 0),
            ("compare", [log, other], DIFFERS), ("compare", [log, cut], COULD_NOT), ("compare", [log, "nowhere"], COULD_NOT),
            ("cycles", ["--length", "4"], 0), ("cycles", ["Rfe", "Fre"], COULD_NOT), ("cycles", ["--length", "3"], COULD_NOT),
            ("graph", ["nowhere"], COULD_NOT), ("hardware", ["--allowed", other, "--runs", "10", good], COULD_NOT),
            ("hardware", ["--program", calls.program, "--runs", "1000", one], 0),
            ("hardware", ["--program", calls.program, bad], COULD_NOT),
            ("import", [good], 0), ("import", [good, bad], COULD_NOT), ("import", ["nowhere"], COULD_NOT),
            ("theory", [good], 0), ("theory", [good, bad], COULD_NOT), ("theory", ["nowhere"], COULD_NOT)):
        done = calls.call(tool, *words)
        if done.returncode != status or "Traceback" in done.stderr:
            return "%s %s: %s, and not %d" % (tool, words, described(done), status)
    return None


def gallery_at_depths(calls):
    """Of the gallery each row is as its file has it for that depth."""
    words = ["--depths", "0,1,2,3,4,32", "--results", calls.path("results"), judging.GALLERY]
    done = calls.call("campaign", "outcomes", calls.program, *words)
    others = [line for line in done.stdout.splitlines() if not line.startswith("same ")]
    same = done.returncode == 0 and not others and "campaign: 768 rows, 0" in done.stderr
    return None if same else "%s %s" % (others[:3], described(done)[-200:])


# Cells that the program refuses, with what import says where it takes another form of the name.
CELLS = ("CLFLUSH [x]", "CMP EAX,$1", "JMP L", "INC [x]", "ADD [x],$1", "SUB [x],EAX", "NEG [x]", "XOR [x],EBX", "LOCK BTS [x],$1",
         "SHL EAX,$1")

# What the program adds to what import says too, which reads the larger set by itself.
ADDED = "; add --instructions all"


def cures(calls):
    """import says of an instruction what the program says; it reads -1, and leaves out fences if it's told to, and says so in the test."""
    for cell in CELLS:
        text = SB.replace("MOV [x],$1", cell, 1)
        said = subprocess.run([calls.program, "run"], input=text.encode(), capture_output=True).stderr.decode()
        cure = re.sub(r"^hint: line \d+: (?:'%s': )?" % re.escape(cell), "", said.strip()).replace(ADDED, "")
        done = calls.call("import", calls.write("t.litmus", text))
        if not cure or "%s: %s" % (cell, cure) not in done.stderr:
            return "%s: %s, and the program: %s" % (cell, described(done), said)
    text = SB.replace("MOV [x],$1", "SFENCE", 1).replace("{ }", "{ x=-1; }")
    done = calls.call("import", "--leave-out", calls.write("t.litmus", text))
    due = ["Left out=0:SFENCE\n", "{ x=4294967295; }\n"]
    if done.returncode != 0 or not all(line in done.stdout for line in due):
        return described(done)
    again = calls.call("import", calls.write("again.litmus", done.stdout))
    ran = subprocess.run([calls.program, "outcomes"], input=done.stdout.encode(), capture_output=True)
    return None if again.stdout == done.stdout and ran.returncode == 0 else described(again)


ROWS = [("a text of " + name, slow_text(text)) for name, text in SLOW.items()]
ROWS += [
    ("tasks before the last file is imported", tasks_begin),
    ("names with markup", names_in_reports),
    ("names that steer a terminal", escapes_in_names),
    ("words that steer a terminal", escapes_in_words),
    *[("what is no file in a %s, for %s" % (word.strip("@"), tool), passed_over(tool, word)) for tool in TAKING for word in ("in", "@list")],
    *[("nothing but what is no file in a %s, for %s" % (word.strip("@"), tool), passed_over(tool, word, True))
      for tool in ("import", "campaign", "fences", "theory") for word in ("in", "@list")],
    *[("lists that name each other, for " + tool, lists_in_a_circle(tool)) for tool in TAKING],
    ("cells that would be formulas", formula_cells),
    ("a list that names itself", list_of_itself("@all\n", "@%s/all")),
    ("a list that names itself by another path", list_of_itself("@./all\n", "@%s/../work/all")),
    ("JSON that is neither a reason nor a run", other_json),
    ("standard output closed", output(">&-")),
    ("standard output full", output("> /dev/full")),
    ("standard output without a reader", output_without_reader),
    ("standard input closed", input_closed),
    ("all streams closed", streams_closed),
    ("statuses", statuses),
    ("the gallery at six depths", gallery_at_depths),
    ("what to do about an instruction that isn't read", cures),
]
