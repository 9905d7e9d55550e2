#!/usr/bin/env python3
"""Makes the pictures of docs/pictures/ from a built program, the gallery and crates.txt, and holds them against those that are there.

    tests/document_pictures.py PROGRAM [PART-OF-NAME]             makes each anew, and compares
    tests/document_pictures.py --write PROGRAM [PART-OF-NAME]     writes them anew

They need no other program: the same answers make the same bytes. The arrows of a protocol's picture are also held against the table of
`tso tables`, read apart, and docs/PICTURES.md shows each picture. tests/documents.py runs all of it too. The last line is 'N passed, M
failed'.
"""
import glob
import json
import os
import re
import subprocess
import sys

sys.dont_write_bytecode = True

from checks import judging
from checks.documents import plan_pictures, run_pictures
from checks.judging import EXAMPLES, GALLERY, PROTOCOLS, TOP, content

FOLDER = os.path.join(TOP, "docs", "pictures")
PAGE = os.path.join(TOP, "docs", "PICTURES.md")
SECONDS = 60

SHARING = """X86 Sharing
{ x=0; y=0; }
 P0          | P1          ;
 MOV [x],$1  | MOV [y],$1  ;
 MOV [x],$2  | MOV [y],$2  ;
 MOV [x],$3  | MOV [y],$3  ;
====
0s 0d 1s 1d 0s 0d 1s 1d 0s 0d 1s 1d
"""
LOCK = """X86 lock
{ 0:EAX=1; 1:EAX=1; 2:EAX=1; }
 P0           | P1           | P2           ;
 XCHG [x],EAX | XCHG [x],EAX | XCHG [x],EAX ;
exists ((0:EAX=0 /\\ 1:EAX=0) \\/ (0:EAX=0 /\\ 2:EAX=0) \\/ (1:EAX=0 /\\ 2:EAX=0))
"""
PADDED = SHARING.replace("x=0; y=0;", "x=0; pad=0; y=0;").replace("X86 Sharing", "X86 Padded")
SPLIT = """X86 Split
{ }
 P0         | P1          ;
 MOV [x],$1 | MOV EAX,[x] ;
====
0s 0d 1s 0d 1s 1s
"""


def answer(program, words, text=""):
    done = subprocess.run([program, *words], input=text, capture_output=True, text=True, timeout=SECONDS)
    return done.stdout


def json_of(program, words, text):
    return json.loads(answer(program, [*words, "--json"], text))


def reason_of(program, name):
    return json_of(program, ["why"], content(GALLERY, name + ".litmus"))


def gallery_facts():
    """The names of the gallery's tests, each with its key lines."""
    return [(os.path.basename(path)[:-len(".litmus")], dict(re.findall(r"^(\w+)=(.*)$", content(path), re.MULTILINE)))
            for path in sorted(glob.glob(os.path.join(GALLERY, "*.litmus")))]


def told(name):
    """What a picture shows, in words: the text that docs/PICTURES.md has for those who don't see it."""
    found = re.search(r"!\[([^\]]*)\]\(pictures/%s\.svg\)" % re.escape(name), content(PAGE))
    return found.group(1) if found else name


PICTURES = {
    "store-buffering": lambda program, words: run_pictures.buffers(
        json_of(program, ["trace"], content(EXAMPLES, "store-buffering.litmus")), words),
    "outcomes": lambda program, words: run_pictures.outcomes(
        *(json_of(program, ["outcomes", "--depth", depth], content(EXAMPLES, "store-buffering.litmus")) for depth in ("32", "0")), words),
    "message-passing": lambda program, words: run_pictures.cycle(reason_of(program, "MP"), words),
    "iriw": lambda program, words: run_pictures.cycle(reason_of(program, "IRIW"), words),
    "reason": lambda program, words: run_pictures.reason(json_of(program, ["why"], LOCK), words),
    "false-sharing": lambda program, words: run_pictures.lifelines(json_of(program, ["trace", "--words", "2"], SHARING), words),
    "padded": lambda program, words: run_pictures.lifelines(json_of(program, ["trace", "--words", "2"], PADDED), words),
    "split-bus": lambda program, words: run_pictures.bus_times(json_of(program, ["trace", "--bus", "split"], SPLIT), words),
    "models": lambda program, words: plan_pictures.rings(gallery_facts(), words),
    "crates": lambda program, words: plan_pictures.crates(content(TOP, "crates.txt"), words),
}
PICTURES.update({name: lambda program, words, name=name: plan_pictures.protocol(answer(program, ["tables", "--protocol", name]), words)
                 for name in PROTOCOLS})


def path_of(name):
    return os.path.join(FOLDER, name + ".svg")


def faults_of_picture(program, name):
    made = PICTURES[name](program, told(name))
    faults = [] if told(name) != name else ["docs/PICTURES.md doesn't show it"]
    if not os.path.exists(path_of(name)) or content(path_of(name)) != made:
        faults.append("not the picture that is made: tests/document_pictures.py --write makes it anew")
    return faults + (plan_pictures.faults_of_protocol(made, answer(program, ["tables", "--protocol", name])) if name in PROTOCOLS else [])


def faults_of_folder():
    there = {os.path.basename(path) for path in glob.glob(os.path.join(FOLDER, "*"))}
    return ["%s is there and isn't made, or is made and isn't there" % name for name in sorted(there ^ {name + ".svg" for name in PICTURES})]


def rows_of(program):
    """A row for each picture, for this script and for tests/documents.py."""
    for name in PICTURES:
        yield "picture docs/pictures/%s.svg" % name, lambda name=name: faults_of_picture(program, name)
    yield "pictures of docs/pictures/", faults_of_folder


def check(words):
    tally = judging.Tally(shown=100)
    tally.add("pictures", [(name, judging.faults_told(judge)) for name, judge in rows_of(words.program) if words.part in name])
    return tally.end()


def write(words):
    os.makedirs(FOLDER, exist_ok=True)
    for name, make in PICTURES.items():
        if words.part in name:
            with open(path_of(name), "w", encoding="utf-8") as file:
                file.write(make(words.program, told(name)))
    return 0


if __name__ == "__main__":
    sys.exit(judging.check_or_write(judging.with_program(__doc__), check, write))
