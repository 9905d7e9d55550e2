#!/usr/bin/env python3
"""Opens view/index.html in a browser without a screen, and holds what it shows against the program and against the lines that it is given.

    tests/view/check.py PROGRAM [FOLDER] [--only WORD] [--shipped] [--picture FILE]
                                                         PROGRAM: a built tso; FOLDER: where the pictures go (a new one, named at the
                                                         end); WORD: the rows alone whose names have it; --shipped: with the module
                                                         that ships, where PROGRAM is of its sources; --picture: the picture
                                                         of the page for documents, and nothing else: docs/page.png

It needs Debian's browser, and what reads its paper, on a machine that isn't the gate's:
apt-get install -y --no-install-recommends chromium poppler-utils

- The arrows, the initial values, the loads that passed stores and the stretches in which stores waited are those that
  runs.py finds in the line without the page's code: for runs of the program, for those of the whole gallery, for a line of
  eight cores of 32 instructions, and for lines made at random.
- Keys and buttons step through the entries, and memory's words after each are the right ones.
- A line comes in by the address, the clipboard, a file and a drop; what is no such line is refused with a sentence.
- Nothing that a name holds is run or becomes an element, nothing is loaded, and no script fails.
- Nothing is cut or hangs over: two cores at 360 pixels, eight at 1,400, long names too.
- The machine that is driven is at each step the one that the trace tells, and its picture too: the rows of driving.py; and it stands first: those of first.py. Where the
  module tells no steps, or there is none, stand_in.js answers in its place.
- With the module that tools/page has made of this tree (else that part is left out with a word) the page answers as the program does:
  the rows of machine.py, carried.py and looks.py; and so it does where it once went wrong: the rows of repairs.py; what is saved and kept: those of kept.py. Why something can't be, or how it
  can, is told, drawn and run as the program tells it: the rows of reasons.py.

- What teaches: lessons, tasks, terms (teaching.py, lessons.py, beginners.py); the larger set of instructions (larger.py); tests of other programs (foreign.py); work that is long, undo, branches and ways
  back (working.py); a lecture, tables and forms (presenting.py); lists of tests (playlists.py) and a hall (hall.py); ways of edges that cross nothing, and what
  moves (drawn_edges.py); ways that share no stretch (ways.py); fences that are needed (needed.py); what WCAG 2.2 AA asks, as far as a script sees it (access.py); looks and layout (layout.py).
- In Firefox, where Debian's firefox-esr is there, some of these rows.

The last line is 'N passed, M failed'.
"""
import argparse
import json
import os
import shutil
import subprocess
import sys
import tempfile
import urllib.parse

sys.dont_write_bytecode = True

import access
import beginners
import browser
import drawing
import drawn_edges
import driving
import firefox
import first
import foreign
import given_lines
import hall
import kept
import larger
import layout
import machine
import needed
import playlists
import presenting
import reasons
import repairs
import teaching
import ways
import working
from bench import READY
from drawing import read

TOP = os.path.dirname(os.path.dirname(os.path.dirname(os.path.abspath(__file__))))
sys.path.append(os.path.join(TOP, "tools"))
import packing

NO_MODULE = "'use strict';\n\nconst MODULE = null;\n"


def folder_with_module(room, is_shipped):
    """A copy of view/ in this folder, with the module that ships, or that was made of this tree, if one was; else the reason why not."""
    view = os.path.join(room, "view")
    shutil.copytree(os.path.join(TOP, "view"), view)
    if is_shipped:
        return view, None
    made = subprocess.run([os.path.join(TOP, "tools", "page"), "--text"], capture_output=True, text=True)
    text = made.stdout if made.returncode == 0 else NO_MODULE
    with open(os.path.join(view, "module.js"), "w") as file:
        file.write(text)
    return view, made.stderr.strip() if made.returncode else None


NO_BYTES = "'use strict';\n\nconst MODULE = { version: '', tools: '', sources: '', packed: '%s' };\n" % packing.packed_bytes(b"")


def folder_with_stand_in(room, view, missing):
    """A copy of a folder of the page with the scripts that stand in for a module that tells no steps."""
    folder = os.path.join(room, "stand-in")
    shutil.copytree(view, folder)
    for name in ("plain_machine.js", "stand_in.js"):
        shutil.copy(os.path.join(TOP, "tests", "view", name), folder)
    scripts = '<script src="plain_machine.js"></script>\n<script src="stand_in.js"></script>\n<script src="page.js">'
    page = read(folder, "index.html").replace('<script src="page.js">', scripts)
    for name, text in [("index.html", page)] + [("module.js", NO_BYTES)] * bool(missing):
        with open(os.path.join(folder, name), "w") as file:
            file.write(text)
    return folder


def folder_with_reasons(room, view, program):
    """A copy of a folder of the page whose module answers `why` as the program does; None where the program doesn't."""
    script = reasons.stand_in(program)
    if script is None:
        return None
    folder = os.path.join(room, "reasons")
    shutil.copytree(view, folder)
    page = read(folder, "index.html").replace('<script src="page.js">', '<script src="told_reasons.js"></script>\n<script src="page.js">')
    for name, text in (("index.html", page), ("told_reasons.js", script)):
        with open(os.path.join(folder, name), "w") as file:
            file.write(text)
    return folder


def rows_of_reasons(page, room, folder):
    """The rows of `why`: by the module where it answers as the program does, else by the program's answers; none where that has no such command.
    A module of older sources may print reasons in another form."""
    page.window.open(page.address)
    page.value(READY)
    if not reasons.is_answered_alike(page):
        told = folder_with_reasons(room, page.folder.removeprefix("file://"), page.program)
        if told is None:
            print("left out, the rows of why: the program doesn't answer it")
            return []
        page = Page(page.program, page.window, told)
    return reasons.rows(page, folder)


def rows_that_teach(page, folder):
    """The rows of what teaches; they ask for outcomes and for `why`, so they need a module that answers these."""
    return [row for each in (teaching, larger, foreign, working, presenting, playlists, hall, drawn_edges, ways, needed, access, layout, beginners) for row in each.rows(page, folder)]


class Page:
    """The page in its browser, and what it shows."""

    def __init__(self, program, window, view):
        self.program, self.window, self.folder = program, window, "file://" + view
        self.address = self.folder + "/index.html"
        self.scripts = read(view, "index.html").count("<script ")

    def line_of(self, text, *words):
        """The line that the program prints of this input."""
        done = subprocess.run([self.program, "run", "--json", *words], input=text.encode(), capture_output=True, timeout=120)
        return done.stdout.decode().strip()

    def open(self, line, width=1400):
        self.window.resize(width, mobile=width < 500)
        self.window.open(self.address + "#" + urllib.parse.quote(line))
        self.value("MODULE !== null && " + READY)

    def value(self, expression):
        return self.window.value(expression)

    def text(self, selector):
        return self.value("document.querySelector(%s).textContent" % json.dumps(selector))

    def numbers(self, selector, *names):
        """The data of all elements that a selector finds, as lists of numbers."""
        find = "[...document.querySelectorAll(%s)].map(found => %s.map(name => found.dataset[name]))"
        return [tuple(map(int, found)) for found in self.value(find % (json.dumps(selector), json.dumps(names)))]

    def message(self):
        return self.text("#message")

    def is_drawn(self):
        return self.value("!document.getElementById('run').hidden")

    def words(self):
        return self.value("[...document.querySelectorAll('#words .word')].map(item => item.textContent)")


def tells_steps(page):
    """Whether the module itself tells steps: then nothing stands in for it."""
    page.window.open(page.address)
    page.value(READY)
    return page.value("bench.tracing") == "step"


def judged(judge):
    try:
        return judge()
    except Exception as fault:
        return ["%s: %s" % (type(fault).__name__, fault)]


def all_rows(window, program, room, folder, is_shipped):
    """All rows, each a name and a function of its faults, on the page in this folder with what there is of a module."""
    view, missing = folder_with_module(room, is_shipped)
    page = Page(program, window, view)
    with_steps = Page(program, window, folder_with_stand_in(room, view, missing))
    lines = dict(drawing.program_runs(page))
    found = [*drawing.rows(page, folder, lines), *given_lines.rows(page, folder, lines), *driving.rows(with_steps, folder), *first.rows(with_steps, folder)]
    if missing:
        print("left out, what the page answers, and %s: %s" % (" and ".join(first.OF_THE_MODULE), missing))
        return [(name, judge) for name, judge in found if name not in first.OF_THE_MODULE]
    found += [*machine.rows(page, folder), *repairs.rows(page, folder), *kept.rows(page, folder), *rows_of_reasons(page, room, folder), *rows_that_teach(page, folder)]
    if not tells_steps(page):
        found += [(name + ", with steps", judge) for name, judge in machine.rows(with_steps, folder) if name not in machine.OF_THE_MODULE]
    return found


# What is held in Firefox too: rows that need no more of a browser than firefox.py has.
IN_FIREFOX = ("the machine first, at 1280 by 720", "the task", "the test in one line", "keys on buttons", "a setting in the middle", "seeds that are none", "registers that are written",
              "orders and tables in words", "the first test", "outcomes", "a reload", "what is this", "the least number of choices", "no caches at first", "a lesson, store buffering", "a lesson, fences", "a lesson, false sharing", "instructions in words", "algorithms in the list",
              "tasks", "a search by steps", "answers that aren't finished", "undo and redo", "branches of a run", "one's own run", "the browser's Back",
              "a lecture hall", "a list of tests", "four protocols abreast", "a table of states", "forms of an answer", "the focus at an answer", "the page as one file", "an address that is too long", "why, SB+mfences under tso")


def rows_in_firefox(window, program, room, folder, is_shipped):
    """These rows in Firefox, where it and a module are there."""
    view, missing = folder_with_module(os.path.join(room, "firefox"), is_shipped)
    if missing:
        return []
    page = Page(program, window, view)
    found = [*first.rows(page, folder), *machine.rows(page, folder), *repairs.rows(page, folder), *kept.rows(page, folder), *rows_of_reasons(page, os.path.join(room, "firefox"), folder),
             *rows_that_teach(page, folder)]
    return [(name + ", in Firefox", judge) for name, judge in found if name in IN_FIREFOX]


def judge_rows(window, rows, only):
    """Judges those of the rows whose names have a word, and says their faults. Answers how many passed and how many failed."""
    passed, failed = 0, 0
    for name, judge in rows:
        if only not in name:
            continue
        window.requests.clear()  # what rows on another folder asked for
        faults = judged(judge)
        passed, failed = passed + (not faults), failed + bool(faults)
        for fault in [name + ":"] + faults[:10] if faults else []:
            print(fault[:400], flush=True)
    return passed, failed


MOST_BYTES = 200_000


def take_picture(path, is_shipped):
    """The page for documents: store buffering once both loads have read 0. Answers whether it is one."""
    with tempfile.TemporaryDirectory(prefix="tso-view-folder-") as room, browser.Browser() as window:
        view, missing = folder_with_module(room, is_shipped)
        if missing:
            print(missing)
            return False
        window.resize(1280, 720)
        window.open("file://" + os.path.join(view, "index.html"))
        window.value(READY)
        for choice in ("0s", "1s", "0s", "1s"):
            window.click("[data-choice='%s']" % choice)
        window.screenshot(path, whole=False)
        is_met = window.value("byId('task').matches('.met')")
    print("%s has %d bytes%s" % (path, os.path.getsize(path), "" if is_met else ", and the task isn't met"))
    return is_met and os.path.getsize(path) <= MOST_BYTES


def main():
    parser = argparse.ArgumentParser(description=__doc__, formatter_class=argparse.RawDescriptionHelpFormatter)
    parser.add_argument("program", type=os.path.abspath)
    parser.add_argument("folder", type=os.path.abspath, nargs="?")
    parser.add_argument("--only", metavar="WORD", default="", help="the rows alone whose names have this word")
    parser.add_argument("--shipped", action="store_true", help="with the module that ships")
    parser.add_argument("--picture", metavar="FILE", type=os.path.abspath, help="takes the picture for documents")
    asked = parser.parse_args()
    if asked.picture:
        return 0 if take_picture(asked.picture, asked.shipped) else 1
    folder = asked.folder or tempfile.mkdtemp(prefix="tso-view-")
    os.makedirs(folder, exist_ok=True)
    passed = failed = 0
    with tempfile.TemporaryDirectory(prefix="tso-view-folder-") as room:
        for kind, rows_of in ((browser.Browser, all_rows), *([(firefox.Firefox, rows_in_firefox)] if firefox.is_there() else [])):
            if kind is firefox.Firefox and not any(asked.only in name + ", in Firefox" for name in IN_FIREFOX):
                continue
            with kind() as window:
                counts = judge_rows(window, rows_of(window, asked.program, room, folder, asked.shipped), asked.only)
            passed, failed = passed + counts[0], failed + counts[1]
    if not firefox.is_there():
        print("left out, what Firefox shows: %s isn't there" % firefox.NAME)
    print("the pictures are in " + folder)
    print("%d passed, %d failed" % (passed, failed))
    return 1 if failed or not passed else 0


if __name__ == "__main__":
    sys.exit(main())
