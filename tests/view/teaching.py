"""Rows for what teaches: what the page says of itself, its lessons and those of a teacher, its tasks, and what is undone and kept."""
import json
import os
import re

from bench import DIVIDING_LINE, EXAMPLES, FIRST, READY, differs, read, safety
from driver import Driver
from kept import faults_of_form, saved_page
from lessons import card_row, focus_row, guided_row, keys_row, own_test_row, press, views_row

GALLERY = os.path.join(EXAMPLES, "gallery")
TEST = read(EXAMPLES, FIRST).partition(DIVIDING_LINE)[0]
OF_CACHES = re.compile(r"\b(miss|hit|upgrade|cache|line|bus|GetS|GetM|flush|written back)\b", re.IGNORECASE)
IS_IN_SIGHT = """(found => { const { top, bottom, width, height } = found.getBoundingClientRect(); return height > 0 && width > 0 && top >= 0 && bottom <= innerHeight; })(document.querySelector(%s))"""
TAUGHT = {"lessons": [{"name": "mine", "title": "Mine", "test": "X86 mine\n{ }\n P0 ;\n MOV [x],$1 ;\n", "settings": {"depth": "2"},
                       "steps": [{"say": "One <b>store</b>."}, {"do": "0s", "say": "Step.", "then": "It waits."}, {"ask": "Where?", "answers": ["buffer", "memory"], "right": "buffer", "because": "So it is."}, {"say": "End."}]}]}


def test_of(name):
    return read(GALLERY, name + ".litmus").partition(DIVIDING_LINE)[0]


def is_in_sight(bench, selector):
    return bench.value(IS_IN_SIGHT % json.dumps(selector))


def about_row(bench, folder):
    """A fresh page says what it is, is solved nowhere, and says how many choices a run needs; a later one says nothing of itself."""
    bench.open_fresh(width=1280)
    bench.window.resize(1280, 720)
    bench.value("scrollTo(0, 0)")
    words = bench.text("#about").lower()
    faults = ["it doesn't say " + word for word in ("litmus test", "store buffer", "drain", "memory", "core", "x86", "fences") if word not in words]
    faults += [part + " is out of sight" for part in ("#about svg", "#first-lesson", "[data-choice='0s']", ".memory", "#task") if not is_in_sight(bench, part)]
    faults += differs("choices that are known", bench.value("drive.words"), [])
    faults += [] if "at least 6 choices" in bench.text("#sentence") else ["it says " + bench.text("#sentence")]
    bench.window.screenshot(os.path.join(folder, "about.png"), whole=False)
    bench.window.open(bench.page.address + "#test=" + "X86%20a%0A%7B%20%7D%0A%20P0%20%3B%0A%20MOV%20%5Bx%5D,%241%20%3B%0A")
    bench.value(READY)
    bench.wait("drive.isOn")
    faults += differs("open where an address tells a test", bench.value("byId('about').open"), False)
    faults += [] if "at least 2 choices" in bench.text("#sentence") else ["of one store it says " + bench.text("#sentence")]
    return faults + safety(bench)


def least_row(bench):
    """How many choices a run needs is what a shortest run of the program makes, with store buffers and without."""
    faults = []
    for name in ("SB", "MP", "SB+mfences", "INC+xadds", "IRIW"):
        for depth in ("4", "0"):
            bench.open_fresh()
            bench.value("settingOf('depth').value = %s" % depth)
            bench.fill("test", test_of(name))
            wanted = min(len(state["choices"].split()) for state in json.loads(bench.program(test_of(name), "outcomes", "--json", "--depth", depth)[1])["states"])
            faults += differs("of %s at depth %s" % (name, depth), bench.value("leastOf(firstHistory())"), wanted)
    return faults + safety(bench)


def plain_row(bench):
    """Caches are out of sight at first, and then nothing speaks of them; memory has each word that left a buffer. They come by a box."""
    bench.open_fresh()
    faults = differs("caches in sight", bench.value("document.querySelector('.cache').getClientRects().length"), 0)
    for choice in "0s 1s 0s 1s 0d 1d".split():
        press(bench, "[data-choice='%s']" % choice)
        said = bench.text("#sentence") + bench.value("byId('machines').innerText + byId('at-end').innerText")
        faults += ["after %s it speaks of %s" % (choice, found) for found in OF_CACHES.findall(said)]
    faults += differs("memory", bench.text(".memory"), "x=1y=1")
    faults += differs("registers", bench.value("[...document.querySelectorAll('.registers')].map(each => each.textContent)"), ["EAX (r0)=0", "EAX (r1)=0"])
    press(bench, "#caches")
    faults += [] if "cache has the word, memory still the old one" in bench.text("#sentence") else ["with caches it says " + bench.text("#sentence")]
    faults += differs("memory with caches", bench.text(".memory"), "x=0 newest 1y=0 newest 1")
    bench.wait("location.hash.includes('caches=1')")
    bench.window.reload()
    bench.value(READY)
    bench.wait("drive.isOn")
    faults += differs("after a reload", bench.value("document.querySelector('.cache').getClientRects().length > 0"), True)
    bench.open_fresh()
    bench.value("settingOf('protocol').value = 'mesi'; byId('settings').dispatchEvent(new Event('input'))")
    return faults + differs("with another protocol", bench.value("document.querySelector('.cache').getClientRects().length > 0"), True) + safety(bench)


def go_through(bench, faults, shows="true"):
    """Goes through a lesson by its own buttons and those of the cores; `shows` is true of what a step shows. Answers the steps. A choice is told
    at the step before it, and a question comes by itself after a choice whose picture isn't spoken of."""
    steps = bench.value("lesson.told.steps")
    for at, step in enumerate(steps):
        follows = steps[at + 1] if at + 1 < len(steps) and "test" not in steps[at + 1] else {}
        goes_on = "do" in step and "ask" in follows and "look" not in step
        if "do" in step:
            faults += differs("marked", bench.value("[...document.querySelectorAll('.wanted')].map(each => each.dataset.choice)"), [step["do"]])
            press(bench, "[data-choice='%s']" % step["do"])
        faults += differs("the step", bench.value("lesson.at"), at + goes_on)
        if "ask" in step:
            press(bench, "[data-answer=%s]" % json.dumps(step["answers"][-1]))
        if "show" in step:
            press(bench, "[data-show]")
            bench.wait("!bench.task")
            faults += differs("shown", bench.value(shows), True)
        if step.get("look"):
            faults += differs("the picture is marked", bench.value("byId('frame').matches('.looked')"), True)
        faults += differs("done", bench.value("lesson.isDone"), not goes_on)
        after = step.get("then") or step.get("because")
        faults += [] if after is None or after in bench.text("#lesson-words") else ["it says " + bench.text("#lesson-words")]
        is_next = not goes_on and "do" not in follows
        faults += differs("Next at step %d" % at, bench.value("byId('lesson-next').checkVisibility()"), is_next)
        if is_next and at + 1 < len(steps):
            press(bench, "#lesson-next")
    return steps


def parts_of_lesson(bench, steps):
    """The parts of a lesson, each a test and the steps on it that make a choice: a step with a test of its own begins another part."""
    parts = [(bench.value("partsOf(textsHere().find(({ file }) => file === lesson.told.text).text).test"), [])]
    for step in steps:
        if "test" in step:
            parts.append((step["test"], []))
        if "do" in step:
            parts[-1][1].append(step)
    return parts


def lesson_row(bench, name, shows):
    """A lesson from its first step to its last; each choice does what it says, and what a step shows stands there."""
    bench.open_fresh()
    bench.value("beginLesson('%s')" % name)
    faults = []
    parts = parts_of_lesson(bench, go_through(bench, faults, shows))
    faults += differs("the choices", bench.value("choicesText().trim().split(/\\s+/)"), [step["do"] for step in parts[-1][1]])
    extra = {"false-sharing": ["--words", "2"], "compare-and-exchange": ["--instructions", "all"]}.get(name, [])
    for test, steps in parts:
        faults += faults_of_part(bench, test, steps, extra)
    return faults + safety(bench)


def faults_of_part(bench, test, steps, extra):
    """What a lesson says of the choices of some steps, by what the program tells of them."""
    told = json.loads(bench.program(test + DIVIDING_LINE + " ".join(step["do"] for step in steps), "trace", "--json", *extra)[1])["trace"]["steps"]
    faults = []
    for step, made in zip(steps, told):
        faults += ["%s: %s, and the lesson says %s" % (step["do"], made["outcome"], step["then"]) for word in ("stalled",) if made["outcome"] == word]
        read_of = re.search(r"P\d read (\w+)=(\d+)", step["then"])
        faults += [] if not read_of or any(entry.endswith("R %s=%s" % read_of.groups()) for entry in made["entries"]) else ["it says %s, and %s" % (step["then"], made["entries"])]
        faults += ["it says a miss, and %s" % made["access"] for _ in [0] if re.search(r"\bmiss\b", step["then"]) and made["access"] != "miss"]
    return faults


def lost_row(bench):
    """Where a load has returned another word than the task wants, the page says that this run can't reach it, and Undo leads out."""
    bench.open_fresh()
    for word in "0s 0d 1s".split():
        bench.key_choice(word)
    faults = [] if "No longer" not in bench.text("#task") else ["too early: " + bench.text("#task")]
    bench.key_choice("1s")
    said = bench.text("#task")
    faults += [] if "No longer possible in this run: P1's EAX is 1, not 0. Press Undo" in said else ["it says " + said]
    press(bench, "#undo")
    faults += [] if "No longer" not in bench.text("#task") else ["after Undo: " + bench.text("#task")]
    bench.fill("test", test_of("SB").replace("exists", "forall"))
    for word in "0s 0d 1s 1s".split():
        bench.key_choice(word)
    return faults + ([] if "No longer" not in bench.text("#task") else ["of forall: " + bench.text("#task")]) + safety(bench)


def plain_words_row(bench):
    """What waits is named in the picture, an answer begins with yes or no, a cycle at its first edge, and the list with what to begin with."""
    bench.open_fresh()
    bench.key_choice("0s")
    faults = differs("what waits", bench.value("[...document.querySelectorAll('.not-yet')].map(each => each.textContent)"), ["still in bufferx=1"])
    sizes = bench.value("['#sentence', '.registers .word', '.memory .word', '.slot'].map(each => parseFloat(getComputedStyle(document.querySelector(each)).fontSize))")
    faults += [] if min(sizes[1:]) >= sizes[0] else ["sizes of the sentence, registers, memory, buffers: %s" % sizes]
    for name, begins in (("SB", "Yes: both loads read 0 in 1 of 4 outcomes under TSO."), ("MP", "No: none of 3 outcomes under TSO has ")):
        bench.fill("test", test_of(name))
        bench.value("findOutcomes()")
        bench.wait("!bench.task && document.querySelector('.states-sheet')")
        faults += [] if bench.text("#states p").startswith(begins) else ["of %s it says %s" % (name, bench.text("#states p"))]
    bench.value("askWhy()")
    bench.wait("!bench.task && document.querySelector('.cycle')")
    faults += [] if bench.text(".cycle .buttons").strip().endswith("4 arrows") else ["the cycle begins at " + bench.text(".cycle .buttons")]
    hint = "hint: give more; 2 stalled: 0s Fence (0d first), 1d Empty (no store)"
    faults += differs("a hint", bench.said(hint), "hint: give more; 2 did nothing: 0s (it waits for 0d), 1d (no store)")
    bench.open_fresh()
    first = bench.value("[document.querySelector('#texts h4').textContent, ...[...document.querySelector('#texts ul').querySelectorAll('button')].map(each => each.textContent)]")
    faults += differs("the list", first[:5], ["Start here", "store-buffering.litmus", "store-buffering-fenced.litmus", "SB+mfence+po.litmus", "MP.litmus"])
    faults += differs("with a lock", len(first) == 8, bench.value("bench.hasLargerSet"))
    bench.fill("search", "MP")
    faults += [] if bench.text("#texts h4") != "Start here" else ["a search has what to begin with"]
    return faults + safety(bench)


def documented_row(bench):
    """The lesson that docs/PAGE.md shows is one, and goes from its first step to its last."""
    page = read(os.path.dirname(EXAMPLES), "docs", "PAGE.md")
    bench.open_fresh()
    bench.value("takeText(%s)" % json.dumps(re.search(r"(?s)```json\n(.*?)```", page).group(1)))
    faults = differs("begun", bench.value("[lesson.told?.name, byId('message').textContent]"), ["one-store", ""])
    go_through(bench, faults)
    return faults + safety(bench)


def taught_row(bench, folder):
    """A teacher's lesson comes by a file, is text and no markup, and goes along in a saved page; a foul file is refused in words."""
    bench.open_fresh()
    bench.value("takeText(%s)" % json.dumps(json.dumps(TAUGHT)))
    faults = differs("begun", bench.value("[lesson.told.name, lesson.told.settings.depth, firstHistory().options.depth, document.querySelector('#lesson-words b')]"), ["mine", "2", 2, None])
    go_through(bench, faults)
    name, text = saved_page(bench, "SAVES.page()")
    faults += faults_of_form(text)
    path = os.path.join(folder, "saved-lesson.html")
    with open(path, "w") as file:
        file.write(text)
    bench.window.open("file://" + path)
    bench.value(READY)
    bench.wait("lesson.told !== null")
    faults += differs("in the saved page", bench.value("[lesson.told.name, lesson.at, LESSONS.filter(({ name }) => name === 'mine').length]"), ["mine", 3, 1])
    bench.window.requests.clear()
    for change, said in (({"steps": []}, "steps"), ({"name": "A B"}, "name"), ({"test": "no test", "text": "none"}, "test"), ({"steps": [{"do": "9x", "say": "a", "then": "b"}]}, "do"), ({"steps": [{"ask": "a", "answers": ["1"], "because": "b"}]}, "answers")):
        bench.open_fresh()
        foul = {"lessons": [{**TAUGHT["lessons"][0], **change}]}
        bench.value("takeText(%s)" % json.dumps(json.dumps(foul)))
        message = bench.text("#message")
        faults += [] if said in message and bench.value("lesson.told") is None and "lesson 1" in message else ["of %s it says %r" % (change, message)]
    bench.value("takeText('{\"lessons\": [')")
    return faults + ([] if "JSON" in bench.text("#message") else ["it says " + bench.text("#message")]) + safety(bench)


# Tests with their task, whose words don't tell whether it can be done.
TASKS = [("SB", "exists", "Can this be done? Make both loads read 0."), ("SB+mfences", "exists", "Can this be done? Make both loads read 0."),
         ("SB", "~exists", "Can this be done? The test claims that no run ends so. Make both loads read 0."),
         ("SB", "forall", "Can this be done? The test claims that each run ends so. End otherwise than with 0 in P0's EAX and 0 in P1's EAX."),
         ("MP", "~exists", "Can this be done? The test claims that no run ends so. End with 1 in P1's EAX and 0 in P1's EBX.")]


def tasks_row(bench):
    """What the reader doesn't know to be possible is a question; `~exists` and `forall` have tasks; what was missed is told, and why is offered."""
    faults = []
    for name, quantifier, wanted in TASKS:
        bench.open_fresh()
        bench.fill("test", re.sub(r"(?m)^~?exists", quantifier, test_of(name)))
        faults += [] if "Can this be done?" in bench.text("#task") else ["before it is known: " + bench.text("#task")]
        bench.wait("possible.can !== null")
        faults += differs("%s of %s" % (quantifier, name), bench.text("#task"), wanted)
    named = bench.value("loadsSentence(wantedWords('0:EBX=0 /\\\\ 1:EAX=0'), [['XCHG [x],EAX', 'MOV EBX,[y]'], ['MOV [y],$1', 'MOV EAX,[x]']])")
    faults += differs("beside a locked instruction", named, "P0's load of y and P1's load of x read 0")
    for word in "0s 0d 0s 1s 1s 1d".split():
        bench.key_choice(word)
    said = bench.text("#task")
    faults += [] if "Not met this time: P1's EAX ended as" in said or "Not met this time: P1's EBX ended as" in said else ["it says " + said]
    press(bench, "#task-why")
    bench.wait("!bench.task && document.querySelector('.reason')")
    bench.open_fresh()
    bench.fill("test", test_of("SB").replace("exists", "forall"))
    for word in "0s 0d 0s 1s 1s".split():
        bench.key_choice(word)
    faults += [] if "So the claim of the test is wrong" in bench.text("#task") else ["of forall it says " + bench.text("#task")]
    return faults + safety(bench)


def done_by_answer_row(bench):
    """What an answer says can't be done is said so in the task; a run of the answer doesn't do the task for the reader."""
    faults = []
    for ask, shown in (("findOutcomes()", ".states-sheet"), ("askWhy()", ".reason")):
        bench.open_fresh()
        bench.value("loadText('store-buffering-fenced.litmus')")
        bench.value(ask)
        bench.wait("!bench.task && document.querySelector('%s')" % shown)
        bench.value("backToRun()")
        faults += differs("the task", bench.text("#task"), "Make both loads read 0, past the fences. It can't be done: no run ends so.")
    bench.value("addToList(); askWhy()")
    bench.wait("!bench.task && document.querySelector('.reason')")
    bench.value("addToList(); openListed(0)")
    faults += differs("before its reason in a list", bench.text("#task"), "Can this be done? Make both loads read 0, past the fences.")
    bench.open_fresh()
    bench.value("findOutcomes()")
    bench.wait("!bench.task && document.querySelector('.states-sheet')")
    bench.value("document.querySelector('#states tr.met [data-choices]').click()")
    said = bench.text("#task")
    is_so = said.startswith("▷ Shown by the answer: Make both loads read 0. Now make it yourself. P")
    faults += [] if is_so else ["of a run of the answer it says " + said]
    bench.value("backToOwnRun()")
    for word in "0s 1s 0s 1s 0d 1d".split():
        bench.key_choice(word)
    faults += [] if bench.text("#task").startswith("✓ Task: Make both loads read 0. Done.") else ["of one's own run it says " + bench.text("#task")]
    return faults + safety(bench)


def has_larger_set(bench):
    """Whether the module has the larger set of instructions; that of an older version hasn't."""
    bench.open_fresh()
    return bench.value("bench.hasLargerSet")


# Where words share a line, what differs is marked; with a line for each word each protocol has two misses.
SHARES = ("(valueOf('words') === 2 ? document.querySelector('.cache .differs') !== null"
          " : [...document.querySelectorAll('.tally')].every(each => /^so far 2\\smisses/.test(each.textContent)))")


def rows(page, folder):
    bench = Driver(page)
    return [
        ("what is this", lambda: about_row(bench, folder)),
        ("the least number of choices", lambda: least_row(bench)),
        ("no caches at first", lambda: plain_row(bench)),
        ("a lesson, store buffering", lambda: lesson_row(bench, "store-buffering", "document.querySelectorAll('#states tbody tr').length === 4")),
        ("a lesson, fences", lambda: lesson_row(bench, "fences", "document.querySelector('.reason .cycle') !== null")),
        ("a lesson, false sharing", lambda: lesson_row(bench, "false-sharing", "document.querySelectorAll('.machine').length === 4 && " + SHARES)),
        *([("a lesson, compare and exchange", lambda: lesson_row(bench, "compare-and-exchange", "document.querySelector('.reason') !== null"))] if has_larger_set(bench) else []),
        ("a lesson that guides", lambda: guided_row(bench)), ("the card of a lesson", lambda: card_row(bench)),
        ("the focus in a lesson", lambda: focus_row(bench)), ("a lesson shows its views again", lambda: views_row(bench)), ("a test of one's own after a lesson", lambda: own_test_row(bench)), ("keys of the test and of arrows", lambda: keys_row(bench)),
        ("a lesson of the documents", lambda: documented_row(bench)),
        ("a lesson of a teacher", lambda: taught_row(bench, folder)),
        ("tasks", lambda: tasks_row(bench)),
        ("a task and an answer", lambda: done_by_answer_row(bench)),
        ("a task out of reach", lambda: lost_row(bench)),
        ("plain words", lambda: plain_words_row(bench)),
    ]
