"""Rows for a lecture hall and for an engineer: machines abreast, tables of states, forms of an answer, a page in a page."""
import json
import os
import urllib.parse
from itertools import product

from bench import DIVIDING_LINE, OVERHANGING, READY, differs, safety
from driver import Driver
from kept import saved_page
from playlists import CLICKED
from teaching import is_in_sight, press, test_of

IN_SIGHT = "['#find-outcomes', '#ask-why', '[data-choice]', '.memory', '#frame', '#passes', '#sentence'].filter(each => { const { bottom, height } = document.querySelector(each).getBoundingClientRect(); return height === 0 || bottom > innerHeight; })"


def lecture_hall_row(bench, folder):
    """In a lecture hall the finished run fits the sheet, outcomes and why and the way back are there, and a clicker steps machine and cycle."""
    bench.open_fresh(width=1920)
    bench.window.resize(1920, 1080)
    bench.value("putLecture(true)")
    for choice in "0s 1s 0s 1s 0d 1d".split():
        press(bench, "[data-choice='%s']" % choice)
    bench.wait("byId('task').matches('.met')")
    faults = differs("out of sight at the end", bench.value(IN_SIGHT), []) + differs("its height", bench.value("document.documentElement.scrollHeight <= 1080"), True)
    bench.window.screenshot(os.path.join(folder, "lecture-end.png"), whole=False)
    for key, count in (("PageUp", 5), ("PageUp", 4), ("PageDown", 5)):
        bench.value(CLICKED % key)
        faults += differs("choices after " + key, bench.value("drive.count"), count)
    bench.value("endDrive(); byId('test').value = %s; answerNow(true)" % json.dumps(test_of("IRIW")))
    press(bench, "#ask-why")
    bench.wait("!bench.task && document.querySelector('.cycle')")
    shown = [bench.value("sheet.cycle.shown")]
    for key in ("PageDown", "PageDown", "PageUp"):
        bench.value(CLICKED % key)
        shown.append(bench.value("sheet.cycle.shown"))
    faults += differs("edges", shown, [0, 1, 2, 1])
    room = bench.value("(({ width, right, bottom }, tree) => [width > 1100, right <= innerWidth, bottom <= innerHeight, tree.getBoundingClientRect().top >= bottom])"
                       "(document.querySelector('.cycle figure').getBoundingClientRect(), document.querySelector('.tree'))")
    faults += differs("the cycle is large, with its low tree below it", room, [True] * 4)
    bench.window.screenshot(os.path.join(folder, "lecture-cycle.png"), whole=False)
    press(bench, "#to-run")
    press(bench, "#find-outcomes")
    bench.wait("!bench.task && document.querySelector('.states-sheet')")
    faults += differs("the way back", is_in_sight(bench, "#to-run"), True)
    bench.value("putLecture(false)")
    return faults + safety(bench)


def lecture_fits_row(bench, folder):
    """In a lecture false sharing fits the sheet, alone and with four protocols abreast, and so does the choice of what stands beside; what a machine's bus
    did is counted."""
    bench.open_fresh(width=1920)
    bench.window.resize(1920, 1080)
    bench.value("loadText('false-sharing.litmus'); putLecture(true)")
    faults = []
    for beside, names in (("null", 1), ("ABREAST", 4)):
        bench.value("putBeside(JSON.stringify(%s))" % beside)
        for count in range(bench.value("drive.words.length") + 1):
            bench.value("goTo(%d)" % count)
            height, last = bench.value("[document.documentElement.scrollHeight, byId('beside-it').getBoundingClientRect().bottom]")
            faults += ["%d machines after %d choices: %d pixels, and the choice at %d" % (names, count, height, last)] if height > 1080 or last > 1080 else []
        faults += bench.value(OVERHANGING)
        bench.window.screenshot(os.path.join(folder, "lecture-sharing-%d.png" % names), whole=False)
    sizes = bench.value("[...document.querySelectorAll('.cache td, .cache th, .bus .word, .memory .word')].map(each => parseFloat(getComputedStyle(each).fontSize))")
    faults += [] if min(sizes) >= 24 else ["words of caches have a size of %s" % min(sizes)]
    counted = bench.value("[firstHistory().steps.filter(({ access }) => access === 'miss').length, document.querySelector('.tally').innerText.replace(/\\s/g, ' ')]")
    faults += [] if counted[1].startswith("%d miss" % counted[0]) else ["of %d misses it says %s" % tuple(counted)]
    bench.value("putLecture(false)")
    return faults + safety(bench)


def each_step_fits_row(bench):
    """In a lecture each step of a list's entry fits the sheet, also in a window that isn't the whole screen. No task stands there."""
    bench.open_fresh(width=1920)
    faults = []
    for high, name, beside in product((1080, 940), ("false-sharing", "store-buffering"), ("null", "ABREAST")):
        bench.window.resize(1920, high)
        bench.value("putLecture(false); taught.list = []; loadText('%s.litmus'); putBeside(JSON.stringify(%s)); addToList(); putLecture(true)" % (name, beside))
        heights = "[...drive.words, ''].map((_, count) => { goTo(count); return document.documentElement.scrollHeight; })"
        faults += differs("%s, %s, %d high" % (name, beside, high), max(bench.value(heights)), high)
    faults += differs("the task", bench.value("byId('task').checkVisibility()"), False)
    bench.value("putLecture(false)")
    return faults + safety(bench)


def clicker_scrolls_row(bench):
    """Where there is nothing to step a clicker scrolls."""
    bench.open_fresh(width=1920)
    bench.window.resize(1920, 360)
    bench.value("putLecture(true)")
    press(bench, "#find-outcomes")
    bench.wait("!bench.task && document.querySelector('.states-sheet')")
    bench.value("showInTurn(); scrollTo(0, 0)")
    bench.value(CLICKED % "PageDown")
    faults = differs("scrolled", bench.value("scrollY > 100"), True)
    bench.value(CLICKED % "PageUp")
    faults += differs("and back", bench.value("scrollY"), 0)
    bench.value("putLecture(false)")
    return faults + safety(bench)


def line_row(bench):
    """The line for a shell is whole, with the file that the page saves, and is copied."""
    bench.open_fresh()
    bench.value("byId('test-part').open = true; window.copied = []; navigator.clipboard.writeText = async text => { copied.push(text); }")
    faults = []
    for name, command, line in (("SB", "run", "./tso run < SB.litmus"), ("MP", "outcomes", "./tso outcomes < MP.litmus"), ("MP", "tables", "./tso tables")):
        bench.fill("test", test_of(name))
        bench.value("putCommand('%s'); answerNow()" % command)
        shown = " ".join(word for word in bench.text("#words-line").split() if word not in ("--instructions", "all"))
        faults += differs("of " + command, shown, line)
        press(bench, "#copy-words")
        bench.wait("byId('words-copied').textContent.startsWith('Copied.')")
        faults += differs("copied", bench.value("copied.at(-1) === commandLine(currentCommand())"), True)
    return faults + safety(bench)


def exercise_row(bench, folder):
    """An exercise is a page with the test and a question: no choices, no list. Its task is open, and why and all outcomes come after an answer."""
    bench.open_fresh()
    bench.value("addToList(); loadText('store-buffering-fenced.litmus'); addToList(); goTo(3)")
    bench.value("SAVES.exercise()")
    asked = bench.value("byId('exercise-said').value")
    bench.value("byId('exercise-said').value = 'Is it <so>?'")
    name, text = saved_page(bench, "saveExercise()")
    path = os.path.join(folder, "exercise.html")
    with open(path, "w") as file:
        file.write(text)
    bench.window.open("file://" + path)
    bench.value(READY)
    bench.wait("drive.isOn")
    opened = bench.value("[testName(), drive.words, taught.list.length, byId('task').matches('.met'), byId('about').open]")
    faults = differs("its name", name, "SBF-exercise.html") + differs("opened", opened, ["SBF", [], 0, False, False])
    faults += differs("asked at first", asked, "Can both loads read 0, past the fences?")
    bench.value("byId('test-part').open = true")
    in_sight = "['find-outcomes', 'ask-why', 'library', 'exercise'].map(id => byId(id).getClientRects().length > 0)"
    said = bench.value("[byId('exercise-asked').textContent, byId('task').hidden, /^(TSO|SC|Seen)=/m.test(withoutVerdicts('TSO=allowed\\nSeen=2\\n') + byId('test').value)]")
    faults += differs("said", said, ["Exercise: Is it <so>?", True, False]) + differs("before an answer", bench.value(in_sight), [False, False, False, True])
    press(bench, "[data-thought=cannot]")
    bench.wait("location.hash.includes('thought=cannot')")
    faults += differs("after it", bench.value(in_sight), [True, True, True, True])
    bench.value("byId('test-part').open = false; scrollTo(0, 0)")
    faults += differs("the answer, with its button", [bench.text("#exercise-thought%s" % each) for each in ("", " > [data-ask=why]")], ["You said: it can't be. See whether that is so: Why can or can't it be?", "Why can or can't it be?"])
    faults += differs("the focus stays, and nothing moves", bench.value("[document.activeElement.dataset.thought, scrollY]"), ["cannot", 0])
    bench.window.requests.clear()
    return faults + judged_exercise(bench) + safety(bench)


JUDGED = {"can": ("You said it can be, and so it is.", "You said: it can be. It can't."), "cannot": ("You said: it can't be. It can.", "You said it can't be, and so it is.")}


def judged_exercise(bench):
    """An answer says whether the reader was right, and what the exercise asks is asked once."""
    faults = []
    for name, at in (("SB", 0), ("SB+mfences", 1)):
        question = bench.value("questionOf(%s)" % json.dumps(test_of(name)))
        for thought, ask, shown in (("can", "findOutcomes()", ".states-sheet"), ("cannot", "askWhy()", ".reason")):
            bench.open_fresh(urllib.parse.urlencode({"test": test_of(name), "exercise": question}))
            faults += differs("the task", bench.value("byId('task').hidden"), True)
            press(bench, "[data-thought=%s]" % thought)
            bench.value(ask)
            bench.wait("!bench.task && document.querySelector('%s')" % shown)
            faults += differs("judged", bench.text("#states [role=status] > .judged"), JUDGED[thought][at])
            bench.value("backToRun()")
            faults += differs("in the exercise", bench.text("#exercise-thought"), JUDGED[thought][at])
    bench.key_choice("0s")
    bench.key_choice("0d")
    for word in "0s 0s 1s 1d 1s 1s".split():
        bench.key_choice(word)
    said = bench.text("#exercise-thought")
    return faults + ([] if "so it is. Not met this time: " in said and "Go back" not in said else ["of a try it says " + said])


def taken_row(bench):
    """A miss and an upgrade that take the copies of others away say so, and no other step does."""
    bench.open_fresh()
    bench.value("loadText('false-sharing.litmus'); wantCaches(true); putChoices('0s 0d 1s 1d'); answerNow()")
    faults, found = [], []
    for protocol in ("msi", "moesi"):
        bench.value("settingOf('protocol').value = '%s'; answerNow()" % protocol)
        found.append(bench.value("byId('sentence').textContent"))
        bench.value("goTo(2)")
        faults += [] if "invalid" not in bench.text("#sentence") else ["too early: " + bench.text("#sentence")]
    return faults + [said for said in found if not said.endswith(" GetM x, y went on the bus. P0 sent its copy. P0's copy of x, y became invalid.")] + safety(bench)


def pointer_row(bench):
    """A word is explained where the pointer moved to it, and not where the page changed under one that rests."""
    bench.open_fresh()
    told = "[byId('meaning').hidden, byId('meaning').textContent.slice(0, 16)]"
    at = "document.querySelector('#machines h5[data-means]').dispatchEvent(new PointerEvent('pointerover', { bubbles: true, screenX: %d, screenY: 9 }))"
    bench.value("document.body.dispatchEvent(new PointerEvent('pointermove', { bubbles: true, screenX: 7, screenY: 9 }))")
    found = []
    for x in (7, 8):
        bench.value(at % x)
        found.append(bench.value(told))
    bench.value(CLICKED % "PageDown")
    faults = differs("told", found, [[True, ""], [False, "The instructions"]])
    return faults + differs("after a key", bench.value("byId('meaning').hidden"), True) + safety(bench)


def never_listed_row(bench):
    """Below the outcomes stands what is asked for, struck through, where no run ends so."""
    bench.open_fresh()
    bench.fill("test", test_of("SB+mfences"))
    bench.value("findOutcomes()")
    bench.wait("!bench.task && document.querySelector('.states-sheet')")
    faults = differs("never", bench.value("[...document.querySelectorAll('tfoot td')].map(each => each.textContent)"), ["never", "0", "0", "in no run"])
    bench.value("backToRun()")
    bench.fill("test", test_of("SB"))
    bench.value("findOutcomes()")
    bench.wait("!bench.task && document.querySelector('.states-sheet')")
    return faults + differs("of SB", bench.value("document.querySelector('tfoot')"), None) + safety(bench)


def back_to_answer_row(bench):
    """From why the way back leads to the run of an answer that was shown, and from there to one's own."""
    bench.open_fresh()
    press(bench, "[data-choice='1s']")
    bench.value("findOutcomes()")
    bench.wait("!bench.task && document.querySelector('.states-sheet')")
    bench.value("document.querySelector('#states [data-choices]').click()")
    before = bench.value("[drive.words, drive.count, readSettings('run').options.depth, byId('own-said').textContent]")
    bench.value("askWhy()")
    bench.wait("!bench.task && document.querySelector('.reason')")
    press(bench, "#to-run")
    faults = differs("the run", bench.value("[drive.words, drive.count, readSettings('run').options.depth, byId('own-said').textContent]"), before)
    press(bench, "#own-back")
    return faults + differs("one's own", bench.value("[drive.words, drive.count]"), [["1s"], 1]) + safety(bench)


def abreast_row(bench, folder):
    """MSI, MESI, MOESI and MOSI stand abreast under the same choices, and what differs from the first is marked."""
    bench.open_fresh(width=1920)
    bench.fill("search", "false sharing")
    found = bench.value("[...document.querySelectorAll('#texts button')].map(each => each.textContent)")
    faults = differs("found by the word", found, ["false-sharing.litmus", "false-sharing-loads.litmus"])
    bench.value("loadText('false-sharing.litmus'); putBeside(JSON.stringify(ABREAST)); goTo(7)")
    faults += differs("machines", bench.value("[...document.querySelectorAll('.machine')].map(each => each.querySelector('h3').textContent.split(',')[0])"), ["MSI", "MESI", "MOESI", "MOSI"])
    faults += differs("in one row", bench.value("[...new Set([...document.querySelectorAll('.machine')].map(each => Math.round(each.getBoundingClientRect().top)))].length"), 1)
    marks = bench.value("[...document.querySelectorAll('.machine')].map(each => [each.querySelectorAll('.cache .differs').length, each.querySelector('.memory').matches('.differs')])")
    faults += differs("marked", marks, [[0, False], [0, False], [1, True], [1, True]])
    faults += [] if "Done. Under MSI: 4 misses, " in bench.text("#task-after") else ["the task says " + bench.text("#task-after")]
    faults += differs("why at the end, and of which", [bench.text("#sentence").split(" 4 of")[0], bench.text("#sentence").rsplit(". ", 1)[1]], ["1s: P1 read y=1 from P0's cache. Under MSI and MESI: P0 sent its copy to memory. Under MOESI and MOSI: P0 keeps the line as its owner; memory keeps the old words.", "4 of 4 accesses missed: x and y share a line, and 3 of them took it from the other core."])
    bench.window.screenshot(os.path.join(folder, "abreast.png"))
    return faults + bench.value(OVERHANGING) + safety(bench)


ROWS = "[...document.querySelectorAll('#states tbody tr')].filter(row => !row.hidden).map(row => [...row.cells].slice(2, 4).map(cell => cell.textContent).join(' '))"


def table_row(bench):
    """A table of states is filtered by words and by columns, sorted, and shown for TSO alone."""
    bench.open_fresh()
    bench.value("findOutcomes()")
    bench.wait("!bench.task && document.querySelector('.states-sheet')")
    def filtered(text):
        bench.value("(field => { field.value = %s; field.dispatchEvent(new Event('input', { bubbles: true })); })(document.querySelector('.filter'))" % json.dumps(text))
        return bench.value(ROWS)
    faults = differs("0:EAX=1", filtered("0:EAX=1"), ["1 0", "1 1"]) + differs("two words", filtered("0:EAX=1 1:EAX=0"), ["1 0"]) + differs("a word", filtered("true"), ["0 0"])
    faults += differs("said", bench.text(".filtered"), "1 of 4 outcomes")
    filtered("")
    press(bench, "#states .alone")
    faults += differs("TSO alone", bench.value(ROWS), ["0 0"])
    press(bench, "#states .alone")
    press(bench, "#states th:nth-child(4) .sorts")
    once = bench.value(ROWS)
    press(bench, "#states th:nth-child(4) .sorts")
    faults += differs("sorted", [once, bench.value(ROWS)], [["0 0", "1 0", "0 1", "1 1"], ["0 1", "1 1", "0 0", "1 0"]])
    return faults + differs("told", bench.value("document.querySelector('#states th:nth-child(4)').getAttribute('aria-sort')"), "descending") + safety(bench)


MANY_ENDS = "X86 many\n{ }\n" + "".join(" %s ;\n" % " | ".join(row) for row in (
    ("P0", "P1", "P2"), ("MOV [x],$1", "MOV [y],$1", "MOV [z],$1"), ("MOV EAX,[y]", "MOV EAX,[z]", "MOV EAX,[x]"),
    ("MOV EBX,[z]", "MOV EBX,[x]", "MOV EBX,[y]"))
) + "exists (%s)\n" % " /\\ ".join("%d:%s=%d" % (core, register, word) for core, word in ((0, 0), (1, 0), (2, 2)) for register in ("EAX", "EBX"))


def long_table_row(bench):
    """Of many outcomes the first are shown, and all by a button; long choices are folded; a filter reads a condition, and what never comes goes by it too."""
    bench.open_fresh()
    bench.fill("test", MANY_ENDS)
    bench.value("findOutcomes()")
    bench.wait("!bench.task && document.querySelector('.states-sheet')")
    shown = "[document.querySelectorAll('#states tbody tr:not([hidden])').length, document.querySelectorAll('#states tfoot tr:not([hidden])').length]"
    faults = differs("at first", bench.value("[...%s, document.querySelector('.filtered').textContent]" % shown),
                     [50, 1, "63 outcomes, the first 50 shown"])
    put = "(field => { field.value = %s; field.dispatchEvent(new Event('input', { bubbles: true })); })(document.querySelector('.filter'))"
    for text in ("2:EAX=1 2:EBX=1", "(2:EAX=1 /\\ 2:EBX=1)"):
        bench.value(put % json.dumps(text))
        faults += differs(text, bench.value(shown), [16, 0])
    bench.value(put % "''")
    press(bench, ".more-rows")
    faults += differs("all", bench.value(shown), [63, 1])
    long = ("outcomesTable({ states: [{ values: { x: 1 }, choices: '0s '.repeat(30).trim() }], depth: 32 }, null, null)"
            ".querySelector('.way details').textContent")
    return faults + differs("folded", bench.value(long), "30 choices" + " ".join(["0s"] * 30)) + safety(bench)


def many_passes_row(bench):
    """A task that is met names some of many loads that passed stores, and how many more there are."""
    bench.open_fresh()
    bench.fill("test", MANY_ENDS.replace("2:EAX=2", "2:EAX=0").replace("2:EBX=2", "2:EBX=0"))
    for choice in "0s 1s 2s 0s 1s 2s 0s 1s 2s".split():
        bench.key_choice(choice)
    said = bench.text("#task-after") + bench.text("#task-more")
    return ([] if said.startswith(" Done. ") and said.count(" passed ") == 3 and said.endswith(" And 3 more.") else ["it says " + said]) + safety(bench)


def forms_row(bench):
    """The answer of a run, of outcomes and of why is there as it is printed and as JSON, as the program gives it."""
    test = test_of("MP")
    bench.open_fresh()
    bench.fill("test", test)
    faults = []
    for command in ("run", "outcomes", "why"):
        if command == "run":
            bench.value("putChoices('0s 0s 0d 0d 1s 1s'); putCommand('run'); answerNow()")
        else:
            bench.value("ask('%s')" % command)
            bench.wait("!bench.task && document.querySelector('#states > *')")
        given = test + (DIVIDING_LINE + "0s 0s 0d 0d 1s 1s" if command == "run" else "")
        bench.value("byId('report-part').open = true")
        for form, words in (("as-printed", []), ("as-json", ["--json"]), ("as-printed", [])):
            bench.value("byId('%s').click()" % form)
            wanted = bench.program(given, command, *words)[1]
            bench.wait("byId('report').textContent !== 'Working …' && textShown().startsWith(%s)" % json.dumps(wanted[:8]))
            shown, as_given = bench.text("#report"), bench.value("textShown()")
            is_same = json.loads(shown) == json.loads(wanted) and shown.count("\n") > 8 if form == "as-json" else shown == wanted
            faults += differs("%s %s" % (command, form), [is_same, as_given], [True, wanted])
    bench.value("byId('as-json').click(); ask('why')")
    bench.wait("!bench.task && document.querySelector('.reason')")
    is_open = bench.value("[byId('report-part').open, byId('report').textContent.split('\\n')[0]]")
    faults += differs("JSON that is read, at the next answer", is_open, [True, "{"])
    bench.value("byId('as-printed').click(); putCommand('tables'); answerNow()")
    faults += differs("of tables, which has one form", bench.value("byId('formats').hidden"), True)
    return faults + safety(bench)


def link_row(bench):
    """The first thing offered is the saved page, and the link of a page that is a file says what it is good for."""
    bench.open_fresh()
    first = bench.value("document.querySelector('#saves button').dataset.save")
    bench.value("navigator.clipboard.writeText = async () => {}; copyLink()")
    bench.wait("byId('copied').textContent")
    said = bench.text("#copied")
    return differs("first", first, "page") + ([] if "on this computer alone" in said and "Save as a page" in said else ["it says " + said]) + safety(bench)


LATER = {"answer": "never", "asked": {"kind": "exists", "truth": True}, "leaves": 1, "model": "tso", "test": "MP", "verdict": "No", "also": [1],
         "steps": [{"step": "since", "depth": 0, "bound": "1:EAX is 0 or 1"},
                   {"step": "leaf", "depth": 0, "closing": {"step": "cycle", "cycle": [{"from": "P0:0 W x=1", "relation": "ppo", "to": "P0:1 W y=1"}, {"from": "P0:1 W y=1", "relation": "rf", "to": "P0:0 W x=1"}]}}]}


def later_row(bench):
    """An answer of a module that is newer than the page is shown: steps and relations that the page doesn't know by what they hold."""
    bench.open_fresh()
    bench.fill("test", test_of("MP"))
    bench.value("showReason({ status: 0, text: %s, hint: '' }, inputOf('why'))" % json.dumps(json.dumps(LATER)))
    said = bench.text("#states")
    return ["it doesn't say " + words for words in ("since: 1:EAX is 0 or 1", "P0's store x=1 comes before P0's store y=1", "ppo") if words not in said] + safety(bench)


def embed_row(bench, folder):
    """A page in another page has no footer, no tools and no words of itself, and is driven."""
    bench.window.resize(900)
    bench.window.open(bench.page.address + "#test=" + "X86%20a%0A%7B%20%7D%0A%20P0%20%3B%0A%20MOV%20%5Bx%5D,%241%20%3B%0A&embed=1")
    bench.value(READY)
    bench.wait("drive.isOn")
    out = ["header", "footer", "#about", "#saves", "#input", "#test-part .asking"]
    faults = differs("in sight", bench.value("%r.filter(each => document.querySelector(each).getClientRects().length > 0)" % out), [])
    press(bench, "[data-choice='0s']")
    bench.wait("location.hash.includes('choices=0s')")
    bench.window.screenshot(os.path.join(folder, "embedded.png"), whole=False)
    return faults + differs("its address stays one", bench.value("location.hash.includes('embed=1')"), True) + safety(bench)


def rows(page, folder):
    bench = Driver(page)
    return [
        ("a lecture hall", lambda: lecture_hall_row(bench, folder)),
        ("a lecture on false sharing", lambda: lecture_fits_row(bench, folder)),
        ("each step of a lecture", lambda: each_step_fits_row(bench)),
        ("a clicker that scrolls", lambda: clicker_scrolls_row(bench)),
        ("the line for a shell", lambda: line_row(bench)),
        ("an exercise", lambda: exercise_row(bench, folder)),
        ("a copy that is taken away", lambda: taken_row(bench)),
        ("a pointer that rests", lambda: pointer_row(bench)),
        ("what never comes, below the outcomes", lambda: never_listed_row(bench)),
        ("back to an answer's run", lambda: back_to_answer_row(bench)),
        ("four protocols abreast", lambda: abreast_row(bench, folder)),
        ("a table of states", lambda: table_row(bench)),
        ("a table of many states", lambda: long_table_row(bench)),
        ("a task with many passes", lambda: many_passes_row(bench)),
        ("forms of an answer", lambda: forms_row(bench)),
        ("a link of a file", lambda: link_row(bench)),
        ("answers of a later module", lambda: later_row(bench)),
        ("a page in a page", lambda: embed_row(bench, folder)),
    ]
