"""Rows for what a reader stumbled over who doesn't know TSO: runs without a load that passes, ways on, what is held back, signs that are explained."""
import os

from bench import DIVIDING_LINE, EXAMPLES, differs, read, safety
from driver import Driver

GALLERY = os.path.join(EXAMPLES, "gallery")
IN_SIGHT = "%r.filter(each => document.querySelector(each)?.checkVisibility())"


def find_outcomes(bench):
    bench.value("findOutcomes()")
    bench.wait("!bench.task && document.querySelector('.states-sheet')")


def calm_row(bench):
    """To an outcome that sequential consistency has too the table's run has no load that passes a store; to one of TSO alone a load passes."""
    faults = []
    passing = """[...document.querySelectorAll('#states tbody tr')].map(row => { const run = runOf(row.querySelector('[data-choices]').dataset.choices, 'tso');
      return [row.textContent.includes('TSO alone'), run.order.some(({ passed }) => passed.length > 0), run.choices.get('stalled') + run.choices.get('unused'),
        [...row.querySelectorAll('[data-name]')].every(cell => lastWord(run, cell.dataset.name) === Number(cell.textContent))]; })"""
    for name in ("SB", "MP", "SB+mfences", "INC+xadds", "IRIW"):
        bench.open_fresh()
        bench.fill("test", read(GALLERY, name + ".litmus").partition(DIVIDING_LINE)[0])
        find_outcomes(bench)
        for is_alone, passes, others, is_so in bench.value(passing):
            faults += differs("of %s: passes, stalled or left over, ends so" % name, [passes, others, is_so], [is_alone, 0, True])
    return faults + safety(bench)


def ways_row(bench):
    """A lesson's parts are in the list by name; after the first part of the first one a link leads to fences, and the end of fences to C."""
    bench.open_fresh()
    bench.value("byId('lessons-part').open = true")
    parts = bench.value("[...document.querySelectorAll('#lessons li li')].map(each => each.textContent)")
    faults = differs("the parts", parts, ["What does a core see of its own stores?", "Is one fence enough?"])
    bench.window.click("#lessons [data-lesson=fences]:not([data-step='0'])")
    faults += differs("begun", bench.value("[lesson.told.name, byId('lesson-title').textContent, byId('lesson-place').textContent.split(':')[0]]"),
                      ["fences", "Is one fence enough?", "Part 2 of 2, step 1 of 12"])
    bench.value("enterStep(lesson.told.steps.length - 1)")
    bench.wait("!bench.task")  # its answer has the focus as it comes
    faults += [] if "Both zeros: without fences yes, with one fence yes, with two no." in bench.text("#lesson-said") else ["it says " + bench.text("#lesson-said")]
    bench.window.click("#lesson-also")
    faults += differs("C", bench.value("[byId('from-c').open, document.activeElement.textContent]"), [True, "From C and C++"])
    bench.value("beginLesson('store-buffering', 14)")
    faults += differs("the task", bench.value("byId('task').hidden"), True)
    bench.window.click("#lesson-also")
    faults += differs("on to fences", bench.value("[lesson.told.name, lesson.at, byId('lesson-also').getClientRects().length]"), ["fences", 0, 0])
    bench.value("enterStep(1)")
    return faults + differs("what to press", bench.text("#lesson-now"), "P0's store first. Press step at P0 0s") + safety(bench)


def held_back_row(bench):
    """That a fence waits isn't said before the lesson's question is answered."""
    shown = "getComputedStyle(document.querySelector('[data-choice=\"0s\"]'), '::after').content"
    bench.open_fresh()
    bench.value("beginLesson('fences', 2)")
    faults = differs("before the question", bench.value(shown), "none")
    bench.window.click("[data-choice='1s']")
    faults += differs("at the question", bench.value(shown), "none")
    bench.window.click("[data-answer='It waits']")
    return faults + ([] if "waits" in bench.value(shown) else ["after the answer: " + bench.value(shown)]) + safety(bench)


def signs_row(bench):
    """A run that shows that it can be says so, and nothing of other runs; the condition in words has what is written as its meaning."""
    bench.open_fresh()
    faults = []
    for words, wanted in (("0s 1s 0s 1s 0d 1d", "This run shows that it can be: both loads read 0."),
                          ("0s 0d 0s 1s 1d 1s", "This run doesn't show the outcome that is asked for. This tells nothing about other runs. Both loads read 0: false.")):
        bench.fill("choices", words)
        bench.value("DRIVES.last()")
        faults += differs("the verdict", bench.text("#verdict"), wanted)
    signs = bench.value("[...document.querySelectorAll('#verdict [data-means]')].map(each => [each.textContent, each.tabIndex, MEANINGS[each.dataset.means]])")
    faults += differs("signs", signs, [["Both loads read 0", -1, "Written exists (0:EAX=0 /\\ 1:EAX=0)."]])
    bench.value("byId('lecture').click()")
    bench.wait("isLecture()")
    bench.value("DRIVES.last()")
    faults += differs("in a lecture", bench.text("#verdict"), "This run isn't one in which both loads read 0. It tells nothing about other runs.")
    return faults + safety(bench)


def settings_row(bench):
    """What only caches go by is set where they are ticked; with an error in the test there is a way back to the first one."""
    asked = IN_SIGHT % ["#set-depth", "#set-protocol", "#set-bus", "#set-sets", "#set-ways", "#caches-note"]
    bench.open_fresh()
    bench.value("byId('test-part').open = true")
    faults = differs("settings", bench.value(asked), ["#set-depth", "#caches-note"])
    bench.window.click("#caches")
    faults += differs("with caches", bench.value(asked), ["#set-depth", "#set-protocol", "#set-bus", "#set-sets", "#set-ways"])
    bench.fill("test", "X86 other\n{ }\n P0 ;\n MOV [x],$1x ;\n")
    faults += differs("a way back", bench.value(IN_SIGHT % ["#lesson-again", "#to-first-test"]), ["#to-first-test"])
    bench.window.click("#to-first-test")
    faults += differs("back", bench.value("[testName(), drive.isOn, byId('left-lesson').hidden]"), ["SB", True, True])
    find_outcomes(bench)
    bench.window.click("#way-back [data-ask=why]")
    bench.wait("!bench.task && document.querySelector('.reason')")
    return faults + differs("ways on", bench.value(IN_SIGHT % ["#way-back [data-ask=why]", "#way-back [data-ask=outcomes]"]), ["#way-back [data-ask=outcomes]"]) + safety(bench)


def in_c_row(bench):
    """Each test of plain instructions has its C beside it, with r0, r1 .. over the cores, at the registers and in the table too; where one has no such form none has."""
    told = """[...document.querySelectorAll('.program')].map(each => [...each.children].map(({ dataset }) => dataset.c ?? null))"""
    own = "X86 OWN\n{ }\n P0 | P1 ;\n MOV [x],$1 | MOV EAX,$2 ;\n MFENCE | XCHG [y],EAX ;\n MOV ECX,[y] | MOV EBX,[x] ;\nexists (0:ECX=0 /\\ 1:EAX=0 /\\ 1:EBX=0)\n"
    bench.open_fresh()
    bench.fill("test", own)
    faults = differs("C", bench.value(told), [["x = 1;", "fence;", "r0 = y;"], ["r1 = 2;", "swap(y, r1);", "r2 = x;"]])
    faults += differs("registers", bench.value("[...document.querySelectorAll('.registers')].map(each => each.textContent)"), ["ECX (r0)=0", "EAX (r1)=0EBX (r2)=0"])
    find_outcomes(bench)
    faults += differs("the table", bench.value("[...document.querySelectorAll('#states th[data-c]')].map(each => [each.textContent, each.dataset.c].join(' '))"), ["0:ECX r0", "1:EAX r1", "1:EBX r2"])
    bench.open_fresh()
    bench.fill("test", own.replace("MFENCE", "LOCK XADD [x],EAX"))
    return faults + differs("without a form", bench.value(told), [[None] * 3] * 2) + safety(bench)


# Of each word of the machine and of the order that is explained: what its explanation covers of buttons and buffers.
COVERING = """[byId('order-title'), ...document.querySelectorAll('#machines [data-means]')].filter(word => word.checkVisibility()).flatMap(word => {
  word.focus();
  const said = byId('meaning').getBoundingClientRect(), isIn = ({ left, right, top, bottom }) => left < said.right && right > said.left && top < said.bottom && bottom > said.top;
  return [...document.querySelectorAll('main button, .buffer')].filter(part => part.checkVisibility() && isIn(part.getBoundingClientRect())).map(part => `${word.textContent}: ${part.textContent}`);
})"""


def word_stops_row(bench):
    """The words of the machine, the order and the legend have one Tab stop, after the cores' buttons; down and up lead to each word in a ring, and each tells its meaning."""
    stops = "[...document.querySelectorAll('main [tabindex=\"0\"]')].filter(each => each.checkVisibility()).map(each => each.id)"
    pressed = "document.activeElement.dispatchEvent(new KeyboardEvent('keydown', { key: %r, bubbles: true })), [document.activeElement.dataset.means, byId('meaning').textContent === MEANINGS[document.activeElement.dataset.means], byId('meaning').hidden]"
    bench.open_fresh()
    bench.value("loadText('false-sharing.litmus'); goTo(6)")
    faults = differs("stops", bench.value(stops), ["order-title"])
    bench.value("document.querySelector('.core h5').focus()")
    for key, word in (("ArrowDown", "a store"), ("ArrowDown", "Registers"), ("ArrowUp", "a store"), ("ArrowUp", "Program"), ("ArrowUp", "order"), ("ArrowDown", "Program")):
        faults += differs("after " + key, bench.value(pressed % key), [word, True, False])
    bench.value("loadText('store-buffering.litmus'); goTo(3); byId('order-title').focus()")
    told = [bench.value(pressed % "ArrowDown")[0] for _ in range(2)]
    faults += differs("in the order", told, ["/\\", "passed"])
    faults += differs("the count of steps is the same", bench.value("drive.count"), 3)
    bench.open_fresh(width=1280)
    bench.value("['0s', '1s', '0s'].forEach(word => makeChoice(word))")
    return faults + differs("an explanation covers no button and no buffer", bench.value(COVERING), []) + safety(bench)


CACHES = "[...document.querySelectorAll('.core')].map(core => [...core.querySelectorAll('.cache tr')].map(row => [row.textContent, row.className, row.querySelector('.changed') !== null]))"


def left_row(bench):
    """A line that a cache lost stays in its list, and is marked in its step; a core with stores
    that wait hasn't finished. What a run left says whose it is, and has no word of a register that a core doesn't use."""
    bench.open_fresh()
    bench.value("loadText('false-sharing.litmus'); wantCaches(true); putChoices('0s 0d 1s 1d 0s 0d 1s'); answerNow()")
    faults = []
    for count, wanted in ((2, [["x, yI→Mx=1 y=0", "", True], ["no lines", "", False]]), (4, [["x, yM→I", "gone", True], ["x, yI→Mx=1 y=1", "", True]]), (5, [["x, yI", "gone", False], ["x, yMx=1 y=1", "", False]])):
        faults += differs("caches after %d" % count, bench.value("goTo(%d), %s" % (count, CACHES)), [[row] for row in wanted])
    said = "[...[...document.querySelectorAll('.core')][0].querySelectorAll('.buffer li')].map(each => each.textContent).concat(document.querySelector(\"[data-choice='0s']\").ariaLabel)"
    faults += differs("with a store that waits", bench.value(said), ["x=2", "P0: done; stores wait"])
    faults += differs("after it left", bench.value("goTo(6), " + said), ["gone: x=2", "P0: done"])
    bench.value("goTo(7); putBeside(JSON.stringify(ABREAST))")
    whose = bench.value("firstHistory().options.protocol.toUpperCase()")
    faults += differs("whose", bench.value("[...document.querySelectorAll('#left caption')].map(each => each.textContent)"), ["%s, %s" % (what, whose) for what in ("Registers", "Memory", "Cache accesses")])
    return faults + differs("of a core that uses none", bench.value("document.querySelector('#left tbody tr').textContent"), "EAX–1") + safety(bench)


IN_C = "X86 c\n{}\n P0 | P1%s\n x=1 | y=1%s\n r0=y | %s=x%s\nexists (r0=0 /\\ %s=0)\n"
TOLD = "[byId('plain').textContent, byId('test-band').dataset.line, byId('write-so').hidden]"


def bare_row(bench):
    """A register that a condition names without its core is that of the only core that has it, or an error; a row without ; is marked itself; a name that is no location
    is said beside the test and before its answer, and the page's own first test has none."""
    bench.open_fresh(width=1280)
    bench.fill("test", IN_C % ("", "", "r1", "", "r1"))
    faults = differs("the row of cores", bench.value(TOLD), ["Line 3 needs a ; at its end.", "3", False])
    bench.fill("test", IN_C % (" ;", "", "r1", "", "r1"))
    faults += differs("another row", bench.value(TOLD), ["Line 4 needs a ; at its end.", "4", False])
    bench.window.click("#write-so")
    faults += differs("written", bench.value("byId('test').value.split('\\n').slice(-2)[0]"), "exists (0:EAX=0 /\\ 1:EAX=0)")
    bench.fill("test", IN_C % (" ;", " ;", "r0", " ;", "y"))
    bench.window.click("#write-so")
    faults += differs("of two cores", bench.value(TOLD), ["Line 6: r0 is no location of this test: write the register with its core, as 0:EAX.", "6", True])
    bench.fill("test", "X86 q\n{ }\n P0 ;\n MOV [x],$1 ;\nexists (q=0 /\\ x=1)\n")
    said = "q is no location of this test, so it stays 0."
    faults += differs("beside the test", bench.text(".writing .noticed"), "Note, line 5: " + said)
    for command, part in (("outcomes", ".states-sheet"), ("why", ".reason")):
        bench.choose(command)
        bench.value("begin(); true")
        bench.wait("!bench.task && document.querySelector('%s')" % part)
        faults += differs("before " + command, bench.value("document.querySelector('#states .answer-title').nextElementSibling.textContent"), said)
    bench.open_fresh()
    find_outcomes(bench)
    return faults + differs("of the first test", bench.value("[!!document.querySelector('.stray'), document.querySelector('.noticed').textContent]"), [False, ""]) + safety(bench)


ROUNDS = "X86 a\n{ }\n P0 | P1 \n MOV [x],$1 | MOV [y],$1\n MOV EAX,[y] \n | MOV EAX,[x]\nexists (0:EAX=0 and 1:EAX=0)\n"


def round_row(bench):
    """One press mends rows without ; and | and a condition in words, and says where before; a cell alone stands below its core. A test with an error can't be asked about. The way back to the run closes the test."""
    bench.open_fresh(width=1280)
    bench.value("findOutcomes()")
    bench.wait("!bench.task && document.querySelector('.states-sheet')")
    bench.fill("test", ROUNDS)
    faults = differs("before", bench.text("#to-write"), "Changes: lines 3, 4, 5 and 6: ; is added; line 5: | added; line 7: and becomes /\\. ")
    faults += differs("asks", bench.value("[byId('way-back').hidden, ...[...document.querySelectorAll('#begin, #asks-here button:not([hidden]), #driving > .main')].map(each => each.disabled && each.title !== '')]"), [True] * 5)
    bench.window.click("#write-so")
    faults += differs("written", bench.value("byId('test').value.split('\\n').slice(4)"), [" MOV EAX,[y] |             ;", "             | MOV EAX,[x] ;", "exists (0:EAX=0 /\\ 1:EAX=0)", ""])
    bench.value("byId('test-part').open = true; backToRun()")
    faults += differs("back", bench.value("[byId('test-part').open, byId('ask-why').disabled]"), [False, False])
    bench.fill("test", "X86 a\n{ }\n P0          | P1 ;\n MOV [x],[z] | LOCK XADD ECX,[y] ;\n")
    faults += differs("one register", [bench.text("#plain"), "(in steps: another core can act between them); P1: LOCK XADD ECX,[y] becomes LOCK XADD [y],ECX. " in bench.text("#to-write")], ["Line 4, P0: MOV [x],[z]: write MOV EAX,[z], and in the next cell MOV [x],EAX.", True])
    for store, load, said in (("x33", "x3", "Note: x33 is written and never read: is x3 meant? "), ("x", "X", "Note: X is read and never written: is x meant? "), ("x", "y", ""), ("x1", "x2", "")):
        bench.fill("test", "X86 near\n{ }\n P0          | P1 ;\n MOV [%s],$1 | MOV EAX,[%s] ;\nexists (1:EAX=0)\n" % (store, load))
        faults += differs("near " + load, bench.text(".writing .noticed"), said)
    bench.fill("test", "X86 a\n{ }\n P0 | P1 ;\n x.store(1,std::memory_order_release) | MOV [y],$1 ;\n")
    faults += differs("an order in a row", bench.text("#write-so"), "Write MOV [x],$1")
    bench.fill("test", "X86 a\n{ }\n P0          | P1 ;\n MOV [x],$1  | MOV EAX,[x] ;\n               MFENCE ;\n")
    bench.window.click("#write-so")
    return faults + differs("below its core", bench.value("byId('test').value.split('\\n')[4]"), "            | MFENCE      ;") + safety(bench)


def still_phone_row(bench):
    """On a phone no step of the first run moves the machine, nor does the task when it is met."""
    bench.open_fresh(width=390)
    tops = bench.value("['', ...'0s 1s 0s 1s 0d 1d'.split(' ')].map(word => (word && makeChoice(word), Math.round(byId('machines').getBoundingClientRect().top + scrollY)))")
    return differs("where the machine stands", len(set(tops)), 1) + safety(bench)


def rows(page, _):
    bench = Driver(page)
    return [
        ("beginners, a phone's run that moves nothing", lambda: still_phone_row(bench)),
        ("beginners, runs in which no load passes", lambda: calm_row(bench)),
        ("beginners, ways on", lambda: ways_row(bench)),
        ("beginners, what is held back", lambda: held_back_row(bench)),
        ("beginners, signs", lambda: signs_row(bench)),
        ("beginners, bare names and rows that don't end", lambda: bare_row(bench)),
        ("beginners, one press for all", lambda: round_row(bench)),
        ("beginners, settings and ways back", lambda: settings_row(bench)),
        ("beginners, C beside each test", lambda: in_c_row(bench)),
        ("beginners, words by arrows", lambda: word_stops_row(bench)),
        ("beginners, what left and what waits", lambda: left_row(bench)),
    ]
