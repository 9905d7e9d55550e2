"""Rows for what one comes to first: the machine in sight, its task, the keys that lead there, and what readers of screens are told."""
import json
import os

from bench import OVERHANGING, differs, safety
from driver import SHARED, Driver

IN_SIGHT = """(() => {
  const parts = ['[data-choice]', '.buffer', '.registers', '.cache', '.bus', '.memory', '#frame [data-entry]', '#task', '#sentence'];
  return parts.flatMap(part => [...document.querySelectorAll(part)]).filter(each => {
    const { top, bottom, left, right } = each.getBoundingClientRect();
    return top < 0 || left < 0 || bottom > innerHeight || right > innerWidth;
  }).map(each => (each.className.baseVal ?? each.className) + ' ' + each.textContent.slice(0, 20) + ' is out of sight');
})()"""
FOUR = "X86 four\n{ }\n P0 | P1 | P2 | P3 ;\n MOV [x],$1 | MOV [y],$1 | MOV EAX,[x] | MOV EAX,[y] ;\n | | MOV EBX,[y] | MOV EBX,[x] ;\nexists (2:EAX=1 /\\ 2:EBX=0 /\\ 3:EAX=1 /\\ 3:EBX=0)\n"
SMALLEST = 24  # pixels, of what is pressed


def in_sight_row(bench, folder, width, height):
    """Of SB all is in sight from its first choice to its sixth, without scrolling, and nothing that is pressed moves."""
    bench.open_fresh(width=width)
    bench.window.resize(width, height)
    bench.value("scrollTo(0, 0)")
    places = "[...document.querySelectorAll('[data-choice]')].map(each => [each.getBoundingClientRect().x, each.getBoundingClientRect().y].map(Math.round))"
    at_first, faults = bench.value(places), bench.value(IN_SIGHT)
    for choice in "0s 1s 0s 1s 0d 1d".split():
        bench.window.click("[data-choice='%s']" % choice)
        faults += ["after %s: %s" % (choice, fault) for fault in bench.value(IN_SIGHT)]
        faults += differs("scrolled", bench.value("scrollY"), 0) + differs("the buttons' places", bench.value(places), at_first)
    bench.window.screenshot(os.path.join(folder, "first-%d.png" % width), whole=False)
    return faults + safety(bench)


def task_row(bench):
    """Four clicks from the opening to both loads' 0, and the sentence why; another way isn't ticked."""
    bench.open()
    answers_why = bench.value("document.querySelector('#commands [value=why]') !== null")  # else nobody knows whether it can be done
    title = "Task:" if answers_why else "Can this be done?"
    bench.wait("byId('task').textContent.includes(%s)" % json.dumps(title))
    faults = differs("the task", bench.text("#task"), "%s Make both loads read 0." % title)
    for choice in "0s 0s 1s 1s".split():
        bench.window.click("[data-choice='%s']" % choice)
    faults += differs("the task", bench.text("#task"), "✓ Task: Make both loads read 0. Done. P0 read y before memory saw its store to x (P0:1 passed P0:0). "
                      "P1 read x before memory saw its store to y (P1:1 passed P1:0).Why can it be?")
    bench.window.click("[data-move=first]")
    for choice in "0s 0d 0s 1s 1s".split():
        bench.window.click("[data-choice='%s']" % choice)
    said = "Not met this time: P1's EAX ended as 1, not 0."
    faults += [] if said in bench.text("#task") else ["it says " + bench.text("#task")]
    bench.load(SHARED.partition("exists")[0], "", {})
    faults += differs("a task where nothing is asked", bench.value("byId('task').hidden"), True)
    return faults + safety(bench)


def four_row(bench, folder):
    """Four cores stand in one row at 1,920 pixels, and eight at 1,280, with memory and the lanes of its order in sight."""
    bench.load(FOUR, "", {}, 1920)
    tops = bench.value("[...document.querySelectorAll('.core')].map(each => Math.round(each.getBoundingClientRect().top))")
    bench.window.screenshot(os.path.join(folder, "four-cores-1920.png"), whole=False)
    faults = [] if len(tops) == 4 and len(set(tops)) == 1 else ["their tops are %s" % tops]
    bench.open_fresh(width=1280)
    bench.window.resize(1280, 800)
    bench.value("byId('about').open = false, takeText('X86 eight\\n{ }\\n' + ['P%', 'MOV [a%],$1', 'MOV EAX,[a0]'].map(cell => ` ${[0, 1, 2, 3, 4, 5, 6, 7].map(core => cell.replace('%', core)).join(' | ')} ;\\n`).join(''))")
    seen = "[new Set([...document.querySelectorAll('.core')].map(each => each.getBoundingClientRect().top)).size, ['.below', '#names'].map(each => document.querySelector(each).getBoundingClientRect().bottom < innerHeight)]"
    return faults + differs("eight", bench.value(seen), [1, [True, True]]) + safety(bench)


def folds_row(bench):
    """The test is folded to one line, and opens where it is refused."""
    bench.open()
    faults = differs("open", bench.value("byId('test-part').open"), False)
    faults += differs("its line", bench.text("#test-line"), "SB")
    bench.fill("choices", "0s 9s")
    return faults + differs("open where a choice is refused", bench.value("byId('test-part').open"), True) + safety(bench)


def tabs_row(bench):
    """At most eight tabs lead to the first button of a core, past two of lessons and the folds of the bar, and the first stop skips to it."""
    bench.open_fresh()
    focused, stops = "document.activeElement.dataset.choice ?? document.activeElement.id", []
    while len(stops) < 12 and "0s" not in stops:
        bench.window.call("Input.dispatchKeyEvent", type="rawKeyDown", key="Tab", code="Tab", windowsVirtualKeyCode=9)
        stops.append(bench.value(focused))
    faults = [] if len(stops) <= 8 else ["the stops are %s" % stops]
    faults += differs("the first stop", stops[0], "skip")
    bench.value("byId('skip').focus(); byId('skip').click()")
    return faults + differs("after the skip", bench.value(focused), "0s") + safety(bench)


def keys_row(bench):
    """A key stands on each button that it presses, and keys of one letter can be switched off."""
    bench.open()
    faults = differs("keys", bench.value("[...document.querySelectorAll('.core-buttons kbd')].map(each => each.textContent)"), ["0s", "0d", "1s", "1d"])
    bench.value("byId('keys').open = true; byId('letter-keys').click(); byId('letter-keys').blur()")
    bench.key_choice("1s")
    faults += differs("made with the keys switched off", bench.value("drive.count"), 0)
    bench.value("byId('letter-keys').click(); byId('letter-keys').blur()")
    bench.key_choice("1s")
    return faults + differs("made with them", bench.value("drive.words.slice(0, drive.count)"), ["1s"]) + safety(bench)


def settings_row(bench):
    """Another setting keeps the position, where the choices are the same. Where they end earlier it is their end, and none is lost."""
    bench.open()
    bench.value("goTo(3)")
    bench.value("settingOf('protocol').value = 'mesi'; byId('settings').dispatchEvent(new Event('input'))")
    faults = differs("after another protocol", bench.value("[drive.count, firstHistory().options.protocol]"), [3, "mesi"])
    deeper = "settingOf('depth').value = '%d'; byId('settings').dispatchEvent(new Event('input')); [drive.count, drive.words.length]"
    faults += differs("without buffers", bench.value(deeper % 0), [3, 4]) + differs("with them again", bench.value(deeper % 4), [3, 6])
    bench.value("goTo(5)")
    faults += differs("without buffers, later", bench.value(deeper % 0), [4, 4])
    return faults + differs("with them again, later", bench.value("%s" % (deeper % 4))[1], 6) + safety(bench)


def sizes_row(bench):
    """What is pressed is large enough."""
    bench.open()
    bench.value("byId('test-part').open = true")
    small = bench.value("""[...document.querySelectorAll('button, select, input:not([type=radio]), summary, textarea')].filter(each => each.getClientRects().length > 0)
      .filter(each => { const { width, height } = each.getBoundingClientRect(); return width < %d || height < %d; }).map(each => each.tagName + '#' + each.id + ' is small')""" % (SMALLEST, SMALLEST))
    return small + safety(bench)


def tree_row(bench):
    """The browser's tree for readers of screens: each control has a name and its role, and what changes is told."""
    bench.open()
    bench.value("byId('draw-part').open = true")
    for choice in "0s 0s 0d".split():
        bench.window.click("[data-choice='%s']" % choice)
    nodes = [node for node in bench.window.call("Accessibility.getFullAXTree")["nodes"] if not node["ignored"]]
    named = {(node["role"]["value"], node.get("name", {}).get("value", "")) for node in nodes}
    wanted = [("link", "To the machine"), ("button", "P1: step MOV [y],$1"), ("button", "P0: drain empty"), ("note", "M. Modified"), ("button", "Forward →"), ("button", "Play"),
              ("slider", "Speed"), ("textbox", "Seed"), ("region", "Core P0"), ("region", "Core P1"), ("list", "Registers"), ("list", "Memory"),
              ("list", "Program of P0"), ("table", "Cache"), ("heading", "Memory order so far")]
    faults = ["the tree has no %s named %s" % each for each in wanted if not any(role == each[0] and name.startswith(each[1]) for role, name in named)]
    live = bench.value("['sentence', 'verdict', 'task', 'told', 'message', 'working'].filter(id => !byId(id).matches('[aria-live], [role=status], [role=alert]'))")
    return faults + differs("parts that tell nothing of their changes", live, []) + safety(bench)


def meanings_row(bench):
    """Each word of the machine, of its settings and of the legend explains itself at the focus and under the pointer."""
    bench.open()
    for choice in "0s 0s 0d".split():
        bench.window.click("[data-choice='%s']" % choice)
    bench.value("byId('test-part').open = byId('draw-part').open = byId('legend').open = true")
    words = bench.value("[...document.querySelectorAll('[data-means]')].filter(each => each.getClientRects().length > 0).map(each => each.dataset.means)")
    faults = [] if {"GetM", "M", "Store buffer", "Memory", "order", "protocol", "seed", "locked instruction"} <= set(words) else ["the words are %s" % words]
    for word in sorted(set(words)):
        bench.value("(part => (part.matches('[tabindex], button') ? part : part.querySelector('input, select')).focus())([...document.querySelectorAll('[data-means]')].find(({ dataset }) => dataset.means === %s))" % json.dumps(word))
        faults += differs("the meaning of " + word, bench.value("[byId('meaning').hidden, byId('meaning').textContent === MEANINGS[%s]]" % json.dumps(word)), [False, True])
    bench.value("document.activeElement.blur()")
    return faults + differs("hidden", bench.value("byId('meaning').hidden"), True) + safety(bench)


def written_row(bench):
    """A register that a load has written looks unlike one that none has, where both are 0."""
    bench.open()
    for choice in "0s 0s".split():
        bench.window.click("[data-choice='%s']" % choice)
    written = bench.value("[...document.querySelectorAll('.registers')].map(each => [...each.querySelectorAll('.written')].map(item => item.textContent))")
    return differs("written registers", written, [["EAX (r0)=0"], []]) + safety(bench)


def judged_row(bench, folder):
    """An order that breaks an axiom is told in a sentence, with its entries marked; a protocol's table has words."""
    bench.open()
    faults = []
    for order, marked, said in (("P0:1 R y=0\nP1:0 W y=1\nP0:0 W x=1\nP1:1 R x=0", ["P1:1 R x=0"], "P1:1 R x=0 should return 1"),
                                ("P0:1 R y=0\nP1:0 W y=1\nP0:0 W x=1", [], "P1:1 R x is missing"),
                                ("P0:1 R y=0\nP1:0 W y=2\nP0:0 W x=1\nP1:1 R x=1", ["P1:0 W y=2"], "P1:0 W y=2 should write 1")):
        bench.value("putCommand('check')")
        bench.fill("given", "Order\n%s\nEndorder %d\n" % (order, order.count("\n") + 1))
        faults += differs("marked", bench.value("[...document.querySelectorAll('#states mark')].map(each => each.textContent)"), marked)
        faults += [] if said in bench.text("#states p") else ["it says " + bench.text("#states p")]
    bench.window.screenshot(os.path.join(folder, "judged.png"), whole=False)
    bench.value("putCommand('tables'); settingOf('protocol').value = 'moesi'; answerNow()")
    rows = bench.value("[...document.querySelectorAll('#states tbody tr')].map(row => row.cells[0].textContent)")
    faults += differs("states of the table", rows, list("MOES"))
    bench.window.screenshot(os.path.join(folder, "tables.png"), whole=False)
    return faults + safety(bench)


def folded_row(bench, folder):
    """What one doesn't need at first is folded; a test of long lines has the whole width, and a button leads from it to its machine."""
    bench.open_fresh(width=1400)
    seen = "%r.filter(each => document.querySelector(each).checkVisibility())"
    faults = differs("in sight", bench.value(seen % ["#drive-seed", "#draw-seed", "[data-save=svg]", "[data-save=trace]"]), [])
    faults += differs("that stay", bench.value(seen % ["#find-outcomes", "#caches", "#play", "#beside-it", "#saves [data-save=page]", "#add-to-list"]), ["#find-outcomes", "#caches", "#play", "#saves [data-save=page]", "#add-to-list"])
    bench.value("byId('test-part').open = true; scrollTo(0, 0)")
    narrow = bench.value("byId('test').offsetWidth")
    bench.fill("test", "X86 eight\n{ }\n" + " | ".join("P%d" % core for core in range(8)) + " ;\n" + " | ".join("MOV [x],$%d" % core for core in range(8)) + " ;\n")
    faults += differs("the width of a test of eight cores", bench.value("byId('test').offsetWidth") > narrow + 200, True)
    bench.window.screenshot(os.path.join(folder, "eight-written.png"), whole=False)
    bench.window.click("#drive-it")
    faults += differs("at the machine", bench.value("[byId('test-part').open, document.activeElement.dataset.choice]"), [False, "0s"])
    return faults + safety(bench)


def marked_core_row(bench):
    """The core that keys act on is marked while a key has named one and its choice is to come."""
    bench.open_fresh()
    style = "getComputedStyle(document.querySelector('.core.chosen')).outlineStyle"
    faults = differs("at first", bench.value(style), "none")
    bench.press("1")
    faults += differs("after its digit", bench.value(style), "dashed")
    bench.press("s")
    return faults + differs("after the choice", bench.value(style), "none") + safety(bench)


BOX = "(name => { const { left, right, top, bottom } = document.querySelector(name).getBoundingClientRect(); return { left, right, top, bottom }; })"


def task_at_once_row(bench):
    """The page opens with the task of its first test in its words, and what it takes as known there is what `why` answers."""
    bench.open_fresh()
    known = "[possible.test === drive.test, possible.can, JSON.parse(bench.tso.answer({ command: 'why', json: true }, possible.test).text).answer]"
    return differs("known of the first test", bench.value(known), [True, True, "allowed"]) + safety(bench)


def first_screen_row(bench):
    """At 1280 by 800 the machine, its memory and the two main buttons are in sight under the words of what this is, the order is as high as the machine,
    and what will stand there is said until something does."""
    bench.open_fresh(width=1280)
    bench.window.resize(1280, 800)
    bench.value("byId('about').open = true; scrollTo(0, 0); redraw()")
    parts = ["#first-lesson", "#task", "#test-part .opens", ".memory", "#find-outcomes", "#ask-why"]
    faults = differs("out of sight", bench.value("%s.filter(name => %s(name).bottom > innerHeight)" % (json.dumps(parts), BOX)), [])
    machine, order = bench.value("[%s('.machine').bottom, %s('.drawing').bottom]" % (BOX, BOX))
    faults += [] if abs(machine - order) < 4 else ["the machine ends at %d, the order at %d" % (machine, order)]
    said = "getComputedStyle(document.querySelector('.pictured'), '::after').content.includes('gets a row here')"
    faults += differs("what will stand there", bench.value(said), True)
    tops = "[...document.querySelectorAll('#stepper, .machine')].map(each => Math.round(each.getBoundingClientRect().top + scrollY))"
    lefts, before = bench.value("['#sentence', '#task-said', '[data-move]'].map(each => %s(each).left)" % BOX), bench.value(tops)
    faults += [] if abs(lefts[0] - lefts[1]) < 8 < lefts[2] - lefts[0] else ["what to press isn't below the task: %s" % lefts]
    bench.value("for (const word of ['0s', '1s', '0s', '1s']) makeChoice(word)")
    faults += differs("met, and below it", bench.value("[byId('task').matches('.met'), ...%s]" % tops), [True, *before])
    bench.window.resize(1024, 768)
    met = bench.value(tops)
    bench.value("goTo(0)")
    faults += differs("in a smaller window the same, and memory in sight", bench.value("[%s('.memory').bottom <= innerHeight, ...%s]" % (BOX, tops)), [True, *met])
    bench.value("goTo(4)")
    return faults + differs("once something does", bench.value(said), False) + safety(bench)


def queue_row(bench):
    """A store buffer is drawn as the opening picture is: a store goes in at the left, and the oldest, at the right, goes out above memory."""
    bench.load("X86 queue\n{ }\n P0 ;\n MOV [x],$1 ;\n MOV [y],$1 ;\n MOV [z],$1 ;\n", "0s 0s 0s", {})
    bench.value("goTo(3)")
    lefts = "[...document.querySelectorAll('.core .slot')].map(each => [each.textContent, each.getBoundingClientRect().left])"
    faults = differs("from the left", [text for text, _ in sorted(bench.value(lefts), key=lambda each: each[1])], ["z=1", "y=1", "x=1"])
    low, high = bench.value("[%s('.core .buffer').bottom, %s('.memory').top]" % (BOX, BOX))
    faults += [] if low < high else ["the buffer isn't above memory"]
    slots, room = bench.value("(([a, b]) => [b.x + b.width, a.x + a.width])([...document.querySelectorAll('.buffer-part rect')].filter((_, at) => at !== 1).map(each => each.getBBox()))")
    return faults + ([] if room - slots < 8 else ["the opening picture's stores aren't at the way out"]) + safety(bench)


def bar_row(bench):
    """Lessons and keys lie at the bar: one at a time, and each closes when one presses elsewhere or Escape, where the focus goes back to its name."""
    bench.open_fresh(width=1280)
    opened = "[...document.querySelectorAll('#folds [open]')].map(each => each.id)"
    faults = []
    for name in ("lessons-part", "keys"):
        bench.window.click("#%s > summary" % name)
        faults += differs("open", bench.value(opened), [name])
    bench.value("byId('letter-keys').focus()")
    bench.window.press("Escape")
    faults += differs("after Escape", bench.value("[%s, document.activeElement.parentElement.id]" % opened), [[], "keys"])
    bench.window.click("#lessons-part > summary")
    bench.window.click("h1")
    return faults + differs("after a press elsewhere", bench.value(opened), []) + safety(bench)


STOPS = "[...document.querySelectorAll(':is(#test-part, #about, #folds details) > summary')].filter(each => each.checkVisibility()).map(each => each.parentElement.id)"


def stops_row(bench):
    """Tab goes as the eye does: in a wide window the test's line is the first in the bar. ? opens the list of keys, and a key that acts closes it."""
    bench.open_fresh(width=1280)
    faults = differs("in the bar", bench.value(STOPS), ["test-part", "lessons-part", "keys", "about"])
    bench.window.resize(900)
    bench.wait("byId('bench').previousElementSibling.id === 'about'")
    faults += differs("below it", bench.value(STOPS), ["lessons-part", "keys", "about", "test-part"])
    bench.value("document.body.dispatchEvent(new KeyboardEvent('keydown', { key: '?', shiftKey: true, bubbles: true })); true")
    faults += differs("keys", bench.value("[byId('keys').open, document.activeElement.parentElement.id]"), [True, "keys"])
    press = "document.body.dispatchEvent(new KeyboardEvent('keydown', { key: '%s', bubbles: true })), byId('keys').open"
    return faults + differs("as keys act", [bench.value(press % key) for key in ("Tab", "End")], [True, False]) + safety(bench)


CODE_SIZES = """[...document.querySelectorAll('.program code, .registers li, .memory li, .core-buttons code')].map(each => parseFloat(getComputedStyle(each).fontSize))"""


def lecture_row(bench, folder):
    """In a lecture hall code is large, nothing hangs over, what isn't taught is out of sight, and the machine goes on."""
    bench.open(width=1920)
    bench.window.resize(1920, 1080)
    bench.value("putLecture(true)")
    for choice in "0s 0s 1s 1s 0d 1d".split():
        bench.window.click("[data-choice='%s']" % choice)
    faults = [] if min(bench.value(CODE_SIZES)) >= 20 else ["code has a size of %s" % min(bench.value(CODE_SIZES))]
    faults += bench.value(OVERHANGING) + differs("entries", bench.value("document.querySelectorAll('#frame [data-entry]').length"), 4)
    out = ["header", "#saves", "#input", "footer", "#legend"]
    faults += differs("the choice of what stands beside", bench.value("byId('beside-it').getClientRects().length"), 1)
    faults += differs("in sight", bench.value("%r.filter(each => document.querySelector(each).getClientRects().length > 0)" % out), [])
    bench.window.screenshot(os.path.join(folder, "lecture.png"), whole=False)
    bench.value("putLecture(false)")
    return faults + differs("after it", bench.value("document.querySelector('header').getClientRects().length"), 1) + safety(bench)


def large_text_row(bench, folder):
    """With a default text of 32 pixels, or 24, nothing hangs over."""
    faults = []
    for width in (1280, 768):
        bench.open(width=width)
        for size in (24, 32):
            bench.value("document.documentElement.style.fontSize = '%dpx'; byId('test-part').open = true; redraw(); goTo(4)" % size)
            faults += ["%d pixels of text at %d: %s" % (size, width, fault) for fault in bench.value(OVERHANGING)]
        bench.window.screenshot(os.path.join(folder, "text-32-%d.png" % width))
    return faults + safety(bench)


# Rows that need answers of a module: what stands in for one refuses no choice, and checks no order.
OF_THE_MODULE = ("the test in one line", "orders and tables in words")


def rows(page, folder):
    bench = Driver(page)
    return [
        *[("the machine first, at %d by %d" % size, lambda size=size: in_sight_row(bench, folder, *size)) for size in ((1280, 720), (1920, 1080))],
        ("the task", lambda: task_row(bench)),
        ("four cores in a row", lambda: four_row(bench, folder)),
        ("the test in one line", lambda: folds_row(bench)),
        ("tabs to the first button", lambda: tabs_row(bench)),
        ("keys on buttons", lambda: keys_row(bench)),
        ("a setting in the middle", lambda: settings_row(bench)),
        ("sizes of what is pressed", lambda: sizes_row(bench)),
        ("the tree of the page", lambda: tree_row(bench)),
        ("meanings of words", lambda: meanings_row(bench)),
        ("registers that are written", lambda: written_row(bench)),
        ("orders and tables in words", lambda: judged_row(bench, folder)),
        ("a lecture", lambda: lecture_row(bench, folder)),
        ("what is folded at first", lambda: folded_row(bench, folder)),
        ("the core that keys act on", lambda: marked_core_row(bench)),
        ("large text", lambda: large_text_row(bench, folder)),
        ("the first screen", lambda: first_screen_row(bench)), ("the task at once", lambda: task_at_once_row(bench)), ("a buffer that is drawn", lambda: queue_row(bench)), ("folds of the bar", lambda: bar_row(bench)), ("stops in the bar", lambda: stops_row(bench)),
    ]
