"""Rows for a lecture that keys lead, for names there, and for a small screen in a hall."""
import os

from bench import READY, differs, safety
from driver import Driver
from kept import saved_page
from playlists import CLICKED
from teaching import press


def led_row(bench):
    """While keys lead a lecture nothing looks as if the pointer were at it, until it moves or is pressed. Sentences have no codes there."""
    bench.open_fresh()
    led = "[document.documentElement.matches('.led'), getComputedStyle(document.querySelector('#list-bar button')).cursor]"
    bench.value("loadText('store-buffering.litmus'); putLecture(true); goTo(0)")
    bench.value(CLICKED % "PageDown")
    faults = differs("by a key", bench.value("[...%s, byId('sentence').textContent]" % led), [True, "none", "P0's store x=1 waits in its store buffer."])
    bench.window.click("[data-choice='1s']")
    faults += differs("pressed without a move", bench.value("[...%s, drive.count]" % led), [False, "default", 2])
    bench.value(CLICKED % "PageUp")
    faults += differs("by the other", bench.value("[...%s, drive.count]" % led), [True, "none", 1])
    bench.value("document.body.dispatchEvent(new PointerEvent('pointermove', { bubbles: true }))")
    faults += differs("moved", bench.value(led), [False, "default"])
    bench.value("putLecture(false)")
    return faults + differs("elsewhere", bench.text("#sentence")[:4], "0s: ") + safety(bench)


def unpressed_row(bench):
    """What comes to the page's ground presses nothing, on the page and while keys lead a lecture, and nothing fails."""
    bench.open_fresh()
    bench.value("loadText('store-buffering.litmus'); goTo(0)")
    pressed = """(({ left, top }) => document.documentElement.dispatchEvent(new PointerEvent('pointerdown', { bubbles: true, pointerType: 'mouse', clientX: %s, clientY: top + 9 })))(
        document.querySelector("[data-choice='0s']").getBoundingClientRect()), drive.count"""
    faults = differs("outside the window", bench.value(pressed % "-9"), 0) + differs("on the page", bench.value(pressed % "left + 9"), 0)
    bench.value("putLecture(true)")
    faults += differs("in a lecture", bench.value(pressed % "left + 9"), 0)
    bench.value("putLecture(false)")
    return faults + safety(bench)


SCREEN = "[playlist.at, drive.isOn ? drive.count : `arrow ${sheet.cycle?.shown}`, footSaid()].join(' ')"


def reverse_row(bench):
    """A clicker that goes back sees the screens of the way there in reverse: a run's reason too, from its last arrow."""
    bench.open_fresh()
    bench.value("loadText('store-buffering.litmus'); putChoices('0s 1s 0s 1s 0d 1d'); answerNow(); addToList(); loadText('false-sharing.litmus'); addToList(); putLecture(true); openListed(0)")
    there, back = [], []
    for key, screens in (("PageDown", there), ("PageUp", back)):
        for _ in range(32):
            bench.wait("!bench.task && (drive.isOn || sheet.cycle?.element.isConnected)")
            screens.append(bench.value(SCREEN))
            if screens[1:] and screens[-1] == screens[-2]:
                screens.pop()
                break
            bench.value(CLICKED % key)
    bench.value("putLecture(false)")
    faults = [] if any("arrow 4 " in screen for screen in there) and len(there) > 16 else ["too few screens: %r" % there]
    return faults + differs("back", back, there[::-1]) + safety(bench)


OUT_OF_CORE = "[...document.querySelectorAll('.core')].flatMap(core => [...core.querySelectorAll('.buffer, .slot, .cache')].filter(each => each.getBoundingClientRect().right > core.getBoundingClientRect().right))"


def narrow_row(bench):
    """At 1024 by 768 no buffer passes its core's edge, alone and with four protocols, on the page and in a lecture; there nothing scrolls."""
    bench.open_fresh(width=1024)
    bench.window.resize(1024, 768)
    faults = []
    for beside in ("null", "ABREAST"):
        for name, is_on in (("page", "false"), ("lecture", "true")):
            bench.value("putLecture(%s); loadText('false-sharing.litmus'); putBeside(JSON.stringify(%s)); goTo(0); makeChoice('0s'); makeChoice('0s'); makeChoice('1s')" % (is_on, beside))
            faults += differs("%s, %s" % (name, beside), bench.value("%s.length" % OUT_OF_CORE), 0)
            faults += differs("buffers of %s, %s" % (name, beside), bench.value("[...document.querySelectorAll('.buffer')].every(each => each.checkVisibility() && each.offsetHeight > 20)"), True)
        faults += differs("its height", bench.value("document.documentElement.scrollHeight"), 768)
    bench.value("putLecture(false)")
    return faults + safety(bench)


def four_in_sight_row(bench):
    """Four protocols are in sight with their programs, counts and sentence, at the start and at the end, on the page and in a lecture."""
    faults = []
    for width, height in ((1280, 800), (1024, 768)):
        bench.open_fresh(width=width)
        bench.window.resize(width, height)
        for is_on in ("false", "true"):
            bench.value("byId('about').open = false; loadText('false-sharing.litmus'); putBeside(JSON.stringify(ABREAST)); putLecture(%s); scrollTo(0, 0)" % is_on)
            ends = bench.value("[0, 7].map(count => (goTo(count), Math.max(...[...document.querySelectorAll('.core')].map(each => each.getBoundingClientRect().bottom)))).map(Math.round)")
            tops = bench.value("[0, 7].map(count => (goTo(count), Math.round(byId('programs').getBoundingClientRect().top)))")
            faults += [] if max(ends) <= height and ends[0] == ends[1] and tops[0] == tops[1] else ["at %d by %d, lecture %s: %s, %s" % (width, height, is_on, ends, tops)]
        bench.value("putLecture(false)")
    return faults + safety(bench)


def letters_row(bench):
    """While keys lead, a lecture says below four protocols what the states' letters mean, in the place of the row that comes with the mouse; nothing scrolls."""
    faults = []
    for width, height in ((1920, 1080), (1280, 720), (1024, 768)):
        bench.open_fresh(width=width)
        bench.window.resize(width, height)
        bench.value("putLecture(true); loadText('false-sharing.litmus'); putBeside(JSON.stringify(ABREAST)); putLed(true)")
        style = "getComputedStyle(byId('driving'), '::after')"
        found = bench.value("[/O owned.*Framed: differs from MSI/.test(%s.content), %s.height.split('p')[0] < byId('driving').offsetHeight, getComputedStyle(byId('ask-why')).opacity, document.documentElement.scrollHeight]" % (style, style))
        faults += differs("at %d by %d" % (width, height), found, [True, True, "0", height])
        faults += differs("with the mouse", bench.value("putLed(false), [%s.content, getComputedStyle(byId('ask-why')).opacity]" % style), ["none", "1"])
    return faults + safety(bench)


STEPS = {"store-buffering": "0s 1s 0s 1s 0d 1d", "store-buffering-fenced": "0s 0d 0s 0s 1s 1d 1s 1s", "false-sharing": "0s 0d 1s 1d 0s 0d 1s"}
MOVED = """(places => places[0].filter((_, at) => Math.max(...places.map(each => each[at])) - Math.min(...places.map(each => each[at])) > 2).length)([...drive.words, ''].map((_, count) => (goTo(count),
    [...document.querySelectorAll('.core, .core h5, .choice, .buffer, .memory, #frame, #verdict')].filter(each => each.checkVisibility()).map(each => each.getBoundingClientRect().top))))"""


def unmoved_row(bench):
    """In a lecture no part moves between the steps of an entry, alone and with four protocols; what the misses come to is the bold line, and nothing stands twice."""
    faults = []
    for width, height in ((1920, 1080), (1280, 720)):
        bench.open_fresh(width=width)
        bench.window.resize(width, height)
        for (name, words), beside in [*((step, "null") for step in STEPS.items()), (("false-sharing", STEPS["false-sharing"]), "ABREAST")]:
            bench.value("putLecture(true); loadText('%s.litmus'); putBeside(JSON.stringify(%s)); putChoices('%s'); answerNow()" % (name, beside, words))
            faults += differs("%s, %s, at %d" % (name, beside, width), bench.value("[%s, document.documentElement.scrollHeight]" % MOVED), [0, height])
            if beside == "ABREAST":
                faults += differs("one clause", bench.value("(goTo(4), byId('sentence').textContent)"), "P1's store y=1 left its buffer. GetM x, y: P0 sent its copy, which became invalid.")
                bench.value("goTo(drive.words.length)")
        said = bench.value("[document.querySelector('#sentence > strong').textContent.trim(), byId('sentence').textContent.split('core. ')[1], [...document.querySelectorAll('.said')].some(each => each.checkVisibility()), byId('verdict').textContent, document.querySelector('.tally').textContent.replace(/\\s/g, ' ')]")
        faults += differs("the end", said, ["4 of 4 accesses missed: x and y share a line, and 3 of them took it from the other core.", "P1 read y=1 from P0's cache. GetS x, y went on the bus. Under MOESI and MOSI: P0 keeps the line as its owner.", False, "", "4 misses, 1 flush"])
        for name, words in (("false-sharing", STEPS["false-sharing"]), ("false-sharing-loads", "0s 0s 0d 1s 1s 1d 0s")):
            bench.value("loadText('%s.litmus'); settingOf('words').value = '1'; putChoices('%s'); answerNow()" % (name, words))
            faults += differs("%s, one word a line, at %d" % (name, width), bench.value("[%s, document.documentElement.scrollHeight]" % MOVED), [0, height])
    bench.value("putLecture(false)")
    return faults + safety(bench)


def renamed_row(bench):
    """An entry of a list gets a name of one's own, by Enter or by leaving it, which stays; what isn't in the list is said to be none of it."""
    enter = "new KeyboardEvent('keydown', { key: '%s', bubbles: true })"
    faults = []
    bench.open_fresh()
    bench.value("addToList(); byId('list-part').open = true")
    for written, left, name in (("Peterson", "document.activeElement.blur()", "Peterson"), (" Dekker ", "field.dispatchEvent(%s)" % enter % "Enter", "Dekker"),
                                ("Lamport", "field.dispatchEvent(%s)" % enter % "Escape", "Dekker"), (" ", "field.dispatchEvent(%s)" % enter % "Enter", "Dekker")):
        press(bench, "#list [data-renamed]")
        bench.value("(field => { field.value = '%s'; %s; })(document.activeElement)" % (written, left))
        named = bench.value("[taught.list[0].name, byId('list').children[0].firstElementChild.textContent, document.querySelector('#list [data-raised]').ariaLabel]")
        faults += differs("its name after %r" % written, named, [name, name, "Move %s up" % name])
    faults += differs("the focus", bench.value("document.activeElement.textContent"), "Dekker")
    press(bench, "#list [data-renamed]")
    bench.window.type("L" * 90)
    faults += differs("a long name", bench.value("[document.activeElement.value.length, document.querySelector('#list [role=status]').textContent]"), [80, "80 letters at most."])
    bench.value("document.activeElement.select()")
    bench.window.type("Lamport")
    faults += differs("a short one", bench.text("#list [role=status]"), "")
    for kind in ("keyDown", "keyUp"):  # by a real key, which must not press what gets the focus
        bench.window.call("Input.dispatchKeyEvent", type=kind, key="Enter", code="Enter", windowsVirtualKeyCode=13, **({"text": "\r"} if kind == "keyDown" else {}))
    faults += differs("after Enter", bench.value("[byId('list-part').open, document.activeElement.textContent, taught.list[0].name]"), [True, "Lamport", "Lamport"])
    bench.value("taught.list = taught.list.with(0, { ...taught.list[0], name: 'Dekker' })")
    faults += named_in_hall(bench)
    bench.value("loadText('MP.litmus')")
    bench.wait("document.querySelector('#list-bar span').textContent === 'Not in the lecture of 1 entry'")
    return faults + safety(bench)


def named_in_hall(bench):
    """A name of one's own is the headline in a lecture, over the run and its reason, and stays when the entry is updated."""
    bench.value("putLecture(true); askWhy()")
    bench.wait("!bench.task && document.querySelector('.reason')")
    headline = bench.value("byId('asked-line').textContent")
    bench.value("backToRun(); putLecture(false); makeChoice('1s'); updateListed(); putLecture(true)")
    found = [headline, *bench.value("[byId('asked-line').textContent, taught.list[0].name, taught.list[0].address.includes('choices=1s')]")]
    bench.value("putLecture(false)")
    return differs("in a lecture", found, ["Dekker", "Dekker", "Dekker", True])


def outcomes_asked_row(bench):
    """In a lecture the question stands over all outcomes too, which come one by one, what is sought with the answer, and C's names aren't there."""
    bench.open_fresh()
    bench.value("loadText('store-buffering.litmus'); addToList(); loadText('MP.litmus'); addToList(); putLecture(true); openListed(0); findOutcomes()")
    bench.wait("!bench.task && document.querySelector('.states-sheet')")
    asked = "[byId('asked-line').checkVisibility() && byId('asked-line').textContent, footSaid() === playlist.where]"
    faults = differs("asked", bench.value(asked), ["Can both loads read 0?", True])
    parts = "[footSaid(), ...['.states-sheet .met', '[role=status] > .is-yes'].map(each => document.querySelector('#states ' + each).checkVisibility({ visibilityProperty: true }))]"
    turns = [bench.value(parts)]
    for _ in range(4):
        bench.value(CLICKED % "PageDown")
        turns.append(bench.value(parts))
    said = ["PageDown shows outcome %d of 4" % at for at in (1, 2, 3)] + ["PageDown shows the answer", "PageDown: the run goes on"]
    faults += differs("one by one", turns, [[each, at > 3, at > 3] for at, each in enumerate(said)])
    faults += differs("what no hall knows", bench.value("[...document.querySelectorAll('.states-sheet thead th, .of-choices, .goes')].filter(each => each.checkVisibility()).map(each => each.innerText)"), ["Under", "Condition", "0:EAX", "1:EAX", ""])
    faults += differs("C", bench.value("getComputedStyle(document.querySelector('.states-sheet th[data-c]'), '::after').content"), "none")
    bench.value("openListed(0)")
    faults += differs("in a register", bench.value("document.querySelector('.registers').innerText.replace(/\\s/g, '')"), "EAX=0")
    bench.value("putLecture(false)")
    return faults + safety(bench)


PLACES = "((top, parts) => parts.map(each => Math.round(each.getBoundingClientRect().top - top)).join())(document.querySelector('#machines').getBoundingClientRect().top, [...document.querySelectorAll('.program, .registers, .buffer')])"
FOUR_CORES = "X86 four\n{ }\n P0 | P1 | P2 | P3 ;\n MOV [x],$1 | MOV [y],$1 | MOV EAX,[x] | MOV EAX,[y] ;\n | | MOV EBX,[y] | MOV EBX,[x] ;\n"


def level_row(bench):
    """At each step of a run programs, registers and buffers stand where they stood, on the page and in a lecture, with two cores and with four."""
    faults = []
    for width, height in ((1024, 768), (1280, 800), (1920, 1080)):
        bench.open_fresh(width=width)
        bench.window.resize(width, height)
        for take, words in (("loadText('store-buffering.litmus')", "0s 1s 0s 1s 0d 1d"), ("takeText(%r)" % FOUR_CORES, "0s 1s 0d 2s 1d 3s 2s 3s")):
            for is_on in ("false", "true"):
                bench.value("putLecture(%s); %s; putChoices('%s'); answerNow()" % (is_on, take, words))
                places = bench.value("Array.from({ length: %d }, (_, count) => { goTo(count); return %s; })" % (len(words.split()) + 1, PLACES))
                faults += differs("places at %d, lecture %s, %s" % (width, is_on, words), len(set(places)), 1)
            bench.value("putLecture(false)")
    return faults + safety(bench)


WHOLE_RUNS = {"store-buffering-fenced.litmus": "0s 0d 0s 0s 1s 1d 1s 1s", "IRIW.litmus": "0s 0d 1s 1d 2s 2s 3s 3s", "3.SB.litmus": "0s 1s 2s 0s 1s 2s 0d 1d 2d"}


def fitted_row(bench):
    """Runs of two, three and four cores fit a lecture's window to their end, and one in which nothing passes is drawn larger; few outcomes fill it, and fit too."""
    faults = []
    for width, height in ((1920, 1080), (1280, 720), (1024, 768)):
        bench.open_fresh()
        bench.window.resize(width, height)
        bench.value("putLecture(true)")
        for name, words in WHOLE_RUNS.items():
            bench.value("loadText('%s'); putChoices('%s'); answerNow(); goTo(drive.words.length)" % (name, words))
            faults += differs("%s at %d" % (name, width), bench.value("document.documentElement.scrollHeight"), height)
        zooms = bench.value("[%s].map(file => (loadText(file), Number(byId('run').style.getPropertyValue('--zoom'))))" % ", ".join("'%s'" % name for name in WHOLE_RUNS))
        faults += [] if zooms[0] >= zooms[2] + (0.2 if width == 1920 else 0) else ["at %d drawn by %s" % (width, zooms)]
        bench.value("loadText('store-buffering.litmus'), findOutcomes()")
        bench.wait("!bench.task && document.querySelector('.states-sheet')")
        faults += differs("outcomes at %d" % width, bench.value("document.documentElement.scrollHeight"), height)
        bench.value("putLecture(false)")
    return faults + safety(bench)


STOPPED = """(loadText('store-buffering.litmus'), addToList(), taught.list = [{ ...taught.list[0], address: taught.list[0].address.replace(/&choices=[^&]*/, '&choices=0s+1s+0s+1s') }],
    loadText('MP.litmus'), addToList(), putLecture(true), openListed(%d))"""
PRESSES = 40  # more than both tests, their reasons and what was asked have


def led_on(bench, at, key="PageDown", is_there="playlist.at === 1"):
    """Whether so many presses of a clicker lead there."""
    for _ in range(PRESSES):
        if bench.value(is_there):
            return []
        bench.value(CLICKED % key)
        bench.wait("!bench.task")
    return ["%s: no %s leads on, but round: %s" % (at, key, bench.value("[currentCommand(), drive.words, drive.count, footSaid()]"))]


def never_trapped_row(bench):
    """Whatever was tried in a lecture, a clicker comes back to the prepared run once, and on to the next entry: also where that run stops early."""
    ways = {"before its end": "goTo(2); makeChoice('0d')", "two ways": "goTo(2); makeChoice('0d'); goTo(2); makeChoice('1d'); goTo(1); makeChoice('0s')", "at its end": "goTo(4); makeChoice('0d')",
            "after its end": "goTo(4); makeChoice('0d'); makeChoice('1d'); goTo(1); makeChoice('0d')", "undone and done again": "goTo(2); makeChoice('0d'); undo(); redo()", "an earlier run": "goTo(2); makeChoice('0d'); takeBranch(otherBranches()[0]); takeBranch(otherBranches()[0])",
            "asked in between": "goTo(2); makeChoice('0d'); findOutcomes()", "asked why": "goTo(2); makeChoice('0d'); askWhy()", "came back": "goTo(2); makeChoice('0d'); openListed(1); openListed(0)"}
    faults = []
    bench.open_fresh()
    bench.value(STOPPED % 0)
    for name, way in ways.items():
        bench.value("openListed(0); %s" % way)
        bench.wait("!bench.task")
        faults += led_on(bench, name)
        faults += led_on(bench, name, "PageUp", "playlist.at === 0 && drive.isOn && drive.count === 0")
    bench.value("openListed(0); goTo(2); makeChoice('0d')")
    faults += differs("the foot", bench.value("footSaid()"), "PageDown: back to the prepared run")
    bench.value(CLICKED % "PageDown")
    faults += differs("the run", bench.value("[drive.words.join(' '), drive.count]"), ["0s 1s 0s 1s", 2])
    bench.value("goTo(4)")
    faults += differs("it got there", [bench.text("#verdict"), bench.value("footSaid()")], ["✓ Both loads have read 0.", "PageDown: the reason, by arrows"])
    bench.value("putLecture(false)")
    return faults + safety(bench)


def resumed_row(bench):
    """A lecture that Escape, pressed twice, ended goes on where it was, by its button or by PageDown as the next key, which the bar says; after another key that one scrolls."""
    bench.open_fresh()
    bench.value(STOPPED % 0)
    bench.value("goTo(3)")
    bench.value(CLICKED % "Escape")
    faults = differs("after one Escape", bench.value("[isLecture(), playlist.where]"), [True, "Escape again ends the lecture"])
    bench.value(CLICKED % "Escape")
    faults += differs("after Escape", bench.value("[isLecture(), whereInList(), lectureButton().textContent]"), [False, "PageDown goes on with the lecture", "Go on with the lecture"])
    bench.value(CLICKED % "PageDown")
    bench.wait("isLecture()")
    faults += differs("it goes on", bench.value("[playlist.at, drive.count, footSaid()]"), [0, 3, "PageDown shows step 4 of 4"])
    bench.value("putLecture(false)")
    bench.value(CLICKED % "ArrowDown")
    bench.value(CLICKED % "PageDown")
    faults += differs("after another key", bench.value("isLecture()"), False)
    bench.value("openListed(1); toggleLecture()")
    faults += differs("by its button", bench.value("[playlist.at, drive.count, isLecture()]"), [0, 3, True])
    bench.value("putLecture(false)")
    return faults + safety(bench)


def hidden_reason_row(bench):
    """Four protocols that are chosen in a lecture hide no reason: a clicker comes back to the prepared view. Their end is said; the keys B and . darken the screen."""
    bench.open_fresh()
    bench.value("loadText('store-buffering.litmus'); addToList(); loadText('false-sharing.litmus'); addToList(); putLecture(true); openListed(0); putBeside(JSON.stringify(ABREAST)); byId('beside-it').focus(); goTo(6)")
    faults = differs("the end", bench.value("document.querySelector('#programs strong:last-child').textContent"), "✓ Both loads have read 0.")
    for said in ("PageDown: back to the prepared view", "PageDown: the reason, by arrows"):
        faults += differs("next", bench.value("[footSaid(), byId('list-bar').lastElementChild.textContent]"), [said, "Next ▶"])
        bench.value(CLICKED % "PageDown")
    bench.wait("!bench.task && document.querySelector('.cycle')")
    faults += differs("the reason", bench.value("[drive.beside, document.activeElement.id === 'beside-it']"), [None, False])
    dark = "[ROOT.classList.contains('dark-hall'), footSaid()]"
    for key in ("b", "."):
        where = bench.value("footSaid()")
        bench.value(CLICKED % key)
        faults += differs("dark by " + key, bench.value(dark), [True, where])
        bench.value(CLICKED % "PageDown")
        faults += differs("light again", bench.value(dark), [False, where])
    bench.value("openListed(1)")
    faults += differs("what is shared", bench.value("byId('test-line').dataset.lines"), ": x and y in one line")
    bench.value("settingOf('words').value = 1; byId('settings').dispatchEvent(new Event('input')); putBeside(JSON.stringify(ABREAST)); goTo(drive.words.length); true")
    faults += differs("a line each", bench.value("[byId('test-line').dataset.lines, sharedLine(firstHistory(), drive.count)]"), [": x and y in a line each", " 2 of 4 accesses missed. None took a line from the other core."])
    bench.value("loadText('false-sharing-loads.litmus'); true")
    faults += differs("where each protocol differs", bench.value("[byId('asked-line').textContent, byId('verdict').textContent]"), ["How do the protocols differ?", ""])
    bench.value("openListed(1); taught.list[1].name = 'Own'; goTo(0)")
    faults += differs("what is asked", bench.text("#sentence"), "The machine at its start. Each core uses its own word alone: why does each access miss?")
    bench.value("putLecture(false)")
    return faults + safety(bench)


def prepared_row(bench, folder):
    """A run is added as far as it came; its reason has a tick; one word a line follows several; the lecture's name is its file's and its tab's, and it starts at any entry."""
    bench.open_fresh()
    bench.value("putChoices('0s 1s 0s 1s 0d 1d'); answerNow(); goTo(4); addToList(); loadText('false-sharing.litmus'); putBeside(JSON.stringify(ABREAST))")
    faults = differs("a part", [bench.text("#list li").split("take off")[1], bench.value("taught.list[0].address.includes('0d')")], [" 4 choices  with its reason, by arrows", False])
    faults += differs("what adds it, in sight", bench.value("boxOf(document.querySelector('#list-bar [data-add-to-list]')).top >= 0 && boxOf(byId('machines')).bottom <= innerHeight"), True)
    place = bench.value("scrollY")
    press(bench, "#list-bar [data-add-to-list]")
    faults += differs("said at the bar", bench.value("[scrollY, query('#list-bar span').textContent, query('#list-bar [data-add-padded]') !== null, byId('add-to-list').textContent]"), [place, "Added as 2: False sharing: the run, four protocols", True, "Add to the lecture"])
    press(bench, "#listed [data-add-padded]")
    faults += differs("one word a line", bench.value("[taught.list[2].name, valueOf('words'), drive.beside, playlist.at, !query('#list-bar [data-add-to-list]')]"), ["False sharing, one word a line", 1, "protocols", 2, True])
    bench.value("byId('list-part').open = true; byId('list-name').value = 'Caches - week 3'; byId('list-name').dispatchEvent(new Event('change', { bubbles: true }))")
    press(bench, "#list [data-reason]")
    name, text = saved_page(bench, "SAVES.page()")
    path = os.path.join(folder, "prepared.html")
    with open(path, "w") as file:
        file.write(text)
    bench.window.open("file://" + path)
    bench.value(READY)
    bench.wait("drive.isOn")
    bench.value("goTo(4)")
    faults += differs("the lecture's name", bench.value("byId('asked-line').dataset.place"), "1 of 3 · Caches - week 3")
    faults += differs("saved", [name, *bench.value("[document.title.split(' \u2013')[0], isLecture(), footSaid(), byId('list-kept').textContent]")],
                      ["caches-week-3.html", "Caches - week 3", True, "PageDown: next, False sharing", "Saved. After a change save it again:"])
    bench.value("putLecture(false); openListed(1)")
    faults += differs("changed", bench.value("taught.list[1].name = 'a', drawList(), byId('list-kept').textContent"), "Closing this tab loses the changes:")
    press(bench, "#list-bar [data-start]")
    faults += differs("from the second", bench.value("[isLecture(), playlist.at]"), [True, 1])
    bench.value("putLecture(false)")
    bench.window.requests.clear()
    return faults + safety(bench)


def rows(page, folder):
    bench = Driver(page)
    return [
        ("a clicker that leads", lambda: led_row(bench)),
        ("a press on the ground of a lecture", lambda: unpressed_row(bench)), ("a lecture that is prepared", lambda: prepared_row(bench, folder)),
        ("a clicker that nothing traps", lambda: never_trapped_row(bench)),
        ("a lecture that goes on", lambda: resumed_row(bench)), ("a clicker and four protocols", lambda: hidden_reason_row(bench)),
        ("a clicker all the way back", lambda: reverse_row(bench)),
        ("steps of a lecture that move nothing", lambda: unmoved_row(bench)),
        ("buffers in a lecture of 1024 by 768", lambda: narrow_row(bench)), ("letters below four protocols", lambda: letters_row(bench)),
        ("a name in a list", lambda: renamed_row(bench)),
        ("outcomes and their question", lambda: outcomes_asked_row(bench)),
        ("a lecture fits its window", lambda: fitted_row(bench)),
        ("four protocols in sight", lambda: four_in_sight_row(bench)),
        ("a core's parts stay where they are", lambda: level_row(bench)),
    ]
