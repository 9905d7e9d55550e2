"""Rows for looks and layout: what is framed and why, what stands still, what folds, and where something is said."""
import json
import os
import urllib.parse

import reasons
from bench import READY, differs, safety
from drawn_edges import CROSSED
from driver import Driver
from kept import saved_page
from playlists import CLICKED
from teaching import is_in_sight, press, test_of

LUMINANCE = """(colour => {
  const linear = each => (each <= 0.03928 ? each / 12.92 : ((each + 0.055) / 1.055) ** 2.4);
  const [r, g, b] = colour.match(/[\\d.]+/g).slice(0, 3).map(each => linear(each / 255));
  return 0.2126 * r + 0.7152 * g + 0.0722 * b;
})"""
# The contrast of the ring with the page, a panel and a button, and whether anything else has its colour.
RING = """(() => {
  const luminance = %s, shown = name => { const probe = html('i', {}); probe.style.color = `var(${name})`; document.body.append(probe);
    const { color } = getComputedStyle(probe); probe.remove(); return color; };
  const ratio = (one, other) => { const [a, b] = [one, other].map(luminance).sort((x, y) => y - x); return (a + 0.05) / (b + 0.05); };
  byId('first-lesson').focus();
  const ring = getComputedStyle(byId('first-lesson')).outlineColor;
  return [Math.min(...['--ground', '--panel', '--button'].map(name => ratio(ring, shown(name)))),
    ['--passed', '--store', '--waiting', '--read', '--ink'].filter(name => shown(name) === ring)];
})()""" % LUMINANCE


def focus_ring_row(bench):
    """The ring at the focus has a colour of its own, which stands out in the light and in the dark."""
    faults = []
    for colours in ("light", "dark"):
        bench.window.call("Emulation.setEmulatedMedia", features=[{"name": "prefers-color-scheme", "value": colours}])
        bench.open_fresh()
        contrast, same = bench.value(RING)
        faults += [] if contrast >= 3 and same == [] else ["%s: contrast %.1f, the colour of %s" % (colours, contrast, same)]
    bench.window.call("Emulation.setEmulatedMedia", features=[])
    return faults + safety(bench)


def looked_row(bench):
    """Where a lesson speaks of the picture, its card is framed; at other steps nothing is."""
    framed = "[...document.querySelectorAll('.pictured')].map(each => [getComputedStyle(each, '::before').outlineStyle, each.contains(byId('order-title'))])"
    bench.open_fresh()
    looked = bench.value("LESSONS[0].steps.findIndex(each => each.look === 'picture' && each.do === undefined && each.ask === undefined)")
    bench.value("beginLesson(LESSONS[0].name, %d)" % looked)
    faults = differs("framed", bench.value(framed), [["solid", True]])
    bench.value("beginLesson(LESSONS[0].name)")
    return faults + differs("at first", bench.value(framed), [["none", True]]) + safety(bench)


def stuck_head_row(bench):
    """The names of the lanes stand still below the bar, however high this becomes."""
    bench.open_fresh(width=1280)
    bench.window.resize(1280, 500)
    bench.value("byId('own-run').hidden = false; putText(byId('own-said'), 'words '.repeat(60))")
    bench.value("new Promise(done => requestAnimationFrame(() => setTimeout(done)))")
    below = "Math.round(parseFloat(byId('names').style.top) - byId('stepper').offsetHeight)"
    faults = differs("below the bar", bench.value(below), 0)
    bench.value("byId('own-run').hidden = true")
    bench.value("new Promise(done => requestAnimationFrame(() => setTimeout(done)))")
    faults += differs("below a lower bar", bench.value(below), 0)
    bench.open_fresh(width=1920)
    bench.window.resize(1920, 1080)
    bench.value("for (const word of '0s 1s 0s 1s 0d 1d'.split(' ')) makeChoice(word)")
    bench.value("new Promise(done => requestAnimationFrame(() => setTimeout(done)))")
    bench.value("document.body.style.paddingBottom = '1000px', scrollBy(0, byId('frame').getBoundingClientRect().top - 20)")
    strip = "Math.round(byId('names').getBoundingClientRect().top - byId('stepper').getBoundingClientRect().bottom)"
    faults += differs("no strip between the bar and larger names", bench.value(strip), 0)
    notes = "(([a, b, c]) => [a.left === c.left, a.top >= c.bottom, c.left > b.right, Math.abs(a.bottom - b.bottom) < 4])(['.drawing > aside', '#machines', '.pictured'].map(each => document.querySelector(each).getBoundingClientRect()))"
    return faults + differs("the notes under the picture, beside the machine, and both as high", bench.value(notes), [True, True, True, True]) + safety(bench)


def large_row(bench):
    """In a picture that is larger than the window each step brings the arrow into sight, its sentence stands over it, and the buttons stay where they are. All of it
    can fit the screen. Arrows have letters, since places of a program have numbers."""
    inside = "(([top, bottom]) => top >= 0 && bottom <= innerHeight)([each.getBoundingClientRect().top, each.getBoundingClientRect().bottom])"
    bench.load(reasons.TWO.replace("\n MOV EAX", "\n" + 20 * " MOV ECX,$1 | MOV ECX,$1 | MOV ECX,$1 | MOV ECX,$1 ;\n" + " MOV EAX", 1), "")
    bench.window.resize(1280, 500)
    bench.value("askWhy()")
    bench.wait("!bench.task && document.querySelector('.cycle.tall')")
    faults, tops = [], []
    for step in range(2, bench.value("sheet.cycle.cycle.length") + 1):
        bench.value("document.querySelector('[data-edges=next]').click()")
        seen = "['[data-letters].now', '.stepping'].map(name => document.querySelector(`.cycle ${name}`)).map(each => %s)" % inside
        faults += differs("in sight at step %d" % step, bench.value(seen), [True, True])
        tops.append(bench.value("document.querySelector('.stepping').getBoundingClientRect().top"))
    faults += differs("the places of the bar", set(tops), {0})
    names = "[arrowName(0), arrowName(25), arrowName(26), document.querySelectorAll('.cycle [data-letters] text')[1].textContent.split(' ')[0]]"
    faults += differs("the names", bench.value(names), ["a", "z", "aa", "b"])
    press(bench, ".stepping label input")
    faults += differs("the whole picture", bench.value("document.querySelector('.cycle figure').offsetHeight <= innerHeight"), True)
    bench.window.resize(1280, 800)
    return faults + safety(bench)


def still_lecture_row(bench):
    """In a lecture nothing moves when the task is met; a sheet has no tools of the list and no tables; what a proof comes to stands with its last arrow."""
    bench.open_fresh(width=1920)
    bench.window.resize(1920, 1080)
    bench.value("putLecture(true)")
    top = "Math.round(byId('machines').getBoundingClientRect().top)"
    before = bench.value(top)
    bench.value("for (const word of ['0s', '1s', '0s', '1s']) makeChoice(word)")
    faults = differs("the machine", bench.value("[byId('task').matches('.met'), %s]" % top), [True, before])
    bench.value("askWhy()")
    bench.wait("!bench.task && document.querySelector('.reason')")
    seen = "['#way-back [data-add-to-list]', '.in-tables table'].map(each => document.querySelector(each)?.getClientRects().length ?? 0)"
    faults += differs("tools and tables", bench.value(seen), [0, 0])
    wide = "document.querySelector('.cycle .picture').viewBox.baseVal.width"
    scale = bench.value(wide)
    bench.fill("test", test_of("SB+mfences"))
    bench.value("askWhy()")
    bench.wait("!bench.task && document.querySelector('.cycle')")
    faults += differs("the scale of two cores' arrows", bench.value(wide), scale)
    end = "getComputedStyle(document.querySelector('.tree .step-leaf')).visibility"
    found = [bench.value(end)]
    for _ in range(4):
        bench.value(CLICKED % "PageDown")
    found.append(bench.value(end))
    bench.value("putLecture(false)")
    return faults + differs("what a proof comes to", found, ["hidden", "visible"]) + safety(bench)


def folded_list_row(bench):
    """An open list folds when one goes to a test or asks for an answer, with the focus at its name; its entries go up and down."""
    bench.open_fresh(width=1280)
    bench.value("addToList(); loadText('MP.litmus'); addToList(); byId('list-part').open = true")
    names = "taught.list.map(({ name }) => name.split(':')[0])"
    press(bench, "#list li:first-child [aria-label$=' down']")
    faults = differs("moved down", bench.value(names), ["Message passing", "Store buffering"])
    faults += differs("the last can't", bench.value("document.querySelector('#list li:last-child [aria-label$=\" down\"]').disabled"), True)
    press(bench, "#list li:last-child [data-listed]")
    faults += differs("after a test", bench.value("[byId('list-part').open, document.activeElement === byId('list-part').firstElementChild]"), [False, True])
    bench.value("byId('list-part').open = true; findOutcomes()")
    return faults + differs("after a question", bench.value("byId('list-part').open"), False) + safety(bench)


def commands_row(bench):
    """Commands and limits are folded until one is asked that no button asks: the buttons are the way to ask."""
    bench.open_fresh()
    bench.value("byId('test-part').open = true, putCommand('why')")
    faults = differs("at first", bench.value("[byId('rarer').open, byId('commands').checkVisibility(), settingOf('cases').checkVisibility()]"), [False] * 3)
    bench.value("putCommand('tables')")
    return faults + differs("once it is asked", bench.value("byId('rarer').open"), True) + safety(bench)


EIGHT = ("X86 eight\n{ }\n %s ;\n" % " | ".join("P%d" % core for core in range(8)) + " %s ;\n" % " | ".join("MOV [a%d],$1" % core for core in range(8))
         + " %s ;\n" % " | ".join(["LOCK CMPXCHG [z],ESI"] * 8) + " %s ;\n" % " | ".join("MOV EAX,[a%d]" % ((core + 3) % 8) for core in range(8))
         + "exists (%s)\n" % " /\\ ".join("%d:EAX=1" % core for core in range(8)))
FITS = """(figure => {
  const picture = figure.querySelector('svg'), scale = picture.getBoundingClientRect().width / picture.viewBox.baseVal.width;
  const sizes = [...picture.querySelectorAll('text')].map(each => parseFloat(each.getAttribute('font-size')) * scale);
  return [figure.scrollWidth <= figure.clientWidth, Math.min(...sizes) >= 11, figure.querySelectorAll('.head').length];
})(document.querySelector('.reason figure'))"""


def eight_cores_row(bench, folder):
    """An execution of eight cores fits a window of 1280 pixels with letters of at least 11, and stays clear."""
    bench.open_fresh(width=1280)
    bench.fill("test", EIGHT)
    bench.value("askWhy()")
    bench.wait("!bench.task && document.querySelector('.reason figure')")
    faults = differs("fits, with letters that can be read, all cores", bench.value(FITS), [True, True, 8])
    bench.window.screenshot(os.path.join(folder, "eight-cores.png"), whole=False)
    return faults + bench.value(CROSSED) + safety(bench)


def notice_row(bench):
    """What was saved is said once, at the button that was pressed."""
    said = ("[...document.querySelectorAll('.page-saved')].filter(each => each.textContent !== '')"
            ".map(each => each.parentElement.id || each.parentElement.className)")
    bench.open_fresh()
    bench.value("saveFile = () => {}; byId('test-part').open = true")
    faults = []
    for button, place in (("#saves [data-save=page]", ["saves"]), (".asking [data-save=input]", ["buttons small"])):
        press(bench, button)
        bench.wait("%s.length > 0" % said)
        faults += differs("after " + button, bench.value(said), place)
    return faults + safety(bench)


def wide_answer_row(bench):
    """A wide test folds the list of examples, which would stand between it and its answer; and an answer that was asked for under it comes into sight."""
    bench.open_fresh(width=1280)
    bench.window.resize(1280, 800)
    bench.value("byId('test-part').open = byId('library').open = true")
    bench.fill("test", EIGHT)
    faults = differs("the list", bench.value("byId('library').open"), False)
    bench.choose("why")
    faults += differs("the button, below the text", bench.value("byId('begin').getBoundingClientRect().top - byId('test').getBoundingClientRect().bottom < 40"), True)
    press(bench, "#begin")
    bench.wait("!bench.task && document.querySelector('.reason')")
    faults += differs("the answer in sight", is_in_sight(bench, ".answer-title"), True)
    bench.value("scrollTo(0, 0); byId('test').focus(); bench.took = 0; true")
    bench.fill("test", EIGHT + "\n")
    bench.wait("!bench.task && !byId('brief').hidden")
    away = bench.value("byId('brief').getBoundingClientRect().top - byId('test').getBoundingClientRect().bottom")
    return faults + differs("the answer to an edit stands under the text", [0 <= away < 60, is_in_sight(bench, "#brief")], [True, True]) + safety(bench)


def bracket_row(bench):
    """A bracket that nothing closes is marked where it stands."""
    bench.open_fresh()
    bench.fill("test", test_of("SB").rstrip().removesuffix(")") + "\n\n\n")
    line = bench.value("byId('test').value.split('\\n').findIndex(each => each.startsWith('exists')) + 1")
    faults = differs("the line", bench.value("Number(byId('test-band').dataset.line)"), line) if "closes the (" in bench.text("#hint") else []
    return faults + safety(bench)


def phone_row(bench):
    """On a phone a row of outcomes has its button and its choices in sight, and a long buffer stays one line."""
    bench.open_fresh(width=374)
    bench.value("findOutcomes()")
    bench.wait("!bench.task && document.querySelector('.states-sheet')")
    ends = "[...document.querySelectorAll('.states-sheet tbody td')].filter(each => each.getBoundingClientRect().right > innerWidth || each.getBoundingClientRect().left < 0).length"
    heights = "Math.max(...[...document.querySelectorAll('.states-sheet tbody tr')].map(row => row.offsetHeight))"
    faults = differs("cells out of sight", bench.value(ends), 0)
    faults += [] if bench.value(heights) < 130 else ["a row is %d high" % bench.value(heights)]
    bench.value("backToRun()")
    bench.fill("test", "X86 queue\n{ }\n P0 | P1 ;\n MOV [x],$1 | MOV EAX,[x] ;\n MOV [y],$1 | MOV EAX,[y] ;\n MOV [z],$1 | MOV EAX,[z] ;\n MOV EAX,[x] | MOV EAX,[x] ;\n")
    bench.value("for (const word of ['0s', '0s', '0s', '0s']) makeChoice(word)")
    tops = "new Set([...document.querySelector('.core .buffer').querySelectorAll('.slot')].map(each => each.offsetTop)).size"
    return faults + differs("lines of a buffer", bench.value(tops), 1) + safety(bench)


def undrawn_row(bench):
    """A sheet that can't be drawn says so, with the answer as text below; a script that fails is told of in one line."""
    bench.open_fresh()
    bench.value("window.before = statesSheet; statesSheet = () => { throw new Error('gone'); }; findOutcomes()")
    bench.wait("!bench.task && byId('states').textContent")
    found = bench.value("[byId('states').textContent.includes(\"couldn't be drawn (gone)\"), byId('report-part').open, byId('report').textContent.length > 100]")
    faults = differs("a sheet", found, [True, True, True])
    bench.value("statesSheet = before; window.dispatchEvent(new ErrorEvent('error', { message: 'gone', filename: 'x/cycles.js' })); true")
    return faults + ([] if "cycles.js: gone" in bench.text("#message") else ["of a script it says " + bench.text("#message")]) + safety(bench)


def lecture_outcomes_row(bench):
    """In a lecture the outcomes have the programs over them; the counts of four protocols abreast have a column for each."""
    bench.open_fresh(width=1920)
    bench.value("putLecture(true); findOutcomes()")
    bench.wait("!bench.task && document.querySelector('.states-sheet')")
    seen = "[document.querySelector('.states-sheet .programs').checkVisibility(), document.querySelector('.states-sheet .programs').textContent]"
    faults = differs("the programs", bench.value(seen), [True, "P0 MOV [x],$1MOV EAX,[y]P1 MOV [y],$1MOV EAX,[x]"])
    bench.value("putLecture(false)")
    beside = "(({ left }, table) => left > table.right)(...['.programs', 'table'].map(each => document.querySelector('.states-sheet ' + each).getBoundingClientRect()))"
    faults += differs("without a lecture, beside the table", [bench.value(seen)[0], bench.value(beside)], [True, True])
    if not bench.value("document.querySelector('#commands input[value=counts]') !== null"):
        return faults
    bench.value("backToRun(); putBeside(JSON.stringify(ABREAST)); ask('counts')")
    bench.wait("!bench.task && byId('states').querySelector('table')")
    heads = "[...byId('states').querySelector('table').tHead.rows[0].cells].map(each => each.textContent)"
    return faults + differs("counts", bench.value(heads), ["", "MSI", "MESI", "MOESI", "MOSI"]) + safety(bench)


FOUR = "[...document.querySelectorAll('.machine')]"


def hall_words_row(bench):
    """In a lecture the start names the clicker's key, what stands under the picture moves at no step, the verdict is in words, and the sentence over four
    protocols has two lines at most; a protocol that does otherwise says what, and nothing else."""
    bench.open_fresh()
    faults = []
    for width, height in ((1920, 1080), (1280, 800)):
        bench.window.resize(width, height)
        bench.value("putDrive({ beside: null }); loadText('store-buffering.litmus'); putLecture(true)")
        faults += differs("at the start", bench.text("#sentence"), "The machine at its start.")
        tops = bench.value("drive.words.map((_, at) => (goTo(at + 1), Math.round(byId('verdict').getBoundingClientRect().top)))")
        faults += differs("under the picture", len(set(tops)), 1)
        faults += differs("the verdict", bench.text("#verdict"), "✓ Both loads have read 0.")
        bench.value("loadText('false-sharing.litmus'); putBeside(JSON.stringify(ABREAST))")
        lines = bench.value("[0, ...drive.words].map((_, at) => (goTo(at), byId('sentence').offsetHeight / parseFloat(getComputedStyle(byId('sentence')).lineHeight)))")
        faults += [] if max(lines) < 2.3 else ["the sentence has %s lines" % lines]
        said = bench.value(FOUR + ".map(each => [each.querySelector('.said').matches('.differs'), each.querySelector('.said').textContent])")
        owner = "P0 keeps the line as its owner; memory keeps the old words."
        faults += differs("said", [each for each, text in said] + [text for each, text in said[2:]], [False, False, True, True, owner, owner])
        bench.value("putLecture(false)")
    return faults + safety(bench)


def one_word_row(bench):
    """False sharing stands beside the same with one word a line, also after a reload; where a line has several words, its machine is named so."""
    bench.open_fresh()
    bench.value("loadText('false-sharing.litmus'); goTo(7); putBeside(byId('beside-it').options[2].value); keepAddress()")
    faults = differs("offered", bench.value("byId('beside-it').selectedOptions[0].textContent"), "one word a line")
    misses = FOUR + ".map(each => [each.querySelector('h3').textContent.split(', ').at(-1), each.querySelector('.tally').textContent.split(',')[0].replace(/\\s/g, ' ')])"
    wanted = [["2 words a line", "so far 4 misses"], ["1 word a line", "so far 2 misses"]]
    faults += differs("misses", bench.value(misses), wanted)
    bench.window.reload()
    bench.value(READY)
    bench.wait("drive.isOn")
    return faults + differs("after a reload", bench.value("goTo(7), " + misses), wanted) + safety(bench)


def own_question_row(bench):
    """The answers of an exercise stand behind its question, which is asked alone; behind the condition where no yes or no answers the question."""
    faults = []
    for asked, place in (("Is one fence enough?", "exercise-asked"), ("Two cores: why so?", "task-said"), (bench.value("questionOf(%s)" % json.dumps(test_of("SB"))), "exercise-asked")):
        bench.open_fresh(urllib.parse.urlencode({"test": test_of("SB"), "exercise": asked}))
        found = bench.value("[byId('exercise-answers').previousElementSibling.id, byId('exercise-asked').textContent, byId('exercise-thought').checkVisibility()]")
        faults += differs("behind what", found, [place, "Exercise: " + asked, True])
    return faults + safety(bench)


def kept_question_row(bench):
    """A teacher's own question is kept for its test: in the form that opens again, in what a student sees, and in a list of exercises."""
    bench.open_fresh()
    bench.value("saveFile = () => {}; window.opened = []; window.open = address => opened.push(address); SAVES.exercise(); byId('exercise-said').value = 'Can it?'; byId('exercise-form').requestSubmit()")
    bench.wait("document.querySelector('.page-saved [data-see]')")
    press(bench, ".page-saved [data-see]")
    asked = "new URLSearchParams(%s).get('exercise')"
    found = bench.value("[%s, %s, (SAVES.exercise(), byId('exercise-said').value), (loadText('MP.litmus'), SAVES.exercise(), byId('exercise-said').value)]"
        % (asked % "opened[0].split('#')[1]", asked % "exerciseAt(currentAddress())"))
    return differs("asked", found, ["Can it?"] * 3 + [bench.value("proposedQuestion(byId('test').value)")]) + safety(bench)


def alike_bars_row(bench):
    """The bars of stores that entered before any row begin at one height, also of one that drained into the first row."""
    bench.open_fresh()
    bench.value("loadText('store-buffering-fenced.litmus'); goTo(99)")
    found = bench.value("[...document.querySelectorAll('#frame .wait[data-latest=\"0\"] .certain')].map(bar => bar.getAttribute('y'))")
    return differs("begin", [len(found), len(set(found))], [2, 1]) + safety(bench)


def open_exercise_row(bench):
    """An exercise doesn't tell whether it can be done after an answer, until a run does it, which judges the answer."""
    bench.open_fresh(urllib.parse.urlencode({"test": test_of("SB"), "exercise": "How so?"}))
    bench.wait("possible.can === true")
    press(bench, "[data-thought=cannot]")
    titles = [bench.text("#task-said")]
    for word in "0s 1s 0s 1s 0d 1d".split():
        bench.key_choice(word)
    said = bench.text("#exercise-thought")
    titles += [bench.text("#task-said"), bench.value("goTo(1), byId('task-said').textContent")]
    return differs("its task", [each[:8] for each in titles], ["Can this", "\u2713 Task: ", "Task: Ma"]) + differs("done", said, "You said: it can't be. It can. Done.") + safety(bench)


def play_row(bench):
    """Play draws choices that do something, and no others."""
    bench.open_fresh()
    bench.value("for (const word of ['0s', '1s', '0s', '1s']) makeChoice(word); play(); stopPlaying()")
    return differs("played", bench.value("drive.words.slice(4).sort()"), ["0d", "1d"]) + safety(bench)


def exercises_row(bench, folder):
    """A list is saved as exercises too: each test with its settings and its question, no choices and no answer, and no lecture. From why an exercise can be saved."""
    bench.open_fresh()
    bench.value("addToList(); loadText('store-buffering-fenced.litmus'); askWhy()")
    bench.wait("!bench.task && document.querySelector('.cycle')")
    press(bench, "#way-back [data-save=exercise]")
    faults = differs("asked there", bench.value("[byId('exercise-form').checkVisibility(), byId('exercise-said').value]"), [True, "Can both loads read 0, past the fences?"])
    bench.value("addToList(); loadText('false-sharing.litmus'); addToList()")
    faults += differs("names", bench.value("taught.list.map(({ name }) => name)"), ["Store buffering: the run", "Store buffering with fences: why", "False sharing: the run"])
    name, text = saved_page(bench, "saveExercises()")
    path = os.path.join(folder, "exercises.html")
    with open(path, "w") as file:
        file.write(text)
    bench.window.open("file://" + path)
    bench.value(READY)
    bench.wait("drive.isOn")
    faults += differs("opened", [name, bench.value("[isLecture(), isUnanswered(), taught.list.map(each => each.name)]")],
                      ["exercises-store-buffering.html", [False, True, ["Store buffering", "Store buffering with fences", "False sharing"]]])
    bench.value("answerExercise('can'); openListed(2)")
    faults += differs("the third", bench.value("[isUnanswered(), drive.words, valueOf('words'), document.querySelector('#list-bar span').textContent]"),
                      [True, [], 2, "3 of 3: False sharing"])
    bench.value("openListed(0)")
    faults += differs("back", bench.value("[exercise.thought, document.querySelector('#list-bar span').textContent]"), ["can", "1 of 3: Store buffering"])
    bench.window.requests.clear()
    return faults + safety(bench)


def rows(page, folder):
    bench = Driver(page)
    return [
        ("words of a lecture", lambda: hall_words_row(bench)), ("one word a line", lambda: one_word_row(bench)),
        ("an exercise with one's own question", lambda: own_question_row(bench)), ("an exercise's question is kept", lambda: kept_question_row(bench)), ("bars begin alike", lambda: alike_bars_row(bench)), ("an exercise that isn't solved", lambda: open_exercise_row(bench)), ("play without stalls", lambda: play_row(bench)),
        ("exercises of a list", lambda: exercises_row(bench, folder)),
        ("the ring at the focus", lambda: focus_ring_row(bench)), ("a picture that a lesson speaks of", lambda: looked_row(bench)),
        ("names of lanes below the bar", lambda: stuck_head_row(bench)), ("a lecture that stands still", lambda: still_lecture_row(bench)),
        ("a picture larger than the window", lambda: large_row(bench)),
        ("a list that folds", lambda: folded_list_row(bench)), ("rarer commands", lambda: commands_row(bench)),
        ("eight cores in one picture", lambda: eight_cores_row(bench, folder)), ("a notice at its button", lambda: notice_row(bench)),
        ("an answer under a wide test", lambda: wide_answer_row(bench)), ("a bracket that nothing closes", lambda: bracket_row(bench)),
        ("outcomes and buffers on a phone", lambda: phone_row(bench)), ("a part that can't be drawn", lambda: undrawn_row(bench)),
        ("outcomes and counts for a hall", lambda: lecture_outcomes_row(bench)),
    ]
