"""Rows for a lesson that runs: what guides the reader, where the focus is, and what is shown again."""

from bench import READY, differs, safety


HAS_READ = "putLesson({ since: -TYPED_AHEAD })" # half a second after a question appeared


def press(bench, selector):
    bench.window.click(selector)


def guided_row(bench):
    """A choice that the lesson doesn't wait for is made, and one press leads back; while a question waits or comes next none is. The lesson's own next choice is
    made in the place of Next; Back leads to the step before; a reload stays; leaving frees the machine."""
    bench.open_fresh()
    press(bench, "#first-lesson")
    faults = differs("the focus", bench.value("document.activeElement.id"), "lesson-next")
    bench.value("enterStep(2)")
    press(bench, "[data-choice='1s']")
    told = bench.value("[drive.words, byId('lesson-after').textContent, byId('sentence').textContent, byId('stepper').getClientRects().length]")
    faults += differs("another choice, in the lesson's box", told, [["1s"], "You may go your own way. " + bench.value("drawn.panels[0].sentences.join(' ')"), "", 0])
    faults += differs("the way back", bench.text("#lesson-back"), "Back to the lesson's place")
    faults += differs("no Next there", bench.value("byId('lesson-next').hidden"), True)
    press(bench, "#lesson-back")
    faults += differs("back", bench.value("[lesson.at, lesson.isDone, drive.words, byId('lesson-back').textContent]"), [2, False, [], "Back"])
    press(bench, "[data-choice='0s']")
    press(bench, "[data-choice='1s']")
    faults += differs("the next step's own choice, and its question by itself", bench.value("[lesson.at, lesson.isDone, drive.words, byId('sentence').textContent]"), [4, False, ["0s", "1s"], ""])
    first = "[byId('lesson-now').textContent, getComputedStyle(document.querySelector('[data-choice=\"0d\"] code')).visibility]"
    faults += differs("what the buttons do, and what comes first", bench.value(first), ["Answer first: press 0 or 1.", "visible"])
    press(bench, "[data-choice='0s']")
    faults += differs("it is said once", bench.value(first), ["", "visible"])
    told = bench.value("(box => [drive.count, box.textContent, box.matches('.wrong')])(byId('lesson-after'))")
    faults += differs("at a question", told, [2, "First answer the question.", True])
    ahead = "[lesson.told.name, lesson.at, lesson.isStrayed, drive.words, byId('lesson-after').textContent]"
    bench.value("enterStep(6)")
    press(bench, "[data-choice='1s']")
    pale = "new Set([...document.querySelectorAll('[data-choice]')].map(each => getComputedStyle(each).borderColor)).size"
    faults += differs("where Next comes to a question", bench.value("[lesson.at, drive.words.length, %s, %s]" % (FOCUS, pale)), [6, 3, "lesson-next", 1])
    bench.value("enterStep(4); driveByKey('0')")
    faults += differs("a digit before one can have read", bench.value("[lesson.isDone, drive.core]"), [False, 0])
    faults += differs("and after", bench.value(HAS_READ + "; driveByKey('0'); lesson.answer"), "0")
    bench.value("beginLesson('false-sharing')")
    press(bench, "[data-choice='0s']")
    faults += differs("the lesson's own next choice, in the place of Next", bench.value(ahead)[:4], ["false-sharing", 4, False, ["0s"]])
    bench.value("beginLesson('store-buffering', 2)")
    press(bench, "[data-choice='0s']")
    press(bench, "#lesson-back")
    faults += differs("after Back", bench.value("[lesson.at, drive.count, lesson.isDone]"), [1, 0, False])
    bench.value("enterStep(3)")
    bench.wait("location.hash.includes('step=3')")
    bench.window.reload()
    bench.value(READY)
    bench.wait("lesson.told !== null")
    faults += differs("after a reload", bench.value("[lesson.told.name, lesson.at, drive.words]"), ["store-buffering", 3, ["0s"]])
    press(bench, "#lesson-leave")
    press(bench, "[data-choice='0s']")
    free = bench.value("[lesson.told, drive.words, byId('lesson').hidden, byId('task').hidden]")
    faults += differs("free, where one was", free, [None, ["0s", "0s"], True, False])
    press(bench, "#lesson-again")
    faults += differs("in the lesson again", bench.value("[lesson.at, drive.words]"), [3, ["0s"]])
    bench.value("beginLesson('false-sharing'); enterStep(lesson.told.steps.length - 1)")
    press(bench, "#lesson-leave")
    faults += differs("its run is kept", bench.value("[drive.isOn, drive.words.length, byId('left-lesson').hidden]"), [True, 7, False])
    press(bench, "#to-first-test")
    faults += differs("back to store buffering", bench.value("[testName(), drive.words, byId('left-lesson').hidden]"), ["SB", [], True])
    return faults + safety(bench)


FOCUS = "(({ id, dataset, textContent }) => id || dataset.choice || dataset.edges || textContent)(document.activeElement)"


def focus_row(bench):
    """In a lesson the focus is always at what goes on: at the question after a refused key, at the awaited choice after an answer, at Next after what a
    step shows, and at a part's end on Next, so that Enter goes on. Digits answer, themselves where all answers are digits; arrows lead to the answers, and Enter does nothing before. The last arrow of a cycle keeps the focus."""
    bench.open_fresh()
    press(bench, "#first-lesson")
    bench.value("document.activeElement.click()")
    faults = differs("at a question", bench.value(FOCUS), "lesson-said")
    bench.key_choice("0s")
    faults += differs("after a refused key", bench.value("[%s, drive.count]" % FOCUS), ["lesson-said", 0])
    press_key = "document.activeElement.dispatchEvent(new KeyboardEvent('keydown', { key: '%s', bubbles: true }))"
    bench.value(press_key % "Enter")
    faults += differs("after Enter", bench.value("[%s, lesson.isDone]" % FOCUS), ["lesson-said", False])
    bench.value(press_key % "ArrowRight")
    faults += differs("after an arrow", bench.value("document.activeElement.dataset.answer"), "Yes")
    bench.value(HAS_READ)
    bench.press("2")
    faults += differs("after the key 2", bench.value("[%s, lesson.answer]" % FOCUS), ["0s", "No"])
    bench.value("enterStep(1)")
    bench.press("y")
    faults += differs("after the key y", bench.value("[lesson.answer, document.querySelector('[data-answer]').getAttribute('aria-keyshortcuts')]"), ["Yes", "y 1"])
    bench.value("enterStep(12)")
    press(bench, "[data-show]")
    bench.wait("!bench.task && document.querySelector('.states-sheet')")
    faults += differs("after all outcomes", bench.value("[%s, document.querySelector('[data-show]').matches('.main')]" % FOCUS), ["lesson-next", False])
    bench.value("enterStep(4)")
    faults += differs("the keys", bench.value("[...document.querySelectorAll('[data-answer]')].map(each => [each.getAttribute('aria-keyshortcuts'), each.textContent])"), [["0", "0"], ["1", "1"]])
    bench.value(HAS_READ)
    bench.press("1")
    faults += differs("the digit itself", bench.value("lesson.answer"), "1")
    outlined = "[...document.querySelectorAll('[data-answer]')].map(each => getComputedStyle(each).outlineStyle)"
    faults += differs("the right answer is outlined after a wrong one", bench.value(outlined), ["solid", "none"])
    bench.value("enterStep(13)")
    bench.wait("!bench.task && document.querySelector('.states-sheet')")
    press(bench, "#lesson-next")
    faults += differs("at a part's end", bench.value("[%s, drive.isOn]" % FOCUS), ["lesson-next", False])
    faults += differs("Next names the part", bench.text("#lesson-next"), "Next: What does a core see of its own stores?")
    places = [bench.value("enterStep(%d), [byId('lesson-place').textContent, byId('lesson-bar').value, byId('lesson-bar').max]" % at) for at in (14, 15)]
    faults += differs("parts", places, [["Part 1 of 2, step 13 of 13", 13, 13], ["Part 2 of 2, step 1 of 7", 1, 7]])
    bench.value("beginLesson('fences'); enterStep(12)")
    press(bench, "[data-show]")
    bench.wait("!bench.task && document.querySelector('.cycle')")
    for _ in range(3):
        press(bench, "[data-edges=next]")
    faults += differs("at the last arrow", bench.value("[%s, sheet.cycle.shown]" % FOCUS), ["next", 4])
    bench.value("sheet.cycle.show(1), enterStep(13), focusStep()")
    faults += differs("where the arrows are told of", bench.value(FOCUS), "next")
    for _ in range(3):
        press(bench, "[data-edges=next]")
    bench.wait("document.activeElement.id === 'lesson-next'")
    bench.value("beginLesson('fences', 24)")
    bench.wait("!bench.task && document.querySelector('.cycle')")
    faults += differs("so do those with one fence", bench.value("focusStep(), [%s, byId('lesson-said').textContent.includes(sheet.cycle.legend.textContent.match(/^.*?\\./)[0])]" % FOCUS), ["next", True])
    return faults + safety(bench)


VIEW = "[lesson.at, lesson.isDone, drive.isOn, document.querySelectorAll('.states-sheet, .cycle').length, drive.histories.length]"


def views_row(bench):
    """Back to a step that had a view of its own shows that again, and before it the machine; so does an address that leads there."""
    bench.open_fresh()
    bench.value("beginLesson('store-buffering', 14)")
    bench.wait("!bench.task && document.querySelector('.states-sheet')")
    faults = []
    for back in ([13, True, False, 1], [12, True, False, 1], [11, False, True, 0]):
        press(bench, "#lesson-back")
        bench.wait("!bench.task")
        faults += differs("back to the table", bench.value(VIEW)[:4], back)
    bench.value("beginLesson('fences', 14)")
    bench.wait("!bench.task && document.querySelector('.cycle')")
    press(bench, "#to-run")
    press(bench, "#lesson-back")
    bench.wait("!bench.task && document.querySelector('.cycle')")
    faults += differs("the arrows, after the run was shown", bench.value(VIEW)[:4], [13, True, False, 1])
    bench.value("beginLesson('false-sharing', 99)")
    for words, back in (("1", True), ("1", True), ("2", True), ("2", True)):
        faults += differs("four machines", bench.value("[settingOf('words').value, lesson.isDone, drive.histories.length]"), [words, back, 4])
        press(bench, "#lesson-back")
    return faults + differs("one machine", bench.value("[lesson.isDone, drive.histories.length]"), [False, 1]) + safety(bench)


OWN = "X86 own\n{ }\n P0 | P1 ;\n MOV [x],$1 | MOV EAX,[x] ;\nexists (1:EAX=1)\n"


def own_test_row(bench):
    """After a lesson one's own test is a press away, with its run; Escape leads from an answer back to the run; parts of cores stand at one height."""
    bench.open_fresh(width=1280)
    bench.fill("test", OWN)
    bench.value("byId('test-part').open = false; makeChoice('0s'); true")
    bench.value("beginLesson('store-buffering', Infinity); putLesson({ isDone: true }); goOn(); leaveLesson(); true") # in the lesson after
    faults = differs("offered", bench.text("#to-first-test"), "Back to your own test")
    press(bench, "#to-first-test")
    faults += differs("one's own test", bench.value("[byId('test').value, drive.words.join(), byId('left-lesson').hidden]"), [OWN, "0s", True])
    bench.value("byId('find-outcomes').click()")
    bench.wait("!bench.task && document.querySelector('.states-sheet')")
    bench.window.press("Escape")
    faults += differs("after Escape", bench.value("[byId('run').hidden, drive.count]"), [False, 1])
    bench.fill("test", OWN.replace("MOV EAX,[x] ;", "MOV EAX,[x] ;\n | MFENCE ;\n | MOV EBX,[x] ;"))
    tops = "[...new Set([...document.querySelectorAll('.core .buffer')].map(each => Math.round(each.getBoundingClientRect().top)))].length"
    return faults + differs("heights of buffers", bench.value(tops), 1) + safety(bench)


def keys_row(bench):
    """The key e opens the test, and Escape leaves its field, whatever works, and then its panel; the focus goes with the core that keys act on; arrow keys step the arrows of an answer, and Escape leads back to the run."""
    bench.open_fresh(width=1280)
    bench.value("document.body.dispatchEvent(new KeyboardEvent('keydown', { key: 'e', bubbles: true })); true")
    faults = differs("the test", bench.value("[byId('test-part').open, document.activeElement.id]"), [True, "test"])
    bench.window.press("Escape")
    faults += differs("left", bench.value("document.activeElement.parentElement.id"), "test-part")
    bench.window.press("Escape")
    faults += differs("closed", bench.value("[byId('test-part').open, document.activeElement.parentElement.id]"), [False, "test-part"])
    leave = "(field => (field.focus(), ask('outcomes'), field.dispatchEvent(new KeyboardEvent('keydown', { key: 'Escape', bubbles: true })), [document.activeElement.parentElement.id, bench.task !== null]))(byId('test'))"
    faults += differs("left while it works", bench.value(leave), ["test-part", True])
    bench.wait("!bench.task")
    bench.value("backToRun(); byId('test-part').open = false; query('[data-choice=\"1s\"]').focus()")
    bench.key_choice("0s")
    faults += differs("the focus, at the core that acts", bench.value("document.activeElement.dataset.choice"), "0s")
    bench.value("byId('test-part').open = true; byId('test-part').firstElementChild.focus(); true")
    at_answer = "[document.activeElement.className, Math.round(byId('way-back').getBoundingClientRect().top) < innerHeight / 2, byId('test-part').open]"
    for act in ("o", "w", "outcomes"): # from the test that is open a key leads to the answer, and so does a button below the test
        pressed = "document.activeElement.dispatchEvent(new KeyboardEvent('keydown', { key: '%s', bubbles: true }))" if len(act) == 1 else "backToRun(); byId('test-part').open = true; document.querySelector('#asks-here [data-ask=%s]').click()"
        bench.value(pressed % act)
        bench.wait("!bench.task && document.activeElement.matches('#states .answer-title')")
        faults += differs(act, bench.value(at_answer), ["answer-title", True, True])
    bench.value("backToRun()")
    bench.value("byId('test-part').open = false; byId('ask-why').click()")
    bench.wait("!bench.task && document.querySelector('.cycle')")
    shown = []
    for key in ("ArrowRight", "ArrowRight", "ArrowLeft", "End"):
        bench.window.press(key)
        shown.append(bench.value("sheet.cycle.shown"))
    faults += differs("arrows", shown, [1, 2, 1, 4])
    bench.value("byId('keys').firstElementChild.focus()")
    bench.window.press("Escape")
    return faults + differs("the run", bench.value("[byId('run').hidden, document.activeElement.matches('#machines h3')]"), [False, True]) + safety(bench)


# The heights of a lesson's card, as one goes through it with each answer to each question.
HEIGHTS = """lessonsHere().map(told => {
  const heights = new Set(), note = () => heights.add(Math.round(byId('lesson').getBoundingClientRect().height));
  beginLesson(told.name);
  for (;;) {
    note();
    if (isAsked()) {
      const before = lesson;
      sayInLesson('First answer the question.');
      note();
      for (const answer of stepNow().answers) {
        lesson = before;
        answerLesson(answer);
        note();
      }
    } else if (stepNow().show && !lesson.isDone) {
      putLesson({ isDone: true, views: viewsAt(told.steps, lesson.at, true) });
      drawLesson();
    } else if (lesson.at === told.steps.length - 1) {
      endLesson();
      return heights.size;
    } else goOn();
  }
})"""


def card_row(bench):
    """The card of a lesson keeps its height, and so what is below it its place, whatever is answered. A reload keeps which lessons are done."""
    faults = []
    for width in (1024, 1280, 1920):
        bench.open_fresh(width=width)
        faults += differs("heights at %d" % width, bench.value(HEIGHTS), [1, 1, 1, 1])
    bench.value("beginLesson('false-sharing', 14); showInLesson(); true")
    faults += differs("in sight over four machines", bench.value("[byId('lesson').getBoundingClientRect().top >= 0, drive.histories.length]"), [True, 4])
    bench.value("endLesson()")
    bench.wait("window.history.state?.done?.length > 3")
    bench.window.reload()
    bench.value(READY)
    bench.wait("doneParts.size > 3")
    marks = "[byId('marks-last').hidden, [...document.querySelectorAll('#lessons button + span')].every(each => each.textContent.startsWith(' ✓ done'))]"
    return faults + differs("done", bench.value(marks), [False, True]) + safety(bench)
