"""Rows for long work, for what is undone, and for the ways back: nothing that a person did is lost, and nothing happens unseen."""
import json
import os
import re

from bench import EXAMPLES, READY, differs, read, safety
from driver import LARGE, STORES_AND_LOADS, Driver
from machine import LONG_SEARCH
from teaching import is_in_sight, press, test_of

UNDO = "document.body.dispatchEvent(new KeyboardEvent('keydown', { key: 'z', ctrlKey: true, bubbles: true }))"
REDO = "document.body.dispatchEvent(new KeyboardEvent('keydown', { key: 'y', ctrlKey: true, bubbles: true }))"
STATE = "[byId('test').value.split('\\n')[0], choicesText().trim(), changedSettings(), drive.count]"


def long_work_row(bench, folder):
    """A search is in sight while it works: with its time, how far it came, and Stop; Esc stops it, and the machine is driven on."""
    bench.open_fresh()
    bench.fill("test", LONG_SEARCH)
    bench.value("settingOf('states').value = 10000000; true")
    press(bench, "[data-choice='0s']")
    press(bench, "#find-outcomes")
    faults = differs("in sight", [is_in_sight(bench, "#working"), is_in_sight(bench, "#stop")], [True, True])
    bench.wait("/About [\\d,]+ of at most 10,000,000 states\\./.test(byId('working').textContent)")
    faults += differs("the machine beside it", bench.value("[drive.isOn, byId('run').hidden]"), [True, False])
    bench.window.screenshot(os.path.join(folder, "working.png"), whole=False)
    bench.value("document.body.dispatchEvent(new KeyboardEvent('keydown', { key: 'Escape', bubbles: true }))")
    faults += differs("stopped", bench.value("[bench.task, byId('working').hidden, currentCommand(), drive.count]"), [None, True, "run", 1])
    faults += [] if "Stopped" in bench.text("#stopped") and any(way in bench.text("#stopped") for way in ("Ask why", "Show it")) else ["it says " + bench.text("#stopped")]
    press(bench, "#stopped-close")
    press(bench, "[data-choice='1s']")
    return faults + differs("driven on", bench.value("drive.words"), ["0s", "1s"]) + safety(bench)


def met_before_row(bench):
    """What a search that is stopped beside the test had met can be shown; the box stands under the button that began it."""
    bench.value("byId('test-part').open = true; putCommand('outcomes'); answerNow(); byId('begin').focus()")
    press(bench, "#begin")
    bench.wait("working.progress !== null && working.progress.count > 2000")
    press(bench, "#stop")
    met = bench.value("readMet(working.progress.answer.text).states.length")
    faults = differs("beside the button", bench.value("byId('brief').parentElement.nextElementSibling.id"), "stopped")
    faults += differs("offered", bench.value("document.querySelectorAll('#stopped [data-met]').length"), int(met > 0))
    if met == 0:
        return faults
    press(bench, "#stopped [data-met]")
    shown = bench.value("[document.querySelectorAll('#states tbody tr').length, document.querySelector('.answer-title').textContent, byId('stopped').hidden]")
    faults += differs("a hint of a limit", bench.text("#hint"), "")
    faults += differs("what never is isn't known", bench.value("/never/i.test(byId('states').textContent)"), False)
    limit = bench.value("JSON.parse(working.progress.answer.text).unfinished.states")
    bench.value("byId('report-part').open = true; byId('as-printed').click()")
    bench.wait("byId('report').textContent.startsWith('Unfinished states=%d')" % limit)
    return faults + differs("shown", shown, [met, "Some outcomes", True])


def noted_row(bench):
    """A register of the condition that no instruction of its core writes is named under the test, with its line; one that is written isn't."""
    bench.open_fresh()
    test = "X86 a\n{ 1:ECX=7; }\n P0 | P1 ;\n MOV [x],$1 | MOV EAX,[x] ;\nexists (%s)\n"
    said = "Note, line 5: the condition names 1:%s, which no instruction of P1 writes: it stays %d."
    in_page = "[...document.querySelectorAll('.noticed')].map(each => each.textContent.replace('of core 1', 'of P1'))"
    faults = []
    for condition, note in (("1:EAX=0", ""), ("1:EBX=0", said % ("EBX", 0)), ("1:ECX=7 /\\ 1:EAX=0", said % ("ECX", 7))):
        bench.fill("test", test % condition)
        faults += differs(condition, bench.value(in_page), [note, note])
    bench.value("byId('test-part').open = true")
    in_sight = "[...document.querySelectorAll('.noticed')].map(each => each.checkVisibility())"
    faults += differs("in sight, once", bench.value(in_sight), [True, False])
    bench.value("byId('test-part').open = false")
    return faults + differs("where the test is folded", bench.value(in_sight), [False, True]) + safety(bench)


def stopped_row(bench):
    """A search tells its limit and about where it is; once it is stopped the page says so where the work was shown, and the focus is at what one can do."""
    bench.open_fresh()
    bench.fill("test", LONG_SEARCH)
    bench.value("settingOf('states').value = 10000000; true")
    bench.value("byId('find-outcomes').focus()")
    press(bench, "#find-outcomes")
    bench.wait("/About [1-9][\\d,]* of at most 10,000,000 states\\./.test(byId('working').textContent)")
    press(bench, "#stop")
    faults = differs("in sight", is_in_sight(bench, "#stopped"), True) + differs("the focus", bench.value("document.activeElement === document.querySelector('#stopped-ways button')"), True)
    said, stopped = bench.text("#stopped"), r"Stopped after \d+ s, at about [\d,]+ of at most 10,000,000 states: there is no whole answer\."
    faults += [] if re.match(stopped, said) and "Begin again" in said else ["it says " + said]
    press(bench, "#stopped-close")
    faults += differs("closed", bench.value("[byId('stopped').hidden, document.activeElement.id]"), [True, "find-outcomes"])
    faults += met_before_row(bench)
    bench.value("loadText('MP.litmus'); window.saved = []; saveFile = (name, blob) => { saved.push(blob); }; askWhy()")
    bench.wait("!bench.task && document.querySelector('.cycle')")
    press(bench, "[data-save=reason-svg]")
    text = bench.value("saved[0].text()")
    faint = [opacity for opacity in re.findall(r'opacity="([\d.]+)"', text) if float(opacity) < .5]
    faults += differs("faint edges of a saved cycle that stands at its first", [faint, bench.value("sheet.cycle.shown")], [[], 0])
    return faults + safety(bench)


def brief_row(bench):
    """An answer that is asked for beside the test says its first sentence there, and the test stays in sight; a button leads to the answer."""
    bench.open_fresh()
    bench.value("byId('test-part').open = true; putCommand('why'); scrollTo(0, 0); answerNow()")
    bench.value("byId('begin').focus()")
    press(bench, "#begin")
    bench.wait("!bench.task && document.querySelector('.reason')")
    faults = differs("said", bench.text("#brief-said"), "Yes: both loads read 0 in a run.")
    faults += differs("in sight", [is_in_sight(bench, "#brief"), is_in_sight(bench, "#test")], [True, True])
    passed = r"(A load passes a store|Loads pass stores) in this run: P\d read \w before memory saw its store to \w\."
    faults += [] if re.search(passed, bench.text(".reason")) else ["it doesn't say what makes it possible: " + bench.text(".reason")]
    press(bench, "#to-answer")
    faults += differs("at the answer", [bench.value("document.activeElement.matches('.answer-title')"), is_in_sight(bench, ".answer-title")], [True, True])
    bench.value("bench.took = 0; true")
    bench.fill("test", test_of("MP"))
    bench.wait("!bench.task && byId('brief-said').textContent.startsWith('No: no run')")
    faults += differs("of another test, by itself", bench.text(".answer-title"), "Why it can't be")
    bench.fill("test", test_of("MP") + "x")
    faults += differs("of one that is refused", bench.value("byId('brief').hidden"), True)
    bench.value("bench.took = 0; true")
    bench.fill("test", test_of("MP"))
    bench.value("findOutcomes()")
    bench.wait("!bench.task && document.querySelector('.states-sheet')")
    bench.choose("why")
    bench.wait("!bench.task && document.querySelector('.cycle')") # by itself, after the outcomes too
    return faults + safety(bench)


def by_themselves_row(bench):
    """Outcomes of few states come by themselves, beside the test; of many the button says that it has to be pressed."""
    bench.open_fresh()
    bench.value("byId('test-part').open = true")
    bench.choose("outcomes")
    bench.wait("!bench.task && byId('brief-said').textContent.startsWith('Yes: both loads read 0 in 1 of 4 outcomes')")
    faults = differs("the text and the table", bench.value("[!document.querySelector('.ways-said'), JSON.parse(formats.texts.json).states.length]"), [False, 4])
    bench.value("byId('report-part').open = true")
    bench.wait("byId('report-note').textContent.endsWith('those that the search met first.')")
    bench.fill("test", LARGE)
    bench.wait("byId('begin-said').textContent === 'Many states: press it to search.'")
    faults += differs("an empty place", [bench.text("#states"), bench.value("byId('brief').hidden")], ["Press “Find all outcomes”.", True])
    bench.fill("test", test_of("MP"))
    bench.wait("!bench.task && byId('brief-said').textContent.startsWith('No: none of 3')")
    return faults + differs("then", bench.text("#begin-said"), "") + safety(bench)


def refused_row(bench):
    """Where what is asked for is refused, the line stays in sight, and the caret is there."""
    bench.open_fresh(width=1280)
    bench.window.resize(1280, 800)
    bench.fill("test", STORES_AND_LOADS.replace("| MOV EAX,[x] ;", ";"))
    bench.value("putCommand('why'); answerNow(); scrollTo(0, 0); query('#begin').title && document.body.dispatchEvent(new KeyboardEvent('keydown', { key: 'Enter', ctrlKey: true, bubbles: true }))")
    bench.wait("!bench.task && document.activeElement.id === 'test'")
    faults = differs("in sight", [is_in_sight(bench, each) for each in ("#test-band", "#plain")], [True, True])
    caret = bench.value("byId('test').value.slice(0, byId('test').selectionStart).split('\\n').length")
    return faults + differs("the caret's line", caret, 5) + safety(bench)


def deeper_run_row(bench):
    """A run of an answer that has no room in one's own store buffers takes deeper ones, and says so."""
    bench.open_fresh()
    bench.fill("test", "X86 two\n{ }\n P0 | P1 ;\n MOV [x],$1 | MOV [y],$1 ;\n MOV [z],$1 | MOV EAX,[x] ;\n MOV EAX,[y] | ;\nexists (0:EAX=0 /\\ 1:EAX=0)\n")
    bench.value("settingOf('depth').value = 1; answerNow(); findOutcomes()")
    bench.wait("!bench.task && document.querySelector('.states-sheet')")
    bench.value("document.querySelector('#states tr.met [data-choices]').click()")
    said = "This is a run of the answer, with store buffers of 32 stores (yours have 1)."
    faults = differs("said", bench.text("#own-said"), said) + differs("its depth", bench.value("settingOf('depth').value"), "32")
    press(bench, "#own-back")
    return faults + differs("one's own", bench.value("settingOf('depth').value"), "1") + safety(bench)


def said_undo_row(bench):
    """The sentence says what was undone, and what was done again. Back from an answer a question isn't to be undone any more."""
    bench.open_fresh()
    press(bench, "[data-choice='0s']")
    said = []
    for selector in ("#find-outcomes", "#to-run", "#find-outcomes"):
        press(bench, selector)
        bench.wait("!bench.task && (drive.isOn || document.querySelector('.states-sheet'))")
        said.append(bench.value("byId('undo').title"))
    for way in (UNDO, UNDO, REDO):
        said.append(bench.value("%s; byId('sentence').textContent.split('. ')[0]" % way))
    asked, choice = "Undo: the last question", "Undo: a choice"
    return differs("said", said, [asked, choice, asked, "Undone: the last question", "Undone: a choice", "Done again: a choice"]) + safety(bench)


def climbed_row(bench):
    """A search that is asked with low limits first has the answer of one that is asked with its own."""
    bench.open_fresh()
    faults = []
    for name in ("SB", "IRIW", "4.SB"):
        answers = bench.value("beginTask(bench.bytes, [{ command: 'outcomes', json: true, depth: 32 }, { command: 'why', json: true }], %s).answers.then(all => all.map(({ text }) => text))" % json.dumps(test_of(name)))
        faults += differs("of " + name, answers, [bench.program(test_of(name), command, "--json")[1] for command in ("outcomes", "why")])
    return faults + safety(bench)


ROWS_MET = "[...document.querySelectorAll('.states-sheet tbody .number')].map(each => each.textContent)"


def unfinished_row(bench):
    """An answer that isn't finished is told in words, with what one can do, and more is allowed by one press."""
    bench.open_fresh()
    bench.fill("test", LONG_SEARCH)
    bench.value("settingOf('states').value = 3; findOutcomes()")
    bench.wait("!bench.task && document.querySelector('.ways-on')")
    said = bench.text("#states")
    faults = ["of outcomes it doesn't say " + word for word in ("3 states", "Show it", "Allow 30 states", "Name fewer registers") if word not in said]
    press(bench, "[data-more]")
    bench.wait("!bench.task")
    faults += differs("allowed", bench.value("[settingOf('states').value, bench.task]"), ["30", None])
    bench.fill("test", test_of("SB+mfences"))
    bench.value("settingOf('states').value = 5; findOutcomes()")
    bench.wait("!bench.task && document.querySelector('.ways-on')")
    met = {"unfinished": {"states": 5}, "met": [{"choices": "0s", "holds": False, "values": {"0:EAX": 0, "1:EAX": 1}}]}
    for act in ("", "everMet.asks = null; showMet({ status: Tso.STATUS.unended, text: %s, hint: '' }, 32); " % json.dumps(json.dumps(met))):
        faults += differs("at its limit nothing is said of never", bench.value(act + "/never/i.test(byId('states').textContent)"), False)
    faults += differs("what was met", bench.value(ROWS_MET), ["0", "1"])
    told = bench.value("possible.refuted = inputOf('why'), [waysOn('outcomes', { isStopped: true, met: 2, among: 5 }).textContent, document.querySelector('#states > [role=status] > .is-no') !== null]")
    faults += differs("where why has answered", told[0].startswith("Show what was met 2 outcomes, among the first 5 states. Later ones weren't told yet.Show it “Why” has shown that no run ends so."), True)
    faults += differs("what why says behind it", told[1], True)
    bench.fill("test", STORES_AND_LOADS)
    bench.value("noteAnswer(inputOf('why'), { answer: 'allowed', choices: '0s', values: { '0:EAX': 0, '1:EAX': 0 }, asked: { truth: true } })")
    for values in ({"0:EAX": 1, "1:EAX": 0}, {"0:EAX": 0, "1:EAX": 1}):
        bench.value("showMet({ status: Tso.STATUS.unended, text: %s, hint: '' }, 32)" % json.dumps(json.dumps({**met, "met": [{"choices": "1s", "holds": False, "values": values}]})))
    faults += differs("the run of why first, and what earlier searches met", [bench.value(ROWS_MET), "first row, not this search" in bench.text("#states")], [["0", "0", "0", "1", "1", "0"], True])
    bench.open_fresh()
    bench.fill("test", read(EXAMPLES, "algorithms", "SEQLOCK.litmus"))
    bench.value("settingOf('cases').value = 1; askWhy()")
    bench.wait("!bench.task && document.querySelector('.ways-on')")
    said = bench.text("#states")
    faults += ["of why it doesn't say " + word for word in ("1 cases", "Find all outcomes", "Allow 10 cases") if word not in said]
    press(bench, ".ways-on [data-ask]")
    bench.wait("!bench.task && document.querySelector('.states-sheet')")
    return faults + safety(bench)


def too_large_row(bench):
    """A text that is refused for its size says so in sight: by an address, by a drop, and where the test is folded."""
    address = "#test=X86%20a" + "%0A" * 6000
    bench.window.open(bench.page.address + address)
    bench.value(READY)
    bench.wait("drive.isOn")
    faults = differs("said of an address", [is_in_sight(bench, "#message"), "too long" in bench.text("#message")], [True, True])
    bench.open_fresh()
    bench.value("takeText('X86 a' + '\\n'.repeat(6000))")
    return faults + differs("said of a drop", [is_in_sight(bench, "#message"), "too long" in bench.text("#message")], [True, True]) + safety(bench)


def undo_row(bench):
    """Choices, edits and settings are undone and done again, each where it was; not in fields of text, which have their own undo."""
    bench.open_fresh()
    states = [bench.value(STATE)]
    for word in ("0s", "1s"):
        press(bench, "[data-choice='%s']" % word)
        states.append(bench.value(STATE))
    said = [bench.value("byId('undo').title")]
    bench.value("byId('test-part').open = true")
    for field, value in (("set-depth", "2"), ("test", STORES_AND_LOADS.replace("X86 SB", "X86 other"))):
        bench.fill(field, value)
        states.append(bench.value(STATE))
    said.append(bench.value("byId('undo').title"))
    press(bench, "[data-choice='0s']")
    states.append(bench.value(STATE))
    faults = differs("what it says", said, ["Undo: a choice", "Undo: the change of the test"])
    for at in range(len(states) - 2, -1, -1):
        bench.value(UNDO)
        faults += differs("undone to %d" % at, bench.value(STATE), states[at])
    faults += differs("nothing more to undo", bench.value("byId('undo').disabled"), True)
    for at in range(1, len(states)):
        press(bench, "#redo") if at % 2 else bench.value(REDO)
        faults += differs("done again to %d" % at, bench.value(STATE), states[at])
    bench.value("byId('test').focus(); byId('test').dispatchEvent(new KeyboardEvent('keydown', { key: 'z', ctrlKey: true, bubbles: true }))")
    faults += differs("in a field of text", bench.value(STATE), states[-1])
    bench.value(UNDO)
    bench.wait("window.history.state?.undoing?.future.length === 1")
    bench.window.reload()
    bench.value(READY)
    bench.wait("drive.isOn && !byId('undo').disabled")
    faults += differs("after a reload", bench.value(STATE), states[-2])
    bench.value(UNDO)
    faults += differs("undone after a reload", bench.value(STATE), states[-3])
    for at in (-2, -1):
        bench.value(REDO)
        faults += differs("done again after a reload, to %d" % at, bench.value(STATE), states[at])
    return faults + safety(bench)


def branch_row(bench):
    """Another choice in the middle keeps the rest, which is taken again, and the other in its place."""
    bench.open_fresh()
    for word in "0s 1s 0s 1s 0d 1d".split():
        press(bench, "[data-choice='%s']" % word)
    bench.value("goTo(2)")
    top = "document.querySelector('.machine').getBoundingClientRect().top + scrollY"
    before = bench.value(top)
    press(bench, "[data-choice='0d']")
    faults = differs("made, and in its place", bench.value("[drive.words, %s]" % top), ["0s 1s 0d".split(), before])
    faults += [] if "after choice 2: 0s 1s 0d 1d" in bench.text("#branches") else ["it offers " + bench.text("#branches")]
    press(bench, "[data-branch]")
    faults += differs("taken again", bench.value("[drive.words.join(' '), drive.count]"), ["0s 1s 0s 1s 0d 1d", 2])
    faults += [] if "0s 1s 0d" in bench.text("#branches") or "after choice 3" in bench.text("#branches") else ["then it offers " + bench.text("#branches")]
    bench.fill("test", test_of("MP"))
    return faults + differs("of another test", bench.value("byId('branches').hidden"), True) + safety(bench)


def own_run_row(bench):
    """A run of an answer says that it has another depth, marks its row, and leads back to one's own run and place."""
    bench.open_fresh()
    for word in "0s 0d 1s".split():
        press(bench, "[data-choice='%s']" % word)
    bench.window.press("ArrowLeft")
    press(bench, "#find-outcomes")
    bench.wait("!bench.task && document.querySelector('.states-sheet')")
    press(bench, "#states tbody tr:nth-child(2) [data-choices]")
    faults = differs("said", bench.text("#own-said"), "This is a run of the answer.") + differs("its depth, since the run has room in one's own buffers", bench.value("settingOf('depth').value"), "4")
    faults += differs("the marked row", bench.value("[...document.querySelectorAll('#states tbody tr')].map(row => row.matches('.shown[aria-current]'))"), [False, True, False, False])
    press(bench, "#own-back")
    faults += differs("one's own run", bench.value("[drive.words, drive.count, settingOf('depth').value, byId('own-run').hidden]"), [["0s", "0d", "1s"], 2, "4", True])
    press(bench, "#ask-why")
    bench.wait("!bench.task && document.querySelector('.reason')")
    press(bench, "#to-run")
    faults += differs("back from why", bench.value("[drive.isOn, drive.count, drive.words.length]"), [True, 2, 3])
    press(bench, "#ask-why")
    bench.wait("!bench.task && document.querySelector('.reason')")
    bench.value("putCommand('run'); answerNow(); makeChoice('0s')")
    press(bench, "#ask-why")
    bench.wait("!bench.task && document.querySelector('.reason')")
    press(bench, "#to-run")
    return faults + differs("back to a run that went on", bench.value("drive.words"), ["0s", "0d", "1s", "0s"]) + safety(bench)


def browser_back_row(bench):
    """The browser's Back leads to the answer before, and at last to what the page began with."""
    bench.open_fresh()
    press(bench, "[data-choice='0s']")
    bench.wait("location.hash.includes('choices=0s')")
    press(bench, "#find-outcomes")
    bench.wait("!bench.task && document.querySelector('.states-sheet') && location.hash.includes('command=outcomes')")
    bench.value("putCommand('why'); begin()")
    bench.wait("!bench.task && document.querySelector('.reason') && location.hash.includes('command=why')")
    bench.value("window.history.back(); true")
    bench.wait("!bench.task && document.querySelector('.states-sheet')")
    bench.value("window.history.back(); true")
    bench.wait("drive.isOn")
    return differs("the run again", bench.value("[currentCommand(), drive.words]"), ["run", ["0s"]]) + safety(bench)


def place_row(bench):
    """After an edit one stays at one's place, even where what was typed was refused meanwhile; *Beside it* is there after a reload."""
    bench.open()
    bench.value("goTo(3)")
    test = bench.value("byId('test').value")
    bench.fill("test", test.replace("MOV EAX,[y]", "MOV EAX,[y"))
    faults = differs("refused", bench.value("drive.isOn"), False)
    bench.fill("test", test.replace("MOV EAX,[y]", "MOV EBX,[y]"))
    faults += differs("the place", bench.value("[drive.count, drive.words.length]"), [3, 6])
    for beside in ("JSON.stringify(otherMachines(firstHistory().options)[1])", "JSON.stringify(ABREAST)"):
        bench.value("putBeside(%s)" % beside)
        before = bench.value("[byId('beside-it').selectedOptions[0].textContent, drive.histories.length]")
        bench.wait("location.hash.includes('beside=')")
        bench.value("new Promise(done => setTimeout(done, 300))")
        bench.window.reload()
        bench.value(READY)
        bench.wait("drive.isOn")
        faults += differs("beside after a reload", bench.value("[byId('beside-it').selectedOptions[0].textContent, drive.histories.length]"), before)
    return faults + safety(bench)


def current_row(bench):
    """Who asks again for an answer that is there is led to it. The tab has the test's name, and the second pass of a search its own."""
    bench.open_fresh()
    bench.value("byId('test-part').open = true; putCommand('why'); answerNow(); byId('begin').focus()")
    press(bench, "#begin")
    bench.wait("!bench.task && document.querySelector('.answer-title')")
    faults = differs("at first", bench.value("[byId('brief').hidden, document.activeElement.id]"), [False, "begin"])
    press(bench, "#begin")
    faults += differs("again", bench.value("[bench.task, document.activeElement.className]"), [None, "answer-title"])
    faults += differs("the title", bench.value("document.title"), bench.value("testName()") + " – Litmus tests under TSO")
    passes = "[0, 1].map(pass => { working.progress = { command: 'outcomes', pass, count: 2000, next: 16000, most: 16000, at: Date.now(), took: 1e9 }; return progressText(); })"
    far = "bout 2,000 of at most 16,000 states."
    faults += differs("the passes", bench.value(passes), ["A" + far, "Second pass, without store buffers: a" + far])
    return faults + safety(bench)


def rows(page, folder):
    bench = Driver(page)
    return [
        ("long work in sight", lambda: long_work_row(bench, folder)),
        ("a search that was stopped, in sight", lambda: stopped_row(bench)),
        ("an answer that is there", lambda: current_row(bench)),
        ("registers that nothing writes", lambda: noted_row(bench)),
        ("outcomes by themselves", lambda: by_themselves_row(bench)), ("an answer in brief beside the test", lambda: brief_row(bench)),
        ("a refusal of what is asked", lambda: refused_row(bench)),
        ("a deeper run of an answer", lambda: deeper_run_row(bench)),
        ("what was undone", lambda: said_undo_row(bench)),
        ("a search by steps", lambda: climbed_row(bench)),
        ("answers that aren't finished", lambda: unfinished_row(bench)),
        ("texts too large, in sight", lambda: too_large_row(bench)),
        ("undo and redo", lambda: undo_row(bench)),
        ("branches of a run", lambda: branch_row(bench)),
        ("one's own run", lambda: own_run_row(bench)),
        ("the browser's Back", lambda: browser_back_row(bench)),
        ("one's place after an edit", lambda: place_row(bench)),
    ]
