"""Rows for lists of tests: they are made, kept and saved, and a clicker goes through them both ways."""
import json
import os

from bench import READY, differs, safety
from driver import Driver
from kept import faults_of_form, saved_page
from teaching import is_in_sight, press, test_of

CLICKED = "document.body.dispatchEvent(new KeyboardEvent('keydown', { key: '%s', bubbles: true, cancelable: true }))"


KINDS = ["Store buffering: the run", "Message passing: the run", "IRIW: the run"]

KEPT = " Closing this tab loses the lecture: save it as a page."


def at_its_end(bench):
    """A clicker that goes on, past the reason of a run, opens a run before its first choice, and one that goes back at its end."""
    bench.value("putLecture(true); openListed(1)")
    found = [bench.value("[playlist.at, drive.count]")]
    bench.value(CLICKED % "PageUp")
    found.append(bench.value("[playlist.at, drive.count === drive.words.length, drive.count]"))
    for _ in range(8):  # the reason and its four arrows come before the next test
        bench.value(CLICKED % "PageDown")
        bench.wait("!bench.task")
        if bench.value("playlist.at") == 1:
            break
    found.append(bench.value("[playlist.at, drive.count === drive.words.length, drive.count]"))
    last = bench.value("taught.list[0] && drive.words.length")
    bench.value("putLecture(false)")
    return differs("by a clicker", [found[0], found[1][:2], found[2]], [[1, 0], [0, True], [1, False, 0]]) + ([] if last else ["no choices are known"])


def list_row(bench, folder):
    """Tests of a list open one after the other, at their places; the list goes along in a saved page, and comes by a file."""
    bench.open_fresh()
    for name in ("SB", "MP", "IRIW"):
        bench.value("loadText('%s.litmus'); addToList()" % name)
    faults = []
    faults += differs("the list", bench.value("[...document.querySelectorAll('#list li')].map(each => each.firstElementChild.textContent)"), KINDS)
    bench.value("document.querySelector('[data-raised=\"2\"]').click()")
    moved = bench.value("[taught.list.map(({ name }) => name), taught.list[playlist.at].name]")
    faults += differs("moved up", moved, [[KINDS[0], KINDS[2], KINDS[1]], KINDS[2]])
    bench.value("document.querySelector('[data-raised=\"2\"]').click()")
    name, text = saved_page(bench, "SAVES.page()")
    faults += faults_of_form(text)
    path = os.path.join(folder, "saved-list.html")
    with open(path, "w") as file:
        file.write(text)
    bench.window.open("file://" + path)
    bench.value(READY)
    bench.wait("drive.isOn")
    faults += differs("the name of the file", name, "lecture-store-buffering.html")
    faults += differs("opened first, at its start, for a lecture", bench.value("[playlist.at, drive.count, isLecture(), document.documentElement.matches('.led')]"), [0, 0, True, True])
    opened = [bench.value("testName()")]
    for _ in range(2):
        press(bench, "#list-bar [data-listed]:last-child")
        opened.append(bench.value("testName()"))
    press(bench, "#list-bar [data-listed]:first-child")
    opened.append(bench.value("testName()"))
    faults += differs("opened", opened, ["SB", "MP", "IRIW", "MP"]) + differs("its place", bench.value("[drive.count, drive.words.length > 1]"), [0, True])
    faults += at_its_end(bench)
    bench.window.requests.clear()
    bench.open_fresh()
    for list_of, said in (([{"name": "a", "address": "test=X86"}], ""), ([{"name": "a", "address": "javascript:alert(1)"}], "address"),
                          ([{"name": 7, "address": "test="}], "name")):
        bench.value("takeText(%s)" % json.dumps(json.dumps({"list": list_of})))
        is_so = said in bench.text("#message") if said else bench.value("taught.list.length") == 1
        faults += [] if is_so else ["of %s it says %r" % (list_of, bench.text("#message"))]
    return faults + safety(bench)


def clicker_row(bench):
    """The foot says what a clicker's key does next: where no choice is known and at a run's end it leads to the reason, and to the next test from
    a cycle's end and a sheet's."""
    bench.open_fresh()
    bench.value("addToList(); taught.list[0].address = taught.list[0].address.replace(/&choices=[^&]*/, ''); loadText('MP.litmus'); addToList(); askWhy()")
    bench.wait("!bench.task && document.querySelector('.cycle')")
    press(bench, "#way-back [data-add-to-list]")
    faults = differs("a sheet of the list", bench.text("#way-back .listed"), "Added as 3: Message passing: why." + KEPT)
    bench.value("openListed(0); findOutcomes()")
    bench.wait("!bench.task && document.querySelector('.states-sheet')")
    bench.value("openListed(2); putLecture(true)")
    bench.wait("!bench.task && document.querySelector('.cycle')")
    bench.value("taught.list.push({ ...taught.list[0] }); drawList(); sheet.cycle.move('all')")
    bench.value(CLICKED % "PageDown")
    faults += differs("after a cycle", bench.value("[playlist.at, drive.isOn, testName()]"), [3, True, "SB"])
    bench.value("taught.list.pop(); openListed(0)")
    faults += reason_between(bench)
    bench.value("openListed(0)")
    for choice in "0s 1s 0s 1s 0d 1d".split():
        press(bench, "[data-choice='%s']" % choice)
    faults += differs("the next", bench.value("byId('list-bar').lastElementChild.textContent"), "Next ▶")
    faults += reason_between(bench)
    bench.value("goTo(99)")
    faults += differs("to a reason of the list, named once", bench.value("[playlist.where, byId('list-bar').lastElementChild.textContent]"), ["PageDown: why", "Next \u25b6"])
    bench.value("putLecture(false)")
    return faults + safety(bench)


def reason_between(bench):
    """From the first test's end a clicker comes to its reason, and from that one's last arrow to the second."""
    faults = differs("said before it comes", bench.value("playlist.where"), "PageDown: the reason, by arrows")
    bench.value(CLICKED % "PageDown")
    bench.wait("!bench.task && document.querySelector('.cycle')")
    bench.value("sheet.cycle.move('all'); scrollTo(0, 100000)")
    faults += differs("said before the next", bench.value("footSaid()"), "PageDown: next, Message passing")
    bench.value(CLICKED % "PageDown")
    return faults + differs("the next", bench.value("testName()"), "MP")


def run_too_row(bench):
    """A reason that is added offers its run too, which comes before it; the two belong together. What an exercise asks is asked under its button, and it says its machine."""
    bench.open_fresh()
    bench.value("loadText('MP.litmus'); addToList(); loadText('store-buffering-fenced.litmus'); askWhy()")
    bench.wait("!bench.task && document.querySelector('.cycle')")
    press(bench, "#way-back [data-add-to-list]")
    faults = differs("said", bench.text("#way-back .listed"), "Added as 2: Store buffering with fences: why." + KEPT + " Add the run too")
    press(bench, "#way-back [data-add-run]")
    names = bench.value("[taught.list.map(({ name }) => name.split(': ')[1]), playlist.at, drive.isOn, drive.words.length > 0, byId('listed').textContent]")
    faults += differs("the run", names, [["the run", "the run", "why"], 1, True, True, "Added as 2: Store buffering with fences: the run. 8 choices to step." + KEPT])
    bench.value("putLecture(true); openListed(1); goTo(99)")
    bench.value(CLICKED % "PageDown")
    bench.wait("!bench.task && document.querySelector('.cycle')")
    faults += differs("its reason", bench.value("[playlist.at, currentCommand()]"), [2, "why"])
    bench.value("putLecture(false); loadText('false-sharing.litmus'); putBeside(JSON.stringify(ABREAST))")
    press(bench, "#saves [data-save=exercise]")
    below = "document.querySelector('#saves [data-save=exercise]').getBoundingClientRect().bottom"
    faults += differs("the field", bench.value("byId('exercise-said').getBoundingClientRect().top - %s < 60" % below), True)
    bench.value("saveFile = () => {}; saveExercise()")
    bench.wait("[...document.querySelectorAll('.page-saved')].some(each => each.textContent.includes('without choices, with all four protocols, and'))")
    return faults + safety(bench)


def updated(bench):
    """What is shown takes the place of its entry, and a note goes with what it is of."""
    press(bench, "[data-choice='1s']")
    bench.wait("!document.querySelector('#saves [data-update-list]').hidden")
    faults = differs("the note of what was added", bench.text("#listed"), "") + differs("offered", bench.text("#saves [data-update-list]"), "Update 1 of 1")
    press(bench, "#saves [data-update-list]")
    faults += differs("the entry", bench.value("[taught.list.length, taught.list[0].name]"), [1, "Store buffering: the run"])
    bench.value("takeFromLibrary('MP.litmus')")
    bench.wait("document.querySelector('#list-bar span').textContent === 'Not in the lecture of 1 entry'")
    return faults + differs("over another test", [bench.text("#listed"), bench.value("document.querySelector('#saves [data-update-list]').hidden")], ["", True])


def changed_row(bench):
    """An entry that is changed is said to be in the bar, with what updates it; it is as it was left when one comes back, and in a lecture as the list has it."""
    bar, words = "whereInList()", "settingOf('words').value"
    bench.open_fresh()
    bench.value("loadText('MP.litmus'); addToList(); loadText('false-sharing.litmus'); addToList(); goTo(3)")
    bench.wait("location.hash.includes('at=3')")
    faults = differs("gone through", bench.value(bar), "2 of 2: False sharing: the run")
    bench.value("settingOf('words').value = '1'; settingOf('words').dispatchEvent(new Event('input', { bubbles: true }))")
    bench.wait(bar + " === '2 of 2, changed: False sharing: the run'")
    bench.value("openListed(0)")
    faults += differs("another", bench.value(bar), "1 of 2: Message passing: the run")
    bench.value("openListed(1)")
    faults += differs("back", bench.value("[%s, %s]" % (bar, words)), ["2 of 2, changed: False sharing: the run", "1"])
    bench.value("putLecture(true); openListed(0); openListed(1)")
    faults += differs("in a lecture", bench.value("[%s, %s]" % (bar, words)), ["2 of 2: False sharing: the run", "2"])
    bench.value("putLecture(false); settingOf('words').value = '4'; settingOf('words').dispatchEvent(new Event('input', { bubbles: true }))")
    bench.wait("document.querySelector('#list-bar [data-update-list]')")
    press(bench, "#list-bar [data-update-list]")
    bench.value("openListed(0); openListed(1)")
    return faults + differs("updated", bench.value("[%s, %s]" % (bar, words)), ["2 of 2: False sharing: the run", "4"]) + safety(bench)


def from_the_start_row(bench):
    """For a lecture a run that was made begins anew, and one in its middle stays; what the list of examples has of caches opens as a run."""
    bench.open_fresh()
    found = []
    for count in (6, 2):
        bench.value("loadText('store-buffering.litmus'); goTo(%d); toggleLecture()" % count)
        found.append(bench.value("[isLecture(), drive.count]"))
        bench.value("toggleLecture()")
        bench.wait("!isLecture() && !document.fullscreenElement")
    faults = differs("where it begins", found, [[True, 0], [True, 2]])
    bench.value("askWhy()")
    bench.wait("!bench.task && document.querySelector('.reason')")
    faults += differs("its choices", bench.value("document.querySelector('.reason [data-choices]').dataset.choices"), "0s 1s 0s 1s 0d 1d")
    bench.value("takeFromLibrary('false-sharing.litmus')")
    return faults + differs("of caches", bench.value("[currentCommand(), drive.isOn]"), ["run", True]) + safety(bench)


def kept_list_row(bench):
    """A list says what was added, takes no test twice, and outlives a reload; what stands beside the machine belongs to its test; and a saved page is named."""
    bench.open_fresh()
    press(bench, "#add-to-list")
    faults = differs("added", bench.text("#listed"), "Added as 1: Store buffering: the run. 6 choices to step." + KEPT)
    press(bench, "#add-to-list")
    faults += differs("twice", [bench.text("#listed"), bench.value("taught.list.length")], ["It is there already, as 1: Store buffering: the run. 6 choices to step." + KEPT, 1])
    faults += differs("the list in sight", [is_in_sight(bench, "#saves #list-said"), bench.text("#list-said")], [True, "Lecture: 1 entry"])
    bench.value("byId('list-part').open = true")
    bench.wait("boxOf(byId('list-part')).bottom <= innerHeight")
    faults += differs("what follows", bench.text("#list li").split("take off")[1], " 6 choices  with its reason, by arrows")
    faults += differs("below it", bench.value("[byId('list-kept').textContent, (playlist.saved = taughtNow(), sayList(), byId('list-kept').textContent)]"), ["Closing this tab loses the lecture:", "Saved. After a change save it again:"])
    bench.value("playlist.saved = null, byId('list-part').open = false")
    faults += updated(bench)
    bench.value("putBeside(JSON.stringify(ABREAST)); takeFromLibrary('MP.litmus')")
    faults += differs("beside the next test", bench.value("[drive.beside, drive.histories.length]"), [None, 1])
    press(bench, "#add-to-list")
    faults += differs("added", [bench.text("#listed"), bench.text("#saves [data-save=page]")], ["Added as 2: Message passing: the run. %d choices to step." % bench.value("drive.words.length") + KEPT, "Save the lecture as a page"])
    bench.value("new Promise(done => setTimeout(done, 300))")
    bench.window.reload()
    bench.value(READY)
    bench.wait("drive.isOn")
    faults += differs("after a reload", bench.value("taught.list.map(({ name }) => name)"), ["Store buffering: the run", "Message passing: the run"])
    bench.value("document.querySelectorAll('[data-unlisted]')[1].click()")
    bench.window.reload()
    bench.value(READY)
    bench.wait("drive.isOn")
    faults += differs("after one was taken off", bench.value("taught.list.map(({ name }) => name)"), ["Store buffering: the run"])
    bench.value("saveFile = () => {}; savePage()")
    bench.wait("[...document.querySelectorAll('.page-saved')].some(each => each.textContent !== '')")
    said = bench.value("[...document.querySelectorAll('.page-saved')].map(each => each.textContent).join('')")
    faults += [] if "Saved as MP.html" in said else ["it doesn't say what was saved"]
    return faults + safety(bench)


WHERE = "[playlist.at, sheet.cycle?.element.isConnected ? sheet.cycle.shown : null, drive.isOn ? drive.count : null]"


def both_ways_row(bench):
    """A clicker goes back through answers as it went on: to the one before from the start of each, and there to its end, of a run to the end of its reason."""
    bench.open_fresh()
    bench.value("addToList(); loadText('store-buffering-fenced.litmus'); findOutcomes()")
    bench.wait("!bench.task && document.querySelector('.states-sheet')")
    bench.value("addToList(); askWhy()")
    bench.wait("!bench.task && document.querySelector('.cycle')")
    bench.value("addToList(); openListed(0); makeChoice('0s'); addToList(); putLecture(true); openListed(3)")
    faults = []
    for where, ready in (([2, 4, None], "document.querySelector('.cycle')"), ([2, 3, None], "true"), ([2, 2, None], "true"), ([2, 1, None], "true"), ([2, 0, None], "true"),
                         ([1, None, None], "document.querySelector('.states-sheet')"), *[([1, None, None], "true")] * 4, ([0, 4, None], "document.querySelector('.cycle')"),
                         *(([0, arrow, None], "true") for arrow in (3, 2, 1, 0)), ([0, None, 6], "drive.isOn"), ([0, None, 5], "true")):
        bench.value(CLICKED % "PageUp")
        bench.wait("!bench.task && " + ready)
        faults += differs("after PageUp", bench.value(WHERE), where)
    bench.value("putLecture(false)")
    return faults + safety(bench)


def in_run_row(bench):
    """A clicker goes on with a run in whose middle something was asked or another choice was made; at the list's end it is said to be there."""
    bench.open_fresh()
    bench.value("loadText('MP.litmus'); addToList(); loadText('store-buffering-fenced.litmus'); addToList(); putLecture(true); openListed(1); goTo(2)")
    known, after = bench.value("drive.words"), []
    for asks, ready in (("findOutcomes()", ".states-sheet"), ("askWhy()", ".cycle")):
        bench.value(asks)
        bench.wait("!bench.task && document.querySelector('%s')" % ready)
        bench.value("sheet.cycle?.move('all'); showInTurn(); scrollTo(0, 100000)")
        bench.value(CLICKED % "PageDown")
        after.append(bench.value("[playlist.at, drive.isOn, drive.count]"))
    faults = differs("after a sheet", after, [[1, True, 2]] * 2)
    bench.value("makeChoice('0s', true)")
    faults += differs("said of it", bench.value("playlist.where"), "PageDown: back to the prepared run")
    bench.value(CLICKED % "PageDown")
    faults += differs("taken again", bench.value("[drive.words, drive.count]"), [known, 2])
    bench.value("goTo(drive.words.length)")
    bench.value(CLICKED % "PageDown")
    bench.wait("!bench.task && document.querySelector('.cycle')")
    bench.value("sheet.cycle.move('all'); scrollTo(0, 100000)")
    faults += differs("the end", bench.value("footSaid()"), "The end: PageUp goes back")
    bench.value("putLecture(false)")
    return faults + safety(bench)


def own_reason_row(bench):
    """An answer in the list explains the run that it was asked from, wherever that run stood, also in a lecture and after a reload."""
    explained = "[document.querySelector('.reason').textContent.includes('Loads pass stores in your run: P0 read y'), ownRun.kept.count, drive.isOn]"
    faults = []
    bench.open_fresh()
    for choice in "0s 1s 0s 1s 0d 1d".split():
        press(bench, "[data-choice='%s']" % choice)
    for count in (6, 2):
        bench.value("goTo(%d); askWhy()" % count)
        bench.wait("!bench.task && document.querySelector('.reason')")
        bench.value("addToList(); backToRun()")
    for at, wanted in ((0, [True, 6, False]), (1, [False, 2, False])):
        bench.value("openListed(%d)" % at)
        bench.wait("!bench.task && document.querySelector('.reason')")
        faults += differs("opened", bench.value(explained), wanted)
        bench.value("new Promise(done => setTimeout(done, 300))")
        bench.window.reload()
        bench.value(READY)
        bench.wait("!bench.task && document.querySelector('.reason')")
        faults += differs("after a reload", bench.value(explained), wanted)
        bench.value("backToRun()")
        faults += differs("back", bench.value("[drive.words.length, drive.count]"), [6, wanted[1]])
    bench.value("loadChoices('1s 1s 0s 0d 0s 1d', '4'); findOutcomes()")
    bench.wait("!bench.task && document.querySelector('.states-sheet')")
    faults += differs("a link, after an answer's run", bench.value("choicesToTell().trim()"), "0s 1s 0s 1s 0d 1d")
    return faults + safety(bench)


def reloaded(bench, is_ready="drive.isOn"):
    """Where one is after a reload: the entry, what is made, whether in a lecture, and what the bar says."""
    bench.value("new Promise(done => setTimeout(done, 300))")
    bench.window.reload()
    bench.value(READY)
    bench.wait("!bench.task && " + is_ready)
    return bench.value("[playlist.at, drive.count, isLecture(), whereInList()]")


def reloaded_lecture_row(bench, folder):
    """A reload keeps the lecture, with its entry and the choice, in the saved page and while it is prepared."""
    bench.open_fresh()
    bench.value("loadText('SB.litmus'); addToList(); loadText('MP.litmus'); addToList()")
    faults = differs("while it is prepared", reloaded(bench), [1, 0, False, "2 of 2: Message passing: the run"])
    _, text = saved_page(bench, "SAVES.page()")
    path = os.path.join(folder, "saved-lecture.html")
    with open(path, "w") as file:
        file.write(text)
    bench.window.open("file://" + path)
    bench.value(READY)
    bench.wait("drive.isOn")
    for _ in range(2):
        bench.value(CLICKED % "PageDown")
    faults += differs("in the saved page", reloaded(bench), [0, 2, True, "1 of 2: Store buffering: the run"])
    bench.value("openListed(1)")
    bench.value(CLICKED % "PageDown")
    faults += differs("at the second", reloaded(bench), [1, 1, True, "2 of 2: Message passing: the run"])
    bench.value("putLecture(false)")
    faults += differs("after the lecture", reloaded(bench)[2], False)
    bench.window.requests.clear()
    return faults + safety(bench)


EARLY = "[...document.querySelectorAll('[data-early]'), byId('asked-line')].map(each => getComputedStyle(each).visibility)"


def untold_row(bench):
    """A lecture names what comes next by its test alone, has the question over its machine, and says with the last arrow whether it can be; Escape ends it."""
    bench.open_fresh()
    bench.value("addToList(); loadText('store-buffering-fenced.litmus'); askWhy()")
    bench.wait("!bench.task && document.querySelector('.cycle')")
    bench.value("addToList(); putLecture(true); openListed(0)")
    bar = bench.value("[byId('list-bar').lastElementChild.textContent, byId('asked-line').textContent, byId('asked-line').checkVisibility()]")
    faults = differs("the bar and the question", bar, ["Next \u25b6", "Can both loads read 0?", True])
    bench.value("goTo(99)")
    faults += differs("its place, and the next", bench.value("[byId('asked-line').dataset.place, playlist.where, byId('list-bar').lastElementChild.textContent]"), ["1 of 2", "PageDown: the reason, by arrows", bar[0]])
    bench.value("openListed(1)")
    bench.wait("!bench.task && document.querySelector('.cycle')")
    faults += differs("before the first arrow", bench.value("[playlist.where, getComputedStyle(document.querySelector('[data-edge]')).visibility]"), ["PageDown shows arrow 1 of 4", "hidden"])
    faults += differs("what it is", bench.text(".edge-said").strip(), "Suppose both loads read 0.")
    bench.value("taught.list[1].name = 'Fenced', showQuestion(inputOf('sweep')), sheet.cycle.show(0)")
    faults += differs("under a name", bench.text(".edge-said"), "Can both loads read 0, past the fences? Suppose both loads read 0.")
    faults += differs("the answer", bench.value(EARLY), ["hidden", "hidden", "visible"])
    bench.value("sheet.cycle.move('all')")
    faults += differs("at the last", bench.value(EARLY), ["visible"] * 3)
    faults += differs("no Tab leads to what is off", bench.value("[...document.querySelectorAll('[data-edges]')].map(each => each.tabIndex)"), [0, 0, -1, -1])
    for _ in range(2):
        bench.value("document.body.dispatchEvent(new KeyboardEvent('keydown', { key: 'Escape', bubbles: true }))")
    return faults + differs("after Escape", bench.value("isLecture()"), False) + safety(bench)


def written_row(bench):
    """A register that the step wrote is marked, also where its word is the same. Abreast it stands beside its program, and the instruction that was done is marked."""
    bench.open_fresh()
    bench.value("loadText('store-buffering.litmus')")
    marks = "(goTo(%d), [...document.querySelectorAll('.machine .registers')].map(each => each.querySelectorAll('.changed').length))"
    faults = differs("marked", [bench.value(marks % count) for count in (2, 3, 4, 5)], [[0, 0], [1, 0], [0, 1], [0, 0]])
    bench.value("loadText('false-sharing.litmus'); putBeside(JSON.stringify(ABREAST)); goTo(7)")
    told = bench.value("['#programs code.changed', '#programs .changed.word', '.machine h3'].map(each => [...document.querySelectorAll(each)].map(each => each.textContent))")
    return faults + differs("abreast", told, [["MOV EAX,[y]"], ["EAX (r0)=1"], ["MSI", "MESI, as MSI in this run", "MOESI", "MOSI, as MOESI in this run"]]) + safety(bench)


def rows(page, folder):
    bench = Driver(page)
    return [
        ("a lecture that tells nothing beforehand", lambda: untold_row(bench)),
        ("a register that was written", lambda: written_row(bench)),
        ("a lecture after a reload", lambda: reloaded_lecture_row(bench, folder)),
        ("why in a list", lambda: own_reason_row(bench)),
        ("a list of tests", lambda: list_row(bench, folder)),
        ("a clicker with nothing known", lambda: clicker_row(bench)),
        ("a list that is kept", lambda: kept_list_row(bench)),
        ("a changed entry of a list", lambda: changed_row(bench)),
        ("a lecture from its start", lambda: from_the_start_row(bench)),
        ("a clicker that goes back through a list", lambda: both_ways_row(bench)),
        ("a clicker in the middle of a run", lambda: in_run_row(bench)),
        ("a reason and its run in a list", lambda: run_too_row(bench)),
    ]
