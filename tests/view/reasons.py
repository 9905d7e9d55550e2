"""Rows for the sheet of `why`, against what the program tells as JSON: the cases, each cycle drawn and stepped, an execution and its run.

Where the page's module doesn't answer `why`, the program's own answers stand in for it."""
import json
import os
import re
import subprocess
import xml.etree.ElementTree

import kept
from bench import EXAMPLES, OVERHANGING, differs, read, safety
from driver import Driver

GALLERY = os.path.join(EXAMPLES, "gallery")
PLAIN = "X86 plain\n{ x=7; }\n P0          | P1         ;\n MOV EAX,[x] | MOV [x],$1 ;\n"
# Each test with its model: cycles of each relation, cases of reads and of orders, locked instructions, and executions.
ASKED = [("MP", "tso"), ("SB+mfences", "tso"), ("SB+xchgs", "tso"), ("INC+xadds", "tso"), ("CoWR", "tso"), ("IRIW", "tso"), ("SB", "sc"), ("SB", "tso"), ("R", "tso"), ("plain", "sc"), ("plain", "tso")]
LETTERS = {"implied": "lock"}  # of relations that are drawn by another word
SHIFTED = 1.5  # by how many pixels an end of an edge may lie beside its box


def text_of(name):
    return PLAIN if name == "plain" else read(GALLERY, name + ".litmus").partition("====\n")[0]


def told_by(program, name, model):
    """What the program tells of a test; None where it has no such command."""
    done = subprocess.run([program, "why", "--json", "--model", model], input=text_of(name).encode(), capture_output=True, timeout=120)
    return json.loads(done.stdout) if done.returncode == 0 else None


def is_answered_alike(page):
    """Whether the page's module answers `why` of a test as the program does."""
    name, model = ASKED[0]
    if page.value("document.querySelector('#commands [value=why]') === null"):
        return False
    answer = page.value("bench.tso.answer({ command: 'why', json: true }, %s).text" % json.dumps(text_of(name)))
    return json.loads(answer) == told_by(page.program, name, model)


def stand_in(program):
    """A script by which a page's module answers `why` of these tests as the program does; None where the program doesn't."""
    told = {"%s %s" % asked: told_by(program, *asked) for asked in ASKED}
    if None in told.values():
        return None
    return "'use strict';\n\nconst TOLD_REASONS = %s;\n" % json.dumps(told) + """
const answerOfModule = Tso.prototype.answer, taskOfPage = beginTask;
Tso.prototype.answer = function (options, input) {
  if (options.command !== 'why') return answerOfModule.call(this, options, input);
  const name = /^X86 (\\S+)/.exec(typeof input === 'string' ? input : new TextDecoder().decode(input))[1];
  const told = TOLD_REASONS[`${name} ${options.model ?? 'tso'}`];
  return { status: 0, text: JSON.stringify(told) + '\\n', hint: '' };
};
beginTask = (bytes, questions, input) => (questions[0].command !== 'why' ? taskOfPage(bytes, questions, input)
  : { answers: Promise.resolve(questions.map(options => bench.tso.answer(options, input))), stop() {} });
"""


def ask(bench, name, model):
    bench.fill("test", text_of(name))
    bench.value("settingOf('model').value = '%s'; askWhy()" % model)
    bench.wait("!bench.task && document.querySelector('.reason')")


TREE = """(function told(list) {
  return [...list.children].map(item => item.firstElementChild?.matches('details')
    ? [item.querySelector('summary').textContent, told(item.querySelector('ul'))] : [...item.childNodes].filter(each => each.nodeName !== 'BUTTON').map(each => each.textContent).join('').trim());
})(document.querySelector('.tree > ul'))"""
CYCLE = """({
  edges: [...document.querySelectorAll('.drawn [data-letters]')].map((edge, at) => [edge.querySelector('text').textContent.replace(`${arrowName(at)} `, ''),
    ...['.later', '.now'].map(name => edge.matches(name) && document.querySelector(`.drawn [data-edge='${at}']`).matches(name))]),
  sentences: [...document.querySelectorAll('.drawn .edges li')].map(item => [item.textContent, item.matches('.later'), item.hasAttribute('aria-current')]),
  buttons: [...document.querySelectorAll('[data-edges]')].map(button => button.ariaDisabled === 'true'),
})"""
# Of each edge how far its ends are from the sides of the boxes of its two events, in pixels.
ENDS = """(edges => edges.map(({ from, to }, at) => {
  const way = document.querySelector(`.drawn [data-edge='${at}'] path`), end = way.getPointAtLength(way.getTotalLength()), start = way.getPointAtLength(0);
  const boxOf = text => [...document.querySelectorAll('.drawn svg > .store, .drawn svg > .load')].find(each => each.dataset.event === text.split(' ').slice(0, 2).join(' ')).querySelector('rect').getBBox();
  const away = ({ x, y }, box) => Math.max(Math.min(Math.abs(x - box.x), Math.abs(x - box.x - box.width)), Math.abs(y - box.y - box.height / 2) - box.height / 2 + 4);
  return [away(start, boxOf(from)), away(end, boxOf(to))];
}))"""


def wanted_tree(steps, depth=0):
    """The steps as the page has to nest them: of each the kind, and of a lemma and of a case that isn't closed in its line what is told of it.
    Takes the steps that it nests."""
    found = []
    while steps and steps[0].get("depth", 0) == depth:
        step = steps.pop(0)
        has_part = step["step"] == "never" or step["step"] == "case" and not step.get("closing")
        found.append([step, wanted_tree(steps, depth + 1)] if has_part else step)
    return found


def closing_of(step):
    """What closes the case of a step, if it does: it stands in the step, or is the step."""
    return step.get("closing") or step


def in_words(event):
    return re.sub(r"(P\d):\d+ (L?)(\w) (\w+)", lambda found: found[1] + "'s " + "locked " * bool(found[2]) + {"R": "load of ", "W": "store "}[found[3]] + found[4], re.sub(r"( L?R \w+)=\d+", r"\1", event))


def words_of(step):
    """Words that a step's sentence must have."""
    if "facts" in step or "answers" in step or "closing" in step:
        facts = step.get("facts", []) + [fact for answer in step.get("answers", []) for fact in answer]
        return [in_words(re.match(r"P\d:\d+ \w+ [\w=]+|", fact)[0]) for fact in facts] + (words_of(step["closing"]) if step.get("closing") else [])
    if step["step"] in ("none", "lemma"):
        return [in_words(step["of"].split(" initial")[0])] if step["step"] == "none" else ["lemma %d" % step["lemma"]]
    if step["step"] in ("case", "so"):
        sources = [each for each in step.get("from", []) if each != "initial"]
        return [*map(in_words, [step.get("read") or step["first"], *sources, *([step["second"]] if "second" in step else [])]), *(["initial value"] if "initial" in step.get("from", []) else [])]
    if step["step"] == "false":
        return [str(word) for words in step["places"].values() for word in words]
    return [in_words(step["cycle"][0]["from"])] if "cycle" in step else [in_words(step["between"])] if "between" in step else ["No other case"]


def faults_of_tree(shown, wanted, name):
    if len(shown) != len(wanted):
        return ["%s: %d steps, and not %d" % (name, len(shown), len(wanted))]
    faults = []
    for said, step in zip(shown, wanted):
        if isinstance(step, list):
            faults += faults_of_tree(said[1], step[1], name) if isinstance(said, list) else ["%s: a case doesn't fold" % name]
            said, step = said[0], step[0]
        faults += ["%s: %s isn't in %s" % (name, word, said) for word in words_of(step) if word not in said]
    return faults


def faults_of_cycle(bench, cycle):
    """What is drawn of a cycle, all of it and edge by edge."""
    faults, length = [], len(cycle)
    for way, shown in [("next", 1), ("all", length), ("first", 1)] + [("next", at) for at in range(2, length + 1)] + [("back", length - 1), ("all", length)]:
        bench.value("document.querySelector('[data-edges=%s]').click()" % way)
        got = bench.value(CYCLE)
        faults += differs("edges at %d" % shown, got["edges"], [[LETTERS.get(edge["relation"], edge["relation"]), at >= shown, at == shown - 1] for at, edge in enumerate(cycle)])
        faults += differs("sentences at %d" % shown, [each[1:] for each in got["sentences"]], [[at >= shown, at == shown - 1] for at in range(length)])
        faults += differs("buttons at %d" % shown, got["buttons"], [shown == 1, shown == 1, shown == length, shown == length])
    for (said, _, _), edge in zip(got["sentences"], cycle):
        faults += ["%s has no %s" % (said, word) for word in (in_words(edge["from"]), in_words(edge["to"])) if word not in said and "its " + word[5:] not in said]
    return faults + ["an edge is %.1f pixels beside its event" % away for pair in bench.value("(%s)(%s)" % (ENDS, json.dumps(cycle))) for away in pair if away > SHIFTED + 3]


def never_row(bench, folder, name, model):
    """The cases as the program tells them, which fold, and each of their cycles."""
    told = told_by(bench.page.program, name, model)
    bench.open(width=1280)
    ask(bench, name, model)
    faults = faults_of_tree(bench.value(TREE), wanted_tree(list(told["steps"])), name)
    said = bench.text(".reason .terms")
    faults += [] if "There is none" in said and ("Verdict %s: " % told["verdict"] in said) else ["it says " + said]
    cycles = [(at, step["cycle"]) for at, step in enumerate(map(closing_of, told["steps"])) if "cycle" in step]
    buttons = [str(at) for at, _ in cycles] if len(cycles) > 1 else []
    there = bench.value("[...document.querySelectorAll('[data-cycle]')].map(each => each.dataset.cycle)")
    faults += differs("buttons that draw, where there is more than one cycle", there, buttons)
    for at, cycle in cycles:
        bench.value("document.querySelector('[data-cycle=\"%d\"]')?.click()" % at)
        faults += faults_of_cycle(bench, cycle)
    bench.window.screenshot(os.path.join(folder, "why-%s-%s.png" % (name, model)))
    return faults + bench.value(OVERHANGING) + safety(bench)


# Of these the same execution has a run in which all cores step first and drain last: the page takes that.
DRAINED_LATE = {("SB", "tso"): "0s 1s 0s 1s 0d 1d", ("R", "tso"): "0s 1s 0s 1s 0d 0d 1d"}


def allowed_row(bench, folder, name, model):
    """The execution as the program tells it; its button runs it, and the run ends as it says."""
    told = told_by(bench.page.program, name, model)
    bench.open(width=1280)
    ask(bench, name, model)
    rows = bench.value("[...document.querySelectorAll('.reason table')].map(table => [...table.querySelectorAll('tbody tr')].map(row => [...row.cells].map(cell => cell.textContent)))")
    faults = differs("sources", rows[0], [[each["read"], "the initial value" if each["write"] == "initial" else each["write"]] for each in told["sources"]])
    faults += differs("coherence", rows[1], [[location, ", ".join(writes)] for location, writes in told["coherence"].items()])
    bench.window.screenshot(os.path.join(folder, "why-%s-%s.png" % (name, model)))
    bench.value("document.querySelector('.reason [data-choices]').click()")
    faults += differs("the choices of the run", bench.value("choicesText().trim()"), DRAINED_LATE.get((name, model), told["choices"]))
    left = bench.value("[Object.fromEntries(shown.run.memory), shown.run.registers.map(file => Object.fromEntries(file))]")
    ends = {place: left[1][int(place[0])][place[2:]] if ":" in place else left[0][place] for place in told["values"]}
    faults += differs("what the run left", ends, told["values"]) + differs("the sheet beside the run", bench.value("document.querySelector('.reason') !== null"), True)
    return faults + bench.value(OVERHANGING) + safety(bench)


MANY_PASS = "X86 pass\n{ }\n %s ;\n %s ;\n %s ;\nexists (%s)\n" % (
    " | ".join("P%d" % core for core in range(8)), " | ".join("MOV [a%d],$1" % core for core in range(8)), " | ".join("MOV EAX,[a%d]" % (core ^ 1) for core in range(8)),
    " /\\ ".join("%d:EAX=0" % core for core in range(8)))


def unkept_row(bench):
    """Where it can be: program order that TSO doesn't keep closes a cycle; under sequential consistency it can't be; one's own run is explained, if it is
    the execution that is shown."""
    letters = "[...document.querySelectorAll('.reason [data-letters] text')].map((each, at) => each.textContent.replace(`${arrowName(at)} `, '')).sort()"
    sequential = "(document.querySelector('.sequential')?.textContent ?? '')"
    faults = []
    for name, arrows, said in (("SB", ["fr", "fr", "po, not kept", "po, not kept"], "it can't be"), ("R", ["co", "fr", "po", "po, not kept"], "it can't be"), ("plain", [], "")):
        bench.open()
        ask(bench, name, "tso")
        faults += differs("arrows of " + name, [each for each in bench.value(letters) if arrows], arrows)
        if said:
            bench.wait(sequential + " !== ''")
            faults += differs("the other model", bench.value(sequential), "Without store buffers (sequential consistency): %s." % said)
    bench.fill("test", MANY_PASS)
    bench.value("putCommand('why'); begin()")
    bench.wait("!bench.task && document.querySelector('.reason')")
    faults += differs("of many loads that pass", bench.value("(fold => [fold.open, fold.firstChild.textContent, [...fold.querySelectorAll('li')].map(each => each.textContent[1])])(document.querySelector('.passing details'))"), [False, "And 6 others.", [*"234567"]])
    lanes = "[...document.querySelectorAll('.reason .head')].map(each => each.textContent)"
    room = "(figure => [figure.scrollWidth <= figure.clientWidth, figure.getBoundingClientRect().right <= innerWidth])(document.querySelector('.reason figure'))"
    bench.window.resize(1280, 800)
    bench.fill("test", MANY_PASS + "\n")
    bench.value("begin()")
    bench.wait("!bench.task && document.querySelector('.reason')")
    bench.value("document.querySelector('.pick[value=P]').click(); for (const each of document.querySelectorAll('.stepping input')) each.click()")
    faults += differs("eight cores", bench.value(lanes), ["P%d" % core for core in range(8)]) + differs("side by side at 1280", bench.value(room), [True, True])
    faults += differs("long tables", bench.value("document.querySelector('.in-tables').open"), False)
    bench.load(text_of("SB"), "0s 1s 0s 1s 0d 1d")
    bench.value("goTo(6), askWhy()")
    bench.wait("!bench.task && document.querySelector('.reason')")
    own = bench.value("[document.querySelector('.reason').textContent.includes('Loads pass stores in your run: P0 read y'), document.querySelector('.reason [data-choices]').dataset.choices]")
    return faults + differs("one's own run", own, [True, "0s 1s 0s 1s 0d 1d"]) + safety(bench)


def stepped_row(bench):
    """How it can be is told arrow by arrow, as why it can't be: first the cycle that closes without store buffers, then all that is left."""
    step = "[sheet.cycle.shown, sheet.cycle.last, [...document.querySelectorAll('.reason [data-edge].now')].map(each => each.getAttribute('class').split(' ')[1])]"
    bench.open()
    ask(bench, "SB", "tso")
    shown = [bench.value(step)]
    for _ in range(4):
        bench.value("sheet.cycle.move('next')")
        shown.append(bench.value(step))
    faults = differs("of SB", shown, [[0, 4, []]] + [[at, 4, [edge]] for at, edge in enumerate(("edge-unkept", "edge-fr", "edge-unkept", "edge-fr"), 1)])
    end = bench.text(".cycle .edge-said strong")
    faults += differs("the end", end, "So this run needs store buffers: without them P0's store x=1 would be before itself. TSO doesn't keep the dashed arrows.")
    bench.load(TWO, "")
    bench.value("askWhy()")
    bench.wait("!bench.task && document.querySelector('.reason')")
    alone = bench.value("sheet.cycle.show(sheet.cycle.closed + 1), [sheet.cycle.last - sheet.cycle.cycle.length, document.querySelectorAll('.reason [data-edge]:not(.later)').length]")
    faults += differs("after the cycle each arrow alone, and at last all", alone, [1, 1])
    for act in ("dispatchEvent(new PointerEvent('pointerover', { bubbles: true }))", "focus()"):
        marked = bench.value("document.querySelector('.reason [data-arrow=\"%d\"]').%s, [...document.querySelectorAll('.pointed')].map(each => Object.entries(each.dataset)[0])" % (len(act) % 3, act))
        faults += differs("what %s marks" % act, sorted(marked), sorted([name, str(len(act) % 3)] for name in ("edge", "letters", "arrow")))
    ask(bench, "plain", "tso")
    faults += differs("without a condition", bench.text(".reason strong"), "The test has no condition: add one, as exists (0:EAX=0).")
    faults += differs("without a cycle", bench.value("[sheet.cycle.last, document.querySelectorAll('[data-edges], .reason [data-edge].later').length]"), [1, 0])
    return faults + safety(bench)


TWO = "X86 two\n{ }\n P0 | P1 | P2 | P3 ;\n MOV [x],$1 | MOV [y],$1 | MOV [z],$1 | MOV [w],$1 ;\n MOV EAX,[y] | MOV EAX,[x] | MOV EAX,[w] | MOV EAX,[z] ;\n" \
    "exists (0:EAX=0 /\\ 1:EAX=0 /\\ 2:EAX=0 /\\ 3:EAX=0)\n"

RING = "X86 ring\n{ }\n P0 | P1 | P2 ;\n MOV [x],$1 | MOV [y],$1 | MOV [z],$1 ;\n MOV EAX,[y] | MOV EAX,[z] | MOV EAX,[x] ;\n | MOV EBX,[x] | ;\nexists (0:EAX=0 /\\ 1:EAX=0 /\\ 2:EAX=0)\n"


def asked_cycle_row(bench):
    """The cycle that is drawn goes through the loads that are asked for, where a shorter one leaves some out; and to a later write where that makes it shorter."""
    bench.load(RING, "")
    bench.value("askWhy()")
    bench.wait("!bench.task && document.querySelector('.reason [data-edge]')")
    faults = differs("loads", bench.value("sheet.cycle.cycle.slice(0, sheet.cycle.closed).filter(({ relation }) => relation === 'unkept').map(({ to }) => to)"), ["P0:1 R y=0", "P1:1 R z=0", "P2:1 R x=0"])
    later = bench.value("laterEdges({ from: 'P0:1 R x=0', relation: 'fr', to: 'P1:0 W x=1' }, [{ from: 'P1:0 W x=1', relation: 'co', to: 'P2:0 W x=2' }]).map(({ to }) => to)")
    return faults + differs("a later write", later, ["P2:0 W x=2"]) + safety(bench)


def told_loads_row(bench):
    """Each load of which it is told that it passed a store has that arrow, and the arrows begin with one. That one such load is enough is said of one alone,
    and a fence keeps that order. What is read as another instruction keeps its location's name."""
    drawn = "sheet.cycle.cycle.filter(({ relation }) => relation === 'unkept').map(({ from, to }) => `P${eventOf(to).core} read ${eventOf(to).location} before memory saw its store to ${eventOf(from).location}`)"
    faults = []
    for test, choices in ((TWO, ""), *((text_of("SB"), run) for run in ("", "0s 0s 1s 1d 1s 0d", "1s 1s 0s 0d 0s 1d", "0s 1s 0s 1s 0d 1d"))):
        bench.load(test, choices)
        bench.value("%saskWhy()" % ("goTo(6), " if choices else ""))
        bench.wait("!bench.task && document.querySelector('.reason')")
        said = bench.text(".how-read .passing")
        told, arrows = re.findall(r"P\d read \w before memory saw its store to \w", said), bench.value(drawn)
        faults += ["%s has no arrow" % each for each in told if each not in arrows] + differs("the first arrow", arrows[0] in told, True)
        faults += differs("that one is enough", "only one load" in said, len(told) == 1) + differs("what keeps it", "MFENCE or a locked instruction" in said, True)
    read_as = bench.value("readAsSaid(' LOCK INC [Flag0] | DEC EAX ;\\n')")
    faults += differs("read as others", read_as, " LOCK INC [Flag0] is read as LOCK ADD [Flag0],$1. DEC EAX is read as SUB EAX,$1.")
    return faults + safety(bench)


CROWDED = "X86 crowded\n{ }\n P0 | P1 ;\n MOV [x],$1 | MOV EAX,[x] ;\n MOV [y],$1 | MOV EBX,[x] ;\n MOV EAX,[y] | MOV ECX,[x] ;\nexists (1:EAX=1 /\\ 1:EBX=1 /\\ 1:ECX=1)\n"
APART = """(() => {
  const ends = new Map();
  for (const way of document.querySelectorAll('.reason [data-edge] path')) {
    for (const { x, y } of [way.getPointAtLength(0), way.getPointAtLength(way.getTotalLength())]) {
      const key = Math.round(x / 6);
      ends.set(key, [...(ends.get(key) ?? []), y]);
    }
  }
  const heights = [...ends.values()].map(each => each.sort((one, other) => one - other));
  return [Math.min(...heights.flatMap(each => each.slice(1).map((y, at) => y - each[at]))), Math.max(...heights.map(each => each.length))];
})()"""


def apart_row(bench):
    """Arrows that touch one side of a box lie apart there."""
    bench.load(CROWDED, "")
    bench.value("askWhy()")
    bench.wait("!bench.task && document.querySelector('.reason [data-edge]')")
    bench.value("sheet.cycle.move('all')")
    least, most = bench.value(APART)
    return ([] if least >= 13.9 and most >= 3 else ["of %d ends on a side the nearest are %.1f pixels apart" % (most, least)]) + safety(bench)


def no_fence_row(bench):
    """Where sequential consistency allows the end too, that is said first; the loads that pass in this run are told and drawn, and no fence is offered."""
    bench.load(text_of("SB").replace("0:EAX=0", "0:EAX=1"), "1s 1s 1d 0s 0s 0d")
    bench.value("goTo(6), askWhy()")
    bench.wait("!bench.task && document.querySelector('.sequential')?.textContent")
    said = bench.value("[...document.querySelectorAll('.reason p')].map(each => each.textContent)")
    at = [next((at for at, each in enumerate(said) if word in each), None) for word in ("No fence can forbid this end: sequential consistency allows it, too.", "P1 read x before memory saw its store to y.")]
    faults = [] if None not in at and at[0] < at[1] else ["it says %s" % said]
    arrows = bench.value("sheet.cycle.cycle.filter(({ relation }) => relation === 'unkept').map(({ from, to }) => [from, to])")
    faults += differs("a fence", "MFENCE" in " ".join(said), False) + differs("the passes", arrows, [["P0:0 W x=1", "P0:1 R y=1"], ["P1:0 W y=1", "P1:1 R x=0"]])
    return faults + safety(bench)


# The picture that is saved of the sheet, light and as shown.
SAVED = """['light', 'shown'].map(value => {
  const choice = document.querySelector('.tools select');
  choice.value = value;
  choice.dispatchEvent(new Event('change'));
  return savedPicture(pictureOfReason());
})"""
POINTS = "(blob => [blob.type, blob.size > 1000])(await pictureInPoints(pictureOfReason()))"


def told_by_picture(text):
    """Of a picture its ground, whether it brings the points of its arrows along, how many these are, and its name."""
    picture = xml.etree.ElementTree.fromstring(text)
    points = [each.get("marker-end")[len("url(#"):-1].strip('"#') for each in picture.iter() if each.get("marker-end")]
    there = {each.get("id") for each in picture.iter()}
    return [next(each for each in picture.iter() if each.tag.endswith("rect")).get("fill"), set(points) <= there, len(points), picture.get("aria-label")]


def saved_row(bench):
    """What the sheet draws is saved, light in the dark too, unless it is wanted as it is shown; a cycle and an execution."""
    def pictures():
        bench.open()
        made = []
        for name, model in (("MP", "tso"), ("SB", "tso")):
            ask(bench, name, model)
            made.append([told_by_picture(text) for text in bench.value(SAVED)])
        return made, bench.value("(async () => %s)()" % POINTS)
    (cycle, execution), points = kept.in_dark(bench, pictures)
    grounds = ["rgb(255, 255, 255)", "rgb(28, 32, 37)"]
    faults = differs("the cycle", cycle, [[ground, True, 4, "A cycle of 4 edges"] for ground in grounds])
    faults += differs("grounds of the execution", [each[0] for each in execution], grounds)
    faults += differs("the execution", [each[1:] for each in execution], [[True, execution[0][2], "The execution"]] * 2)
    return faults + differs("in points", points, ["image/png", True]) + safety(bench)


def lecture_row(bench, folder):
    """In a lecture hall the drawn code is large too, nothing hangs over, and the sheet has the button that ends it."""
    bench.open()
    bench.window.resize(1920, 1080)
    ask(bench, "MP", "tso")
    sizes = "[...document.querySelectorAll('.reason figure text')].map(each => parseFloat(getComputedStyle(each).fontSize) * each.ownerSVGElement.getScreenCTM().a)"
    bench.window.click(".tools [data-lecture]")
    bench.wait("isLecture()")
    faults = [] if min(bench.value(sizes)) >= 20 else ["drawn code has a size of %.1f" % min(bench.value(sizes))]
    tools = bench.value("[...document.querySelectorAll('.tools > :not(:empty), #way-back [data-lecture]')]"
                        ".filter(each => each.getClientRects().length > 0).map(each => each.textContent)")
    faults += bench.value(OVERHANGING) + differs("in sight", tools, ["End the lecture"])
    bench.window.screenshot(os.path.join(folder, "why-lecture.png"), whole=False)
    bench.value("toggleLecture()")
    return faults + differs("after it", bench.value("isLecture()"), False) + safety(bench)


def address_row(bench):
    """The address of a sheet opens it again."""
    bench.open()
    ask(bench, "SB", "sc")
    bench.wait("location.hash.includes('command=why')")
    bench.window.reload()
    bench.wait("document.querySelector('.drawn [data-edge]')")
    return differs("after a reload", bench.value("[currentCommand(), settingOf('model').value]"), ["why", "sc"]) + safety(bench)


def narrow_row(bench, folder):
    """At 360 pixels nothing of a sheet hangs over."""
    bench.open(width=360)
    ask(bench, "SB+mfences", "tso")
    bench.window.screenshot(os.path.join(folder, "why-360.png"))
    return bench.value(OVERHANGING) + safety(bench)


def rows(page, folder):
    bench, found = Driver(page), []
    for name, model in ASKED:
        row = allowed_row if told_by(page.program, name, model)["answer"] == "allowed" else never_row
        found.append(("why, %s under %s" % (name, model), lambda row=row, name=name, model=model: row(bench, folder, name, model)))
    return found + [("why, after a reload", lambda: address_row(bench)), ("why, at 360 pixels", lambda: narrow_row(bench, folder)),
                    ("why, how it can be, step by step", lambda: stepped_row(bench)), ("why, arrows that lie apart", lambda: apart_row(bench)), ("why, a cycle through what is asked", lambda: asked_cycle_row(bench)), ("why, where no fence helps", lambda: no_fence_row(bench)), ("why, the loads that are told", lambda: told_loads_row(bench)),
                    ("why, saved", lambda: saved_row(bench)),
                    ("why, the order that isn't kept", lambda: unkept_row(bench)), ("why, in a lecture", lambda: lecture_row(bench, folder))]
