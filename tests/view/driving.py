"""Rows for the machine that the page drives: what a person does there, and what it has to show then (driver.py)."""
import json
import os
import re

import runs
from bench import CONTRAST, OVERHANGING, differs, safety
from frames import AT_REST, Costs, click_costs
from driver import ACTING_LANE, DRAWN, LARGE, RUNS, SHOWN, Driver, faults_at, faults_of_machine

# The most that a click takes up to the next frame, in milliseconds, in the median and at worst: processor time, and by the clock.
WORK, CLOCK = (16, 50), (16, 50)
CLICKS, ROUNDS = 16, 4


def faults_of_dead(bench, word, step):
    """A button that looks dead stalls; a choice that stalls does nothing by its own button, and is said to do nothing."""
    core, way, before = int(word[0]), "sd".index(word[1]), bench.value("[drive.words, drive.count]")
    shown = bench.value(SHOWN)[0]["cores"][core]
    stalls = step["outcome"] == "stalled"
    faults = ["%s looks dead, and does something" % word] if shown["dead"][way] and not stalls else []
    is_offered = shown["dead"][way] and shown["buttons"][way] != ""
    faults += ["%s: a button offers to stall where it is %s" % (word, shown["offers"][way])] if shown["offers"][way] != is_offered else []
    if stalls:
        bench.value("document.querySelector('[data-choice=\"%s\"]').click()" % word)
        faults += differs("after a dead button", bench.value("[drive.words, drive.count]"), before)
        faults += [] if "So nothing happens." in bench.text("#sentence") else ["it says " + bench.text("#sentence")]
        faults += differs("it offers to stall", bench.value(SHOWN)[0]["cores"][core]["offers"][way], True)
    return faults


def driven_row(bench, name, test, choices, settings, way):
    """Drives a run by clicks or by keys from an empty list of choices; then back and forward through it."""
    bench.load(test, choices, settings)
    words = bench.value("drive.words")
    bench.fill("choices", "")
    faults = differs("a list of no choices", bench.value("drive.words"), [])
    whole = bench.trace(words=json.dumps(words))
    for count, word in enumerate(words, 1):
        faults += faults_of_dead(bench, word, whole["trace"]["steps"][count - 1])
        bench.choose_step(whole["trace"]["steps"][count - 1], way)
        faults += faults_at(bench, whole, count)
        if len(faults) > 5:
            return faults
    faults += differs("the choices that are written", bench.value("choicesText()").split(), words)
    run = {key: value for key, value in bench.trace().items() if key in ("order", "registers", "memory", "unfinished")}
    if "order" in run:
        faults += differs("the order at the end", bench.value("shown.run.order.map(entry => entry.text)"), run["order"])
        faults += differs("the arrows", bench.value(DRAWN)["arrows"], [[source, load] for load, source in sorted(runs.sources(runs.order_of(run)).items()) if source is not None])
    for count in list(range(len(words) - 1, -1, -1))[:40]:
        bench.window.press("ArrowLeft")
        faults += faults_at(bench, whole, count)
    bench.window.press("Home")
    faults += faults_at(bench, whole, 0)
    for count in range(1, min(len(words), 40) + 1):
        bench.window.press("ArrowRight")
        faults += faults_at(bench, whole, count)
    bench.window.press("End")
    return faults + faults_at(bench, whole, len(words)) + safety(bench)


def begins_row(bench, folder):
    """The page begins with the first test at its start: its choices come by Forward, and nothing that is to come is shown."""
    bench.open()
    faults = differs("made", bench.value("[drive.isOn, drive.count]"), [True, 0]) + differs("the test", bench.text("#name"), "Test SB")
    trace = bench.trace()
    faults += faults_at(bench, trace, 0)
    shown = bench.value("[byId('run').innerText, document.querySelectorAll('#frame [data-entry]').length, byId('at-end').hidden, byId('comparison').hidden]")
    faults += differs("what passed", bench.text("#passes"), "None so far.")
    faults += differs("what is to come", shown[1:], [0, True, True]) + (["it tells a truth"] if re.search(r"\btrue\b here|\bfalse\b here", shown[0]) else [])
    bench.window.screenshot(os.path.join(folder, "machine-start.png"))
    for count in range(1, 7):
        bench.window.click("[data-move=forward]")
        faults += faults_at(bench, trace, count)
    said = "This run shows that it can be: both loads read 0."
    faults += [] if said in bench.text("#verdict") else ["the verdict: " + bench.text("#verdict")]
    faults += differs("at its end", bench.value("[byId('at-end').hidden, document.querySelector('[data-move=forward]').disabled, byId('play').disabled]"), [False, True, True])
    return faults + safety(bench)


def other_choice_row(bench):
    """A choice that is another than the next one takes the place of all that come; the same one doesn't."""
    bench.open()
    for _ in range(2):
        bench.window.press("ArrowRight")
    bench.key_choice("0s")
    faults = differs("the same choice", bench.value("[drive.count, drive.words.length]"), [3, 6])
    bench.key_choice("0d")
    faults += differs("another choice", bench.value("drive.words"), "0s 1s 0s 0d".split())
    faults += faults_at(bench, bench.trace(), 4)
    bench.window.press("ArrowLeft")
    bench.press("s")
    faults += differs("a dead key", bench.value("[drive.words, drive.count]"), ["0s 1s 0s 0d".split(), 3])
    faults += [] if "P0 has no further instruction" in bench.text("#sentence") else ["it says " + bench.text("#sentence")]
    bench.window.press("ArrowRight")
    bench.value("document.querySelector('[data-stall=\"0s\"]').click()")
    faults += differs("the core is kept", bench.value("drive.words.at(-1)"), "0s") + faults_at(bench, bench.trace(), 5)
    faults += [] if "Stalled (Done)" in bench.text("#sentence") else ["it says " + bench.text("#sentence")]
    bench.wait("currentAddress().includes('0d+0s')")
    faults += differs("the address", bench.value("new URLSearchParams(currentAddress()).get('choices')").split(), bench.value("drive.words"))
    bench.value("byId('report-part').open = true")
    bench.wait("byId('report').textContent")
    report = bench.value("bench.tso.answer({ command: 'run' }, inputOf('run')).text")
    return faults + differs("the report", bench.text("#report"), report) + safety(bench)


PRESSED = """(downs, word) => {
  for (const each of downs) document.querySelector(`[data-choice='${each}']`).dispatchEvent(new PointerEvent('pointerdown', { bubbles: true }));
  document.querySelector(`[data-choice='${word}']`).click();
}"""


def pressed_row(bench):
    """What a choice does is asked for when its button goes down, and a click shows that of its own choice, asked for once."""
    name, test, choices, settings = RUNS[3]
    bench.load(test, choices, settings)
    words = bench.value("drive.words")
    whole = bench.trace(words=json.dumps(words))
    bench.fill("choices", "")
    bench.value("window.asks = 0; window.own = bench.tso.answer.bind(bench.tso); "
                "bench.tso.answer = (options, input) => { asks += options.command === 'step'; return own(options, input); }; true")
    faults = []
    for count, word in enumerate(words, 1):
        other = word[0] + ("d" if word[1] == "s" else "s")
        bench.value("(%s)(%s, '%s')" % (PRESSED, json.dumps([[word], [other, word], [other]][count % 3]), word))
        faults += faults_at(bench, whole, count)
    each = [[1, 2, 2][count % 3] for count in range(1, len(words) + 1)]
    faults += differs("how often it asked", bench.value("asks"), sum(each))
    bench.value("bench.tso.answer = own; true")
    return faults + safety(bench)


def seeds_row(bench):
    """Choices of a seed come next and aren't made; playing makes them at its speed."""
    bench.open()
    bench.window.press("ArrowRight")
    bench.fill("drive-seed", "7")
    bench.value("document.activeElement.blur()")
    bench.press("r")
    faults = differs("made", bench.value("drive.count"), 1)
    faults += differs("drawn", bench.value("drive.words"), [step["choice"] for step in bench.trace(words="['0s', 'seed', '7', '999']")["trace"]["steps"]])
    for _ in range(9):
        bench.press("+")
    faults += differs("the speed", bench.text("#speed-said"), "32 a second")
    bench.press("p")
    faults += differs("playing", bench.text("#play"), "Pause")
    bench.wait("drive.count > 3")
    bench.press("p")
    count = bench.value("drive.count")
    faults += differs("paused", bench.text("#play"), "Play") + faults_at(bench, bench.trace(), count)
    bench.press("-")
    faults += differs("a lower speed", bench.text("#speed-said"), "16 a second")
    bench.press("p")
    bench.wait("timers.playing === null")
    return faults + differs("at its end", bench.value("drive.count === drive.words.length && firstHistory().hasEnded(drive.count)"), True) + safety(bench)


def beside_row(bench, folder):
    """A second machine under the same choices: another protocol, another depth, another bus."""
    faults = []
    for change in ({"protocol": "mesi"}, {"depth": 0}, {"bus": "split"}):
        bench.load(RUNS[3][1], "", {})
        bench.value("(field => { field.value = JSON.stringify({ ...firstHistory().options, ...%s }); field.dispatchEvent(new Event('change')); })(byId('beside-it'))" % json.dumps(change))
        for count, word in enumerate(RUNS[3][2].split(), 1):
            bench.key_choice(word)
            shown = bench.value(SHOWN)
            faults += differs("panels", len(shown), 2)
            for which in (0, 1):
                faults += ["machine %d, %s: %s" % (which, change, fault) for fault in faults_of_machine(shown[which], bench.trace(which), count)]
        bench.window.screenshot(os.path.join(folder, "machine-beside-%s.png" % list(change)[0]))
        faults += bench.value(OVERHANGING)
    bench.value("putBeside('null')")
    return faults + differs("panels at the end", len(bench.value(SHOWN)), 1) + safety(bench)


def many_row(bench):
    """Over 1,000 choices there are no steps, and the page says so; at 1,000 no more are taken."""
    bench.open()
    bench.value("goTo(drive.words.length)")  # at the end, where one stays after an edit
    bench.fill("choices", "0d " * 1001)
    faults = differs("without steps", bench.value("[drive.isOn, byId('no-steps').hidden]"), [False, False])
    bench.fill("choices", "0d " * 1000)
    faults += differs("1,000", bench.value("[drive.isOn, drive.count, byId('no-steps').hidden]"), [True, 1000, True])
    bench.key_choice("0s")
    faults += differs("one more", bench.value("[drive.count, drive.words.length]"), [1000, 1000])
    faults += [] if "1000 choices" in bench.text("#sentence") else ["it says " + bench.text("#sentence")]
    bench.value("goTo(3)")
    bench.key_choice("1s")
    return faults + differs("another earlier", bench.value("drive.words.length"), 4) + safety(bench)


def whole_traces_row(bench):
    """A module that tells whole traces alone does as well; without traces the page shows runs alone."""
    bench.open()
    bench.value("(answer => { bench.tso.answer = (options, input) => options.command === 'step' ? { status: 2, text: '', hint: '' } : answer(options, input); })"
                "(bench.tso.answer.bind(bench.tso)); bench.tracing = tracingOf(bench.tso); true")
    faults = differs("what it tells", bench.value("bench.tracing"), "trace")
    for count, word in enumerate("0s 0s 0d 1s 1s 1d".split(), 1):
        bench.key_choice(word)
        faults += faults_at(bench, bench.trace(), count)
    bench.value("bench.tracing = null; answerNow()")
    faults += differs("without traces", bench.value("[drive.isOn, byId('machines').hidden, byId('stepper').getClientRects().length > 0, shown.run !== null]"), [False, True, True, True])
    return faults + safety(bench)


def trap_row(bench):
    """A choice at which the module traps isn't made, the page says so, and goes on."""
    bench.open()
    for _ in range(2):
        bench.window.press("ArrowRight")
    bench.value("window.own = bench.tso.answer; bench.tso.answer = () => { throw new WebAssembly.RuntimeError('unreachable'); }; true")
    bench.key_choice("0d")
    faults = [] if "stopped before it gave an answer" in bench.text("#hint") else ["it says " + bench.text("#hint")]
    bench.value("bench.tso.answer = own; true")
    faults += differs("what is left", bench.value("drive.words"), ["0s", "1s"]) + faults_at(bench, bench.trace(), 2)
    bench.key_choice("0d")
    return faults + differs("what it says then", bench.text("#hint"), "") + faults_at(bench, bench.trace(), 3) + safety(bench)


def saves_row(bench):
    """The picture of a run that isn't over has its lanes' names and no style of the page's; the trace is the module's."""
    bench.load(RUNS[3][1], RUNS[3][2], {})
    for _ in range(5):
        bench.window.press("ArrowRight")
    bench.value("window.saved = []; saveFile = (name, blob) => saved.push([name, blob]); true")
    for kind in ("svg", "trace"):
        bench.value("document.querySelector('[data-save=%s]').click()" % kind)
    bench.wait("saved.length === 2")
    held = dict(bench.value("Promise.all(saved.map(async ([name, blob]) => [name, await blob.text()]))"))
    faults = differs("names", sorted(held), ["n6.svg", "n6.trace.txt"])
    faults += differs("the trace", held["n6.trace.txt"], bench.value("bench.tso.answer({ ...firstHistory().options, command: 'trace' }, inputOfWords(drive.words.slice(0, 5))).text"))
    faults += [] if ">P0<" in held["n6.svg"] and ">P1<" in held["n6.svg"] and 'viewBox="0 0 ' in held["n6.svg"] else ["the picture has no names"]
    faults += differs("the line of a run that isn't over", bench.value("document.querySelector('[data-save=line]').disabled"), True)
    return faults + safety(bench)


UNDRAWN = """(() => {
  const { scrollTop, clientHeight } = byId('frame'), { layout } = drawn.picture;
  const isInSight = ({ dataset: { entry } }) => layout.top(Number(entry) + 1) - HEAD > scrollTop && layout.top(Number(entry)) - HEAD < scrollTop + clientHeight;
  return [...document.querySelectorAll('#frame [data-entry]')].filter(isInSight).filter(each => each.getClientRects().length === 0).length;
})()"""
ENTRIES = "new Set([...%s.matchAll(/data-entry=.(\\d+)/g)].map(([, entry]) => entry)).size"


def long_picture_row(bench):
    """Of a long picture all is drawn that is in sight, wherever one scrolls; and what is saved or printed is whole."""
    bench.load(LARGE, "seed 3 900", {})
    bench.value("goTo(500)")
    bench.value(AT_REST % 50)
    rows, hidden = bench.value("[drawn.picture.rows.length, document.querySelectorAll('#frame .sheet[hidden]').length]")
    faults = [] if rows > 100 and hidden > 0 else ["%d rows, and %d sheets are hidden" % (rows, hidden)]
    for part in (1, 0.7, 0.4, 0.1, 0, 0.5, 1):
        bench.value("byId('frame').scrollTop = %g * byId('frame').scrollHeight" % part)
        bench.value(AT_REST % 50)
        faults += differs("at %g of its height, entries in sight that aren't drawn" % part, bench.value(UNDRAWN), 0)
    faults += differs("sheets that are hidden again", bench.value("document.querySelectorAll('#frame .sheet[hidden]').length"), hidden)
    faults += differs("entries of the saved picture", bench.value(ENTRIES % "savedPicture(pictureNow())"), rows)
    bench.value("dispatchEvent(new Event('beforeprint'))")
    faults += differs("entries on paper", bench.value(ENTRIES % "byId('frame').innerHTML"), rows)
    bench.value("dispatchEvent(new Event('afterprint'))")
    return faults + safety(bench)


NAMES_IN_SIGHT = """(() => {
  const names = byId('names').getBoundingClientRect(), stepper = byId('stepper').getBoundingClientRect(), isBelow = stepper.top > innerHeight / 2;
  const [upper, lower] = isBelow ? [0, stepper.top] : [stepper.bottom, innerHeight];
  return names.top >= upper - 1 && names.bottom <= lower + 1 && names.height > 0;
})()"""


def widths_row(bench, folder, width):
    faults = []
    for name, test, choices, settings in (RUNS[3], RUNS[8], ("large", LARGE, "seed 1 300", {})):
        bench.load(test, choices, settings, width)
        bench.value("goTo(Math.min(40, drive.words.length - 1))")
        faults += ["%s: %s" % (name, fault) for fault in bench.value(OVERHANGING)]
        bench.value(AT_REST % 50)  # the names above the lanes follow when the browser says that it has scrolled
        faults += differs(name + ", the lane that acted is in sight", bench.value(ACTING_LANE), True)
        bench.value("byId('frame').scrollIntoView({ block: 'end' })")
        faults += differs(name + ", the lanes' names are in sight", bench.value(NAMES_IN_SIGHT), True)
        bench.value("scrollTo(0, 0)")
        bench.window.screenshot(os.path.join(folder, "machine-%s-%d.png" % (name.replace(" ", "-"), width)))
    return faults + safety(bench)


def dark_row(bench, folder):
    bench.window.call("Emulation.setEmulatedMedia", features=[{"name": "prefers-color-scheme", "value": "dark"}])
    try:
        bench.load(RUNS[6][1], RUNS[6][2], RUNS[6][3])
        faults = []
        for count in range(10):
            bench.window.press("ArrowRight")
            faults += bench.value("(%s)()" % CONTRAST.replace("summary, code'", "summary, code, kbd, .slot, .state, .holder'"))
        bench.window.screenshot(os.path.join(folder, "machine-dark.png"))
    finally:
        bench.window.call("Emulation.setEmulatedMedia", features=[{"name": "prefers-color-scheme", "value": "light"}])
    return faults + safety(bench)


def labels_row(bench):
    """Each control and each part of the machine has a name for readers of screens, and keys reach them all."""
    bench.load(RUNS[5][1], RUNS[5][2], RUNS[5][3])
    for _ in range(4):
        bench.window.press("ArrowRight")
    nodes = [node for node in bench.window.call("Accessibility.getFullAXTree")["nodes"] if not node["ignored"]]
    roles = ("button", "textbox", "link", "combobox", "slider", "image", "table", "figure", "region", "list")
    without = [node["role"]["value"] for node in nodes if node["role"]["value"] in roles and not node.get("name", {}).get("value")]
    faults = differs("elements without a name", [role for role in without if role != "list"], [])
    names = [node["name"]["value"] for node in nodes if node["role"]["value"] in ("button", "region")]
    for wanted in ("P0: drain x=1", "P1: step", "Core P0", "Core P1"):
        faults += [] if any(name.startswith(wanted) for name in names) else ["no element has the name " + wanted]
    reached = bench.value("[...document.querySelectorAll('button, textarea, input, select, summary, a[href]')].filter(each => each.tabIndex < 0).length")
    return faults + differs("controls that no key reaches", reached, 0) + safety(bench)


def round_of_clicks(bench):
    """What clicks on choices that do something cost, with 8 cores of 32 instructions and 500 choices made."""
    bench.load(LARGE, "seed 3 900", {})
    bench.value("goTo(500); byId('stepper').scrollIntoView()")
    bench.window.call("Performance.enable", timeDomain="threadTicks")
    costs = []
    for turn in range(CLICKS):
        word = bench.value("(all => all[%d %% all.length].dataset.choice)([...document.querySelectorAll('[data-choice]:not(.idle)')])" % (7 * turn))
        costs.append(click_costs(bench.window, "[data-choice='%s']" % word))
    bench.window.call("Performance.disable")
    return Costs(costs)


def is_within(costs):
    return all(time <= most for times, limits in ((costs.work, WORK), (costs.clock, CLOCK)) for time, most in zip(times, limits))


def speed_row(bench):
    """From a click to the next frame. Where other programs take the processors, each millisecond of work takes longer: so of some
    rounds the best one counts, and on a machine with more to do than it has processors the limits aren't held."""
    rounds = []
    while len(rounds) < ROUNDS and not (rounds and is_within(rounds[-1])):
        rounds.append(round_of_clicks(bench))
    best = min(rounds, key=lambda costs: (not is_within(costs), costs.work))
    load, processors = os.getloadavg()[0], os.cpu_count()
    print("with 500 choices made a click takes %s; load %.1f on %d processors" % (best, load, processors))
    is_busy = load > processors
    if is_busy and not is_within(best):
        print("the machine is busy: a click's limits aren't held")
    return ([] if is_within(best) or is_busy else ["a click takes %s" % best]) + safety(bench)


def rows(page, folder):
    bench = Driver(page)
    driven = [("%s by %s" % (name, way), lambda run=(name, test, choices, settings), way=way: driven_row(bench, *run, way))
              for name, test, choices, settings in RUNS for way in ("clicks", "keys")]
    return [
        ("the machine at its start", lambda: begins_row(bench, folder)), *driven,
        ("another choice", lambda: other_choice_row(bench)),
        ("buttons that go down", lambda: pressed_row(bench)),
        ("seeds and playing", lambda: seeds_row(bench)),
        ("two machines", lambda: beside_row(bench, folder)),
        ("many choices", lambda: many_row(bench)),
        ("a long picture", lambda: long_picture_row(bench)),
        ("whole traces, and none", lambda: whole_traces_row(bench)),
        ("a trap at a choice", lambda: trap_row(bench)),
        ("what is saved of a machine", lambda: saves_row(bench)),
        *[("the machine at %d pixels" % width, lambda width=width: widths_row(bench, folder, width)) for width in (360, 900, 1600)],
        ("the machine in the dark", lambda: dark_row(bench, folder)),
        ("names of the machine's parts", lambda: labels_row(bench)),
        ("speed of a click", lambda: speed_row(bench)),
    ]
