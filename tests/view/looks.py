"""Rows for the bench of the page: widths, the dark, names for readers of screens, and speed."""
import os
import statistics

from bench import CONTRAST, OVERHANGING, differs, safety, spent_by

FIRST_ANSWER, TYPED_MEDIAN, TYPED_WORST = 100, 16, 50  # milliseconds


def widths_row(bench, folder, width):
    """Nothing of the bench hangs over, with a refusal, a report and a table of states."""
    faults = []
    for name in ("4.SB.litmus", "spinlock.order"):
        bench.open(width=width)
        bench.value("byId('library').open = byId('from-c').open = true")
        bench.load(name)
        faults += bench.value(OVERHANGING)
        bench.window.screenshot(os.path.join(folder, "bench-%s-%d.png" % (name, width)))
    bench.load("4.SB.litmus")
    bench.choose("outcomes")
    bench.value("begin()")
    bench.wait("document.querySelector('#states table')")
    faults += bench.value(OVERHANGING)
    return faults + safety(bench)


def dark_row(bench, folder):
    """In the dark all texts stand out from their ground."""
    bench.window.call("Emulation.setEmulatedMedia", features=[{"name": "prefers-color-scheme", "value": "dark"}])
    faults = []
    try:
        bench.open()
        bench.wait("shown.run")
        bench.fill("choices", "0s 0s 1s 0d 1s 1d")
        bench.window.screenshot(os.path.join(folder, "dark.png"))
        faults += bench.value("(%s)()" % CONTRAST)
        faults += differs("the ground", bench.value("getComputedStyle(document.body).backgroundColor"), "rgb(18, 20, 23)")
        bench.fill("choices", "0s 9s")
        bench.window.screenshot(os.path.join(folder, "dark-refused.png"), whole=False)
    finally:
        bench.window.call("Emulation.setEmulatedMedia", features=[{"name": "prefers-color-scheme", "value": "light"}])
    return faults + safety(bench)


def names_row(bench):
    """Each control of the bench has a name for readers of screens, and is reached by keys alone."""
    bench.open()
    bench.wait("shown.run")
    nodes = [node for node in bench.window.call("Accessibility.getFullAXTree")["nodes"] if not node["ignored"]]
    roles = ("button", "textbox", "link", "combobox", "spinbutton", "radio", "searchbox", "image", "table", "figure", "group", "region")
    unnamed = [node["role"]["value"] for node in nodes if node["role"]["value"] in roles and not node.get("name", {}).get("value")]
    faults = differs("elements without a name", [role for role in unnamed if role != "group"], [])
    reached = bench.value("[...document.querySelectorAll('button, textarea, input, select, summary, a[href]')].filter(each => each.tabIndex < 0).length")
    return faults + differs("controls that no key reaches", reached, 0) + safety(bench)


def first_answer(bench):
    """After how many milliseconds a page that was just opened has made a module and its first answer."""
    bench.open()
    return bench.value("(async () => { const start = performance.now(); const tso = await Tso.of(await unpacked(MODULE.packed));"
                       "tso.answer({}, inputOf('run')); return performance.now() - start; })()")


def speed_row(bench):
    """The first answer, and from a key to the answer that is shown, drawn picture and all."""
    first = min(first_answer(bench) for _ in range(3))  # other work on the machine makes it later
    bench.load("4.SB+stores-2.litmus")
    times = spent_by(bench, ["byId('choices').value += %r; answerNow()" % (" " if turn % 2 else "\n") for turn in range(60)])
    median, worst = statistics.median(times), max(times)
    print("the first answer after %.0f ms; from a key to the picture %.1f ms of processor time, %.1f at most" % (first, median, worst))
    faults = [] if first <= FIRST_ANSWER else ["the first answer takes %.0f ms" % first]
    faults += [] if median <= TYPED_MEDIAN and worst <= TYPED_WORST else ["an answer takes %.1f ms, %.1f at most" % (median, worst)]
    return faults + safety(bench)
