"""Rows for the picture of a run: what is drawn, against what runs.py finds in the line without the page's code."""
import json
import os
import re

import runs

TOP = os.path.dirname(os.path.dirname(os.path.dirname(os.path.abspath(__file__))))
EXAMPLES = os.path.join(TOP, "examples")
GALLERY = os.path.join(EXAMPLES, "gallery")

DIVIDING_LINE = "====\n"
LONG = "a_location_of_thirty_two_letters"
SB = "{ }\n P0 | P1 ;\n MOV [x],$1 | MOV [y],$1 ;\n MOV EAX,[y] | MOV EAX,[x] ;\nexists (0:EAX=0 /\\ 1:EAX=0)\n"
CHOICES = DIVIDING_LINE + "0s 1s 0s 1s 0d 1d\n"
ODD_LOCATIONS = "X86 odd\n{ constructor=5; }\n P0 ;\n MOV [__proto__],$1 ;\n MOV EAX,[toString] ;\n MOV EBX,[constructor] ;\n" \
    "MOV ECX,[__proto__] ;\n" + DIVIDING_LINE + "0s 0s 0s 0s 0d\n"
LONG_NAMES = "X86 %s\n{ }\n P0 | P1 ;\n MOV [%s],$4294967295 | MOV EAX,[%s] ;\n MOV EAX,[%s] | ;\n MOV EBX,[x] | ;\n%s0s 0s 0s 1s 0d\n" % (
    "n" * 64, LONG, LONG, LONG, DIVIDING_LINE)


def read(*path):
    with open(os.path.join(*path)) as file:
        return file.read()


def differs(what, got, wanted):
    return [] if got == wanted else ["%s: %r, and not %r" % (what, got, wanted)]


# What is drawn of a run.

def faults_of_drawing(page, line):
    """Where the drawing of the line that is shown isn't what the line tells."""
    if not page.is_drawn():
        return ["not drawn: " + page.message()]
    run = json.loads(line)
    order = runs.order_of(run)
    sources, moments = runs.sources(order), runs.moments(run, order)
    bars = {seen: (first, last) for first, last, seen in page.numbers("#frame .wait", "earliest", "latest", "seen")}
    drawn = {store: list(range(bars[store][0], bars[store][1] + 1)) if store in bars else [store] for store in moments}
    passed = page.value("[...document.querySelectorAll('#frame [data-passed]')].flatMap(load => "
                        "load.dataset.passed.split(' ').filter(Boolean).map(store => [Number(load.dataset.entry), Number(store)]))")
    wanted_moments = moments if run["machine"]["depth"] > 0 else {store: [store] for store in moments}
    faults = differs("entries", sorted(page.numbers("#frame [data-entry]", "entry")), [(index,) for index in range(len(order))])
    faults += differs("arrows", sorted(page.numbers("#frame path[data-from]", "from", "to")),
                      sorted((source, load) for load, source in sources.items() if source is not None))
    faults += differs("initial values", sorted(page.numbers("#frame [data-initial]", "initial")),
                      sorted((load,) for load, source in sources.items() if source is None))
    faults += differs("passed stores", {tuple(pair) for pair in passed}, runs.passes(order))
    faults += differs("moments of stores", drawn, wanted_moments)
    faults += differs("locked pairs", len(page.numbers("#frame [data-locked]", "locked")), sum(entry.kind == "LR" for entry in order))
    faults += differs("fences", page.value("document.querySelectorAll('#frame .fence').length"), sum(entry.kind == "F" for entry in order))
    faults += differs("rows of the table", page.value("document.querySelectorAll('#order tbody tr').length"), len(order))
    return faults + faults_of_tables(page, run)


def faults_of_tables(page, run):
    cells = page.value("[...document.querySelectorAll('#left table')].map(table => "
                       "[...table.tBodies[0].rows].map(row => [...row.cells].map(cell => cell.textContent)))")
    registers = [[name] + [str(core[name]) for core in run["registers"]] for name in ("EAX", "EBX", "ECX", "EDX", "ESI", "EDI")]
    memory = [[location, str(word)] for location, word in run["memory"].items()]
    counts = [[name.replace("_", "-")] + [str(core[name]) for core in run["cache"]]
              for name in ("hits", "misses", "upgrades", "forwards", "write_backs", "flushes")]
    faults = differs("registers, memory and cache", cells, [registers, memory, counts])
    said = "none" if run["condition"] is None else "Condition: %(kind)s, %(holds)s at this end." % run["condition"]
    words = "" if run["condition"] is None else ": %s." % run["condition"]["holds"] # in words, where they say it
    return faults + ([] if said.lower() in page.text("#verdict").lower() or words and page.text("#verdict").endswith(words.lower()) else ["verdict: " + page.text("#verdict")])


def faults_of_steps(page, line):
    """Steps to the beginning and to the end again, by keys and by buttons."""
    run = json.loads(line)
    order = runs.order_of(run)
    states = [["%s=%s" % (location, "?" if word is None else word) for location, word in state.items()]
              for state in runs.memories(run, order)]
    last = len(order)
    walk = [("ArrowLeft", "back", step) for step in range(last - 1, -1, -1)] + [("ArrowLeft", None, 0)]
    walk += [("ArrowRight", "forward", step) for step in range(1, last + 1)] + [("ArrowRight", None, last)]
    walk += [("Home", "first", 0), ("End", "last", last)]
    faults = differs("memory at first", page.words(), states[last])
    for way in (0, 1):
        for key, button, step in walk:
            if way == 1 and button is None:
                continue
            page.window.press(key) if way == 0 else page.window.click("[data-move=%s]" % button)
            faults += differs("memory after %d, by %s" % (step, key if way == 0 else button), page.words(), states[step])
            faults += differs("the count", page.text("#count"), "After %d of %d entries" % (step, last))
    return faults


def faults_of_safety(page):
    faults = page.window.faults + ["asks for " + address for address in page.window.requests
                                   if not address.startswith((page.folder, "about:", "blob:"))]
    page.window.faults.clear()
    page.window.requests.clear()
    if page.value("window.wasRun !== undefined"):
        faults.append("a name was run")
    if page.value("document.querySelectorAll('script').length !== %d || document.querySelector('img, iframe, object, embed') !== null" % page.scripts):
        faults.append("a name became an element")
    return faults


OVERHANGING = """(() => {
  const edge = document.documentElement.clientWidth;
  const over = [...document.querySelectorAll('body *')].filter(each => !each.closest('svg') && each.getBoundingClientRect().right > edge + 1);
  const faults = over.map(each => each.tagName + '#' + each.id + ' hangs over the page');
  if (document.documentElement.scrollWidth > edge) faults.push('the page is ' + document.documentElement.scrollWidth + ' wide');
  for (const each of document.querySelectorAll('figure, .scrolls')) if (each.scrollWidth > each.clientWidth) faults.push('a ' + each.tagName + ' scrolls');
  for (const group of document.querySelectorAll('#frame [data-entry]')) {
    const box = group.querySelector('rect').getBoundingClientRect();
    for (const text of group.querySelectorAll('text')) {
      const is = text.getBoundingClientRect();
      if (is.left < box.left || is.right > box.right || is.top < box.top - 1 || is.bottom > box.bottom + 1) faults.push(text.textContent + ' hangs over its box');
    }
  }
  const pictures = document.querySelectorAll('#frame svg');
  const outer = pictures[0].getBoundingClientRect();
  if (pictures.length === 1) for (const each of document.querySelectorAll('#frame [data-entry], #frame .wait, #frame [data-initial]')) {
    const is = each.getBoundingClientRect();
    if (is.left < outer.left || is.right > outer.right || is.top < outer.top || is.bottom > outer.bottom) faults.push('an element hangs over the picture');
  }
  return faults;
})()"""


# The rows: each answers a list of faults.

def program_runs(page):
    """Inputs by name, each with the program's words."""
    depth = re.search(r"^Depth=(\d+)$", read(GALLERY, "n6.litmus"), re.MULTILINE).group(1)
    yield "SB", page.line_of(read(EXAMPLES, "store-buffering.litmus"))
    yield "n6", page.line_of(read(GALLERY, "n6.litmus"), "--depth", depth)
    yield "IRIW", page.line_of(read(GALLERY, "IRIW.litmus"))
    yield "locked", page.line_of(read(EXAMPLES, "locked-waits.litmus"))
    yield "fences", page.line_of(read(EXAMPLES, "store-buffering-fenced.litmus"))
    yield "split-bus", page.line_of(read(EXAMPLES, "own-store-first.litmus") + " seed 1 5000\n", "--bus", "split")
    yield "odd-locations", page.line_of(ODD_LOCATIONS)
    yield "long-names", page.line_of(LONG_NAMES)
    yield "empty", page.line_of("X86 empty\n{ }\n P0 ;\n" + DIVIDING_LINE)


def made_runs():
    yield "no-buffer", runs.made_run(2, 4, 0, 1)
    yield "eight-cores", runs.made_run(8, 32, 4, 1)
    yield "eight-cores-long-names", runs.made_run(8, 12, 32, 3, locations=("x", LONG), name="N" * 64, greatest=2**32 - 1)


def drawing_row(page, folder, name, line):
    page.open(line)
    faults = faults_of_drawing(page, line) + faults_of_safety(page)
    page.window.screenshot(os.path.join(folder, name + ".png"))
    return faults


def gallery_row(page):
    faults = []
    page.open("")
    for name in sorted(name for name in os.listdir(GALLERY) if name.endswith(".litmus")):
        text = read(GALLERY, name)
        depth = re.search(r"^Depth=(\d+)$", text, re.MULTILINE)
        line = page.line_of(text, "--depth", depth.group(1) if depth else "4")
        page.value("showText(%s)" % json.dumps(line))
        faults += [name + ": " + fault for fault in faults_of_drawing(page, line)]
    return faults + faults_of_safety(page)


def addresses_row(page):
    """The addresses of pictures that the gallery names."""
    named = re.findall(r"^\[picture of (.*)\]: \.\./view/index\.html#(\S+)$", read(EXAMPLES, "GALLERY.md"), re.MULTILINE)
    faults = [] if named else ["the gallery names none"]
    for name, fragment in named:
        page.window.open(page.address + "#" + fragment)
        if not page.is_drawn() or page.text("#name") != "Test " + name:
            faults.append("%s: %s" % (name, page.message()))
    return faults + faults_of_safety(page)


def random_row(page):
    faults = []
    page.open("")
    for seed in range(60):
        line = runs.made_run(1 + seed % 8, 3 + seed % 13, seed % 6, seed)
        page.value("showText(%s)" % json.dumps(line))
        faults += ["seed %d: %s" % (seed, fault) for fault in faults_of_drawing(page, line)]
    return faults + faults_of_safety(page)


def sentences_row(page, lines):
    faults = []
    for name, wanted in (("SB", "P0 read y before memory saw its store to x (P0:1 passed P0:0)."),
                         ("n6", "P0 read x=1 from its own store before memory saw it (P0:1 passed P0:0)."),
                         ("IRIW", "None: each load comes after all earlier stores of its program.")):
        page.open(lines[name])
        if wanted not in page.text("#passes"):
            faults.append("%s says %s" % (name, page.text("#passes")))
    return faults


def steps_row(page, line):
    page.open(line)
    faults = faults_of_steps(page, line)
    page.value("document.getElementById('line').focus()")
    page.window.press("ArrowLeft")
    faults += differs("a key in the text field", page.text("#count").split()[1], str(len(json.loads(line)["order"])))
    return faults + faults_of_safety(page)


IN_SIGHT = """(() => {
  const entry = document.querySelector(`#frame [data-entry="${shown.step - 1}"]`).getBoundingClientRect();
  return entry.top >= document.getElementById('stepper').getBoundingClientRect().bottom - 1 && entry.bottom <= innerHeight + 1
    && entry.left >= -1 && entry.right <= innerWidth + 1;
})()"""


def in_sight_row(page, line):
    """The entry of each step can be seen, also where the picture is larger than the window."""
    faults = []
    for width in (1400, 360):
        page.open(line, width)
        for key in ["ArrowLeft"] * 40 + ["Home"] + ["ArrowRight"] * 40 + ["End"]:
            page.window.press(key)
            if key != "Home" and not page.value(IN_SIGHT):
                faults.append("%s at %d pixels: %s is out of sight" % (key, width, page.text("#count")))
    return faults


def fits_row(page, folder, name, line, width):
    page.open(line, width)
    faults = page.value(OVERHANGING)
    page.window.screenshot(os.path.join(folder, "%s-%d.png" % (name, width)))
    page.window.resize(width + 100)
    return faults + faults_of_drawing(page, line)


def print_row(page, folder, name, line):
    """On paper: the picture as wide as the page at most, without what belongs to the screen."""
    page.open(line, 720)
    page.window.print_media(True)
    page.value("dispatchEvent(new Event('beforeprint'))")
    page.window.screenshot(os.path.join(folder, name + "-print.png"))
    entries = [(index,) for index in range(len(json.loads(line)["order"]))]
    faults = differs("entries", page.numbers("#frame [data-entry]", "entry"), entries)
    faults += page.value("['input', 'stepper'].filter(id => document.getElementById(id).getClientRects().length > 0)")
    faults += page.value(OVERHANGING)
    page.value("dispatchEvent(new Event('afterprint'))")
    page.window.print_media(False)
    faults += faults_of_drawing(page, line)
    with open(os.path.join(folder, name + ".pdf"), "wb") as file:
        file.write(page.window.printed())
    return faults


def labels_row(page, line):
    """What readers of screens are told: a name for each control and for the picture, and the order as a table."""
    page.open(line)
    nodes = [node for node in page.window.call("Accessibility.getFullAXTree")["nodes"] if not node["ignored"]]
    named = ("button", "textbox", "link", "image", "table", "figure")
    unnamed = [node["role"]["value"] for node in nodes if node["role"]["value"] in named and not node.get("name", {}).get("value")]
    faults = differs("elements without a name", unnamed, [])
    names = [node["name"]["value"] for node in nodes if node["role"]["value"] in ("table", "image")]
    return faults + differs("tables and pictures", [name.split(":")[0] for name in names],
                            ["Memory order of SB", "Registers", "Memory", "Cache accesses", "The order in words"])


def rows(page, folder, lines):
    made = dict(made_runs())
    for name, line in [*lines.items(), *made.items()]:
        yield "drawing " + name, lambda name=name, line=line: drawing_row(page, folder, name, line)
    yield "gallery", lambda: gallery_row(page)
    yield "addresses of the gallery", lambda: addresses_row(page)
    yield "lines made at random", lambda: random_row(page)
    yield "sentences", lambda: sentences_row(page, lines)
    for name in ("SB", "n6", "locked", "long-names", "empty"):
        yield "steps of " + name, lambda name=name: steps_row(page, lines[name])
    yield "entries in sight", lambda: in_sight_row(page, made["eight-cores"])
    for name in ("SB", "n6", "locked", "long-names"):
        yield name + " on a phone", lambda name=name: fits_row(page, folder, name, lines[name], 360)
    for name in ("eight-cores", "eight-cores-long-names"):
        yield name + " on a desk", lambda name=name: fits_row(page, folder, name, made[name], 1400)
    for name, line in (("n6", lines["n6"]), ("eight-cores", made["eight-cores"])):
        yield name + " on paper", lambda name=name, line=line: print_row(page, folder, name, line)
    yield "labels", lambda: labels_row(page, lines["SB"])
