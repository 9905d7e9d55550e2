"""Rows for the lines of runs that the page is given: ways in, names, and what is refused."""
import json
import os

from drawing import CHOICES, DIVIDING_LINE, SB, differs, faults_of_drawing, faults_of_safety

SCRIPT_NAME = "<script>window.wasRun = 1</script>"
IMAGE_NAME = '"><img src=x onerror="window.wasRun = 1">'


def names_row(page, folder):
    faults = []
    for number, name in enumerate((SCRIPT_NAME, IMAGE_NAME, "a\\\"b' &amp; </h2>", "100% #1 ?")):
        line = page.line_of("X86 %s\n%s%s" % (name, SB, CHOICES))
        page.open(line)
        faults += differs("name", page.text("#name"), "Test " + name) + faults_of_drawing(page, line) + faults_of_safety(page)
        page.window.screenshot(os.path.join(folder, "name-%d.png" % number), whole=False)
    for foul in (SCRIPT_NAME, IMAGE_NAME, "javascript:window.wasRun = 1", json.dumps({"memory": {IMAGE_NAME: 1}}),
                 json.dumps({"unfinished": {"used": IMAGE_NAME, "stalled": 1}})):
        page.open(foul)
        faults += differs("drawn", page.is_drawn(), False) + faults_of_safety(page)
        page.window.open(page.address + "#" + foul)
        faults += differs("drawn", page.is_drawn(), False) + faults_of_safety(page)
    return faults


def ways_in_row(page, folder, line):
    """The clipboard, a file, a drop, and the address that the page gives."""
    path = os.path.join(folder, "line.json")
    with open(path, "w") as file:
        file.write(line + "\n")
    faults = []
    page.open("")
    page.value("showText('')")
    faults += differs("drawn of nothing", (page.is_drawn(), page.message()), (False, ""))
    page.value("document.getElementById('input').open = true")
    page.value("document.getElementById('line').focus()")
    page.window.type(line)
    faults += ["pasted: " + fault for fault in faults_of_drawing(page, line)]
    page.open("")
    page.window.choose_file("#file", path)
    page.value("new Promise(done => setTimeout(done, 300))")
    faults += ["file: " + fault for fault in faults_of_drawing(page, line)]
    page.open("")
    page.value("(() => { const held = new DataTransfer(); held.items.add(new File([%s], 'run.json'));"
               "document.body.dispatchEvent(new DragEvent('drop', { dataTransfer: held, bubbles: true, cancelable: true }));"
               "return new Promise(done => setTimeout(done, 300)); })()" % json.dumps(line + "\r\n"))
    faults += ["drop: " + fault for fault in faults_of_drawing(page, line)]
    address = page.value("document.getElementById('address').href")
    page.window.open(address)
    faults += ["address: " + fault for fault in faults_of_drawing(page, line)]
    page.value("location.hash = ''")
    page.value("new Promise(done => { addEventListener('hashchange', () => setTimeout(done)); location.hash = '#' + encodeURIComponent('{}'); })")
    faults += differs("drawn after another address", page.is_drawn(), False)
    return faults + faults_of_safety(page)


def unfinished_row(page, folder):
    line = page.line_of("X86 SB\n" + SB + DIVIDING_LINE + "0s 0s 0d 0d\n")
    page.open(line)
    page.window.screenshot(os.path.join(folder, "unfinished.png"), whole=False)
    faults = differs("unfinished", json.loads(line), {"unfinished": {"stalled": 1, "used": 4}}) + differs("drawn", page.is_drawn(), False)
    if not page.message().startswith("This run hasn't ended. Choices made: 4, stalled of them: 1."):
        faults.append(page.message())
    return faults + faults_of_safety(page)


def changed(line, change):
    run = json.loads(line)
    change(run)
    return json.dumps(run)


def refusals(page, line):
    """Texts that are no line of a run, each with a piece of the sentence that says why."""
    def order(*entries):
        return lambda run: run.update(order=list(entries))

    yield page.line_of("X86 SB\n" + SB + DIVIDING_LINE + "9s\n"), "It said: Refused choices word 1 NoSuchCore"
    yield "Test SB\nMachine msi depth=4 sets=1 ways=2 words=1\n", "plain report"
    yield "Unfinished used=1 stalled=0", "plain report"
    yield line[:-1], "isn't JSON"
    yield line + line, "isn't JSON"
    yield "[]", "the whole isn't a JSON object"
    yield "null", "the whole isn't a JSON object"
    yield '{"unfinished":{"used":-1,"stalled":0}}', '"used" of unfinished isn\'t a whole number'
    yield "{}", '"registers" isn\'t a list'
    yield changed(line, lambda run: run["cache"].pop()), "different numbers of cores"
    yield changed(line, lambda run: run.update(registers=run["registers"] * 5, cache=run["cache"] * 5)), "10 cores"
    yield changed(line, lambda run: run["registers"][1].pop("EDI")), '"EDI" of registers of P1'
    yield changed(line, lambda run: run["memory"].update(x=2**32)), "the word of x"
    yield changed(line, lambda run: run["memory"].update({"<b>": 0})), "a name that no location has"
    yield changed(line, lambda run: run["machine"].update(protocol="mesif")), "is none of msi, mesi, moesi, mosi"
    yield changed(line, lambda run: run["machine"].update(bus="ring")), "neither atomic nor split"
    yield changed(line, lambda run: run["condition"].update(kind="always")), '"condition" isn\'t one'
    yield changed(line, lambda run: run.pop("test")), "no name of a test"
    yield changed(line, lambda run: run.pop("condition")), "condition isn't a JSON object"
    yield changed(line, order("P0:1 R y=0", 7)), 'number 2 of "order" isn\'t an entry'
    yield changed(line, order("P0:1 F y=0")), 'number 1 of "order" isn\'t an entry'
    yield changed(line, order("P2:1 R y=0")), "a core or place that isn't there"
    yield changed(line, order("P0:1 R q=0")), 'doesn\'t have the location of P0:1 R q=0'
    yield changed(line, order("P0:1 R y=4294967296")), "the value of P0:1 R y=4294967296"
    yield changed(line, order(*["P0:1 R y=0"] * 600)), "too long"
    yield changed(line, order("P0:1 R y=0", "P0:1 R y=0")), "can't stand so"
    yield changed(line, order("P0:1 W y=1", "P0:0 W x=1")), "can't stand so"
    yield changed(line, order("P0:1 R y=0", "P0:0 R x=0")), "can't stand so"
    yield changed(line, order("P0:0 LR x=0", "P1:0 R x=0", "P0:0 LW x=1")), "isn't followed by its store part"
    yield changed(line, order("P0:0 LW x=1")), "doesn't follow its load part"
    yield changed(line, order("P0:1 R y=0", "P1:1 R x=0", "P0:0 W x=1", "P1:0 W y=2")), "at its end y should hold 2"
    yield changed(line, order("P0:0 W x=1", "P1:0 W y=1", "P0:1 R y=0")), "P0:1 R y=0 should have returned 1"
    yield changed(line, order("P1:0 W y=1", "P0:0 W x=1", "P1:1 R y=2")), "P1:1 R y=2 should have returned 1"
    yield changed(line, order("P0:1 R y=0", "P1:1 R x=0", "P0:2 R y=5", "P0:0 W x=1", "P1:0 W y=1")), "P0:2 R y=5 should have returned 0"


def refusals_row(page, line):
    faults = []
    page.open("")
    for text, piece in refusals(page, line):
        page.value("showText(%s)" % json.dumps(text))
        if page.is_drawn() or piece not in page.message():
            faults.append("%s..: %r doesn't say %r" % (text[:60], page.message(), piece))
    page.window.open(page.address + "#%zz")
    faults += [] if "isn't a percent-encoded text" in page.message() else ["an address of %zz: " + page.message()]
    page.value("showText(%s)" % json.dumps(line))
    return faults + faults_of_drawing(page, line) + faults_of_safety(page)


def rows(page, folder, lines):
    return [
        ("names", lambda: names_row(page, folder)),
        ("ways in", lambda: ways_in_row(page, folder, lines["n6"])),
        ("unfinished", lambda: unfinished_row(page, folder)),
        ("refusals", lambda: refusals_row(page, lines["SB"])),
    ]
