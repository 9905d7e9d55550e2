"""Rows for what comes into the page and goes out of it: the list of texts, addresses, files that are dropped, what is saved; and
what the page does where its machine stops or can't be opened."""
import json
import os
import re
import urllib.parse

from bench import DIVIDING_LINE, EXAMPLES, FIRST, READY, differs, read, safety, texts


def without_stalls(bench, text, words):
    """An input whose choices are drawn from a seed, with those alone of them that don't stall, as the list opens it; any other as it is."""
    test, _, choices = text.partition(DIVIDING_LINE)
    if "seed" not in choices:
        return text
    steps = json.loads(bench.program(text, "trace", "--json", *words)[1])["trace"]["steps"]
    made = [step["choice"] for step in steps if step["outcome"] != "stalled"]
    return text if len(made) == len(steps) else test + DIVIDING_LINE + " ".join(made) + "\n"


def library_row(bench, folder):
    """A text of the list opens, and has the program's report and picture; of choices that are drawn from a seed those are left out that stall."""
    bench.open()
    bench.window.click("#library summary")
    bench.fill("search", "sb fence locked")
    found = bench.value("[...document.querySelectorAll('#texts button')].map(each => each.textContent)")
    faults = differs("found", "SB+mfence+xchg.litmus" in found and "MP.litmus" not in found, True)
    bench.window.screenshot(os.path.join(folder, "library.png"))
    bench.fill("search", "")
    for name, text in texts():
        bench.value("document.querySelector('#texts [data-file=%s]').click()" % json.dumps(name))
        bench.to_end()
        joined = re.search(r"^Words=(\d+)$", text, re.MULTILINE)
        words = ["check"] if name.endswith(".order") else ["run", "--depth", "4", "--words", joined.group(1) if joined else "1"]
        text = without_stalls(bench, text, words[1:]) if words[0] == "run" else text
        status, said, _ = bench.program(text, *words)
        bench.value("currentCommand() === 'run' && bench.answer === null && showReport()")  # as it is when the text is opened
        faults += differs(name, bench.text("#report"), said)
        if words[0] == "run" and status == 0:
            faults += differs(name + " drawn", bench.value("shown.line"), bench.program(text, *words, "--json")[1].strip())
    return faults + safety(bench)


def addresses_row(bench):
    """The address of a test opens it with its settings and choices; one that is too long isn't given."""
    bench.open()
    bench.fill("test", read(EXAMPLES, "own-store-first.litmus").partition(DIVIDING_LINE)[0])
    bench.fill("choices", "0s 1s # +%&=\n".replace(" # +%&=", "") + "seed 7 400")
    bench.value("(field => { field.value = 'moesi'; field.dispatchEvent(new Event('input', { bubbles: true })); })(byId('set-protocol'))")
    bench.fill("set-depth", "2")
    report, address = bench.text("#report"), bench.page.address + "#" + bench.value("currentAddress()")
    bench.window.open(address)
    bench.value(READY)
    bench.wait("byId('report').textContent")
    faults = differs("opened", bench.text("#report"), report) + differs("settings", bench.value("changedSettings()"), [["protocol", "moesi"], ["depth", "2"]])
    bench.fill("choices", "0s " * 3000)
    faults += differs("a long one", [bench.value("byId('copy-link').disabled"), bench.value("byId('too-long').hidden")], [True, False])
    for foul in ("<script>window.wasRun = 1</script>", '"><img src=x onerror="window.wasRun = 1">', "X86 a\n{ }\n", ""):
        fragment = urllib.parse.urlencode({"test": foul, "choices": foul, "order": foul, "command": foul, "protocol": foul, "depth": foul, "states": "-1"})
        bench.window.open(bench.page.address + "#" + fragment)
        bench.value(READY)
        faults += differs("made of a foul address", bench.value("[window.wasRun, document.querySelector('img'), byId('set-protocol').value, byId('set-depth').value]"), [None, None, "msi", "4"])
        faults += differs("its test", bench.value("byId('test').value").strip(), foul.strip())
        faults += safety(bench)
    bench.window.open(bench.page.address + "#test=%zz&depth=99999999999999999999")
    bench.value(READY)
    return faults + safety(bench)


def drops_row(bench):
    """A file with a test goes to the bench; CR at line ends too."""
    bench.open()
    text = read(EXAMPLES, "locked-waits.litmus")
    faults = []
    for given in (text, text.replace("\n", "\r\n")):
        bench.value("putInput('')")
        bench.value("(() => { const held = new DataTransfer(); held.items.add(new File([%s], 'a.litmus'));"
                    "document.body.dispatchEvent(new DragEvent('drop', { dataTransfer: held, bubbles: true, cancelable: true }));"
                    "return new Promise(done => setTimeout(done, 300)); })()" % json.dumps(given))
        faults += differs("dropped", bench.text("#report"), bench.program(text, "run")[1])
    return faults + safety(bench)


def saves_row(bench):
    """What is saved: the input, the report and the line as they are, a picture that needs no style, and points."""
    bench.open()
    bench.wait("shown.run")
    bench.value("window.saved = []; saveFile = (name, blob) => saved.push([name, blob]); true")
    for kind in ("input", "report", "line", "svg", "png"):
        bench.value("document.querySelector('[data-save=%s]').click()" % kind)
    bench.wait("saved.length === 5")
    names = bench.value("saved.map(([name]) => name)")
    faults = differs("names", sorted(names), ["SB.json", "SB.litmus", "SB.png", "SB.svg", "SB.txt"])
    held = dict(bench.value("Promise.all(saved.map(async ([name, blob]) => [name, name.endsWith('png') ? [...new Uint8Array(await blob.arrayBuffer())].slice(0, 4) : await blob.text()]))"))
    text = read(EXAMPLES, FIRST)
    faults += differs("input", held["SB.litmus"], text) + differs("report", held["SB.txt"], bench.program(text, "run")[1])
    faults += differs("line", held["SB.json"], bench.program(text, "run", "--json")[1]) + differs("points", held["SB.png"], [0x89, 0x50, 0x4E, 0x47])
    faults += [] if "<style" not in held["SB.svg"] and "class=\"unseen" not in held["SB.svg"] and "fill=\"rgb(" in held["SB.svg"] else ["the picture needs a style"]
    return faults + safety(bench)


def trap_row(bench):
    """After a trap the instance is thrown away, the page says so, and goes on."""
    bench.open()
    bench.wait("shown.run")
    bench.value("window.own = bench.tso.tso ?? bench.tso; window.before = own.exports;"
                "own.writeAsked = () => { throw new WebAssembly.RuntimeError('unreachable'); }; true")
    bench.fill("choices", "0s")
    faults = [] if "stopped before it gave an answer" in bench.text("#hint") else ["it says " + bench.text("#hint")]
    faults += differs("the same instance", bench.value("own.exports === before"), False) + differs("drawn", bench.page.is_drawn(), False)
    bench.value("delete own.writeAsked; true")
    bench.fill("choices", "0s 1s 0s 1s 0d 1d")
    return faults + differs("drawn again", bench.page.is_drawn(), True) + safety(bench)


def old_browsers_row(bench):
    """Where a browser can't open the module the page says so, and still draws runs that were made elsewhere."""
    line = bench.program(read(EXAMPLES, FIRST), "run", "--json")[1].strip()
    faults = []
    for lacking, shown in (("delete window.DecompressionStream", "#old-browser"), ("delete window.WebAssembly", "#old-browser"),
                           ("WebAssembly.compile = async () => { throw new Error('refused') }", "#message")):
        added = bench.window.call("Page.addScriptToEvaluateOnNewDocument", source=lacking)["identifier"]
        try:
            bench.window.open(bench.page.address)
            bench.wait("byId('bench').hidden && document.querySelector('%s').innerText" % shown)
            faults += [] if "can't open the machine" in bench.value("document.querySelector('%s').innerText" % shown) else [lacking + ": it says nothing"]
            bench.value("showText(%s)" % json.dumps(line))
            faults += differs(lacking + ": drawn", bench.page.is_drawn(), True)
        finally:
            bench.window.call("Page.removeScriptToEvaluateOnNewDocument", identifier=added)
    return faults + safety(bench)
