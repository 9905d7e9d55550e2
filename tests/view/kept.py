"""Rows for what is kept: the page saved as one file, addresses that are too long, colours of saved pictures; and borders that are seen."""
import contextlib
import functools
import html
import http.server
import json
import os
import re
import threading
import urllib.parse

from bench import BORDERS, DIVIDING_LINE, EXAMPLES, READY, TESTS, differs, read, safety
from driver import Driver

OTHER = read(EXAMPLES, "own-store-first.litmus")
MOST_BYTES = 1_300_000
SAVED = "new Promise((done, failed) => { saveFile = (name, blob) => blob.text().then(text => done([name, text]), failed); %s })"


def saved_page(bench, press):
    """The name and the text of the page that a press saves."""
    return bench.value(SAVED % press)


def faults_of_form(text):
    """A saved page isn't large, asks for nothing beside it, and its policy allows the scripts and styles that stand in it alone."""
    policy = re.search(r'http-equiv="Content-Security-Policy" content="([^"]*)"', text).group(1)
    scripts = re.search(r"script-src ([^;]*);", policy).group(1).split(" ")
    faults = [] if "default-src 'none'" in policy and all(each.startswith("'sha256-") or each == "'wasm-unsafe-eval'" for each in scripts) else ["its policy is " + policy[:300]]
    faults += ["it has " + found for found in re.findall(r"<(?:script|link) [^>]*(?:src|href)=[^>]*>", text.partition("<body>")[0] + re.sub(r"(?s)<script>.*?</script>", "", text))]
    faults += [] if len(text.encode()) <= MOST_BYTES else ["it has %d bytes" % len(text.encode())]
    return faults + ([] if text.isascii() or "<meta charset=\"utf-8\">" in text else ["it doesn't say how it is coded"])


def saved_row(bench, folder):
    """The page is saved as one file, and that one again; each opens with what was shown, and drives on."""
    shown = "[byId('test').value, drive.words, drive.count, changedSettings()]"
    bench.open()
    bench.fill("test", OTHER.partition(DIVIDING_LINE)[0])
    bench.fill("choices", "0s 0s 1s 1s 0s")
    bench.value("settingOf('protocol').value = 'moesi'; byId('settings').dispatchEvent(new Event('input')); goTo(2)")
    wanted, faults = bench.value(shown), []
    for turn in ("once", "again"):
        name, text = saved_page(bench, "document.querySelector('#saves [data-save=page]').click()")
        faults += differs("its name", name, "n6.html") + faults_of_form(text)
        path = os.path.join(folder, "saved-%s.html" % turn)
        with open(path, "w") as file:
            file.write(text)
        bench.window.requests.clear()
        bench.window.open("file://" + path)
        bench.value(READY)
        bench.wait("drive.isOn")
        faults += differs("opened " + turn, bench.value(shown), wanted)
        outside = [address for address in bench.window.requests if not address.startswith(("file://" + path, "about:", "blob:"))]
        faults += differs("asked for", outside, [])
        bench.window.requests.clear()
    bench.window.click("[data-choice='0s']")
    faults += differs("driven on", bench.value("drive.count"), 3)
    bench.value("findOutcomes()")
    bench.wait("!bench.task && document.querySelector('#states table')")
    return faults + safety(bench)


def picture_page_row(bench, folder):
    """A run that was made elsewhere is saved as a page too, and what a name holds is no markup there."""
    bench.open()
    line = json.loads(bench.program(OTHER, "run", "--json")[1])
    line["test"] = 'a"><script>window.wasRun = 1</script><!--'
    bench.value("showText(%s)" % json.dumps(json.dumps(line)))
    name, text = saved_page(bench, "SAVES.page()")
    path = os.path.join(folder, "saved-picture.html")
    with open(path, "w") as file:
        file.write(text)
    bench.window.open("file://" + path)
    bench.value(READY)
    bench.wait("shown.run")
    faults = differs("opened", bench.value("[shown.run.test, window.wasRun, drive.isOn]"), [line["test"], None, False])
    bench.window.requests.clear()
    return faults + safety(bench)


def too_long_row(bench, folder):
    """Where what is shown is too long for an address the page says so and offers to save it; no address of something else stays."""
    bench.open()
    bench.value("goTo(2)")
    bench.wait("location.hash.includes('at=2')")
    bench.fill("choices", "0s 0d 1s 1d " * 900)
    bench.wait("location.hash === ''")
    faults = differs("said", bench.value("[byId('too-long').hidden, byId('copy-link').disabled]"), [False, True])
    faults += [] if "8000" in bench.text("#too-long") else ["it says " + bench.text("#too-long")]
    name, text = saved_page(bench, "document.querySelector('#too-long [data-save=page]').click()")
    wanted = bench.value("choicesText()")
    path = os.path.join(folder, "saved-long.html")
    with open(path, "w") as file:
        file.write(text)
    bench.window.open("file://" + path)
    bench.value(READY)
    faults += differs("the choices in the saved page", bench.value("choicesText()"), wanted)
    bench.window.requests.clear()
    bench.open()
    return faults + differs("said of a short one", bench.value("[byId('too-long').hidden, byId('copy-link').disabled]"), [True, False]) + safety(bench)


class Handler(http.server.SimpleHTTPRequestHandler):
    """Files of a folder, with the policy that docs/PAGE.md gives for a server."""

    def end_headers(self):
        name, _, policy = re.search(r"^Content-Security-Policy: .*$", read(os.path.dirname(TESTS), "docs", "PAGE.md"), re.MULTILINE).group().partition(": ")
        self.send_header(name, policy)
        super().end_headers()

    def log_message(self, *_):
        pass


@contextlib.contextmanager
def served(folder):
    """The address of a server of this folder."""
    server = http.server.ThreadingHTTPServer(("127.0.0.1", 0), functools.partial(Handler, directory=folder))
    thread = threading.Thread(target=server.serve_forever)
    thread.start()
    try:
        yield "http://127.0.0.1:%d/" % server.server_port
    finally:
        server.shutdown()
        thread.join()
        server.server_close()


def served_row(bench):
    """From a server with the policy of docs/PAGE.md in a header the page does the same: it drives, searches in a worker, and is saved."""
    with served(bench.page.folder.removeprefix("file://")) as address:
        bench.window.open(address + "index.html")
        bench.value(READY)
        bench.wait("drive.isOn")
        bench.window.click("[data-choice='0s']")
        faults = differs("driven", bench.value("drive.count"), 1)
        bench.value("findOutcomes()")
        bench.wait("!bench.task && document.querySelector('#states table')")
        bench.value("putCommand('run'); answerNow()")
        faults += faults_of_form(saved_page(bench, "SAVES.page()")[1])
        outside = [each for each in bench.window.requests if not each.startswith((address, "about:", "blob:"))]
        bench.window.requests.clear()
        bench.window.open("about:blank")
    return faults + differs("asked for", outside, []) + safety(bench)


def in_dark(bench, judge):
    bench.window.call("Emulation.setEmulatedMedia", features=[{"name": "prefers-color-scheme", "value": "dark"}])
    try:
        return judge()
    finally:
        bench.window.call("Emulation.setEmulatedMedia", features=[{"name": "prefers-color-scheme", "value": "light"}])


def colours_row(bench):
    """Saved pictures are light in the dark too, unless they are wanted as they are here; the page stays as it is."""
    def pictures():
        bench.open()
        bench.value("goTo(6)")
        made = bench.value("(() => { const before = getComputedStyle(document.body).backgroundColor, made = ['light', 'shown'].map(value => { byId('saved-colours').value = value; "
                           "return savedPicture(pictureNow()); }); return [...made, before === getComputedStyle(document.body).backgroundColor]; })()")
        bench.value("byId('saved-colours').value = 'light'")
        return made
    light, _, is_same = pictures()
    dark = in_dark(bench, pictures)
    faults = differs("the ground of saved pictures, light and as shown", [re.search(r'<rect y="[^"]*"[^>]*fill="(rgb[^"]*)"', each).group(1) for each in dark[:2]], ["rgb(255, 255, 255)", "rgb(28, 32, 37)"])
    faults += differs("the same as in the light", dark[0] == light, True)
    return faults + differs("the page stays", [is_same, dark[2]], [True, True]) + safety(bench)


def borders_row(bench):
    """Each border stands out from its ground, in the light and in the dark."""
    def faults_here():
        faults = []
        bench.open()
        bench.value("byId('test-part').open = true; byId('library').open = true; byId('keys').open = true; goTo(4)")
        faults += bench.value("(%s)()" % BORDERS)
        bench.value("goTo(6); byId('comparison').open = true; byId('order-part').open = true")
        faults += bench.value("(%s)()" % BORDERS)
        bench.fill("choices", "0s 9s")
        faults += bench.value("(%s)()" % BORDERS)
        bench.fill("choices", "")
        bench.value("settingOf('bus').value = 'split'; answerNow(); makeChoice('0s'); makeChoice('0d'); findOutcomes()")
        faults += bench.value("(%s)()" % BORDERS)
        bench.wait("!bench.task && document.querySelector('#states table')")
        return faults + bench.value("(%s)()" % BORDERS)
    return faults_here() + ["in the dark: " + fault for fault in in_dark(bench, faults_here)] + safety(bench)


FOUL = ("<script>window.wasRun = 1</script>", '"><img src=x onerror="window.wasRun = 1">', "__proto__", "constructor", "javascript:window.wasRun=1", "\u0000\u202e", "9" * 40, "../../etc/passwd")
FOUL_NAMES = ("command", "protocol", "at", "beside", "caches", "lesson", "step", "embed")
WAS_RUN = "[window.wasRun ?? null, document.querySelector('img') === null, Object.keys(Object.prototype).length, bench.tso !== null]"


def foul_links():
    """Links that somebody could send to do harm: a foul word at each name, at all names at once, and links that are none."""
    test = urllib.parse.quote(OTHER.partition(DIVIDING_LINE)[0])
    for at, name in enumerate(FOUL_NAMES * 3):
        yield "test=%s&%s=%s" % (test, name, urllib.parse.quote(FOUL[(at + at // len(FOUL_NAMES)) % len(FOUL)]))
    for foul in FOUL:
        yield urllib.parse.urlencode({"test": foul, **{name: foul for name in FOUL_NAMES}})
    yield "%zz"
    yield urllib.parse.quote('{"lessons": [{"name": "<b>"}]}')


def foul_row(bench, folder):
    """No foul link runs anything, makes an element or changes what all objects share; nor does a page that was saved and tampered with."""
    links, faults = list(foul_links()), []
    for link in links:
        bench.window.open(bench.page.address + "#" + link)
        bench.value(READY)
        bench.value("new Promise(done => setTimeout(done, 30))")
        faults += differs("after " + link[-80:], bench.value(WAS_RUN), [None, True, 0, True])
    faults += differs("foul links", len(links), 34) + safety(bench)
    bench.open()
    text = saved_page(bench, "SAVES.page()")[1]
    path = os.path.join(folder, "saved-foul.html")
    for shown, taught in (("test=X86&lesson=__proto__&step=1", '{"lessons": [{"name": "__proto__", "title": "<img src=x onerror=alert(1)>"}]}'), ("<script>", "not JSON"),
                          ("test=%00", '{"list": [{"name": "<script>window.wasRun = 1</script>", "address": "test=X86"}]}')):
        tampered = re.sub(r'<meta name="shown" content="[^"]*">', lambda _: '<meta name="shown" content="%s">\n<meta name="taught" content="%s">' % (html.escape(shown), html.escape(taught)), text, count=1)
        with open(path, "w") as file:
            file.write(tampered)
        bench.window.open("file://" + path)
        bench.value(READY)
        bench.value("new Promise(done => setTimeout(done, 50))")
        faults += differs("a saved page with " + taught[:40], bench.value(WAS_RUN), [None, True, 0, True])
        with open(path, "w") as file:
            file.write(tampered.replace("<title>", "<script>window.wasRun = 1</script><title>", 1))
        bench.window.open("file://" + path)
        bench.value(READY)
        faults += differs("a script put into a saved page", bench.value("window.wasRun ?? null"), None)
        bench.window.faults.clear()  # the policy's own word on that script
        bench.window.requests.clear()
    return faults


def rows(page, folder):
    bench = Driver(page)
    return [
        ("the page as one file", lambda: saved_row(bench, folder)),
        ("a picture's page as one file", lambda: picture_page_row(bench, folder)),
        ("the page of a server", lambda: served_row(bench)),
        ("an address that is too long", lambda: too_long_row(bench, folder)),
        ("colours of saved pictures", lambda: colours_row(bench)),
        ("borders", lambda: borders_row(bench)),
        ("foul links, and a foul saved page", lambda: foul_row(bench, folder)),
    ]
