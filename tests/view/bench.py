"""The bench of the page, and the program beside it: what the rows of the page with its machine share."""
import base64
import glob
import json
import os
import subprocess


TESTS = os.path.dirname(os.path.dirname(os.path.abspath(__file__)))
EXAMPLES = os.path.join(os.path.dirname(TESTS), "examples")
DIVIDING_LINE = "====\n"
FIRST = "store-buffering.litmus"
BAD_LINE = 2
READY = "new Promise(done => { const look = () => typeof bench !== 'undefined' && bench.tso ? done() : setTimeout(look, 5); look(); })"


OVERHANGING = """(() => {
  const edge = document.documentElement.clientWidth;
  const over = [...document.querySelectorAll('body *')].filter(each => !each.closest('svg, .scrolls, .paper, figure, #texts, details:not([open]) > :not(summary)')
    && each.getBoundingClientRect().right > edge + 1);
  const faults = over.map(each => each.tagName + '#' + each.id + ' hangs over the page');
  if (document.documentElement.scrollWidth > edge) faults.push('the page is ' + document.documentElement.scrollWidth + ' wide');
  return faults;
})()"""


CONTRAST = """() => {
  const parts = colour => colour.match(/[\\d.]+/g).map(Number);
  const light = colour => { const [r, g, b] = parts(colour).slice(0, 3).map(each => each / 255).map(each => each <= .03928 ? each / 12.92 : ((each + .055) / 1.055) ** 2.4);
    return .2126 * r + .7152 * g + .0722 * b; };
  const ground = element => { for (let at = element; at; at = at.parentElement) { const colour = getComputedStyle(at).backgroundColor;
    if (parts(colour)[3] !== 0 && colour !== 'rgba(0, 0, 0, 0)') return colour; } return 'rgb(255, 255, 255)'; };
  const faults = [];
  for (const each of document.querySelectorAll('p, label, legend, td, th, li, h1, h2, h3, pre, summary, code')) {
    if (each.getClientRects().length === 0 || each.textContent.trim() === '') continue;
    const [one, two] = [light(getComputedStyle(each).color), light(ground(each))].sort((a, b) => b - a);
    if ((one + .05) / (two + .05) < 4.5) faults.push(each.tagName + '#' + each.id + ' has a contrast of ' + ((one + .05) / (two + .05)).toFixed(1));
  }
  return [...new Set(faults)];
}"""


# Each border that is seen, of what isn't drawn by the browser itself, against the ground that it stands on.
BORDERS = """() => {
  const parts = colour => colour.match(/[\\d.]+/g).map(Number);
  const light = colour => { const [r, g, b] = parts(colour).slice(0, 3).map(each => each / 255).map(each => each <= .03928 ? each / 12.92 : ((each + .055) / 1.055) ** 2.4);
    return .2126 * r + .7152 * g + .0722 * b; };
  const isClear = colour => parts(colour)[3] === 0;
  const ground = element => { for (let at = element; at; at = at.parentElement) { const colour = getComputedStyle(at).backgroundColor; if (!isClear(colour)) return colour; } return 'rgb(255, 255, 255)'; };
  const faults = [];
  for (const each of document.querySelectorAll('body *:not(svg *, input[type=checkbox], input[type=radio], input[type=range], input[type=file])')) {
    if (each.getClientRects().length === 0 || each.getBoundingClientRect().width < 2) continue;
    const style = getComputedStyle(each);
    for (const side of ['Top', 'Right', 'Bottom', 'Left']) {
      const colour = style[`border${side}Color`];
      if (style[`border${side}Style`] === 'none' || style[`border${side}Width`] === '0px' || isClear(colour)) continue;
      const [one, two] = [light(colour), light(ground(each.parentElement))].sort((a, b) => b - a);
      if ((one + .05) / (two + .05) < 3) faults.push(`${each.tagName}.${each.className}#${each.id} has a border with a contrast of ${((one + .05) / (two + .05)).toFixed(1)}`);
    }
  }
  return [...new Set(faults)];
}"""


def differs(what, got, wanted):
    return [] if got == wanted else ["%s: %s, and not %s" % (what, repr(got)[:300], repr(wanted)[:300])]


def read(*path):
    with open(os.path.join(*path)) as file:
        return file.read()


def texts():
    """The names and texts of all examples and of the gallery."""
    for path in sorted(glob.glob(os.path.join(EXAMPLES, "*.*")) + glob.glob(os.path.join(EXAMPLES, "gallery", "*.*"))):
        if path.endswith((".litmus", ".order")):
            yield os.path.basename(path), read(path)


class Bench:
    """The bench of the page, and the program beside it."""

    IS_UNFOLDED = True  # the test and its settings are open

    def __init__(self, page):
        self.page, self.window = page, page.window

    def open(self, fragment="", width=1400):
        """Opens the page with the first example's choices known, and with its caches in sight."""
        self.open_fresh(fragment, width)
        self.value("byId('about').open = false; wantCaches(true); byId('test-part').open = %s" % ("true" if self.IS_UNFOLDED else "false"))
        if not fragment:
            self.value("putChoices(partsOf(EXAMPLES[FIRST_TEXT]).rest); answerNow(true)")
        self.to_end()

    def open_fresh(self, fragment="", width=1400):
        """Opens the page as one finds it."""
        self.window.resize(width, mobile=width < 500)
        self.window.open(self.page.address + ("#" + fragment if fragment else ""))
        self.value(READY)
        self.value("byId('about').hidden || drive.isOn || true")

    def to_end(self):
        """Makes all choices that are known, where the page drives the machine."""
        self.value("drive.isOn && goTo(drive.words.length)")

    def said(self, hint):
        """A hint of the program as the page says it, in its own words."""
        return self.value("pageHint(%s)" % json.dumps(hint))

    def load(self, name):
        self.value("loadText(%s)" % json.dumps(name))
        self.to_end()

    def value(self, expression):
        return self.page.value(expression)

    def text(self, selector):
        return self.page.text(selector)

    def fill(self, field, text):
        """Puts a text into a field as one who types does."""
        self.value("(field => { field.value = %s; field.dispatchEvent(new Event('input', { bubbles: true })); })(byId(%s))"
                   % (json.dumps(text), json.dumps(field)))

    def choose(self, command):
        self.value("byId('rarer').open = true")
        self.window.click("#commands input[value=%s]" % command)

    def program(self, text, *words):
        done = subprocess.run([self.page.program, *words], input=text if isinstance(text, bytes) else text.encode(), capture_output=True, timeout=300)
        return done.returncode, done.stdout.decode(), done.stderr.decode()

    def answer(self, text, words):
        """The module's answer in the page to an input under the words of a command line. As the program it reads the instructions of the
        grammar alone where the words ask for no others."""
        options = {"command": words[0], "instructions": "basic"}
        if words[0] == "outcomes":
            options["depth"] = 32
        rest = list(words[1:])
        while rest:
            name, _, joined = rest.pop(0)[2:].partition("=")
            value = True if name in ("json", "assert", "given") else joined or rest.pop(0)
            options[name] = int(value) if isinstance(value, str) and value.lstrip("+").isdigit() else value
        if options.pop("given", False):
            options["command"] = "counted"
        given = text if isinstance(text, bytes) else text.encode()
        found = self.value("(({ status, text, hint }) => [status, text, hint])(bench.tso.answer(%s, Uint8Array.from(atob('%s'), each => each.charCodeAt(0))))"
                           % (json.dumps(options), base64.b64encode(given).decode()))
        return tuple(found)

    def wait(self, condition):
        self.value("new Promise((done, failed) => { const end = Date.now() + 60000; const look = () => (%s) ? done() : Date.now() > end ? "
                   "failed(new Error('it never came')) : setTimeout(look, 10); look(); })" % condition)


def safety(bench):
    faults = list(bench.window.faults)
    bench.window.faults.clear()
    outside = [address for address in bench.window.requests if not address.startswith((bench.page.folder, "about:", "blob:"))]
    bench.window.requests.clear()
    return faults + ["asks for " + address for address in outside]


def spent(bench):
    """What the page's thread has spent on scripts, style and layout, in milliseconds of processor time."""
    metrics = {each["name"]: each["value"] for each in bench.window.call("Performance.getMetrics")["metrics"]}
    return 1000 * sum(metrics[name] for name in ("ScriptDuration", "RecalcStyleDuration", "LayoutDuration"))


def spent_by(bench, acts):
    """What each of these acts costs up to the layout that follows, in milliseconds of processor time: other work on the machine doesn't count."""
    bench.window.call("Performance.enable", timeDomain="threadTicks")
    times = []
    for act in acts:
        before = spent(bench)
        bench.value(act + "; document.body.offsetHeight")
        times.append(spent(bench) - before)
    bench.window.call("Performance.disable")
    return times
