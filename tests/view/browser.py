"""A browser without a screen, driven by the DevTools protocol over a pipe: each message is JSON, and a zero byte ends it."""
import base64
import fcntl
import json
import os
import select
import shutil
import subprocess
import sys
import tempfile

NAME = "chromium"
PRINTED_TEXT = "pdftotext"
INSTALL = "apt-get install -y --no-install-recommends chromium poppler-utils"
PATIENCE = 120  # seconds
# The middle of an element, which is brought into sight first, as one does who presses it: what is folded is opened.
PLACE = """(found => {
  for (let part = found; (part = part.parentElement?.closest('details:not([open])')); ) if (!found.matches('summary')) part.open = true;
  const { top, bottom } = found.getBoundingClientRect();
  if (top < 0 || bottom > innerHeight) found.scrollIntoView({ block: 'center' });
  const { x, y, width, height } = found.getBoundingClientRect();
  return [x + width / 2, y + height / 2];
})(document.querySelector(%s))"""
KEY_CODES = {"End": 35, "Home": 36, "ArrowLeft": 37, "ArrowRight": 39, "Escape": 27}


class Browser:
    """One page of a browser. `faults` has what its scripts threw, its console said and its policy forbade; `requests` the addresses asked for."""

    def __init__(self):
        for program in (NAME, PRINTED_TEXT):
            if shutil.which(program) is None:
                sys.exit("%s isn't there: %s" % (program, INSTALL))
        self.profile = tempfile.mkdtemp(prefix="tso-view-profile-")
        self.faults, self.requests = [], []
        self.count, self.unread = 0, b""
        self.start()
        target = self.call("Target.createTarget", url="about:blank")["targetId"]
        self.session = self.call("Target.attachToTarget", targetId=target, flatten=True)["sessionId"]
        for domain in ("Page", "Runtime", "Network", "Log", "DOM"):
            self.call(domain + ".enable")

    def start(self):
        commands, answers = os.pipe(), os.pipe()
        # The browser reads 3 and writes 4, so that its ends of the pipes must not be these before they are put there.
        ends = [fcntl.fcntl(end, fcntl.F_DUPFD_CLOEXEC, 10) for end in (commands[0], answers[1])]
        words = [NAME, "--headless", "--remote-debugging-pipe", "--disable-gpu", "--hide-scrollbars", "--no-first-run",
                 "--user-data-dir=" + self.profile]
        if os.geteuid() == 0:
            words.append("--no-sandbox")  # the browser's sandbox isn't to be had as root
        self.process = subprocess.Popen(words, stdin=subprocess.DEVNULL, stdout=subprocess.DEVNULL, stderr=subprocess.DEVNULL,
                                        close_fds=False, preexec_fn=lambda: [os.dup2(ends[0], 3), os.dup2(ends[1], 4)])
        for end in (commands[0], answers[1], *ends):
            os.close(end)
        self.commands, self.answers = commands[1], answers[0]
        self.session = None

    def __enter__(self):
        return self

    def __exit__(self, *_):
        os.close(self.commands)  # the browser ends where its pipe does
        try:
            self.process.wait(30)
        except subprocess.TimeoutExpired:
            self.process.kill()
        os.close(self.answers)
        shutil.rmtree(self.profile, ignore_errors=True)

    def call(self, method, **parameters):
        self.count += 1
        message = {"id": self.count, "method": method, "params": parameters}
        if self.session is not None:
            message["sessionId"] = self.session
        data = json.dumps(message).encode() + b"\0"
        while data:
            data = data[os.write(self.commands, data):]
        while True:
            answer = self.next_message()
            if answer.get("id") == self.count:
                if "error" in answer:
                    raise RuntimeError("%s: %s" % (method, answer["error"]))
                return answer["result"]
            self.note(answer)

    def next_message(self):
        while b"\0" not in self.unread:
            if not select.select([self.answers], [], [], PATIENCE)[0]:
                raise RuntimeError("the browser doesn't answer")
            read = os.read(self.answers, 1 << 16)
            if not read:
                raise RuntimeError("the browser has ended")
            self.unread += read
        message, _, self.unread = self.unread.partition(b"\0")
        return json.loads(message)

    def note(self, event):
        method, said = event.get("method"), event.get("params")
        if method == "Runtime.exceptionThrown":
            self.faults.append(said["exceptionDetails"].get("exception", {}).get("description", said["exceptionDetails"]["text"]))
        elif method == "Log.entryAdded" and said["entry"]["level"] == "error":
            self.faults.append(said["entry"]["text"])
        elif method == "Runtime.consoleAPICalled" and said["type"] in ("error", "warning", "assert"):
            self.faults.append(str(said["args"]))
        elif method == "Network.requestWillBeSent":
            self.requests.append(said["request"]["url"])

    def open(self, address):
        """Opens an address anew, even where only what stands after its `#` has changed."""
        self.call("Page.navigate", url="about:blank")
        self.call("Page.navigate", url=address)
        self.value("new Promise(done => document.readyState === 'complete' ? done() : addEventListener('load', () => done()))")

    def value(self, expression):
        """The value of an expression of the page, awaited where it is a promise."""
        answer = self.call("Runtime.evaluate", expression=expression, awaitPromise=True, returnByValue=True)
        if "exceptionDetails" in answer:
            raise RuntimeError("%s: %s" % (expression[:80], answer["exceptionDetails"]["exception"].get("description")))
        return answer["result"].get("value")

    def press(self, key):
        for kind in ("rawKeyDown", "keyUp"):
            self.call("Input.dispatchKeyEvent", type=kind, key=key, code=key, windowsVirtualKeyCode=KEY_CODES[key])

    def key(self, key):
        """A key with the text that it types."""
        for kind in ("keyDown", "keyUp"):
            self.call("Input.dispatchKeyEvent", type=kind, key=key, text=key if kind == "keyDown" else "")

    def reload(self):
        self.call("Page.reload")
        self.value("new Promise(done => document.readyState === 'complete' ? done() : addEventListener('load', () => done()))")

    def click(self, selector):
        x, y = self.value(PLACE % json.dumps(selector))
        for kind in ("mousePressed", "mouseReleased"):
            self.call("Input.dispatchMouseEvent", type=kind, x=x, y=y, button="left", clickCount=1)

    def type(self, text):
        """What a keyboard or a clipboard puts where the focus is."""
        self.call("Input.insertText", text=text)

    def choose_file(self, selector, path):
        root = self.call("DOM.getDocument")["root"]["nodeId"]
        node = self.call("DOM.querySelector", nodeId=root, selector=selector)["nodeId"]
        self.call("DOM.setFileInputFiles", files=[path], nodeId=node)

    def resize(self, width, height=900, mobile=False):
        self.call("Emulation.setDeviceMetricsOverride", width=width, height=height, deviceScaleFactor=1, mobile=mobile)

    def print_media(self, on):
        self.call("Emulation.setEmulatedMedia", media="print" if on else "")

    def screenshot(self, path, whole=True):
        data = self.call("Page.captureScreenshot", format="png", captureBeyondViewport=whole)["data"]
        with open(path, "wb") as file:
            file.write(base64.b64decode(data))

    def printed(self):
        """The bytes of the page as it prints on A4."""
        return base64.b64decode(self.call("Page.printToPDF", paperWidth=8.27, paperHeight=11.69, preferCSSPageSize=True)["data"])
