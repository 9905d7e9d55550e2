"""Firefox without a screen, driven by WebDriver BiDi: JSON in the frames of a WebSocket. It has what of browser.py the rows need that it runs."""
import base64
import json
import os
import shutil
import socket
import struct
import subprocess
import tempfile
import time

from browser import PLACE

NAME = "firefox-esr"
PATIENCE = 120  # seconds
KEYS = {"ArrowLeft": "\ue012", "ArrowRight": "\ue014", "Home": "\ue011", "End": "\ue010", "Tab": "\ue004"}
SETTINGS = {"browser.shell.checkDefaultBrowser": False, "browser.startup.page": 0, "datareporting.policy.dataSubmissionEnabled": False, "toolkit.telemetry.enabled": False,
            "app.update.enabled": False, "browser.aboutwelcome.enabled": False, "network.captive-portal-service.enabled": False, "network.connectivity-service.enabled": False}
TEXT, CLOSE, PING, PONG = 1, 8, 9, 10


class Socket:
    """A WebSocket: texts in both directions."""

    def __init__(self, host, port, path):
        self.stream = socket.create_connection((host, port), timeout=PATIENCE)
        self.unread = b""
        asked = "GET %s HTTP/1.1\r\nHost: %s:%d\r\nUpgrade: websocket\r\nConnection: Upgrade\r\nSec-WebSocket-Key: %s\r\nSec-WebSocket-Version: 13\r\n\r\n"
        self.stream.sendall((asked % (path, host, port, base64.b64encode(os.urandom(16)).decode())).encode())
        while b"\r\n\r\n" not in self.unread:
            self.unread += self.stream.recv(1 << 16)
        head, _, self.unread = self.unread.partition(b"\r\n\r\n")
        if b" 101 " not in head.split(b"\r\n")[0]:
            raise RuntimeError("no socket: %s" % head[:200])

    def send(self, data, kind=TEXT):
        size = len(data)
        length = bytes([0x80 | size]) if size < 126 else b"\xfe" + struct.pack(">H", size) if size < 1 << 16 else b"\xff" + struct.pack(">Q", size)
        mask = b"page"
        masked = bytes(each ^ mask[at % 4] for at, each in enumerate(data))
        self.stream.sendall(bytes([0x80 | kind]) + length + mask + masked)

    def take(self, count):
        while len(self.unread) < count:
            read = self.stream.recv(1 << 16)
            if not read:
                raise RuntimeError("the browser has ended")
            self.unread += read
        taken, self.unread = self.unread[:count], self.unread[count:]
        return taken

    def frame(self):
        first, size = self.take(2)
        size &= 0x7f
        size = struct.unpack(">H", self.take(2))[0] if size == 126 else struct.unpack(">Q", self.take(8))[0] if size == 127 else size
        return first & 0x80, first & 0x0f, self.take(size)

    def receive(self):
        text = b""
        while True:
            is_last, kind, data = self.frame()
            if kind == CLOSE:
                raise RuntimeError("the browser has closed its socket")
            if kind == PING:
                self.send(data, PONG)
            elif kind != PONG:
                text += data
                if is_last:
                    return text


def plain(remote):
    """A value as the protocol tells it, as one of Python."""
    kind, value = remote["type"], remote.get("value")
    if kind in ("array", "set", "nodelist", "htmlcollection"):
        return [plain(each) for each in value or []]
    if kind in ("object", "map"):
        return {name if isinstance(name, str) else plain(name): plain(each) for name, each in value or []}
    return value if kind in ("string", "number", "boolean") else None


class Firefox:
    """One page of Firefox. `faults` has what its scripts threw and its console said; `requests` the addresses asked for."""

    def __init__(self):
        self.profile = tempfile.mkdtemp(prefix="tso-view-firefox-")
        self.faults, self.requests, self.count, self.process = [], [], 0, None
        with open(os.path.join(self.profile, "user.js"), "w") as file:
            file.writelines("user_pref(%s, %s);\n" % (json.dumps(name), json.dumps(value)) for name, value in SETTINGS.items())
        try:
            self.start()
        except BaseException:
            self.__exit__()
            raise

    def start(self):
        words = [NAME, "--headless", "--no-remote", "--profile", self.profile, "--remote-debugging-port", "0", "about:blank"]
        self.process = subprocess.Popen(words, stdin=subprocess.DEVNULL, stdout=subprocess.DEVNULL, stderr=subprocess.DEVNULL, env={**os.environ, "HOME": self.profile})
        told, end = os.path.join(self.profile, "WebDriverBiDiServer.json"), time.monotonic() + PATIENCE
        while not os.path.exists(told) or os.path.getsize(told) == 0:
            if time.monotonic() > end or self.process.poll() is not None:
                raise RuntimeError("Firefox doesn't begin")
            time.sleep(0.1)
        with open(told) as file:
            server = json.load(file)
        self.socket = Socket(server["ws_host"], server["ws_port"], "/session")
        self.call("session.new", capabilities={})
        self.context = self.call("browsingContext.getTree")["contexts"][0]["context"]
        self.call("session.subscribe", events=["log.entryAdded", "network.beforeRequestSent"])

    def __enter__(self):
        return self

    def __exit__(self, *_):
        if self.process is not None:
            self.process.terminate()
            try:
                self.process.wait(30)
            except subprocess.TimeoutExpired:
                self.process.kill()
        shutil.rmtree(self.profile, ignore_errors=True)

    def call(self, method, **parameters):
        self.count += 1
        self.socket.send(json.dumps({"id": self.count, "method": method, "params": parameters}).encode())
        while True:
            answer = json.loads(self.socket.receive())
            if answer.get("id") == self.count:
                if answer["type"] == "error":
                    raise RuntimeError("%s: %s" % (method, answer["message"]))
                return answer["result"]
            self.note(answer)

    def note(self, event):
        method, said = event.get("method"), event.get("params", {})
        if method == "log.entryAdded" and said["level"] == "error":
            self.faults.append(str(said.get("text")))
        elif method == "network.beforeRequestSent" and not said["request"]["url"].startswith("data:font/"):  # one of its own, at its first page: ours may load none
            self.requests.append(said["request"]["url"])

    def open(self, address):
        """Opens an address anew, even where only what stands after its `#` has changed."""
        for each in ("about:blank", address):
            self.call("browsingContext.navigate", context=self.context, url=each, wait="complete")

    def reload(self):
        self.call("browsingContext.reload", context=self.context, wait="complete")

    def value(self, expression):
        """The value of an expression of the page, awaited where it is a promise."""
        answer = self.call("script.evaluate", expression=expression, target={"context": self.context}, awaitPromise=True, resultOwnership="none")
        if answer["type"] == "exception":
            raise RuntimeError("%s: %s" % (expression[:80], answer["exceptionDetails"]["text"]))
        return plain(answer["result"])

    def act(self, kind, actions, **more):
        self.call("input.performActions", context=self.context, actions=[{"type": kind, "id": kind, "actions": actions, **more}])

    def press(self, key):
        self.act("key", [{"type": each, "value": KEYS.get(key, key)} for each in ("keyDown", "keyUp")])

    key = press

    def click(self, selector):
        x, y = self.value(PLACE % json.dumps(selector))
        move = {"type": "pointerMove", "x": int(x), "y": int(y), "origin": "viewport"}
        self.act("pointer", [move, {"type": "pointerDown", "button": 0}, {"type": "pointerUp", "button": 0}], parameters={"pointerType": "mouse"})

    def resize(self, width, height=900, mobile=False):
        self.call("browsingContext.setViewport", context=self.context, viewport={"width": width, "height": height}, devicePixelRatio=1)

    def screenshot(self, path, whole=True):
        data = self.call("browsingContext.captureScreenshot", context=self.context, origin="document" if whole else "viewport")["data"]
        with open(path, "wb") as file:
            file.write(base64.b64decode(data))


def is_there():
    return shutil.which(NAME) is not None
