"""Drives a page in headless Chromium through its debugging pipe, with nothing but Python's own library.

Chromium reads commands in JSON from its file 3, each ended by a byte 0, and writes replies and events to its file 4.
"""
import base64
import fcntl
import json
import os
import select
import shutil
import signal

from program import PATIENCE

PROGRAMS = ("chromium", "chromium-browser", "google-chrome")
FIRST_FREE = 10  # above the files that Chromium wants as 3 and 4
KEYS = {"ArrowLeft": 37, "ArrowUp": 38, "ArrowRight": 39, "ArrowDown": 40, "Home": 36, "End": 35, "Escape": 27, "Tab": 9}
WRONG = ("Runtime.exceptionThrown", "Log.entryAdded")


class Stuck(Exception):
    """Chromium has not answered in time, has ended, or refuses a command."""


def program():
    """Where Chromium is, or None."""
    return next(filter(None, map(shutil.which, PROGRAMS)), None)


def pipe():
    """Both ends of a pipe, neither of them a file that the child gets by number."""
    ends = os.pipe()
    moved = [fcntl.fcntl(end, fcntl.F_DUPFD_CLOEXEC, FIRST_FREE) for end in ends]
    for end in ends:
        os.close(end)
    return moved


def flags(folder):
    """Nothing of the user's is read, and nothing is asked of the network. Root has no sandbox."""
    return ["--headless=new", "--remote-debugging-pipe", f"--user-data-dir={folder}", "--disable-gpu", "--no-first-run",
            "--disable-background-networking", "--disable-component-update", "--disable-dev-shm-usage", "--disable-extensions",
            "--disable-sync", "--hide-scrollbars", *(["--no-sandbox"] if os.geteuid() == 0 else [])]


class Page:
    """A page in a browser of its own, which keeps what went wrong and which addresses were asked for. No answer is waited for too long."""

    def __init__(self, folder):
        self.faults, self.addresses, self.seen = [], [], set()
        self.sent, self.got, self.session = 0, b"", None
        taken, self.commands = pipe()
        self.replies, given = pipe()
        nothing = os.open(os.devnull, os.O_RDWR | os.O_CLOEXEC)
        files = [(os.POSIX_SPAWN_DUP2, nothing, file) for file in (0, 1, 2)]
        files += [(os.POSIX_SPAWN_DUP2, taken, 3), (os.POSIX_SPAWN_DUP2, given, 4)]
        chromium = program()
        self.child = os.posix_spawn(chromium, [chromium, *flags(folder)], os.environ, file_actions=files, setpgroup=0)
        for file in (taken, given, nothing):
            os.close(file)

    def __enter__(self):
        target = self.call("Target.createTarget", url="about:blank")["targetId"]
        self.session = self.call("Target.attachToTarget", targetId=target, flatten=True)["sessionId"]
        for domain in ("Page", "Runtime", "Log", "Network"):
            self.call(f"{domain}.enable")
        return self

    def __exit__(self, *_):
        """Ends the browser and all that it has started."""
        try:
            os.killpg(self.child, signal.SIGKILL)
        except ProcessLookupError:
            pass
        os.waitpid(self.child, 0)
        os.close(self.commands)
        os.close(self.replies)

    # ---- messages

    def message(self):
        """The next reply or event."""
        while b"\0" not in self.got:
            if not select.select([self.replies], [], [], PATIENCE)[0]:
                raise Stuck("no answer in time")
            more = os.read(self.replies, 1 << 16)
            if not more:
                raise Stuck("it has ended")
            self.got += more
        text, _, self.got = self.got.partition(b"\0")
        return json.loads(text)

    def take(self, message):
        """Keeps what an event tells."""
        name, told = message.get("method", ""), message.get("params", {})
        self.seen.add(name)
        if name in WRONG:
            self.faults.append(json.dumps(told))
        elif name == "Runtime.consoleAPICalled" and told["type"] in ("error", "warning", "assert"):
            self.faults.append(json.dumps(told["args"]))
        elif name == "Network.requestWillBeSent":
            self.addresses.append(told["request"]["url"])

    def call(self, method, **params):
        """The reply to a command."""
        self.sent += 1
        order = {"id": self.sent, "method": method, "params": params}
        if self.session:
            order["sessionId"] = self.session
        os.write(self.commands, json.dumps(order).encode() + b"\0")
        while (message := self.message()).get("id") != self.sent:
            self.take(message)
        if "error" in message:
            raise Stuck(f"{method}: {message['error']['message']}")
        return message["result"]

    # ---- what a user does and sees

    def size(self, width, height):
        self.call("Emulation.setDeviceMetricsOverride", width=width, height=height, deviceScaleFactor=1, mobile=False)

    def scheme(self, name):
        """Light or dark, as the user's system is set."""
        self.call("Emulation.setEmulatedMedia", features=[{"name": "prefers-color-scheme", "value": name}])

    def open(self, address):
        self.seen.discard("Page.loadEventFired")
        is_new = "loaderId" in self.call("Page.navigate", url=address)
        while is_new and "Page.loadEventFired" not in self.seen:
            self.take(self.message())

    def ask(self, expression):
        """What an expression of JavaScript is in the page."""
        told = self.call("Runtime.evaluate", expression=expression, returnByValue=True)
        if "exceptionDetails" in told:
            raise Stuck(f"{expression}: {json.dumps(told['exceptionDetails'])}")
        return told["result"].get("value")

    def press(self, key):
        for kind in ("rawKeyDown", "keyUp"):
            self.call("Input.dispatchKeyEvent", type=kind, key=key, code=key, windowsVirtualKeyCode=KEYS[key])

    def point(self, x, y, click=False):
        self.call("Input.dispatchMouseEvent", type="mouseMoved", x=x, y=y)
        for kind in ("mousePressed", "mouseReleased") if click else ():
            self.call("Input.dispatchMouseEvent", type=kind, x=x, y=y, button="left", clickCount=1)

    def drag(self, begin, end):
        """From one point to another with the button down."""
        x, y = begin
        self.call("Input.dispatchMouseEvent", type="mouseMoved", x=x, y=y)
        self.call("Input.dispatchMouseEvent", type="mousePressed", x=x, y=y, button="left", clickCount=1)
        x, y = end
        self.call("Input.dispatchMouseEvent", type="mouseMoved", x=x, y=y, button="left")
        self.call("Input.dispatchMouseEvent", type="mouseReleased", x=x, y=y, button="left", clickCount=1)

    def picture(self, path, whole=True):
        """A screenshot of the whole page, or of what is in view."""
        told = self.call("Page.captureScreenshot", format="png", captureBeyondViewport=whole)
        with open(path, "wb") as file:
            file.write(base64.b64decode(told["data"]))
