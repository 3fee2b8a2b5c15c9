"""A browser without a window, driven by its debugging pipe: a page is opened, keys are typed, and what stands there is read.

Needs nothing but Chromium and Python.
"""
import base64
import json
import os
import select
import subprocess
import tempfile

PATIENCE = 300
KEYS = {"ArrowLeft": 37, "ArrowRight": 39, "PageUp": 33, "PageDown": 34, "Home": 36, "End": 35, "Tab": 9, " ": 32}


class Refused(Exception):
    """What the browser refuses, or a page's script throws."""


class Browser:
    def __init__(self, program):
        """Starts it; its pipe is the descriptors 3 and 4, as it wants them."""
        self.folder = tempfile.TemporaryDirectory()
        wanted, self.to = os.pipe()
        self.answers, told = os.pipe()
        words = [program, "--headless=new", "--no-sandbox", "--disable-gpu", "--hide-scrollbars", "--no-first-run",
                 "--disable-background-networking", "--remote-debugging-pipe", "--user-data-dir=" + self.folder.name]
        self.ran = subprocess.Popen(["sh", "-c", 'exec "$0" "$@" 3<&%d 4>&%d' % (wanted, told), *words],
                                    pass_fds=(wanted, told), stdout=subprocess.DEVNULL, stderr=subprocess.DEVNULL)
        os.close(wanted)
        os.close(told)
        self.said, self.count, self.events, self.session = b"", 0, [], None
        try:
            self.begin()
        except (Refused, BrokenPipeError):
            self.end()
            raise Refused("%s doesn't start" % program) from None

    def begin(self):
        target = self.ask("Target.createTarget", url="about:blank")["targetId"]
        self.session = self.ask("Target.attachToTarget", targetId=target, flatten=True)["sessionId"]
        for domain in ("Page", "Runtime", "Network", "Log"):
            self.ask(domain + ".enable")

    def end(self):
        os.close(self.to)
        try:
            self.ran.wait(20)
        except subprocess.TimeoutExpired:
            self.ran.kill()
            self.ran.wait()
        os.close(self.answers)
        self.folder.cleanup()

    def message(self):
        """The next message of the browser."""
        while b"\0" not in self.said:
            if not select.select([self.answers], [], [], PATIENCE)[0]:
                raise Refused("the browser has said nothing for %d seconds" % PATIENCE)
            part = os.read(self.answers, 1 << 16)
            if not part:
                raise Refused("the browser has ended")
            self.said += part
        told, self.said = self.said.split(b"\0", 1)
        return json.loads(told)

    def ask(self, method, **words):
        """What it answers to a command; events that come before it are kept."""
        self.count += 1
        asked = {"id": self.count, "method": method, "params": words}
        if self.session:
            asked["sessionId"] = self.session
        os.write(self.to, json.dumps(asked).encode() + b"\0")
        while (told := self.message()).get("id") != self.count:
            self.events.append(told)
        if "error" in told:
            raise Refused("%s: %s" % (method, told["error"]["message"]))
        return told["result"]

    def open(self, path, place=""):
        """Opens a page anew, behind #place if one is given, and waits until its scripts have ended."""
        self.ask("Page.navigate", url="about:blank")
        self.wait_for("Page.loadEventFired")
        self.events.clear()
        self.ask("Page.navigate", url="file://" + path + ("#" + place if place else ""))
        self.wait_for("Page.loadEventFired")

    def wait_for(self, method):
        while not any(event.get("method") == method for event in self.events):
            self.events.append(self.message())
        self.events = [event for event in self.events if event.get("method") != method]

    def value(self, expression):
        """What an expression of a script comes to in the page."""
        told = self.ask("Runtime.evaluate", expression=expression, returnByValue=True, awaitPromise=True)
        if "exceptionDetails" in told:
            raise Refused(told["exceptionDetails"].get("exception", {}).get("description", "the page's script failed"))
        return told["result"].get("value")

    def key(self, name):
        for kind in ("rawKeyDown", "keyUp"):
            self.ask("Input.dispatchKeyEvent", type=kind, key=name, code=name, windowsVirtualKeyCode=KEYS[name])

    def click(self, left, top):
        for kind in ("mousePressed", "mouseReleased"):
            self.ask("Input.dispatchMouseEvent", type=kind, x=left, y=top, button="left", clickCount=1)

    def screen(self, width, height, scheme="light"):
        """Sets how wide and high the window is, and whether its system is dark."""
        self.ask("Emulation.setDeviceMetricsOverride", width=width, height=height, deviceScaleFactor=1, mobile=False)
        self.ask("Emulation.setEmulatedMedia", features=[{"name": "prefers-color-scheme", "value": scheme}])

    def picture(self):
        """What is seen in the window, as PNG."""
        return base64.b64decode(self.ask("Page.captureScreenshot", format="png")["data"])

    def requests(self):
        """The addresses that were asked for since the page was opened."""
        return [event["params"]["request"]["url"] for event in self.events if event.get("method") == "Network.requestWillBeSent"]

    def faults(self):
        """What the page's scripts threw, and what the browser noted of it, since it was opened."""
        thrown = [event["params"]["exceptionDetails"]["text"] for event in self.events if event.get("method") == "Runtime.exceptionThrown"]
        return thrown + [event["params"]["entry"]["text"] for event in self.events if event.get("method") == "Log.entryAdded"]
