"""A headless Chromium over its DevTools protocol by pipe, with the standard library alone, without a network."""
import base64
import json
import os
import select
import shutil
import subprocess
import tempfile
import time

NAMES = ("chromium", "chromium-browser", "google-chrome", "google-chrome-stable")
WORDS = [
    "--headless", "--remote-debugging-pipe", "--host-resolver-rules=MAP * ~NOTFOUND", "--disable-background-networking",
    "--disable-component-update", "--disable-default-apps", "--disable-extensions", "--disable-sync", "--disable-gpu",
    "--disable-dev-shm-usage", "--no-first-run", "--no-pings", "--no-proxy-server", "--hide-scrollbars",
    "--force-color-profile=srgb", "--font-render-hinting=none", "--lang=en-GB",
]
# So many seconds an answer may take; a loaded machine is slow.
PATIENCE = 120


class BrowserFault(Exception):
    """The browser is gone, answers an error, or answers nothing in time."""


def installed():
    """The program of a Chromium on the path, None where there is none."""
    return next((found for found in map(shutil.which, NAMES) if found), None)


class Browser:
    """One headless browser with one page. Its events that matter are kept: errors of the console, and what it asks for."""

    def __init__(self, program, width=1440, height=900):
        self.room = tempfile.mkdtemp(prefix="history-view-")
        self.buffer, self.number, self.answers = b"", 0, {}
        self.errors, self.asked, self.loaded = [], [], False
        self.process, self.to, self.back = self.begin(program, width, height)
        self.session = None
        target = self.call("Target.createTarget", {"url": "about:blank"})["targetId"]
        self.session = self.call("Target.attachToTarget", {"targetId": target, "flatten": True})["sessionId"]
        for domain in ("Page", "Runtime", "Log", "Network"):
            self.call(f"{domain}.enable")

    def begin(self, program, width, height):
        """Starts the program with its two pipes at the descriptors 3 and 4."""
        its_in, to = os.pipe()
        back, its_out = os.pipe()

        def place():
            # Out of the way first, since either may be 3 or 4 itself.
            far_in, far_out = os.dup(its_in), os.dup(its_out)
            high_in, high_out = os.dup2(far_in, 63), os.dup2(far_out, 64)
            os.dup2(high_in, 3)
            os.dup2(high_out, 4)

        words = [program, *WORDS, f"--user-data-dir={self.room}/profile", f"--window-size={width},{height}"]
        words += ["--no-sandbox"] if os.geteuid() == 0 else []
        environment = {**os.environ, "HOME": self.room, "LC_ALL": "C.UTF-8"}
        with open(os.path.join(self.room, "log"), "wb") as log:
            process = subprocess.Popen([*words, "about:blank"], preexec_fn=place, close_fds=False, stdin=subprocess.DEVNULL,
                                       stdout=log, stderr=log, env=environment)
        os.close(its_in)
        os.close(its_out)
        return process, to, back

    def pump(self, seconds):
        """Takes what the browser has sent, or waits for it no longer than this."""
        if not select.select([self.back], [], [], max(0, seconds))[0]:
            return
        data = os.read(self.back, 1 << 20)
        if not data:
            raise BrowserFault("the browser is gone")
        *messages, self.buffer = (self.buffer + data).split(b"\0")
        for message in messages:
            self.take(json.loads(message))

    def take(self, message):
        method, told = message.get("method"), message.get("params", {})
        if "id" in message:
            self.answers[message["id"]] = message
        elif method == "Page.loadEventFired":
            self.loaded = True
        elif method == "Network.requestWillBeSent":
            self.asked.append(told["request"]["url"])
        elif method == "Runtime.exceptionThrown":
            details = told["exceptionDetails"]
            self.errors.append(details.get("exception", {}).get("description", details["text"]))
        elif method == "Runtime.consoleAPICalled" and told["type"] in ("error", "warning", "assert"):
            self.errors.append(" ".join(str(value.get("value", value.get("description"))) for value in told["args"]))
        elif method == "Log.entryAdded" and told["entry"]["level"] in ("error", "warning"):
            self.errors.append(told["entry"]["text"])

    def call(self, method, told=None):
        """Calls a method of the protocol; its result."""
        self.number += 1
        message = {"id": self.number, "method": method, "params": told or {}}
        if self.session:
            message["sessionId"] = self.session
        os.write(self.to, json.dumps(message).encode("utf-8") + b"\0")
        answer = self.wait(lambda number=self.number: self.answers.pop(number, None), method)
        if "error" in answer:
            raise BrowserFault(f"{method}: {answer['error'].get('message')}")
        return answer.get("result", {})

    def wait(self, look, what):
        """Waits until something is there; what it is."""
        end = time.monotonic() + PATIENCE
        while True:
            found = look()
            if found:
                return found
            if time.monotonic() > end:
                raise BrowserFault(f"no answer in time: {what}")
            self.pump(0.05)

    def open(self, url):
        """Opens a page and waits until it is loaded."""
        self.loaded = False
        answer = self.call("Page.navigate", {"url": url})
        if "errorText" in answer:
            raise BrowserFault(f"{url}: {answer['errorText']}")
        self.wait(lambda: self.loaded, "the page's load event")

    def ask(self, expression):
        """The value of an expression in the page."""
        given = {"expression": expression, "returnByValue": True, "awaitPromise": True}
        answer = self.call("Runtime.evaluate", given)
        if "exceptionDetails" in answer:
            raise BrowserFault(f"{expression}: {answer['exceptionDetails']['text']}")
        return answer["result"].get("value")

    def click(self, selector):
        """Clicks in the middle of an element, as a mouse does."""
        place = self.ask("(() => { const element = document.querySelector(%s); element.scrollIntoView({block: 'center'});"
                         "const box = element.getBoundingClientRect();"
                         "return [box.left + Math.min(box.width / 2, 40), box.top + box.height / 2]; })()"
                         % json.dumps(selector))
        for kind in ("mousePressed", "mouseReleased"):
            self.call("Input.dispatchMouseEvent",
                      {"type": kind, "x": place[0], "y": place[1], "button": "left", "clickCount": 1})

    def press(self, key, text=None):
        """Presses a key where the focus is."""
        code = {"Enter": 13, "ArrowDown": 40, "ArrowUp": 38, "Home": 36, "End": 35, "Tab": 9}[key]
        given = {"key": key, "code": key, "windowsVirtualKeyCode": code, **({"text": text} if text else {})}
        self.call("Input.dispatchKeyEvent", {"type": "keyDown", **given})
        self.call("Input.dispatchKeyEvent", {"type": "keyUp", **given})

    def choose(self, select, value):
        """Sets a select element, as a user does."""
        self.ask("(() => { const e = document.querySelector(%s); e.value = %s;"
                 "e.dispatchEvent(new Event('change', {bubbles: true})); })()" % (json.dumps(select), json.dumps(value)))

    def scheme(self, name):
        """Whether the page is to be light or dark."""
        self.call("Emulation.setEmulatedMedia", {"features": [{"name": "prefers-color-scheme", "value": name}]})

    def size(self, width, height, scale=1):
        given = {"width": width, "height": height, "deviceScaleFactor": scale, "mobile": False}
        self.call("Emulation.setDeviceMetricsOverride", given)

    def picture(self):
        """A picture of the page as PNG."""
        return base64.b64decode(self.call("Page.captureScreenshot", {"format": "png"})["data"])

    def close(self):
        """Ends the browser that this began, and removes its folder."""
        try:
            self.session = None
            self.call("Browser.close")
            self.process.wait(PATIENCE)
        except (BrowserFault, OSError, subprocess.TimeoutExpired):
            self.process.kill()
            self.process.wait()
        os.close(self.to)
        os.close(self.back)
        shutil.rmtree(self.room, ignore_errors=True)
