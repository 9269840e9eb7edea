"""A headless Chromium of this run alone: its start, what DevTools tells of it, and the calls that the replay needs."""
import json
import os
import signal
import subprocess
import tempfile

from devtools import BrowserGone, CallFailed, Connection
from sightings import Sightings

BINARY = "/usr/lib/chromium/chromium"
# What no script is about: Chromium's own requests, and its moving of http to https.
SWITCHED_OFF = ("HttpsUpgrades", "OptimizationHints", "MediaRouter", "Translate", "AutofillServerCommunication")
SANDBOXED_FRAMES_APART = "IsolateSandboxedIframes"
WORDS = ("--headless", "--no-sandbox", "--disable-gpu", "--remote-debugging-pipe", "--ignore-certificate-errors",
         "--no-first-run", "--no-proxy-server", "--disable-background-networking", "--disable-component-update",
         "--disable-sync", "--disable-default-apps", "--disable-domain-reliability", "--no-pings",
         "--disable-popup-blocking", "--disable-extensions", "--disable-quic", "--disable-dev-shm-usage",
         "--disable-breakpad")
# Runs first in every document: a list of the messages that came, of the frames that it added and their elements.
FIRST_SCRIPT = """(() => { if (self.__inbox) return; self.__inbox = []; self.__children = []; self.__elements = [];
addEventListener('message', event => __inbox.push([event.origin, String(event.data)])); })()"""
HELD = {"patterns": [{"urlPattern": "http*", "resourceType": "Document", "requestStage": "Response"}]}
ATTACH = {"autoAttach": True, "waitForDebuggerOnStart": True, "flatten": True}
INTERNALS = "chrome://process-internals"
ALL_PAGES = """(async () => { const module = await import('chrome://process-internals/process_internals.mojom-webui.js');
const pages = (await module.ProcessInternalsHandler.getRemote().getAllWebContentsInfo()).infos;
return JSON.stringify(pages, (key, value) => typeof value === 'bigint' ? Number(value) : value); })()"""


def version():
    """The version of the installed Chromium, as it prints it: `Chromium 1.2.3.4`."""
    words = subprocess.run([BINARY, "--version"], capture_output=True, timeout=30, check=True).stdout.decode().split()
    return " ".join(words[:2])


def start_words(port, profile, isolated, sandboxed_apart):
    """The command line: every host is the server's port, and the isolated origins are those of the scripts."""
    off = SWITCHED_OFF if sandboxed_apart else SWITCHED_OFF + (SANDBOXED_FRAMES_APART,)
    words = [BINARY, *WORDS, "--user-data-dir=" + profile, f"--host-resolver-rules=MAP * 127.0.0.1:{port}"]
    words.append("--disable-features=" + ",".join(off))
    if isolated:
        words.append("--isolate-origins=" + ",".join(isolated))
    return words + ["about:blank"]


class Browser:
    """A running Chromium with a new profile. `close` ends it; the profile goes with the run's room."""

    def __init__(self, room, port, isolated=(), sandboxed_apart=False):
        profile = tempfile.mkdtemp(prefix="profile-", dir=room)
        to_read, to_write = os.pipe()
        from_read, from_write = os.pipe()
        self.log = open(os.path.join(profile, "standard-error"), "wb")
        self.process = subprocess.Popen(
            start_words(port, profile, isolated, sandboxed_apart), close_fds=False,
            preexec_fn=lambda: put_at_3_and_4(to_read, from_write), start_new_session=True,
            stdin=subprocess.DEVNULL, stdout=self.log, stderr=self.log,
            env=dict(os.environ, HOME=profile, TMPDIR=profile))
        os.close(to_read)
        os.close(from_write)
        self.seen = Sightings(self._on_target, self._on_response)
        self.connection = Connection(to_write, from_read, self.seen.take)
        self.pages, self.internals = [], None
        try:
            self.call("Target.setDiscoverTargets", {"discover": True}, timeout=30)
            self.call("Target.setAutoAttach", ATTACH)
            self.internals = self._open(INTERNALS)
            if not self.until(lambda: self._is_loaded(self.internals, INTERNALS), 30):
                raise CallFailed(f"{INTERNALS} did not load")
        except BaseException:
            self.close()
            raise

    def begin_script(self, origins):
        """Forgets what was seen, and what these origins have stored."""
        self.seen.forget()
        for origin in origins:
            stored = {"origin": origin, "storageTypes": "local_storage"}
            self.call("Storage.clearDataForOrigin", stored, self.seen.contexts[self.internals].session)

    def end_script(self):
        """Closes the pages of a script, and waits until they are gone, so that no later one shares their processes."""
        for page in self.pages:
            try:
                self.call("Target.closeTarget", {"targetId": page}, timeout=2)
            except CallFailed:
                pass
        self.until(lambda: not any(target["targetId"] in self.pages for target in self.seen.sessions.values()), 3)
        self.pages = []

    def _open(self, url):
        """A new page; gives its frame once that has a document."""
        target = self.call("Target.createTarget", {"url": url})["targetId"]
        if not self.until(lambda: target in self.seen.contexts, 10):
            raise CallFailed(f"a page of {url} did not open")
        return target

    def _is_loaded(self, frame, url):
        """Whether the frame's document is the one of this URL, and whole: a new page has an empty one before it."""
        try:
            at, state = self.evaluate(frame, "[location.href, document.readyState]")
        except (CallFailed, ValueError):
            # (the empty document went while it was asked)
            return False
        return at.startswith(url) and state == "complete"

    def _on_target(self, session):
        """Each new target waits until these were sent."""
        calls = [("Page.enable", {}), ("Runtime.enable", {}), ("Network.enable", {}),
                 ("Page.addScriptToEvaluateOnNewDocument", {"source": FIRST_SCRIPT, "runImmediately": True}),
                 ("Target.setAutoAttach", ATTACH), ("Fetch.enable", HELD), ("Runtime.runIfWaitingForDebugger", {})]
        for method, parameters in calls:
            self.connection.send(method, parameters, session)

    def _on_response(self, request):
        """Asks for the bytes of a response as they come to the renderer."""
        wanted = {"requestId": request.id}
        self.connection.send("Network.streamResourceContent", wanted, request.session, request.take_buffered)

    def call(self, method, parameters=None, session=None, timeout=20.0):
        return self.connection.call(method, parameters, session, timeout)

    def until(self, wanted, timeout):
        return self.connection.until(wanted, timeout)

    def settle(self, seconds):
        self.connection.settle(seconds)

    def evaluate(self, frame, script, gesture=False, timeout=20.0):
        """What a script comes to in a frame's document; {"!": text} where it throws."""
        context = self.seen.contexts.get(frame)
        if not context:
            raise CallFailed("the frame has no document")
        return self.evaluate_in(context, script, gesture, timeout)

    def evaluate_in(self, context, script, gesture=False, timeout=20.0):
        parameters = {"expression": script, "uniqueContextId": context.id, "awaitPromise": True, "returnByValue": True,
                      "userGesture": gesture}
        answer = self.call("Runtime.evaluate", parameters, context.session, timeout)
        if "exceptionDetails" in answer:
            details = answer["exceptionDetails"]
            text = (details.get("exception") or {}).get("description", details.get("text", ""))
            return {"!": text.split("\n")[0]}
        return answer["result"].get("value")

    def open_page(self):
        """A new page of a browsing context group of its own; gives its frame."""
        page = self._open("about:blank")
        self.pages.append(page)
        return page

    def let_go(self, frame, url, timeout):
        """Lets the held response for a frame's navigation to this URL through. Whether there was one."""
        url = url.split("#")[0]
        held = self.until(lambda: self.seen.held_response(frame, url), timeout)
        if held:
            self.seen.held.remove(held)
            self.connection.send("Fetch.continueRequest", {"requestId": held.request}, held.session)
        return bool(held)

    def frame_trees(self):
        """The frame trees of all pages with their processes, as chrome://process-internals has them."""
        return json.loads(self.evaluate(self.internals, ALL_PAGES))

    def close(self):
        """Ends the browser, by a signal to its own process group where it doesn't end by itself."""
        try:
            self.call("Browser.close", timeout=3)
        except (CallFailed, BrowserGone):
            pass
        try:
            self.process.wait(5)
        except subprocess.TimeoutExpired:
            os.killpg(self.process.pid, signal.SIGKILL)
            self.process.wait()
        self.connection.close()
        self.log.close()


def put_at_3_and_4(read_end, write_end):
    """In the new process: the two ends stand at the numbers that --remote-debugging-pipe reads and writes."""
    first, second = os.dup2(read_end, 63), os.dup2(write_end, 64)
    os.dup2(first, 3)
    os.dup2(second, 4)
    os.set_inheritable(3, True)
    os.set_inheritable(4, True)
