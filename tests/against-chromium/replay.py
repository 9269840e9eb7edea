"""Does in Chromium what a history says, line by line, and writes down what each line is compared with."""
import time

import actions
from comparison import Comparison, response_text
from devtools import CallFailed
from fetches import perform
from frames import Document, Frames, Navigation
from history import origin_text, text_of_hex
from places import Places

# Chromium's errors for the ends of navigations.
END_ERRORS = {"N2": "net::ERR_INVALID_REDIRECT", "N3": "net::ERR_UNSAFE_REDIRECT", "N5": "net::ERR_TOO_MANY_REDIRECTS",
              "N7": "net::ERR_EMPTY_RESPONSE", "N8": "net::ERR_ABORTED"}
SCRIPT_SECONDS = 90
# How long something is waited for that comes at once where both agree.
PATIENCE = 10.0
# How long a message is waited for, which one altered history after another has in vain.
MESSAGE_SECONDS = 3.0
LOOK = "[location.href, self.origin, document.readyState]"


class OutOfTime(Exception):
    """A script took longer than it may."""


class Replay:
    """The replay of a history. `run` gives the comparisons; `left_out` counts lines behind a difference or a forgery."""

    def __init__(self, browser, server, script, lines):
        self.browser, self.script, self.lines = browser, script, lines
        self.frames = Frames(script.start)
        self.places = Places(browser, self.frames)
        self.comparisons, self.left_out = [], 0
        self.end = time.monotonic() + SCRIPT_SECONDS
        server.load(script.resources)

    def run(self):
        self.browser.begin_script(self.script.stores())
        try:
            for line in self.lines:
                if time.monotonic() > self.end:
                    raise OutOfTime(f"{self.script.name}: {line.text}")
                follow = getattr(self, "follow_" + line.kind, None)
                if follow:
                    self.follow_line(follow, line)
            self.browser.settle(0.1)
            self.look_at_the_end()
        finally:
            self.browser.end_script()
        return self.comparisons

    def follow_line(self, follow, line):
        """What the browser refuses, or a line that names what isn't there, is a difference at this line."""
        try:
            follow(line)
        except (CallFailed, KeyError, IndexError) as error:
            self.compare(line.text, "driving", "done", f"{type(error).__name__} {error}")

    def compare(self, at, subject, model, chromium):
        self.comparisons.append(Comparison(self.script.name, at, subject, model, chromium))

    def leave_out(self):
        self.left_out += 1

    # Pages and navigations

    def follow_open(self, line):
        number = line.number(1)
        frame = self.browser.open_page()
        self.frames.ids[number], self.frames.parents[number] = frame, None
        session = self.browser.seen.contexts[frame].session
        self.browser.connection.send("Page.navigate", {"url": self.script.start[number]}, session)

    def frame_id(self, navigation):
        return self.frames.ids.get(navigation.frame)

    def navigation_at(self, line, place):
        """The navigation of a line; None where it differed before, or Chromium doesn't have it."""
        navigation = self.frames.navigations.get(line.number(place))
        if not navigation or navigation.lost or not self.frame_id(navigation):
            self.leave_out()
            return None
        return navigation

    def release(self, navigation):
        """Lets the response that the navigation waits for through."""
        if navigation.is_web:
            frame = self.frame_id(navigation)
            navigation.mark = len(self.browser.seen.documents.get(frame, []))
            self.browser.let_go(frame, navigation.url, PATIENCE)

    def request_of(self, navigation):
        """The newest request of a navigation's frame."""
        found = self.browser.seen.navigations(self.frame_id(navigation))
        return found[-1] if found else None

    def follow_hop(self, line):
        if line.words[1] == "req":
            self.follow_request_hop(line)
            return
        navigation = self.navigation_at(line, 2)
        if not navigation:
            return
        self.release(navigation)
        navigation.hops += 1

        def came():
            request = self.request_of(navigation)
            return request and (len(request.urls) > navigation.hops or request.failure) or self.shown(navigation)
        self.browser.until(came, PATIENCE)
        request = self.request_of(navigation)
        if self.compare_hop(line, request, navigation.hops):
            navigation.url = request.urls[navigation.hops]
        else:
            navigation.lost = True

    def compare_hop(self, line, request, hops):
        """Compares where a redirect leads. Whether there was one."""
        was_one = bool(request) and len(request.urls) > hops
        if was_one:
            seen = "to " + request.urls[hops]
        else:
            seen = f"none, {request.failure}" if request and request.failure else "none"
        self.compare(line.text, "redirect", "to " + " ".join(line.words[3:]), seen)
        return was_one

    def follow_order(self, line):
        navigation = self.frames.navigations.get(line.number(1)) or Navigation(None, "")
        navigation.process, navigation.site = line.number(2), line.words[3].removeprefix("=")

    def follow_navend(self, line):
        navigation = self.navigation_at(line, 1)
        if not navigation:
            return
        wanted = END_ERRORS.get(line.words[2])
        if not wanted:
            self.leave_out()
            return
        self.release(navigation)

        def ended():
            request = self.request_of(navigation)
            return request and request.failure or self.shown(navigation)
        self.browser.until(ended, PATIENCE)
        request = self.request_of(navigation)
        seen = request.failure if request and request.failure else "a document"
        if navigation.frame in self.frames.current:
            if seen != END_ERRORS["N8"]:
                self.browser.until(lambda: self.shown(navigation), PATIENCE)
            is_error_page = any("unreachableUrl" in document for document in self.shown(navigation))
            wanted += ", the old document stays"
            seen += ", an error page" if is_error_page else ", the old document stays"
        self.compare(line.text, "end", wanted, seen)
        navigation.lost = True

    def shown(self, navigation):
        """What the frame has shown since the navigation was let through."""
        return self.browser.seen.documents.get(self.frame_id(navigation), [])[navigation.mark:]

    def follow_commit(self, line):
        if line.reply != "ok":
            self.leave_out()
            return
        number = line.number(2)
        navigation = self.navigation_at(line, 2)
        if not navigation:
            return
        for frame in self.frames.below(navigation.frame):
            self.collect(frame, is_replaced=True)
        self.release(navigation)
        url = text_of_hex(line.words[4])
        shown = self.arrive(navigation, url)
        request = self.request_of(navigation) if navigation.is_web else None
        seen = self.redirected(" of ".join(shown[:2]), len(request.urls) - 1 if request else 0)
        model = self.redirected(f"{url} of {origin_text(line.words[3])}", navigation.hops)
        self.compare(line.text, "document", model, seen)
        if is_at(shown, url):
            self.begin_document(line, number, navigation, url)
        else:
            navigation.lost = True

    @staticmethod
    def redirected(text, hops):
        return text + (f", {hops} redirected" if hops else "")

    def arrive(self, navigation, url):
        """Waits until the frame runs the document of a navigation. What `LOOK` gives there, or what came in its place."""
        frame, last, end = self.frame_id(navigation), ["no document"], time.monotonic() + PATIENCE
        while time.monotonic() < end:
            shown = self.shown(navigation)
            request = self.request_of(navigation) if navigation.is_web else None
            failed = request.failure if request else ""
            if any("unreachableUrl" in document for document in shown) or (failed and not shown):
                return [failed or "an error page"]
            if shown or (navigation.is_first and not navigation.is_web):
                last = self.look(frame) or last
                if is_at(last, url) and last[2] == "complete":
                    break
            self.browser.settle(0.01)
        return last

    def look(self, frame):
        try:
            return self.browser.evaluate(frame, LOOK, timeout=PATIENCE)
        except CallFailed:
            return None

    def begin_document(self, line, number, navigation, url):
        """The document is current from here on; its process is looked at once it is there."""
        frame = navigation.frame
        context = self.browser.seen.contexts[self.frames.ids[frame]]
        document = Document(number, frame, url, navigation.srcdoc, line.words[3], line.number(1), context)
        document.early = document.taken = len(self.inbox(document) or [])
        self.frames.documents[number] = document
        for lost in self.frames.below(frame)[1:]:
            self.end_frame(lost, True)
        self.browser.seen.forget_children(self.frames.ids[frame])
        self.frames.current[frame] = document
        place = self.places.look_for(document)
        document.place = place.process
        self.compare(f"document {number}", "lock", navigation.site, place.lock)

    # Actions

    def follow_said(self, line):
        document = self.frames.documents.get(line.number(2))
        if not document:
            self.skip_said(line)
            return
        action = self.script.actions(document.url, document.srcdoc)[line.number(3)]
        if action["do"] == "raw":
            self.skip_said(line)
        else:
            getattr(self, "do_" + action["do"])(line, document, action)
        if line.is_kill:
            self.kill(line.number(1))

    def skip_said(self, line):
        """A message that Chromium's document doesn't send: what it makes has a number, and nothing more."""
        self.leave_out()
        word = line.words[5]
        if line.reply != "ok":
            return
        if word in ("frame", "page"):
            self.frames.add_navigation(Navigation(self.frames.add_frame(None, None), "", is_first=True))
        elif word == "navigate":
            self.frames.add_navigation(Navigation(None, ""))
        elif word == "fetch":
            self.frames.fetches.append(None)

    def kill(self, process):
        """The history's process is dead from here on, so that of its documents is ended too."""
        for document in self.frames.current.values():
            if document.process == process and not document.is_over:
                self.browser.connection.send("Page.crash", {}, document.context.session)
                self.browser.until(lambda: document.context.session in self.browser.seen.crashed, PATIENCE)
                break
        for document in list(self.frames.current.values()):
            if document.process == process:
                for frame in self.frames.below(document.frame):
                    self.collect(frame)
                    self.end_frame(frame, frame != document.frame)

    def end_frame(self, frame, is_gone):
        """The document of a frame is over, and where `is_gone` the frame too."""
        if frame in self.frames.current:
            self.frames.current[frame].is_over = True
        if is_gone:
            self.frames.ids[frame] = None

    def reply(self, line, document, script, gesture=False):
        """Runs a script in a document, and compares whether it was let with the reply. Whether both did it."""
        answer = self.browser.evaluate(self.frames.ids[document.frame], script, gesture)
        done = answer == "done"
        self.compare(line.text, "reply", "done" if line.reply == "ok" else "denied", "done" if done else "denied")
        return done and line.reply == "ok"

    def do_frame(self, line, document, action):
        attached = len(self.browser.seen.attached)
        if "src" in action and not self.reads(document, action["src"]):
            self.compare(line.text, "reply", "done" if line.reply == "ok" else "denied", "denied")
            return
        if not self.reply(line, document, actions.add_frame(action, line.reply == "ok")):
            self.give_numbers(line, document.frame)
            return
        self.browser.until(lambda: len(self.browser.seen.attached) > attached, PATIENCE)
        frame = self.frames.add_frame(self.browser.seen.attached[-1], document.frame)
        url = action.get("src", "about:srcdoc")
        self.frames.add_navigation(Navigation(frame, url, action.get("srcdoc"), is_first=True))

    def give_numbers(self, line, parent):
        """A frame that the history has and Chromium doesn't has its numbers."""
        if line.reply == "ok":
            self.frames.add_navigation(Navigation(self.frames.add_frame(None, parent), "", is_first=True))

    def reads(self, document, text):
        return self.browser.evaluate(self.frames.ids[document.frame], actions.reads_as_url(text))

    def do_remove(self, line, document, action):
        if line.reply == "ok":
            for frame in self.frames.below(line.number(6)):
                self.collect(frame)
        if self.reply(line, document, actions.remove_frame(action)):
            for frame in self.frames.below(line.number(6)):
                self.end_frame(frame, True)

    def do_navigate(self, line, document, action):
        frame = line.number(6)
        mark = len(self.browser.seen.documents.get(self.frames.ids.get(frame), []))
        if line.reply == "ok":
            self.remember(frame)
        done = self.reply(line, document, actions.navigate(action), gesture=True)
        if line.reply == "ok":
            self.frames.add_navigation(Navigation(frame, action["url"], mark=mark, lost=not done))
        elif not self.comparisons[-1].agrees:
            for lost in self.frames.below(frame):
                self.end_frame(lost, False)

    def do_page(self, line, document, action):
        before = set(self.browser.seen.sessions)
        if not self.reply(line, document, actions.open_page(action), gesture=True):
            self.give_numbers(line, None)
            return

        def new_page():
            return [target["targetId"] for session, target in self.browser.seen.sessions.items()
                    if session not in before and target["type"] == "page"]
        found = self.browser.until(new_page, PATIENCE)
        if not found:
            raise CallFailed("the page was not opened")
        self.browser.pages.append(found[0])
        frame = self.frames.add_frame(found[0], None)
        self.frames.add_navigation(Navigation(frame, action["url"], is_first=True))

    def do_post(self, line, document, action):
        answer = self.browser.evaluate(self.frames.ids[document.frame], actions.post(action))
        receiver = self.frames.current.get(line.number(6))
        if line.reply == "ok" and receiver:
            receiver.expected.append([origin_text(line.words[8]), text_of_hex(line.words[9])])
            count = receiver.early + len(receiver.expected)
            self.browser.until(lambda: len(self.inbox(receiver) or []) >= count, MESSAGE_SECONDS)
        elif answer != "done":
            self.compare(line.text, "reply", "done", "denied")

    def do_ask(self, line, document, action):
        script = actions.ask_store(action["request"]) if action["service"] == "store" else None
        if not script:
            self.leave_out()
            return
        answer = self.browser.evaluate(self.frames.ids[document.frame], script)
        wanted = text_of_hex(line.reply.split(" ")[1]) if line.reply.startswith("answer ") else "denied"
        self.compare(line.text, "store", wanted, "denied" if isinstance(answer, dict) else answer)

    # Posts that arrived

    def inbox(self, document):
        """The messages of a document in Chromium; None where it is gone."""
        try:
            answer = self.browser.evaluate_in(document.context, "__inbox", timeout=MESSAGE_SECONDS)
        except CallFailed:
            return None
        return answer if isinstance(answer, list) else None

    def remember(self, frame):
        """Keeps the messages of a frame's documents, since a document whose frame is navigated answers no more."""
        for number in self.frames.below(frame):
            if number in self.frames.current:
                self.frames.current[number].kept = self.inbox(self.frames.current[number])

    def collect(self, frame, is_replaced=False):
        """Compares all messages of a frame's document, before it goes."""
        document = self.frames.current.get(frame)
        if not document or document.is_over:
            return
        document.is_over = True
        found = document.kept if is_replaced else self.inbox(document)
        seen = "the document is gone" if found is None else self.messages_text(found[document.early:])
        if document.expected or found and len(found) > document.early:
            self.compare(f"document {document.number}", "messages", self.messages_text(document.expected), seen)

    @staticmethod
    def messages_text(messages):
        return "; ".join(f"{text} from {origin}" for origin, text in messages) or "none"

    def follow_local(self, line):
        document = self.frames.documents.get(line.number(2))
        if line.words[4] != "took":
            return
        if not document:
            self.leave_out()
            return
        place = document.taken
        document.taken += 1
        found = self.browser.until(lambda: (self.inbox(document) or [])[place:], MESSAGE_SECONDS) or []
        wanted = [origin_text(line.words[5]), text_of_hex(line.words[6])]
        self.compare(line.text, "message", self.messages_text([wanted]), self.messages_text(found[:1]))

    # Requests

    def do_fetch(self, line, document, action):
        fetched = perform(self.browser, self.frames.ids[document.frame], action, self.reads(document, action["url"]))
        if line.reply == "ok":
            self.frames.fetches.append(fetched)
        else:
            self.compare(line.text, "reply", "denied", "denied" if fetched.is_nothing() else "done")

    def follow_request_hop(self, line):
        fetched = self.frames.fetches[line.number(2)]
        if not fetched or fetched.lost:
            self.leave_out()
        else:
            fetched.lost = not self.compare_hop(line, fetched.request, fetched.hops + 1)
        if fetched:
            fetched.hops += 1

    def follow_end(self, line):
        number, fetched = line.words[1], self.frames.fetches[line.number(1)]
        if not fetched:
            self.leave_out()
            return
        pieces = [other.words[3] for other in self.lines if other.kind == "piece" and other.words[1] == number]
        wanted = response_text(line.words[2] == "whole", bytes.fromhex("".join(pieces)), fetched.hops)
        self.compare(line.text, "response", wanted, fetched.text())

    # The end of a history

    def look_at_the_end(self):
        for frame in sorted(self.frames.current):
            self.collect(frame)
        documents = [self.frames.documents[number] for number in sorted(self.frames.documents)]
        model = partition((document.process, document.number) for document in documents)
        seen = partition((document.place, document.number) for document in documents)
        self.compare("all documents", "processes", model, seen)


def is_at(shown, url):
    """Whether a frame shows a document of this URL, whatever its fragment is."""
    return len(shown) == 3 and shown[0].split("#")[0] == url.split("#")[0]


def partition(pairs):
    """Which documents share a process, whatever its number: `0 2 | 1`."""
    groups = {}
    for process, number in pairs:
        groups.setdefault(process, []).append(str(number))
    return " | ".join(" ".join(group) for group in groups.values()) or "none"
