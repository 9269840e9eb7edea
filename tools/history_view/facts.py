"""What the lines of a history and its script tell together: its processes, frames, navigations and requests.

Of a history that may be, these are the facts of docs/rules/. Any other text that is spelled right is told as far as its
lines go, and the lines that name what nobody made are kept as strays."""
from collections import deque


class Facts:
    """The facts of a history. `entries` are its entries with `about`, what they concern, and `makes`, what they begin."""

    def __init__(self, script, version, entries):
        self.script = script
        self.version = version
        self.processes, self.frames, self.navigations, self.requests = {}, {}, {}, {}
        self.strays = []
        self.entries = []
        # How many frames and navigations there are so far; start pages have their numbers from the beginning.
        self.frame_count = self.navigation_count = len(script.start)
        self.last_in, self.current, self.inboxes, self.hosted = {}, {}, {}, {}
        for entry in entries:
            about = {"processes": [], "documents": [], "requests": []}
            self.entry = {**entry, "about": about, "makes": None, "post_line": None}
            getattr(self, "on_" + entry["kind"])(self.entry)
            self.entries.append(self.entry)

    # What an entry concerns.

    def note(self, what, number):
        """The entry concerns this object."""
        noted = self.entry["about"][what]
        if number is not None and number not in noted:
            noted.append(number)

    def expect(self, is_there):
        """The entry is a stray where what it names is not there."""
        if not is_there and self.entry["line"] not in self.strays[-1:]:
            self.strays.append(self.entry["line"])

    def note_request(self, number):
        """The entry concerns a request, its document and that document's process."""
        request = self.requests.get(number)
        self.expect(request is not None)
        self.note("requests", number)
        if request is not None:
            self.note("documents", request["document"])
            self.note("processes", self.host_of(request["document"]))
        return request

    # Objects.

    def process(self, number):
        """The process of a number, which begins with this entry where it is new."""
        self.note("processes", number)
        if number not in self.processes:
            self.processes[number] = {
                "process": number, "line": self.entry["line"], "warm": False, "lock": None, "lock_line": None, "end": None,
            }
        return self.processes[number]

    def navigation(self, number):
        """The navigation of a number, None where nobody began it."""
        self.note("documents", number)
        self.expect(number in self.navigations)
        return self.navigations.get(number)

    def host_of(self, document):
        navigation = self.navigations.get(document)
        return navigation["process"] if navigation else None

    def begin_navigation(self, number, frame, url, document):
        self.navigations[number] = {
            "navigation": number, "frame": frame, "line": self.entry["line"], "document": document, "first_url": url,
            "hops": [], "order_line": None, "process": None, "site": None, "origin": None, "url": None,
            "commit_line": None, "end": None, "gone_line": None,
        }
        self.note("documents", number)
        self.made("navigation", number)

    def begin_frame(self, number, document, opener, sandboxed=False, resource=None):
        self.frames[number] = {
            "frame": number, "line": self.entry["line"], "document": document, "opener": opener, "sandboxed": sandboxed,
            "resource": resource, "gone_line": None,
        }
        self.made("frame", number)

    def made(self, what, number):
        makes = self.entry["makes"] or {"frame": None, "navigation": None, "request": None}
        self.entry["makes"] = {**makes, what: number}

    # Ends.

    def end_process(self, number, how, rule=None):
        process = self.process(number)
        if process["end"] is None:
            process["end"] = {"line": self.entry["line"], "kind": how, "rule": rule}
            self.lose(self.hosted.get(number, []))

    def lose(self, documents):
        """These documents are no longer current, and with them go the frames that they added."""
        lost = [document for document in documents if document in self.current]
        while lost:
            document = lost.pop()
            if self.current.pop(document, None) is None:
                continue
            self.navigations[document]["gone_line"] = self.entry["line"]
            self.note("documents", document)
            for frame in self.navigations[document]["frames"]:
                lost.extend(self.lost_in(frame))

    def lost_in(self, frame):
        """A frame goes: the document that goes with it."""
        if self.frames[frame]["gone_line"] is None:
            self.frames[frame]["gone_line"] = self.entry["line"]
        return [self.last_in[frame]] if frame in self.last_in else []

    def commit(self, process, number):
        """A document is current in its frame, in place of the one that was there."""
        navigation = self.navigation(number)
        if navigation is None:
            return
        frame = navigation["frame"]
        self.lose([self.last_in[frame]] if frame in self.last_in else [])
        navigation.update(commit_line=self.entry["line"], process=process, frames=[])
        self.last_in[frame] = number
        self.current[number] = True
        self.hosted.setdefault(process, []).append(number)

    # Entries, by their kinds.

    def on_open(self, entry):
        page = entry["page"]
        self.expect(page < len(self.script.start))
        url = self.script.start[page] if page < len(self.script.start) else None
        self.begin_frame(page, None, None)
        self.begin_navigation(page, page, url, None)

    def on_warm(self, entry):
        self.process(entry["process"])["warm"] = True

    def on_hop(self, entry):
        hop = {"line": entry["line"], "url": entry["url"]}
        whose = self.navigation(entry["navigation"]) if entry["of"] == "nav" else self.note_request(entry["request"])
        if whose is not None:
            whose["hops"].append(hop)

    def on_order(self, entry):
        process = self.process(entry["process"])
        process["lock"] = entry["site"]
        if process["lock_line"] is None:
            process["lock_line"] = entry["line"]
        navigation = self.navigation(entry["navigation"])
        if navigation is not None:
            told = {key: entry[key] for key in ("process", "site", "origin", "url")}
            navigation.update(order_line=entry["line"], **told)

    def on_navend(self, entry):
        navigation = self.navigation(entry["navigation"])
        if navigation is not None:
            navigation["end"] = {"line": entry["line"], "kind": "navend", "rule": entry["rule"]}

    def on_said(self, entry):
        message, reply = entry["message"], entry["reply"]
        self.process(entry["process"])
        self.navigation(entry["document"])
        self.note("documents", message["document"])
        if reply["kind"] == "ok":
            getattr(self, "ok_" + message["kind"], lambda entry, message: None)(entry, message)
        if message["kind"] == "commit":
            self.note("documents", message["navigation"])
        if reply["kind"] == "kill":
            self.end_process(entry["process"], "kill", reply["rule"])

    def ok_navigate(self, entry, message):
        number, self.navigation_count = self.navigation_count, self.navigation_count + 1
        self.begin_navigation(number, message["frame"], message["url"], message["document"])

    def ok_frame(self, entry, message):
        number, self.frame_count = self.frame_count, self.frame_count + 1
        self.begin_frame(number, message["document"], None, message["sandboxed"], message["resource"])
        adder = self.navigations.get(message["document"])
        if adder is not None and "frames" in adder:
            adder["frames"].append(number)
        url = "about:srcdoc" if message["url"] is None else message["url"]
        self.ok_navigate(entry, {"frame": number, "url": url, "document": message["document"]})

    def ok_page(self, entry, message):
        number, self.frame_count = self.frame_count, self.frame_count + 1
        opener = self.navigations.get(message["document"])
        self.begin_frame(number, None, opener["frame"] if opener else None)
        self.ok_navigate(entry, {"frame": number, "url": message["url"], "document": message["document"]})

    def ok_remove(self, entry, message):
        if message["frame"] in self.frames:
            self.lose(self.lost_in(message["frame"]))

    def ok_fetch(self, entry, message):
        number = len(self.requests)
        self.requests[number] = {
            "request": number, "document": message["document"], "mode": message["mode"], "line": entry["line"],
            "first_url": message["url"], "hops": [], "head": None, "pieces": 0, "size": 0, "end": None,
        }
        self.note("requests", number)
        self.made("request", number)

    def ok_post(self, entry, message):
        receiver = self.last_in.get(message["frame"])
        if receiver in self.current:
            self.note("documents", receiver)
            self.note("processes", self.host_of(receiver))
            self.inboxes.setdefault(receiver, deque()).append(entry["line"])

    def ok_commit(self, entry, message):
        self.commit(entry["process"], message["navigation"])

    def on_crash(self, entry):
        self.end_process(entry["process"], "crash")

    def on_exit(self, entry):
        self.end_process(entry["process"], "exit")

    def on_commit(self, entry):
        self.process(entry["process"])
        navigation = self.navigation(entry["navigation"])
        self.expect(navigation is None or navigation["order_line"] is not None)
        if entry["reply"]["kind"] == "ok":
            self.commit(entry["process"], entry["navigation"])
        elif entry["reply"]["kind"] == "kill":
            self.end_process(entry["process"], "kill", entry["reply"]["rule"])

    def on_local(self, entry):
        self.process(entry["process"])
        self.navigation(entry["document"])
        inbox = self.inboxes.get(entry["document"])
        if entry["what"]["kind"] == "took":
            self.expect(inbox)
            entry["post_line"] = inbox.popleft() if inbox else None

    def on_head(self, entry):
        request = self.note_request(entry["request"])
        if request is not None:
            request["head"] = {"line": entry["line"], "rule": entry["rule"]}

    def on_piece(self, entry):
        request = self.note_request(entry["request"])
        if request is not None:
            request["pieces"] += 1
            request["size"] += len(entry["bytes"]) // 2

    def on_end(self, entry):
        request = self.note_request(entry["request"])
        if request is not None:
            request["end"] = {"line": entry["line"], "kind": entry["how"]["kind"], "rule": entry["how"].get("rule")}

    # What others ask.

    def resource_of(self, document):
        """The index of the resource that has a document's actions, None where it isn't found."""
        navigation = self.navigations.get(document)
        if navigation is None or navigation["url"] is None:
            return None
        if not navigation["url"].startswith("about:srcdoc"):
            return self.script.resource_at(navigation["url"])
        resource = self.frames.get(navigation["frame"], {}).get("resource")
        return resource if self.script.has_resource(resource) else None

    def action_of(self, entry):
        """The resource, the number and the value of the action that an entry does, None where it isn't found."""
        resource = self.resource_of(entry["document"]) if entry["kind"] in ("said", "local") else None
        actions = self.script.actions_of(resource)
        if resource is None or entry["action"] >= len(actions):
            return None
        return resource, entry["action"], actions[entry["action"]]

    def is_forged(self, entry):
        """Whether an entry is a message that a raw action of the script forged."""
        found = self.action_of(entry)
        return entry["kind"] == "said" and found is not None and found[2]["do"] == "raw"
