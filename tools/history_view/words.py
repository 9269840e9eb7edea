"""What each entry says in words: who does it, what is done, and what comes of it, as parts of `safe`."""
from .lines import rule_of
from .rules import brief
from .safe import quoted, quoted_bytes, shown

ROW_BYTES = 48


def done(text):
    return [["b", text]]


def words(text):
    return [["", text]]


def aside(text):
    return [["m", text]]


def as_origin(url, origin):
    """An origin, where a URL doesn't tell it by itself."""
    return [] if url.startswith(f"{origin}/") else [["", " as "], *shown(origin)]


def count(number, one, more=None):
    """A number with the name of what is counted; for more than one with an s where no other name is given."""
    return f"{number} {one if number == 1 else more or one + 's'}"


class Words:
    """The words of the entries of a history, by its facts and the rules' pages."""

    def __init__(self, facts, rules):
        self.facts = facts
        self.rules = rules

    def context(self, entry):
        """The kind of line, by which a rule's words are chosen."""
        return f"said {entry['message']['kind']}" if entry["kind"] == "said" else entry["kind"]

    def who(self, entry):
        """Whose entry it is: objects, each a letter (p, d, n or r) and its number."""
        kind = entry["kind"]
        if kind in ("said", "local"):
            return [["p", entry["process"]], ["d", entry["document"]]]
        if kind in ("order", "commit"):
            return [["p", entry["process"]], ["d" if entry.get("reply") == {"kind": "ok"} else "n", entry["navigation"]]]
        if kind in ("warm", "crash", "exit"):
            return [["p", entry["process"]]]
        if kind == "open":
            return [["n", entry["page"]]]
        of_navigation = kind == "navend" or entry.get("of") == "nav"
        if of_navigation:
            return [["n", entry["navigation"]]]
        host = self.lane(entry)
        return ([] if host is None else [["p", host]]) + [["r", entry["request"]]]

    def lane(self, entry):
        """The process on whose lane an entry stands: its own, or that of its request's document; None for the browser."""
        if "process" in entry:
            return entry["process"]
        request = self.facts.requests.get(entry.get("request"))
        return self.facts.host_of(request["document"]) if request else None

    def says(self, entry):
        """What an entry says, without who and without what comes of it."""
        return getattr(self, "say_" + entry["kind"])(entry)

    def say_open(self, entry):
        navigation = self.facts.navigations[entry["page"]]
        url = navigation["first_url"]
        return done("opens") + words(f" start page {entry['page']}") + ([["", ": "], *shown(url)] if url else [])

    def say_warm(self, entry):
        return done("is kept ready") + words(", without a lock yet")

    def say_hop(self, entry):
        return done("is redirected") + words(" to ") + shown(entry["url"])

    def say_order(self, entry):
        process = self.facts.processes[entry["process"]]
        lock = words("; the process is locked to ") + shown(entry["site"]) if process["lock_line"] == entry["line"] else []
        what = shown(entry["url"]) + as_origin(entry["url"], entry["origin"])
        return done("is ordered") + words(" to commit ") + what + lock

    def say_navend(self, entry):
        return done("ends") + words(" without a commit") + self.last_url(self.facts.navigations.get(entry["navigation"]))

    def last_url(self, chained):
        """The last URL of a navigation or request, where it is known."""
        if chained is None or chained["first_url"] is None:
            return []
        return words(": ") + shown(chained["hops"][-1]["url"] if chained["hops"] else chained["first_url"])

    def say_crash(self, entry):
        return done("crashes")

    def say_exit(self, entry):
        return done("exits") + words(": no document is left in it")

    def say_commit(self, entry):
        verb = done("commits") if entry["reply"]["kind"] == "ok" else done("tells") + words(" that it committed")
        return verb + words(" ") + shown(entry["url"]) + as_origin(entry["url"], entry["origin"])

    def say_local(self, entry):
        what = entry["what"]
        if what["kind"] == "took":
            return done("takes") + words(" ") + quoted(what["text"]) + words(" from ") + shown(what["source"])
        if what["kind"] == "waited":
            return done("has waited") + words(": no request of it is live")
        return done("skips") + words(" an action: the frame that it names is not there")

    def say_head(self, entry):
        return done("gets its head") + self.last_url(self.facts.requests.get(entry["request"]))

    def say_piece(self, entry):
        data = bytes.fromhex(entry["bytes"])
        told = words(f" {entry['index']}, {count(len(data), 'byte')}: ")
        return done("gets piece") + told + quoted_bytes(data, ROW_BYTES)

    def say_end(self, entry):
        return done("ends") + self.last_url(self.facts.requests.get(entry["request"]))

    def say_said(self, entry):
        message = entry["message"]
        forged = [["f", "forged"], ["", " "]] if self.facts.is_forged(entry) else []
        named = message["document"] != entry["document"]
        other = words(f" in the name of document {message['document']}") if named else []
        body = getattr(self, "say_" + message["kind"] + "_message")(message, self.claimed(entry))
        return forged + body + other + self.makes(entry)

    def claimed(self, entry):
        """The origin that a message claims, where it isn't that of the document."""
        message = entry["message"]
        claim = next((message[key] for key in ("initiator", "source", "origin") if key in message), None)
        navigation = self.facts.navigations.get(message["document"])
        own = navigation["origin"] if navigation else None
        return [] if claim in (None, own) or message["kind"] == "commit" else words(" as ") + shown(claim)

    def makes(self, entry):
        """What an accepted message begins."""
        made = [f"{what} {number}" for what, number in (entry["makes"] or {}).items() if number is not None]
        return aside(" → " + ", ".join(made)) if made else []

    def say_navigate_message(self, message, claimed):
        return done("navigates") + words(f" frame {message['frame']} to ") + shown(message["url"]) + claimed

    def say_frame_message(self, message, claimed):
        verb = done("adds a sandboxed frame" if message["sandboxed"] else "adds a frame")
        if message["url"] is None:
            return verb + words(f" of resource {message['resource']}")
        return verb + words(": ") + shown(message["url"])

    def say_remove_message(self, message, claimed):
        return done("removes") + words(f" frame {message['frame']}")

    def say_page_message(self, message, claimed):
        return done("opens a page") + words(": ") + shown(message["url"])

    def say_fetch_message(self, message, claimed):
        return done("fetches") + words(" ") + shown(message["url"]) + words(f" ({message['mode']})") + claimed

    def say_post_message(self, message, claimed):
        targets = {"*": words("anyone"), "/": words("its own origin")}
        target = targets.get(message["target"]) or shown(message["target"])
        to = words(f" to frame {message['frame']}, for ") + target
        return done("posts") + words(" ") + quoted(message["text"]) + to + claimed

    def say_ask_message(self, message, claimed):
        service = words(" ") + shown(message["service"])
        return done("asks") + service + claimed + words(": ") + quoted(message["question"])

    def say_commit_message(self, message, claimed):
        claim = shown(message["url"]) + as_origin(message["url"], message["origin"])
        return done("claims") + words(f" that navigation {message['navigation']} committed ") + claim

    def outcome(self, entry):
        """What comes of an entry: its role, its short word, and more in parts; None where nothing is told."""
        kind, rule = entry["kind"], rule_of(entry)
        why = brief(self.rules.of(rule, self.context(entry))) if rule else []
        if kind in ("said", "commit"):
            word = entry["reply"]["kind"]
            more = quoted(entry["reply"]["text"]) if word == "answer" else why
            return word, f"{word} {rule}" if rule else word, more
        if kind == "end":
            word = entry["how"]["kind"]
            return word, f"{word} {rule}" if rule else word, why
        told = {"head": ("allowed", f"allowed {rule}"), "navend": ("ended", f"ended {rule}"), "crash": ("crash", "crash"),
                "exit": ("exit", "exit")}
        return (*told[kind], why) if kind in told else None
