"""What the panel tells of an entry: its fields, the rule's words, the lines that belong to it, its place in the script."""
from .lines import rule_of
from .safe import quoted, quoted_bytes, shown

# Of a longer piece the panel shows this many bytes.
PANEL_BYTES = 2048
NAMES = {
    "open": "a start page is opened", "warm": "a process is kept ready", "hop": "a redirect",
    "order": "a commit is ordered", "navend": "a navigation ends", "said": "a message and its reply",
    "crash": "a process crashes", "commit": "an order is answered", "local": "a document acts by itself",
    "head": "the head of a response", "piece": "a piece of a response", "end": "a request ends", "exit": "a process exits",
}
LABELS = {
    "page": "Start page", "process": "Process", "navigation": "Navigation", "document": "Document", "action": "Action",
    "site": "Site", "origin": "Origin", "url": "URL", "initiator": "Claimed initiator", "source": "Claimed source",
    "target": "For", "frame": "Frame", "mode": "Mode", "service": "Service", "question": "Question", "text": "Text",
    "sandboxed": "Sandboxed", "resource": "Resource", "index": "Piece", "bytes": "Bytes", "request": "Request",
}
# The fields of an entry that are objects of their own, and the label of their kind.
OBJECTS = {"message": "Message", "what": "Act", "how": "How", "reply": "Reply"}


def aside(text):
    return ["m", text]


class Panel:
    """The panel's text for each entry, in values that json can write."""

    def __init__(self, facts, rules, words):
        self.facts, self.rules, self.words = facts, rules, words
        # Rows of the rules' pages, each once; entries hold their places.
        self.blocks, self.places = [], {}
        self.takers = {entry["post_line"]: entry["line"] for entry in facts.entries}

    def place(self, block):
        """The place of a row of the rules' pages among the shared ones."""
        if id(block) not in self.places:
            self.places[id(block)] = len(self.blocks)
            self.blocks.append(block)
        return self.places[id(block)]

    def card(self, entry):
        """All that the panel shows of an entry."""
        rule = rule_of(entry)
        rows = self.rules.of(rule, self.words.context(entry)) if rule else []
        kind = f"hop {entry['of']}" if entry["kind"] == "hop" else entry["kind"]
        choice = self.rules.choice if entry["kind"] == "order" else []
        return {
            "name": NAMES[entry["kind"]], "text": entry["text"], "fields": self.fields(entry), "about": self.about(entry),
            "rule": rule, "group": self.rules.groups.get(rule, []), "rows": [self.place(row) for row in rows],
            "follows": self.place(self.rules.kinds[kind]) if kind in self.rules.kinds else None,
            "choice": [self.place(row) for row in choice], "effect": self.effect(entry), "lines": self.lines(entry),
            "source": self.source(entry),
        }

    def about(self, entry):
        """The objects that an entry concerns, as the filters name them."""
        return [[what, number] for what, numbers in entry["about"].items() for number in numbers]

    def effect(self, entry):
        """What an accepted message does, in the pages' words."""
        if entry.get("reply") != {"kind": "ok"}:
            return []
        return self.rules.effects.get(entry["message"]["kind"] if entry["kind"] == "said" else "commit", [])

    def source(self, entry):
        """The path of what stands behind an entry in the script: an action, a start page or a resource, if one does."""
        found = self.facts.action_of(entry)
        if found:
            return f"/resources/{found[0]}/actions/{found[1]}"
        if entry["kind"] == "open":
            return f"/start/{entry['page']}" if entry["page"] < len(self.facts.script.start) else None
        chained = self.facts.navigations.get(entry.get("navigation")) or self.facts.requests.get(entry.get("request"))
        if chained is None or chained["first_url"] is None:
            return None
        chain = [chained["first_url"], *(hop["url"] for hop in chained["hops"] if hop["line"] < entry["line"])]
        resource = self.facts.script.resource_at(chain[-1])
        return None if resource is None else f"/resources/{resource}"

    # Fields: a label and parts.

    def fields(self, entry):
        told = [[LABELS[key], self.value(key, value)] for key, value in entry.items()
                if key in LABELS and key != "text" and value is not None]
        for key, label in OBJECTS.items():
            if key in entry:
                told += self.fields_of_object(label, entry[key], entry)
        if entry["kind"] == "piece":
            told.append(["As text", quoted_bytes(bytes.fromhex(entry["bytes"]), PANEL_BYTES)])
        if entry["kind"] == "said" and entry["message"]["kind"] == "commit":
            told.append(["Its order", self.order_of(entry["message"]["navigation"])])
        return told

    def fields_of_object(self, label, value, entry):
        """The kind of a message, a reply or the like, and then its own fields."""
        told = [[label, [["", " ".join([value["kind"], *([value["rule"]] if "rule" in value else [])])]]]]
        for key, item in value.items():
            if key in ("kind", "rule") or item is None or (key == "document" and item == entry["document"]):
                continue
            name = {"Reply": "Answer", "Act": "From" if key == "source" else "Text"}.get(label, LABELS[key])
            told.append(["In the name of" if key == "document" else name, self.value(key, item)])
        return told

    def value(self, key, value):
        """One value, and what is known of what it names."""
        tell = getattr(self, f"tell_{key}", None)
        if tell:
            return tell(value)
        if isinstance(value, bool):
            return [["", "yes" if value else "no"]]
        return [["", str(value)]] if isinstance(value, int) else shown(value)

    def tell_text(self, text):
        return quoted(text)

    def tell_question(self, text):
        return quoted(text)

    def tell_bytes(self, digits):
        more = len(digits) // 2 - PANEL_BYTES
        return [["v", digits[: 2 * PANEL_BYTES]], *([aside(f" and {more} bytes more")] if more > 0 else [])]

    def tell_process(self, number):
        lock = self.facts.processes[number]["lock"]
        return [["", str(number)], *([aside(", locked to "), *shown(lock)] if lock else [aside(", without a lock")])]

    def tell_document(self, number):
        navigation = self.facts.navigations.get(number)
        if navigation is None or navigation["origin"] is None:
            return [["", str(number)]]
        return [["", f"{number}, "], *shown(navigation["url"]), aside(" of origin "), *shown(navigation["origin"])]

    def tell_navigation(self, number):
        navigation = self.facts.navigations.get(number)
        told = f", of frame {navigation['frame']}" if navigation else ", which nobody began"
        return [["", str(number)], aside(told)]

    def tell_request(self, number):
        request = self.facts.requests.get(number)
        if request is None:
            return [["", str(number)], aside(", which nobody began")]
        told = aside(f", {request['mode']}, of document {request['document']}")
        return [["", f"{number}, "], *shown(request["first_url"]), told]

    def tell_target(self, target):
        return {"*": [["", "anyone"]], "/": [["", "its own origin"]]}.get(target) or shown(target)

    def order_of(self, number):
        """What a claimed commit stands against."""
        order = self.facts.navigations.get(number)
        if order is None or order["order_line"] is None:
            return [aside("none")]
        return [*shown(order["url"]), aside(" as "), *shown(order["origin"])]

    # Lines that belong together.

    def lines(self, entry):
        """The lines that belong to an entry, in order, each once: its number and why."""
        told = {}
        for why, line in self.all_lines(entry):
            if line is not None and line != entry["line"]:
                told.setdefault(line, why)
        return [[line, told[line]] for line in sorted(told)]

    def all_lines(self, entry):
        made = entry["makes"] or {}
        requests = [entry.get("request"), made.get("request")]
        navigations = [entry.get("navigation"), made.get("navigation"), entry.get("document")]
        if entry["kind"] == "said":
            navigations.append(entry["message"].get("navigation"))
        yield "the document takes this post", self.takers.get(entry["line"])
        yield "the post that it takes", entry["post_line"]
        for request in filter(None, map(self.facts.requests.get, requests)):
            yield from self.lines_of_request(request)
        for navigation in filter(None, map(self.facts.navigations.get, navigations)):
            yield from self.lines_of_navigation(navigation)
        for number in entry["about"]["processes"][:1]:
            yield from self.lines_of_process(self.facts.processes[number])

    def lines_of_request(self, request):
        name = f"request {request['request']}"
        yield f"{name} is made", request["line"]
        for hop in request["hops"]:
            yield f"{name} is redirected", hop["line"]
        yield f"{name} gets its head", request["head"] and request["head"]["line"]
        yield f"{name} ends", request["end"] and request["end"]["line"]

    def lines_of_navigation(self, navigation):
        number = navigation["navigation"]
        yield f"navigation {number} begins", navigation["line"]
        for hop in navigation["hops"]:
            yield f"navigation {number} is redirected", hop["line"]
        yield f"navigation {number} is ordered", navigation["order_line"]
        yield f"document {number} commits", navigation["commit_line"]
        yield f"navigation {number} ends", navigation["end"] and navigation["end"]["line"]
        yield f"document {number} goes", navigation["gone_line"]

    def lines_of_process(self, process):
        name = f"process {process['process']}"
        yield f"{name} is started", process["line"]
        yield f"{name} is locked", process["lock_line"]
        yield f"{name} ends", process["end"] and process["end"]["line"]
