"""Checks the JSON form of histories against docs/HISTORY_JSON.md, key by key, and against the lines themselves."""
import json
import re

from cases import TOP, all_cases, facts_of_lines
from check_lines import ROWS, said_rows
from history_view.json_form import history_json
from history_view.rules import cells_of, tables_of
from spelling import spelled

PAGE = "docs/HISTORY_JSON.md"
PLAIN = {"number": int, "text": str, "boolean": bool}
# The objects whose keys go by their kind, and the head of the table of their kinds.
KINDS = {"entry": "Kind of entry", "message": "Kind of message", "reply": "Kind of reply", "what": "Kind of what",
         "how": "Kind of how"}


def names_in(cell):
    return re.findall(r"`([^`]+)`", cell)


class Form:
    """What the page says: the keys of each object with their types, and the keys of each kind."""

    def __init__(self, text):
        self.keys, self.own, self.kinds, self.seen = {}, {}, {}, set()
        for table in tables_of(PAGE, text):
            if table.heads[0] in KINDS.values():
                self.kinds[table.heads[0]] = {names_in(row[0])[0]: names_in(row[1]) for row in table.rows}
            else:
                kinds = [row[1].replace(", and null in", " or null:").split(":")[0] for row in table.rows]
                types = {names_in(row[0])[0]: kind for row, kind in zip(table.rows, kinds)}
                (self.own if table.heads[0] == "Own key" else self.keys)[table.section] = types

    def shape(self, name, value):
        """The keys of an object in their order, each with its type."""
        if name not in KINDS:
            return self.keys[name]
        kind = value.get("kind")
        own = {"reply": "reply, what and how", "what": "reply, what and how", "how": "reply, what and how"}.get(name, name)
        named = {key: self.own[own][key] for key in self.kinds[KINDS[name]].get(kind, [])}
        if name == "entry":
            common = self.keys["entry"]
            return {**{key: common[key] for key in ("line", "kind", "text")}, **named,
                    **{key: common[key] for key in common if key not in ("line", "kind", "text")}}
        first = ["kind", "document"] if name == "message" else ["kind"]
        return {**{key: self.own[own][key] for key in first}, **named}

    def faults(self, kind, value, path):
        """Where a value is not of a type of the page."""
        if kind.endswith(" or null"):
            kind, is_null = kind[: -len(" or null")], value is None
            if is_null:
                return
        if kind.startswith("list of "):
            if not isinstance(value, list):
                yield f"{path} is no list"
                return
            for index, item in enumerate(value):
                yield from self.faults(kind[len("list of "):], item, f"{path}/{index}")
        elif kind in PLAIN:
            if type(value) is not PLAIN[kind] or (kind == "number" and value < 0):
                yield f"{path} is no {kind}"
        else:
            yield from self.faults_of_object(kind, value, path)

    def faults_of_object(self, name, value, path):
        if not isinstance(value, dict):
            yield f"{path} is no object"
            return
        shape = self.shape(name, value)
        if list(value) != list(shape):
            yield f"{path} has the keys {list(value)} in place of {list(shape)}"
            return
        for key, kind in shape.items():
            if value[key] is not None:
                self.seen.add((name, value.get("kind") if name in KINDS else None, key))
            yield from self.faults(kind, value[key], f"{path}/{key}")

    def unseen(self):
        """The keys of objects and kinds that no value had."""
        for name, types in self.keys.items():
            if name != "entry":
                yield from ((name, None, key) for key in types if (name, None, key) not in self.seen)
        for name, head in KINDS.items():
            for kind, keys in self.kinds[head].items():
                yield from ((name, kind, key) for key in keys if (name, kind, key) not in self.seen)


def check_form(checks, form, facts, name):
    """One history: its form by the page, and its entries by their lines."""
    text = history_json(facts)
    value = json.loads(text)
    checks.equal(list(form.faults("history", value, "")), [], f"the form of {name}")
    checks.true(text.isascii() and text.endswith("}\n"), f"the text of the form of {name}")
    entries = value["entries"]
    checks.equal([spelled(entry) for entry in entries], [entry["text"] for entry in entries], f"the fields of {name}")
    return value, text


def all_rows():
    """A history with each kind of line, message and reply; its script has each key of a resource."""
    resource = {"url": "https://a.com/", "status": 404, "headers": [["a", "b"]], "body_hex": "00", "cuts": [1],
                "fail_after": 1, "actions": [{"do": "wait"}]}
    script = {"start": ["https://a.com/"], "spare": True, "soft_limit": 3, "isolated_origins": ["https://b.com/"],
              "suffixes": "com", "resources": [resource]}
    first = ["open 0", "order 0 0 https://a.com https://a.com https://a.com/", "commit 0 0 https://a.com - => ok",
             "said 0 0 0 0 fetch cors https://a.com - => ok", "hop req 0 x", "said 0 0 0 0 frame plain doc 0 => ok"]
    return facts_of_lines(script, *first, *(line for line, _ in [*ROWS, *said_rows()]))


def run(checks):
    text = (TOP / PAGE).read_text(encoding="utf-8")
    form = Form(text)
    cases, missing = all_cases()
    for name in missing:
        print(f"history view: {name} has no history here, and no program is ready: it is left out")
    for case in cases:
        value, written = check_form(checks, form, case.facts(), case.name)
        lines = case.history.decode("ascii").splitlines()
        checks.equal([entry["text"] for entry in value["entries"]], lines[1:], f"the lines of {case.name}")
        numbers = list(range(2, len(lines) + 1))
        checks.equal([entry["line"] for entry in value["entries"]], numbers, f"the numbers of the lines of {case.name}")
        checks.true(all(json.dumps(entry) in written.splitlines() or json.dumps(entry) + "," in written.splitlines()
                        for entry in value["entries"]), f"{case.name} has one line an entry")
    check_form(checks, form, all_rows(), "all kinds")
    checks.equal(sorted(form.unseen(), key=str), [], "keys of the page that no history has")
    faults = list(form.faults("history", {"form": 1}, ""))
    checks.true(len(faults) == 1, "a form without keys has a fault")
    value = json.loads(history_json(cases[0].facts()))
    for change in ({"version": "2"}, {"stray_lines": [None]}, {"entries": [{**value["entries"][0], "x": 1}]}):
        checks.true(list(form.faults("history", {**value, **change}, "")), f"the fault of {change} is found")
