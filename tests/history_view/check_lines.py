"""Checks how lines are read: each kind by hand, and all tables by which the proved readers are tested."""
import json
import pathlib
import re

from history_view.lines import BadField, BadLine, read_entry, read_history
from spelling import spelled

TOP = pathlib.Path(__file__).resolve().parents[2]
A = "https://a.com"
# A line, and its fields besides its kind and text.
ROWS = [
    ("open 7", {"page": 7}),
    ("warm 0", {"process": 0}),
    ("hop nav 3 https://a.com/b c%20?d#e",
     {"of": "nav", "navigation": 3, "request": None, "url": "https://a.com/b c%20?d#e"}),
    ("hop req 4294967295 x", {"of": "req", "navigation": None, "request": 4294967295, "url": "x"}),
    ("order 1 2 =https://a.com:81 opaque:1:=https://a.com:81 data:x, y",
     {"navigation": 1, "process": 2, "site": "=https://a.com:81", "origin": "opaque:1:=https://a.com:81",
      "url": "data:x, y"}),
    ("order 1 2 http://[::1] http://[::1]:8080 http://[::1]:8080/",
     {"navigation": 1, "process": 2, "site": "http://[::1]", "origin": "http://[::1]:8080", "url": "http://[::1]:8080/"}),
    ("navend 4 N8", {"navigation": 4, "rule": "N8"}),
    ("crash 5", {"process": 5}),
    ("commit 0 1 https://a.com 68c3a9 => ok",
     {"process": 0, "navigation": 1, "origin": A, "url": "hé", "reply": {"kind": "ok"}}),
    ("commit 0 1 https://a.com - => drop G3",
     {"process": 0, "navigation": 1, "origin": A, "url": "", "reply": {"kind": "drop", "rule": "G3"}}),
    ("local 0 1 2 waited", {"process": 0, "document": 1, "action": 2, "what": {"kind": "waited"}}),
    ("local 0 1 2 skipped", {"process": 0, "document": 1, "action": 2, "what": {"kind": "skipped"}}),
    ("local 0 1 2 took https://a.com 6869",
     {"process": 0, "document": 1, "action": 2, "what": {"kind": "took", "source": A, "text": "hi"}}),
    ("head 6 A4", {"request": 6, "rule": "A4"}),
    ("piece 6 1 ff00", {"request": 6, "index": 1, "bytes": "ff00"}),
    ("end 6 whole", {"request": 6, "how": {"kind": "whole"}}),
    ("end 6 blocked B7", {"request": 6, "how": {"kind": "blocked", "rule": "B7"}}),
    ("end 6 failed N7", {"request": 6, "how": {"kind": "failed", "rule": "N7"}}),
    ("exit 9", {"process": 9}),
]
MESSAGES = [
    ("navigate 1 https://a.com 78", {"kind": "navigate", "frame": 1, "initiator": A, "url": "x"}),
    ("frame plain url 78", {"kind": "frame", "sandboxed": False, "url": "x", "resource": None}),
    ("frame sandboxed url -", {"kind": "frame", "sandboxed": True, "url": "", "resource": None}),
    ("frame plain doc 2", {"kind": "frame", "sandboxed": False, "url": None, "resource": 2}),
    ("frame sandboxed doc 3", {"kind": "frame", "sandboxed": True, "url": None, "resource": 3}),
    ("remove 4", {"kind": "remove", "frame": 4}),
    ("page 78", {"kind": "page", "url": "x"}),
    ("fetch cors https://a.com 78", {"kind": "fetch", "mode": "cors", "initiator": A, "url": "x"}),
    ("fetch no-cors opaque:0:https://a.com 78",
     {"kind": "fetch", "mode": "no-cors", "initiator": "opaque:0:https://a.com", "url": "x"}),
    ("post 5 * https://a.com 78", {"kind": "post", "frame": 5, "target": "*", "source": A, "text": "x"}),
    ("post 5 / https://a.com -", {"kind": "post", "frame": 5, "target": "/", "source": A, "text": ""}),
    ("post 5 http://b.org https://a.com 78",
     {"kind": "post", "frame": 5, "target": "http://b.org", "source": A, "text": "x"}),
    ("ask 73 https://a.com 78", {"kind": "ask", "service": "s", "origin": A, "question": "x"}),
    ("commit 6 https://a.com 78", {"kind": "commit", "navigation": 6, "origin": A, "url": "x"}),
]
REPLIES = [
    ("ok", {"kind": "ok"}), ("answer 78", {"kind": "answer", "text": "x"}), ("deny S4", {"kind": "deny", "rule": "S4"}),
    ("drop M2", {"kind": "drop", "rule": "M2"}), ("kill K10", {"kind": "kill", "rule": "K10"}),
]


def said_rows():
    for body, message in MESSAGES:
        for text, reply in REPLIES:
            told = {"process": 0, "document": 1, "action": 2, "message": {**message, "document": 3}, "reply": reply}
            yield f"said 0 1 2 3 {body} => {text}", told


def check_kinds(checks):
    """Each kind of entry, message and reply, in both versions of a text."""
    for version in (1, 2):
        for line, fields in [*ROWS, *said_rows()]:
            checks.equal(read_entry(line, version), {"kind": line.split(" ")[0], "text": line, **fields}, f"read {line!r}")
            checks.equal(spelled({"kind": line.split(" ")[0], **fields}), line, f"spell {line!r}")


def strings(text):
    """The string literals of a piece of a test's source."""
    literals = re.findall(r'"((?:[^"\\]|\\.)*)"', text)
    return [json.loads('"' + re.sub(r"\\u\{([0-9a-f]+)\}", lambda code: f"\\u{int(code[1], 16):04x}", one) + '"')
            for one in literals]


def table(path, name):
    """The strings of a constant of a test of the repository."""
    source = (TOP / path).read_text(encoding="utf-8")
    found = re.search(rf"^const {name}: [^=]*= &\[(.*?)\];$", source, re.MULTILINE | re.DOTALL)
    return strings(found[1]) if found else []


def is_read(checks, line):
    """The line is read, and its fields spell it again."""
    try:
        checks.equal(spelled(read_entry(line, 2)), line, "a line and its fields")
    except BadField as bad:
        checks.true(False, f"{line!r} is refused: {bad}")


def is_bad(checks, line):
    checks.raises(BadField, lambda: read_entry(line, 2), f"{line!r}")


def check_proved_tables(checks):
    """The tables of `entry_rows`, whose lines the proved reader takes and refuses."""
    fields, lines = "crates/entry_rows/src/tests/readings/fields.rt", "crates/entry_rows/src/tests/readings/lines.rt"
    for places, good, bad in [("NUMBER_PLACES", "NUMBERS", "BAD_NUMBERS"), ("TEXT_PLACES", "TEXTS", "BAD_TEXTS"),
                              ("SITE_PLACES", "SITES", "BAD_SITES"), ("ORIGIN_PLACES", "ORIGINS", "BAD_ORIGINS"),
                              ("RULE_PLACES", "RULES", "BAD_RULES"), (None, "PIECES", "BAD_PIECES")]:
        around = table(fields, places) if places else ["piece 0 0 ", ""]
        good, bad = table(fields, good), table(fields, bad)
        checks.true(len(around) > 1 and good and bad, f"the tables of {places or 'pieces'} in {fields} are there")
        for before, behind in zip(around[::2], around[1::2]):
            for field in good:
                is_read(checks, before + field + behind)
            for field in bad:
                is_bad(checks, before + field + behind)
    names = ("LINES", "MESSAGES", "REPLIES", "BAD_LINES", "BAD_MESSAGES", "BAD_REPLIES")
    tables = {name: table(lines, name) for name in names}
    checks.true(all(tables.values()), f"the tables in {lines} are there")
    good = [f"said 0 1 2 {message} => {reply}" for message in tables["MESSAGES"] for reply in tables["REPLIES"]]
    for line in tables["LINES"] + good:
        is_read(checks, line)
    bad = [f"said 0 1 2 {text} => ok" for text in tables["BAD_MESSAGES"]]
    bad += [f"said 0 1 2 3 remove 4 => {text}" for text in tables["BAD_REPLIES"]]
    for line in tables["BAD_LINES"] + bad:
        is_bad(checks, line)


def first_bad(checks, text, number):
    """The first bad line of a text is that of this number."""
    bad = checks.raises(BadLine, lambda: read_history(text.encode("utf-8")), f"{text!r}")
    if bad:
        checks.equal(bad.number, number, f"the first bad line of {text!r}")


def check_texts(checks):
    """The tables of `history_text`: whole texts of both versions, and their first bad lines."""
    path = "crates/history_text/src/tests.rt"
    texts, of_two = table(path, "LINES"), table(path, "RESOURCE_LINES")
    source = (TOP / path).read_text(encoding="utf-8")
    rows = {name: re.findall(r'\(("(?:[^"\\]|\\.)*"), (\d+)\)', re.search(rf"const {name}:.*?\];", source, re.DOTALL)[0])
            for name in ("BAD_LINES", "BAD_VERSIONS")}
    checks.true(texts and of_two and all(rows.values()), f"the tables in {path} are there")
    for text in texts:
        for version, head in ((1, ""), (2, "history 2\n")):
            read, entries = read_history((head + text).encode("utf-8"))
            checks.equal((read, len(entries)), (version, text.count("\n")), f"the version and the entries of {text!r}")
            numbers = list(range(version, version + len(entries)))
            checks.equal([entry["line"] for entry in entries], numbers, f"the numbers of lines of {text!r}")
    for line in of_two:
        first_bad(checks, line, 1)
        checks.equal(read_history(f"history 2\n{line}".encode())[0], 2, f"the version of {line!r}")
    for literal, number in rows["BAD_LINES"]:
        text = strings(literal)[0]
        first_bad(checks, text, int(number))
        first_bad(checks, f"history 2\n{text}", int(number) + 1)
    for literal, number in rows["BAD_VERSIONS"]:
        first_bad(checks, strings(literal)[0], int(number))
    bad = checks.raises(BadLine, lambda: read_history(b"open 0\nopen \xff\n"), "a byte above 126")
    checks.equal(bad and bad.number, 2, "the line of a byte above 126")


def run(checks):
    check_kinds(checks)
    check_proved_tables(checks)
    check_texts(checks)
