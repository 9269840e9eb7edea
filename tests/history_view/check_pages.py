"""Checks the pages: that each is whole and tells its history, and that no text of a script or a history becomes markup."""
import base64
import hashlib
import json
from html.parser import HTMLParser

from cases import all_cases, case_of, facts_of, facts_of_lines, hexadecimal, rules
from history_view.page import Page
from history_view.safe import plain, quoted_bytes, script_data, shown

A = "https://a.com"
EMPTY = {"meta", "link", "br", "input", "path", "circle", "rect"}
# Texts that try to be markup, to end an element, to hide or to turn what follows, and how they are to be seen.
HOSTILE = [
    ("</script><script>alert(1)</script>", None), ("<img src=x onerror=alert(1)>", None), ("\"'><b>&amp;&lt;", None),
    ("<!--", None), ("</script x", None), ("<!--<script y", None), ("]]>", None), ("{{rows}}{{data}}", None), ("${1}`\\u003c\\", None), ("</style></title></pre>", None),
    ("\U0001F600 𝔸", None), ("a\u2028b\u2029c", "aU+2028bU+2029c"), ("\u202eevil\u202c", "U+202EevilU+202C"),
    ("\x00\x1f\x7f\x85", "U+0000U+001FU+007FU+0085"), ("tab\tfeed\n", "tabU+0009feedU+000A"),
    ("\ufeff\u200b\u00ad", "U+FEFFU+200BU+00AD"), ("no\u00a0break\u3000", "noU+00A0breakU+3000"),
    ("%00%2e%3Cscript%3E", None), ("\ue000", "U+E000"), ("\U000e0041", "U+E0041"),
]
# Lines of a page of such texts, and how a text is seen there.
SEEN = [(7, "posts “{}” to frame 0"), (8, "takes “{}” from"), (9, "opens a page: {}"), (12, "“{}"), (14, "asks {}: “{}”"),
        (15, "navigates frame 0 to {}")]


def who(**numbers):
    """How a row names what its entry is about: each kind by its first letter and its number, as "P0" for process 0."""
    return " ".join(f"{kind[0].upper()}{number}" for kind, number in numbers.items())


# A case, a line, and what its row says: who, what is done, what came of it.
ROWS = [
    ("example-forged-commit", 10, who(process=1, document=1), "forged claims that navigation 2 committed https://bank.com/",
     "kill K9 the URL's text is not the order's"),
    ("example-forged-commit", 12, who(process=0, document=0), "posts “hello” to frame 1, for anyone", "drop M1 the frame has no document"),
    ("example-ad-frame", 5, who(process=0, document=0), "adds a frame: https://ads.adnet.com/top → frame 1, navigation 1", "ok"),
    ("example-ad-frame", 6, who(process=1, navigation=1),
     "is ordered to commit https://ads.adnet.com/top; the process is locked to https://adnet.com", ""),
    ("example-ad-frame", 14, who(process=1), "exits: no document is left in it", "exit"),
    ("example-store-per-origin", 6, who(process=0, document=0), "asks store: “get cart”", "answer “some 3 pears”"),
    ("example-store-per-origin", 18, who(process=0, document=0), "forged asks store as https://bank.com: “get cart”",
     "kill K7 the origin's site is not the lock of the process"),
    ("example-login-redirects", 6, who(navigation=1), "is redirected to https://login.com/start?for=shop", ""),
    ("example-login-redirects", 13, who(navigation=3), "ends without a commit: https://login.com/quiet",
     "ended N8 status 204 or 205 of a navigation"),
    ("example-redirected-read", 14, who(process=0, request=0), "ends: https://a.com/page", "blocked B4 the body is found to be HTML"),
    ("example-redirected-read", 13, who(process=0, request=2), "gets piece 0, 5 bytes: “<p>hi”", ""),
    ("example-replaced-navigation", 9, who(process=0, navigation=1), "tells that it committed https://a.com/slow",
     "drop G3 the order is not waiting: it was committed, replaced or removed, or its process died"),
    ("example-replaced-navigation", 13, who(process=1, document=2), "takes “hello” from https://a.com", ""),
    ("example-opened-page", 9, who(process=1, document=1), "adds a sandboxed frame: https://widget.com/ → frame 2, navigation 2", "ok"),
    ("example-opened-page", 11, who(process=2, document=2), "commits https://widget.com/ as opaque:2:https://widget.com", "ok"),
    ("a-spare-process", 3, who(process=0), "is kept ready, without a lock yet", ""),
]


class Reader(HTMLParser):
    """Reads a page: its elements, whether they close in order, its rows, and the texts of its elements by their ids."""

    def __init__(self, text):
        super().__init__()
        self.open, self.elements, self.faults = [], [], []
        self.rows, self.texts, self.raw = {}, {}, {"script": [], "style": []}
        self.feed(text)
        self.close()
        self.faults += [f"{tag} is not closed" for tag, _ in self.open]

    def handle_starttag(self, tag, attributes):
        attributes = dict(attributes)
        self.elements.append((tag, attributes))
        if tag == "tr" and "id" in attributes:
            self.rows[attributes["id"]] = []
        if tag in ("td", "th") and self.rows:
            self.rows[list(self.rows)[-1]].append("")
        if tag in self.raw:
            self.raw[tag].append("")
        if tag not in EMPTY:
            self.open.append((tag, attributes))

    def handle_startendtag(self, tag, attributes):
        self.elements.append((tag, dict(attributes)))

    def handle_endtag(self, tag):
        if self.open and self.open[-1][0] == tag:
            self.open.pop()
        else:
            self.faults.append(f"{tag} closes nothing")

    def handle_data(self, data):
        tags = [tag for tag, _ in self.open]
        if tags and tags[-1] in self.raw:
            self.raw[tags[-1]][-1] += data
            return
        classes = [attributes.get("class") for _, attributes in self.open]
        if "quiet" in classes:
            return
        if "tbody" in tags and self.rows:
            cells = self.rows[list(self.rows)[-1]]
            cells[-1] += data
        for _, attributes in self.open:
            if "id" in attributes:
                self.texts[attributes["id"]] = self.texts.get(attributes["id"], "") + data


def page_of(facts, name="x.json"):
    return Page(facts, rules(), name).text()


def digest(text):
    return "'sha256-" + base64.b64encode(hashlib.sha256(text.encode("utf-8")).digest()).decode() + "'"


def check_whole(checks, text, name):
    """A page closes its elements, names each id once, asks for nothing, and lets its own program alone run."""
    page = Reader(text)
    checks.equal(page.faults, [], f"the elements of {name}")
    ids = [attributes["id"] for _, attributes in page.elements if "id" in attributes]
    checks.equal(len(ids), len(set(ids)), f"the ids of {name}")
    asked = {(tag, key, value) for tag, attributes in page.elements for key, value in attributes.items()
             if key in ("src", "href", "action", "srcset", "style", "data", "srcdoc") or key.startswith("on")}
    checks.equal(asked, {("link", "href", "data:,"), ("a", "href", "#rows")}, f"what {name} asks for")
    checks.equal((len(page.raw["script"]), len(page.raw["style"])), (2, 1), f"the scripts and styles of {name}")
    policy = next(attributes["content"] for tag, attributes in page.elements if attributes.get("http-equiv"))
    program, style = page.raw["script"][-1], page.raw["style"][0]
    wanted = {"default-src": "'none'", "img-src": "data:", "style-src": digest(style), "script-src": digest(program),
              "base-uri": "'none'", "form-action": "'none'", "require-trusted-types-for": "'script'",
              "trusted-types": "'none'"}
    checks.equal(dict(part.strip().split(" ", 1) for part in policy.split(";")), wanted, f"the policy of {name}")
    tags = {tag for tag, _ in page.elements}
    others = tags & {"img", "iframe", "object", "embed", "base", "form", "video", "audio"}
    checks.equal(others, set(), f"elements that {name} has no use for")
    labels = [attributes for tag, attributes in page.elements if tag == "button"]
    checks.true(labels and all(attributes.get("type") == "button" for attributes in labels), f"the buttons of {name}")
    checks.equal(data_of(page) is None, False, f"the data of {name}")
    return page


def data_of(page):
    """The data of a page's program, None where it can't be read."""
    try:
        return json.loads(page.raw["script"][0])
    except ValueError:
        return None


def check_case(checks, case):
    """A page has one row a line, its script word by word, and its processes."""
    facts = case.facts()
    page = check_whole(checks, page_of(facts, case.script.name), case.name)
    checks.equal(list(page.rows), [f"line-{entry['line']}" for entry in facts.entries], f"the rows of {case.name}")
    checks.true(all(len(cells) == 5 for cells in page.rows.values()), f"the cells of {case.name}")
    checks.equal(page.texts.get("source", ""), facts.script.text, f"the script of {case.name}")
    cards = [attributes for _, attributes in page.elements if "data-process" in attributes]
    checks.equal(len(cards), len(facts.processes), f"the processes of {case.name}")
    for row in (row for row in ROWS if row[0] == case.name):
        found = [squeezed(cell) for cell in page.rows[f"line-{row[1]}"][2:]]
        checks.equal(found, [squeezed(cell) for cell in row[2:]], f"line {row[1]} of {case.name}")


def squeezed(text):
    return "".join(text.split())


def hostile_page(text):
    """A page with a text at each place where a script or a history has texts of its own."""
    action = {"do": "post", "frame": "self", "target": "*", "text": text}
    resource = {"url": A, "headers": [["a", text]], "body": text, "actions": [action]}
    script = {"start": [A, text], "isolated_origins": [text], "suffixes": text,
              "resources": [resource, {"url": text, "actions": []}]}
    code = hexadecimal(text)
    printed = text if text.isascii() and text.isprintable() else "x"
    lines = ["open 0", "open 1", f"order 0 0 {A} {A} {A}/", f"commit 0 0 {A} {hexadecimal(A + '/')} => ok",
             f"hop nav 1 {printed}", f"said 0 0 0 0 post 0 * {A} {code} => ok", f"local 0 0 1 took {A} {code}",
             f"said 0 0 2 0 page {code} => ok",
             f"said 0 0 3 0 fetch cors {A} {code} => ok", "head 0 A1", f"piece 0 0 {code}", "end 0 whole",
             f"said 0 0 4 0 ask {code} {A} {code} => answer {code}", f"said 0 0 5 0 navigate 0 {A} {code} => ok",
             f"said 0 0 6 0 frame plain url {code} => ok", f"order 1 1 {A} {A} {printed}",
             f"commit 1 1 {A} {code} => kill K9", f"said 0 0 7 0 commit 2 {A} {code} => kill K9"]
    data = json.dumps(script, ensure_ascii=False).encode("utf-8")
    history = "history 2\n" + "".join(f"{line}\n" for line in lines)
    return facts_of(data, history.encode("utf-8"))


def shape(page):
    """The elements of a page but for the runs of its texts, with the attributes whose values come of no text."""
    return [(tag, sorted(key for key in attributes)) for tag, attributes in page.elements if tag != "span"]


def check_hostile(checks):
    plain_shape = shape(check_whole(checks, page_of(hostile_page("x")), "a page of plain texts"))
    for text, seen in HOSTILE:
        for name in (text, "x.json"):
            page = check_whole(checks, page_of(hostile_page(text), name), f"the page of {text!r}")
            checks.equal(shape(page), plain_shape, f"the elements of the page of {text!r}")
            seen = seen or text
            for line, around in SEEN:
                wanted = squeezed(around.format(seen, seen))
                found = squeezed(page.rows[f"line-{line}"][3])
                checks.true(wanted in found, f"{text!r} at line {line}: {wanted!r} is not in {found!r}")
            is_escaped = any(ord(char) < 32 or char in '"\\' for char in text)
            checks.true(is_escaped or seen in page.texts["source"], f"{text!r} in the script")


def check_hosts(checks):
    """Hosts may have most signs, and stand in attributes too."""
    def page(host):
        origin = f"https://{host}"
        return facts_of_lines({"start": [A]}, "open 0", f"order 0 0 {origin} {origin} {origin}", "crash 0")

    wanted = shape(check_whole(checks, page_of(page("x")), "a page of a plain host"))
    for host in ('"><b>', "'onclick='x'", "&quot;", "<script>", "x\"title=\"y", "%22"):
        found = check_whole(checks, page_of(page(host)), f"the page of the host {host!r}")
        checks.equal(shape(found), wanted, f"the elements of the page of the host {host!r}")
        titles = [attributes["title"] for _, attributes in found.elements if "title" in attributes]
        checks.equal(titles, [f"https://{host}"], f"the title of the host {host!r}")


def check_safe(checks):
    checks.equal(shown("a\x00b"), [["v", "a"], ["x", "U+0000"], ["v", "b"]], "parts of a text")
    checks.equal(shown(""), [], "parts of no text")
    wanted = [["", "“"], ["v", "a"], ["x", "\\xff"], ["x", "U+0000"], ["", "”"]]
    checks.equal(quoted_bytes(b"a\xff\x00", 9), wanted, "the parts of bytes")
    checks.equal(quoted_bytes(b"abc", 2)[-1], ["m", " and 1 bytes more"], "bytes that are cut")
    checks.equal(plain("a\u202eb\udcff"), "a‹U+202E›b‹\\xff›", "a plain text")
    text = script_data(["</script><!--&\u2028\u2029\U0001F600"])
    checks.true(text.isascii() and not set("<>&") & set(text), "data within a script element")
    checks.equal(json.loads(text), ["</script><!--&\u2028\u2029\U0001F600"], "that data, read back")


def check_data(checks):
    """What the page's program is given: lanes, bars, and the panel of a line."""
    data = data_of(Reader(page_of(case_of("mail-and-an-attacker").facts())))
    checks.equal([(lane["number"], lane["first"], lane["lock"], lane["last"], lane["end"]) for lane in data["lanes"]],
                 [(0, 2, 3, 26, "kill"), (1, 4, 5, 27, None), (2, 6, None, 27, None)], "lanes")
    keys = ("first", "head", "last", "how", "allowed", "refused")
    checks.equal([tuple(bar[key] for key in keys) for bar in data["bars"]],
                 [(8, None, 22, "blocked", None, "B6"), (9, None, 23, "blocked", None, "B1"),
                  (14, 18, 27, "whole", "A1", None), (17, 19, 26, "lost", "A1", None)], "bars")
    places = [(card["lane"], card["to"]) for card in data["cards"][24:27]]
    checks.equal(places, [(0, None), (0, 1), (0, None)], "the lanes of lines")
    kill = data["cards"][26]
    fields = {label: "".join(text for _, text in parts) for label, parts in kill["fields"]}
    document = "0, https://evil.com/ of origin https://evil.com"
    checks.equal(fields, {"Process": "0, locked to https://evil.com", "Document": document, "Action": "5", "Message": "ask",
                          "Service": "store", "Origin": "https://mail.com", "Question": "“get token”", "Reply": "kill K7"},
                 "the fields of a kill")
    words = {head: "".join(text for _, text in parts) for head, parts in data["words"][kill["rows"][0]]["cells"]}
    checks.equal(words["Where"], "the origin's site is not the lock of the process (lock_admits)", "the words of its rule")
    found = (kill["source"], kill["lines"][0], kill["rule"])
    wanted = ("/resources/0/actions/5", [2, "navigation 0 begins"], "K7")
    checks.equal(found, wanted, "its place in the script, its lines and its rule")


def check_small(checks):
    """Histories with nothing in them, and those of version one."""
    for version, said in ((1, "A history of version one: 0 entries"), (2, "A history of version two: 0 entries")):
        text = page_of(facts_of_lines({"start": []}, version=version))
        check_whole(checks, text, "a page without lines")
        checks.true(said in text, "the head of a page without lines")
    page = check_whole(checks, page_of(facts_of_lines({"start": [A]}, "open 0", version=1)), "a page of version one")
    checks.equal(list(page.rows), ["line-1"], "the rows of version one")


def run(checks):
    for case in all_cases()[0]:
        check_case(checks, case)
    check_hostile(checks)
    check_hosts(checks)
    check_safe(checks)
    check_data(checks)
    check_small(checks)
    facts = facts_of_lines({"start": [A]}, "open 3")
    checks.true("of another script" in page_of(facts), "a history of another script is told")
