"""Opens the pages in a headless Chromium: rows, panel, filters, keys, lanes and pictures, without a fault or a request."""
import json
import pathlib
import tempfile

import pictures
from browser import Browser, BrowserFault, installed
from cases import all_cases, case_of, facts_of_lines, rules
from check_pages import A, HOSTILE, hostile_page, squeezed
from history_view.page import Page

# What the page shows: the numbers of the lines, and the text of a place.
SHOWN = "rows.filter((row) => !row.hidden).map((row) => Number(row.id.slice(5)))"
TITLE = "document.getElementById('panel-title').textContent"
DETAIL = "document.getElementById('detail').innerText"
HERE = "document.querySelector('#source .here')?.textContent"
FOCUS = "document.activeElement.closest('tr')?.id ?? document.activeElement.id"
MARKS = "document.querySelectorAll('#lanes %s').length"
# What the clicks are made on, and what the picture shows: a script, a line, and a size.
CLICKED = "mail-and-an-attacker"
PICTURE, PICTURE_LINE, PICTURE_SIZE = "example-isolated-frame", 18, (1360, 710)
# The colours of a kill's word and of its row, in both schemes.
REDS = {"light": [(0xB3, 0x16, 0x1B), (0xFD, 0xE9, 0xE8)], "dark": [(0xFF, 0x8A, 0x80), (0x43, 0x19, 0x1A)]}


class Pages:
    """Pages in files, opened in one browser."""

    def __init__(self, checks, browser, folder):
        self.checks, self.browser, self.folder = checks, browser, pathlib.Path(folder)
        self.rules = rules()

    def open(self, facts, name):
        """Opens the page of a history, and checks that it is at rest: no fault, no request but for itself, all rows."""
        path = self.folder / "page.html"
        path.write_text(Page(facts, self.rules, name).text(), encoding="utf-8")
        del self.browser.errors[:], self.browser.asked[:]
        self.browser.open(path.as_uri())
        lines = [entry["line"] for entry in facts.entries]
        self.checks.equal(self.browser.ask(SHOWN), lines, f"the rows of {name} in the browser")
        self.calm(name)

    def calm(self, name):
        """The page had no fault, and asked for nothing."""
        self.browser.ask("new Promise((done) => requestAnimationFrame(() => requestAnimationFrame(done)))")
        self.checks.equal(self.browser.errors, [], f"faults of the page of {name}")
        own = (self.folder / "page.html").as_uri()
        self.checks.equal(set(self.browser.asked), {own}, f"requests of the page of {name}")

    def equal(self, expression, wanted, what):
        self.checks.equal(self.browser.ask(expression), wanted, what)

    def has(self, expression, wanted, what):
        found = self.browser.ask(expression) or ""
        self.checks.true(squeezed(wanted) in squeezed(found), f"{what}: {wanted!r} is not in {found!r}")


def check_all(pages):
    """Each page opens, and each of its lines fills the panel."""
    for case in all_cases()[0]:
        facts = case.facts()
        pages.open(facts, case.script.name)
        titles = pages.browser.ask(f"rows.map((row, index) => {{ choose(index); return {TITLE}; }})")
        pages.checks.equal([int(title.split(":")[0][5:]) for title in titles], [entry["line"] for entry in facts.entries],
                           f"the titles of the panel of {case.name}")
        pages.calm(case.name)


def check_row(pages):
    """A click on a row fills the panel, marks the row, and shows the action in the script."""
    browser = pages.browser
    pages.equal(TITLE, "What stands out", "the panel before a click")
    pages.equal("getComputedStyle(document.getElementById('line-28')).backgroundColor", "rgb(253, 233, 232)", "a kill's row")
    pages.equal("getComputedStyle(document.querySelector('#line-28 .badge')).backgroundColor", "rgb(179, 22, 27)", "a kill")
    browser.click("#line-28 .what")
    pages.equal(TITLE, "Line 28: a message and its reply", "the panel's title")
    for words in ("asks store as https://mail.com", "kill K7", "K7 a message that only a compromised renderer sends",
                  "Where the origin's site is not the lock of the process (lock_admits)", "Chromium storage asks",
                  "from docs/rules/messages.md, The rows", "Process 0, locked to https://evil.com", "Question “get token”",
                  "May follow exactly where p is locked", "said 0 0 5 0 ask 73746f7265"):
        pages.has(DETAIL, words, "the panel of a kill")
    pages.has(HERE, '"is":"ask","service":"store","origin":"https://mail.com/"', "the part of the script")
    pages.equal("document.querySelector('tr[aria-current]').id", "line-28", "the chosen row")
    pages.equal("location.hash", "#line-28", "the address")
    browser.click("#line-24 button")
    pages.equal(TITLE, "Line 24: a request ends", "the panel's title after another click")
    pages.has(DETAIL, "Where the body is found to be JSON", "the panel of a blocked request")
    browser.click("#overview-button")
    pages.equal(TITLE, "What stands out", "the overview")
    browser.click("#overview [data-line='25']")
    pages.equal(TITLE, "Line 25: a request ends", "a line of the overview")
    browser.ask("new Promise((done) => { addEventListener('hashchange', () => setTimeout(done)); location.hash = '#line-5'; })")
    pages.equal(TITLE, "Line 5: a commit is ordered", "a line that the address names")
    pages.has(DETAIL, "The process: the first of these that there is", "the rows of the choice of a process")


def check_keys(pages):
    """The lines are one stop of the tabulator; arrows go from line to line, and Enter to the panel."""
    browser = pages.browser
    pages.equal("buttons.filter((button) => button.tabIndex === 0).length", 1, "the stops of the tabulator")
    browser.ask("buttons[0].focus()")
    for key, line in (("ArrowDown", 3), ("ArrowDown", 4), ("ArrowUp", 3), ("End", 29), ("ArrowDown", 29), ("Home", 2)):
        browser.press(key)
        pages.equal(FOCUS, f"line-{line}", f"the focus after {key}")
        pages.has(TITLE, f"Line {line}:", f"the panel after {key}")
    browser.press("Enter", "\r")
    pages.equal(FOCUS, "panel-title", "the focus after Enter")


def check_filters(pages):
    """Each filter leaves the lines of its object, and the lanes follow."""
    browser = pages.browser
    everything = list(range(2, 30))
    rows = (("requests", "0", [10, 24]), ("requests", "3", [19, 21, 23]),
            ("documents", "1", [3, 7, 14, 15, 16, 20, 22, 29]), ("processes", "2", [8]), ("outcome", "kill crash", [28]), ("outcome", "blocked", [24, 25]))
    for name, value, lines in rows:
        browser.choose(f"#{name}", value)
        pages.equal(SHOWN, lines, f"the lines of the filter {name} {value}")
        told = f"{len(lines)} of 28 lines"
        pages.equal("document.getElementById('count').textContent", told, f"the count of the filter {name} {value}")
        browser.click("#clear")
        pages.equal(SHOWN, everything, f"the lines after the filter {name}")
    browser.choose("#processes", "0")
    browser.choose("#requests", "1")
    pages.equal(SHOWN, [11, 25], "the lines of two filters")
    pages.equal(MARKS % ".cap", 1, "the caps of one request")
    browser.choose("#documents", "1")
    pages.equal(SHOWN, [], "the lines of filters that nothing fits")
    pages.equal("document.getElementById('none').hidden", False, "the word that nothing fits")
    browser.ask("goTo(0)")
    pages.equal(SHOWN, everything, "the lines after going to a hidden one")
    browser.click(".processes [data-process='1']")
    pages.equal("document.getElementById('processes').value", "1", "the filter by a process's button")
    browser.click(".processes [data-process='1']")
    pages.equal(SHOWN, everything, "the lines after a second click")
    browser.click("#line-28 .what")
    browser.ask("Array.from(document.querySelectorAll('.objects button'))"
                ".find((one) => one.textContent === 'Only document 2').click()")
    pages.equal(SHOWN, [12, 13, 17, 18, 19, 21, 23, 27, 28], "the lines of a document, from the panel")
    browser.click("#clear")


def check_lanes(pages):
    """Each process has a lane, each request a bar, and each line a dot; all stand beside their rows."""
    marks = ((".start:not(.request)", 3), (".start.request", 4), (".dot", 28), (".killed", 1), (".post", 1),
             (".cap.blocked", 2), (".cap.allowed", 2), (".bar.lost", 1))
    for mark, number in marks:
        pages.equal(MARKS % mark, number, f"the marks {mark}")
    gaps = pages.browser.ask(
        "Array.from(document.querySelectorAll('#lanes .dot'), (dot, index) => {"
        "const [one, other] = [dot.getBoundingClientRect(), rows[index].getBoundingClientRect()];"
        "return Math.abs((one.top + one.bottom - other.top - other.bottom) / 2); })")
    pages.checks.true(max(gaps) < 1.5, f"the dots stand beside their rows: {gaps}")


def check_roles(pages):
    """Those who hear the page get a table with heads, and names for its buttons and lists."""
    nodes = pages.browser.call("Accessibility.getFullAXTree")["nodes"]
    told = [(node["role"]["value"], node.get("name", {}).get("value", "")) for node in nodes if not node.get("ignored")]
    roles = [role for role, _ in told]
    pages.checks.equal((roles.count("table"), roles.count("row"), roles.count("columnheader"), roles.count("rowheader")),
                       (1, 29, 5, 28), "the table for those who hear it")
    for wanted in (("button", "Line 28"), ("combobox", "Document"), ("combobox", "Request"), ("combobox", "Process"),
                   ("combobox", "Outcome"), ("region", "Lines of the history"), ("complementary", "What stands out")):
        pages.checks.true(wanted in told, f"{wanted} is told")
    named = ("button", "combobox", "table", "region", "heading")
    pages.checks.equal([role for role, name in told if role in named and not name], [], "what has no name")


def check_hostile(pages):
    """Texts that try to be markup are texts, in the rows and in the panel."""
    for text, seen in HOSTILE:
        facts = hostile_page(text)
        pages.open(facts, text)
        pages.browser.ask("rows.forEach((row, index) => choose(index))")
        for line, words in ((7, "Text “{}”"), (9, "URL {}"), (14, "Question “{}”")):
            pages.browser.ask(f"goTo({line - 2})")
            pages.has("document.getElementById('detail').textContent", words.format(seen or text), f"the panel of {text!r}")
        pages.calm(repr(text))


def check_many(pages):
    """A history of 5,000 lines opens, and its lines are chosen and filtered."""
    said = [f"said 0 0 {at} 0 fetch cors {A} 78 => ok" for at in range(2500)]
    ends = [f"end {at} blocked B1" for at in range(2497)]
    lines = ["open 0", f"order 0 0 {A} {A} {A}/", f"commit 0 0 {A} - => ok", *said, *ends]
    pages.open(facts_of_lines({"start": [A]}, *lines), "5,000 lines")
    pages.browser.click("#line-4000 .what")
    pages.has(TITLE, "Line 4000:", "a line of 5,000")
    heads = "Array.from(document.querySelectorAll('#gutter span'), (one) => one.textContent).join()"
    pages.has(heads, "+", "requests without room")
    pages.browser.choose("#requests", "1700")
    pages.equal(SHOWN, [1705, 4205], "the lines of one request of many")
    pages.equal(MARKS % ".cap.blocked", 1, "the cap of one request of many")
    pages.calm("5,000 lines")


def check_pictures(pages, picture):
    """Pictures of a page, light and dark, show it; one is left where it is asked for."""
    browser, case = pages.browser, case_of(PICTURE)
    browser.size(*PICTURE_SIZE)
    for scheme in ("dark", "light"):
        browser.scheme(scheme)
        pages.open(case.facts(), case.script.name)
        browser.click(f"#line-{PICTURE_LINE} .what")
        pages.calm(PICTURE)
        width, rows = pictures.read(browser.picture())
        colors = {color for row in rows for color in row}
        pages.checks.equal((width, len(rows)), PICTURE_SIZE, f"the size of the {scheme} picture")
        pages.checks.true(len(colors) > 100, f"the colours of the {scheme} picture: {len(colors)}")
        bright = sum(sum(color) for row in rows for color in row) / (3 * width * len(rows))
        fits = bright < 90 if scheme == "dark" else bright > 200
        pages.checks.true(fits, f"the brightness of the {scheme} picture: {bright}")
        word, row = (sum(line.count(red) for line in rows) for red in REDS[scheme])
        pages.checks.true(word > 500 and row > 5000, f"the reds of the kill in the {scheme} picture: {word}, {row}")
    if picture:
        pathlib.Path(picture).write_bytes(pictures.write(width, rows))


def run(checks, picture):
    program = installed()
    if program is None:
        print("history view: the pages are not opened, since no Chromium is on the path")
        return
    try:
        browser = Browser(program)
    except BrowserFault as fault:
        checks.true(False, f"{program} can't be started: {fault}")
        return
    try:
        with tempfile.TemporaryDirectory(prefix="history-view-") as folder:
            pages = Pages(checks, browser, folder)
            browser.size(1440, 1000)
            browser.scheme("light")
            check_all(pages)
            for check in (check_row, check_keys, check_filters, check_lanes, check_roles):
                pages.open(case_of(CLICKED).facts(), "a page")
                check(pages)
                pages.calm(check.__name__)
            check_hostile(pages)
            check_many(pages)
            check_pictures(pages, picture)
    except BrowserFault as fault:
        checks.true(False, f"the browser failed: {fault}")
    finally:
        browser.close()
