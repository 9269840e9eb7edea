"""The table of no-cors responses: what a page gets of another site, by our read blocking and by Chromium's."""
import json

from devtools import CallFailed
from fetches import perform
from history import Script

TYPES = ("text/html", "text/xml", "application/xml", "application/rss+xml", "image/svg+xml", "application/json",
         "text/json", "application/manifest+json", "text/plain", "text/css", "text/javascript", "application/javascript",
         "image/png", "audio/mpeg", "video/mp4", "font/woff2", "application/pdf", "application/zip", "text/csv",
         "application/octet-stream", "")
BODIES = {
    "HTML": b"<!doctype html><p>a page", "comment": b"<!-- a comment --><html>",
    "BOM, HTML": b"\xef\xbb\xbf<!doctype html>", "XML": b'<?xml version="1.0"?><a/>', "JSON": b'{"a": 1}',
    "list": b"[1, 2]", "prefix": b")]}'\n[1]", "script": b"a = 1",
    "PNG": bytes.fromhex("89504e470d0a1a0a0000000d49484452"), "words": b"some words",
}
NOSNIFF = ["X-Content-Type-Options", "nosniff"]
VARIANTS = ("plain", "nosniff", "206")
PAGE, OTHER = "https://page.example/", "https://other.example/"
# By whether ours gives it out, and whether Chromium does.
MARKS = {(True, True): "pass", (False, False): "block", (False, True): "**ours**", (True, False): "**ORB**"}


def resource(kind, body, variant, number):
    """A response of the table."""
    headers = [["Content-Type", kind]] if kind else []
    if variant == "nosniff":
        headers.append(NOSNIFF)
    if variant == "206":
        headers.append(["Content-Range", f"bytes 0-{len(body) - 1}/{len(body)}"])
    status = 206 if variant == "206" else 200
    return {"url": f"{OTHER}{number}", "status": status, "headers": headers, "body_hex": body.hex()}


def fetch_of(made):
    return {"do": "fetch", "url": made["url"], "mode": "no-cors"}


def script_of(variant, kind):
    """A page that reads every body of this type and variant from another site."""
    resources = [resource(kind, body, variant, number) for number, body in enumerate(BODIES.values())]
    page = {"url": PAGE, "actions": [fetch_of(made) for made in resources]}
    return Script(f"{variant} {kind}", json.dumps({"start": [PAGE], "resources": [page] + resources}))


def our_verdicts(lines):
    """Whether each response came, by a history of that page."""
    ends = {line.number(1): line.words[2] == "whole" for line in lines if line.kind == "end"}
    return [ends[number] for number in range(len(BODIES))]


def open_reader(browser):
    """Opens the page that reads in Chromium; gives its frame."""
    frame = browser.open_page()
    browser.connection.send("Page.navigate", {"url": PAGE}, browser.seen.contexts[frame].session)
    browser.let_go(frame, PAGE, 10.0)
    if not browser.until(lambda: at_page(browser, frame), 10.0):
        raise CallFailed("the page of the table did not open")
    return frame


def at_page(browser, frame):
    try:
        return browser.evaluate(frame, "location.href") == PAGE
    except CallFailed:
        return False


def measure(bench):
    """For each variant and type, and each body in their order, whether ours gives it out and whether Chromium does."""
    browser = bench.browser_for((), False)
    browser.begin_script([])
    bench.server.load([{"url": PAGE}])
    verdicts = {}
    try:
        frame = open_reader(browser)
        for variant, kind in ((variant, kind) for variant in VARIANTS for kind in TYPES):
            script = script_of(variant, kind)
            bench.server.load(script.resources)
            theirs = [perform(browser, frame, action, True).is_whole() for action in script.resources[0]["actions"]]
            verdicts[variant, kind] = list(zip(our_verdicts(bench.lines(script)), theirs))
    finally:
        browser.end_script()
    return verdicts


def table_text(verdicts):
    """A table for each variant, with a row for each type."""
    lines = []
    for variant in VARIANTS:
        head = {"plain": "A 200", "nosniff": "A 200 with `nosniff`", "206": "A 206"}[variant]
        lines += ["", f"{head}:", "", "| Type | " + " | ".join(BODIES) + " |", "|---" * (len(BODIES) + 1) + "|"]
        for kind in TYPES:
            marks = " | ".join(MARKS[pair] for pair in verdicts[variant, kind])
            lines.append(f"| {'`' + kind + '`' if kind else 'no type'} | {marks} |")
    return "\n".join(lines[1:])
