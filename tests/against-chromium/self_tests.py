"""Tests of the check itself: of its parts on literal values, and of histories that are altered in one line."""
import copy
import json
from dataclasses import dataclass

import loopback
from comparison import Comparison
from differences import BadList, judge, orphans, read_differences
from history import read_line

HEAD = "Inter-|   Receive\n face |bytes\n"


def expect(tally, name, is_right):
    if is_right:
        tally.passes()
    else:
        tally.fails("self-test: " + name)


def test_guard(tally):
    """The guard of the network knows loopback alone."""
    for name, table, wanted in (("loopback alone", HEAD + "    lo: 0 0\n", True),
                                ("a network", HEAD + "lo: 0\n  eth0: 1\n", False),
                                ("a network alone", HEAD + "  eth0: 1\n", False), ("no interface", HEAD, False)):
        expect(tally, name, loopback.is_alone(table) == wanted)


def test_page(tally, differences, page):
    """docs/CHROMIUM.md tells each listed difference, with both reasons."""
    text = " ".join(page.read_text().split()) if page.exists() else ""
    for difference in differences:
        for part in (difference.title, difference.theirs, difference.ours):
            expect(tally, f"docs/CHROMIUM.md tells {difference.name}", part in text)


def test_list(tally):
    """The list judges: exactly what differs must be listed."""
    shown = {"script": "s", "at": "line", "subject": "reply", "model": "done", "chromium": "denied"}
    entry = {"name": "n", "title": "t", "side": "Chromium", "theirs": "x", "ours": "y", "shown": [shown]}
    good = read_differences(json.dumps({"differences": [entry]}))
    differs, agrees = Comparison(*shown.values()), Comparison("s", "line", "reply", "done", "done")
    for name, listed, comparisons, scripts, wanted in (
            ("a listed difference", good, [differs], {"s"}, True),
            ("a difference that isn't listed", [], [differs], {"s"}, False),
            ("a listed one that vanished", good, [agrees], {"s"}, False), ("nothing differs", [], [agrees], {"s"}, True),
            ("a listed one of another script", good, [], {"t"}, True)):
        expect(tally, name, judge(listed, comparisons, scripts).is_good == wanted)
    expect(tally, "a listed one of a script that is not there", bool(orphans(good, {"t"})))
    expect(tally, "a listed one of a script that is there", not orphans(good, {"s", "t"}))
    for key in entry:
        bad = copy.deepcopy(entry)
        del bad[key]
        expect(tally, f"a list without {key}", is_refused([bad]))
    expect(tally, "a reason that is empty", is_refused([{**entry, "ours": ""}]))
    expect(tally, "a difference that stands twice", is_refused([entry, entry]))
    expect(tally, "an unknown side", is_refused([{**entry, "side": "somebody"}]))


def is_refused(entries):
    try:
        read_differences(json.dumps({"differences": entries}))
    except BadList:
        return True
    return False


@dataclass(frozen=True)
class Alteration:
    """One line of a script's history, and what stands in its place."""
    script: str
    old: str
    new: str
    subject: str


ALTERATIONS = (
    Alteration("examples/ad-frame", "order 2 1 https://adnet.com ", "order 2 1 https://img.adnet.com ", "lock"),
    Alteration("examples/ad-frame",
               "commit 1 2 https://img.adnet.com", "commit 0 2 https://img.adnet.com", "processes"),
    Alteration("examples/ad-frame", "commit 1 1 https://ads.adnet.com", "commit 1 1 https://adnet.com", "document"),
    Alteration("examples/opened-page",
               "commit 2 2 opaque:2:https://widget.com", "commit 2 2 https://widget.com", "document"),
    Alteration("examples/opened-page", "696e => deny N1", "696e => ok", "reply"),
    Alteration("examples/opened-page", "6f7265 => deny N9", "6f7265 => ok", "reply"),
    Alteration("examples/opened-page", "627965 => ok\norder", "627965 => deny N1\norder", "reply"),
    Alteration("examples/login-redirects",
               "hop nav 1 https://login.com/start?for=shop", "hop nav 1 https://login.com/", "redirect"),
    Alteration("examples/login-redirects",
               "hop nav 1 https://shop.com/welcome", "hop nav 1 http://shop.com/welcome", "redirect"),
    Alteration("examples/login-redirects", "navend 2 N3", "navend 2 N5", "end"),
    Alteration("examples/login-redirects", "navend 3 N8", "navend 3 N7", "end"),
    Alteration("examples/payment-frame", "took https://shop.com 616d", "took https://shop.com 716d", "message"),
    Alteration("examples/payment-frame",
               "local 0 0 1 took https://pay.com", "local 0 0 1 took https://pay.org", "message"),
    Alteration("examples/payment-frame",
               "https://pay.com 70616964203132 => drop M2", "https://pay.com 70616964203132 => ok", "messages"),
    Alteration("examples/payment-frame", "616d6f756e74203132 => ok", "616d6f756e74203132 => drop M2", "messages"),
    Alteration("examples/payment-frame",
               "https://pay.com 7265616479 => ok", "https://pay.com 7265616478 => ok", "messages"),
    Alteration("examples/store-per-origin", "answer 6e6f6e65", "answer 646f6e65", "store"),
    Alteration("examples/store-per-origin", "deny S1", "answer 6e6f6e65", "store"),
    Alteration("examples/compromised-page", "end 0 blocked B6", "end 0 whole", "response"),
    Alteration("examples/compromised-page", "end 1 blocked B1", "end 1 whole", "response"),
    Alteration("examples/compromised-page", "end 3 whole", "end 3 blocked B4", "response"),
    Alteration("examples/compromised-page", "piece 2 0 8950", "piece 2 0 8951", "response"),
    Alteration("scripts/cors-over-redirects",
               "hop req 3 https://c.com/let", "hop req 3 https://c.com/null", "redirect"),
    Alteration("scripts/cors-over-redirects", "end 4 whole", "end 4 blocked B1", "response"),
)


def altered(lines, alteration):
    """The lines with that one altered; None where the old text doesn't stand there exactly once."""
    text = "\n".join(line.text for line in lines)
    if text.count(alteration.old) != 1:
        return None
    return [read_line(line) for line in text.replace(alteration.old, alteration.new).split("\n")]


def test_alterations(tally, bench, scripts, faults):
    """Each altered history must give exactly one difference, of its subject."""
    by_name = {script.name: script for script in scripts}
    for alteration in ALTERATIONS:
        name = f"{alteration.script} with {alteration.new!r}"
        try:
            lines = altered(bench.lines(by_name[alteration.script]), alteration)
            if lines is None:
                tally.fails(f"self-test: {name}: the old text stands not exactly once")
                continue
            seen = bench.replay(by_name[alteration.script], lines)
        except faults as error:
            tally.fails(f"self-test: {name}: {type(error).__name__}: {error}")
            continue
        differ = [comparison for comparison in seen.comparisons if not comparison.agrees]
        expect(tally, f"{name}: {[comparison.told() for comparison in differ]}",
               [comparison.subject for comparison in differ] == [alteration.subject])
    print(f"{len(ALTERATIONS)} histories altered in one line")
