"""Checks what the lines of a history and its script tell together, and how scripts are read."""
import json

from cases import all_cases, case_of, facts_of_lines, hexadecimal
from history_view.facts import Facts
from history_view.lines import read_history
from history_view.script import BadScript, key_of, read_script

A = "https://a.com"
PAGE = ["open 0", f"order 0 0 {A} {A} {A}/", f"commit 0 0 {A} {hexadecimal(A + '/')} => ok"]
ACTIONS = [{"do": "fetch", "url": "https://b.com/", "mode": "cors"}, {"do": "raw", "message": {"is": "remove", "frame": 9}}]
RESOURCES = [{"url": "HTTPS://A.com:443/x/..#f", "actions": ACTIONS}, {"url": "https://a.com/doc"}]
SCRIPT = {"start": [A], "resources": RESOURCES}
# Whole texts of scripts, and the code and path of their refusals.
BAD_SCRIPTS = [
    (b"", "X1", ""), (b"{", "X1", ""), (b"\xff", "X1", ""), (b"\xef\xbb\xbf{\"start\":[]}", "X1", ""), (b"[NaN]", "X1", ""),
    (b'{"start":["\\ud800"]}', "X1", ""), (b"[" * 100000, "X1", ""), (b"[" * 5000 + b"]" * 5000, "X1", ""),
    (b"[" * 128 + b"]" * 128, "X1", ""), (b"[" * 127 + b"]" * 127, "X2", ""), (b'{"a":' * 128 + b"1" + b"}" * 128, "X1", ""),
    (b"9" * 5000, "X1", ""), (b'{"start":[]} x', "X1", ""), (b'{"start":["a\nb"]}', "X1", ""),
    (b"[]", "X2", ""), (b"{}", "X2", "/start"), (b'{"start":1}', "X2", "/start"), (b'{"start":[1]}', "X2", "/start/0"),
    (b'{"start":[],"spare":1}', "X2", "/spare"), (b'{"start":[],"soft_limit":true}', "X2", "/soft_limit"),
    (b'{"start":[],"suffixes":[]}', "X2", "/suffixes"),
    (b'{"start":[],"isolated_origins":[0]}', "X2", "/isolated_origins/0"),
    (b'{"start":[],"resources":{}}', "X2", "/resources"), (b'{"start":[],"resources":[0]}', "X2", "/resources/0"),
    (b'{"start":[],"resources":[{}]}', "X2", "/resources/0/url"),
    (b'{"start":[],"resources":[{"url":"x","status":"200"}]}', "X2", "/resources/0/status"),
    (b'{"start":[],"resources":[{"url":"x","cuts":[1.5]}]}', "X2", "/resources/0/cuts/0"),
    (b'{"start":[],"resources":[{"url":"x","body_hex":"0"}]}', "X2", "/resources/0/body_hex"),
    (b'{"start":[],"resources":[{"url":"x","body_hex":"0 0 "}]}', "X2", "/resources/0/body_hex"),
    (b'{"start":[],"resources":[{"url":"x","headers":[["a"]]}]}', "X6", "/resources/0/headers/0"),
    (b'{"start":[],"resources":[{"url":"x","headers":[["a",1]]}]}', "X2", "/resources/0/headers/0/1"),
    (b'{"start":[],"resources":[{"url":"x","actions":[{}]}]}', "X2", "/resources/0/actions/0/do"),
    (b'{"start":[],"resources":[{"url":"x","actions":["wait"]}]}', "X2", "/resources/0/actions/0"),
]
# URLs, and their keys by the URL Standard.
KEYS = [
    ("https://a.com", "https://a.com/"), ("HTTPS://A.com:443/#f", "https://a.com/"),
    ("http://a.com:443/", "http://a.com:443/"), ("https://a.com:" + "9" * 5000, "https://a.com:" + "9" * 5000 + "/"),
    ("http://a.com:080", "http://a.com/"), ("https://a.com/x/./y/../z/..", "https://a.com/x/"),
    ("https://a.com/%2e%2E/b", "https://a.com/b"), ("https:\\\\a.com\\b", "https://a.com/b"),
    (" https://a.com/ ", "https://a.com/"), ("https://u:p@a.com", "https://u:p@a.com/"),
    ("https://a.com/a b\"é?q 'é'", "https://a.com/a%20b%22%C3%A9?q%20%27%C3%A9%27"),
    ("https://[::1]:8443", "https://[::1]:8443/"), ("data:text/html,x#y", "data:text/html,x"),
    ("about:blank", "about:blank"), ("ABOUT:blank", "about:blank"), ("no url", "no url"), ("", ""),
]


def check_scripts(checks):
    for data, code, path in BAD_SCRIPTS:
        bad = checks.raises(BadScript, lambda: read_script(data), f"the script {data[:60]!r}")
        checks.equal(bad and (bad.code, bad.path), (code, path), f"the refusal of {data[:60]!r}")
    for url, key in KEYS:
        checks.equal(key_of(url), key, f"the key of {url[:40]!r}")


def check_spans(checks):
    """The spans of a script's text are those of its values, however it is laid out, and of a repeated key the last."""
    layouts = [json.dumps(SCRIPT), json.dumps(SCRIPT, indent=3), json.dumps(SCRIPT, indent="\t").replace("\n", "\r\n")]
    layouts.append('{"resources":[{"url":"gone","actions":[1,2,3]}],"start":[],' + json.dumps(SCRIPT)[1:])
    wanted = {"/start/0": A, "/resources/0": SCRIPT["resources"][0], "/resources/0/actions/0": ACTIONS[0],
              "/resources/0/actions/1": ACTIONS[1], "/resources/1": SCRIPT["resources"][1]}
    for text in layouts:
        script = read_script(text.encode("utf-8"))
        found = {path: json.loads(text[start:end]) for path, (start, end) in script.spans.items()}
        checks.equal(found, wanted, "the values at the spans of a script")
    checks.equal(read_script(b' { "start" : [ ] } ').spans, {}, "the spans of an empty script")


def picked(objects, *keys):
    return [tuple(found[key] for key in keys) for _, found in sorted(objects.items())]


def check_mail(checks):
    """Spare processes, posts, verdicts, a kill, and a request that is lost with its frame."""
    facts = case_of("mail-and-an-attacker").facts()
    kill = {"line": 28, "kind": "kill", "rule": "K7"}
    wanted = [(4, True, "https://evil.com", 5, kill), (6, True, "https://mail.com", 7, None), (8, True, None, None, None)]
    checks.equal(picked(facts.processes, "line", "warm", "lock", "lock_line", "end"), wanted, "the processes of mail")
    checks.equal(picked(facts.frames, "line", "document", "gone_line"), [(2, None, None), (3, None, None), (12, 0, 28)],
                 "its frames")
    checks.equal(picked(facts.navigations, "frame", "order_line", "commit_line", "gone_line"),
                 [(0, 5, 9, 28), (1, 7, 14, None), (2, 13, 17, 28)], "its navigations")
    ends = [{"line": 24, "kind": "blocked", "rule": "B6"}, {"line": 25, "kind": "blocked", "rule": "B1"},
            {"line": 29, "kind": "whole", "rule": None}, None]
    heads = [None, None, {"line": 20, "rule": "A1"}, {"line": 21, "rule": "A1"}]
    modes = ["no-cors", "cors", "cors", "cors"]
    checks.equal(picked(facts.requests, "document", "line", "mode", "head", "size", "end"),
                 list(zip([0, 0, 1, 2], [10, 11, 16, 19], modes, heads, [0, 0, 10, 10], ends)), "its requests")
    about = {entry["line"]: entry["about"] for entry in facts.entries}
    checks.equal(about[27], {"processes": [0, 1], "documents": [0, 2], "requests": []}, "what a post concerns")
    checks.equal(about[28], {"processes": [0], "documents": [0, 2], "requests": []}, "what a kill concerns")
    checks.equal(about[22], {"processes": [1], "documents": [1], "requests": [2]}, "what a piece concerns")
    forged = [entry["line"] for entry in facts.entries if facts.is_forged(entry)]
    checks.equal(forged, [28], "the forged lines")


def check_examples(checks):
    """Removals, replacements, pages, redirects and posts, by the examples."""
    facts = case_of("example-ad-frame").facts()
    checks.equal(picked(facts.frames, "document", "gone_line"), [(None, None), (0, 12), (0, 13)], "frames that are removed")
    checks.equal(facts.processes[1]["end"], {"line": 14, "kind": "exit", "rule": None}, "a process that exits")
    facts = case_of("example-opened-page").facts()
    checks.equal(picked(facts.frames, "document", "opener", "sandboxed"),
                 [(None, None, False), (None, 0, False), (1, None, True)], "frames and pages")
    checks.equal(picked(facts.navigations, "frame", "gone_line"), [(0, 17), (1, None), (2, None), (0, None)],
                 "a document that is replaced")
    facts = case_of("example-login-redirects").facts()
    ends = [{"line": 11, "kind": "navend", "rule": "N3"}, {"line": 13, "kind": "navend", "rule": "N8"}]
    checks.equal(picked(facts.navigations, "url", "end"),
                 [("https://shop.com/", None), ("https://shop.com/welcome", None), (None, ends[0]), (None, ends[1])],
                 "navigations that end")
    checks.equal([hop["line"] for hop in facts.navigations[1]["hops"]], [6, 7], "redirects that are followed")
    facts = case_of("example-payment-frame").facts()
    checks.equal([(entry["line"], entry["post_line"]) for entry in facts.entries if entry["post_line"]],
                 [(9, 8), (11, 10), (14, 13)], "posts that are taken")
    facts = case_of("example-replaced-navigation").facts()
    checks.equal(picked(facts.navigations, "order_line", "commit_line"), [(3, 4), (6, None), (8, 10)],
                 "a navigation that is replaced")


def check_sources(checks):
    """Actions are found by the URL of their document, and by the resource of a frame; forged messages by theirs."""
    said = "said 0 0 1 0 remove 9 => drop G2"
    facts = facts_of_lines(SCRIPT, *PAGE, f"said 0 0 0 0 fetch cors {A} 78 => ok", said, "local 0 0 2 waited")
    checks.equal([facts.action_of(entry) for entry in facts.entries[3:]],
                 [(0, 0, ACTIONS[0]), (0, 1, ACTIONS[1]), None], "actions of a page")
    checks.equal([facts.is_forged(entry) for entry in facts.entries[3:]], [False, True, False], "forged messages")
    script = {"start": [A], "resources": [{"url": A}, {"url": "data:x", "actions": [{"do": "wait"}]}]}
    inner = ["said 0 0 0 0 frame plain doc 1 => ok", f"order 1 0 {A} {A} about:srcdoc",
             f"commit 0 1 {A} {hexadecimal('about:srcdoc')} => ok", "local 0 1 0 waited"]
    facts = facts_of_lines(script, *PAGE, *inner)
    checks.equal(facts.action_of(facts.entries[-1]), (1, 0, {"do": "wait"}), "the action of an about:srcdoc document")
    facts = facts_of_lines(script, *PAGE, "said 0 0 0 0 frame plain doc 7 => ok", *inner[1:])
    checks.equal(facts.action_of(facts.entries[-1]), None, "the action of a resource that is not there")


def check_strays(checks):
    """Lines that name what nobody made are told, and break nothing."""
    lines = ["open 5", "hop nav 9 x", "hop req 9 x", f"order 8 3 {A} {A} x", "navend 7 N8", "head 0 A1", "piece 0 0 00",
             "end 0 whole", f"commit 4 6 {A} - => ok", f"local 1 1 1 took {A} -", "said 2 2 0 2 remove 3 => ok", "crash 2",
             "exit 2"]
    facts = facts_of_lines({"start": [A]}, *lines)
    checks.equal(facts.strays, list(range(2, 13)), "stray lines")
    checks.equal(sorted(facts.processes), [1, 2, 3, 4], "processes of stray lines")
    own = [f"said 0 0 0 1 frame plain url - => ok", f"order 1 0 {A} {A} x", f"commit 0 1 {A} - => ok", "exit 0"]
    facts = facts_of_lines({"start": [A]}, *PAGE, *own)
    checks.equal(picked(facts.navigations, "gone_line"), [(8,), (8,)], "a frame that a document of its own adds")
    for one, _ in zip(all_cases()[0], range(3)):
        for other in all_cases()[0][-3:]:
            Facts(read_script(one.script.read_bytes()), *read_history(other.history))
    checks.true(True, "the history of another script")


def run(checks):
    check_scripts(checks)
    check_spans(checks)
    check_mail(checks)
    check_examples(checks)
    check_sources(checks)
    check_strays(checks)
    for one in all_cases()[0]:
        checks.equal(one.facts().strays, [], f"stray lines of {one.name}")
