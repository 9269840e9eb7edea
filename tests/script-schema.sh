#!/usr/bin/env bash
# Checks docs/script.schema.json: that it is a JSON Schema, that each of its keys has a description, that it takes every
# example script, every script of a golden run that the program runs or that Chromium replays, and those at its limits, and
# that it refuses each script that is listed below with its fault. Where python3 or its module jsonschema is missing, nothing is checked, and the
# status is 77. The last line is 'N passed, M failed'.
set -u
top=$(cd "$(dirname "${BASH_SOURCE[0]}")/.." && pwd)
if ! command -v python3 >/dev/null 2>&1 || ! python3 -c 'import jsonschema' >/dev/null 2>&1; then
  echo "the script schema is NOT CHECKED: python3 with jsonschema is missing"
  exit 77
fi
exec python3 - "$top" <<'PYTHON'
import json, pathlib, sys
from jsonschema import Draft202012Validator

top = pathlib.Path(sys.argv[1])
schema = json.loads((top / "docs/script.schema.json").read_text())
failures = []
passed = 0


def described(value):
    """Whether a key's schema, or the one that it refers to, has a description."""
    if "const" in value or "description" in value:
        return True
    name = value.get("$ref", "").removeprefix("#/$defs/")
    return "description" in schema["$defs"].get(name, {})


def undescribed(node, path):
    """The keys of objects that have no description."""
    if isinstance(node, dict):
        for key, value in node.get("properties", {}).items():
            if isinstance(value, dict) and not described(value):
                yield f"{path}/properties/{key}"
        for key, value in node.items():
            yield from undescribed(value, f"{path}/{key}")
    elif isinstance(node, list):
        for index, value in enumerate(node):
            yield from undescribed(value, f"{path}/{index}")


URL = "https://a.com/"


def script(**keys):
    return {"start": [URL], **keys}


def resource(**keys):
    return script(resources=[{"url": URL, **keys}])


def action(**keys):
    return resource(actions=[keys])


def raw(**keys):
    return action(do="raw", message=keys)


# Scripts at a limit, which are taken.
TAKEN = {
    "no start page": script(start=[]),
    "64 start pages": script(start=[URL] * 64),
    "64 isolated origins": script(isolated_origins=[URL] * 64),
    "a soft limit of 0": script(soft_limit=0),
    "a soft limit of 64": script(soft_limit=64),
    "1,024 resources": script(resources=[{"url": URL}] * 1024),
    "status 200": resource(status=200),
    "status 599": resource(status=599),
    "64 headers": resource(headers=[["a", "b"]] * 64),
    "a header name of 64 bytes": resource(headers=[["a" * 64, ""]]),
    "a body of 16,384 bytes": resource(body="x" * 16384),
    "a body in hexadecimal": resource(body_hex="0aFf"),
    "63 cuts": resource(cuts=list(range(1, 64))),
    "a wire that fails at once": resource(fail_after=0),
    "64 actions": resource(actions=[{"do": "wait"}] * 64),
    "a frame of a URL": action(do="frame", src="x", sandbox=True),
    "a frame of a document": action(do="frame", srcdoc=0),
    "the largest child": action(do="remove", child=4294967295),
    "a child": action(do="navigate", frame="child 0", url="x"),
    "a URL of 4,096 bytes": action(do="page", url="x" * 4096),
    "a fetch": action(do="fetch", url="x", mode="no-cors"),
    "a text of 1,024 bytes": action(do="post", frame="opener", target="*", text="x" * 1024),
    "a service of 32 bytes": action(do="ask", service="s" * 32, request=""),
    "a forged message": raw(**{"is": "commit"}, document=7, nav=0, url="x", origin=URL),
}

# Scripts with one fault each, which are refused.
REFUSED = {
    "a list in place of an object": [],
    "no start": {},
    "an unknown key": script(x=1),
    "a start that is no list": script(start=URL),
    "a start page that is no string": script(start=[1]),
    "65 start pages": script(start=[URL] * 65),
    "65 isolated origins": script(isolated_origins=[URL] * 65),
    "isolated origins that are no list": script(isolated_origins=URL),
    "an isolated origin that is no string": script(isolated_origins=[1]),
    "suffixes that are no string": script(suffixes=["com"]),
    "a spare that is no boolean": script(spare=1),
    "a soft limit of 65": script(soft_limit=65),
    "a soft limit of 1.5": script(soft_limit=1.5),
    "1,025 resources": script(resources=[{"url": URL}] * 1025),
    "a resource without URL": script(resources=[{}]),
    "an unknown key of a resource": resource(x=1),
    "status 199": resource(status=199),
    "status 600": resource(status=600),
    "a status that is no number": resource(status="200"),
    "65 headers": resource(headers=[["a", "b"]] * 65),
    "a header of one": resource(headers=[["a"]]),
    "a header of three": resource(headers=[["a", "b", "c"]]),
    "a header name with a space": resource(headers=[["a b", "c"]]),
    "a header name of 65 bytes": resource(headers=[["a" * 65, ""]]),
    "a header value with a line feed": resource(headers=[["a", "b\nc"]]),
    "a body of 16,385 bytes": resource(body="x" * 16385),
    "both body and body_hex": resource(body="x", body_hex="78"),
    "an odd number of digits": resource(body_hex="0af"),
    "a digit that is none": resource(body_hex="0g"),
    "a negative cut": resource(body="xyz", cuts=[-1]),
    "a cut at 0": resource(body="xyz", cuts=[0]),
    "64 cuts": resource(cuts=list(range(1, 65))),
    "a wire that fails before the body": resource(fail_after=-1),
    "65 actions": resource(actions=[{"do": "wait"}] * 65),
    "an action without word": action(url="x"),
    "an unknown action": action(do="fly"),
    "an unknown key of an action": action(do="wait", x=1),
    "a frame of nothing": action(do="frame"),
    "a frame of two things": action(do="frame", src="x", srcdoc=0),
    "a srcdoc that is no number": action(do="frame", srcdoc="0"),
    "a sandbox that is no boolean": action(do="frame", src="x", sandbox="yes"),
    "a child of 2^32": action(do="remove", child=4294967296),
    "an unknown frame": action(do="navigate", frame="Parent", url="x"),
    "a child without number": action(do="navigate", frame="child", url="x"),
    "a child with a leading zero": action(do="navigate", frame="child 01", url="x"),
    "a URL of 4,097 bytes": action(do="page", url="x" * 4097),
    "an unknown mode": action(do="fetch", url="x", mode="same-origin"),
    "a fetch without mode": action(do="fetch", url="x"),
    "a text of 1,025 bytes": action(do="post", frame="self", target="*", text="x" * 1025),
    "a target that is no string": action(do="post", frame="self", target=None, text="x"),
    "a service without name": action(do="ask", service="", request="x"),
    "a service of 33 bytes": action(do="ask", service="s" * 33, request="x"),
    "a raw action without message": action(do="raw"),
    "a message without word": raw(url="x"),
    "an unknown message": raw(**{"is": "fly"}),
    "a document that is no number": raw(**{"is": "page"}, document="7", url="x"),
    "a commit without origin": raw(**{"is": "commit"}, nav=0, url="x"),
    "a frame by its word": raw(**{"is": "remove"}, frame="self"),
}

Draft202012Validator.check_schema(schema)
for place in undescribed(schema, ""):
    failures.append(f"no description at {place}")

scripts = sorted(top.glob("examples/*.json")) + sorted(top.glob("tests/against-chromium/scripts/*.json"))
for run in sorted(top.glob("tests/golden/*")):
    words = run / "words"
    if (run / "stdin").is_file() and not (run / "status").is_file() and words.is_file() and words.read_text() == "one\n":
        scripts.append(run / "stdin")
taken = {str(path.relative_to(top)): json.loads(path.read_text()) for path in scripts} | TAKEN

validator = Draft202012Validator(schema)
for name, given in taken.items():
    errors = [error.message for error in validator.iter_errors(given)]
    if errors:
        failures.append(f"{name} is refused: {errors[0]}")
    else:
        passed += 1
for name, given in REFUSED.items():
    if validator.is_valid(given):
        failures.append(f"{name} is taken")
    else:
        passed += 1
for failure in failures:
    print(f"script schema: {failure}")
print(f"{passed} passed, {len(failures)} failed")
sys.exit(1 if failures or not scripts else 0)
PYTHON
