"""Reads a script as far as a page of its history needs it: its facts, and where in its text they stand."""
import json
import re

BLANK = re.compile(r"[ \t\n\r]*")
DECODER = json.JSONDecoder()
HEX = re.compile(r"(?:[0-9A-Fa-f]{2})*")
# So many lists and objects may stand within one another.
MAX_DEPTH = 127
SCRIPT_TYPES = {
    "start": list, "spare": bool, "soft_limit": int, "suffixes": str, "isolated_origins": list, "resources": list,
}
RESOURCE_TYPES = {
    "url": str, "status": int, "headers": list, "body": str, "body_hex": str, "cuts": list, "fail_after": int,
    "actions": list,
}


class BadScript(Exception):
    """A script that can't be shown: the code and the path of docs/FORMATS.md, and in words what is wrong."""

    def __init__(self, code, path, reason):
        super().__init__(code, path, reason)
        self.code = code
        self.path = path
        self.reason = reason


class Script:
    """A script: its text, its facts, and the spans of its text by the paths of their values."""

    def __init__(self, text, value):
        self.text = text
        self.start = value["start"]
        self.spare = value.get("spare", False)
        self.soft_limit = value.get("soft_limit", 64)
        self.isolated_origins = value.get("isolated_origins", [])
        self.suffixes = value.get("suffixes", "")
        self.resources = value.get("resources", [])
        self.spans = dict(spans_of(text))
        self.by_key = {}
        for index, resource in enumerate(self.resources):
            self.by_key.setdefault(key_of(resource["url"]), index)

    def resource_at(self, url):
        """The index of the resource at a URL, None where none is spelled so."""
        return self.by_key.get(key_of(url))

    def actions_of(self, resource):
        return self.resources[resource].get("actions", []) if self.has_resource(resource) else []

    def has_resource(self, resource):
        return resource is not None and resource < len(self.resources)

    def part(self, path):
        """The text of the value at a path."""
        start, end = self.spans[path]
        return self.text[start:end]


def refuse_constant(word):
    raise ValueError(f"{word} is no JSON")


def integer(digits):
    """An integer, where JSON's readers have room for it."""
    if len(digits) > 308:
        raise ValueError("a number of too many digits")
    return int(digits)


def depth_of(value):
    """How many lists and objects stand within one another."""
    depth, layer = 0, [[value]]
    while layer:
        items = (item for one in layer for item in (one if isinstance(one, list) else one.values()))
        layer = [item for item in items if isinstance(item, (list, dict))]
        depth += 1
    return depth - 1


def read_json(data):
    """The text and the value of a JSON text."""
    text = data.decode("utf-8")
    value = json.loads(text, parse_constant=refuse_constant, parse_int=integer)
    if depth_of(value) > MAX_DEPTH:
        raise RecursionError
    # Halves of characters, which JSON can escape alone, are no text.
    json.dumps(value, ensure_ascii=False).encode("utf-8")
    return text, value


def read_script(data):
    """The script that bytes are, or its first fault among those that keep it from being shown."""
    try:
        return checked_script(*read_json(data))
    except UnicodeDecodeError as error:
        raise BadScript("X1", "", f"byte {error.start} is not UTF-8") from None
    except UnicodeEncodeError:
        raise BadScript("X1", "", "a string has half of a character") from None
    except json.JSONDecodeError as error:
        raise BadScript("X1", "", f"no JSON at line {error.lineno}, column {error.colno}") from None
    except ValueError:
        raise BadScript("X1", "", "a number that no script has") from None
    except RecursionError:
        raise BadScript("X1", "", "too many lists within one another") from None


def is_of(kind, value):
    """Whether a value is of a type; a boolean is no integer."""
    return isinstance(value, kind) and not (kind is int and isinstance(value, bool))


def expect(kind, value, path):
    if not is_of(kind, value):
        words = {dict: "an object", list: "a list", str: "a string", int: "an integer", bool: "a boolean"}
        raise BadScript("X2", path, f"it is not {words[kind]}")


def check_list(kind, value, path):
    """A list of values of one type."""
    expect(list, value, path)
    for index, item in enumerate(value):
        expect(kind, item, f"{path}/{index}")


def check_keys(value, path, required, types):
    """An object with a required key, whose known keys have their types."""
    expect(dict, value, path)
    if required not in value:
        raise BadScript("X2", f"{path}/{required}", "it is missing")
    for key, kind in types.items():
        if key in value:
            expect(kind, value[key], f"{path}/{key}")


def check_resource(resource, path):
    check_keys(resource, path, "url", RESOURCE_TYPES)
    check_list(int, resource.get("cuts", []), f"{path}/cuts")
    if not HEX.fullmatch(resource.get("body_hex", "")):
        raise BadScript("X2", f"{path}/body_hex", "it is not an even number of hexadecimal digits")
    for index, header in enumerate(resource.get("headers", [])):
        check_list(str, header, f"{path}/headers/{index}")
        if len(header) != 2:
            raise BadScript("X6", f"{path}/headers/{index}", "it is not a name and a value")
    for index, action in enumerate(resource.get("actions", [])):
        check_keys(action, f"{path}/actions/{index}", "do", {"do": str})


def checked_script(text, value):
    """The script that a JSON text with its value is."""
    check_keys(value, "", "start", SCRIPT_TYPES)
    check_list(str, value["start"], "/start")
    check_list(str, value.get("isolated_origins", []), "/isolated_origins")
    for index, resource in enumerate(value.get("resources", [])):
        check_resource(resource, f"/resources/{index}")
    return Script(text, value)


def past_blanks(text, at):
    return BLANK.match(text, at).end()


def members(text, at):
    """The places of an object's values by their keys; of a repeated key the last. The text is JSON."""
    places = {}
    at = past_blanks(text, at + 1)
    while text[at] != "}":
        key, at = DECODER.raw_decode(text, at)
        begin = past_blanks(text, past_blanks(text, at) + 1)
        _, end = DECODER.raw_decode(text, begin)
        places[key] = (begin, end)
        at = past_blanks(text, end)
        if text[at] == ",":
            at = past_blanks(text, at + 1)
    return places


def items(text, at):
    """The places of a list's values. The text is JSON."""
    places = []
    at = past_blanks(text, at + 1)
    while text[at] != "]":
        _, end = DECODER.raw_decode(text, at)
        places.append((at, end))
        at = past_blanks(text, end)
        if text[at] == ",":
            at = past_blanks(text, at + 1)
    return places


def spans_of(text):
    """The path and the span of each start page, isolated origin, resource and action of a script's text."""
    script = members(text, past_blanks(text, 0))
    for key in ("start", "isolated_origins", "resources"):
        if key not in script:
            continue
        for index, place in enumerate(items(text, script[key][0])):
            yield f"/{key}/{index}", place
            if key == "resources":
                resource = members(text, place[0])
                for number, action in enumerate(items(text, resource["actions"][0]) if "actions" in resource else []):
                    yield f"/{key}/{index}/actions/{number}", action


SCHEME = re.compile(r"[A-Za-z][A-Za-z0-9+.-]*:")
AUTHORITY = re.compile(
    r"(https?):[/\\]*(?:([^/\\?#]*)@)?([^/\\?#@:]*|\[[^\]]*\])(?::([0-9]*))?(?=[/\\?#]|$)", re.IGNORECASE)
PORTS = {"http": "80", "https": "443"}
DOTS = {".": ".", "%2e": ".", "..": "..", ".%2e": "..", "%2e.": "..", "%2e%2e": ".."}


def escaped(text, more):
    """A part of a URL with the bytes escaped that the URL Standard escapes there."""
    keep = {code for code in range(0x21, 0x7F)} - {ord(char) for char in more}
    return "".join(chr(byte) if byte in keep else f"%{byte:02X}" for byte in text.encode("utf-8"))


def plain_path(path):
    """A path without its dots."""
    steps = []
    parts = re.split(r"[/\\]", path)[1:]
    for place, part in enumerate(parts):
        dots = DOTS.get(part.lower())
        if dots == ".." and steps:
            steps.pop()
        if dots is None:
            steps.append(part)
        elif place == len(parts) - 1:
            steps.append("")
    return "/" + "/".join(steps)


def key_of(url):
    """The key of a URL, as the URL Standard spells it, for hosts of ASCII letters and digits; it has no fragment."""
    text = re.sub(r"[\t\n\r]", "", url.strip("".join(map(chr, range(0x21)))))
    text = text.partition("#")[0]
    match = AUTHORITY.match(text)
    if match is None:
        scheme = SCHEME.match(text)
        return text[: scheme.end()].lower() + text[scheme.end():] if scheme else text
    scheme, user, host, port = match.group(1).lower(), match.group(2), match.group(3).lower(), match.group(4)
    path, mark, query = text[match.end():].partition("?")
    user = f"{user}@" if user else ""
    port = (port.lstrip("0") or "0") if port else PORTS[scheme]
    port = "" if port == PORTS[scheme] else f":{port}"
    path = escaped(plain_path(path or "/"), '"#<>?^`{}')
    return f"{scheme}://{user}{host}{port}{path}{mark}{escaped(query, chr(34) + '#<>' + chr(39))}"
