"""The JSON form of a history, for other tools. docs/HISTORY_JSON.md says what each key is."""
import json

FORM = 1


def resource_form(resource):
    """The facts of a resource that decide about navigations and requests; its body by its size alone."""
    text = resource.get("body", "")
    body = bytes.fromhex(resource["body_hex"]) if "body_hex" in resource else text.encode("utf-8")
    return {
        "url": resource["url"], "status": resource.get("status", 200), "headers": resource.get("headers", []),
        "size": len(body), "cuts": resource.get("cuts", []), "fail_after": resource.get("fail_after"),
        "actions": len(resource.get("actions", [])),
    }


def script_form(script):
    return {
        "start": script.start, "spare": script.spare, "soft_limit": script.soft_limit,
        "isolated_origins": script.isolated_origins, "suffixes": script.suffixes,
        "resources": [resource_form(resource) for resource in script.resources],
    }


def entry_form(facts, entry):
    """An entry with what it concerns, what it makes, and the resource whose action it does."""
    found = facts.action_of(entry)
    return {**entry, "forged": facts.is_forged(entry), "resource": found[0] if found else None}


def in_order(objects):
    """Objects by rising number, without what they hold for the reader alone."""
    return [{key: objects[number][key] for key in objects[number] if key != "frames"} for number in sorted(objects)]


def history_form(facts):
    """The whole form, as values that json can write."""
    return {
        "form": FORM, "version": facts.version, "policy": "second" if facts.version == 2 else "first",
        "script": script_form(facts.script),
        "processes": in_order(facts.processes), "frames": in_order(facts.frames),
        "navigations": in_order(facts.navigations), "requests": in_order(facts.requests), "stray_lines": facts.strays,
        "entries": [entry_form(facts, entry) for entry in facts.entries],
    }


def history_json(facts):
    """The text of the form: ASCII, with one line for each key and each entry."""
    form = history_form(facts)
    entries = form.pop("entries")
    rest = "".join(f"{json.dumps(key)}: {json.dumps(value)},\n" for key, value in form.items())
    return "{\n" + rest + '"entries": [\n' + ",\n".join(map(json.dumps, entries)) + "\n]\n}\n"
