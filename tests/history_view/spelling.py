"""The line of an entry of the JSON form, spelled from its fields by docs/FORMATS.md, apart from the reader."""


def hexadecimal(text):
    return text.encode("utf-8").hex() or "-"


def body(message):
    """A message without its document."""
    kind = message["kind"]
    if kind == "navigate":
        return f"navigate {message['frame']} {message['initiator']} {hexadecimal(message['url'])}"
    if kind == "frame":
        source = f"doc {message['resource']}" if message["url"] is None else f"url {hexadecimal(message['url'])}"
        return f"frame {'sandboxed' if message['sandboxed'] else 'plain'} {source}"
    if kind == "remove":
        return f"remove {message['frame']}"
    if kind == "page":
        return f"page {hexadecimal(message['url'])}"
    if kind == "fetch":
        return f"fetch {message['mode']} {message['initiator']} {hexadecimal(message['url'])}"
    if kind == "post":
        return f"post {message['frame']} {message['target']} {message['source']} {hexadecimal(message['text'])}"
    if kind == "ask":
        return f"ask {hexadecimal(message['service'])} {message['origin']} {hexadecimal(message['question'])}"
    return f"commit {message['navigation']} {message['origin']} {hexadecimal(message['url'])}"


def reply(told):
    kind = told["kind"]
    return kind if kind == "ok" else f"answer {hexadecimal(told['text'])}" if kind == "answer" else f"{kind} {told['rule']}"


def what(told):
    return f"took {told['source']} {hexadecimal(told['text'])}" if told["kind"] == "took" else told["kind"]


def how(told):
    return told["kind"] if told["kind"] == "whole" else f"{told['kind']} {told['rule']}"


SPELLED = {
    "open": lambda e: f"open {e['page']}",
    "warm": lambda e: f"warm {e['process']}",
    "hop": lambda e: f"hop {e['of']} {e['navigation'] if e['of'] == 'nav' else e['request']} {e['url']}",
    "order": lambda e: f"order {e['navigation']} {e['process']} {e['site']} {e['origin']} {e['url']}",
    "navend": lambda e: f"navend {e['navigation']} {e['rule']}",
    "said": lambda e: f"said {e['process']} {e['document']} {e['action']} {e['message']['document']} {body(e['message'])}"
                      f" => {reply(e['reply'])}",
    "crash": lambda e: f"crash {e['process']}",
    "commit": lambda e: f"commit {e['process']} {e['navigation']} {e['origin']} {hexadecimal(e['url'])}"
                        f" => {reply(e['reply'])}",
    "local": lambda e: f"local {e['process']} {e['document']} {e['action']} {what(e['what'])}",
    "head": lambda e: f"head {e['request']} {e['rule']}",
    "piece": lambda e: f"piece {e['request']} {e['index']} {e['bytes']}",
    "end": lambda e: f"end {e['request']} {how(e['how'])}",
    "exit": lambda e: f"exit {e['process']}",
}


def spelled(entry):
    """The line of an entry."""
    return SPELLED[entry["kind"]](entry)
