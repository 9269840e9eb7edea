"""Scripts, and the lines of the histories that the program prints of them."""
import json
import subprocess
from dataclasses import dataclass


class NoHistory(Exception):
    """The program refused a script, or ended otherwise than well."""


@dataclass(frozen=True)
class Line:
    """One line of a history: its words before ` => `, and the reply behind it."""
    text: str
    words: tuple
    reply: str

    @property
    def kind(self):
        return self.words[0]

    def number(self, place):
        return int(self.words[place])

    @property
    def is_accepted(self):
        return self.reply == "ok" or self.reply.startswith("answer ")

    @property
    def is_kill(self):
        return self.reply.startswith("kill ")


def read_line(text):
    words, _, reply = text.partition(" => ")
    return Line(text, tuple(words.split(" ")), reply)


def read_history(text):
    """The lines of a history's text behind its version line."""
    return [read_line(line) for line in text.splitlines()[1:]]


def run_program(program, script_bytes):
    """The lines of the history that `one` prints of a script."""
    ended = subprocess.run([program, "one"], input=script_bytes, capture_output=True, timeout=60)
    if ended.returncode != 0:
        raise NoHistory(f"status {ended.returncode} {ended.stderr.decode(errors='replace').strip()}")
    return read_history(ended.stdout.decode())


def text_of_hex(word):
    """The text that a line has in hexadecimal; `-` stands for none."""
    return "" if word == "-" else bytes.fromhex(word).decode("utf-8", "replace")


def origin_text(word):
    """How a page sees an origin of a history: an opaque one as `null`."""
    return "null" if word.startswith("opaque:") else word


class Script:
    """A script by its name, with what its documents do."""

    def __init__(self, name, content):
        self.name, self.content = name, content
        self.parsed = json.loads(content)
        self.start = self.parsed["start"]
        self.resources = self.parsed.get("resources", [])
        self.isolated = tuple(self.parsed.get("isolated_origins", []))
        self.by_key = {resource["url"].split("#")[0]: resource for resource in self.resources}

    def actions(self, url, srcdoc):
        """The actions of a document of this URL, or of the resource of this number."""
        resource = self.resources[srcdoc] if srcdoc is not None else self.by_key.get(url.split("#")[0], {})
        return resource.get("actions", [])

    def all_actions(self):
        return [action for resource in self.resources for action in resource.get("actions", [])]

    def has_sandbox(self):
        """Whether a document adds a sandboxed frame."""
        return any(action.get("sandbox") for action in self.all_actions())

    def stores(self):
        """The origins that may store something."""
        if not any(action["do"] == "ask" for action in self.all_actions()):
            return []
        urls = [url for url in self.start + list(self.by_key) if url.startswith("http")]
        return sorted({"/".join(url.split("/")[:3]) for url in urls})
