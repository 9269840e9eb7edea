"""One thing that is looked at in both: what the history says of it, and what Chromium showed."""
from dataclasses import dataclass

SHOWN_BYTES = 24


@dataclass(frozen=True)
class Comparison:
    """`at` is the line of the history, or names what is asked of a whole history; `subject` says what is compared."""
    script: str
    at: str
    subject: str
    model: str
    chromium: str

    @property
    def agrees(self):
        return self.model == self.chromium

    def key(self):
        """All that makes two comparisons the same, as a listed difference tells it."""
        return (self.script, self.at, self.subject, self.model, self.chromium)

    def told(self):
        return f"{self.script}: {self.at}: {self.subject}: model {self.model}, Chromium {self.chromium}"


def bytes_text(content):
    """Some bytes in hexadecimal, long ones by their beginning and length."""
    if not content:
        return "no bytes"
    shown = content[:SHOWN_BYTES].hex() + (".." if len(content) > SHOWN_BYTES else "")
    return f"{len(content)} bytes {shown}"


def response_text(is_whole, content, redirects):
    """What a document's process got of a response, at the end of so many redirects."""
    if is_whole:
        got = "whole, " + bytes_text(content)
    else:
        got = "a part, " + bytes_text(content) if content else "nothing"
    return got + (f", {redirects} redirected" if redirects else "")
