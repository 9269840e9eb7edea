"""Reads the text of a history, of either version: one entry a line, each in its one spelling (docs/FORMATS.md)."""
import re

VERSION_LINE = b"history 2\n"
RULE_COUNTS = {"K": 10, "G": 3, "M": 2, "N": 9, "F": 1, "L": 2, "S": 4, "A": 5, "B": 8}
RULES = [letter + str(number + 1) for letter, count in RULE_COUNTS.items() for number in range(count)]
NUMERAL = re.compile(r"0|[1-9][0-9]{0,9}")
HEX = re.compile(r"-|(?:[0-9a-f]{2})+")
PLAIN = re.compile(r"(https?)://(\[[0-9A-Fa-f:.]+\]|[!-.0-9;-Z\\^-~]+)(?::([0-9]+))?")
DEFAULT_PORTS = {"http": "80", "https": "443"}


class BadLine(Exception):
    """A line that spells no entry: its number, from 1, and what is wrong with it."""

    def __init__(self, number, reason):
        super().__init__(number, reason)
        self.number = number
        self.reason = reason


class BadField(Exception):
    """A field that can't be read, or something where nothing may stand."""


def is_number(text, limit=2**32):
    """Whether a text is a decimal number below the limit, without leading zeros."""
    return NUMERAL.fullmatch(text) is not None and int(text) < limit


def is_plain(text, with_port):
    """Whether a text is a scheme and a host, with another port than the scheme's own where one may stand."""
    match = PLAIN.fullmatch(text)
    if match is None:
        return False
    scheme, _, port = match.groups()
    return port is None or (with_port and is_number(port, 2**16) and port != DEFAULT_PORTS[scheme])


def is_site(text):
    """Whether a text is a site, of an isolated origin or not."""
    return is_plain(text[1:], True) if text.startswith("=") else is_plain(text, False)


def is_origin(text):
    """Whether a text is an origin, of a scheme, a host and a port, or opaque."""
    if not text.startswith("opaque:"):
        return is_plain(text, True)
    document, colon, site = text[len("opaque:"):].partition(":")
    return colon == ":" and is_number(document) and is_site(site)


def article(what):
    return "an" if what[0] in "aeiou" else "a"


class Fields:
    """What is left of a line, taken from the left."""

    def __init__(self, text):
        self.left = text

    def take(self, what):
        """The next field, and past the space behind it."""
        if self.left is None:
            raise BadField(f"the {what} is missing")
        field, space, left = self.left.partition(" ")
        self.left = left if space else None
        return field

    def taken_if(self, what, fits):
        """The next field, where it fits."""
        field = self.take(what)
        if not fits(field):
            nothing = f"there is nothing where {article(what)} {what} should be"
            raise BadField(f"{field!r} is no {what}" if field else nothing)
        return field

    def word(self, what, words):
        return self.taken_if(what, lambda field: field in words)

    def number(self):
        return int(self.taken_if("number", is_number))

    def rule(self):
        return self.taken_if("rule", lambda field: field in RULES)

    def site(self):
        return self.taken_if("site", is_site)

    def origin(self):
        return self.taken_if("origin", is_origin)

    def target(self):
        return self.taken_if("target", lambda field: field in ("*", "/") or is_origin(field))

    def hexadecimal(self):
        """Bytes in hexadecimal, none of a dash."""
        field = self.taken_if("lower-case hexadecimal", lambda text: HEX.fullmatch(text) is not None)
        return bytes.fromhex("" if field == "-" else field)

    def text(self):
        """A text of UTF-8, in hexadecimal."""
        try:
            return self.hexadecimal().decode("utf-8")
        except UnicodeDecodeError:
            raise BadField("a text is not UTF-8") from None

    def piece(self):
        """The bytes of a piece, one at least; they stay in hexadecimal."""
        data = self.hexadecimal()
        if not data:
            raise BadField("a piece has no bytes")
        return data.hex()

    def url(self):
        """A URL, which is all that is left, spaces too."""
        if not self.left:
            raise BadField("the URL is missing")
        url, self.left = self.left, None
        return url

    def end(self):
        if self.left is not None:
            raise BadField(f"{self.left!r} stands behind the last field")


def message_navigate(fields):
    return {"frame": fields.number(), "initiator": fields.origin(), "url": fields.text()}


def message_frame(fields):
    sandboxed = fields.word("word plain or sandboxed", ("plain", "sandboxed")) == "sandboxed"
    of_url = fields.word("word url or doc", ("url", "doc")) == "url"
    url = fields.text() if of_url else None
    return {"sandboxed": sandboxed, "url": url, "resource": None if of_url else fields.number()}


def message_remove(fields):
    return {"frame": fields.number()}


def message_page(fields):
    return {"url": fields.text()}


def message_fetch(fields):
    return {"mode": fields.word("mode", ("cors", "no-cors")), "initiator": fields.origin(), "url": fields.text()}


def message_post(fields):
    return {"frame": fields.number(), "target": fields.target(), "source": fields.origin(), "text": fields.text()}


def message_ask(fields):
    return {"service": fields.text(), "origin": fields.origin(), "question": fields.text()}


def message_commit(fields):
    return {"navigation": fields.number(), "origin": fields.origin(), "url": fields.text()}


MESSAGES = {
    "navigate": message_navigate, "frame": message_frame, "remove": message_remove, "page": message_page,
    "fetch": message_fetch, "post": message_post, "ask": message_ask, "commit": message_commit,
}


def message(fields):
    """A message: the number of the document in whose name it is, its word, and its own fields."""
    document = fields.number()
    kind = fields.word("message", MESSAGES)
    return {"kind": kind, "document": document, **MESSAGES[kind](fields)}


def reply(fields):
    """A reply, behind its arrow."""
    fields.word("arrow =>", ("=>",))
    kind = fields.word("reply", ("ok", "answer", "deny", "drop", "kill"))
    if kind == "ok":
        return {"kind": kind}
    return {"kind": kind, "text": fields.text()} if kind == "answer" else {"kind": kind, "rule": fields.rule()}


def hop(fields):
    of = fields.word("word nav or req", ("nav", "req"))
    number = fields.number()
    url = fields.url()
    return {
        "of": of, "navigation": number if of == "nav" else None, "request": number if of == "req" else None, "url": url,
    }


def order(fields):
    return {
        "navigation": fields.number(), "process": fields.number(), "site": fields.site(), "origin": fields.origin(),
        "url": fields.url(),
    }


def said(fields):
    return {
        "process": fields.number(), "document": fields.number(), "action": fields.number(), "message": message(fields),
        "reply": reply(fields),
    }


def commit(fields):
    return {
        "process": fields.number(), "navigation": fields.number(), "origin": fields.origin(), "url": fields.text(),
        "reply": reply(fields),
    }


def local(fields):
    place = {"process": fields.number(), "document": fields.number(), "action": fields.number()}
    kind = fields.word("word waited, skipped or took", ("waited", "skipped", "took"))
    what = {"kind": kind, "source": fields.origin(), "text": fields.text()} if kind == "took" else {"kind": kind}
    return {**place, "what": what}


def end(fields):
    request = fields.number()
    kind = fields.word("word whole, blocked or failed", ("whole", "blocked", "failed"))
    return {"request": request, "how": {"kind": kind} if kind == "whole" else {"kind": kind, "rule": fields.rule()}}


def one_process(fields):
    return {"process": fields.number()}


KINDS = {
    "open": lambda fields: {"page": fields.number()},
    "warm": one_process,
    "hop": hop,
    "order": order,
    "navend": lambda fields: {"navigation": fields.number(), "rule": fields.rule()},
    "said": said,
    "crash": one_process,
    "commit": commit,
    "local": local,
    "head": lambda fields: {"request": fields.number(), "rule": fields.rule()},
    "piece": lambda fields: {"request": fields.number(), "index": fields.number(), "bytes": fields.piece()},
    "end": end,
    "exit": one_process,
}


def rule_of(entry):
    """The rule that an entry carries, if it carries one."""
    for holder in (entry, entry.get("reply"), entry.get("how")):
        if holder and "rule" in holder:
            return holder["rule"]
    return None


def read_entry(text, version):
    """The entry that a line spells, without its number. BadField where it spells none of this version."""
    if not (text.isascii() and text.isprintable()):
        raise BadField("it has a byte that is not printable ASCII")
    fields = Fields(text)
    kind = fields.word("entry's word", KINDS)
    entry = {"kind": kind, "text": text, **KINDS[kind](fields)}
    fields.end()
    if version == 1 and rule_of(entry) == "B8":
        raise BadField("B8 is a rule of version two alone")
    return entry


def read_history(data):
    """The version of a text and its entries, each with the number of its line. BadLine at the first bad line."""
    version = 2 if data.startswith(VERSION_LINE) else 1
    *lines, last = data.decode("latin-1").split("\n")
    entries = []
    for number, text in enumerate(lines, 1):
        if number == 1 and version == 2:
            continue
        try:
            entries.append({"line": number, **read_entry(text, version)})
        except BadField as bad:
            raise BadLine(number, str(bad)) from None
    if last:
        raise BadLine(len(lines) + 1, "it does not end with a line feed")
    return version, entries
