"""Texts made safe to show. What can't be seen is named, and nothing of a script or a history ends up as markup.

A shown text is a list of parts, each a role and a text. Roles: "" for words, "b" for what is done, "v" for a value of the
history, "m" for what is told beside, "f" for a mark, "c" for code of the rules' pages, "x" for the name of a character that
can't be seen."""
import html
import json
import unicodedata

# Controls, formats, private use, halves of characters, and all that separates but the space.
UNSEEN = {"Cc", "Cf", "Co", "Cs", "Zl", "Zp", "Zs"}


def is_unseen(char):
    return char != " " and unicodedata.category(char) in UNSEEN


def name_of(char):
    """How a character that can't be seen is named; a byte that is no UTF-8 stands as a half of a character."""
    code = ord(char)
    return f"\\x{code - 0xDC00:02x}" if 0xDC80 <= code <= 0xDCFF else f"U+{code:04X}"


def shown(text, role="v", keep=""):
    """The parts of a text: its runs in their role, and the names of what can't be seen but for what is kept."""
    if text.isascii() and text.isprintable():
        return [[role, text]] if text else []
    parts, begin = [], 0
    for at, char in enumerate(text):
        if is_unseen(char) and char not in keep:
            parts += [[role, text[begin:at]], ["x", name_of(char)]]
            begin = at + 1
    return [part for part in [*parts, [role, text[begin:]]] if part[1]]


def quoted(text):
    """The parts of a text that was sent, between quotes."""
    return [["", "“"], *shown(text), ["", "”"]]


def quoted_bytes(data, limit):
    """The parts of bytes: as UTF-8 as far as they are, no more than the limit."""
    more = [["m", f" and {len(data) - limit} bytes more"]] if len(data) > limit else []
    return quoted(data[:limit].decode("utf-8", "surrogateescape")) + more


def plain(text, keep=""):
    """A text alone, with the names of what can't be seen between angle quotes."""
    return "".join(f"‹{part}›" if role == "x" else part for role, part in shown(text, "", keep))


def escape(text):
    return html.escape(text, quote=True)


def markup(parts):
    """The HTML of parts."""
    return "".join(f'<span class="t{role}">{escape(text)}</span>' if role else escape(text) for role, text in parts)


def script_data(value):
    """A value as JSON that may stand within a script element, whatever its texts say."""
    text = json.dumps(value, separators=(",", ":"))
    return text.replace("<", "\\u003c").replace(">", "\\u003e").replace("&", "\\u0026")
