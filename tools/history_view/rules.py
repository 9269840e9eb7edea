"""The words of the rules, taken from the pages of docs/RULES.md themselves: their tables, and the lines that lead there."""
import re

CODE = re.compile(r"\b[KGMNFLSAB][1-9][0-9]?\b")
SPAN = re.compile(r"\b([KGMNFLSAB])([1-9][0-9]?) to ([KGMNFLSAB])([1-9][0-9]?)\b")
# The word of each message on the page of messages.
MESSAGE_NAMES = {
    "navigate": "Navigate", "frame": "AddFrame", "remove": "RemoveFrame", "page": "OpenPage", "fetch": "Fetch",
    "post": "Post", "ask": "Ask", "commit": "DidCommit",
}
# How the row of each kind of entry begins on the page of what may follow.
KIND_NAMES = {
    "open": "Opened(", "warm": "Warm(", "hop nav": "Hop(nav", "hop req": "Hop(req", "order": "Order(", "navend": "NavEnd(",
    "said": "Said(", "crash": "Crash(", "commit": "Commit(", "local": "Local(", "head": "Head(", "piece": "Piece(",
    "end": "End(", "exit": "Exit(",
}
FOLLOW, MESSAGES, BLOCKING = "docs/rules/what-may-follow.md", "docs/rules/messages.md", "docs/rules/read-blocking.md"
CHOICE, INDEX = "docs/rules/choice-of-process.md", "docs/RULES.md"


class Table:
    """A table of a page: where it stands, the line that leads to it, its heads and its rows of cells."""

    def __init__(self, page, title, section, lead, heads):
        self.page, self.title, self.section, self.lead, self.heads = page, title, section, lead, heads
        self.rows = []


def cells_of(line):
    """The cells of a table's line; a bar behind a backslash or between backticks parts nothing."""
    cells = re.findall(r"\|((?:`[^`]*`|\\\||[^|`])*)", line.strip())
    return [cell.strip().replace("\\|", "|") for cell in cells[:-1]]


def tables_of(page, text):
    """The tables of a page."""
    tables, table = [], None
    title = section = lead = ""
    paragraph_ended = True
    for line in text.splitlines():
        if not line.startswith("|"):
            table = None
            if line.startswith("# "):
                title = line[2:]
            elif line.startswith("## "):
                section, lead = line[3:], ""
            elif line:
                lead = line if paragraph_ended else f"{lead} {line}"
            paragraph_ended = not line
        elif table is None:
            table = Table(page, title, section, lead, cells_of(line))
            tables.append(table)
        elif not re.fullmatch(r"[|\- :]+", line):
            table.rows.append(cells_of(line))
    return tables


def contexts_of(table):
    """The kinds of lines, `said` with the message's word, whose rules a table tells; none where it tells no such rules."""
    lead, section = table.lead, table.section
    if table.page == MESSAGES:
        named = [f"said {word}" for word, name in MESSAGE_NAMES.items() if lead.startswith(f"{name} (")]
        if lead.startswith("First, for every message but DidCommit"):
            named = [f"said {word}" for word in MESSAGE_NAMES if word != "commit"]
        if lead.startswith("The rows on the URL of a navigation"):
            named = ["said navigate", "said frame", "said page"]
        if lead.startswith("The rest of the rules"):
            named = ["navend", "end"]
        return named + ["commit"] if "said commit" in named else named
    if table.page == FOLLOW:
        return {"How a navigation ends without a commit": ["navend"], "How a request ends": ["end"]}.get(section, [])
    return ["head", "end"] if table.page == BLOCKING and section == "The verdict" else []


def marked(text):
    """A cell's text as parts: what stands between backticks is code."""
    return [["c" if place % 2 else "", part] for place, part in enumerate(text.split("`")) if part]


def filled_down(table, column):
    """The rows, with what stands above an empty cell of a column in it."""
    above = ""
    for row in table.rows:
        above = row[column] or above
        yield [above if place == column else cell for place, cell in enumerate(row)]


class Rules:
    """The words of all rules, of the kinds of entries, and of what an `ok` does, from the pages' texts by their names."""

    def __init__(self, pages):
        self.rows, self.groups, self.kinds, self.effects, self.choice = {}, {}, {}, {}, None
        for page in sorted(pages):
            for table in tables_of(page, pages[page]):
                self.take(table)

    def take(self, table):
        """Takes the words of a table."""
        heads = table.heads
        if table.page == INDEX and heads[0] == "Codes":
            for row in table.rows:
                for code in codes_in(row[0]):
                    self.groups[code] = marked(row[1])
        elif table.page == FOLLOW and heads[0] == "Kind":
            for row in table.rows:
                found = [kind for kind, name in KIND_NAMES.items() if row[0].startswith(name)]
                self.kinds.update({kind: self.words(table, row) for kind in found})
        elif table.page == MESSAGES and heads[0] == "Message":
            words = {name: word for word, name in MESSAGE_NAMES.items()}
            self.effects.update({words[row[0]]: marked(f"It {row[1]}") for row in table.rows if row[0] in words})
        elif table.page == CHOICE and heads[1:2] == ["Process"]:
            self.choice = [self.words(table, row) for row in table.rows]
        elif "Rule" in heads or "End" in heads:
            self.take_rules(table, heads.index("Rule" if "Rule" in heads else "End"))

    def take_rules(self, table, column):
        for row in filled_down(table, 0) if column else table.rows:
            for code in codes_in(row[column]):
                self.rows.setdefault(code, []).append((contexts_of(table), self.words(table, row)))

    def words(self, table, row):
        """A row as a page shows it: where it stands, and its cells below their heads."""
        shown = [[head, marked(text)] for head, text in zip(table.heads, row) if text and head]
        return {"page": table.page, "title": table.title, "section": table.section, "lead": marked(table.lead.rstrip(":")),
                "cells": shown}

    def of(self, code, context):
        """The rows of a rule for this kind of line, those of this rule alone first; where there are none, all its rows."""
        rows = self.rows.get(code, [])
        fitting = [words for contexts, words in rows if context in contexts] or [words for _, words in rows]
        return sorted(fitting, key=lambda words: len(codes_in(text_of(cell(words, "Rule")))) > 1)


def cell(words, head):
    """The parts of a row's cell by its head, none where it has no such cell."""
    return next((parts for name, parts in words["cells"] if name == head), [])


def text_of(parts):
    return "".join(text for _, text in parts)


def brief(rows):
    """Where a rule applies, by the first of its rows, without the names of definitions behind the words."""
    text = "".join(f"`{part}`" if role else part for role, part in cell(rows[0], "Where")) if rows else ""
    return marked(re.sub(r" \((?:`[^`]*`(?:, )?)+\)", "", text))


def codes_in(text):
    """The codes that a cell names, also as `K1 to K10`."""
    codes = [f"{match[1]}{number}" for match in SPAN.finditer(text) for number in range(int(match[2]), int(match[4]) + 1)]
    return codes + CODE.findall(SPAN.sub("", text))
