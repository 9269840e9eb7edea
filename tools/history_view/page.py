"""Makes the page of a history: one HTML text that asks for nothing else, and lets no other program run in it."""
import base64
import hashlib
import pathlib
import re

from .lanes import bars_of, lanes_of
from .panel import Panel
from .safe import escape, markup, plain, script_data, shown
from .words import Words, count

HERE = pathlib.Path(__file__).resolve().parent
OPTION_LENGTH = 90
# So many lines that stand out are listed.
STANDING_OUT = 200
# The outcomes that the filter knows: a name, and the roles of rows that it takes.
OUTCOMES = [
    ("all", ""), ("kills and crashes", "kill crash"), ("denied or dropped", "deny drop"), ("blocked reads", "blocked"),
    ("failed reads and navigations", "failed ended"),
    ("all that was refused", "kill crash deny drop blocked failed ended"), ("allowed reads", "allowed whole"),
    ("answers of services", "answer"),
]
# What the head of a page counts: the role of rows, and its name for one and for more.
TALLY = [
    ("kill", "kill", "kills"), ("crash", "crash", "crashes"), ("blocked", "blocked read", "blocked reads"),
    ("failed", "failed read", "failed reads"), ("ended", "ended navigation", "ended navigations"),
    ("deny", "denial", "denials"), ("drop", "drop", "drops"),
]
LETTERS = {"p": "process", "d": "document", "n": "navigation", "r": "request"}


def chip(letter, number):
    """The short name of an object, and its whole name for those who hear the page."""
    color = f" p c{number % 8}" if letter == "p" else ""
    short = f'<span aria-hidden="true">{letter.upper()}{number}</span>'
    return f'<span class="chip{color}">{short}<span class="quiet">{LETTERS[letter]} {number}</span></span>'


def badge(role, text):
    return f'<span class="badge {role}">{escape(text)}</span>'


def option(value, text):
    """A choice of a filter, cut where it is long."""
    text = text if len(text) <= OPTION_LENGTH else text[: OPTION_LENGTH - 1] + "…"
    return f'<option value="{escape(str(value))}">{escape(text)}</option>'


class Page:
    """The page of a history, by its facts and the words of the rules' pages."""

    def __init__(self, facts, rules, name):
        self.facts, self.name = facts, name
        self.words = Words(facts, rules)
        self.panel = Panel(facts, rules, self.words)
        self.outcomes = [self.words.outcome(entry) for entry in facts.entries]
        self.roles = [outcome[0] if outcome else "plain" for outcome in self.outcomes]

    # The lines.

    def row(self, index, entry):
        """The row of an entry."""
        line, says = entry["line"], markup(self.words.says(entry))
        who = " ".join(chip(letter, number) for letter, number in self.words.who(entry))
        number = f'<button type="button" tabindex="-1"><span class="quiet">Line </span>{line}</button>'
        cells = [("g", ""), ("who", who), ("what", says), ("out", self.outcome(index))]
        cells = "".join(f'<td role="cell" class="{name}">{inside}</td>' for name, inside in cells)
        head = f'<th role="rowheader" scope="row">{number}</th>'
        return f'<tr role="row" id="line-{line}" class="{self.roles[index]}">{head}{cells}</tr>'

    def outcome(self, index):
        """What came of an entry: a short word, and why."""
        if self.outcomes[index] is None:
            return ""
        role, word, why = self.outcomes[index]
        return badge(role, word) + (f'<span class="why">{markup(why)}</span>' if why else "")

    # The head and the filters.

    def summary(self):
        """How much there is in the history."""
        facts = self.facts
        told = [count(len(facts.entries), "entry", "entries"), count(len(facts.processes), "process", "processes"),
                count(len(facts.frames), "frame"), count(len(facts.requests), "request")]
        return escape(f"A history of version {('one', 'two')[facts.version - 1]}: {', '.join(told)}")

    def tally(self):
        counts = [(role, self.roles.count(role), one, more) for role, one, more in TALLY]
        return "".join(f'<li class="badge {role}">{count(number, one, more)}</li>'
                       for role, number, one, more in counts if number)

    def strays(self):
        """A warning where lines name what nobody made."""
        if not self.facts.strays:
            return ""
        lines = ", ".join(map(str, self.facts.strays[:10])) + (" and more" if len(self.facts.strays) > 10 else "")
        return ('<p class="strays" role="note">Some lines name a page, a navigation, a document or a request that neither '
                f"the script nor a line before them makes: {lines}. The history may be that of another script.</p>")

    def document_options(self):
        options = []
        for number, navigation in sorted(self.facts.navigations.items()):
            state = "" if navigation["commit_line"] else " (never committed)"
            options.append(option(number, f"{number}{state} {plain(navigation['url'] or navigation['first_url'] or '')}"))
        return "".join(options)

    def request_options(self):
        options = []
        for number, request in self.facts.requests.items():
            end, rule = request["end"] or {"kind": "no end", "rule": None}, (request["head"] or {}).get("rule")
            how = " ".join(filter(None, [end["kind"], end["rule"] or rule]))
            options.append(option(number, f"{number} {how}: {plain(request['first_url'])}"))
        return "".join(options)

    def process_options(self):
        options = []
        for number, process in sorted(self.facts.processes.items()):
            ended = self.ending(process)
            options.append(option(number, f"{number} {plain(process['lock'] or 'no lock')}{f', {ended}' if ended else ''}"))
        return "".join(options)

    def ending(self, process):
        """How a process ended, in words; nothing where it did not."""
        end = process["end"]
        if end is None:
            return ""
        how = {"kill": f"killed {end['rule']}", "crash": "crashed", "exit": "exited"}[end["kind"]]
        return f"{how} at line {end['line']}"

    def card(self, number):
        """The button of a process: its lock and its end, and a filter."""
        process = self.facts.processes[number]
        lock = markup(shown(process["lock"])) if process["lock"] else '<span class="tm">no lock</span>'
        end = badge(process["end"]["kind"], self.ending(process)) if process["end"] else ""
        title = escape(plain(process["lock"] or "no lock"))
        return (f'<li><button type="button" data-process="{number}" aria-pressed="false" title="{title}">'
                f'{chip("p", number)}<span class="lock">{lock}</span>{end}</button></li>')

    # The overview and the script.

    def overview(self):
        """The lines that stand out, refused or forged, each a way to it."""
        refused = {role for role, _, _ in TALLY}
        lines = [index for index, entry in enumerate(self.facts.entries)
                 if self.roles[index] in refused or self.facts.is_forged(entry)]
        if not lines:
            return ('<p class="tm">Nothing was forged or refused. Choose a line to read what it says, and why it stands '
                    "where it does.</p>")
        items = []
        for index in lines[:STANDING_OUT]:
            entry = self.facts.entries[index]
            told = badge(self.roles[index], self.outcomes[index][1]) + " " + markup(self.words.says(entry))
            line = entry["line"]
            items.append(f'<li><button type="button" data-line="{line}"><b>{line}</b><span>{told}</span></button></li>')
        more = f"<p>{count(len(lines) - STANDING_OUT, 'more line stands', 'more lines stand')} out.</p>"
        return f'<ul class="lines">{"".join(items)}</ul>' + (more if len(lines) > STANDING_OUT else "")

    def source(self):
        """The script's text, with the parts marked to which lines lead."""
        text = self.facts.script.text
        marks = []
        for path, (start, end) in self.facts.script.spans.items():
            marks.append((start, 1, -end, f'<span id="source{path}">'))
            marks.append((end, 0, -start, "</span>"))
        out, at = [], 0
        for place, _, _, mark in sorted(marks):
            out += [self.source_text(text[at:place]), mark]
            at = place
        return "".join(out) + self.source_text(text[at:])

    def source_text(self, text):
        return markup(shown(text.replace("\r\n", "\n"), "", "\n\t"))

    # The whole.

    def receiver(self, entry):
        """The process of the document that gets a post, None where that is of the sender's own, or there is none."""
        is_post = entry["kind"] == "said" and entry["message"]["kind"] == "post"
        others = [number for number in entry["about"]["processes"] if number != entry["process"]] if is_post else []
        return others[0] if others else None

    def data(self):
        """What the page's program needs, as values."""
        entries = self.facts.entries
        row_of = {entry["line"]: index for index, entry in enumerate(entries)}
        cards = [{**self.panel.card(entry), "lane": self.words.lane(entry), "to": self.receiver(entry)}
                 for entry in entries]
        return {
            "first": entries[0]["line"] if entries else 1, "cards": cards, "words": self.panel.blocks,
            "lanes": lanes_of(self.facts, row_of, len(entries) - 1), "bars": bars_of(self.facts, row_of, len(entries) - 1),
        }

    def text(self):
        """The HTML of the page."""
        style, script = part("page.css"), part("page.js") + "\n" + part("lanes.js") + "\nstart();\n"
        facts, entries = self.facts, self.facts.entries
        longest = max([0, *facts.processes, *facts.navigations, *facts.requests])
        return fill(part("template.html"), {
            "policy": escape(policy(style, script)), "title": escape(f"{plain(self.name)}: a history"), "style": style,
            "name": markup(shown(self.name, "")), "facts": self.summary(), "tally": self.tally(), "strays": self.strays(),
            "documents": self.document_options(), "requests": self.request_options(), "processes": self.process_options(),
            "outcomes": "".join(option(roles, name) for name, roles in OUTCOMES),
            "count": escape(count(len(entries), "line")), "width": "wide" if longest > 99 else "",
            "cards": "".join(self.card(number) for number in sorted(facts.processes)),
            "rows": "\n".join(self.row(index, entry) for index, entry in enumerate(entries)),
            "overview": self.overview(), "source": self.source(), "data": script_data(self.data()), "script": script,
        })


def part(name):
    return (HERE / name).read_text(encoding="utf-8")


def policy(style, script):
    """What the page may do: show its own style and run its own program, and nothing else; it takes no text as markup."""
    def digest(text):
        return base64.b64encode(hashlib.sha256(text.encode("utf-8")).digest()).decode("ascii")
    return (f"default-src 'none'; img-src data:; style-src 'sha256-{digest(style)}'; script-src 'sha256-{digest(script)}'; "
            "base-uri 'none'; form-action 'none'; require-trusted-types-for 'script'; trusted-types 'none'")


def fill(template, values):
    """The template with each {{name}} replaced; what is put in is not looked at again."""
    return re.sub(r"\{\{([a-z]+)\}\}", lambda match: values[match[1]], template)
