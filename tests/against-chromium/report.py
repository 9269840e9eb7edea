"""docs/CHROMIUM.md: what agrees, what differs and why, with the table of no-cors responses. Made by `run --report`."""
import pathlib
import textwrap

from response_table import BODIES, table_text

TEMPLATE = pathlib.Path(__file__).resolve().parent / "page.md"


def sandbox_line(one):
    """What a script's documents share by Chromium's defaults, and which of them are in processes for sandboxed frames."""
    processes = next((c for c in one.comparisons if c.subject == "processes"), None)
    apart = " ".join(str(number) for number in sorted(one.sandboxes)) or "none"
    return f"{one.script.name}: model {processes.model}; Chromium {processes.chromium}; for sandboxed frames {apart}"


def difference_part(difference):
    """The paragraph of one difference."""
    scripts = ", ".join(f"`{name}`" for name in dict.fromkeys(key[0] for key in difference.shown))
    parts = [f"### {difference.title}", f"{difference.side}: {difference.theirs}", f"Ours: {difference.ours}",
             f"Shown by {scripts} (`{difference.name}`)."]
    return "\n\n".join(textwrap.fill(part, 120, break_long_words=False, break_on_hyphens=False) for part in parts)


def page(version, seen, differences, sandboxed, verdicts):
    """The whole page."""
    comparisons = [comparison for one in seen for comparison in one.comparisons]
    differ = sum(not comparison.agrees for comparison in comparisons)
    bodies = "\n".join(f"- {name}: `{shown_bytes(body)}`" for name, body in BODIES.items())
    return TEMPLATE.read_text().format(
        version=version, scripts=len(seen), compared=len(comparisons), differ=differ, named=len(differences),
        figures="\n".join(figure_row(subject, comparisons) for subject in WHAT),
        differences="\n\n".join(difference_part(difference) for difference in differences),
        sandboxes="\n".join(sandbox_row(one) for one in sandboxed), table=table_text(verdicts), bodies=bodies)


def figure_row(subject, comparisons):
    """How many comparisons there were of a subject, and how many of them differ."""
    found = [comparison for comparison in comparisons if comparison.subject == subject]
    return f"| {WHAT[subject]} | {len(found)} | {sum(not comparison.agrees for comparison in found)} |"


def shown_bytes(body):
    """A body with its bytes past ASCII by their numbers."""
    return body.decode("latin1").encode("unicode_escape").decode()


def sandbox_row(one):
    processes = next(c for c in one.comparisons if c.subject == "processes")
    apart = " ".join(str(number) for number in sorted(one.sandboxes)) or "none"
    return f"| `{one.script.name}` | {cells(processes.model)} | {cells(processes.chromium)} | {apart} |"


def cells(text):
    """Documents by process, with a separator that a table can hold."""
    return text.replace(" | ", " / ")


WHAT = {
    "document": "the URL, `self.origin` and number of redirects of a document that committed",
    "lock": "the site that the document's process is locked to",
    "processes": "which documents of a history share a process",
    "redirect": "one redirect of a navigation or a request",
    "end": "the error by which a navigation ends without a document",
    "response": "the bytes of a response that reached the renderer, and whether that is all of it",
    "reply": "whether a document may do what it does: add, remove or navigate a frame, open a page, fetch",
    "message": "a message that a document took, and its origin",
    "messages": "all messages of a document",
    "store": "an answer of the store, by `localStorage`",
}
