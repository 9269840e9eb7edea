"""The command: its words, what it reads and writes, and how it refuses."""
import argparse
import os
import pathlib
import sys

from .facts import Facts
from .json_form import history_json
from .lines import BadLine, read_history
from .page import Page
from .rules import Rules
from .safe import plain
from .script import BadScript, read_script

TOP = pathlib.Path(__file__).resolve().parents[2]
READ_FAULT, WRITE_FAULT, REFUSED, NO_MEMORY = 3, 4, 5, 7


class Stop(Exception):
    """The command ends: with this status, after this line on standard error."""

    def __init__(self, status, line):
        super().__init__(status, line)
        self.status, self.line = status, line


def words():
    parser = argparse.ArgumentParser(
        prog="history-view", description="Makes one HTML page of a script and its history, which needs nothing else; "
        "with --json the history as JSON (docs/HISTORY_JSON.md). Either file may be - for standard input.",
        epilog="Exit statuses: 0 done, 2 wrong words, 3 a file can't be read, 4 the output can't be written, "
        "5 the script or the history is refused, 7 no memory.")
    parser.add_argument("script", metavar="SCRIPT", help="a script (docs/FORMATS.md)")
    parser.add_argument("history", metavar="HISTORY", help="the text of its history, of either version")
    parser.add_argument("-o", metavar="FILE", dest="output", help="where to write; standard output where it is left out")
    parser.add_argument("--json", action="store_true", help="write the history as JSON in place of a page")
    return parser


def read(name):
    """The bytes of a file, or of standard input for a dash."""
    try:
        return sys.stdin.buffer.read() if name == "-" else pathlib.Path(name).read_bytes()
    except (OSError, ValueError) as error:
        raise Stop(READ_FAULT, f"{plain(name)}: can't be read: {reason(error)}") from None


def reason(error):
    return getattr(error, "strerror", None) or str(error)


def read_rules():
    """The words of the rules, from their pages in this repository."""
    names = ["docs/RULES.md", *sorted(f"docs/rules/{path.name}" for path in (TOP / "docs/rules").glob("*.md"))]
    try:
        return Rules({name: (TOP / name).read_text(encoding="utf-8") for name in names})
    except (OSError, UnicodeDecodeError) as error:
        raise Stop(READ_FAULT, f"the pages of the rules can't be read: {reason(error)}") from None


def read_facts(script_name, history_name):
    """The facts of a script and its history, or a refusal that names the file and the place."""
    try:
        script = read_script(read(script_name))
    except BadScript as bad:
        place = f" {bad.path}" if bad.path else ""
        raise Stop(REFUSED, f"{plain(script_name)}: refused {bad.code}{plain(place)}: {bad.reason}") from None
    try:
        version, entries = read_history(read(history_name))
    except BadLine as bad:
        raise Stop(REFUSED, f"{plain(history_name)}: line {bad.number} is no entry: {plain(bad.reason)}") from None
    return Facts(script, version, entries)


def write(name, text):
    """Writes the whole text to a file or to standard output."""
    try:
        if name is None:
            sys.stdout.buffer.write(text.encode("utf-8"))
            sys.stdout.buffer.flush()
        else:
            pathlib.Path(name).write_bytes(text.encode("utf-8"))
    except (OSError, ValueError) as error:
        if name is None:
            # What is left in the buffer can't be written either.
            os.dup2(os.open(os.devnull, os.O_WRONLY), sys.stdout.fileno())
        raise Stop(WRITE_FAULT, f"{plain(name or 'standard output')}: can't be written: {reason(error)}") from None


def run(given):
    options = words().parse_args(given)
    facts = read_facts(options.script, options.history)
    if options.json:
        write(options.output, history_json(facts))
    else:
        write(options.output, Page(facts, read_rules(), os.path.basename(options.script)).text())


def main(given):
    """Runs the command; its exit status."""
    try:
        run(given)
    except Stop as stop:
        print(f"history-view: {stop.line}", file=sys.stderr)
        return stop.status
    except MemoryError:
        print("history-view: no memory", file=sys.stderr)
        return NO_MEMORY
    return 0
