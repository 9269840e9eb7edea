"""Scripts with their histories: all golden runs that write one, and all examples."""
import functools
import json
import pathlib
import re
import subprocess

from history_view.facts import Facts
from history_view.lines import read_history
from history_view.rules import Rules
from history_view.script import read_script

TOP = pathlib.Path(__file__).resolve().parents[2]
GOLDEN = TOP / "tests/golden"


class Case:
    """A script and its history: a name, the script's file, and the bytes of the history."""

    def __init__(self, name, script, history):
        self.name, self.script, self.history = name, script, history

    def facts(self):
        return facts_of(self.script.read_bytes(), self.history)


def facts_of(script, history):
    """The facts of a script and a history, of their bytes."""
    return Facts(read_script(script), *read_history(history))


def facts_of_lines(value, *lines, version=2):
    """The facts of a script, as a JSON value, and the lines of a history."""
    text = "".join(f"{line}\n" for line in lines)
    return facts_of(json.dumps(value).encode("utf-8"), ("history 2\n" if version == 2 else "").encode() + text.encode())


def rules():
    """The words of the rules, from their pages."""
    return Rules(pages())


def pages():
    names = ["docs/RULES.md", *(f"docs/rules/{path.name}" for path in (TOP / "docs/rules").glob("*.md"))]
    return {name: (TOP / name).read_text(encoding="utf-8") for name in names}


def hexadecimal(text):
    """A text as a history spells it."""
    return text.encode("utf-8").hex() or "-"


def golden_script(folder):
    """The script of a golden run: its input, or the file that its call names."""
    if (folder / "stdin").is_file():
        return folder / "stdin"
    named = re.search(r'^"\$@" <(\S+\.json)\s*$', (folder / "call").read_text()) if (folder / "call").is_file() else None
    return (folder / named[1]).resolve() if named else None


def golden_cases():
    """The golden runs of `one` that write a history."""
    for folder in sorted(GOLDEN.iterdir()):
        words = folder / "words"
        runs_one = words.is_file() and words.read_text() == "one\n" and not (folder / "status").is_file()
        script = golden_script(folder) if runs_one else None
        if script:
            yield Case(folder.name, script, (folder / "stdout").read_bytes())


def built_history(script):
    """The history that the built program writes, None where no program of the present sources is ready."""
    call = 'top=$1; . "$top/.ci/program.sh"; program_is_ready && exec "$program" one'
    with open(script, "rb") as source:
        done = subprocess.run(["bash", "-c", call, "bash", str(TOP)], stdin=source, capture_output=True)
    return done.stdout if done.returncode == 0 else None


def example_cases(golden):
    """The examples that are no golden run by themselves, each with the golden history of an equal script, or that of the
    built program; and those without any."""
    cases, missing = [], []
    known = [(json.loads(case.script.read_bytes()), case.history) for case in golden]
    for path in sorted(set((TOP / "examples").glob("*.json")) - {case.script for case in golden}):
        value = json.loads(path.read_bytes())
        history = next((history for script, history in known if script == value), None)
        history = built_history(path) if history is None else history
        if history is None:
            missing.append(path.name)
        else:
            cases.append(Case(path.name, path, history))
    return cases, missing


@functools.lru_cache(maxsize=None)
def all_cases():
    """All cases, and the names of examples that have no history here."""
    golden = list(golden_cases())
    examples, missing = example_cases(golden)
    return golden + examples, missing


def case_of(name):
    """The golden run of a name."""
    return next(case for case in all_cases()[0] if case.name == name)
