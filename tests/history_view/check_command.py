"""Checks the command: what it writes, that two runs write the same, and how it refuses, with a name and a status."""
import os
import pathlib
import shutil
import subprocess
import sys
import tempfile

from cases import TOP, all_cases, rules
from history_view.json_form import history_json
from history_view.page import Page

TOOL = TOP / "tools/history-view"
SCRIPT, HISTORY = b'{"start":["https://a.com/"]}', b"history 2\nopen 0\n"
# The script, the history, the status, and the line on standard error behind the file's name.
REFUSED = [
    (b"{", HISTORY, 5, "script.json: refused X1: no JSON at line 1, column 2"),
    (b"\xff", HISTORY, 5, "script.json: refused X1: byte 0 is not UTF-8"),
    (b"[]", HISTORY, 5, "script.json: refused X2: it is not an object"),
    (b'{"start":[0]}', HISTORY, 5, "script.json: refused X2 /start/0: it is not a string"),
    (SCRIPT, b"history 2\nopen 0\nopen 01\n", 5, "history: line 3 is no entry: '01' is no number"),
    (SCRIPT, b"open 0\n\n", 5, "history: line 2 is no entry: there is nothing where an entry's word should be"),
    (SCRIPT, b"open 0\nopen 1", 5, "history: line 2 is no entry: it does not end with a line feed"),
    (SCRIPT, b"head 0 B8\n", 5, "history: line 1 is no entry: B8 is a rule of version two alone"),
    (SCRIPT, b"open \x1b[31m\n", 5, "history: line 1 is no entry: it has a byte that is not printable ASCII"),
    (SCRIPT, b"exit 0 1\n", 5, "history: line 1 is no entry: '1' stands behind the last field"),
    (SCRIPT, b"hop nav 0\n", 5, "history: line 1 is no entry: the URL is missing"),
    (SCRIPT, b"end 0 blocked\n", 5, "history: line 1 is no entry: the rule is missing"),
    (b"{", b"fly\n", 5, "script.json: refused X1: no JSON at line 1, column 2"),
]


class Room:
    """A folder with a script and a history, in which the tool is run."""

    def __init__(self, folder):
        self.folder = pathlib.Path(folder)

    def put(self, script, history):
        (self.folder / "script.json").write_bytes(script)
        (self.folder / "history").write_bytes(history)

    def call(self, *words, tool=TOOL, given=b"", **more):
        """Runs the tool: its status, and what it wrote on both outputs."""
        call = [sys.executable, str(tool), *words]
        done = subprocess.run(call, cwd=self.folder, input=given, capture_output=True, **more)
        return done.returncode, done.stdout, done.stderr.decode("utf-8")


def check_output(checks, room):
    """Pages and JSON of all cases, on standard output and in a file: each run writes what another one makes."""
    told = rules()
    for case in all_cases()[0]:
        facts = case.facts()
        (room.folder / "history").write_bytes(case.history)
        page = room.call(str(case.script), "history", env={**os.environ, "PYTHONHASHSEED": "1"})
        checks.true(page == (0, Page(facts, told, case.script.name).text().encode("utf-8"), ""), f"the page of {case.name}")
        written = room.call("--json", str(case.script), "-", "-o", "out", given=case.history,
                            env={**os.environ, "PYTHONHASHSEED": "2", "LC_ALL": "C", "PYTHONUTF8": "0"})
        checks.equal(written, (0, b"", ""), f"the run of {case.name} with --json")
        checks.true((room.folder / "out").read_bytes() == history_json(facts).encode("ascii"), f"the JSON of {case.name}")


def check_refusals(checks, room):
    for script, history, status, line in REFUSED:
        room.put(script, history)
        for words in ([], ["--json"]):
            told = room.call(*words, "script.json", "history", "-o", "page")
            checks.equal(told, (status, b"", f"history-view: {line}\n"), f"the refusal of {script!r} and {history!r}")
            checks.true(not (room.folder / "page").exists(), "a refusal writes no page")


def check_faults(checks, room):
    """Wrong words, and files that can't be read or written."""
    room.put(SCRIPT, HISTORY)
    for words in ([], ["script.json"], ["script.json", "history", "x"], ["--fly", "script.json", "history"]):
        status, out, said = room.call(*words)
        checks.true(status == 2 and out == b"" and said.startswith("usage: history-view "), f"the words {words}")
    status, out, said = room.call("--help")
    checks.true(status == 0 and b"--json" in out and said == "", "the help")
    faults = [
        (["gone.json", "history"], 3, "gone.json: can't be read: No such file or directory"),
        (["script.json", "gone"], 3, "gone: can't be read: No such file or directory"),
        (["script.json", "."], 3, ".: can't be read: Is a directory"),
        (["script.json", "gone\n\x1b"], 3, "gone‹U+000A›‹U+001B›: can't be read: No such file or directory"),
        (["script.json", "history", "-o", "gone/page"], 4, "gone/page: can't be written: No such file or directory"),
        (["script.json", "history", "-o", "."], 4, ".: can't be written: Is a directory"),
    ]
    for words, status, line in faults:
        told = room.call(*words, env={**os.environ, "LC_ALL": "C.UTF-8"})
        checks.equal(told, (status, b"", f"history-view: {line}\n"), f"the words {words}")
    checks.equal(room.call("-", "-", given=SCRIPT)[0], 0, "an empty history behind a script on one input")
    if pathlib.Path("/dev/full").exists():
        call = 'exec "$@" script.json history >/dev/full'
        done = subprocess.run(["bash", "-c", call, "bash", sys.executable, str(TOOL)], cwd=room.folder, capture_output=True)
        checks.equal((done.returncode, done.stderr.decode()),
                     (4, "history-view: standard output: can't be written: No space left on device\n"), "a full device")


def check_names(checks, room):
    """The page bears the name of its script, whatever bytes that has."""
    room.put(SCRIPT, HISTORY)
    for name, title in ((b"a <b>&.json", "a &lt;b&gt;&amp;.json"), (b"\xff\n.json", "‹\\xff›‹U+000A›.json")):
        path = os.path.join(os.fsencode(room.folder), name)
        with open(path, "wb") as file:
            file.write(SCRIPT)
        status, out, said = room.call(os.fsdecode(path), "history")
        checks.equal((status, said), (0, ""), f"a script of the name {name!r}")
        checks.true(f"<title>{title}: a history</title>" in out.decode("utf-8"), f"the title of {name!r}")


def check_own_files(checks, room):
    """Without the pages of the rules there is no page, but there is JSON; and a run leaves nothing beside the tool."""
    room.put(SCRIPT, HISTORY)
    shutil.copytree(TOP / "tools", room.folder / "tools")
    tool = room.folder / "tools/history-view"
    before = sorted((room.folder / "tools").rglob("*"))
    told = room.call("script.json", "history", tool=tool)
    line = "history-view: the pages of the rules can't be read: No such file or directory\n"
    checks.equal(told, (3, b"", line), "a tool without the pages of the rules")
    checks.equal(room.call("--json", "script.json", "history", tool=tool)[0], 0, "JSON without the pages")
    checks.equal(sorted((room.folder / "tools").rglob("*")), before, "the files of the tool")
    checks.true(os.access(TOOL, os.X_OK), "the tool can be run")


def run(checks):
    for check in (check_output, check_refusals, check_faults, check_names, check_own_files):
        with tempfile.TemporaryDirectory(prefix="history-view-") as folder:
            check(checks, Room(folder))
