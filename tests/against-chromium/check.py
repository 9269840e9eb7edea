"""Replays histories of the program in a real Chromium and compares, in a network namespace that has loopback alone.

`run` beside this file starts it. The last line is `N passed, M failed`, and the status is 0 where nothing failed."""
import argparse
import contextlib
import pathlib
import shutil
import signal
import subprocess
import sys
import tempfile
from dataclasses import dataclass, field

import loopback
import report
import response_table
import self_tests
from browser import Browser, version
from devtools import BrowserGone, CallFailed
from differences import judge, orphans, read_differences
from history import NoHistory, Script, run_program
from replay import OutOfTime, Replay
from server import Server

HERE = pathlib.Path(__file__).resolve().parent
TOP = HERE.parent.parent
PAGE = TOP / "docs" / "CHROMIUM.md"
# Longer than a run takes, and one with the report; what is still waiting then ends as a failure with a name.
ALL_SECONDS = 900
REPORT_SECONDS = 3600
FAULTS = (BrowserGone, CallFailed, NoHistory, OutOfTime, subprocess.SubprocessError)


@dataclass
class Tally:
    """What passed and what failed; each failure is told where it happens."""
    passed: int = 0
    failed: int = 0

    def passes(self, count=1):
        self.passed += count

    def fails(self, text):
        self.failed += 1
        print("FAILED " + text)


@dataclass
class Seen:
    """What a replay of a script gave."""
    script: Script
    comparisons: list = field(default_factory=list)
    left_out: int = 0
    sandboxes: list = field(default_factory=list)


class Bench:
    """The server, the program and one Chromium at a time, in a room that is removed after the run."""

    def __init__(self, room, program):
        self.room, self.program = room, program
        self.server = Server(room)
        self.browser, self.kept_for = None, None
        self.histories = {}

    def browser_for(self, isolated, sandboxed_apart):
        """The running browser, where it was started so; else a new one in its place."""
        wanted = (isolated, sandboxed_apart)
        if self.browser is None or self.kept_for != wanted:
            self.close_browser()
            self.browser = Browser(self.room, self.server.port, isolated, sandboxed_apart)
            self.kept_for = wanted
        return self.browser

    def close_browser(self):
        if self.browser:
            self.browser.close()
        self.browser = None

    def lines(self, script):
        """The history of a script, which the program is asked for once."""
        if script.name not in self.histories:
            self.histories[script.name] = run_program(self.program, script.content.encode())
        return self.histories[script.name]

    def replay(self, script, lines, sandboxed_apart=False):
        """Replays a history of a script. A browser that failed at it is not used again."""
        try:
            replay = Replay(self.browser_for(script.isolated, sandboxed_apart), self.server, script, lines)
            return Seen(script, replay.run(), replay.left_out, replay.places.sandboxes)
        except FAULTS:
            self.close_browser()
            raise

    def close(self):
        self.close_browser()
        self.server.close()


def read_scripts():
    """The examples and the scripts beside this file, those of one browser behind one another."""
    paths = sorted((TOP / "examples").glob("*.json")) + sorted((HERE / "scripts").glob("*.json"))
    scripts = [Script(f"{path.parent.name}/{path.stem}", path.read_text()) for path in paths]
    return sorted(scripts, key=lambda script: script.isolated)


def replay_all(bench, scripts, tally, sandboxed_apart=False):
    """The replays of these scripts; one that fails is told, and left out."""
    seen = []
    for script in scripts:
        try:
            seen.append(bench.replay(script, bench.lines(script), sandboxed_apart))
        except FAULTS as error:
            tally.fails(f"{script.name}: {type(error).__name__}: {error}")
    return seen


def hold_against_list(seen, differences, tally):
    """The check itself: a difference that is not listed fails, and so does a listed one that doesn't show."""
    comparisons = [comparison for one in seen for comparison in one.comparisons]
    outcome = judge(differences, comparisons, {one.script.name for one in seen})
    for one in sorted(seen, key=lambda one: one.script.name):
        names = ", ".join(dict.fromkeys(outcome.names.get(one.script.name, [])))
        left_out = f", {one.left_out} lines left out" if one.left_out else ""
        print(f"{one.script.name}: {len(one.comparisons)} compared{left_out}" + (f"; {names}" if names else ""))
    tally.passes(len(comparisons) - len(outcome.unlisted))
    for comparison in outcome.unlisted:
        tally.fails("not listed: " + comparison.told())
    for name, key in outcome.vanished:
        tally.fails(f"listed as {name}, but it no longer shows: {': '.join(key[:3])}")
    return outcome


def tell_sandboxes(seen):
    """The second pass: what Chromium's defaults do with sandboxed frames. A report, and no check."""
    print("With Chromium's defaults for sandboxed frames:")
    for one in sorted(seen, key=lambda one: one.script.name):
        print(report.sandbox_line(one))


def run_checks(arguments, bench, tally):
    differences = read_differences((HERE / "differences.json").read_text())
    self_tests.test_guard(tally)
    self_tests.test_list(tally)
    scripts = read_scripts()
    for name, key in orphans(differences, {script.name for script in scripts}):
        tally.fails(f"listed as {name}, of a script that is not there: {': '.join(key[:3])}")
    if arguments.scripts:
        scripts = [script for script in scripts if script.name in arguments.scripts]
    seen = replay_all(bench, scripts, tally)
    hold_against_list(seen, differences, tally)
    if arguments.scripts:
        return
    self_tests.test_alterations(tally, bench, scripts, FAULTS)
    sandboxed = replay_all(bench, [script for script in scripts if script.has_sandbox()], tally, True)
    tell_sandboxes(sandboxed)
    if arguments.report:
        PAGE.write_text(report.page(version(), seen, differences, sandboxed, response_table.measure(bench)))
        print("docs/CHROMIUM.md is written")
    self_tests.test_page(tally, differences, PAGE)


def out_of_time(*_):
    raise OutOfTime("the whole run takes too long")


def stop(number, _frame):
    sys.exit(128 + number)


def read_arguments():
    parser = argparse.ArgumentParser(description=__doc__.split("\n")[0])
    parser.add_argument("--program", required=True, help="the browser's program")
    parser.add_argument("--room", required=True, help="a folder for all that is temporary")
    parser.add_argument("--report", action="store_true", help="also write docs/CHROMIUM.md")
    parser.add_argument("scripts", nargs="*", help="only these scripts, as examples/ad-frame; nothing else then")
    return parser.parse_args()


def main():
    arguments = read_arguments()
    try:
        loopback.insist()
    except loopback.NotAlone as error:
        print(f"against Chromium: REFUSED: {error}, where it must have loopback alone", file=sys.stderr)
        return 2
    signal.signal(signal.SIGALRM, out_of_time)
    signal.signal(signal.SIGTERM, stop)
    signal.alarm(REPORT_SECONDS if arguments.report else ALL_SECONDS)
    tally = Tally()
    room = tempfile.mkdtemp(prefix="against-chromium-", dir=arguments.room)
    try:
        with contextlib.closing(Bench(room, arguments.program)) as bench:
            run_checks(arguments, bench, tally)
    except FAULTS as error:
        tally.fails(f"{type(error).__name__}: {error}")
    finally:
        shutil.rmtree(room, ignore_errors=True)
    print(f"{tally.passed} passed, {tally.failed} failed")
    return 1 if tally.failed else 0


if __name__ == "__main__":
    sys.exit(main())
