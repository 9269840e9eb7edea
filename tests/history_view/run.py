"""Runs all checks of tools/history-view; the last line is 'N passed, M failed'."""
import pathlib
import sys

TOP = pathlib.Path(__file__).resolve().parents[2]
sys.path[:0] = [str(TOP / "tools"), str(TOP / "tests/history_view")]

import check_browser
import check_command
import check_facts
import check_json
import check_lines
import check_pages
import check_rules
import check_style
from checks import Checks


def main(words):
    picture = words[1] if len(words) == 2 and words[0] == "--picture" else None
    if words and picture is None:
        print("usage: tests/history-view.sh [--picture FILE]", file=sys.stderr)
        return 2
    checks = Checks()
    for group in (check_lines, check_facts, check_rules, check_json, check_pages, check_style, check_command):
        group.run(checks)
    check_browser.run(checks, picture)
    return checks.tell()


if __name__ == "__main__":
    sys.exit(main(sys.argv[1:]))
