"""The listed differences: each has a name, both sides' reasons, and exactly the comparisons that show it."""
import json
from dataclasses import dataclass

KEYS = ("name", "title", "side", "theirs", "ours", "shown")
SHOWN_KEYS = ("script", "at", "subject", "model", "chromium")
SIDES = ("Chromium", "Fetch Standard", "HTML Standard")


class BadList(Exception):
    """The file of the differences is not of its form."""


@dataclass(frozen=True)
class Difference:
    """`side` says whose rule the other one is; `theirs` and `ours` say what each does and why."""
    name: str
    title: str
    side: str
    theirs: str
    ours: str
    shown: tuple


def read_differences(text):
    """The listed differences, in their order. BadList where a key is missing, empty or unknown, or stands twice."""
    differences = [read_one(entry) for entry in json.loads(text)["differences"]]
    names = [difference.name for difference in differences]
    keys = [key for difference in differences for key in difference.shown]
    if len(set(names)) != len(names) or len(set(keys)) != len(keys):
        raise BadList("a name or a comparison stands twice")
    return differences


def read_one(entry):
    if tuple(entry) != KEYS or entry["side"] not in SIDES or not all(entry.values()):
        raise BadList(f"a difference needs {', '.join(KEYS)}: {entry.get('name')}")
    shown = []
    for place in entry["shown"]:
        if tuple(place) != SHOWN_KEYS:
            raise BadList(f"what shows a difference needs {', '.join(SHOWN_KEYS)}: {entry['name']}")
        shown.append(tuple(place[key] for key in SHOWN_KEYS))
    return Difference(*(entry[key] for key in KEYS[:-1]), tuple(shown))


@dataclass(frozen=True)
class Outcome:
    """What a run showed of the list: `unlisted` comparisons that differ, and `vanished` places of the list that don't."""
    names: dict
    unlisted: list
    vanished: list

    @property
    def is_good(self):
        return not self.unlisted and not self.vanished


def orphans(differences, scripts):
    """The listed places of scripts that are not there, which no run can show."""
    return [(difference.name, key) for difference in differences for key in difference.shown if key[0] not in scripts]


def judge(differences, comparisons, scripts):
    """Holds all comparisons of these scripts against the list. A listed place of another script is not asked."""
    listed = {key: difference.name for difference in differences for key in difference.shown if key[0] in scripts}
    seen = {comparison.key(): comparison for comparison in comparisons if not comparison.agrees}
    names = {}
    for key in seen:
        if key in listed:
            names.setdefault(key[0], []).append(listed[key])
    unlisted = [comparison for key, comparison in seen.items() if key not in listed]
    vanished = [(name, key) for key, name in listed.items() if key not in seen]
    return Outcome(names, unlisted, vanished)
