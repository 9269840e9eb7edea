#!/usr/bin/env bash
# Audits of the built program: `audit` passes the output of `one` for each golden run and example, of either version where no rule of
# the second stands in it, and refuses each text that differs from it in one line (dropped, doubled, swapped with its neighbour, or
# with one field changed), unless it is listed in audits.json as another legal history; each text whose version line is changed; each
# text that is cut short, by whole lines and within a line; and inputs at the limit of `audit` and past it. Where python3 is missing, nothing is checked, and the status is 77. The last line is 'N passed, M failed'.
set -u
top=$(cd "$(dirname "${BASH_SOURCE[0]}")/.." && pwd)
. "$top/.ci/program.sh"
if ! command -v python3 >/dev/null 2>&1; then
  echo "audits are NOT CHECKED: python3 is missing"
  exit 77
fi
if ! program_is_ready; then
  echo "audits: the program is not built"
  echo "0 passed, 1 failed"
  exit 1
fi
exec python3 - "$top" "$program" "$@" <<'PYTHON'
import concurrent.futures, json, os, pathlib, re, subprocess, sys, tempfile

top, program = pathlib.Path(sys.argv[1]), sys.argv[2]
listed_at = top / "tests" / "audits.json"
VERSION = "history 2\n"


def audit(script, text):
    """The status and the line of an audit."""
    framed = b"script %d\n%s%s" % (len(script), script, text.encode())
    ended = subprocess.run([program, "audit"], input=framed, capture_output=True, timeout=60)
    return ended.returncode, ended.stdout.decode()


def runs():
    """Each golden run of `one` over its own script, and each example, with the text of its history: a name, the script, the text."""
    for folder in sorted((top / "tests" / "golden").iterdir()):
        words, wanted = folder / "words", folder / "stdout"
        if (folder / "status").exists() or not wanted.exists() or not (folder / "stdin").exists():
            continue
        if words.read_text() == "one\n" and wanted.read_text().startswith(VERSION):
            yield folder.name, (folder / "stdin").read_bytes(), wanted.read_text()
    for example in sorted((top / "examples").glob("*.json")):
        script = example.read_bytes()
        ended = subprocess.run([program, "one"], input=script, capture_output=True, timeout=60)
        yield f"examples/{example.name}", script, ended.stdout.decode()


def other(field):
    """Another field of the same form."""
    if re.fullmatch(r"[0-9]+", field):
        return str(int(field) + 1)
    if re.fullmatch(r"([0-9a-f]{2})+", field):
        return field[:-1] + ("0" if field[-1] != "0" else "1")
    if re.fullmatch(r"[A-Z][0-9]+", field):
        return "A1" if field != "A1" else "A2"
    if "://" in field:
        return field.replace("://", "://x.", 1)
    return {"ok": "deny K1", "cors": "no-cors", "no-cors": "cors", "whole": "blocked B1"}.get(field, field + "x")


def changes(lines):
    """Each text that differs in one line behind the version line, with what was done."""
    for at in range(1, len(lines)):
        number = at + 1
        yield f"line {number} dropped", lines[:at] + lines[at + 1 :]
        yield f"line {number} doubled", lines[: at + 1] + lines[at:]
        if at + 1 < len(lines):
            yield f"line {number} swapped with the next", lines[:at] + [lines[at + 1], lines[at]] + lines[at + 2 :]
        fields = lines[at].rstrip("\n").split(" ")
        for place, field in enumerate(fields):
            changed = fields[:place] + [other(field)] + fields[place + 1 :]
            yield f"line {number} field {place + 1} changed", lines[:at] + [" ".join(changed) + "\n"] + lines[at + 1 :]


def version_lines(lines):
    """Each text whose version line is changed, with the line that its audit must tell."""
    yield "line 1 doubled", "".join(lines[:1] + lines), "bad line 2\n"
    if len(lines) > 1:
        yield "line 1 swapped with the next", "".join([lines[1], lines[0]] + lines[2:]), "bad line 2\n"
    for field in ("historyx 2\n", "history 3\n"):
        yield f"line 1 is {field!r}", "".join([field] + lines[1:]), "bad line 1\n"


def cuts(lines):
    """Each text that is cut short, with the line that its audit must tell."""
    if len(lines) > 1:
        yield "all is cut", "", "unfinished " + lines[1].split(" ")[0].rstrip("\n") + "\n"
    yield "cut in line 1", lines[0][:-1], "bad line 1\n"
    for kept in range(1, len(lines)):
        yield f"cut behind line {kept}", "".join(lines[:kept]), "unfinished " + lines[kept].split(" ")[0].rstrip("\n") + "\n"
        if len(lines[kept]) > 1:
            yield f"cut in line {kept + 1}", "".join(lines[:kept]) + lines[kept][:-1], f"bad line {kept + 1}\n"


def check(run):
    """What went wrong with a run's audits, how many there were, and which changed texts are legal."""
    name, script, text = run
    lines = text.splitlines(keepends=True)
    wrong, count, legal = [], 0, []
    want = (0, f"legal {len(lines) - 1}\n")
    versions = [text] if re.search(r" B8\b", text) else [text, text.removeprefix(VERSION)]
    for version in versions:
        count += 1
        if audit(script, version) != want:
            wrong.append(f"{name}: its own text is not legal")
    for what, changed in changes(lines):
        count += 1
        status, line = audit(script, "".join(changed))
        if changed == lines:
            if (status, line) != want:
                wrong.append(f"{name}: {what}: the same text is not legal")
        elif status == 0:
            legal.append(what)
        elif status != 1 or not re.fullmatch(r"(bad line|illegal line) [0-9]+\n|unfinished [a-z]+\n", line):
            wrong.append(f"{name}: {what}: status {status}, {line!r}")
    for what, other_text, told in [*version_lines(lines), *cuts(lines)]:
        count += 1
        found = audit(script, other_text)
        if found != (1, told):
            wrong.append(f"{name}: {what}: {found} in place of {told!r}")
    return name, wrong, count, legal


def limits():
    """What went wrong with inputs of the greatest length and of one byte more. Neither has a frame, and only the first is looked at."""
    wrong = []
    for length, status in ((536_870_912, 5), (536_870_913, 6)):
        with tempfile.TemporaryFile() as blanks:
            blanks.truncate(length)
            ended = subprocess.run([program, "audit"], stdin=blanks, capture_output=True, timeout=300)
        if (ended.returncode, ended.stdout) != (status, b""):
            wrong.append(f"{length} bytes: status {ended.returncode} in place of {status}")
    return wrong


everything = list(runs())
with concurrent.futures.ThreadPoolExecutor(os.cpu_count()) as pool:
    results = list(pool.map(check, everything))
found = {name: legal for name, _, _, legal in results if legal}
if "--write" in sys.argv:
    listed_at.write_text(json.dumps(found, indent=2) + "\n")
listed = json.loads(listed_at.read_text())
failures = [failure for _, wrong, _, _ in results for failure in wrong] + limits()
for name in sorted(set(found) | set(listed)):
    for what in sorted(set(found.get(name, [])) ^ set(listed.get(name, []))):
        failures.append(f"{name}: {what}: {'legal, and not listed' if what in found.get(name, []) else 'listed, and not legal'}")
if not everything:
    failures.append("there is no golden run of `one`")
for failure in failures:
    print(f"audits: {failure}")
total = sum(count for _, _, count, _ in results) + 2
print(f"{total - len(failures)} passed, {len(failures)} failed")
sys.exit(1 if failures else 0)
PYTHON
