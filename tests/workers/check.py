"""Checks of `run`: see tests/workers.sh."""
import collections, concurrent.futures, json, os, pathlib, re, subprocess, sys

sys.dont_write_bytecode = True
sys.path.insert(0, str(pathlib.Path(__file__).parent))
import scripts

top, program = pathlib.Path(sys.argv[1]), sys.argv[2]
PAGE = '{"start":["https://a.com/"],"resources":[{"url":"https://a.com/","actions":[%s]},%s]}'
FETCH = '{"do":"fetch","url":"https://b.com/x","mode":"no-cors"}'
# The page reads a response of its own, waits for it, and gets what came before the wire failed.
OWN_READ = '{"do":"fetch","url":"https://a.com/d","mode":"cors"},{"do":"wait"}'
OWN_ANSWER = '{"url":"https://a.com/d","body":"0123456789","fail_after":3}'
OWN_LINES = ["head 0 A1", "piece 0 0 303132", "end 0 failed N7"]


def run(script, workers, timeout=120):
    """The status, the output and the line on standard error of a run with so many workers."""
    ended = subprocess.run([program, "run", str(workers)], input=script, capture_output=True, timeout=timeout)
    return ended.returncode, ended.stdout.decode(), ended.stderr.decode()


def audit(script, text):
    """The status and the line of an audit."""
    framed = b"script %d\n%s%s" % (len(script), script, text.encode())
    ended = subprocess.run([program, "audit"], input=framed, capture_output=True, timeout=120)
    return ended.returncode, ended.stdout.decode()


def wrong_run(name, script, workers):
    """What is wrong with a run, if something is, and its text."""
    try:
        status, text, line = run(script, workers)
        if (status, line) != (0, ""):
            return f"{name}: run {workers}: status {status}, {line!r}", text
        found = audit(script, text)
    except subprocess.TimeoutExpired:
        return f"{name}: run {workers}: no end in time", ""
    if found != (0, f"legal {text.count(chr(10)) - 1}\n"):
        return f"{name}: run {workers}: its text is not legal: {found}\n{text}", text
    return None, text


def scripts_of_runs():
    """Each example, and each golden run of `one` that ends with Ran: a name and the script."""
    for example in sorted((top / "examples").glob("*.json")):
        yield f"examples/{example.name}", example.read_bytes()
    for folder in sorted((top / "tests" / "golden").iterdir()):
        words, script = folder / "words", folder / "stdin"
        if words.exists() and words.read_text() == "one\n" and script.exists() and not (folder / "status").exists():
            yield folder.name, script.read_bytes()


# The page reads https://b.com/x: what its server answers, and what the page gets, in whatever order the rest comes.
ANSWERS = [
    ("a commented page, cut at each byte", '"headers":[["Content-Type","text/html"]],"body":"<!-- x --><hTmL","cuts":[1,2,3,4,5,6,7,8,9,10,11,12,13,14]', ["end 0 blocked B4"]),
    ("JSON as plain text", '"headers":[["Content-Type","text/plain"]],"body":"{\\"a\\" :"', ["end 0 blocked B6"]),
    ("plain text that may not be sniffed", '"headers":[["Content-Type","text/plain"],["X-Content-Type-Options","NoSniff"]],"body":"x"', ["end 0 blocked B3"]),
    ("an image in XML", '"headers":[["Content-Type","image/svg+xml"]],"body":"<?xml"', ["head 0 A4", "piece 0 0 3c3f786d6c", "end 0 whole"]),
    ("JSON that is none", '"headers":[["Content-Type","application/json"]],"body":"hello","cuts":[1,3]', ["head 0 A5", "piece 0 0 68", "piece 0 1 656c", "piece 0 2 6c6f", "end 0 whole"]),
    ("text in HTML that begins too late to be a page", '"headers":[["Content-Type","text/html"]],"body":"%s<html"' % (1020 * " "), ["head 0 A5", "piece 0 0 %s" % (1020 * "20" + "3c68746d6c"), "end 0 whole"]),
    ("a page that begins just in time", '"headers":[["Content-Type","text/html"]],"body":"%s<html"' % (1019 * " "), ["end 0 blocked B4"]),
    ("a style sheet behind a guard", '"headers":[["Content-Type","text/css"]],"body":")]}\'"', ["head 0 A4", "piece 0 0 295d7d27", "end 0 whole"]),
    ("a script behind a guard", '"headers":[["Content-Type","text/javascript"]],"body":")]}\'"', ["end 0 blocked B7"]),
    ("a page whose wire fails", '"headers":[["Content-Type","text/html"]],"body":"<html>","fail_after":3', ["end 0 failed N7"]),
    ("a text whose wire fails late", '"headers":[["Content-Type","text/html"]],"body":"hello","fail_after":3', ["head 0 A5", "piece 0 0 68656c", "end 0 failed N7"]),
]


def deliveries(text):
    """The heads, pieces and ends of a text, of each request in their order."""
    found = collections.defaultdict(list)
    for line in text.splitlines():
        words = line.split(" ")
        if words[0] in ("head", "piece", "end"):
            found[words[1]].append(line)
    return found


def wrong_answer(name, answer, wanted):
    return wrong_page(name, PAGE % (FETCH, '{"url":"https://b.com/x",%s}' % answer), wanted)


def wrong_page(name, script, wanted):
    """What is wrong with a script under four workers, whose first request gets these lines."""
    wrong, text = wrong_run(name, script.encode(), 4)
    if wrong is None and dict(deliveries(text)) != {"0": wanted}:
        wrong = f"{name}: run 4: {dict(deliveries(text))} in place of {wanted}"
    return wrong


def wrong_shop():
    """What is wrong with the shop page under 16 workers: its requests get the heads A4, A4, A2 and A1, and are all whole."""
    folder = top / "tests" / "golden" / "a-shop-with-an-ad"
    wrong, text = wrong_run("a shop", (folder / "stdin").read_bytes(), 16)
    if wrong is None:
        wanted = deliveries((folder / "stdout").read_text())
        heads = [lines[0] for _, lines in sorted(wanted.items())]
        if heads != ["head 0 A4", "head 1 A4", "head 2 A2", "head 3 A1"] or deliveries(text) != wanted:
            wrong = f"a shop: run 16: {dict(deliveries(text))}"
        elif re.search(r"deny|drop|kill|blocked", text):
            wrong = f"a shop: run 16: something was refused\n{text}"
    return wrong


def checks():
    """Each check, as a function that tells what is wrong."""
    for name, script in scripts_of_runs():
        for workers in (1, 2, 4, 16):
            yield lambda name=name, script=script, workers=workers: wrong_run(name, script, workers)[0]
    for row in ANSWERS:
        yield lambda row=row: wrong_answer(*row)
    yield lambda: wrong_page("a read whose wire fails", PAGE % (OWN_READ, OWN_ANSWER), OWN_LINES)
    yield wrong_shop


def stress(count):
    """Runs so many made scripts by the stress program, and ends with what it tells."""
    lines = "".join(json.dumps(scripts.script(number)) + "\n" for number in range(count))
    ended = subprocess.run([program, "1"], input=lines.encode(), capture_output=True)
    *wrong, last = ended.stdout.decode().splitlines() or [""]
    for line in wrong:
        print(f"workers: {line}")
    legal = re.fullmatch(rf"{count} runs, (\d+) legal", last)
    passed = int(legal[1]) if legal and ended.returncode == 0 else 0
    print(f"{passed} passed, {count - passed} failed")
    sys.exit(0 if passed == count else 1)


if sys.argv[3:4] == ["--stress"]:
    stress(int(sys.argv[4]) if len(sys.argv) > 4 else 1000)
todo = list(checks())
with concurrent.futures.ThreadPoolExecutor(os.cpu_count()) as pool:
    failures = [wrong for wrong in pool.map(lambda check: check(), todo) if wrong]
for failure in failures:
    print(f"workers: {failure}")
print(f"{len(todo) - len(failures)} passed, {len(failures)} failed")
sys.exit(1 if failures else 0)
