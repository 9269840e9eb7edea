"""Checks that each rule, each kind of line and each `ok` has its words, and that these are those of the pages."""
from cases import pages, rules
from history_view.lines import KINDS, MESSAGES, RULES
from history_view.panel import NAMES
from history_view.rules import KIND_NAMES, Rules, brief, cells_of, codes_in, tables_of, text_of

# The rules that a legal history has at each kind of line, by docs/FORMATS.md and docs/RULES.md.
OF_URLS = "N2 N3 N4"
RULES_OF = {
    "said navigate": f"K1 G1 K2 K4 G2 N1 {OF_URLS}", "said frame": f"K1 G1 L1 {OF_URLS}", "said remove": "K1 G1 K5 G2",
    "said page": f"K1 G1 N9 L1 {OF_URLS}", "said fetch": "K1 G1 K3 F1 L2", "said post": "K1 G1 K6 K4 G2 M1 M2",
    "said ask": "K1 G1 K7 S1 S2 S3 S4", "said commit": "K8 G3 K9 K10", "commit": "G3", "navend": "N2 N3 N5 N6 N7 N8",
    "head": "A1 A2 A3 A4 A5", "end": "N5 N7 F1 B1 B2 B3 B4 B5 B6 B7 B8",
}
# A rule at a kind of line, and where it applies, in words.
WORDS = [
    ("K7", "said ask", "the origin's site is not the lock of the process"),
    ("K4", "said post", "the frame was never in the document's group"),
    ("N2", "said page", "the text is no URL of at most 2,048 printable bytes"),
    ("N8", "navend", "status 204 or 205 of a navigation"),
    ("B6", "end", "the body is found to be JSON"),
    ("A1", "head", "the CORS check answers SameOrigin"),
    ("G3", "commit", "the order is not waiting: it was committed, replaced or removed, or its process died"),
]


def check_words(checks, told):
    checks.equal(sorted(told.rows), sorted(RULES), "the rules that have words")
    checks.equal(sorted(told.groups), sorted(RULES), "the rules that have a group")
    checks.equal(sorted(told.kinds), sorted(KIND_NAMES), "the kinds of lines that have words")
    checks.equal({kind.split(" ")[0] for kind in told.kinds}, set(KINDS), "the kinds of lines")
    checks.equal(set(NAMES), set(KINDS), "the kinds of lines that the panel names")
    checks.equal(set(told.effects) | {"ask"}, set(MESSAGES), "the messages whose ok does something")
    checks.equal(len(told.choice), 4, "the rows of the choice of a process")
    for context, codes in RULES_OF.items():
        for code in codes.split(" "):
            own = [words for contexts, words in told.rows[code] if context in contexts]
            checks.true(own, f"{code} has words of its own at {context}")
            checks.true(all(words in own for words in told.of(code, context)), f"{code} at {context} has those alone")
            checks.true(brief(told.of(code, context)), f"{code} at {context} says where it applies")
    for code, context, words in WORDS:
        checks.equal(text_of(brief(told.of(code, context))), words, f"where {code} applies at {context}")
    checks.true(told.of("K7", "head"), "a rule at a line where it never stands has all its words")


def check_pages_are_read(checks):
    """What the pages say is what is told, also where they change."""
    texts = pages()
    name = "docs/rules/messages.md"
    old, new = "the origin's site is not the lock of the process", "the lock is `another` | site".replace(" | ", " \\| ")
    checks.true(old in texts[name], "the words of K7 on their page")
    changed = Rules({**texts, name: texts[name].replace(f"{old} (`lock_admits`)", new)})
    wanted = [["", "the lock is "], ["c", "another"], ["", " | site"]]
    checks.equal(brief(changed.of("K7", "said ask")), wanted, "changed words")


def check_tables(checks):
    checks.equal(cells_of("| a | `b | c` | d \\| e | |"), ["a", "`b | c`", "d | e", ""], "the cells of a row")
    checks.equal(codes_in("K9 to K10, N1, `B1`"), ["K9", "K10", "N1", "B1"], "the codes of a cell")
    page = "# T\n\n## S\n\nOne\ntwo:\n\n| A | B |\n|---|---|\n| 1 | 2 |\n\nx\n\n| C |\n|:-:|\n"
    tables = tables_of("p", page)
    found = [(table.title, table.section, table.lead, table.heads, table.rows) for table in tables]
    wanted = [("T", "S", "One two:", ["A", "B"], [["1", "2"]]), ("T", "S", "x", ["C"], [])]
    checks.equal(found, wanted, "the tables of a page")


def run(checks):
    check_words(checks, rules())
    check_pages_are_read(checks)
    check_tables(checks)
