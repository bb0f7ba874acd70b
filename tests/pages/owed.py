"""What pages owe their readers: each reply, refusal, fault, task, table, argument, key of a set-up and limit of the sources.

A word is in backticks or in a block, an argument with its two dashes. A limit is there as its digits in groups of three, 1,118,720, in
the part 'Limits' of MANUAL, or anywhere in FORMATS."""
import re
from pathlib import Path

from pages.markdown import code_of, sections_of

FORMATS, MANUAL = "docs/FORMATS.md", "docs/MANUAL.md"

OWED = [it.split(": ") for it in Path(__file__).with_name("owed.txt").read_text().splitlines() if not it.startswith("#")]
WORDS = {what: (page, names) for what, page, names in OWED if what != "limit"}
WORD = r'codes " ?((?!refused")[a-z_ -]*[a-z]) ?"'
EXPLAINED = ("refusal", "fault")  # by a row of MANUAL

# The definitions that have limits of a set-up.
OF_SETUP = "limits_text setup_of quorum_of constituency_from"


def found_in(tree, names, pattern):
    """What the pattern finds in these definitions, each once. All of them have to be there."""
    named = {it.key for it in tree.definitions.values() if it.name in names.split()}
    used = [tree.definitions[key] for key in tree.followed(named)]
    assert {*names.split()} <= {it.name for it in used}, f"a definition is gone: {names}"
    texts = ["\n".join(it.text) for it in used if it.key in named or it.name.endswith(("_name", "_rules"))]
    return sorted({word for text in texts for word in re.findall(pattern, text)})


def said(tree):
    """Words that their page does not say, or MANUAL does not explain."""
    manual, code = tree.read(MANUAL), {page: code_of(tree.read(page)) for page in (FORMATS, MANUAL)}
    for what, (page, names) in WORDS.items():
        for word in found_in(tree, names, WORD):
            word = "--" * (what == "argument") + word
            if not re.search(rf"(?<![\w-]){re.escape(word)}(?![\w-])", code[page]):
                yield f"{page} does not say `{word}` ({what})"
            row = rf"^\| [^|\n]*`{re.escape(word)}(?: [A-Za-z ]+)?`[^|\n]*\|"
            if what in EXPLAINED and not re.search(row, manual, re.M):
                yield f"{MANUAL} has no row of `{word}` ({what})"


def limits(tree):
    """Limits that their page does not say."""
    part, = ("\n".join(it.lines) for it in sections_of(tree.read(MANUAL)) if it.title == "Limits")
    texts = {FORMATS: tree.read(FORMATS), MANUAL: part}
    owed = [(FORMATS, "a limit of a set-up", it) for it in found_in(tree, OF_SETUP, r"(?<![\w.])(?!1\b)\d+\b")]
    for page, (crate, name) in ((page, names.split()) for what, page, names in OWED if what == "limit"):
        numbers = re.findall(rf"const {name}: \w+ = ([\d_]+);", "\n".join(text for *_, text in tree.files("src/**/*.rt", [crate])))
        assert numbers, f"{crate} has no constant {name}"
        owed += [(page, f"{name} of {crate}", it) for it in numbers]
    for page, what, number in owed:
        if not re.search(rf"(?<![\d,.]){int(number):,}(?![\d,]*\d)", texts[page]):
            yield f"{page} does not say {int(number):,}, {what}"
