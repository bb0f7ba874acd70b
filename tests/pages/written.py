"""What is written into pages from the sources: the definitions of the headline, its record, and the evidence in numbers."""
import re
from itertools import groupby, zip_longest

from cases import counted, lines_of
from pages.markdown import wrapped


def reached_by_headline(tree):
    return tree.closure([it for it in tree.clauses if (it.function, it.name) == ("program", "headline")])


def definitions(tree, _):
    """The files of the definitions that the headline reaches, by layer, each with the comment at its head and the names."""
    reached, lines = reached_by_headline(tree), []
    for title, crates in tree.layers.items():
        found = [tree.definitions[key] for crate in crates for key in tree.in_order(crate) if key in reached]
        lines += [f"### {title[0].upper()}{title[1:]}", ""] if found else []
        for (crate, module), inside in groupby(found, lambda it: (it.crate, it.module)):
            link = f"- [`{crate}/{module}`](../crates/{crate}/specs/{module}.antt):"
            names = ", ".join(f"`{it.name.strip('◌')}`" for it in inside)
            lines.append(wrapped(" ".join(filter(None, [link, tree.specs[f"{crate}.specs.{module}"][1].head, names]))))
        lines += [""] if found else []
    return "\n".join(lines) + "\n"


def theorem(tree, _):
    """The record `Headline`, word for word, with the comment above it."""
    text = next(text for *_, text in tree.files("specs/Headline.antt"))
    record = re.search(r"(?:^--.*\n)+pub record Headline (?:.*\n)+", text, re.M)[0]
    return f"```text\n{record.rstrip()}\n```\n\n"


def evidence(tree, table):
    """The table, with each number as it is now."""
    def found(pattern, text):
        return sum(len(re.findall(text, path.read_text(encoding="utf-8"), re.M)) for path in tree.top.glob(pattern))

    def lines(folder):
        number = found(f"crates/*/{folder}", r"^.*\S")
        return f"about {round(number, 2 - len(str(number))):,}"

    cases, turns = map(sum, zip(*(counted(lines_of(it.read_text())) for it in tree.top.glob("crates/zh_cases/data/*.case"))))
    reached = [tree.definitions[it] for it in reached_by_headline(tree)]
    numbers = {
        "crates": len(tree.crates),
        "lines of code": lines("src/**/*.rt"),
        "lines of definitions": lines("specs/**/*.antt"),
        "lines of proofs": lines("proofs/**/*.antt"),
        "definitions": f"{len(tree.definitions):,}",
        "definitions that `headline` reaches": f"{len(reached)}, with {sum(len(it.text) for it in reached):,} lines",
        "clauses that promise something": f"{sum(bool(it.text) for it in tree.clauses):,}",
        "wrong bodies": f"{found('tests/wrong_bodies/*.edits', '^name: '):,}",
        "the gravest of them": found("tests/wrong_bodies/gravest", "^zh_"),
        "cases": f"{cases:,}, with {turns:,} turns",
        "wrong lines of the scripts of `desks/`": found("tests/desks/plants/*.edits", "^seen by: "),
        "tests of the page": found("tests/page/test_*.py", "^ *def test_"),
        "wrong lines of the page": found("tests/page/plants/*.edits", "^seen by: "),
    }
    gone = numbers.keys() - {*re.findall(r"^\| (.+?) \|", table, re.M)}
    assert not gone, f"the table has no row of {', '.join(gone)}"
    return re.sub(r"^\| (.+?) \| (.+?) \|", lambda it: f"| {it[1]} | {numbers.get(it[1], it[2])} |", table, flags=re.M)


# Each part that is written: its page, and where it is there.
PARTS = {
    definitions: ("docs/DEFINITIONS.md", r"\n## The headline\n(?:(?!##? ).*\n)*?(?=### )((?:(?!##? ).*\n)*)"),
    theorem: ("docs/PROVED.md", r"\n### What `Headline` says\n\n((?:(?!#).*\n)*)(?=#)"),
    evidence: ("docs/PROVED.md", r"\n## The evidence in numbers\n\n((?:\|.*\n)+)"),
}


def rewritten(part, tree):
    """The page of a part, its text, and its text with what is written there."""
    page, place = PARTS[part]
    text = tree.read(page)
    start, end = re.search(place, text).span(1)
    return page, text, text[:start] + part(tree, text[start:end]) + text[end:]


def differences(tree):
    """The first line of each part that is not as it is written."""
    for part in PARTS:
        page, text, wanted = rewritten(part, tree)
        lines = enumerate(zip_longest(text.splitlines(), wanted.splitlines()), 1)
        yield from [f"{page}:{number}: `python3 tests/pages write` writes '{new}' here" for number, (line, new) in lines if line != new][:1]


def write(tree):
    for part in PARTS:
        page, _, wanted = rewritten(part, tree)
        (tree.top / page).write_text(wanted, encoding="utf-8")
