"""What the pages cite: functions and clauses, files, edits, cases, crates, layers, and each other by links."""
import os
import re
from collections import defaultdict
from pathlib import Path

from pages.markdown import anchors_of, links_of, prose_of, rows_of, sections_of

PROVED, ARCHITECTURE = "docs/PROVED.md", "docs/ARCHITECTURE.md"
# What a word looks like that names a file, and where that file can be.
FILE = re.compile(r"(?!.*/out/)((crates|docs|tests|scripts|bench|examples|page|desks|(zh_\w+/)?(src|specs|proofs|data))(/[\w.*-]+)+"
                  r"|[\w*]+\.(edit|case|antt|rt))")
PLACES = ("{}", "crates/{}", "crates/*/{}", "crates/*/[!o]*/**/{}", "tests/**/{}")
NAME = re.compile(r"[a-z0-9]+(_[a-z0-9]+)+|([A-Z][a-z0-9]+){2,}")
LINKED = re.compile(r"\[`([\w:]+)`\]\(([^()\s#]+\.(?:rt|antt))\)")
DEFINED = re.compile(r"\b(?:(?:abbrev|data|enum|fn|pub|record|struct|trait|type) )+(\w+)")


def promised(tree):
    """The clauses that PROVED's column `Carried by` names, under a heading with their crates, and what is wrong there. A ';' parts
    entries. Each has functions in backticks, or types whose functions are all meant, and then names of clauses, unless all are meant."""
    found, faults, by_name = [], [], defaultdict(list)
    for it in tree.clauses:
        for name in {it.function, it.function.rpartition("::")[0], it.function.partition(" for ")[2]}:
            by_name[name].append(it)
    for section in sections_of(tree.read(PROVED)):
        crates, rows = re.findall(r"`(zh\w*)`", section.title), [it for it in rows_of(section) if "Carried by" in it[1]]
        for line, entry in ((line, it.strip()) for line, row in rows for it in row["Carried by"].split(";")):
            names, others = re.findall("`([^`]+)`", entry), re.sub(r"`[^`]+`|\([^)]*\)", "", entry)
            clauses = {*re.findall(r"\w+", others)}
            faults += [] if names else [f"{PROVED}:{line}: '{entry}' names no function"]
            for name in names:
                meant = [it for it in by_name[name] if it.crate in crates] or by_name[name] * ("::" in name)
                gone = [f"has no clause {it}" for it in clauses - {it.name for it in meant}] if meant else ["is not there"]
                faults += [f"{PROVED}:{line}: {name} {it}" for it in gone]
                found += [it for it in meant if not clauses or it.name in clauses]
    return found, faults


def things(tree):
    """Files, edits, cases, crates and functions that a page names in backticks and that do not exist; and names of two words that
    ARCHITECTURE has and no crate."""
    functions = {it.function.split("for ")[-1] for it in tree.clauses}
    crates = "\n".join(text for folder in ("src", "specs", "proofs") for *_, text in tree.files(f"{folder}/**/*.*t"))

    def is_there(word, page):
        if re.fullmatch(r"zh_\w+|zhcount", word):
            return word in tree.crates
        if FILE.fullmatch(word):
            return any(any(tree.top.glob(it.format(word))) for it in PLACES)
        if re.fullmatch(r"[A-Z]\w+::[a-z]\w+", word):
            return word in functions
        return page != ARCHITECTURE or not NAME.fullmatch(word) or word in crates

    for page in tree.pages:
        for number, line in enumerate(prose_of(tree.read(page)).splitlines(), 1):
            yield from (f"{page}:{number}: {it} does not exist" for it in re.findall(r"`([^`\s]+)`", line) if not is_there(it, page))


def places(tree):
    """Functions, types and definitions that a link of a page names, and that its file does not define."""
    methods = {(tree.top / it.path, it.function.split(" for ")[-1]) for it in tree.clauses}
    for page in tree.pages:
        for number, line in enumerate(tree.read(page).splitlines(), 1):
            for name, link in LINKED.findall(line):
                file = tree.top / os.path.normpath(f"{os.path.dirname(page)}/{link}")
                if file.exists() and (file, name) not in methods and name not in DEFINED.findall(file.read_text(encoding="utf-8")):
                    yield f"{page}:{number}: {link} does not define {name}"


def lost_links(folder, patterns=("**/*.md", "**/*.html")):
    """The links of the pages in a folder that do not lead to a file in it, or to a heading of that where they name one."""
    folder = Path(os.path.abspath(folder))
    pages = sorted(path for pattern in patterns for path in folder.glob(pattern))
    yield from [] if pages else [f"{folder} has no page"]
    for page in pages:
        for line, link in links_of(page.read_text(encoding="utf-8"), page.suffix == ".html"):
            target, _, anchor = link.partition("#")
            path = Path(os.path.normpath(page.parent / target)) if target else page
            is_there = path.exists() and folder in path.parents
            anchors = anchors_of(path.read_text(encoding="utf-8")) if is_there and path.suffix in (".md", ".html") else []
            if not is_there or anchor and anchor not in anchors:
                yield f"{page.relative_to(folder)}:{line}: {link} leads nowhere"


def layers(tree):
    """Where crates.txt lists a crate before one that it uses, and where ARCHITECTURE has different layers, or says of a crate what its
    root file does not begin with."""
    said, before = {}, set()
    for crate, below in tree.named.items():
        yield from (f"crates.txt lists {crate} before {it}, which it uses" for it in below if it in tree.named and it not in before)
        before.add(crate)
    for section in sections_of(tree.read(ARCHITECTURE)):
        for line, (crate, sentence, *_) in ((line, row.values()) for line, row in rows_of(section) if "Crate" in row):
            said.setdefault(section.title.lower(), []).append(crate.strip("`"))
            root = "".join(text for name in ("lib", "main") for *_, text in tree.files(f"src/{name}.rt", [crate.strip("`")]))
            if not re.match(rf"{re.escape(sentence)}(?!\w)", " ".join(re.findall("(?m)^//! *(.*)", root))):
                yield f"{ARCHITECTURE}:{line}: the root file of {crate} does not begin with '{sentence}'"
    for title in {**tree.layers, **said}:
        crates, found = (" ".join(it.get(title, [])) for it in (tree.layers, said))
        if crates != found:
            yield f"{ARCHITECTURE}: the crates of '{title}' are '{found}', those of crates.txt '{crates}'"


def drawing(tree):
    """The layers that layers.svg does not show as crates.txt has them: each with its crates and the layers that it uses."""
    drawn = " ".join(re.findall("<text[^>]*>(.*)</text>", tree.read("docs/layers.svg")))
    for title, crates in tree.layers.items():
        below = {it for crate in crates for it in tree.named[crate]}
        uses = [it.partition(":")[0] for it, inside in tree.layers.items() if it != title and below & {*inside}] or ["none of these"]
        layer = f"{title.replace(':', '', 1)} {' '.join(crates)} {', '.join(uses)}"
        if layer not in drawn:
            yield f"docs/layers.svg does not show: {layer}"


def trusted(tree):
    """Where README trusts other libraries of the kit than those that crates.txt names: some call the system, with no clause."""
    used = set().union(*tree.named.values()) - set(tree.named)
    said = re.search(r"do what their contracts say:([^.]*)", tree.read("README.md"))
    listed = set(re.findall(r"`(\w+)`", said[1])) if said else set()
    for it in sorted(used ^ listed):
        yield f"README.md: it trusts {it}, which no crate uses" if it in listed else f"README.md: it does not say that {it} is trusted"
