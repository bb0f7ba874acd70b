"""How the pages are written: how long their lines are, and whether the German pages say what the English ones say."""
import re
from collections import Counter

from pages.markdown import CODE, blocks_of, links_of, prose_of, sections_of

GERMAN, MOST_CHARACTERS = "docs/de/", 80
NUMBER = re.compile(r"\d[\d,.'’]*\d|\d")


def long_lines(tree):
    """Lines with too many characters that are not a row of a table, a block or a link."""
    for page in tree.pages:
        for number, line in enumerate(prose_of(tree.read(page)).split("\n"), 1):
            if len(line) > MOST_CHARACTERS and not line.startswith("|") and "](" not in line:
                yield f"{page}:{number}: {len(line)} characters: {line}"


def place_of(link, translated):
    """The file to which a link leads, and the heading, unless this is of a page that has headings in both languages."""
    file, _, heading = link.partition("#")
    name = file.rpartition("/")[2]
    return name if name in translated else f"{name}#{heading}"


def features(section, translated):
    """What must be the same in both languages, by its name."""
    text = "\n".join(section.lines)
    prose = prose_of(text)
    plain = re.sub(r"\]\([^()\s]+\)", "]", CODE.sub("", prose))
    return {
        "block": Counter("\n".join([it.fence, *it.lines]) for it in blocks_of(text)),
        "row of a table": Counter("|" for it in section.lines if it.startswith("|")),
        "item": Counter(re.findall(r"^(?:[-*]|\d+\.) ", prose, re.M)),
        "word in backticks": Counter(CODE.findall(prose)),
        "link": Counter(place_of(it, translated) for _, it in links_of(text)),
        "number": Counter(re.sub("[,'’]", "", it) for it in NUMBER.findall(plain)),
    }


def translations(tree):
    """What a page or a section has in one language and not in the other, and ß, which is not written in Switzerland."""
    pages = [it for it in tree.pages if it.startswith(GERMAN)]
    translated = ["", *(it.removeprefix(GERMAN) for it in pages)]
    for german in pages:
        english = german.replace(GERMAN, "docs/")
        found, wanted = (sections_of(tree.read(it)) if it in tree.pages else [] for it in (german, english))
        if [it.level for it in found] != [it.level for it in wanted]:
            yield f"{german}: its headings are not those of {english}"
            continue
        yield from (f"{german}:{it.line}: ß in this section" for it in found if "ß" in "".join(it.lines))
        for one, other in zip(found, wanted):
            here, there = features(one, translated), features(other, translated)
            for what in here:
                for word, more in (("not", here[what] - there[what]), ("only", there[what] - here[what])):
                    yield from (f"{german}:{one.line}: {what} {word} in {english}:{other.line}: {it}, {more[it]} times" for it in more)
