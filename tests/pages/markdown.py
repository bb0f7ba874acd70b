"""What the rules read in a page: its blocks, its prose, its sections, the rows of its tables, its links."""
import re
from collections import namedtuple
from textwrap import fill

BLOCK = re.compile(r"^(?P<indent> *)```(?P<fence>.*)\n(?P<fenced>(?:.*\n)*?) *```.*|(?:(?<=\n\n)|\A)(?:    .*\n|\n(?=    ))+", re.M)
CODE = re.compile(r"`` .*? ``|``.*?``|`[^`\n]*`")
LINK = re.compile(r"\]\(([^()\s]+)\)")
LINK_OF_HTML = re.compile(r"(?:href|src)=[\"']([^\"'{$]+)[\"']")
CELL = re.compile(r"(?<!\\)\|")

# A block: the number of its first line, and what its fence says, if it has one; and a section.
Block = namedtuple("Block", "line fence lines")
Section = namedtuple("Section", "level title line lines")


def blocks_of(text):
    """The blocks of a page, which are fenced or indented."""
    for it in BLOCK.finditer(text):
        depth, opening, fence = (4, 0, "") if it["fence"] is None else (len(it["indent"]), 1, it["fence"].strip())
        lines = [line[depth:] for line in (it["fenced"] or it[0]).rstrip("\n").split("\n")]
        yield Block(text.count("\n", 0, it.start()) + 1 + opening, fence, lines)


def prose_of(text):
    """A page without its blocks, line by line where it was."""
    return BLOCK.sub(lambda it: "\n" * it[0].count("\n"), text)


def code_of(text):
    """The text in backticks and in blocks."""
    blocks = [line for block in blocks_of(text) for line in block.lines]
    return "\n".join(blocks + [it.strip("`") for it in CODE.findall(prose_of(text))])


def sections_of(text):
    """The sections of a page; the first, of level 0, is the text before all headings."""
    found, is_in_fence = [Section(0, "", 1, [])], False
    for number, line in enumerate(text.splitlines(), 1):
        is_in_fence ^= line.lstrip().startswith("```")
        if not is_in_fence and (heading := re.match(r"(#+) +(.*)", line)):
            found.append(Section(len(heading[1]), heading[2].strip(), number, []))
        found[-1].lines.append(line)
    return found


def rows_of(section):
    """Each row of a section's tables: its line, and its cells by their titles."""
    head = None
    for number, line in enumerate(section.lines, section.line):
        cells = [it.strip() for it in CELL.split(line)[1:-1]] if line.startswith("|") else None
        if not cells or not head:
            head = cells
        elif not set(line) <= set("|- :"):
            yield number, dict(zip(head, cells))


def anchors_of(text):
    """What links may name in a page: its headings in lower case, without marks, with a dash for each blank; a heading
    that comes again gets a number."""
    titles = [re.sub(r"\[([^\]]*)\]\([^)]*\)", r"\1", it.title).lower() for it in sections_of(text)[1:]]
    names = [re.sub(r"[^\w\- ]", "", it).replace(" ", "-") for it in titles]
    return [f"{it}-{names[:at].count(it)}" if it in names[:at] else it for at, it in enumerate(names)]


def links_of(text, is_html=False):
    """Where a page links to, and the line of each link; other machines aside."""
    text = text if is_html else CODE.sub(lambda it: " " * len(it[0]), prose_of(text))
    for found in (LINK_OF_HTML if is_html else LINK).finditer(text):
        if not re.match("[a-z]+:", found[1]):
            yield text.count("\n", 0, found.start()) + 1, found[1]


def wrapped(text):
    """An item of a list in lines of 80 characters, none of which begins as an item or a heading would."""
    kept = re.sub(r" (?=[-+*#>] |\d+[.)])", "\0", text)
    return fill(kept, 80, subsequent_indent="  ", break_long_words=False, break_on_hyphens=False).replace("\0", " ")
