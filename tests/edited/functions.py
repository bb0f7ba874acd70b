"""Where the functions of a source file are, by the layout that `rt fmt` gives it: a body ends at the first `}` that is indented like its
`fn`."""
import re
from collections import namedtuple

HEAD = re.compile(r'( *)(?:pub(?:\([a-z]+\))? )?(?:(?:final|const|unsafe|ghost|extern "C") )*fn (\w+)')
BLOCK = re.compile(r"( *)(?:unsafe )?(impl|trait|pub trait|pub\(crate\) trait)\b(.*)")
CLAUSE = re.compile(r" *(requires|ensures|ghost|decreases)\b")


class Function(namedtuple("Function", "file name of trait start body end")):
    """A function, with the type of its impl, for example `Totals`, and the trait, if it has these; and its lines, from 1: of `fn`, of the
    first after the contract, and of the end."""

    @property
    def module(self):
        """The path of its module in the crate, which is empty at the crate's root."""
        path = re.sub(r"^src/|\.rt$", "", self.file).replace("/", "::")
        return "" if path in ("lib", "main") else path

    @property
    def path(self):
        """How the prover takes its name: with its module, or for a method with its type and trait."""
        return "::".join(filter(None, (self.of + self.trait or self.module, self.name)))


def body_of(lines, start, indent):
    """The first line of a function's body and the last one. Where it has no body, the first is the one after the contract and the last
    the one before."""
    in_clauses = False
    for at in range(start, len(lines)):
        line = lines[at].rstrip()
        if at > start and HEAD.match(line):
            return at, at - 1
        in_clauses = in_clauses or CLAUSE.match(line) is not None
        if line == indent + "{" or not in_clauses and line.endswith("{"):
            return at, lines.index(indent + "}", at)
        if line == indent + "{}":
            return at, at
        if not in_clauses and line.endswith(";"):
            return at + 1, at
    return len(lines), len(lines) - 1


def impl_of(head):
    """The type and the trait of an impl's or a trait's first line, without their modules and what is in brackets."""
    while re.search(r"<[^<>]*>", head):
        head = re.sub(r"<[^<>]*>", "", head)
    trait, of = re.match(r"\W*(?:([\w:]+) for )?\W*((?:\w|::)*)", head).groups("")
    return of.rpartition("::")[2], trait.rpartition("::")[2]


def declarations_of(file, text):
    """The functions of a file, also those of a trait that have no body."""
    lines, found, block = text.split("\n"), [], ("", "", "")
    for at, line in enumerate(lines):
        opens, head = BLOCK.match(line), HEAD.match(line)
        if opens:
            block = (opens[1], *impl_of(opens[3]))
        elif block[1] and line.rstrip() == block[0] + "}":
            block = ("", "", "")
        elif head:
            body, end = body_of(lines, at, head[1])
            found.append(Function(file, head[2], block[1], block[2], at + 1, body + 1, end + 1))
    return found


def functions_of(file, text):
    """The functions of a file that have a body."""
    return [it for it in declarations_of(file, text) if it.body <= it.end]


def needed(line, text):
    """The line without the names of clauses that this text does not use, if it is a `ghost use` of names."""
    if not (found := re.fullmatch(r"( *ghost use [\w.+]+\.\{)(.*)\};", line)):
        return line
    names = [it for it in found[2].split(", ") if all(part in text for part in it.strip("◌").split("◌"))]
    return f"{found[1]}{', '.join(names)}}};" if names else ""


def without_bodies(text):
    """The text of a library as the crates above it see it: its types, and the public functions' signatures and clauses. Left out are
    comments, imports, what only private functions name, private functions and bodies; a method of a trait or of its impl is public."""
    lines, gone = text.split("\n"), set()
    for it in functions_of("", text):
        is_public = it.trait or re.match(r" *pub (?!\()", lines[it.start - 1])
        gone.update(range(it.body if is_public else it.start, it.end + 1))
    kept = [it for at, it in enumerate(lines, 1) if at not in gone and not re.match(r" *(//|use |mod |$)", it)]
    stated = "\n".join(it for it in kept if not re.match(r" *ghost use ", it))
    return "\n".join(filter(None, (needed(it, stated) for it in kept)))
