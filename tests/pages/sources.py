"""The crates of a tree: the definitions of specs/, the contracts of src/, and which names each of them uses."""
import re
from collections import namedtuple
from functools import cached_property, lru_cache
from graphlib import TopologicalSorter
from itertools import takewhile
from pathlib import Path

from edited.functions import declarations_of

NAME = re.compile(r"[^\W\d]\w*'*(?:\.[^\W\d]\w*'*)*")
USE = re.compile(r"(?:ghost )?use Rattle\.([\w.]+?)(?:\.\{(.*)\})?(?: as (\w+))?;?$")
MODULE = re.compile(r"^module .*((?:\n(?:  .*|--.*|))*)", re.M)
HEAD = re.compile(r"^(?:unfoldable |abbrev |record |data |pub )+(\S+)")
ENSURES = re.compile(r"\bensures(?: (\w+))? {")

Definition = namedtuple("Definition", "key crate module name line comment text")
Clause = namedtuple("Clause", "crate path function name text")


class Scope:
    """What the names of a file mean: full names below 'Rattle.', by the name or the alias that the file uses. And the comment at the head
    of the file."""

    def __init__(self, head=""):
        self.names, self.modules, self.head = {}, {}, head

    def read(self, line):
        """Takes in an import, if the line is one."""
        if found := USE.match(line.strip()):
            path, listed, alias = found.groups()
            if listed is None:
                self.modules[alias or path.rsplit(".", 1)[1]] = path
            for name, other in re.findall(r"([^\s,]+)(?: as ([^\s,]+))?", listed or ""):
                self.names[other or name] = f"{path}.{name}"
        return bool(found)

    def full(self, word):
        """The full name of a word, dots and all; None if it is no name from elsewhere."""
        first, _, rest = word.partition(".")
        if rest and first in self.modules:
            return f"{self.modules[first]}.{rest.partition('.')[0]}"
        return self.names.get(first)


@lru_cache(None)
def read_specs(crate, module, text):
    """The definitions of a file of specs, in order, each with the comment above it, and its scope."""
    lines, found, above = MODULE.sub(lambda it: it[1].replace("\n  ", "\n"), text).splitlines(), [], []
    scope = Scope(" ".join(it.removeprefix("--").strip() for it in takewhile(lambda it: it.startswith("--"), lines)))
    for number, line in enumerate(lines, 1):
        if scope.read(line):
            continue
        head = HEAD.match(line)
        if head and head[1] != "mod" and not (found and head[1] == found[-1].name):
            found.append(Definition(f"{crate}.specs.{module}.{head[1]}", crate, module, head[1], number, " ".join(above), []))
        above = above + [line.removeprefix("--").strip()] if line.startswith("--") else []
        code = re.sub(r"(^|\s)--.*", "", line)
        if found and code.strip():
            found[-1].text.append(code)
    for it in found:
        scope.names.setdefault(it.name, it.key)
    return found, scope


@lru_cache(None)
def read_source(crate, path, text):
    """The code of a file of src without its comments and imports, its scope, and its `ensures` clauses; of a function without any an
    empty one."""
    scope, found = Scope(), []
    lines = [re.sub(r"(^|\s)//.*", "", line) for line in text.splitlines()]
    lines = ["" if scope.read(line) else line for line in lines]
    for it in declarations_of(path, "\n".join(lines)):
        owner = f"{it.trait} for {it.of}" if it.trait else it.of
        contract = "\n".join(lines[it.start - 1:it.body - 1])
        clauses = [(clause[1] or "", block_at(contract, clause.end())) for clause in ENSURES.finditer(contract)]
        found += [Clause(crate, path, "::".join(filter(None, (owner, it.name))), *clause) for clause in clauses or [("", "")]]
    return "\n".join(lines), scope, found


def block_at(code, start):
    """The text from a place after an opening brace to the brace that closes it."""
    end, depth = start, 1
    while depth:
        depth += {"{": 1, "}": -1}.get(code[end], 0)
        end += 1
    return code[start:end - 1]


class Tree:
    """All pages and crates of a repository."""

    def __init__(self, top):
        self.top = Path(top)
        self.pages = ["README.md", *sorted(str(it.relative_to(top)) for it in (self.top / "docs").rglob("*.md"))]
        text = self.read("crates.txt")
        self.named = {crate: below.split() for crate, below in re.findall(r"^(\w+)[^:\n#]*:(.*)", text, re.M)}
        layers = re.findall(r"^# (.+)\n((?:\w.+\n|\n)*)", text, re.M)
        self.layers = {title: re.findall(r"^\w+", crates, re.M) for title, crates in layers if crates.strip()}
        self.crates = [it for crates in self.layers.values() for it in crates]

    def read(self, path):
        return (self.top / path).read_text(encoding="utf-8")

    def files(self, pattern, crates=None):
        """The files that a pattern finds below each crate: crate, path in the repository, and text."""
        for crate in crates or self.crates:
            for path in sorted((self.top / "crates" / crate).glob(pattern)):
                yield crate, path.relative_to(self.top), path.read_text(encoding="utf-8")

    @cached_property
    def specs(self):
        """The definitions of each file of specs, and its scope, by the name of its module."""
        return {f"{crate}.specs.{path.stem}": read_specs(crate, path.stem, text)
                for crate, path, text in self.files("specs/**/*.antt")}

    @cached_property
    def definitions(self):
        return {it.key: it for found, _ in self.specs.values() for it in found}

    @cached_property
    def sources(self):
        return {path: read_source(crate, path, text) for crate, path, text in self.files("src/**/*.rt")}

    @cached_property
    def clauses(self):
        return [it for *_, clauses in self.sources.values() for it in clauses]

    def used_by(self, text, scope):
        """The full names that a text uses, of operators those of our own."""
        operators = {full for name, full in scope.names.items()
                     if "◌" in name and full in self.definitions and name.strip("◌") in text}
        return operators | {full for word in NAME.findall(text) if (full := scope.full(word))}

    def closure(self, clauses):
        """The definitions that these clauses rest on."""
        return self.followed(set().union(*[self.used_by(it.text, self.sources[it.path][1]) for it in clauses]))

    def unreached(self):
        """The definitions on which no clause, law or ghost field of the sources rests, in order."""
        reached = self.followed(set().union(*[self.used_by(*it[:2]) for it in self.sources.values()]))
        return [key for key in self.definitions if key not in reached]

    def followed(self, names):
        """The definitions that these names lead to."""
        reached, todo = set(), set(names)
        while todo:
            key = todo.pop()
            if key in self.definitions and key not in reached:
                reached.add(key)
                it = self.definitions[key]
                todo |= self.used_by("\n".join(it.text), self.specs[f"{it.crate}.specs.{it.module}"][1])
        return reached

    def in_order(self, crate):
        """The definitions of a crate, each file's after those of the files that it uses."""
        uses = {module: sorted({".".join(it.split(".")[:3]) for it in [*scope.names.values(), *scope.modules.values()]} - {module})
                for module, (_, scope) in self.specs.items() if module.startswith(f"{crate}.")}
        return [it.key for module in TopologicalSorter(uses).static_order() if module in uses for it in self.specs[module][0]]
