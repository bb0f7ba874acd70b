"""The crates of a repository: which others each uses, where its library is, and the sums of what its wrong bodies are refused for."""
import hashlib
import re
import subprocess
from functools import cached_property
from pathlib import Path

from edited.edit import Edit, entries_of
from edited.functions import without_bodies

PARTS = ("src", "specs", "proofs")
# A line of a comment: what is refused does not depend on it.
COMMENT = re.compile(r"(?m)^[ \t]*(?://|--).*\n")
# What a type derives, and of that what decides no goal of other code: without it the code that uses it does not compile.
DERIVES = re.compile(r"(?m)(?<=^#\[derive\()(.*)(?=\)\]$)")
DECIDES_NOTHING = {"Debug", "PartialEq", "Eq"}


def sum_of(text):
    return hashlib.sha256(text.encode()).hexdigest()


def words_in(path):
    return path.read_text(encoding="utf-8").split() if path.is_file() else []


class Tree:
    def __init__(self, top):
        self.top, lines = Path(top), (Path(top) / "crates.txt").read_text(encoding="utf-8")
        self.named = {name: deps.split() for name, deps in re.findall(r"(?m)^\s*(\w+)[^:#\n]*:([^#\n]*)", lines)}
        self.uses = {name: [it for it in deps if it in self.named] for name, deps in self.named.items()}

    def folder(self, crate):
        return self.top / "crates" / crate

    def below(self, *crates):
        """The crates that these use, directly or not, lowest first; none of these, unless another uses it."""
        found, rest = set(), [used for it in crates for used in self.uses[it]]
        while rest:
            name = rest.pop()
            if name not in found:
                found.add(name)
                rest += self.uses[name]
        return [it for it in self.named if it in found]

    def edits(self, crate):
        """The wrong bodies of a crate."""
        path = self.top / f"tests/wrong_bodies/{crate}.edits"
        found = entries_of(path) if path.is_file() else {}
        return [Edit(name, self.folder(crate), text) for name, text in found.items()]

    def gravest(self, crate):
        """Its wrong bodies that tests/wrong_bodies/gravest names, each with a reason."""
        path = self.top / "tests/wrong_bodies/gravest"
        lines = re.findall(r"(?m)^(\w+)/(\S+) +\S.*", path.read_text(encoding="utf-8")) if path.is_file() else []
        named, edits = {name for of, name in lines if of == crate}, {it.name: it for it in self.edits(crate)}
        if named - set(edits):
            raise ValueError(f"{path} names {crate}/{min(named - set(edits))}, which is no wrong body")
        return [edits[it] for it in sorted(named)]

    @cached_property
    def with_edits(self):
        return [it for it in self.named if self.edits(it)]

    def files(self, crate, *parts):
        """The files of these parts of a crate, by their paths in it."""
        paths = [it for part in parts for it in sorted((self.folder(crate) / part).rglob("*")) if it.is_file()]
        return [(str(it.relative_to(self.folder(crate))), it.read_bytes().decode(errors="backslashreplace")) for it in paths]

    def without_comments(self, crate, *parts):
        return [(path, COMMENT.sub("", text)) for path, text in self.files(crate, *parts)]

    def deciding(self, crate, *parts):
        """Its files without comments, and without what is derived that decides nothing."""
        return [(path, DERIVES.sub(lambda it: ", ".join(name for name in it[1].split(", ") if name not in DECIDES_NOTHING), text))
                for path, text in self.without_comments(crate, *parts)]

    @cached_property
    def logic(self):
        """The toolchain's line without the name of the kit: two kits of one logic prove the same."""
        version = subprocess.run(["rt", "version"], stdout=subprocess.PIPE, text=True, check=True).stdout.strip()
        return version.partition("logic ")[2] or version

    def stated(self, crate):
        """What the crates above see of a crate: its specs, its lemmas for callers, and its library's text without bodies."""
        lemmas = [it for it in self.deciding(crate, "proofs") if "CallerLemmas" in it[0]]
        return [*self.deciding(crate, "specs"), *lemmas, *((path, without_bodies(text)) for path, text in self.deciding(crate, "src"))]

    def sums(self, crates, edits=None):
        """For each crate the sum of all that its wrong bodies, or these, are refused for. Comments, a derived `Debug` or `PartialEq`, and
        the folders of crates and edits count for nothing."""
        stated, found = {it: self.stated(it) for it in self.below(*crates)}, {}
        for crate in crates:
            texts = sorted((f"{it.name}.edit", it.text) for it in (self.edits(crate) if edits is None else edits))
            below = [(it, stated[it]) for it in self.below(crate)]
            found[crate] = sum_of(repr((self.logic, self.named[crate], self.deciding(crate, *PARTS), texts, below)))[:32]
        return found

    def library(self, crate):
        return self.folder(crate) / f"out/rlib/{crate}.rlib"

    def library_sum(self, crate):
        """The sum of all that a crate's library is made from."""
        return sum_of(repr([self.logic, *((it, self.named[it], self.files(it, *PARTS)) for it in [*self.below(crate), crate])]))

    def note(self, crate):
        """Notes, in its folder, which the toolchain removes before it makes it anew, that the library is made from the sources of now."""
        (self.library(crate).parent / "sources").write_text(self.library_sum(crate) + "\n", encoding="utf-8")

    def is_noted(self, crate):
        return words_in(self.library(crate).parent / "sources") == [self.library_sum(crate)]

    def whole_sum(self):
        """The sum of the sources of all crates."""
        return sum_of(repr([(it, self.files(it, *PARTS)) for it in self.named]))

    def passed(self):
        """For each crate the sum at which all of its wrong bodies were refused, as tests/edits.passed keeps it."""
        words = words_in(self.top / "tests/edits.passed")
        return dict(zip(words[::2], words[1::2]))

    def differing(self):
        passed, sums = self.passed(), self.sums(self.with_edits)
        return [it for it in self.with_edits if passed.get(it) != sums[it]]

    def keep_passed(self, crate, sum):
        # (another run may have kept others since)
        kept = {**self.passed(), crate: sum}
        text = "".join(f"{it} {kept[it]}\n" for it in self.with_edits if it in kept)
        (self.top / "tests/edits.passed").write_text(text, encoding="utf-8")
