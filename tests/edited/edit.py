"""Files of mistakes, and those that are wrong bodies."""
import re
from functools import cached_property

from edited.functions import functions_of

ENTRY = re.compile(r"name: (\S+)\n((?:.+\n)+)")


def entries_of(path):
    """The entries of a file `NAME.edits`, with a blank line between them: the first line of each is `name: NAME`, the others are its
    text, which ends with a line feed."""
    found = {}
    for block in re.split(r"(?<=\n)\n", path.read_text(encoding="utf-8")):
        entry = ENTRY.fullmatch(block)
        if not entry or entry[1] in found:
            raise ValueError(f"{path} has an entry without a name, a text or a line feed, or two of one name: {block[:80]!r}")
        found[entry[1]] = entry[2]
    return found


class NoLongerApplies(Exception):
    pass


class Edit:
    """A wrong body: a text with a line `file: src/x.rt` and pairs of lines `old: TEXT` and `new: TEXT`, as the toolchain reads it, and
    perhaps a line `# refused at: FUNCTION`, which names a caller in the same crate whose contract refuses it. It is an entry of
    tests/wrong_bodies/CRATE.edits."""

    def __init__(self, name, crate, text):
        self.name, self.crate, self.text = name, crate, text

    def callers(self):
        """The functions that the edit's lines '# refused at' name, for example `row_sums` or `Office::store`."""
        found = []
        for path in re.findall(r"(?m)^# refused at: ([\w:]+)$", self.text):
            of, _, name = path.rpartition("::")
            files = [(it.relative_to(self.crate), it.read_text(encoding="utf-8")) for it in sorted((self.crate / "src").rglob("*.rt"))]
            meant = [it for file, text in files for it in functions_of(str(file), text) if it.name == name and of in ("", it.of)]
            if not meant:
                raise NoLongerApplies(f"the function {path} does not exist")
            found += meant
        return found

    @cached_property
    def changes(self):
        """The file, the old text and the new one of each change."""
        file, found = "", []
        for path, old, new in re.findall(r"(?m)^(?:file: *(.*)|old: ?(.*)\nnew: ?(.*))", self.text):
            file = path or file
            found += [] if path else [(file, old, new)]
        if not found or not all(file and old for file, old, _ in found):
            raise NoLongerApplies("it has no 'file:', 'old:' and 'new:'")
        return found

    def applied(self, texts):
        """The texts, by file, after this edit. A text that is lacking is read from the crate."""
        texts = dict(texts)
        for file, old, new in self.changes:
            if file not in texts and not (self.crate / file).is_file():
                raise NoLongerApplies(f"{file} does not exist")
            text = texts[file] if file in texts else (self.crate / file).read_text(encoding="utf-8")
            if text.count(old) != 1:
                raise NoLongerApplies(f"{file} has an 'old:' text {text.count(old)} times, and not once")
            texts[file] = text.replace(old, new)
        return texts

    @cached_property
    def places(self):
        """For each change the innermost function that it is in, if there is one, and whether it is in the body."""
        found = []
        for file, old, _ in self.changes:
            text = (self.crate / file).read_text(encoding="utf-8")
            line = text[: text.find(old)].count("\n") + 1
            inside = [it for it in functions_of(file, text) if it.start <= line <= it.end] if file.endswith(".rt") else []
            inner = max(inside, key=lambda it: it.start, default=None)
            found.append((inner, inner is not None and line >= inner.body))
        return found

    @property
    def functions(self):
        """The functions that are to refuse the edit: those that it names, else those that it changes."""
        return list(dict.fromkeys(self.callers() or [inner for inner, _ in self.places if inner]))

    @property
    def stands_alone(self):
        """Whether it may change what other functions have to prove, which an edit of a type, a constant or a clause does."""
        return bool(self.callers()) or not all(is_in_body for _, is_in_body in self.places)
