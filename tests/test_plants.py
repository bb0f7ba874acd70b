"""Plants: mistakes, put one by one into a copy of what is tested. Each makes the test fail that it names. They are entries of the files
tests/PART/plants/FILE.edits, one for each FILE in desks, page/parts or crates/zh_file/src, with a blank line between entries:

  name: torn_line_is_sent
  seen by: test_desks.py::test_torn_line
  old: the right text, which occurs once in the file; for several lines give each its own 'old:'
  new: the wrong text, likewise
  says: what the test then reports; not in tests/real_file. A test that only waits in vain reports 'not after: ' and what it waits for

If a mistake can't change anything that a person sees, it has 'changes nothing:' and the reason instead of 'seen by:' and 'says:', and no
test is run for it. As a control, each test that a plant names must pass on a copy without a mistake.

A run that sees all mistakes of desks or of the page writes the sum of their files to tests/plants.passed. While the sum stays,
`make test` tries IN_TURN of them, different ones after each commit; if the sum changes, it tries all. Those of tests/real_file are slow."""
import contextlib
import hashlib
import os
import re
import shutil
import subprocess
import sys
from collections import namedtuple

import pytest

import seals
from edited.edit import entries_of
from places import TOP

PASSED = TOP / "tests/plants.passed"
IN_TURN = 6
UNREAD = {".md", ".pyc", "__pycache__", "out"}

# The fields that a plant may have.
FORMS = [{"old", "new", "seen by", "says"}, {"old", "new", "changes nothing"}]
# How a test fails that sees a mistake: by what it compares, or by a file or an end that does not come. Other faults are its own.
ERRORS = r"AssertionError|Failed|FileNotFoundError|PermissionError|BrokenPipeError|subprocess\.\w+"
SEEN = re.compile(rf"= FAILURES =(?:.|\n)*?^E   (?:(?:{ERRORS}): (.*)(?:\nE   (assert .*))?|(assert .*))", re.M)
LATE = re.compile(r"not after [\d.]+ seconds|^.* timed out after [\d.]+ seconds")


class Part(namedtuple("Part", "name folder whole environment forms marks")):
    """What the plants of a folder of tests are about: the folder whose files are changed, the one that is copied for it, what a test finds
    in its environment so that it runs on the copy, and the forms and the marks of its plants."""

    def plants(self):
        """The fields of each plant, by its name, and the file that it changes."""
        found = {}
        for file in sorted((TOP / "tests" / self.name / "plants").glob("*.edits")):
            for name, text in entries_of(file).items():
                plant = {}
                for field, rest in (line.split(":", 1) for line in text.splitlines()):
                    plant[field] = f"{plant[field]}\n{rest[1:]}" if field in plant else rest[1:]
                assert plant.keys() in self.forms and name not in found, f"{file}: {name} has not the fields of a plant, or is there twice"
                found[name] = {"file": file.stem, **plant}
        return found

    def sum(self):
        """A sum of the files that a mistake is seen by: the scripts, their tests, and what all tests share."""
        folders = [TOP / self.folder.removesuffix("/parts"), TOP / "tests" / self.name]
        found = [it for folder in folders for it in folder.rglob("*") if it.is_file() and not UNREAD & {it.suffix, *it.parts}]
        files = sorted([*found, TOP / "tests/test_plants.py", TOP / "tests/conftest.py"])
        return hashlib.sha256(repr([(str(it.relative_to(TOP)), it.read_bytes()) for it in files]).encode()).hexdigest()[:32]

    def copied(self, room):
        """A copy of what the plants are about, and the folder in it whose files they change."""
        source = os.environ["DESKS"] if self.name == "desks" else TOP / self.whole
        shutil.copytree(source, room / "copy" / self.whole, symlinks=True, ignore=shutil.ignore_patterns("out", ".git"))
        return room / "copy" / self.folder

    def fault(self, test, folder, says=""):
        """What a test reports on the copy, or None if it passes."""
        words = [sys.executable, "-m", "pytest", "-n0", "-x", "--tb=short", "-p", "no:cacheprovider", f"tests/{self.name}/{test}"]
        environment = {**os.environ, **self.environment(test, folder, says), "CI": "has lines of any length"}
        done = subprocess.run(words, cwd=TOP, env=environment, stdout=subprocess.PIPE, stderr=subprocess.STDOUT, text=True)
        if done.returncode == 0:
            return None
        found = SEEN.search(done.stdout)
        assert done.returncode == 1 and found, f"the test has a fault of its own: {done.stdout[-2000:]}"
        return ": ".join(filter(None, found.groups()))


def of_desks(test, folder, says):
    """A mistake may have the test wait in vain: where it does not say for what, the test waits for nothing long."""
    in_vain = says.partition("not after: ")[2]
    if in_vain:
        return {"DESKS": str(folder), "IN_VAIN": in_vain}
    # many nights, what must happen at once, or what soon follows
    patience = "90" if test.startswith("test_stops.py") else "30" if says == "not after" else "60"
    return {"DESKS": str(folder), "PATIENCE": os.environ.get("PATIENCE", patience)}


def of_the_page(test, folder, says):
    page = folder.parent / "index.html"
    page.write_text(seals.SEAL.sealed(folder))
    return {"PAGE": str(page)}


def of_the_operating_system(test, folder, says):
    """The program of the copy is compiled unproved."""
    ran = subprocess.run([folder.parents[1] / "scripts/program"], stdout=subprocess.PIPE, text=True, check=True)
    return {"ZHCOUNT": ran.stdout.strip()}


PARTS = [
    Part("desks", "desks", "desks", of_desks, FORMS, ()),
    Part("page", "page/parts", "page/parts", of_the_page, FORMS, ()),
    Part("real_file", "crates/zh_file", "", of_the_operating_system, [{"old", "new", "seen by"}],
         (pytest.mark.slow, pytest.mark.xdist_group("rt try"))),
]


def kept_sums():
    return dict(line.split() for line in PASSED.read_text().splitlines()) if PASSED.is_file() else {}


def mistakes():
    """All of them. Those of a part that is as it was when all were seen are slow, but for those in turn."""
    counted = subprocess.run(["git", "rev-list", "--count", "HEAD"], cwd=TOP, capture_output=True, text=True).stdout
    found, kept, commits = [], kept_sums(), int(counted or 0)
    for part in PARTS:
        plants = part.plants()
        turns = -(-len(plants) // IN_TURN) if kept.get(part.name) == part.sum() else 1
        for at, (name, plant) in enumerate(plants.items()):
            marks = (*part.marks, pytest.mark.slow) if (at - commits) % turns else part.marks
            found.append(pytest.param(part, plant, id=f"{part.name}-{name}", marks=marks))
    return found


def keep_sums(passed):
    """Writes the sum of each part of whose mistakes all are among the tests that passed."""
    seen = {part.name: part.sum() for part in PARTS
            if passed.issuperset(f"tests/test_plants.py::test_mistake[{part.name}-{it}]" for it in part.plants())}
    if seen:
        PASSED.write_text("".join(f"{name} {it}\n" for name, it in sorted({**kept_sums(), **seen}.items())))


def controls():
    """Each test that a plant names, once. `make test` takes one of each part: there the others run on the same text anyway."""
    found = []
    for part in PARTS:
        for at, test in enumerate(sorted({it["seen by"] for it in part.plants().values() if "seen by" in it})):
            marks = (*part.marks, pytest.mark.slow) if at else part.marks
            found.append(pytest.param(part, test, id=f"{part.name}-{test}", marks=marks))
    return found


def judge(said, says):
    """A fault counts if it is what the plant says. That nothing came for a while counts if the plant says so."""
    assert said is not None, "the test does not see it"
    reported = LATE.sub("not after", said, 1)
    assert reported == said or says.startswith("not after"), f"the test waited in vain, which counts for nothing here: {said}"
    assert says in reported, f"the test reports something else: {reported[:1000]}"  # a page may be among it


@pytest.mark.plants
@pytest.mark.parametrize("part, plant", mistakes())
def test_mistake(part, plant, tmp_path):
    folder = part.copied(tmp_path)
    path, = folder.rglob(plant["file"])
    text = path.read_text()
    assert text.count(plant["old"]) == 1, f"the right text is in {plant['file']} {text.count(plant['old'])} times, not once"
    path.write_text(text.replace(plant["old"], plant["new"]))
    if "seen by" in plant:
        says = plant.get("says", "")
        judge(part.fault(plant["seen by"], folder, says), says)


@pytest.mark.plants
@pytest.mark.parametrize("part, test", controls())
def test_without_a_mistake(part, test, tmp_path):
    assert part.fault(test, part.copied(tmp_path)) is None


@pytest.mark.parametrize("said, says, fault", [
    ("'1 stored 2' is not '1 stored 1'", "is not '1 stored 1'", None),
    ("not after 15 seconds: a copy", "not after: a copy", None),
    (None, "", "does not see it"),
    ("'1 stored 2' is not '1 stored 1'", "another", "reports something else"),
    ("not after 15 seconds: a copy", "not after: an answer", "reports something else"),
    ("not after 15 seconds: a copy", "", "waited in vain"),
    ("not after 15 seconds: a copy", "a copy", "waited in vain"),
    ("Command '['zhcount-desk']' timed out after 60 seconds", "", "waited in vain"),
])
def test_what_counts(said, says, fault):
    with pytest.raises(AssertionError, match=fault) if fault else contextlib.nullcontext():
        judge(said, says)


def test_kept_sums(tmp_path, monkeypatch):
    """A part's sum is kept once all its mistakes were seen; then some in turn are tried until a file changes."""
    monkeypatch.setitem(globals(), "PASSED", tmp_path / "passed")
    desks, tried = PARTS[0], lambda: [it for it in mistakes() if it.id.startswith("desks-") and pytest.mark.slow not in it.marks]
    names = {f"tests/test_plants.py::test_mistake[desks-{it}]" for it in desks.plants()}
    keep_sums(set(sorted(names)[1:]))
    assert kept_sums() == {}
    keep_sums(names)
    assert kept_sums() == {"desks": desks.sum()}
    assert 0 < len(tried()) <= IN_TURN
    monkeypatch.setattr(Part, "sum", lambda part: "another")
    assert len(tried()) == len(names)
