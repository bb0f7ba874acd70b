"""tests/edits on a small tree of its own, tests/edited/small: it says of each kind of wrong body what it is, and tries the crates that
changed. The prover is asked in one test; else tests/edited/kit says what it said."""
import os
import re
import shutil
import subprocess

import pytest

from edited.edit import entries_of
from places import TOP

EDITED = TOP / "tests/edited"
KIT = EDITED / "kit/bin"
LOW = "crates/zh_low/src/lib.rt"
# The wrong bodies, and of those that are not refused what tests/edits says.
WRONG = entries_of(EDITED / "small.edits")
OTHERS = {name: said for name, text in WRONG.items() for said in re.findall(r"(?m)^# is: (.*)", text)}
pytestmark = [pytest.mark.beside, pytest.mark.xdist_group("prover")]


class Small:
    """The small tree in a folder, with some wrong bodies, and what tests/edits says of it, with these programs before all others."""

    def __init__(self, top, names=(), of=EDITED / "small", programs=KIT):
        # rt takes no source that no crate of this repository lists: there each file's name ends in .small.
        self.top = shutil.copytree(of, top, copy_function=lambda here, there: shutil.copy(here, re.sub(r"\.small$", "", there)))
        self.wrong, self.environment = self.top / "tests/wrong_bodies", {**os.environ, "PATH": f"{programs}:{os.environ['PATH']}"}
        self.wrong.mkdir(parents=True, exist_ok=True)
        self.put(*names)

    def put(self, *names):
        for crate, name in (it.split("/") for it in names):
            file, entry = self.wrong / f"{crate}.edits", f"name: {name}\n{WRONG[f'{crate}/{name}']}"
            file.write_text(f"{file.read_text()}\n{entry}" if file.exists() else entry)

    def says(self, status, *texts, words=("--all",)):
        ran = subprocess.run([TOP / "tests/edits", "--top", self.top, *words], stdin=subprocess.DEVNULL, stdout=subprocess.PIPE,
                             stderr=subprocess.STDOUT, text=True, env=self.environment)
        assert ran.returncode == status, ran.stdout
        for text in texts:
            assert text in ran.stdout
        return ran.stdout

    def change(self, path, old, new):
        path = self.top / path
        assert old in path.read_text()
        path.write_text(path.read_text().replace(old, new))


@pytest.fixture(scope="module")
def tried(tmp_path_factory):
    """The small tree after a run that refused its wrong bodies."""
    tree = Small(tmp_path_factory.mktemp("tried") / "tree", [it for it in WRONG if it not in OTHERS])
    tree.says(0, "6 passed, 0 failed", "zh_low: 5 of 5 refused at a goal of their own, in 4 checks")
    return tree.top


@pytest.fixture
def tree(tried, tmp_path):
    return Small(tmp_path / "tree", of=tried)


@pytest.mark.parametrize("programs, left_out", [(f"{KIT}:", "none"), ("", "\n# like ")], ids=["stand-in", "prover"])
def test_kinds(tmp_path, programs, left_out):
    """Each wrong body is what its entry says, and the prover, asked of those that are not like others, says what the stand-in says."""
    names = [it for it, text in WRONG.items() if left_out not in text]
    others = [it for it in names if it in OTHERS]
    listening = tmp_path / "setpriv"
    listening.write_text(f'#!/bin/bash\n{shutil.which("setpriv")} "$@" 2>&1 | tee {tmp_path}/$$.heard\nexit "${{PIPESTATUS[0]}}"\n')
    listening.chmod(0o755)
    Small(tmp_path / "tree", names, programs=f"{programs}{tmp_path}").says(
        1, f"\n{len(names) - len(others)} passed, {len(others)} failed\n", *(f"\nFAIL  {it}: {OTHERS[it]}" for it in others))
    heard = "\n".join(it.read_text() for it in tmp_path.glob("*.heard"))
    assert [it for name in names for it in re.findall(r"(?m)^# said: (.*)", WRONG[name]) if f"\n{it}" not in f"\n{heard}"] == [], heard


def test_libraries(tree):
    """Libraries that somebody has just built are taken where the sources are as they were before."""
    note = tree.top / "crates/zh_low/out/rlib/sources"
    note.unlink()
    tree.says(0, "the sources changed", words=["--proved", "0"])
    assert not note.exists()
    tree.says(0, words=["--proved", tree.says(0, words=["--sum"]).strip()])
    assert note.exists()


def test_gravest(tree):
    """They are tried in crates that did not change, without a first check."""
    gravest = tree.wrong / "gravest"
    gravest.write_text("A list.\n\nzh_low/next.adds_two  it is not the next\nzh_low/step_of_three  it steps too far\n")
    tree.says(0, "none; of the others the 2 gravest", "zh_low: 2 of 2 refused at a goal of their own, in 2 checks", words=[])
    gravest.write_text("zh_low/next.adds_three  it is not the next\n")
    tree.says(1, "names zh_low/next.adds_three, which is no wrong body", words=["--differ"])


@pytest.mark.parametrize("path, old, new, which", [
    ("src/lib.rt", "    n + 1", "    1 + n", "zh_low"),
    ("specs/Next.antt", "{ℕ, ", "{ℤ, ℕ, ", "zh_low zh_high"),
    ("src/lib.rt", "n ≤ 90", "n ≤ 91", "zh_low zh_high"),
    ("src/lib.rt", "fn stepped(n: u64) -> u64\n    requires { n ≤ 100 }", "fn stepped(n: u64) -> u64\n    requires { n ≤ 101 }", "zh_low"),
    ("src/lib.rt", "    n + 1", "    // one more\n    n + 1", "none"),
    ("src/lib.rt", "specs.Next.{next}", "specs.Other.{next}", "zh_low zh_high"),
    ("src/lib.rt", "specs.Next.{next}", "specs.Next.{next, after}", "zh_low"),
    ("src/lib.rt", "Clone, Copy", "Clone, Copy, Debug, PartialEq, Eq", "none"),
    ("src/lib.rt", "Clone, Copy", "Clone", "zh_low zh_high"),
], ids=["a body", "a spec", "a public clause", "a private clause", "a comment", "what a public clause names", "what none does",
        "what decides nothing", "what may decide"])
def test_changed(tree, path, old, new, which):
    tree.change(f"crates/zh_low/{path}", old, new)
    tree.says(0, f"changed since their wrong bodies were tried: {which}; of the others", words=["--differ"])


def test_many_changed(tree):
    """Six that changed are tried; seven are too many, which fails."""
    tree.change(LOW, "    n + 1", "    1 + n")
    for name in ("zh_0", "zh_1", "zh_2", "zh_3", "zh_4", "zh_5"):
        if name == "zh_5":
            tree.says(0, "tried: zh_low zh_0 zh_1 zh_2 zh_3 zh_4; of the others", words=["--differ"])
        (tree.top / f"crates/{name}/src").mkdir(parents=True)
        tree.change("crates.txt", "zh_high: zh_low\n", f"{name}:\nzh_high: zh_low\n")
        (tree.wrong / f"{name}.edits").write_text("name: nothing\nfile: src/lib.rt\n")
    tree.says(1, "7 crates owe a trial", 'make wrong-bodies CRATES="zh_low zh_0 zh_1 zh_2 zh_3 zh_4 zh_5"', words=["--differ"])


def test_rest(tree):
    """Going on after a run that found one still proved: what was refused is not tried again until the sources change."""
    tree.put("zh_low/second.steps_by_next")
    tree.says(1, "6 passed, 1 failed")
    tree.says(0, "tried: zh_low; of the others", words=["--differ"])
    tree.change(tree.wrong / "zh_low.edits", "new: next(first)", "new: stepped(n)")
    tree.says(0, "zh_low: 6 of 6 refused at a goal of their own, in 1 checks", words=["--rest"])
    tree.says(0, "0 passed, 0 failed", words=["--rest"])
    tree.change(LOW, "    n + STEP", "    STEP + n")
    tree.says(0, "zh_low: 6 of 6 refused at a goal of their own, in 5 checks", words=["--rest", "zh_low"])
    tree.change(LOW, "stepped(first)", "stepped(n)")  # which is a wrong body itself
    tree.says(1, "zh_low/next.adds_two: no verdict: the crate itself is not proved: ", words=["--rest", "zh_low"])
