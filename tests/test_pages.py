"""Each rule of tests/pages/rules.py holds, and sees the violation that is planted in a copy of the tree."""
import re
import shutil

import pytest
from pages.rules import RULES
from pages.sources import Tree
from places import TOP

# Only the examples are run. The other rules look at the sources alone.
each_rule = pytest.mark.parametrize("rule", [
    pytest.param(it, id=it.name, marks=pytest.mark.long if it.name == "examples" else pytest.mark.sources) for it in RULES])


@pytest.fixture(scope="module")
def copy(tmp_path_factory):
    """A copy of the tree, without what is built."""
    built = shutil.ignore_patterns("out", ".git", "__pycache__", ".pytest_cache")
    return shutil.copytree(TOP, tmp_path_factory.mktemp("pages") / "copy", ignore=built)


def changed(top, path, pattern, text):
    """The first of these files in which the pattern finds something, after the change."""
    for file in sorted(top.glob(path)) or [top / path]:
        before = file.read_text(encoding="utf-8") if file.exists() else ""
        after, number = re.subn(pattern, lambda _: text, before, count=1, flags=re.M)
        if number:
            file.write_text(after, encoding="utf-8")
            return file
    raise AssertionError(f"{path} has no place for what is to be planted: {pattern}")


@each_rule
def test_holds(rule):
    assert list(rule.faults(Tree(TOP))) == []


@pytest.mark.plants
@each_rule
def test_sees(rule, copy):
    files = set()
    try:
        for it in rule.changes:
            files.add(changed(copy, *it))
        faults = list(rule.faults(Tree(copy)))
    finally:
        for it in files:
            it.unlink()
            if (TOP / it.relative_to(copy)).exists():
                shutil.copy(TOP / it.relative_to(copy), it)
    unseen = [it for it in rule.seen if not any(re.search(it, fault) for fault in faults)]
    assert not unseen, faults
