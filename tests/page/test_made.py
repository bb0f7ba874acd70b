"""The page is made of its parts, its module is that of the sources, and the card has two pages."""
import re
import subprocess

import pytest

from places import TOP
from seals import SEAL

NOTE = {"sources": "a", "64-bit": "b", "module": "c", "binaryen": "108"}


def passes(*command):
    ran = subprocess.run(command, cwd=TOP, stdin=subprocess.DEVNULL, stdout=subprocess.PIPE, stderr=subprocess.STDOUT, text=True)
    assert ran.returncode == 0, ran.stdout


@pytest.mark.sources
@pytest.mark.parametrize("what", ["--check", "--check-sources"])
def test_page(what):
    passes("page/seal", what)


@pytest.mark.long
def test_module(program):
    """It is made anew, over the libraries below the program."""
    passes("page/seal", "--check-module")


def test_card():
    passes("scripts/card")


def test_another_module_is_said():
    for other, says in (({}, "None"), ({"module": "d"}, "differs from page/module.sum: module. "),
                        ({"binaryen": "120"}, "is of binaryen 108, and this is 120, .*before binaryen it is the same"),
                        ({"binaryen": "120", "64-bit": "d"}, "is of binaryen 108, and this is 120, .*before binaryen it differs too")):
        assert re.search(says, str(SEAL.fault_of_module({**NOTE, **other}, NOTE)))
