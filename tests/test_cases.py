"""The cases, run with both builds of their program; and texts and answers that are refused, each with the number of its line."""
import re

import pytest

from cases import Fault, lines_of, run
from places import CASES, PROGRAMS_OF_CASES, TOP

HEAD = "setup rehearsal\n\ncase a wrong one\n"
PLACES = ("slot3", "slot1.journal", "journal", "Slot1", "+1")
TEXTS = re.split(r"\n\n(?=\S)", (TOP / "tests/written_out.txt").read_text().strip())[1:]


@pytest.mark.parametrize("build", ["", ".by-rattle"], ids=["of LLVM", "of Rattle"])
@pytest.mark.parametrize("path", sorted(CASES.glob("*.case")), ids=lambda it: it.stem)
def test_answers(path, build, tmp_path):
    programs = [it.with_name(it.name + build) for it in PROGRAMS_OF_CASES]
    if build and not all(it.exists() for it in programs):
        pytest.skip("rt ci has not left the programs that Rattle's own compiler makes")
    assert run(path, programs, tmp_path).fault == ""


@pytest.mark.parametrize("text, fault", [
    *((f"{HEAD}holds slot2.gate+1 00\nholds {it} 00\n", "5: there is no such place") for it in PLACES),
    (f"{HEAD}format\nopen\n1 show 1 1 -> 1 shows 1 2\n", "6: '1 show 1 1': expected '1 shows 1 2', found '1 none'"),
    (f"{HEAD}sweep\n  format\n  table keep\n  0 a\nend sweep\nholds 0 5a -> 00\n", "9: 'holds 0 5a' at 0 keep: expected '00', found '"),
    (f"{HEAD}open sesame\n", "4: "),
], ids=[*PLACES, "a wrong answer", "a wrong answer in a cell", "no such turn"])
def test_refused(text, fault, tmp_path):
    (tmp_path / "wrong.case").write_text(text)
    assert run(tmp_path / "wrong.case", PROGRAMS_OF_CASES, tmp_path).fault.startswith(f"wrong.case:{fault}")


@pytest.mark.parametrize("text", TEXTS)
def test_written_out(text):
    text, wanted = text.split("\n==\n")
    try:
        found = [it.text.replace("\n", "\\n") for it in lines_of(text)]
    except Fault as fault:
        found = [str(fault)]
    assert found == wanted.split("\n")
