"""Each allocation of some turns is refused in turn (tests/refuse.c): memory has to be reported as refused, unless the call did
without; nothing may have changed, and the next call has to work. This runs the program that rt ci has built."""
import itertools

import pytest

from cases import lines_of, run
from places import CASES, PROGRAMS_OF_CASES
from refusing import Preloaded

TURNS = 16


def faults_of_turns(path, room, library):
    """What is wrong where each allocation of each turn `refuse` of a file of cases is refused (docs/CASES.md). A run refuses those of one
    number to every sixteenth of these turns, so that an office that was opened anew serves between. Each turn has to report one."""
    preloaded, found, reported = Preloaded(library, room), [], set()
    assert run(path, PROGRAMS_OF_CASES, room, preloaded.environment(WITHIN="refuse"))[2:] == ("", [])
    for turn in range(TURNS):
        for number in itertools.count(1):
            it = run(path, PROGRAMS_OF_CASES, room, preloaded.environment(REFUSE=number, TURN=turn, TURNS=TURNS, WITHIN="refuse"))
            if not preloaded.reached.exists():
                break
            found += [f"allocation {number}: {it.fault}"] if it.fault else []
            reported |= {line for line, _ in it.reports}
    wanted = {it.number for it in lines_of(path.read_text()) if it.text.startswith("refuse ")}
    return found + [f"{path.name}:{it}: no allocation was refused" for it in sorted(wanted - reported)]


@pytest.mark.parametrize("path", sorted(CASES.glob("refused_*.case")), ids=lambda it: it.stem)
def test_turns(path, tmp_path, library):
    assert not faults_of_turns(path, tmp_path, library)


@pytest.mark.parametrize("text, fault", [
    ("refuse 1 show 1 1 -> 1 none", "wrong.case:6: no allocation was refused"),
    ("1 close 1 -> 1 stored 1\nrefuse 1 sheet -> 1 refused nogroup", "something changed"),
], ids=["a turn that takes no memory", "a count that is another"])
def test_mistake_is_seen(text, fault, tmp_path, library):
    path = tmp_path / "wrong.case"
    path.write_text(f"setup rehearsal\ncase a mistake\nformat\nopen\nhold\n{text}\n")
    assert fault in "\n".join(faults_of_turns(path, tmp_path, library))
