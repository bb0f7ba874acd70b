"""The sheets of this repository with their set-ups and returns: those of the cases, which were computed by hand or by another program,
and the election of 2006."""
import re
from collections import namedtuple

import places
from cases import repeated, turns
from places import CASES, REHEARSAL

Files = namedtuple("Files", "sheet setup held")
ZURICH = Files(*((places.ZURICH / name).read_text() for name in ("sheet", "setup.toml", "held.csv")))


def returns(sheet, setup):
    """Returns that make the votes of a sheet: each municipality of a constituency has its part of them."""
    homes = re.findall(r"^ *constituency = (\d+)$", setup, re.M)
    rows = ["municipality,list,number,votes"]
    for home, group, votes in re.findall(r"^list (\d+) (\d+) votes (\d+) ", sheet, re.M):
        within = [m for m, it in enumerate(homes, 1) if it == home]
        rows += [f"{m},{group},1,{(int(votes) + at) // len(within)}" for at, m in enumerate(within)]
    return "\n".join(rows) + "\n"


def all_sheets():
    for path in sorted(CASES.glob("*.case")):
        first = current = None
        for line, _ in turns(path):
            turn, _, answer = (part.strip() for part in line.partition("->"))
            if turn.startswith("case "):
                current = first
            elif turn.startswith("setup "):
                current = turn[len("setup "):]
                first = first or current
            elif re.match(r"[1-8] sheet (provisional|final) ", answer) and answer.endswith("; end"):
                sheet, text = answer.replace("; ", "\n") + "\n", REHEARSAL if current == "rehearsal" else CASES / current
                setup = "\n".join(repeated(text.read_text().split("\n")))
                yield Files(sheet, setup, returns(sheet, setup))
    yield ZURICH
