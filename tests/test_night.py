"""Nights of examples/canton: each answer and status of the program is that of the manual (examples/canton/office.py), each
sheet that of a calculation in exact fractions (tests/page/model.py), and what zhcount-read prints that of `export`."""
import csv
import os
import re
import subprocess

import pytest

import canton as cantons
import model
import night
import office as offices
from places import PROGRAM, TOP

SHEET = r"^\d sheet (?:provisional|final) \d+\n(?:.*\n)*?end\n"


def votes_in(office):
    """The votes of each list, by constituency; None of a list that does not stand."""
    canton, groups = office.canton, range(1, len(cantons.LISTS) + 1)
    votes = [[0 if d in canton.stands(g) else None for g in groups] for d, _ in enumerate(cantons.CONSTITUENCIES, 1)]
    for (municipality, group), (_, number) in office.held.items():
        votes[canton.constituency_of[municipality - 1] - 1][group - 1] += number or 0
    return votes


def check_sheet(office, sheet):
    """A sheet of what the office holds is that of the model, but for its divisors: others are as right, and the night's own check looks at
    those of the last sheet."""
    kind, commands = sheet.split()[2:4]
    election = model.Election(cantons.HOUSE, office.canton.persons, votes_in(office), names=cantons.CONSTITUENCIES, groups=cantons.LISTS)
    found, wanted = (re.sub(r" divisor \S+", "", it) for it in (sheet, election.sheet(kind, int(commands))))
    assert found.splitlines() == wanted.splitlines()


def compared(office, room, part):
    """How many commands there were after each line of a part, whose answer has to be that of the manual. A sheet is one answer."""
    lines, given = (room / part).read_text().splitlines(), re.findall(f"{SHEET}|^.*\n", (room / f"{part}.answers").read_text(), re.M)
    assert len(lines) == len(given)
    for line, answer in zip(lines, given):
        wanted = office.answer(line)
        assert answer.split("\n")[0] == wanted, line
        if " sheet " in wanted:
            check_sheet(office, answer)
        yield office.commands


@pytest.mark.parametrize("seed", (night.SEED, 1, 5))
def test_night(seed, tmp_path, program):
    environment = {**os.environ, "KEEP": str(tmp_path), "ZHCOUNT": str(program)}
    ran = subprocess.run([TOP / "examples/canton/run", str(seed)], env=environment, stdin=subprocess.DEVNULL, stdout=subprocess.PIPE,
                         stderr=subprocess.STDOUT, text=True)
    assert ran.returncode == 0, ran.stdout
    office = offices.Office(cantons.Canton(cantons.Chance(seed)))
    status = {it: (tmp_path / f"{it}.status").read_text() for it in ("evening", "stop", "night")}
    with open(tmp_path / "early.votes", newline="") as file:
        early = [(int(it["commands"]), int(it["votes"])) for it in csv.DictReader(file)]
    first, second = early[0][0], int(re.search(r"(\d+) commands;", status["evening"])[1])
    at_copy = {}  # by the number of commands of a copy: the status of the office, and the votes of each group
    for commands in compared(office, tmp_path, "evening"):
        if commands in (first, second) and commands not in at_copy:
            at_copy[commands] = office.status(), [sum(it or 0 for it in votes) for votes in zip(*votes_in(office))]
    assert early == [(first, votes) for votes in at_copy[first][1]] and status["evening"] == at_copy[second][0]
    assert 0 < 3 * first < second <= office.commands
    assert status["stop"] == office.status()
    office.batches.clear()  # no desk has a batch after a stop
    assert [*compared(office, tmp_path, "night")] and status["night"] == office.status()
    assert re.search(r"^\d sheet final ", (tmp_path / "night.answers").read_text(), re.M)
    for disk in (tmp_path / "copy.disk", tmp_path / "night.disk"):
        exported, read = (subprocess.run(words, stdout=subprocess.PIPE).stdout for words in (
            [PROGRAM, "export", "--setup", tmp_path / "setup.toml", "--disk", disk], [TOP / "desks" / "zhcount-read", disk]))
        assert exported == read and read.count(b"\n") > 1
