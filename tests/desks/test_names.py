"""Tests of the texts beside an answer: by name what a line has done, and what speaks against a closing or the final seats."""
import pathlib
import re

import pytest

from now import RETURNS
from places import REHEARSAL
from quiet import QuietRoom
from room import running

NAMED = REHEARSAL.read_text().replace('"N"', '"Dübendorf"').replace('"B"', '"Grüne, Linke"')


def said(desk):
    """The texts of a desk, except those about its connection."""
    return [it[len("zhcount-desk: "):] for it in desk.error if not re.search(r", start \d+ of the office|before: |: waiting", it)]


def talk(room, number, *script):
    """A desk sends the lines of a script, 'LINE -> ANSWER' each, and is answered so. The other texts of the script are what it says."""
    lines = [it.split(" -> ") for it in script if " -> " in it]
    desk = room.ask(number, *(line for line, _ in lines))
    assert desk.out == [answer for _, answer in lines], f"the answers to desk {number}"
    assert said(desk) == [it for it in script if " -> " not in it], "what is said"


def dialogues():
    """The steps of each dialogue of names.txt, by its name: who it is, at which desk or with which row, and the lines."""
    for name, text in re.findall(r"^== (\w+): .*\n((?:(?!==).*\n)*)", pathlib.Path(__file__).with_name("names.txt").read_text(), re.M):
        yield pytest.param(re.findall(r"^(desk|by hand) (.*)\n((?: .*\n)*)", text, re.M), id=name)


@pytest.mark.parametrize("steps", dialogues())
def test_dialogue(steps):
    with running(QuietRoom(setup=NAMED)) as room:
        for who, which, lines in steps:
            if who == "desk":
                talk(room, int(which), *map(str.strip, lines.splitlines()))
            else:
                room.stop()
                room.load(which)
                room.start()
        room.check()


def test_answer_after_a_stop(room):
    """an answer that a desk gets after a stop has its names, and the warning before it, too"""
    desk = room.desk(3).talk("return 3 1 1 90 -> stored 1")
    warning = "municipality 3, W: 2 of 3 returns missing, 1 entered by one desk alone"
    room.stops_at(desk, "close 3").says(warning)
    room.start()
    assert desk.answer() == "stored 2"
    desk.end()
    assert [it for it in said(desk) if "office" not in it] == ["W, A: 90 votes, version 1", warning, warning, "W: closed"], "what is said"


def test_many_municipalities():
    """before the final seats the desk names nine municipalities, first those with something wrong, and counts the others"""
    many = "".join(f'[[municipality]]\nname = "N{it}"\nconstituency = 1\n' for it in range(1, 15))
    setup = f'version = 1\nhouse = 10\n[[constituency]]\nname = "C"\npersons = 500\n{many}[[group]]\nname = "A"\nstands = [1]\n'
    with running(QuietRoom(setup=setup)) as room:
        room.ask(1, *(f"return {it} 1 1 {it}" for it in range(1, 15) if it != 12))
        talk(room, 1, "municipality 12, N12: 1 of 1 returns missing",
             *(f"municipality {it}, N{it}: 1 entered by one desk alone" for it in range(1, 9)),
             "5 more municipalities: `now` has them all", "final -> refused notclosed 1")


def closed(room):
    """The texts of a desk that closes municipality 1 and opens it again, except that it has done so."""
    desk = room.ask(3, "close 1", "reopen 1")
    assert [it[:7] for it in desk.out] == ["stored "] * 2, f"both are stored: {desk.out}"
    return [it for it in said(desk) if not it.endswith(("closed", "open again"))]


def test_totals(new_room):
    """before a closing or the final seats a desk names votes that differ from a stated total, and faults of the file as it is by then"""
    wrong, remark = "municipality 1, N: 2395 votes in all, and its own record states 1000", "the totals of their own records: "
    totals = new_room.path / "totals"
    new_room.start("--totals", totals)
    for desk in (1, 2):  # so that each return of municipality 1 is confirmed
        new_room.ask(desk, *RETURNS[:2], "return 1 3 1 1570")
    for table, warnings, title in [
            (None, [f"{remark}{totals} can't be read: [Errno 2] No such file or directory: '{totals}'"], "no file"),
            ("", [], "no total"), ("2,5\n1,1000\n", [wrong], "a total"),
            ("9,5\n1,1000\nx\n", [f"{remark}line 2: there is no municipality '9'; 1 more in `now/differs`", wrong], "wrong rows"),
            ("1,1'000\n", [f'{remark}line 2: "1\'000" is no number of votes'], "no number"), ("1,1000\n", [wrong], "a total again")]:
        if table is not None:
            totals.write_text(f"municipality,votes\n{table}")
        assert closed(new_room) == warnings, title
    assert f"zhcount-desk: {wrong}\n" in new_room.ask(3, "final").said(), "before the final seats"
    for desk in (1, 2):
        new_room.ask(desk, "return 1 3 2 175")
    assert closed(new_room) == [], "the right votes"


def test_totals_that_hang(new_room):
    """a desk says that a file of totals can't be read at once, and the municipality is closed; the office ends as always"""
    new_room.edit_script("zhcount_tables.py", r"^def text_of.*\n", r"\g<0>    __import__('time').sleep(20)\n")
    new_room.start("--totals", "/net/totals")
    assert closed(new_room) == ["the totals of their own records: /net/totals can't be read within 2 seconds",
                                "municipality 1, N: 3 of 3 returns missing"], "what is said"
    new_room.check()
