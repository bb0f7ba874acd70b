"""Tests of tables. A desk enters one as a batch: which tables it takes and refuses, a batch that is open already, and stops of desk and
office, after which all or nothing of the table is in and the same command finishes it. And tables of totals."""
import importlib
import os
import pathlib
import signal

import pytest

from places import PROGRAM
from processes import Desk
from quiet import QuietRoom
from room import SCRIPTS, running, stand_still, until
from watch import Stop, WatchedRoom

NAMES = "municipality,list,number,votes\n"
TABLE = NAMES + "1,1,1,525\n1,2,1,300\n3,1,1,90\n"
PLACES = ("show 1 1", "show 1 2", "show 3 1")
EXCEL = '\ufeffGemeinde;Liste;Fassung;Stimmen\r\n1;1;1;525\r\n"1";"2";"1";"300"\r\n3;1;1;90\r\n'
LARGE = "\n".join(["version = 1", "house = 10", "[[constituency]]", 'name = "C"', "persons = 5000",
                   *(f'[[municipality]]\nname = "M{it}"\nconstituency = 1' for it in range(32)),
                   *(f'[[group]]\nname = "G{it}"\nstands = [1]' for it in range(32)), ""])


def rows_of(table):
    """The lines with the rows of a table."""
    return [f"row {it.replace(',', ' ')}" for it in table.splitlines()[1:]]


def lines_of(table):
    """All lines that enter it."""
    return ["open", *rows_of(table), "commit"]


def started(room, table, source=None):
    """Desk 3, which enters this table."""
    path = room.path / "table.csv"
    path.write_bytes(table if isinstance(table, bytes) else table.encode())
    return room.process(Desk, room.script("zhcount-desk", "3", room.folder, "--csv", source or path))


def is_in(room, table, answer):
    desk = started(room, table)
    assert (desk.wait(), desk.out) == (0, [answer]), f"it is in: {desk.said()}"


def is_refused(room, table, text, out=()):
    desk = started(room, table)
    assert (desk.wait(), desk.out) == (1, [*out]), f"it is refused: {desk.said()}"
    assert f"zhcount-desk: {text}" in desk.error, f"'{text}' is said: {desk.said()}"


# What is taken


def test_forms(room):
    """tables of Excel, with commas, in another order, with other line ends and from standard input are the same; a lost file is an error"""
    tables = [EXCEL, TABLE, TABLE.replace("\n", "\r\n"), "\ufeff" + TABLE, EXCEL[1:].replace("\r\n", "\r"),
              "votes;number;list;municipality\n525;1;1;1\n\n300;1;2;1\n90;1;1;3\n"]
    for number, table in enumerate(tables):
        is_in(room, table, "same" if number else "stored 1")
    desk = started(room, "", source="-")
    assert desk.end(TABLE) == 0, "the end"
    assert desk.out == ["same"]
    desk = started(room, "", source=room.path / "none")
    assert desk.wait() == 1
    desk.says("No such file or directory")
    room.check({3: lines_of(TABLE) * 7})


def test_largest():
    """a table of 1,000 rows is entered, also after a stop before its commit, and night.db has most of it; one with a row more is refused"""
    table = NAMES + "".join(f"{it // 32 + 1},{it % 32 + 1},1,{it}\n" for it in range(1000))
    with running(QuietRoom(setup=LARGE)) as room:
        is_refused(room, table + "32,32,1,5\n", "line 1002: the table has 1001 rows up to here; 1 to 1000 are allowed")
        room.ask(3, "open", *rows_of(table))
        is_in(room, table, "stored 1")
        assert len(room.noted()) == 1002, "lines"
        assert (room.folder / "night.db-wal").stat().st_size < 1 << 19, "the -wal stays short"
        assert (room.folder / "night.db").stat().st_size > 1 << 16, "night.db has it"


# What is refused before anything is sent


SEPARATED = "line {}: {} is {!r}: write {}, without a separator"
NO_NUMBER = "line {}: votes is {!r}, which is no whole number"
NO_END = "line {}: the end of this line is missing: if the table is complete, press Enter at its end"
UNKNOWN = "line 1: the column {!r} is unknown, or there twice: delete it"
FAULTS = {
    "separators": (NAMES + "1,1,1,1'570\n1,2,1,1.570\n\n3,1,1,\"1,570\"\n3,2,1,1 570 000\n", [SEPARATED.format(*it) for it in (
        (2, "votes", "1'570", 1570), (3, "votes", "1.570", 1570), (5, "votes", "1,570", 1570), (6, "votes", "1 570 000", 1570000))]),
    "a separator of Excel": ("Gemeinde;Liste;Fassung;Stimmen\r\n1;1;1;1’570\r\n".encode("cp1252"),
                             [SEPARATED.format(2, "Stimmen", "1’570", 1570)]),
    "blank": (NAMES + "1,1,1,\n1,2,1, \n3,,1,5\n,,,\n", [f"line {it} is blank: fill it in, or delete the row" for it in (
        "2: votes", "3: votes", "4: list", "5: municipality")]),
    "no number": (NAMES + "1,1,1,12x\n1,2,1,-5\n3,1,1,05\n3,2,1,5 \n3,3,1,withdrawn\n2,1,1,\u0663\n2,2,1,1.5\n2,3,1,12345678901\n",
                  [NO_NUMBER.format(*it) for it in enumerate(("12x", "-5", "05", "5 ", "withdrawn", "\u0663", "1.5", "12345678901"), 2)]),
    "many": (NAMES + "1,1,1,x\n" * 30, [NO_NUMBER.format(line, "x") for line in range(2, 32)]),
    "twice": (NAMES + "1,1,1,5\n1,2,1,6\n1,1,2,7\n", ["line 4: municipality 1, list 1 is in line 2 already"]),
    "cells": (NAMES + "1,1,1\n1,2,1,6,\n", ["line 2: the row has 3 cells instead of 4", "line 3: the row has 5 cells instead of 4"]),
    "columns": ("Gemeinde;Liste;Wähler;Stimmen\n1;1;1;5\n".encode("cp1252"),
                ["line 1: the column number is missing", UNKNOWN.format("Wähler")]),
    "no title": ("municipality,list,number,votes,\n1,1,1,5,\n", [UNKNOWN.format("")]),
    "two titles": ("municipality,list,number,votes,Stimmen\n1,1,1,5,6\n", [UNKNOWN.format("votes"), UNKNOWN.format("Stimmen")]),
    "nothing": ("", [*(f"line 1: the column {it} is missing" for it in NAMES.strip().split(",")), NO_END.format(1)]),
    "no rows": (NAMES, ["line 1: the table has 0 rows up to here; 1 to 1000 are allowed"]),
    "no end": (NAMES + "1,1,1,525\n1,2,1,30", [NO_END.format(3)]),
    "no CSV": (NAMES + '1,1,1,525\n"1,2,1,30\n', ["line 3: this is no CSV: unexpected end of data"]),
    "long": (TABLE + "\n" * (1 << 20), ["line 1048520: the table has 3 rows up to here; 1 to 1000 are allowed"]),
}


@pytest.mark.parametrize("name", FAULTS)
def test_faults(new_room, name):
    """a table with faults is not sent: the desk names the first twenty, each with its line, and looks for no office"""
    new_room.folder = pathlib.Path(os.devnull)  # a desk that looked for one would say that it can't
    table, faults = FAULTS[name]
    desk, last = started(new_room, table), f"desk 3: faults in the table: {len(faults)}; nothing was sent"
    assert desk.wait() == 1, "the end"
    assert desk.error == [f"zhcount-desk: {it}" for it in (*faults[:20], last)], f"what is said: {desk.said()}"


# What the office refuses


@pytest.mark.parametrize("rows", [["row 1 1 1 526"], rows_of(TABLE)[1::-1], [*rows_of(TABLE), "row 2 1 1 5"]],
                         ids=["votes", "order", "more"])
def test_batch_of_a_person(room, rows):
    """an open batch with other rows is a person's: nothing is sent, and the person can commit it"""
    room.ask(3, "open", *rows)
    is_refused(room, TABLE, "desk 3: batchopen: this desk's batch does not have the same rows as the table: nothing was sent. 'commit' or "
               "'drop' it first, or take another desk")
    assert room.noted() == ["open", *rows], "what is sent"
    assert room.ask(3, "commit").out == ["stored 1"], "the person's commit"


def test_refused_row(room):
    """a row that the office refuses is named with its line, and the batch is dropped"""
    is_refused(room, TABLE.replace("1,2,", "1,4,"), "desk 3: line 3: row 1 4 1 300: refused list; nothing was entered")
    assert room.noted() == ["open", "row 1 1 1 525", "row 1 4 1 300", "drop"], "what is sent"
    is_in(room, TABLE, "stored 1")
    room.check()


@pytest.mark.parametrize("lines, table, line, refusal, shown", [
    (["return 1 1 1 525", "return 1 2 1 301"], TABLE, "3: row 1 2 1 300", "refused conflict", "show 1 2: shows 1 301"),
    (["return 1 1 1 525", "withdraw 1 2 1"], TABLE, "3: row 1 2 1 300", "refused conflict", "show 1 2: shows 1 withdrawn"),
    (["return 3 1 1 90", "return 3 1 2 91"], TABLE, "4: row 3 1 1 90", "refused stale", "show 3 1: shows 2 91"),
    (["close 3", "return 2 1 1 5"], TABLE, "4: row 3 1 1 90", "refused closed", "show 3 1: none"),
    (["return 1 1 1 525"], NAMES + "1,1,2,526\n1,2,2,300\n", "3: row 1 2 2 300", "refused gap", "show 1 2: none"),
], ids=["conflict", "withdrawn", "stale", "closed", "gap"])
def test_refused_commit(room, lines, table, line, refusal, shown):
    """the desk finds the row for which a commit was refused, and names its line, also in a batch that a stop has left, which it drops"""
    room.ask(2, *lines)
    said, sent = f"desk 3: line {line}: {refusal} ({shown}); nothing was entered", [*lines_of(table), "drop"]
    is_refused(room, table, said, out=[refusal])
    assert [it for it, _ in room.of_desk(3)][:len(sent)] == sent, "what is sent"
    room.ask(3, *sent[:-2])  # as a stop leaves it
    is_refused(room, table, said, out=[refusal])
    assert room.ask(3, "commit").out == ["refused nobatch"], "it is dropped"
    room.check()


# Stops


@pytest.fixture
def begun(room):
    """A desk that enters the table, of which the first line is noted, and the run that has to answer it, which stands still."""
    run_process = room.run_of_office()
    stand_still(run_process)
    desk = started(room, TABLE)
    until("the office has taken its first line", lambda: room.noted() == ["open"])
    return desk, run_process


def test_closed_meanwhile(room, begun):
    """if another desk closes a municipality before the commit, the same command names the row with it"""
    desk, run_process = begun
    desk.kill(signal.SIGSTOP)
    os.kill(run_process, signal.SIGCONT)
    assert room.ask(2, "close 3").out == ["stored 1"]
    desk.kill(signal.SIGCONT)
    assert desk.wait() == 1, "the end"
    desk.says("refused closed; nothing was entered, and the count has changed meanwhile: give the same command again")
    is_refused(room, TABLE, "desk 3: line 4: row 3 1 1 90: refused closed (show 3 1: none); nothing was entered", out=["refused closed"])


def test_interrupted(room, begun):
    """Ctrl-C leaves a batch open, and the desk says that the same command finishes the table; it does"""
    desk, run_process = begun
    desk.kill(signal.SIGINT)
    assert desk.wait() == 1
    desk.says("desk 3: told to end", "without an answer: open; the same command finishes the table")
    os.kill(run_process, signal.SIGCONT)
    is_in(room, TABLE, "stored 1")
    assert room.noted() == lines_of(TABLE), "what is sent"


@pytest.mark.parametrize("line, answer", [("open", "held 0"), ("row 1 2 1 300", "held 2"), ("commit", "stored 1")])
def test_office_is_stopped(new_room, line, answer):
    """kill -9 of an office that waits for the answer to a line: the desk goes on with the next office, and the table is in once"""
    room = new_room
    room.edits_answers(f"/^3 {answer}$/d")
    room.start()
    desk = started(room, TABLE)
    until(f"{line} is noted", lambda: room.noted()[-1:] == [line])
    room.environment["ZHCOUNT"] = str(PROGRAM)
    room.restart()
    assert (desk.wait(), desk.out) == (0, ["stored 1"]), f"the end of the desk: {desk.said()}"
    room.check({3: lines_of(TABLE)})


@pytest.mark.long
def test_stopped_at_each_call():
    """kill -9 of a desk at each of its calls: all of the table is in or nothing, and the same command goes on to its end"""
    with running(WatchedRoom(lambda call: 0)) as room:
        version, held, sent, status = 0, ["none"] * 3, 0, -signal.SIGKILL
        while status == -signal.SIGKILL:
            version += 1
            table = NAMES + "".join(f"{it},{version},{version + 10}\n" for it in ("1,1", "1,2", "3,1"))
            none, whole = held, [f"shows {version} {version + 10}"] * 3
            room.before = Stop(version, lambda call: room.is_of("desk 3", call) and call.name != "look").before
            status = started(room, table).wait()
            room.before = lambda call: 0
            held = room.ask(2, *PLACES).out
            assert held in ([none, whole] if status else [whole]), f"after call {version} there is {held}"
            is_in(room, table, "same" if held == whole else f"stored {version}")
            sent += 10 if held == whole else 5
            assert len(room.of_desk(3)) == sent, f"lines after a stop at call {version}, where {held}"
            held = room.ask(2, *PLACES).out
            assert held == whole, "all of it is held"
        assert (status, version > 7) == (0, True), f"calls: {version - 1}"
        room.check()


# Totals


@pytest.fixture
def totals_in(tmp_path, monkeypatch):
    """What the script finds in a file of the folder, with a set-up of three municipalities: totals, and remarks."""
    monkeypatch.chdir(tmp_path)
    monkeypatch.syspath_prepend(SCRIPTS)
    return lambda path: importlib.import_module("zhcount_tables").totals_in(path, ["1", "2", "3"])


@pytest.mark.parametrize("text, totals, remarks", [
    (b"municipality,votes\n1,1000\n2,\n\n3\n", {"1": 1000}, []),
    (b"municipality,votes\n1,0", {"1": 0}, []),
    (b"\xef\xbb\xbfmunicipality;name;votes\r\n3;\"W; a\xfc\";200\r\n", {"3": 200}, []),
    (b"municipality,votes\n4,10\n1,1000\n1,1001\n2,1'000\n3,-1\n3,200\n", {"1": 1000, "3": 200},
     ["line 2: there is no municipality '4'", "line 4: municipality 1 is there already",
      "line 5: \"1'000\" is no number of votes", "line 6: '-1' is no number of votes"]),
    (b"municipality,votes\n\x1b,5\n1,\x07\n", {}, [r"line 2: there is no municipality '\x1b'", r"line 3: '\x07' is no number of votes"]),
    *((it, {}, ["FILE can't be read: line 1 has not the columns municipality and votes"]) for it in (b"1,1000\n", b"")),
])
def test_totals(totals_in, text, totals, remarks):
    """a total counts for each row that is right, each other one is named with its line, and one without votes is not known yet"""
    pathlib.Path("FILE").write_bytes(text)
    assert totals_in("FILE") == (totals, remarks), "the totals and remarks"


def test_no_totals(totals_in):
    """a remark names a file that is not one of totals, and the script does not wait for it"""
    assert totals_in("none") == ({}, ["none can't be read: [Errno 2] No such file or directory: 'none'"]), "none"
    assert totals_in(".") == ({}, [". can't be read: [Errno 21] Is a directory: '.'"]), "a folder"
    pathlib.Path("long").write_bytes(bytes(2_000_000))
    assert totals_in("long") == ({}, ["long can't be read: it has more than 1048576 bytes"]), "a long one"
    os.mkfifo("pipe")
    assert totals_in("pipe") == ({}, ["pipe can't be read: it is not a file"]), "a pipe"
