"""Tests of what people at desks see: answers, stops of desk, office and run; and that MANUAL says what to do about each text."""
import ast
import hashlib
import os
import pathlib
import re
import signal
import time

from places import TOP
from processes import until
from room import SCRIPTS


def test_torn_line(room):
    """a line without its end is not sent, and the desk says so"""
    desk = room.desk(6)
    status = desk.end("return 1 1 1 525\nreturn 1 1 2 53")
    assert (desk.out, status) == (["stored 1"], 1), "the answers"
    desk.says("not sent, since its end is missing: return 1 1 2 53")
    assert room.ask(6, "show 1 1").out == ["shows 1 525"], "the next line"
    room.check({6: ["return 1 1 1 525", "show 1 1"]})


def test_for_itself(room):
    """a desk speaks for itself alone, whatever is typed; of a line with more than 120 bytes it sends 121, and says so"""
    lines = ["4 return 1 1 1 525", "4 show 1 1", "", " show 1 1", "show\t1 1", "sh\\ow", "é", "\\x0a4 close 1", "{}", "x" * 120, "\0" * 120,
             "y" * 121, "z" * 9000, "\0" * 9001]
    noted = [*lines[:4], "show\\x091 1", "sh\\x5cow", "\\xc3\\xa9", "\\x5cx0a4 close 1", "{}", "x" * 120, "\\x00" * 120,
             "y" * 121, "z" * 121, "\\x00" * 121]
    desk = room.ask(3, *lines)
    assert desk.out == ["refused syntax"] * len(lines), "the answers"
    said = [it for it in desk.error if it.endswith(".. has more than 120 bytes: its first 121 are sent")]
    assert [it[len("zhcount-desk: "):][:4] for it in said] == ["yyyy", "zzzz", "\\x00"], "it is said"
    assert room.of_desk(4) == [], "the lines of desk 4"
    room.check({3: noted})


def test_endless_line(room):
    """a line without an end is not kept in memory"""
    def memory():
        return int(re.search(r"VmHWM:\s+(\d+) kB", pathlib.Path(f"/proc/{desk.process.pid}/status").read_text())[1])

    desk = room.desk(3).talk("show 1 1 -> none")
    before = memory()
    desk.write("x" * (24 << 20) + "\n")
    assert desk.answer() == "refused syntax"
    assert memory() < before + 8000, f"the memory: {before} kB, then {memory()} kB"


def test_sheet(room):
    """a sheet is shown whole, with its desk, also after a stop; a new connection shows its first line. The group can lock no file of it"""
    lines = ["return 1 1 1 525", "return 2 1 1 240", "return 3 1 1 90"]
    room.ask(1, *lines)
    wanted = room.zhcount("run", disk=room.other_disk(*lines), given="3 sheet\n")
    desk = room.desk(3)
    assert desk.send("sheet") + "\n" == wanted, "the sheet"
    whole = wanted[2:-1].encode()
    assert room.of_desk(3) == [("sheet", f"sheet provisional 3 {len(whole)} {hashlib.sha256(whole).hexdigest()}")], "what is noted"
    locked = re.findall(r":(\d+) \d+ \S+$", pathlib.Path("/proc/locks").read_text(), re.MULTILINE)
    open_to_group = [it for it in room.folder.iterdir() if it.lstat().st_mode & 0o070]
    assert [it for it in open_to_group if str(it.lstat().st_ino) in locked] == [], "what the group could lock is never locked"
    room.stops_at(desk, "sheet")
    room.start()
    assert desk.answer("sheet") + "\n" == wanted, "the sheet after a stop"
    desk.end()
    room.ask(3).says("before: sheet: 3 sheet provisional 3")
    room.check({3: ["sheet", "sheet"]})


def test_run_is_killed(room):
    """kill -9 of run: the office ends and notes the reason, and a new one goes on"""
    desk = room.desk(1).talk("return 1 1 1 525 -> stored 1")
    os.kill(room.run_of_office(), signal.SIGKILL)
    room.ends(1, "zhcount run has ended: killed by signal 9")
    assert room.events()[-1].facts()["reason"] == "zhcount run has ended: killed by signal 9", "the end"
    room.start()
    desk.talk("return 1 1 2 530 -> stored 2")
    room.check({1: ["return 1 1 1 525", "return 1 1 2 530"]})


def test_waits_for_an_office(new_room):
    """a desk waits for an office, and for the answer of one that stands still or comes again; a line that was not taken is sent again"""
    room = new_room
    room.edit_script("zhcount-desk", r"^PATIENCE = 10", "PATIENCE = 1")
    desk = room.desk(1)
    desk.write("return 1 1 1 525\n")
    desk.says(f"no office is running in {room.folder} yet: waiting")
    room.start()
    assert desk.answer() == "stored 1"
    room.office.kill(signal.SIGSTOP)
    desk.write("show 1 1\n")
    desk.says("no answer yet to show 1 1: waiting")
    time.sleep(2.5)
    room.office.kill(signal.SIGCONT)
    assert desk.answer() == "shows 1 525"
    assert desk.said().count("no answer yet to show 1 1") == 1, "how often it was said"
    assert "has ended" not in desk.said(), "an office that stands still has not ended"
    room.office.kill(signal.SIGSTOP)
    desk.write("close 2\n")
    desk.says("no answer yet to close 2: waiting")
    room.stop(signal.SIGKILL)
    room.folder.rename(room.path / "aside")
    desk.says("the office has ended: waiting; what is unanswered is kept")
    (room.path / "aside").rename(room.folder)
    room.start()
    desk.says("the office is back, start 2")
    assert desk.answer() == "stored 2"
    assert desk.end() == 0, "the end of the desk"
    room.check({1: ["return 1 1 1 525", "show 1 1", "close 2"]})


def test_desk_costs_nothing_while_it_waits(room):
    """office and desks that have nothing to do use no processor"""
    pids = [room.office.process.pid, *(room.desk(number).talk("show 1 1 -> none").process.pid for number in range(1, 9))]

    def is_at_rest():
        before = ticks()
        time.sleep(3)
        return ticks() <= before + 6

    def ticks():
        found = [pathlib.Path(f"/proc/{it}/stat").read_text().rpartition(")")[2].split() for it in pids]
        return sum(int(it[11]) + int(it[12]) for it in found)
    until("at most 6 ticks of 10 ms are used in 3 s", is_at_rest, 9)  # a busy machine may let them come to rest late


def test_manual_has_each_text():
    """MANUAL says what to do about each text that a desk shows beside answers, or about a table"""
    source = "".join((SCRIPTS / it).read_text().partition("\ndef text_of")[0] for it in ("zhcount-desk", "zhcount_tables.py"))
    pieces = [it.value for it in ast.walk(ast.parse(re.sub('""".*?"""', '""', source, flags=re.S))) if isinstance(it, ast.Constant)]
    found = sorted({it.strip() for it in map(str, pieces) if re.search(r"[a-z]+ [a-z]+", it)})
    assert len(found) > 30, f"texts are found: {found}"
    rows = "\n".join(re.findall(r"^\| (`.*?) \| ", (TOP / "docs/MANUAL.md").read_text(), re.M))
    assert [it for it in found if it not in rows and it.split(";")[0] not in rows] == [], "texts without a row"
