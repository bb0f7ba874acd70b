"""Tests of an office with a witness: the same log in a second folder, reached by a command, which may be lost, stopped or slow. test_ssh.py
has a connection that hangs."""
import resource
import shutil
import signal
import stat
import time

import pytest

from logs import check_chain, events
from processes import stays, until
from room import running
from witnessed import Witnessed

ROOM = Witnessed
IS_THERE, IS_AWAY, WAITING = "the witness has been connected since", "no witness since", "waiting for the witness since"


def test_goes_on_without(room):
    """the witness has each event, and the disk can be made anew from it. One without room ends, and says why. The office goes on, and says
    so, to a new connection first; the next witness, which has lost its folder, gets it all. An end without one is noted"""
    desk = room.desk(1).talk("return 1 1 1 525 -> stored 1", "open -> held 0", "row 2 1 1 240 -> held 1")
    room.has_all()
    assert stat.filemode((room.copy / "night.db").stat().st_mode) == "-rw-------", "who may use it"
    resource.prlimit(room.witness(), resource.RLIMIT_FSIZE, (100, resource.RLIM_INFINITY))
    room.away.touch()
    desk.talk("commit -> stored 2")
    room.office.says(IS_AWAY, f"zhcount-witness: {room.copy}")
    assert events(room.copy) == room.events()[:-2], "it has what it had"
    room.says_of_it(IS_AWAY)
    desk.talk("show 2 1 -> shows 1 240").says(IS_AWAY)
    late = room.desk(2)
    late.says(IS_AWAY)
    assert late.out == [], "what it was shown"
    shutil.rmtree(room.copy)
    room.away.unlink()
    room.has_all()
    until("the log says it", lambda: room.office.said().count(IS_THERE) == 2)
    room.says_of_it(IS_THERE)
    desk.talk("return 3 1 1 90 -> stored 3").says(IS_THERE)
    room.lose_witness()
    room.says_of_it(IS_AWAY)
    assert room.stop() == 0
    assert room.events()[-1].facts()["reason"] == "told to", "the last event"
    room.away.unlink()
    room.start()
    room.check()
    check_chain(room.copy)
    export = room.zhcount("export")
    room.moves()
    assert room.zhcount("export") == export, "the export"


def test_waits_for_it():
    """while a witness that is required is silent or away, the office shows no answer, also at its end, and says so. The next start shows
    it, and nothing before the witness has that start too"""
    with running(Witnessed("--witness-required", measures=["PATIENCE"], seconds=20)) as room:
        desk = room.desk(1).talk("return 1 1 1 525 -> stored 1")
        room.signal(signal.SIGSTOP)
        room.note(desk, "return 1 1 2 530")
        desk.says(WAITING)
        stays("no answer is shown", lambda: len(desk.out) == 1, 2)
        room.says_of_it(WAITING)
        room.signal(signal.SIGCONT)
        assert desk.answer() == "stored 2"
        room.lose_witness()
        room.says_of_it(WAITING)
        room.note(desk, "return 1 1 3 540")
        room.away.unlink()
        assert desk.answer() == "stored 3"
        room.lose_witness()
        room.says_of_it(WAITING)
        room.note(desk, "return 1 1 4 550")
        until("it is on the disk", lambda: room.events()[-1].text == "stored 4")
        assert room.stop() == 0
        room.office.says("unanswered: desk 1: return 1 1 4 550: the next start looks")
        assert desk.out == ["stored 1", "stored 2", "stored 3"], "what desk 1 was shown"
        room.start(is_awaited=False).says(WAITING)
        late = room.desk(2)
        stays("no desk is let in", lambda: not late.is_let_in() and not room.serves(), 2)
        assert room.stop() == 0, "the end of an office that waits"
        room.start(is_awaited=False)
        room.away.unlink()
        assert desk.answer() == "stored 4"
        room.check()
        assert events(room.copy) == room.events(), "the witness has all"


@pytest.mark.xdist_group("times")
def test_slow_witness():
    """a start waits for a witness that takes seconds. If each message takes three seconds on its way, the first answer waits for a bounded
    time; then the witness is away, as log, folder and desks say, also once it has all, as long as it is slow"""
    with Witnessed(measures=["PATIENCE", "QUICK", "MEETING"]) as room:
        room.delay.write_text("1")
        room.start()
        assert "no witness" not in room.office.said(), f"it was there first: {room.office.said()}"
        room.delay.write_text("0")
        desks = [room.desk(number).talk("show 3 3 -> none") for number in range(1, 9)]
        room.has_all()
        room.delay.write_text("3")
        begun = time.monotonic()
        for line in ("show 1 1\n", "show 2 1\n", "show 3 1\n"):
            for desk in desks:
                desk.write(line)
            assert {desk.answer() for desk in desks} == {"none"}, f"the answers to {line}"
        assert time.monotonic() - begun < 60, "some five seconds in all"  # 24 times five would be more
        for it in (room.office, *desks):
            it.says(IS_AWAY)
        room.has_all()
        stays("it stays away", lambda: room.said_of_it().startswith(IS_AWAY), 15)  # for two answers of it
        room.delay.write_text("0")
        room.says_of_it(IS_THERE)
        room.has_all()
        room.check()


@pytest.mark.parametrize("words, why", [
    ("/nowhere/witness 'a b'", "/nowhere/witness can't be started: No such file or directory"),
    ("sh -c 'echo no such key >&2; exit 255'", "it has ended: no such key"),
    ("head -c 100000 /dev/zero", "a message has more than"),
    ("echo '{\"number\": \"1\"}'", "what it says is not what zhcount-witness says"),
    ("echo '[1]'", "what came is no message"), ("echo Welcome", "what came is no message"),
])
def test_no_such_command(new_room, words, why):
    """if the command can't be started, or says something else, the office goes on and says why; an open quotation mark is refused"""
    new_room.options = ["--witness", words]
    new_room.start().says(IS_AWAY, why)
    assert new_room.ask(1, "return 1 1 1 525").out == ["stored 1"]
    assert new_room.stop() == 0
    new_room.zhcount_office("--witness", "ssh 'other", new_room.setup, new_room.disk, new_room.folder, status=2)
