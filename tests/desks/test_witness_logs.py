"""Tests of the log of a witness: which one an office takes for its own, when it is on the device, and in which pieces it comes; and what
zhcount-witness takes: the folder, who has it, and messages of any kind."""
import json
import os
import shutil
import signal

import pytest

from logs import Written, events
from processes import Process, stays, until
from watch import WatchedRoom
from witnessed import Witnessed

ROOM = Witnessed
GREETING, NO_FORM = {"number": 0, "sum": ""}, "what came is not what an office says"


@pytest.mark.parametrize("is_longer", [False, True], ids=["another", "longer"])
@pytest.mark.parametrize("when", ["at a start", "in the night"])
def test_another_log(new_room, when, is_longer):
    """a witness with another log, for example that of the drills, or with more of the same log, for example where the office has an older
    copy of its folder, is status 3 at a start, with what to do; in the night the office goes on without it. No log changes"""
    room = new_room
    room.start()
    desk = room.desk(1).talk("return 1 1 1 525 -> stored 1")
    if when == "at a start":
        room.stop()
    else:
        room.lose_witness()
        desk.says("no witness since")
    until("the witness has ended", lambda: not room.witness())
    own = room.events()
    log, why = Written(room.copy, own).edited("line", "525", "525", "526"), "the witness's log differs from that of"
    if is_longer:
        log, why = Written(room.copy, own), f"the first {len(own)} of them: if the count went on there, make the disk from that folder"
        log.add("line", "return 1 1 2 530", 1, 2)
        log.add("answer", "stored 2", 1, 2)
    log.put()
    if when == "at a start":
        room.refuses(why)
        assert room.events() == own, "the own one has nothing new"
    else:
        room.away.unlink()
        room.office.says("still no witness: the witness", why)
        desk.talk("return 1 1 2 531 -> stored 2")
        assert room.stop() == 0
    assert events(room.copy) == log.events, "the witness's log"
    if is_longer:
        room.moves()
        assert room.zhcount("export").split()[1:] == ["1,1,2,530"], "what the disk made of it holds"


def test_nothing_is_shown_that_it_has_not_written():
    """an answer is shown once the witness has written it, and not while it is about to write"""
    stopped, armed = [], []

    def before(call):
        if armed and not stopped and (call.who, call.name, call.file) == ("witness", "write", "night.db-wal"):
            stopped.append(call.pid)
            os.kill(call.pid, signal.SIGSTOP)

    with WatchedRoom(before) as room:
        room.with_witness()
        room.start()
        desk = room.desk(1).talk("show 1 1 -> none")
        until("the witness has all", lambda: events(room.folder) == events(room.copy))
        armed.append(desk)
        desk.write("return 1 1 1 525\n")
        until("it is about to write", lambda: stopped)
        stays("no answer is shown", lambda: len(desk.out) == 1, 2)
        os.kill(stopped[0], signal.SIGCONT)
        assert desk.answer() == "stored 1"
        room.stop()


@pytest.mark.xdist_group("times")
def test_witness_that_lacks_much():
    """a start waits for a witness that lacks much, which gets it in messages of at most 64 KB, and is there as long as it takes in one
    after the other"""
    for _ in range(3):  # on a busy machine one message alone can take longer than a witness may be silent
        with Witnessed(measures=["SILENCE", "PATIENCE"]) as room:
            came, room.options = room.path / "came", []
            room.start()
            room.desk(1).end(b"".join(b"\xff" * 117 + b"%04d\n" % number for number in range(500)))
            room.stop()
            room.options = ["--witness", f"sh -c \"tee '{came}' | '{room.command}'\""]
            room.delay.write_text("0.4")
            room.start()
            room.has_all()
            said, sizes = room.office.said(), [len(it) + 1 for it in came.read_bytes().split(b"\n")]
        if "no witness" not in said:
            break
    assert "no witness" not in said, f"it is there: {said}"
    assert said.startswith("zhcount-office: the witness has been connected"), f"it was there first: {said}"
    assert sum(sizes) > 300_000 and 20_000 < max(sizes) <= 65536, f"messages: {sizes}"


# What a witness takes


def test_waits_for_the_one_before(new_room):
    """a witness and an office wait for the witness that has their folder, and say so; one that hears nothing for 20 seconds ends"""
    first = new_room.process(Process, new_room.script("zhcount-witness", new_room.copy))
    first.write(f"{json.dumps(GREETING)}\n")
    until("it is ready", lambda: first.out)
    said = new_room.zhcount_office("--rebuild", new_room.copy, new_room.path / "new", status=1)
    assert f"another office, witness or replay has {new_room.copy}" in said, f"a rebuild beside it: {said}"
    first.write('{"events": "[]", "more": false}\n')
    new_room.start(is_awaited=False)
    new_room.office.says(f"the witness waits for zhcount-witness, process {first.process.pid} of ")
    new_room.await_start()
    first.ends_with(1, "the first")
    assert first.said() == f"zhcount-witness: {new_room.copy}: nothing has come for 20 seconds"
    new_room.office.says("the witness has been connected since")
    assert new_room.ask(1, "return 1 1 1 525").out == ["stored 1"]
    new_room.has_all()
    disk = shutil.copyfile(new_room.disk, new_room.path / "saved.disk")
    second = new_room.process(Process, new_room.script("zhcount-office", new_room.setup, disk, new_room.copy))
    second.says(f"waiting for the end of zhcount-witness, process {new_room.witness()} of ")
    new_room.stop(signal.SIGKILL)
    second.says("desks can send lines")


def spoken(room, *messages, folder=None):
    """A witness that was sent these messages, and then ended."""
    witness = room.process(Process, room.script("zhcount-witness", folder or room.copy))
    witness.status = witness.end("".join(f"{it if isinstance(it, str) else json.dumps(it)}\n" for it in (GREETING, *messages)))
    return witness


def refuses(room, said, *messages, folder=None):
    """A witness refuses what it was sent, by one line that contains this."""
    witness = spoken(room, *messages, folder=folder)
    assert witness.status == 1, f"the status after {messages}: {witness.said()}"
    assert said in witness.said() and "\n" not in witness.said(), f"it says so, {messages}: {witness.said()}"


def listed(*found, size=10**7):
    """Messages with these events, each with this many characters of them at most."""
    text = json.dumps(found)
    return [{"events": text[it:it + size], "more": it + size < len(text)} for it in range(0, len(text), size)]


def test_refused_folder(new_room):
    """a folder that others may use, and one that can't be made, are refused"""
    copy = new_room.copy
    copy.mkdir()
    copy.chmod(0o755)
    refuses(new_room, f"zhcount-witness: {copy}: others may use {copy}: 'chmod 2750 {copy}' makes it right")
    refuses(new_room, "No such file or directory", folder=new_room.path / "no/copy")


def test_what_follows(new_room):
    """events that follow are taken, all of a message or none; others, and what is no message, are refused"""
    log = Written(new_room.copy)
    first, second, third = log.add("setup", "x"), log.add("start", "{}"), log.add("line", "show 1 1", 1, 1)
    taken = spoken(new_room, *listed(first), *listed())
    assert (taken.status, [json.loads(it)["number"] for it in taken.out]) == (0, [0, 1, 1]), taken.said()
    changed = second._replace(text="y")
    for messages, said in [*((listed(it), "does not follow") for it in (changed, third, first)),
                           *((listed(second, changed, size=it), "does not follow") for it in (40, 10**7)),
                           (["x"], "no message"), (["[]"], "no message"), (["[" * 10000], "no message"), (["{}"], NO_FORM),
                           *(([{"events": it, "more": False}], NO_FORM) for it in ("x", 5, "[[1, 2]]", "[5]"))]:
        refuses(new_room, said, *messages)
        assert events(new_room.copy) == [first], "what it has"
    taken = spoken(new_room, *listed(second, third, size=40))
    assert (taken.status, events(new_room.copy)) == (0, [first, second, third]), taken.said()


def test_checkpoints(new_room):
    """what a witness takes, however much, is not brought into night.db by SQLite, which says nothing of errors"""
    witness = new_room.process(Process, new_room.script("zhcount-witness", new_room.copy))
    much, = listed(Written(new_room.copy).add("setup", "x" * 4_150_000))
    witness.write(f"{json.dumps(GREETING)}\n{json.dumps(much)}\n")
    until("it is taken", lambda: len(witness.out) == 2)
    assert (new_room.copy / "night.db").stat().st_size < 1 << 20, "night.db has none of it"
    assert witness.end() == 0, f"the end: {witness.said()}"
    assert (new_room.copy / "night.db").stat().st_size > 4 << 20 - 1, "and then all of it"
