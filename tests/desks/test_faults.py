"""Tests of an office whose disk, set-up, program, folder or log is not as it should be: a start refuses it, and later the office stops
before it shows what does not hold. And that the facts that a start compares and an end notes are of one time."""
import os
import re
import resource
import shutil
import signal
import sqlite3

import pytest

from places import PROGRAM
from processes import Process, until

FIRST, SECOND = "return 1 1 1 525", "return 1 2 1 300"


def full_log(room):
    size = (room.folder / "night.db-wal").stat().st_size
    resource.prlimit(room.office.process.pid, resource.RLIMIT_FSIZE, (size + 30, resource.RLIM_INFINITY))


ANOTHER = "night.disk is no longer the file"
# A change while the office runs, or an edit of the program's answers, by sed; and the office's reason to end.
FAULTS = {
    "put in its place": (lambda room: os.replace(room.other_disk(FIRST, SECOND), room.disk), ANOTHER),
    "removed": (lambda room: room.disk.unlink(), ANOTHER),
    "a second name": (lambda room: os.link(room.disk, room.path / "second"), ANOTHER),
    "cut short": (lambda room: os.truncate(room.disk, 600_000), ANOTHER),
    "made longer": (lambda room: os.truncate(room.disk, 2_000_000), ANOTHER),
    "folder put aside": (lambda room: room.folder.rename(room.path / "aside"), "night.db is no longer the file"),
    "full": ("s/stored 4/refused device/", "the disk has failed: refused device. Copy it before anything else"),
    "reopen-disk": ("s/stored 4/refused reopen-disk/", "the disk has failed: refused reopen-disk"),
    "a sheet without its end": ("/^constituency 2/Q", "zhcount run has ended"),
    "of another desk": ("s/^1 stored 4/2 stored 4/", "zhcount answered desk 1 by '2 stored 4'"),
    "full log": (full_log, "night.db could not be written"),
    "put in its place at the end": (lambda room: os.replace(room.other_disk("return 3 1 1 90"), room.disk), ANOTHER),
    "put into the file at the end": (lambda room: shutil.copyfile(room.other_disk(), room.disk), "0 commands, and not all of the log's 3"),
    "full log at the end": (full_log, "night.db could not be written"),
}


@pytest.mark.parametrize("name", FAULTS)
def test_fault(new_room, name):
    """a disk, folder or answer that is not right stops the office before it shows or notes anything; the next right start has the line"""
    (change, text), is_end, line = FAULTS[name], "at the end" in name, "sheet" if "sheet" in name else SECOND
    room = new_room
    room.folder = room.path / os.fsdecode(b"\xff\xfe")  # a path need not be UTF-8, and can be in a message
    if isinstance(change, str):
        room.edits_answers(change)
    room.start()
    desk = room.desk(1).talk(f"{FIRST} -> stored 1", "return 2 1 1 90 -> stored 2", "return 3 1 1 90 -> stored 3")
    own = shutil.copy(room.disk, room.path / "own.disk")
    if callable(change):
        change(room)
    if is_end:
        room.office.kill(signal.SIGTERM)
    else:
        desk.write(f"{line}\n")
    room.office.says(text)
    room.ends(1 if line == "sheet" else 3)
    assert "every line is answered" not in room.office.said(), f"not said: {room.office.said()}"
    assert len(desk.out) == 3, "nothing more is shown"
    if not room.folder.exists():
        (room.path / "aside").rename(room.folder)
    last = room.events()[-1]
    if is_end:
        assert last.kind != "ended" or last.facts()["commands"] is None, f"nothing is noted of it: {last}"
    elif change is full_log:
        assert "1,2,1,300" not in room.zhcount("export"), "the program has not got it"
    else:
        room.office.says(f"unanswered: desk 1: {line}: the next start looks what became of it")
        assert room.of_desk(1)[-1] == (line, None), "it stays open"
    os.replace(own, room.disk)
    room.environment["ZHCOUNT"] = str(PROGRAM)
    room.start()
    if not is_end:
        assert re.match("stored 4|1 sheet provisional 3\nhouse(.|\n)*\nend$", desk.answer(line)), "its answer"
    room.check()


# At a start


@pytest.mark.parametrize("words, text", [
    (lambda room: [PROGRAM, "run", "--setup", room.setup, "--disk", room.disk], "another program has the disk: waiting for its end"),
    (lambda room: room.script("zhcount-office", "--replay", room.folder), "waiting for the end of zhcount-office --replay, process {} of "),
], ids=["disk", "folder"])
def test_start_waits(room, words, text):
    """a start waits for what has the disk or the folder, and names it; it goes on by itself, or ends at a signal"""
    room.stop()
    room.stands_in("[ $1 = format ] && while kill -0 $PPID 2> /dev/null; do sleep 0.02; done")  # so that a replay lasts
    holder = room.process(Process, words(room))
    holder.write(f"1 {FIRST}\n")
    until("it is at work", lambda: holder.out or room.children_of(holder))
    room.start(is_awaited=False).says(text.format(holder.process.pid))
    assert room.stop() == 0, "told to end"
    room.start(is_awaited=False).says(text.format(holder.process.pid))
    holder.kill()
    room.await_start()
    room.office.says("start 2,")


BEFORE = ["return 1 1 1 525 -> stored 1", "return 1 2 1 300 -> stored 2", "close 2 -> stored 3", "open -> held 0", "row 3 2 1 60 -> held 1"]


def disk(*lines):
    """Another disk, on which these lines were stored; and why it is refused."""
    return lambda room: os.replace(room.other_disk(*lines), room.disk), f"the disk has {len(lines)} commands, and not all of the log's 3"


def program(task, does):
    """A program that does something else for a task."""
    return lambda room: room.stands_in(f"[ $1 = {task} ] && {{ {does}; exit; }}")


def log(statement):
    """A log that somebody has changed."""
    return lambda room: sqlite3.connect(room.folder / "night.db", isolation_level=None).execute(statement).connection.close()


REFUSED = {
    "fewer": disk(FIRST, SECOND),
    "other returns": disk("return 1 1 1 526", SECOND, "close 2"),
    "other closings": disk(FIRST, SECOND, "close 3"),
    "a return is missing": disk(FIRST, "return 3 2 1 300", "close 2", "return 3 3 1 5"),
    "a return is another": disk("return 1 1 1 520", SECOND, "close 2", "return 3 3 1 5"),
    "no disk": (lambda room: room.disk.unlink(), "zhcount: disk device"),
    "a disk that fails": (lambda room: room.edits_answers("s/held 1/refused device/"), "the disk has failed: refused device. Copy it"),
    "another set-up": (lambda room: room.setup.write_text(room.setup.read_text() + "# other\n"),
                       "{0.setup} is not the set-up of this log: give the right one, or another folder and a new disk"),
    "no set-up": (lambda room: room.setup.unlink(), "No such file or directory"),
    "no program": (lambda room: room.environment.update(ZHCOUNT="/none"), "/none can't be started: No such file or directory"),
    "other sums": (program("status", r"echo a text; echo no sums >&2"), "night.disk can't be read"),
    "bytes of status": (program("status", r"printf '\xff\n'"), "night.disk can't be read"),
    "other rows": (program("export", r"printf 'a text\nmore\n'"), "night.disk can't be read"),
    "bytes of export": (program("export", r"printf '\xff\xfe\n'"), "night.disk can't be read"),
    "bytes of a reason": (program("status", r"printf 'zhcount: disk damaged \xff\n' >&2; exit 1"), "zhcount status"),
    "no log": (lambda room: shutil.copyfile(room.setup, room.folder / "night.db"), "night.db could not be written or read: file is not a"),
    "another program's log": (log("PRAGMA application_id = 1"), "of another program or version: application_id 1, user_version 1"),
    "another version's log": (log("PRAGMA user_version = 2"), "of another program or version: application_id 2053661550, user_version 2"),
    "a line was changed": (log("UPDATE event SET text = 'close 1' WHERE number = 3"), "event 3 does not follow the one before it"),
    "a time was changed": (log("UPDATE event SET at = at || '0' WHERE number = 4"), "event 4 does not follow the one before it"),
    "an event was removed": (log("DELETE FROM event WHERE number = 4"), "event 5 does not follow the one before it"),
    "half of a log": (lambda room: (room.folder / "night.db").unlink(), "{0.folder} has no night.db"),
    "an older folder": (lambda room: (room.folder / "protocol").touch(),
                        "{0.folder} has the transcripts of an older zhcount: end that count with the scripts that it was begun with"),
    "others may read": (lambda room: room.folder.chmod(0o2755), "others may use {0.folder}: 'chmod 2750 {0.folder}' makes it right"),
    "the group may write": (lambda room: room.folder.chmod(0o2770), "others may use {0.folder}"),
    "another user's": (lambda room: os.chown(room.folder, 65534, 65534),
                       "belongs to nobody, and root runs the office: run it as nobody, or, as root, 'chown -R root {0.folder}'"),
}


@pytest.mark.parametrize("name", REFUSED)
def test_refused(room, tmp_path, name):
    """a start with something that is not the log's, or with a false log, says so, and notes and makes nothing; then nothing is lost"""
    if name == "another user's" and os.geteuid() != 0:
        pytest.skip("only root can give a folder away, or start an office as another user")
    change, text = REFUSED[name]
    desk = room.stops_at(room.desk(1).talk(*BEFORE), "return 3 1 1 90")
    own = shutil.copytree(room.path, tmp_path / "own", ignore=shutil.ignore_patterns("desk"))
    change(room)
    found = room.events(), sorted(os.listdir(room.path))
    room.refuses(text.format(room), status=1 if name == "no program" else 3)
    assert (room.events(), sorted(os.listdir(room.path))) == found, "nothing is noted or made"
    shutil.rmtree(room.path)
    shutil.copytree(own, room.path)
    room.environment["ZHCOUNT"] = str(PROGRAM)
    room.start()
    assert desk.answer() == "stored 4", "its answer"
    desk.talk("commit -> stored 5").end()
    room.check()


def test_used_disk(new_room):
    """a new folder refuses a disk that has commands, unless --take begins the log with it; --take refuses a folder that has a log"""
    room, words = new_room, ("--take", new_room.setup, new_room.disk, new_room.folder)
    room.by_hand(FIRST, "close 2")
    room.refuses(f"{room.disk} has 2 commands, but {room.folder} has no log of them: take a new disk, or, if it is meant, begin the log by "
                 "--take")
    assert room.events() == [], "nothing is noted"
    assert "the disk is taken with its 2 commands" in room.zhcount_office(*words), "it is said"
    room.start()
    assert room.ask(1, "show 1 1", SECOND).out == ["shows 1 525", "stored 3"]
    room.check()
    assert f"{room.folder} has a log already" in room.zhcount_office(*words, status=3), "it is refused"
    assert room.rebuilt() == room.zhcount("export"), "the export is that of the disk made anew"


def test_commands_by_hand_meanwhile(room):
    """a command that comes by hand just before the office has the disk is in what the start compares. One that comes as the office ends is
    not in what the end notes: the next start notes it, and a rebuild goes"""
    by_hand = f"printf '1 {{}}\\n' | '{PROGRAM}' run --setup '{room.setup}' --disk '{room.disk}' > /dev/null 2>&1"
    assert room.ask(1, FIRST).out == ["stored 1"]
    # One that tries again and again has the disk as soon as the office lets go of it.
    other = room.process(Process, ["bash", "-c", f"until {by_hand.format('return 3 1 1 90')}; do :; done"])
    assert room.stop() == 0, "the end"
    assert other.wait() == 0, "the other"
    assert room.events()[-1].facts()["commands"] == 1, "what the end has noted"
    room.stands_in(f"if [ $1 = run ] && mkdir '{room.path}/flag' 2> /dev/null; then {by_hand.format(SECOND)}; fi")
    room.start().says("2 commands came in by hand before this start")
    assert room.ask(1, "return 1 3 1 120").out == ["stored 4"]
    room.stop()
    assert room.rebuilt() == room.zhcount("export"), "the export is that of the disk made anew"
