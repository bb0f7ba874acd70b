"""Tests of when an office copies its disk, and of the child that writes what follows from a copy: killed, slow, failing, or left by its
office."""
import concurrent.futures
import errno
import os
import re
import resource
import signal

import pytest

from logs import events
from now import NEVER, RETURNS, QuickRoom, compare, link_of, names_of_now
from places import PROGRAM
from processes import command_of, stand_still, stays, until
from quiet import patient_scripts
from room import Room, running
from watch import Stop, WatchedRoom, some_of

ROOM = QuickRoom


@pytest.mark.xdist_group("times")
def test_every_ten_seconds():
    """a command that comes soon after a copy is shown ten seconds after it, without another line"""
    with Room() as room:
        room.edit_script("zhcount_now.py", "^PRIORITY = .*", "PRIORITY = 0")  # a busy machine would let the child wait long
        desk = room.desk(1)
        desk.write("".join(f"{it}\n" for it in RETURNS[:2]))
        room.start()
        until("the first", lambda: link_of(room) == "now-0")
        first = (room.folder / "now/disk").stat().st_mtime
        until("the next", lambda: names_of_now(room) == ["now", "now-2"])
        seconds = (room.folder / "now/disk").stat().st_mtime - first
        assert 9 < seconds < 60, f"after {seconds:.1f} seconds"
        assert desk.out == ["stored 1", "stored 2"]
        stays("nothing is copied where nothing has changed", lambda: names_of_now(room) == ["now", "now-2"])


def test_lines_meanwhile():
    """lines that come after the copy are in none of the files of its child, which leaves the processor to others"""
    with QuickRoom(every=NEVER, priority=19) as room:
        room.held.touch()
        waits = f"    while os.path.exists({str(room.held)!r}):\n        time.sleep(0.02)\n"
        room.edit_script("zhcount_now.py", r"^    try:\n        files = ", rf"{waits}\g<0>")
        room.start()
        until("its priority", lambda: os.getpriority(os.PRIO_PROCESS, room.working()) == 19)
        os.setpriority(os.PRIO_PROCESS, room.working(), 0)
        numbers = range(1, 201)  # more lines than the office writes at once
        shown = room.ask(1, *(f"return 1 1 {it} 525" for it in numbers)).out
        assert shown == [f"stored {it}" for it in numbers], "the answers"
        assert names_of_now(room) == ["now-0"], "`now` is not there before all is"
        room.goes_on()
        compare(room, [], shown=0)


def test_copies_between_lines(new_room):
    """the disk is copied only while no line waits for its answer or for the witness: a copy has nothing that no desk was shown"""
    room, copy, script = new_room, new_room.path / "copy", str(new_room.scripts / "zhcount-witness")
    room.scripts = patient_scripts(room.scripts)
    room.start("--witness-required", "--witness", f"{script} {copy}")
    desk = room.desk(1).talk(f"{RETURNS[0]} -> stored 1")
    for number, word in enumerate(("run", script), 1):
        room.shows(number)
        until("the witness has all", lambda: room.events() == events(copy))
        until("its child has ended", lambda: not room.child())
        pid = until(word, lambda it=word: room.child(it))
        stand_still(pid)
        try:
            room.note(desk, RETURNS[number])
            stays("nothing is copied", lambda it=number: not room.child() and names_of_now(room) == ["now", f"now-{it}"], 3)
        finally:
            os.kill(pid, signal.SIGCONT)
        assert desk.answer() == f"stored {number + 1}"
    room.shows(3)


def test_copy_of_other_commands(new_room):
    """a copy that has other commands than the log is not shown"""
    new_room.on_copies(f"printf '1 return 1 1 1 5\\n' | '{PROGRAM}' run --setup \"$3\" --disk \"$5\" > '{new_room.path}/said'")
    new_room.start().says("could not be renewed: the copy has not the 0 commands of the log: ")
    assert link_of(new_room) is None, "nothing is shown"


def test_copy_of_another_disk(new_room):
    """another disk at the disk's path is not copied: the office stops"""
    new_room.start_held()
    assert new_room.ask(1, RETURNS[0]).out == ["stored 1"]
    os.replace(new_room.other_disk(RETURNS[1]), new_room.disk)
    new_room.goes_on()
    new_room.ends(3, "is no longer the file")


def test_failed_disk(new_room):
    """after `device` nothing is copied"""
    new_room.edits_answers("s/stored 2/refused device/")
    new_room.start()
    desk = new_room.desk(1).talk(f"{RETURNS[0]} -> stored 1")
    new_room.shows(1)
    desk.write(f"{RETURNS[1]}\n")
    new_room.ends(3)
    assert names_of_now(new_room) == ["now", "now-1"], "what `now` shows"


# The child


def test_late_child(new_room):
    """if a child is killed the log says so, and another one does its work; one that takes too long is killed, with what it has started,
    and desks are answered all the time"""
    late, is_said = new_room.is_patient(), "could not be renewed: its process was killed after "
    new_room.start_held()
    os.kill(new_room.working(), signal.SIGKILL)
    new_room.office.says(is_said)
    new_room.goes_on()
    compare(new_room, [])
    new_room.held.touch()
    assert new_room.ask(1, RETURNS[0]).out == ["stored 1"], "the answer while the child is late"
    until("a question about a copy", new_room.left_over)
    late.touch()
    until("that one is killed too", lambda: new_room.office.said().count(is_said) > 1)
    new_room.stop()
    until("nothing is left", lambda: not new_room.left_over())
    assert names_of_now(new_room) == ["now", "now-0"], "and no folder"


def test_no_room(new_room):
    """an office that has no room for a copy or a sheet says so, and goes on"""
    office = new_room.start()
    new_room.shows(0)
    resource.prlimit(office.process.pid, resource.RLIMIT_FSIZE, (500_000, resource.RLIM_INFINITY))
    assert new_room.ask(1, *RETURNS).out == [f"stored {it}" for it in range(1, 10)]
    office.says("could not be renewed: [Errno 27] File too large")
    (new_room.folder / "sheet-9.new").mkdir()
    assert new_room.ask(2, "sheet").out[0] == "2 sheet provisional 9", "the sheet"
    office.says("a sheet is not put into the folder: ")
    new_room.shows(0)
    resource.prlimit(office.process.pid, resource.RLIMIT_FSIZE, (resource.RLIM_INFINITY, resource.RLIM_INFINITY))
    new_room.shows(9)
    assert new_room.stop() == 0


def test_ends_without_its_child():
    """an office that is told to end waits for its child; one that is told twice, or killed, does not. The child then shows nothing, and
    the next start removes what it left"""
    with running(QuickRoom(every=NEVER)) as room:
        assert room.ask(1, RETURNS[0]).out == ["stored 1"]
        room.stop()
        for is_told in (False, True):
            room.start_held()
            child = room.working()
            assert names_of_now(room) == ["now-1"], "an older `now` is gone"
            if is_told:
                room.office.kill(signal.SIGTERM)
                child = until("the last child", lambda it=child: room.child() != it and room.child())
                stays("it waits", lambda: not room.office.has_ended())
            room.office.kill(signal.SIGTERM if is_told else signal.SIGKILL)
            until("the office has ended", room.office.has_ended)
            room.goes_on()
            until("its child has ended", lambda it=child: not command_of(it))
            assert room.office.wait() == (0 if is_told else -signal.SIGKILL)
            assert names_of_now(room) == ["now-1"], "what is there"
            (room.folder / "now-7-7").mkdir()
            (room.folder / "now").symlink_to("now-7-7")
        room.start()
        compare(room, RETURNS[:1])
        room.check()


class InNow(Stop):
    """A stop, or a fault, of the office or of its child at the call of this number in `now`, while that shows another command."""

    def __init__(self, scripts, fault, number=0):
        super().__init__(number)
        self.scripts, self.fault, self.kinds, self.has_shown, self.is_over = scripts, fault, [], [], False

    def counts(self, call):
        is_of_now = re.search(r"/office/now[^/]*(/.*)?$", call.path) and call.name != "look"
        is_ours = call.pid in self.room.pids or b"zhcount_now" in command_of(call.pid)
        is_counted = is_of_now and is_ours and not self.is_over and (self.has_shown or link_of(self.room))
        if is_counted:
            self.kinds.append((call.pid in self.room.pids, call.name, call.path.count("/")))
            self.has_shown.append((self.room.folder / "now").exists())
        return is_counted

    def now(self, call):
        return self.fault or super().now(call)

    def run(self):
        with WatchedRoom(self.before, self.scripts) as room:
            self.room = room
            room.start(is_awaited=False)
            self.until("now-0", lambda: link_of(room) == "now-0")
            desk = room.desk(1)
            desk.write(f"{RETURNS[0]}\n")
            self.until("now-1", lambda: desk.out and link_of(room) == "now-1")
            self.until("now-1 alone", lambda: names_of_now(room) == ["now", "now-1"] or self.fault and self.call)
            self.is_over = True
            desk.write(f"{RETURNS[1]}\n")
            self.until("now-2 alone", lambda: link_of(room) == "now-2" and names_of_now(room) == ["now", "now-2"])
            assert (room.folder / "now/held.csv").read_text().split()[1:] == ["1,1,1,525", "1,2,1,300"]
        assert all(self.has_shown) or self.number and not self.fault, "it leads to something each time"
        return self.kinds

    def until(self, what, holds):
        """Waits until something holds, and starts the office again where it was stopped."""
        def goes_on():
            return self.room.office.process.poll() == -signal.SIGKILL and self.room.start(is_awaited=False)
        until(f"stop {self.number}: {what}", lambda: not goes_on() and holds())


@pytest.mark.parametrize("is_all", [False, pytest.param(True, marks=pytest.mark.slow)], ids=["some", "all"])
@pytest.mark.parametrize("fault", [0, errno.ENOSPC], ids=["kill", "fault"])
def test_stopped(new_room, fault, is_all):
    """kill -9, or a fault, at calls of the office and its child that make, change or remove something of `now`, of each kind the first or
    all: all is shown in the end, and nothing else. Where nothing is stopped it always leads to a folder that is there"""
    kinds = InNow(new_room.scripts, fault).run()
    assert len(kinds) > 15, f"calls: {len(kinds)}"
    with concurrent.futures.ThreadPoolExecutor(5) as pool:
        list(pool.map(lambda number: InNow(new_room.scripts, fault, number).run(), some_of(kinds, is_all)))
