"""Tests of the disk that zhcount-office --rebuild makes: whole or not at all, over no other file, with the set-up of the log."""
import itertools
import os
import shutil
import signal
import stat

import pytest

from disks import DISK_BYTES
from places import PROGRAM
from processes import Process
from watch import WatchedRoom


@pytest.fixture
def written(night):
    """A night with one return, whose log is there."""
    night.begin(["1 return 1 1 1 525"])
    return night.put()


def test_nothing_is_overwritten(written):
    """a file, folder or link at the disk's path is left as it is, and so is a file that comes on the way"""
    file, folder, link = (written.path / it for it in ("file", "folder", "link"))
    file.write_text("mine")
    folder.mkdir()
    link.symlink_to("nowhere")
    for path in (file, folder, link):
        before = os.lstat(path)
        said = written.zhcount_office("--rebuild", written.folder, path, status=1)
        assert f"{path} is there already" in said, f"a {path.name}"
        assert (os.lstat(path), os.lstat(path).st_mtime_ns) == (before, before.st_mtime_ns), "it is left"
    written.stands_in(f"[ $1 = export ] && echo mine > '{written.new}'")
    assert "not made: [Errno 17] File exists: " in written.rebuild(status=1), "it is said"
    assert written.new.read_bytes() == b"mine\n", "one that came"
    assert [*written.path.glob("new.disk.*")] == [], "nothing else is left"


def test_whole_or_not_at_all(written):
    """the disk gets its name once all of it is on the device, for its owner alone, and nothing changes it then; its name is synced last"""
    calls = []
    with WatchedRoom(lambda call: calls.append((call.name, call.path))) as room:
        folder = room.path / "made"
        folder.mkdir()
        shutil.copytree(written.folder, room.folder)
        room.process(Process, room.script("zhcount-office", "--rebuild", room.folder, folder / "new.disk")).ends_with(0, "the rebuild")
        steps = [(name, path) for name, path in calls if path.startswith(str(folder)) and name != "look"]
        names = " ".join(name for name, _ in itertools.groupby(steps, lambda it: it[0]))
        assert names == "open write sync link sync", "the calls that make it"
        assert steps[-1][1] == str(folder), "what is synced last"
        assert os.listdir(folder) == ["new.disk"], "what is there"
        made = (folder / "new.disk").stat()
        assert (stat.filemode(made.st_mode), made.st_size) == ("-rw-------", DISK_BYTES), "who may use it, and its bytes"


def test_beside_an_office(room):
    """while an office runs, replay, rebuild and another office name it, and it goes on; after its end they work, and it can start again"""
    assert room.ask(1, "return 1 1 1 525").out == ["stored 1"]
    for status, *words in ((1, "--replay", room.folder), (1, "--rebuild", room.folder, room.path / "new.disk"),
                           (3, room.setup, room.disk, room.folder), (3, "--take", room.setup, room.disk, room.folder)):
        said = room.zhcount_office(*words, status=status)
        who = f"another office, witness or replay has {room.folder}: zhcount-office, process {room.office.process.pid} of"
        assert who in said, f"{words[0]}: {said}"
    assert room.ask(1, "return 1 2 1 300").out == ["stored 2"]
    room.check()
    room.start()


def test_set_up_of_the_log(written):
    """the set-up is that of the log: it is put into the folder, in place of another one there"""
    setup = written.folder / "setup.toml"
    for _ in range(2):
        written.rebuild()
        assert setup.read_bytes() == written.setup.read_bytes(), "the set-up"
        assert stat.filemode(setup.stat().st_mode) == "-rw-r-----", "who may use it"
        setup.write_text(setup.read_text().replace('"Nord"', '"Nort"'))


def test_killed_rebuild(written):
    """a rebuild removes the folder in memory of one that was killed, and leaves that of one at work"""
    memory = written.path / "memory"  # of this test alone: any office beside it would remove what is left
    at_work = memory / f"zhcount-{os.geteuid()}-{os.getpid()}-x"
    at_work.mkdir(parents=True)
    written.edit_script("zhcount_program.py", r'"/dev/shm" if .* else tempfile\.gettempdir\(\)', repr(str(memory)))
    written.stands_in("[ $1 = run ] && kill -9 $PPID")
    written.rebuild(status=-signal.SIGKILL)
    assert len([*memory.iterdir()]) == 2, "it is left"
    written.environment["ZHCOUNT"] = str(PROGRAM)
    written.rebuild()
    assert [*memory.iterdir()] == [at_work], "the next one removes it"
    assert "the same: " in written.replay(), "the log is as before"
