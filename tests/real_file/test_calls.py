"""Tasks of the program on real files, where each allocation is refused, each call of a file fails, or output and standard error are
closed at each byte, in turn (tests/refuse.c)."""
import itertools
import os
import re

import pytest

from real_files import Room, bash
from refusing import Preloaded

VOTES = [525, 300, 175, 240, 330, 30, 90, 60, 50]  # of three lists in three municipalities
HEAD = "municipality,list,number,votes\n"
FORMAT, DISK = "format --disk kinds/d", "--disk kinds/d"
OPENED = ["setup file", "disk device"]  # the faults of the files that are opened first
NO_MEMORY = "zhcount: memory\n"
REMARK = "zhcount: rehearsal, nothing is kept\n"


class Folder(Room):
    """A folder with a disk, `kinds/d`, and the sheet and the rows of its returns. `before` are the disk's bytes; None: it is not there."""

    def __init__(self, library, program, path):
        super().__init__(program, path)
        self.preloaded, self.disk = Preloaded(library, path), path / "kinds/d"
        self.ends(FORMAT)
        returns = "".join(f"1 return {1 + k // 3} {1 + k % 3} 1 {votes}\n" for k, votes in enumerate(VOTES))
        (path / "sheet").write_text(self.ends(f"run {DISK}", out=None, lines=f"{returns}1 sheet\n").partition("stored 9\n")[2])
        (path / "held.csv").write_text(self.ends(f"export {DISK}", out=None))
        self.before = self.disk.read_bytes()

    def failing(self, task, given=os.devnull, **fails):
        """A run of a task, or of none, which is a rehearsal."""
        return self.preloaded.run(*(self.words(task) if task else [self.program]), given=given, **fails)

    def clear(self):
        """Leaves nothing but the disk."""
        for it in self.disk.parent.iterdir():
            it.unlink()
        if self.before:
            self.disk.write_bytes(self.before)

    def each_failing(self, what, task):
        """The runs of a task in which a call (FAIL) or an allocation (REFUSE) fails, except those that succeed without it: these do what a
        run does in which none fails."""
        self.clear()
        whole = self.failing(task, "lines")
        assert whole.status == 0
        for number in itertools.count(1):
            self.clear()
            it = self.failing(task, "lines", **{what: number})
            if not it.is_reached:
                break
            if it.status == 0:
                assert it[:3] == whole[:3], f"without {what} {number}"
            else:
                yield number, it
        assert number > 1


@pytest.fixture
def folder(library, program, tmp_path):
    return Folder(library, program, tmp_path)


@pytest.mark.parametrize("task", [
    FORMAT, f"run {DISK}", f"export {DISK}", f"load {DISK} --csv returns.csv", f"load {DISK} --csv returns.csv --dry-run",
    f"status {DISK} --missing", f"status {DISK} --implausible", f"votes {DISK}", f"votes {DISK} --of groups",
    f"votes {DISK} --table", f"seats {DISK} --table", f"seats {DISK} --of groups --table", f"seats {DISK} --of constituencies",
    "seats --sheet sheet", "check --sheet sheet --held held.csv", "list --of constituencies", "list --of returns --municipality 2",
])
def test_allocation_is_refused(task, folder):
    """The fault is memory, and the disk is untouched."""
    (folder.path / "lines").write_text("1 show 1 1\n")
    (folder.path / "returns.csv").write_text(HEAD + "1,1,2,14\n2,2,2,15\n")
    # (no memory for the rows of a file, or for a search)
    faults = [NO_MEMORY, {"load": "refused memory\n", "seats": "zhcount: refused memory\n"}.get(task.split()[0])]
    if task == FORMAT:
        folder.before = None
    for number, it in folder.each_failing("REFUSE", task):
        assert it.status == 1 and it.out + it.said in faults, f"without allocation {number}: {it}"
        if folder.before:
            assert folder.disk.read_bytes() == folder.before, f"the disk without allocation {number}"
        else:
            folder.takes_a_new_disk("kinds/d")


def test_allocation_is_refused_to_a_rehearsal(folder):
    """Its disk is in memory: a refused allocation is a fault of the disk while lines are answered, and `memory` before that."""
    (folder.path / "lines").write_text("1 return 1 1 1 525\n1 show 1 1\n")
    assert folder.failing("", "lines")[:3] == (0, "1 stored 1\n1 shows 1 525\n", REMARK)
    ends = {it[:3] for _, it in folder.each_failing("REFUSE", "")}
    assert ends and ends <= {(1, "", NO_MEMORY), (1, "", REMARK + NO_MEMORY),
                             (1, "1 refused device\n1 refused reopen-disk\n", f"{REMARK}zhcount: disk device\n")}


@pytest.mark.parametrize("task, faults, replies", [
    (f"run {DISK}", OPENED, ["1 refused device\n"]),
    (f"load {DISK} --csv returns.csv", [*OPENED, "csv file", "disk device"], ["refused csv\n", "refused device\n"]),
    (f"export {DISK}", OPENED, []), (f"status {DISK}", OPENED, []), (f"votes {DISK}", OPENED, []), (f"seats {DISK}", OPENED, []),
    (f"load {DISK} --csv returns.csv --dry-run", [*OPENED, "csv file"], []),
    ("seats --sheet sheet", ["setup file", "sheet file"], []), ("check --sheet sheet", ["setup file", "sheet file"], []),
    ("check --sheet sheet --held held.csv", ["setup file", "sheet file", "held file"], []), ("list --of returns", ["setup file"], []),
])
def test_call_fails(task, faults, replies, folder):
    """The task says nothing, or one of these replies, and these faults come, in this order. Afterwards the disk is as it was, or holds the
    return if the task stores it."""
    (folder.path / "lines").write_text("1 return 1 1 2 530\n")
    (folder.path / "returns.csv").write_text(HEAD + "1,1,2,530\n")
    found = []
    for number, it in folder.each_failing("FAIL", task):
        said = it.said.splitlines()
        found += said[:1]
        assert it.status == 1 and it.out in ("", *replies), f"without call {number}: {it}"
        # (a reply may say it instead)
        assert len(said) == 2 or it.out and not said, f"without call {number}: {it}"
        assert not re.search(": (there is|is a)", it.said), f"a call that failed is no missing file, nor a folder: {it}"
        if replies:
            shown = folder.ends(f"run {DISK}", out=None, lines="1 show 1 1\n")
            assert shown in ("1 shows 1 525\n", "1 shows 2 530\n"), f"after {number} calls"
        else:
            assert folder.disk.read_bytes() == folder.before, f"the disk without call {number}"
    assert [it.replace("zhcount: ", "") for it, _ in itertools.groupby(found)] == faults


def test_call_of_a_format_fails(folder):
    """The file is empty, or has its space."""
    folder.before, emptied = None, 0
    (folder.path / "lines").touch()
    for number, _ in folder.each_failing("FAIL", FORMAT):
        is_empty = not folder.disk.exists() or folder.disk.stat().st_size == 0
        emptied += is_empty
        assert is_empty or folder.has_its_space("kinds/d"), f"after call {number}"
        assert folder.run(FORMAT) in ((0, "", ""), (1, "", "zhcount: disk inuse\nkinds/d\n")), f"a format after call {number}"
        assert folder.has_its_space("kinds/d"), f"after call {number}, and a format"
    assert emptied > 100


@pytest.mark.parametrize("task, status", [
    (f"export {DISK}", 0), (f"status {DISK} --constituencies", 0), (f"votes {DISK} --of groups --table", 0), (f"seats {DISK} --table", 0),
    ("seats --sheet sheet", 0), ("seats --sheet sheet --of constituencies --table", 0),
    (f"seats {DISK} --final", 1), ("seats --sheet wrong", 1), ("check --sheet sheet --held held.csv", 0), ("check --sheet wrong", 1),
    (f"load {DISK} --csv refused.csv --dry-run", 1), (f"load {DISK} --csv refused.csv", 1), (f"load {DISK} --csv held.csv", 0),
    ("list --of returns --municipality 2", 0),
])
def test_stream_is_closed(task, status, folder):
    """The output breaks off, and the fault is write. Standard error changes neither output nor status."""
    (folder.path / "refused.csv").write_text(HEAD + "1,1,1,14\n")
    (folder.path / "wrong").write_text((folder.path / "sheet").read_text().replace("\nhouse 10\n", "\nhouse 11\n"))
    whole = folder.failing(task)
    assert whole.status == status and whole.out + whole.said
    for length in range(len(whole.out)):
        assert folder.failing(task, OUTPUT=length)[:3] == (1, whole.out[:length], "zhcount: write\n")
    for length in range(len(whole.said)):
        assert folder.failing(task, ERRORS=length)[:3] == (status, whole.out, whole.said[:length])
    assert folder.disk.read_bytes() == folder.before


@pytest.mark.parametrize("words, remark", [((), REMARK), (("--version",), "")], ids=["rehearsal", "version"])
def test_stream_is_closed_without_a_disk(words, remark, folder):
    (folder.path / "lines").write_text("1 return 1 1 1 525\n1 show 1 1\n1 show 2 1\n")

    def output(**fails):
        return folder.preloaded.run(folder.program, *words, given="lines", **fails)[:3]

    status, out, said = output()
    assert (status, said) == (0, remark) and out
    for length in range(len(out)):
        assert output(OUTPUT=length) == (1, out[:length], f"{remark}zhcount: write\n")


def test_input_fails(folder):
    """It is a folder, so that each read fails."""
    assert folder.run(f"run {DISK}", before=bash('exec "$@" < .')) == (1, "", "zhcount: read\n")
    assert folder.disk.read_bytes() == folder.before
