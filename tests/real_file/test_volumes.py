"""A full volume, and streams that are closed or full."""
import os
import shlex
import subprocess
from pathlib import Path

import pytest

from real_files import DISK, JOURNAL, PAGE, Room, bash, returns, shows, stored

PAGES = (340 * 1024 - JOURNAL) // PAGE  # as many returns as fit in a file of 340 KiB
ALL = "<&- >&- 2>&-"
RUN, FORMAT = "run --disk d", "format --disk d"


def limited(kibibytes: int) -> tuple:
    """The words before a command for which no file grows beyond this size: a write there fails."""
    return bash(f"trap '' XFSZ; ulimit -f {kibibytes}; exec \"$@\"")


def test_run_keeps_what_it_acknowledged(disk: Room) -> None:
    replies = stored(1, PAGES) + "1 refused device\n" + 4 * "1 refused reopen-disk\n"
    disk.ends("run --disk d", 1, "disk device\nd", replies, lines=returns(1, 1, PAGES + 5), before=limited(340))
    disk.serves("d", "1 show 1 1\n", shows(PAGES))
    disk.serves("d", returns(1, PAGES, PAGES + 1), f"1 same\n1 stored {PAGES + 1}\n")


@pytest.mark.parametrize("length, kibibytes, fault, left", [
    (0, 500, "disk device\nd: a call failed", f"disk size\nd: 0 bytes instead of {DISK}"), (DISK, 200, "disk device\nd", "disk blank\nd"),
])
def test_format_can_be_done_again(length: int, kibibytes: int, fault: str, left: str, room: Room) -> None:
    """Only a format takes what one that failed has left, of a new file and of one that has the length of a disk."""
    if length:
        (room.path / "d").touch()
        os.truncate(room.path / "d", length)
    room.ends("format --disk d", 1, fault, before=limited(kibibytes))
    with room.untouched():
        room.ends("run --disk d", 1, left)
    room.takes_a_new_disk("d")


def test_format_takes_the_space_that_a_disk_takes(disk: Room) -> None:
    """An empty file gets its blocks. One that has the length of a disk is formatted as it is."""
    (disk.path / "empty").touch()
    disk.ends("format --disk empty")
    assert disk.has_its_space("d") and disk.has_its_space("empty")
    (disk.path / "long").touch()
    os.truncate(disk.path / "long", DISK)
    disk.ends("format --disk long")
    assert not disk.has_its_space("long")
    assert (disk.path / "long").read_bytes() == (disk.path / "d").read_bytes()


def test_format_on_a_small_volume_which_then_grows(room: Room) -> None:
    """Then it is full, and a disk that has its space goes on. Only these commands see the volume."""
    (room.path / "volume").mkdir()
    (room.path / "lines").write_text(returns(1, 1, 1100))
    task, run = (shlex.join(room.words(f"{it} --disk volume/d")) for it in ("format", "run"))
    commands = f"""mount -t tmpfs -o size=1m none volume && echo mounted || exit
        {task}
        {run}
        mount -o remount,size=2m none volume
        {task}
        cat /dev/zero 2> /dev/null > volume/rest
        {run} < lines"""
    out = subprocess.run(["unshare", "--mount", "bash", "-c", commands], cwd=room.path, stdin=subprocess.DEVNULL, stdout=subprocess.PIPE,
                         stderr=subprocess.STDOUT, text=True).stdout
    if not out.startswith("mounted\n"):
        pytest.skip("no volume can be mounted here")
    assert out == ("mounted\nzhcount: disk device\nvolume/d: there is no room\n"
                   f"zhcount: disk size\nvolume/d: 0 bytes instead of {DISK}\n{stored(1, 1100)}")


@pytest.mark.parametrize("streams, task, lines, status, fault, replies, held", [
    (">&-", RUN, "1 show 1 1\n", 1, "write", "", 1), (">/dev/full", RUN, "1 show 1 1\n", 1, "write", "", 1),
    # a return whose reply can't be written is the last that it holds
    (">&-", RUN, returns(1, 2, 9), 1, "write", "", 2), (">/dev/full", RUN, returns(1, 2, 9), 1, "write", "", 2),
    ("<&-", RUN, "", 1, "read", "", 1), ("2>&-", RUN, returns(1, 2, 3), 0, "", stored(2, 3), 3), ("2>&-", FORMAT, "", 1, "", "", 1),
    (ALL, RUN, "", 1, "", "", 1), (ALL, FORMAT, "", 1, "", "", 1),
])
def test_stream(streams: str, task: str, lines: str, status: int, fault: str, replies: str, held: int, disk: Room) -> None:
    """The fault is write or read, and the disk is whole, or untouched where nothing is stored. It contains a line that a program would take
    if it read its disk in place of the closed input."""
    disk.serves("d", returns(1, 1, 1), "1 stored 1\n")
    with open(disk.path / "d", "r+b") as file:
        os.pwrite(file.fileno(), b"\n1 return 1 1 2 14\n", 100)
    before = (disk.path / "d").read_bytes()
    disk.ends(task, status, fault, replies, lines=lines, before=bash(f'exec "$@" {streams}'))
    assert held > 1 or (disk.path / "d").read_bytes() == before
    disk.serves("d", "1 show 1 1\n", shows(held))


@pytest.mark.parametrize("streams", ["<&-", ">&-", "2>&-", ALL])
def test_format_makes_a_disk(streams: str, room: Room) -> None:
    """Also for a set-up with problems, which it reports on standard error."""
    room.ends(FORMAT, before=bash(f'exec "$@" {streams}'))
    room.serves("d", returns(1, 1, 1), "1 stored 1\n")
    (room.path / "few.toml").write_text(Path(room.setup).read_text().replace("house = 10", "house = 1"))
    said = "" if "2>&-" in streams else "problems of the set-up: 2, named by list --of problems"
    room.ends("format --disk few", fault=said, before=bash(f'exec "$@" {streams}'), setup="few.toml")
