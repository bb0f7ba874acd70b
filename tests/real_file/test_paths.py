"""Files that are no disks, links, files beside the disk, and what can't be read or made."""
import os
import subprocess
from typing import Sequence

import pytest

from real_files import DISK, Room, bash, returns, shows, stored

ONE_NAME = "it or its companion is no file with one name"
GONE = "there is no such file"


def refused(room: Room, path: str, why: str, fault: str = "disk device") -> None:
    """Neither task takes the file, and both leave it as it is."""
    def look() -> Sequence:
        return subprocess.run(["stat", "-c", "%f %s %h %y", path], cwd=room.path, capture_output=True).stdout, room.names()

    before = look()
    for task in ("run", "format"):
        room.ends([task, "--disk", path], 1, f"{fault}\n{path}: {why}")
    assert look() == before


def test_format_and_run_make_a_disk_and_nothing_beside_it(room: Room) -> None:
    room.ends("format --disk kinds/d")
    assert (room.path / "kinds/d").stat().st_size == DISK
    room.serves("kinds/d", returns(1, 1, 3), stored(1, 3))
    room.serves("kinds/d", "1 show 1 1\n", shows(3))
    assert room.names() == ["d"]


def test_format_leaves_a_disk_that_is_in_use(room: Room) -> None:
    room.ends("format --disk d")
    with room.untouched():
        room.ends("format --disk d", 1, "disk inuse\nd")
    room.serves("d", returns(1, 1, 1), "1 stored 1\n")
    with room.untouched():
        room.ends("format --disk d", 1, "disk inuse\nd")


def test_what_is_no_disk_is_refused(room: Room) -> None:
    kinds = room.path / "kinds"
    (kinds / "folder").mkdir()
    os.mkfifo(kinds / "fifo")
    (kinds / "link").symlink_to("nothing")
    (kinds / "file").touch()
    for path, why in (("kinds/folder", "is a folder"), ("kinds/fifo", "is no ordinary file"), ("/dev/null", "is no ordinary file"),
                      ("kinds/link", GONE), ("kinds/none/d", GONE), ("kinds/file/d", "a part of its path is no folder")):
        refused(room, path, why)
    for length in (1, DISK - 1, DISK + 1, 2 * DISK):
        (kinds / "file").write_bytes(bytes(length))
        refused(room, "kinds/file", f"{length} bytes instead of {DISK}", "disk size")


def test_a_link_leads_to_its_disk(room: Room) -> None:
    room.ends("format --disk kinds/d")
    (room.path / "link").symlink_to("kinds/d")
    room.serves("link", returns(1, 1, 1), "1 stored 1\n")
    assert room.names() == ["d"]
    room.serves("kinds/d", "1 show 1 1\n", shows(1))
    assert (room.names(), os.readlink(room.path / "link")) == (["d"], "kinds/d")


def test_files_beside_the_disk(room: Room) -> None:
    """A stop can leave the empty file that an opening makes beside the disk. One that contains something stays. A disk with a second name
    is refused."""
    room.ends("format --disk kinds/d")
    wal, journal, other = (room.path / f"kinds/{it}" for it in ("d-wal", "d-journal", "other"))
    os.link(room.path / "kinds/d", other)
    refused(room, "kinds/d", ONE_NAME)
    refused(room, "kinds/other", ONE_NAME)
    other.unlink()
    wal.touch()
    room.serves("kinds/d", returns(1, 1, 1), "1 stored 1\n")
    assert room.names() == ["d"]
    wal.write_text("text\n")
    room.serves("kinds/d", "1 show 1 1\n", shows(1))
    assert wal.read_text() == "text\n"
    wal.unlink()
    wal.mkdir()
    refused(room, "kinds/d", ONE_NAME)
    wal.rmdir()
    wal.symlink_to("nothing")
    refused(room, "kinds/d", ONE_NAME)
    wal.unlink()
    journal.write_text("text\n")
    refused(room, "kinds/d", "a journal is beside it")
    journal.unlink()
    room.serves("kinds/d", "1 show 1 1\n", shows(1))


def test_a_name_of_247_bytes_is_a_disk_and_a_longer_one_is_not(room: Room) -> None:
    """The name with -journal must fit, too."""
    name = f"kinds/{'x' * 247}"
    room.takes_a_new_disk(name)
    room.ends(["format", "--disk", f"{name}x"], 1, f"disk device\n{name}x: the name is too long")
    assert os.path.getsize(room.path / f"{name}x") == 0
    os.truncate(room.path / f"{name}x", DISK)
    refused(room, f"{name}x", "the name is too long")


def test_a_disk_that_is_made_is_for_its_owner_alone(room: Room) -> None:
    """A file that exists keeps its mode."""
    room.ends("format --disk kinds/d", before=bash('umask 0; exec "$@"'))
    room.serves("kinds/d", returns(1, 1, 1), "1 stored 1\n")
    empty = room.path / "kinds/empty"
    empty.touch()
    empty.chmod(0o640)
    room.takes_a_new_disk("kinds/empty")
    assert [oct((room.path / "kinds" / it).stat().st_mode & 0o777) for it in ("d", "empty")] == ["0o600", "0o640"]


def test_no_permission_for_a_file_or_its_folder(room: Room) -> None:
    """Root has to run it without the right to pass over permissions."""
    dropped = "-dac_override,-dac_read_search"
    before = bash(f'exec setpriv --inh-caps={dropped} --bounding-set={dropped} "$@"' if os.getuid() == 0 else 'exec "$@"')
    if subprocess.run([*before, "true"], stderr=subprocess.DEVNULL).returncode:
        pytest.skip("as root, and setpriv can't take the right away")
    room.ends("format --disk denied")
    (room.path / "kinds").chmod(0o500)
    for name in ("denied", "denied.setup", "denied.sheet"):
        (room.path / name).touch()
        (room.path / name).chmod(0)
    for task, fault, path in (("export --disk denied", "disk device", "denied"), ("format --disk kinds/new", "disk device", "kinds/new"),
                              ("check --sheet denied.sheet", "sheet file", "denied.sheet")):
        room.ends(task, 1, f"{fault}\n{path}: no permission", before=before)
    room.ends("list --of groups", 1, "setup file\ndenied.setup: no permission", before=before, setup="denied.setup")


def test_a_record_without_an_end_is_refused(disk: Room) -> None:
    disk.ends("load --disk d --csv /dev/zero", 1, out="refused csv\n")


@pytest.mark.parametrize("task, fault", [
    ("load --disk d --csv kinds/none.csv", f"csv file\nkinds/none.csv: {GONE}"),
    ("load --disk d --csv kinds", "csv file\nkinds: is a folder"),
    ("check --sheet kinds", "sheet file\nkinds: is a folder"), ("check --sheet none", f"sheet file\nnone: {GONE}"),
    ("check --sheet sheet --held kinds", "held file\nkinds: is a folder"), ("check --sheet sheet --held /dev/zero", "held csv\n/dev/zero"),
])
def test_a_text_that_can_not_be_read(task: str, fault: str, room: Room) -> None:
    room.ends("format --disk d")
    (room.path / "sheet").write_text("1 sheet provisional 1\n")
    room.ends(task, 1, fault)


@pytest.mark.parametrize("path, shown", [
    ("none.toml", f"none.toml: {GONE}"), ("kinds", "kinds: is a folder"),
    ("a\tb\nc\x7fd\u0085e\ufefff", f"a?b?c?d?e?f: {GONE}"), ("./d\u00fcr/../x", f"./d\u00fcr/../x: {GONE}"),
    ("x" * 4200, f"{'x' * 4096}: the name is too long"),
], ids=["none", "a folder", "control characters", "no control characters", "a long path"])
def test_a_set_up_that_is_not_there(path: str, shown: str, room: Room) -> None:
    """The fault shows its path as it was given."""
    room.ends("list --of groups", 1, f"setup file\n{shown}", setup=path)
    assert sorted(os.listdir(room.path)) == ["kinds", "out"]


def test_an_argument_that_is_not_utf_8(room: Room) -> None:
    assert room.run("run", before=bash(r"""exec "$@" $'\xff'""")) == (2, "", "error: an argument is not UTF-8\n")
