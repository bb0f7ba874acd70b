"""Tests of zhcount-read: of each disk it prints what `zhcount export` prints, or reports the same fault. SEED gives the disks at random."""
import concurrent.futures
import itertools
import os
import pathlib
import random
import re
import subprocess
import sys
import tempfile

import pytest

from canton import Canton, Chance
from cases import coded
from disks import DISK_BYTES, FORMAT_BYTE, PLACES, journal_of, kept_images, named_damages, put, records_of, setup_of
from places import PROGRAM, REHEARSAL, ZURICH
from room import SCRIPTS, Room

READER = SCRIPTS / "zhcount-read"
SETUP = REHEARSAL.read_text()
SEED = int(os.environ.get("SEED", "20270404"))
ROUNDS = 300  # disks at random
CANTON = Canton(Chance(SEED)).setup()  # in which some lists stand in some constituencies alone
WIDEST = "\n".join(["version = 1", "house = 400", *(f'[[constituency]]\nname = "{it:040}"\npersons = 1' for it in range(32)),
                    *(f'[[municipality]]\nname = "{it:040}"\nconstituency = {it % 32 + 1}' for it in range(512)),
                    *(f'[[group]]\nname = "{it:040}"\nstands = {list(range(1, 33))}' for it in range(32))])


def said(*words):
    """How a program ends, the first two words of its fault, and what it writes. The script's faults have one line."""
    ran = subprocess.run(words, stdin=subprocess.DEVNULL, capture_output=True)
    fault = re.fullmatch(rb"zhcount(-read)?: (\w+ ?\w*).*\n(?(1)|(?s:.*))", ran.stderr)
    return ran.returncode, (fault[2] if fault else ran.stderr).decode(), ran.stdout


def compare(title, disk, setup=SETUP):
    """Both read the disk, the program with the set-up that its bytes spell, or else with this one. The fault, or that it is exported."""
    with tempfile.TemporaryDirectory() as room:
        path, place = pathlib.Path(room, "disk"), pathlib.Path(room, "setup.toml")
        path.write_bytes(disk)
        found = said(sys.executable, READER, path)
        assert path.read_bytes() == disk, f"{title}: the file"
        for text in filter(None, (setup_of(disk), setup)):
            place.write_text(text)
            wanted = said(PROGRAM, "export", "--setup", place, "--disk", path)
            if not wanted[1].startswith("setup "):
                break
        assert found == wanted, f"{title}: what is read"
        if not wanted[1]:  # the export may have taken the disk over into format 2
            assert said(sys.executable, READER, path) == wanted, f"{title}: what is read after the export"
    return wanted[1] or "exported"


def fresh(setup):
    with Room(setup) as room:
        return room.disk.read_bytes()


def empty():
    """Fresh disks, and files that are not formatted."""
    for place, setup in enumerate([SETUP, WIDEST, CANTON, (ZURICH / "setup.toml").read_text()]):
        yield f"the fresh disk {place}", fresh(setup), setup
    yield "zeros", bytes(DISK_BYTES)
    for length in (0, 1, DISK_BYTES - 1, DISK_BYTES + 1):
        yield f"{length} bytes", bytes(length)


def widest():
    """Every return of the widest set-up, in batches of 1,000 rows; then as many returns as lead to a switch."""
    rows = [f"row {m} {g} 1 {10**9 - m * g}" for m in range(1, 513) for g in range(1, 33)]
    batches = [it for begin in range(0, len(rows), 1000) for it in ("open", *rows[begin:begin + 1000], "commit")]
    with Room(WIDEST) as room:
        for title, lines in ("full", batches), ("after a switch", [f"withdraw 512 32 {number}" for number in range(2, 402)]):
            assert re.findall(r"1 (?!stored|held).*", room.by_hand(*lines)) == [], "the answers that do not store"
            yield f"the widest set-up, {title}", room.disk.read_bytes()


def damaged():
    """Each damage that the cases name, on disks of both formats and with both slots."""
    images = dict(kept_images())
    bases = {"fresh": fresh(SETUP), **{it: images[f"kept_images.case: {it}.disk"] for it in ("few", "few-2", "kinds", "both")}}
    for (base, disk), (title, (place, data)) in itertools.product(bases.items(), named_damages().items()):
        yield f"{base}, {title}", put(disk, place, data)


def records():
    """Records at random, in both formats."""
    chance, empty_disk = random.Random(SEED), fresh(SETUP)
    for count in range(ROUNDS):
        of_format = 1 + count % 2
        wanted = records_of(chance, of_format, chance.randint(1, 20))
        if chance.randrange(20) == 0:
            wanted[-1] = wanted[-1][:-1] + b"\0" * chance.randrange(3)
        disk = put(empty_disk, FORMAT_BYTE, b"\0" if of_format == 1 else b"\2")
        yield f"records {count}, {[it.hex() for it in wanted]}", put(disk, PLACES["journal1"], journal_of(wanted))


def odd():
    """The disks of odd_disks.txt, and one with a row of a list that stands elsewhere."""
    empty_disk = fresh(SETUP)
    for line in re.findall("^[^#\n].*", pathlib.Path(__file__).with_name("odd_disks.txt").read_text(), re.M):
        (title, _, edits), disk = line.rpartition(": "), empty_disk
        for place, data in (it.split(" ", 1) for it in edits.split("; ")):
            name, _, further = place.partition("+")
            disk = put(disk, PLACES[name] + int(further or 0), coded(data.split()))
        yield title or edits, disk
    yield "elsewhere", put(fresh(CANTON), PLACES["journal1"], coded("a501000d 06 01 00b4 09 00000001 00000007".split()))


# The outcomes that the disks of each source must have.
DISKS = {
    kept_images: {"exported", "disk size"}, empty: {"exported", "disk blank", "disk size"}, widest: {"exported"},
    records: {"exported", "disk damaged"}, **dict.fromkeys((damaged, odd), {"exported", "disk blank", "disk damaged", "disk differs"}),
}


@pytest.mark.parametrize("source", DISKS, ids=lambda it: it.__name__)
def test_disks(source):
    """script and program agree on each disk of a source, and all outcomes occur"""
    found, outcomes = iter(source()), set()
    with concurrent.futures.ThreadPoolExecutor(4) as pool:
        while some := [*itertools.islice(found, 100)]:  # each has a megabyte
            outcomes.update(pool.map(lambda it: compare(*it), some))
    assert DISKS[source] - outcomes == set(), f"{outcomes}, and outcomes that there have to be"


def test_kinds_of_files(tmp_path):
    """paths at which there is no disk, and a link to one that is only read"""
    os.mkfifo(tmp_path / "pipe")
    (tmp_path / "link").symlink_to("nothing")
    (tmp_path / "setup").write_text(SETUP)
    for path in (tmp_path / it for it in (".", "pipe", "link", "none", "setup/disk", "/dev/null")):
        wanted = said(PROGRAM, "export", "--setup", tmp_path / "setup", "--disk", path)
        assert said(sys.executable, READER, path) == wanted, f"what is read at {path}"
    (tmp_path / "disk").write_bytes(fresh(SETUP))
    (tmp_path / "other").symlink_to("disk")
    (tmp_path / "disk").chmod(0o400)
    assert said(sys.executable, READER, tmp_path / "other") == (0, "", b"municipality,list,number,votes\n"), "what is read through a link"


@pytest.mark.parametrize("words, status, fault", [
    *((it, 2, b"usage: zhcount-read DISK\n") for it in ("", "a b", "--help", "-h", "--disk a")),
    *((it, 1, b"zhcount-read: write\n") for it in ("disk > /dev/full", "disk >&-")),
])
def test_arguments_and_streams(tmp_path, words, status, fault):
    """wrong arguments, and a standard output that takes nothing"""
    (tmp_path / "disk").write_bytes(fresh(SETUP))
    ran = subprocess.run(f"'{sys.executable}' '{READER}' {words}", shell=True, cwd=tmp_path, capture_output=True)
    assert (ran.returncode, ran.stdout, ran.stderr) == (status, b"", fault)
