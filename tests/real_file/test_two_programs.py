"""Two programs on one disk, copies of it that are made while a run goes on, and kill -9 at random moments. (Cases stop a program at each
call.)"""
import shutil
import time

import pytest

from processes import until
from real_files import SEED, Room, returns, shows, stored

KILLS = 50


def test_a_second_program_ends_with_disk_busy_and_the_first_goes_on(room: Room) -> None:
    room.ends("format --disk kinds/d")
    (room.path / "link").symlink_to("kinds/d")
    first = room.begun("kinds/d", returns(1, 1, 1))
    until("the first answers", lambda: first.out)
    with room.untouched("kinds/d"):
        for task, path in (("run", "kinds/d"), ("run", "link"), ("format", "kinds/d"), ("status", "kinds/d"), ("seats", "kinds/d")):
            room.ends([task, "--disk", path], 1, f"disk busy\n{path}", lines=returns(1, 2, 2))
    assert (first.end(returns(1, 2, 3)), first.out, first.error) == (0, stored(1, 3).splitlines(), [])
    room.serves("kinds/d", "1 show 1 1\n", shows(3))
    assert room.names() == ["d"]


def test_two_programs_at_once(disk: Room) -> None:
    """Twenty returns each, twenty times, and until they have met: a program serves all of them, or is refused and stores none."""
    held, met = [0, 0], 0
    for rounds in range(500):
        if rounds >= 20 and met:
            break
        runs = []
        for place in (0, 1):
            runs.append(disk.begun("d", returns(place + 1, held[place] + 1, held[place] + 20)))
            runs[place].process.stdin.close()
            time.sleep(0 if place else disk.chance.uniform(0, 0.004))
        for place, run in enumerate(runs):
            status = run.wait()
            assert (status, len(run.out), run.said()) in ((0, 20, ""), (1, 0, f"zhcount: disk busy\n{disk.path}/d"))
            held[place] += len(run.out)
            met += status
        disk.serves("d", "1 show 1 1\n1 show 2 1\n", shows(held[0]) + shows(held[1]))
    disk.serves("d", "1 return 3 1 1 5\n", f"1 stored {sum(held) + 1}\n")
    assert met, "no program met the other"


def test_copies_while_run_has_the_disk(disk: Room) -> None:
    """A copy has all that was answered before the copying began, or is refused. The run goes through a journal of 1,024 pages and into the
    next. It gets 25 lines as each copy is made."""
    run, least, refused = disk.begun("d", ""), {}, 0
    for first in range(1, 1500, 25):
        until(f"{first - 1} answers", lambda: len(run.out) == first - 1)
        run.write(returns(1, first, first + 24))
        time.sleep(disk.chance.uniform(0, 0.002))
        least[first] = len(run.out)
        shutil.copy(disk.path / "d", disk.path / f"copy.{first}")
    assert (run.end(), run.out, run.error) == (0, stored(1, 1500).splitlines(), [])
    for first, answered in least.items():
        ran = disk.run(f"run --disk copy.{first}", lines="1 show 1 1\n")
        if ran.status:
            assert ran == (1, "", f"zhcount: disk damaged\ncopy.{first}\n")
            refused += 1
        else:
            assert ran.out in map(shows, range(answered, first + 25)), f"{answered} were answered"
    assert 2 * refused < len(least), f"{refused} of {len(least)} copies were refused"


def spaced(first: int, last: int) -> str:
    """Returns with these replacement numbers, and some lines between them that make no call of the disk: they give the kill time where a
    sync costs nothing."""
    return "".join(returns(1, number, number) + 5 * "1 show 3 3\n" for number in range(first, last + 1))


@pytest.mark.long
def test_kills(disk: Room) -> None:
    """After each kill the returns are held that were answered, and at most one more. There are more kills if few of them come between two
    answers, as on a busy machine."""
    begun = time.monotonic()
    disk.run("run --disk d", lines=spaced(1, 300))
    span, held, between, kill = min(time.monotonic() - begun, 0.1), 1000, 0, 0
    while kill < KILLS or between < KILLS / 10 and kill < 1000:
        kill += 1
        if held >= 500:
            (disk.path / "d").unlink()
            disk.ends("format --disk d")
            held = 0
        run = disk.begun("d", spaced(held + 1, held + 500))
        while kill % 2 and not run.out and not run.has_ended():
            time.sleep(0.0001)
        time.sleep(disk.chance.uniform(0, span))
        run.kill()
        run.wait()
        answered = held + sum("stored" in it for it in run.out)
        assert [it for it in run.out if it != "1 none"] == stored(held + 1, answered).splitlines(), f"kill {kill}, seed {SEED}"
        assert run.error == [], f"kill {kill}, seed {SEED}"
        between += held < answered < held + 500
        shown = disk.ends("run --disk d", out=None, lines="1 show 1 1\n")
        assert shown in (shows(answered), shows(answered + 1)), f"kill {kill}, seed {SEED}"
        held = answered + (shown != shows(answered))
    assert between >= KILLS / 10, f"only {between} kills were between two answers, within {span} s"
