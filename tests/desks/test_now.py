"""Tests of the files that an office puts into its folder while it runs: sheets, and `now`, with what follows from a copy of the disk."""
import shutil
import stat

import pytest

from canton import Canton, Chance
from logs import Written
from now import CLOSINGS, NEVER, RETURNS, UNCONFIRMED, QuickRoom, compare, compare_folder, link_of, model
from places import REHEARSAL, TOP
from processes import until
from room import running

ROOM = QuickRoom
DIFFERS = "municipality,held_votes,stated_votes,municipality_name,remark\n"


def text_of(room, name):
    """A file of the newest copy, if there is one."""
    path = room.folder / "now" / name
    return path.read_text() if path.exists() else ""


def shows_text(room, name, wanted):
    until(lambda: f"it shows {wanted}, and not {text_of(room, name)}", lambda: text_of(room, name) == wanted)


def test_sheets():
    """the newest sheet of each kind is in the folder as run makes it, with its desk, and the group may read it"""
    with running(QuickRoom(every=NEVER)) as room:
        lines, newest = [], {}
        for desk, more, line, name in [(2, RETURNS, "sheet", "sheet-9"), (1, CLOSINGS, "final", "sheet-final-12"),
                                       (3, [], "sheet", "sheet-12")]:
            lines, newest[line], sheet = lines + more, name, room.folder / name
            room.ask(desk, *more, line)
            until("only the newest stays", lambda: {it.name for it in room.folder.glob("sheet*")} == {*newest.values()})
            assert sheet.read_text() == room.zhcount("run", disk=room.other_disk(*lines), given=f"{desk} {line}\n"), name
            assert stat.filemode(sheet.stat().st_mode) == "-rw-r-----", "its mode"


# What follows from a copy


def test_files_of_a_copy(room):
    """the files of `now` are those of the model after as many commands, and the group may read them"""
    compare(room, [])
    lines = [RETURNS[0], RETURNS[3], "return 3 1 1 20001", "withdraw 1 2 1", "close 2"]
    room.ask(1, *lines)
    now = compare(room, lines, "1,1,1,525,1,N,A\n1,2,1,withdrawn,1,N,B\n2,1,1,240,1,M,A\n3,1,1,20001,1,W,A\n")
    assert "3,1,20001," in (now / "implausible").read_text(), "some are implausible"
    files = [it for it in now.iterdir() if it.is_file()]
    assert {stat.filemode(it.stat().st_mode) for it in (now, *files)} == {"drwxr-s---", "-rw-r-----"}, "the modes"
    (room.folder / "witness").write_text("no witness since ..\n")
    room.ask(1, "return 1 1 2 526")
    assert (room.shows(6) / "witness").read_text() == "no witness since ..\n", "the text about the witness"
    room.check()


def test_the_end():
    """at a clean end `now` shows all that was answered, whatever was typed, and stays; the next start makes it anew, and adds its lines"""
    with QuickRoom(every=NEVER) as room:
        room.on_copies(f"[ -e '{room.held}' ] && rm '{room.held}' && sleep 2")
        room.start()
        until("the first", lambda: link_of(room) == "now-0")
        room.ask(1, "sheet", *RETURNS, "show 1 1", "sheet", "\xff\t\\", "x,\"y\"")
        room.held.touch()  # the last child takes longer than an office that does not wait for it
        assert room.stop() == 0
        compare(room, RETURNS)
        room.start()
        compare(room, RETURNS)
        room.ask(2, "show 1 1")
        room.stop()
        compare(room, RETURNS)


@pytest.mark.long
def test_a_hundred_thousand_lines(new_room):
    """a hundred thousand lines are all in lines.csv, and desks are answered all the time"""
    log = Written(new_room.folder)
    log.add("setup", new_room.setup.read_text())
    log.add("start", "{}")
    for number in range(100_000):
        for kind, text in ("line", f"x {number}"), ("answer", "refused syntax"):
            log.add(kind, text, number % 8 + 1, number // 8 + 1)
    log.put()
    new_room.start()
    assert new_room.ask(1, RETURNS[0], "show 1 1").out == ["stored 1", "shows 1 525"]
    until("all lines are there", lambda: text_of(new_room, "lines.csv").count("\n") == 100_003)


def test_unconfirmed():
    """a return that one desk alone, or no desk, has entered is unconfirmed until another desk sends the same, also over a stop"""
    with QuickRoom(setup=REHEARSAL.read_text().replace('name = "N"', 'name = "N, \\"n\\""')) as room:
        room.load("3,1,1,90", "3,2,1,60")
        room.zhcount_office("--take", room.setup, room.disk, room.folder)
        room.start()
        room.ask(4, "open", "row 2 1 1 240", "row 2 2 1 330")
        for desk, line in [(4, "commit"), (1, "return 1 1 1 525")]:
            room.stops_at(room.desk(desk), line, is_stored=True).kill()
            room.start()
        for desk, *lines in [(1, "return 1 1 1 525", "return 1 2 1 300", "return 1 3 1 175", "withdraw 2 3 1"),
                             (2, "return 1 2 1 300", "return 1 3 1 157"), (3, "return 3 1 1 90"), (5, "open", "row 2 1 1 240", "commit"),
                             (6, "open", "row 2 2 1 330"), (7, "open", "row 2 2 1 330", "drop")]:
            room.ask(desk, *lines)
        rows = ['1,1,1,525,1,"N, ""n""",A\n', '1,3,1,175,1,"N, ""n""",C\n', "2,2,1,330,4,M,B\n", "2,3,1,withdrawn,1,M,C\n",
                "3,2,1,60,-,W,B\n"]
        shows_text(room, "unconfirmed", UNCONFIRMED + "".join(rows))
        for desk, line in [(2, "return 1 1 1 525"), (3, "return 3 2 1 60"), (4, "withdraw 2 3 1")]:
            room.ask(desk, line)
        shows_text(room, "unconfirmed", UNCONFIRMED + rows[1] + rows[2])
        assert room.ask(6, "row 1 1 2 530", "commit").out == ["held 2", "stored 7"], "one row of the batch is new"
        shows_text(room, "unconfirmed", UNCONFIRMED + '1,1,2,530,6,"N, ""n""",A\n' + rows[1])


# What can be published


def test_sheet_is_final_where_a_desk_asked_for_it(new_room):
    """the bundle is final once a desk was answered a final sheet, until the next command; its sheet has the digit 1"""
    new_room.start()
    desk, stored = new_room.desk(5), [*RETURNS, *CLOSINGS]
    desk.talk("final -> refused notclosed 1", 'x,final,sheet final 12 0 , -> refused syntax')
    new_room.ask(1, *stored)
    compare(new_room, stored)
    assert desk.send("final").startswith("5 sheet final 12\n"), "a final sheet is shown"
    until("it is final", lambda: text_of(new_room, "publish/sheet.txt").startswith("1 sheet final 12\n"))
    compare(new_room, stored, line="final")
    desk.talk("reopen 1 -> stored 13", "close 1 -> stored 14")
    compare(new_room, [*stored, "reopen 1", "close 1"])


def test_a_cantons_bundle():
    """a bundle has the tables and the sheet of a canton too, where some lists stand in some constituencies alone"""
    canton = Canton(Chance(86))
    lines = [f"return {municipality} {group} 1 {votes}" for (municipality, group), votes in canton.votes.items() if group % 2]
    with running(QuickRoom(setup=canton.setup())) as room:
        room.ask(1, *lines)
        compare_folder(room.shows(len(lines)) / "publish", model(room, lines, "sheet")[1])


def test_page_and_modes(new_room):
    """the office says once that the page is not installed; if it is, everybody may read it in the bundle; the copy itself is never run"""
    new_room.on_copies(f"[ $1 != run ] || echo $1 >> '{new_room.path}/runs'")
    office = new_room.start()
    new_room.ask(1, RETURNS[0])
    compare(new_room, RETURNS[:1])
    assert office.said().count("the page that checks a sheet is not installed") == 1, "how often it is said"
    new_room.stop()
    shutil.copy(TOP / "page/index.html", new_room.scripts)
    new_room.start()
    new_room.ask(1, *RETURNS[1:])
    bundle = new_room.shows(9) / "publish"
    assert (bundle / "index.html").read_bytes() == (TOP / "page/index.html").read_bytes(), "the page"
    assert {it.stat().st_mode & 0o7777 for it in (bundle, *bundle.iterdir())} == {0o755, 0o644}, "the modes"
    assert not (new_room.path / "runs").exists(), "the copy is not run"


def test_child_that_fails(new_room):
    """a copy is not shown if zhcount says something else of it, or its sheet fails: the office says why, goes on and tries again"""
    fails = new_room.path / "fails"
    fails.touch()
    new_room.stands_in(f"if [ $1 = \"$(cat '{fails}')\" ]; then echo '1 refused memory'; echo 'zhcount: ill' >&2; exit 1; fi")
    new_room.start()
    new_room.ask(1, *RETURNS)
    new_room.shows(9)
    for commands, task, text in [(10, "run", "no sheet of the copy: 1 refused memory"), (11, "seats", "zhcount seats: zhcount: ill"),
                                 (12, "status", "zhcount status: zhcount: ill")]:
        fails.write_text(task)
        assert new_room.ask(2, f"return 1 1 {commands - 8} 525").out == [f"stored {commands}"]
        new_room.office.says(f"zhcount-office: `now` could not be renewed: {text}")
        fails.write_text("")
        new_room.shows(commands)


# Totals


def test_differs(new_room):
    """a stated total that is not that of the returns is named, once they are all in; and each wrong row, there and by the office"""
    totals = new_room.path / "totals.csv"
    new_room.start("--totals", totals)
    totals.write_text("municipality,votes\n1,1000\n2,600\n")
    new_room.ask(1, *RETURNS[:2])
    new_room.shows(2)
    shows_text(new_room, "differs", DIFFERS)
    new_room.ask(1, "return 1 3 1 1570")
    shows_text(new_room, "differs", f"{DIFFERS}1,2395,1000,N,\n")
    totals.write_text("municipality,votes\n1,1000\n2,600\n9,600\n2,700\n3,2.5\n")
    new_room.ask(1, "return 1 3 2 175", *RETURNS[3:6])
    remarks = ["line 4: there is no municipality '9'", "line 5: municipality 2 is there already", "line 6: '2.5' is no number of votes"]
    shows_text(new_room, "differs", DIFFERS + "".join(f",,,,{it}\n" for it in remarks))
    new_room.office.says(f"--totals: {'; '.join(remarks)}")
