"""What a start decides: the answer of the line that has none, and whether the disk is that of the log; and that it gives the rows of open
batches again, which are in the memory of run only. Stops at chosen moments and commands by hand make each case."""
import pytest

from places import PROGRAM
from processes import until

# What is there before the line without an answer: three commands, and a batch of desk 1.
BEFORE = ["return 1 1 1 525 -> stored 1", "return 1 2 1 300 -> stored 2", "close 2 -> stored 3", "open -> held 0", "row 3 1 1 90 -> held 1",
          "row 3 2 1 60 -> held 2"]
# A line of each kind, and its answer where nothing is stopped.
LINES = {"return 1 1 2 530": "stored 4", "withdraw 1 2 2": "stored 4", "close 1": "stored 4", "reopen 2": "stored 4", "commit": "stored 4",
         "return 1 1 1 525": "same", "row 3 3 1 5": "held 3", "show 1 1": "shows 1 525", "drop": "dropped 2",
         "return 1 1 5 1": "refused gap", "4 show 1 1": "refused syntax", "sheet": "refused novotes 2"}
STORED, LOST = "stored", "lost"
OPEN = "a batch is open; its rows: {}; 'commit' or 'drop' it"
CASES = [*((line, LOST, "", answer) for line, answer in LINES.items()),
         *((line, STORED, "", answer) for line, answer in LINES.items() if answer in ("stored 4", "same", "held 3")),
         # What comes by hand after the stop: a row of a table, or lines.
         *((line, LOST, "1,3,1,77", "stored 5") for line in ("return 1 1 2 530", "close 1", "commit")),
         ("row 3 3 1 5", LOST, "1,3,1,77", "held 3"), ("show 1 1", LOST, "1,3,1,77", "shows 1 525"),
         ("return 1 1 2 530", STORED, "1,3,1,77", "same"), ("return 1 1 2 530", LOST, "1,1,2,531", "refused conflict"),
         *(("return 3 3 1 50", LOST, lines, f"stored {5 + lines.count(';')}") for lines in (
             "withdraw 1 2 2", "close 1", "reopen 2", "close 3; reopen 3", "return 1 1 2 530; return 1 1 3 525"))]


@pytest.mark.parametrize("line, fate, by_hand, answer", CASES, ids=["-".join(filter(None, it[:3])) for it in CASES])
def test_line_without_an_answer(room, line, fate, by_hand, answer):
    """the line that a stop left without an answer gets the one that it would have had; what came by hand is noted first, with the disk"""
    desk = room.stops_at(room.desk(1).talk(*BEFORE), line, fate == STORED)
    if "," in by_hand:
        room.load(by_hand)
    elif by_hand:
        room.by_hand(*by_hand.split("; "))
    room.start()
    assert desk.answer(line) == answer, "the answer"
    is_found = fate == STORED and answer == "stored 4"
    room.office.says(f"desk 1: {line} is on the disk: stored 4" if is_found else f"desk 1: {line} is not on the disk: it is given again")
    assert [it for it, _ in room.of_desk(1)].count(line) == 1 + (line == "return 1 1 1 525"), "it is answered once"
    if "," in by_hand:
        assert desk.send("last {} {}".format(*by_hand.split(","))) == "last 0", "who set it"
    desk.send("commit")
    assert desk.end() == 0, "the end of the desk"
    room.check()
    if by_hand:
        count = 1 + by_hand.count(";") + (fate == STORED)
        room.office.says(f"{count} command{'s' * (count > 1)} came in by hand before this start")
        assert room.rebuilt() == room.zhcount("export"), "the export is that of the disk made anew"
        assert room.zhcount("status", disk=room.path / "new.disk") == room.zhcount("status"), "its status"


@pytest.mark.parametrize("is_stored", [True, False], ids=["outlived", "lost"])
def test_told_what_became_of_it(room, is_stored):
    """the line is answered once, before any desk is let in, also if the office ends then; a new connection shows the answer"""
    room.stops_at(room.desk(1).talk(*BEFORE), "close 1", is_stored).kill()
    desk, flag = room.desk(1), room.path / "flag"
    flag.touch()
    room.stands_in(f"[ $1 = run ] && while [ -e '{flag}' ]; do sleep 0.02; done")
    room.start(is_awaited=False)
    until("run is started", lambda: room.child("run"))
    assert not desk.is_let_in(), "nobody is let in"
    flag.unlink()
    until("the line is answered", lambda: room.of_desk(1)[-1][1] or room.office.has_ended())
    room.restart()
    assert room.ask(2, "reopen 1", "show 3 1").out == ["stored 5", "none"], "the other"
    desk.says("before: close 1: stored 4", OPEN.format(2))
    desk.talk("drop -> dropped 2")
    assert desk.said().count("before: ") == 1, "how often it is said"
    desk.end()
    room.restart()
    assert room.ask(2, "return 1 1 2 530").out == ["stored 6"], "the municipality stays open"
    room.check()


def test_batches_are_given_again(room):
    """rows of open batches are given again, before any desk, without a record, also after a refused commit; others are not"""
    room.ask(5, "open", "row 1 1 1 525", "row 1 2 1 300")
    room.ask(6, "open", "row 2 1 1 240", "commit")
    room.ask(7, "open", "row 2 2 1 330", "drop")
    assert room.ask(8, "open", "row 2 1 1 240", "commit").out[-1] == "same", "it was entered before"
    assert room.ask(4, "open", "row 1 1 2 525", "commit").out[-1] == "refused gap", "it is refused"
    room.ask(5).says(OPEN.format(2))
    room.restart()
    room.restart()
    assert room.ask(4, "commit", "drop").out == ["refused gap", "dropped 1"], "it is still open"
    desk = room.ask(5, "row 1 3 1 120", "commit", "show 1 1")
    desk.says("before: row 1 2 1 300: held 2", OPEN.format(2))
    assert desk.out == ["held 3", "stored 2", "shows 1 525"], "its answers"
    for number in (6, 7, 8):
        desk = room.ask(number, "commit")
        assert (desk.out, "a batch is open" in desk.said()) == (["refused nobatch"], False), f"desk {number}"
    room.check({5: ["open", "row 1 1 1 525", "row 1 2 1 300", "row 1 3 1 120", "commit", "show 1 1"]})


@pytest.mark.parametrize("line, answer", [("commit", "refused nobatch"), ("row 2 1 1 240", "refused nobatch")])
def test_batch_that_does_not_fit(room, line, answer):
    """a batch with a row that run now refuses is dropped, and its desk says so; a line that has no answer is then given without it"""
    desk = room.desk(5).talk("open -> held 0", "row 1 1 1 525 -> held 1", "row 1 2 1 300 -> held 2")
    room.stops_at(desk, line).kill()
    room.edits_answers("s/held 2/refused memory/")
    room.start()
    desk = room.desk(5)
    desk.says("the batch is dropped, because the office could not replay it: row 1 2 1 300: refused memory; open it, and send its rows",
              f"before: {line}: {answer}")
    desk.talk("open -> held 0", "drop -> dropped 0").end()  # nothing of it is left
    room.environment["ZHCOUNT"] = str(PROGRAM)
    room.restart()
    desk = room.ask(5, "open", "row 1 1 1 525", "commit")
    assert desk.out == ["held 0", "held 1", "stored 1"], "it does not come back"
    assert "a batch is open" not in desk.said(), f"it is not spoken of: {desk.said()}"
    room.check()
