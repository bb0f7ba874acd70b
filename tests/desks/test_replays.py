"""Tests of zhcount-office --replay and --rebuild, which run the same loop over a log."""
import base64
import json
import zlib

import pytest

from nights import Night
from places import PROGRAM, REHEARSAL

LINES = ["1 return 1 1 1 525", "2 return 2 1 1 240", "1 return 3 1 1 90", "1 sheet", "1 withdraw 3 1 2",
         "1 open", "1 row 1 2 1 300", "1 commit"]
STRANGE = REHEARSAL.read_text().replace('"Nord"', '"No\u2028rd"').replace('"Mitte"', '"Mi\u0085t\u2029"')


@pytest.fixture
def written():
    """A night of two starts. Its names have characters that some take for line ends, and its first end notes nothing of the disk."""
    with Night(setup=STRANGE) as night:
        night.begin(LINES)
        night.begin(["2 return 2 2 1 330", "3 show 1 1", "1 last 1 1", "1 close 1"])
        ended = next(it.text for it in night.log.events if it.kind == "ended")
        night.log = night.log.edited("ended", ended, ended, json.dumps({"reason": "no reason", "commands": None, "export": None}))
        yield night.put()


def test_the_same(written):
    """replay and rebuild say what they have compared, and once that the program is another one, which is not a difference"""
    program, other = written.log.events[1].facts()["program"], "12" * 32
    changed = f"zhcount is another one here: its SHA-256 is {program}, and in start 1 it was {other}\n"
    for log, text in (written.log, ""), (written.log.edited("start", program, program, other), changed):
        log.put()
        wanted = f"{text}the same: the answers to 12 lines in 2 starts, and the export\nevent {len(log.events)}: {log.events[-1].sum}\n"
        assert (written.replay(), written.rebuild()) == (wanted, wanted), f"they say {wanted}"


def test_a_difference(written):
    """another answer, line, sheet, or state at a start or an end is found and its place is named, although each sum follows"""
    shown = next(it.number for it in written.log.events if it.text == "shows 1 525")
    for kind, within, old, new, wanted in [
            ("answer", "stored 6", "6", "9", "return 2 2 1 330: noted is 'stored 9', and here 'stored 6'"),
            ("answer", "shows", "shows 1 525", "none", f"not the same: event {shown}, desk 3: show 1 1: noted is 'none', and here"),
            ("answer", "sheet", "sheet provisional 3 ", "sheet provisional 3 1", "sheet: noted is 'sheet provisional 3 1"),
            ("line", "return 1 1 1 525", "525", "526", "sheet: noted is 'sheet provisional 3 "),
            ("line", "return 2 2 1 330", "330", "331", ", ended: export: noted is '"),
            ("line", "withdraw 3 1 2", "3 1 2", "3 1 3", "withdraw 3 1 3: noted is 'stored 4', and here 'refused gap'"),
            ("start", '"commands": 5', '": 5', '": 9', "start: commands: noted is '9', and here '5'"),
            ("ended", '"commands": 7', '": 7', '": 8', "ended: commands: noted is '8', and here '7'"),
            ("start", '"commands": 5', '"export": "', '"export": "0', "start: export: noted is '0"),
            ("ended", '"commands": 7', '"export": "', '"export": "0', "ended: export: noted is '0")]:
        written.log.edited(kind, within, old, new).put()
        written.both_refuse(wanted)


def test_passed_over(night):
    """a line that was refused for want of memory changed nothing; a batch that a start dropped has no rows"""
    night.begin(["1 return 1 1 1 525", "1 open", "1 row 2 1 1 240"])
    night.edits_answers("s/held 1/refused memory/")
    night.begin(["1 commit", "1 return 2 1 1 241"])
    night.environment["ZHCOUNT"] = str(PROGRAM)
    night.log.add("line", "return 3 1 1 5", 1, 9)
    night.log.add("answer", "refused memory", 1, 9)
    assert night.made()[1].split()[1:] == ["1,1,1,525", "2,1,1,241"], "what is held"
    assert "the same: " in night.replay(), "a replay"


def test_programs_that_fail(night):
    """a run that ends before its last answer is a fault, as is a program that fails or can't be started"""
    night.begin(["1 return 1 1 1 525", "2 return 2 1 1 240"])
    two_lines = f"for line in 1 2; do IFS= read -r line; printf '%s\\n' \"$line\"; done | '{PROGRAM}' \"$@\""
    for task, does, wanted in [("run", f"{two_lines}; exit", "zhcount run has ended"), ("run", "echo ill >&2; exit 1", "ill"),
                               *((it, "echo ill >&2; exit 1", f"zhcount {it}: ill") for it in ("format", "export", "status"))]:
        night.stands_in(f"[ $1 != {task} ] || {{ {does}; }}")
        night.both_refuse(wanted)
    night.environment["ZHCOUNT"] = "/none"
    night.both_refuse("/none can't be started")


def test_nothing_to_run(night):
    """a folder that is missing or has no log is a fault, as is a log without a start or one that was changed"""
    night.both_refuse(f"{night.folder} has no night.db")
    night.folder.mkdir(0o750)
    night.both_refuse(f"{night.folder} has no night.db")
    night.put().both_refuse("has no start yet")
    setup = night.log.add("setup", night.setup.read_text())
    night.log.events[0] = setup._replace(text="another")
    night.put().both_refuse("event 1 does not follow the one before it: somebody has changed the log")


def test_stops(night):
    """lines that a stop kept or lost are answered in the next start; the last one has no answer, and is left out until an office goes on"""
    night.begin(["1 open", "1 row 1 1 1 525", "2 open", "2 row 2 1 1 240", "2 row 2 2 1 330"], is_stored=True)
    night.begin(["1 row 1 2 1 300", "2 commit", "1 commit"], is_stored=True)
    night.begin(["3 sheet", "1 open", "1 row 1 3 1 90", "1 drop", "1 close 3"], is_stored=False)
    night.begin(["4 return 2 3 1 30"], is_stored=True)
    said, export = night.made()
    assert export.split()[1:] == ["1,1,1,525", "1,2,1,300", "2,1,1,240", "2,2,1,330"], "what is held"
    assert ",closed," in night.zhcount("status", disk=night.new), f"the closing was given again: {said}"
    assert said.startswith("the same: the answers to 13 lines in 4 starts, and the export\n"), said
    assert "desk 4: return 2 3 1 30: not answered, and left out\n" in said, f"what is left out: {said}"
    night.disk = night.new
    night.start()
    night.ask(4, "return 3 1 1 5").says("before: return 2 3 1 30: stored 4")
    night.check()


def test_by_hand(night):
    """commands that came by hand are in an image; a rebuild goes on from the last one, and says so; a replay begins with the first event"""
    night.load("1,1,1,525", "1,2,1,300")
    night.zhcount_office("--take", night.setup, night.disk, night.folder)
    night.begin(["1 return 2 1 1 240", "1 return 1 1 2 530"], is_stored=False)
    night.by_hand("withdraw 2 1 2", "close 3", "return 2 2 1 330")
    image = night.disk.read_bytes()
    night.begin(["2 return 2 3 1 30"])
    whole, loaded = night.log, [it for it in night.log.events if it.kind == "loaded"][-1]
    assert zlib.decompress(base64.b64decode(loaded.facts()["image"])) == image, "the image"
    night.log = whole.edited("answer", "stored 2", "stored 2", "stored 7")
    said, export = night.made()
    assert export.split()[1:] == ["1,1,2,530", "1,2,1,300", "2,1,2,withdrawn", "2,2,1,330", "2,3,1,30"], "what is held"
    assert ",closed," in night.zhcount("status", disk=night.new), "the closing is there"
    assert f"event {loaded.number}: what came by hand before it is in its image" in said, f"it says so: {said}"
    assert "return 2 1 1 240: noted is 'stored 7', and here 'stored 2'" in night.replay(status=1)
    for old, new in [("2,2,1,330", "2,2,1,331"), ('"closed": ["3"]', '"closed": ["2"]'), ('"commands": 5', '"commands": 6')]:
        whole.edited("loaded", '"commands": 5', old, new).put()
        night.both_refuse("it is not the disk of this log")
