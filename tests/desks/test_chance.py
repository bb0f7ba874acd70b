"""Eight desks with random lines, while office, run or witness is killed at any moment: each line has one answer, that of the manual; what
was shown is in the log, at the witness and on the disk, and nothing is stored twice. KILLS takes another number of kills, SEED another
night."""
import contextlib
import os
import random
import signal
import time

import pytest

from counting import Count, random_line
from logs import first_words
from quiet import QuietRoom
from room import running, until
from witnessed import Witnessed

pytestmark = [pytest.mark.long, pytest.mark.xdist_group("chance")]
KILLS, SEED = int(os.environ.get("KILLS", "10")), int(os.environ.get("SEED", "86"))
LINES = 100  # that are typed after each kill
PAUSES = (0.01, 0.05, 0.1, 0.2, 0.4, 0.8)  # seconds between two kills, at most


def serves(room):
    """Starts the office again if it has ended, as systemd would; whether it serves."""
    if room.office.has_ended():
        status = room.office.wait()
        assert status in (1, -signal.SIGKILL), f"the office ends with {status}: {room.office.said()}"
        room.start(is_awaited=False)
    return room.serves()


@pytest.mark.parametrize("kind", [QuietRoom, Witnessed], ids=["alone", "with a witness"])
def test_kills(kind):
    """kills of whatever works for the desks, mostly some while after the office serves"""
    def victim():
        serves(room)
        return chance.choice(victims)()

    with running(kind()) as room:
        chance, count = random.Random(SEED), Count()
        desks, lines = {it: room.desk(it) for it in range(1, 9)}, {it: [] for it in range(1, 9)}
        victims = [lambda: room.office.process.pid, lambda: room.child("run"), *([room.witness] if kind is Witnessed else [])]
        for _ in range(KILLS):
            if chance.random() < 0.7:
                until(lambda: f"the office serves: {room.office.said()}", lambda: serves(room))
            time.sleep(chance.choice(PAUSES) * chance.random())
            with contextlib.suppress(ProcessLookupError):
                os.kill(until("a process works for the desks", victim), signal.SIGKILL)
            for _ in range(LINES):
                number, line = chance.randint(1, 8), random_line(chance, count)
                count.answer(f"{number} {line}")  # roughly, as lines of other desks can come before it
                lines[number].append(line)
                desks[number].write(f"{line}\n")
        for number, desk in desks.items():
            shown = [first_words(desk.answer(line, lambda: serves(room))) for line in lines[number]]
            assert shown == [first_words(answer) for _, answer in room.of_desk(number)], f"what desk {number} was shown"
            assert desk.end() == 0, f"the end of desk {number}: {desk.said()}"
        if kind is Witnessed:
            room.has_all()
        room.check(lines)
        assert room.rebuilt() == room.zhcount("export"), "the export of the disk made anew"
