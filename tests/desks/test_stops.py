"""Two desks' night, in which office, desk or witness is stopped (kill -9) at its calls that open, make, change, sync or rename a file, or
that send something; the same after a power cut before these calls, and with one of them that fails. Each time the office is started again,
and the night goes on to its end: what the desks were shown, the log, a replay and the export have to agree. `make test` takes the first
call of each kind at a start, among lines, and at an end. `slow` takes all."""
import concurrent.futures
import errno
import os
import random
import signal
import subprocess

import pytest

from logs import events, first_words
from processes import HAS_ENDED
from room import until
from watch import ApartRoom, Device, Stop, WatchedRoom, restore, some_of

# Each has more processes than there are processors, so they come one after the other.
pytestmark = [pytest.mark.long, pytest.mark.xdist_group("stops")]
ALL = pytest.mark.parametrize("is_all", [False, pytest.param(True, marks=pytest.mark.slow)], ids=["some", "all"])
AT_ONCE = 2 * (os.cpu_count() or 1)  # nights; for a part of its time a night waits
FAULTS = {**dict.fromkeys(("write", "open", "make"), errno.ENOSPC),
          **dict.fromkeys(("truncate", "sync", "chmod", "rename", "link", "unlink"), errno.EIO)}
# The lines of the night, each with its desk and its answer. After the third one the office is told to end, and started again.
NIGHT = [(1, "open", "held 0"), (1, "row 1 1 1 300", "held 1"), (2, "return 2 1 1 240", "stored 1"), (2, "return 3 1 1 90", "stored 2"),
         (1, "commit", "stored 3"), (2, "sheet", "sheet provisional 3"), (1, "close 1", "stored 4")]
EVENING = 3


class Night:
    """The night of two desks, whose lines are each typed once the one before is answered. A desk that is killed is started again, and so is
    an office that ends with one of the statuses `may_end`."""

    def __init__(self, room, done=0, may_end=(-signal.SIGKILL,)):
        self.room, self.done, self.may_end, self.desks = room, done, may_end, {}
        self.ended, self.is_ending = [], False  # how offices ended that had no signal; whether this one has had it

    def run(self, title):
        """Goes through what is left of the night, and looks at what there is at its end."""
        try:
            self.start()
            for number, line, wanted in NIGHT[self.done:]:
                assert until(f"an answer to {line}", lambda: self.answer(number, line)) == wanted, f"the answer to {line}"
                self.done += 1
                if self.done == EVENING:
                    self.end_office()
                    self.start()
            self.end_office()
            for it in self.desks.values():
                assert it.out[it.taken:] == [], "nothing else is shown"
                it.process.stdin.close()
            self.room.check({number: [line for desk, line, _ in NIGHT if desk == number] for number in (1, 2)})
        except (AssertionError, OSError, subprocess.SubprocessError) as fault:
            raise AssertionError(f"{title()}: {fault}") from None

    def start(self):
        self.room.office, self.is_ending = None, False
        self.room.start(is_awaited=False)

    def answer(self, number, line):
        """The answer to a line, of a sheet the first words; None from a desk that is killed. A new desk types only what the log lacks."""
        desk, noted = self.desks.get(number), {}
        if not desk or desk.has_ended():
            assert not desk or desk.wait() == -signal.SIGKILL, f"desk {number} ends: {desk.said()}"
            desk = self.desks[number] = self.room.desk(number)
            until(lambda: f"desk {number} is let in: {desk.said()}",
                  lambda: self.look_after_office() or desk.is_let_in() or desk.has_ended())
            noted = dict(self.room.of_desk(number))
        answer = noted.get(line)
        if answer is None:
            desk.write(f"{line}\n")
            answer = desk.answer(line, self.look_after_office)
        return None if answer == HAS_ENDED else first_words(answer)

    def stage(self):
        """What the office does."""
        office = self.room.office  # which another thread may change
        if self.is_ending:
            return "end"
        return "lines" if office and "desks can send lines" in office.said() else "start"

    def look_after_office(self):
        """Starts the office again if it was stopped."""
        if self.room.office.has_ended():
            self.ended.append(self.room.office.wait())
            said = self.room.office.said()
            assert self.ended[-1] in self.may_end and "Traceback" not in said, f"the office ends with {self.ended[-1]}: {said}"
            self.start()

    def end_office(self):
        """Sends the office a signal once it serves, again if it is stopped on the way."""
        def ends():
            self.look_after_office()
            self.is_ending = self.room.serves()
            return self.is_ending and self.room.stop() == 0

        until(lambda: f"the office ends: {self.room.office.said()}", ends)
        assert "every line is answered" in self.room.office.said(), f"every line is answered: {self.room.office.said()}"


def changes(call):
    """Whether a call changes or sends something. Copies of the disk come at any time, and have tests of their own."""
    return call.name != "look" and "/now" not in call.path and "/sheet-" not in call.path


def is_of_log(call):
    return call.file.startswith("night.db") and call.name in ("write", "sync", "truncate")


def each(kinds, is_all, job):
    """Does a job for the number of each of these calls, from 1 on, or for the first of each kind, until one fails."""
    with concurrent.futures.ThreadPoolExecutor(AT_ONCE) as pool:
        list(pool.map(job, some_of(kinds, is_all)))


class StopOf(Stop):
    """A night with a stop of the office, of a desk, or of the witness before a call; with the number 0 there is none. Writes to a file that
    follow each other count once. `kinds` says what each call is, `unsynced` what office or witness sent of an event that was not on its
    device, or that had no answer."""

    may_end = {-signal.SIGKILL}

    def __init__(self, who, number):
        super().__init__(number)
        self.who, self.last, self.kinds, self.unsynced = who, None, [], []

    def counts(self, call):
        if not self.room.is_of(self.who, call) or not changes(call):
            return False
        is_next, self.last = call == self.last, call
        if is_next and call.name == "write":
            return False
        self.kinds.append((call.name, call.file, self.night.stage()))
        return True

    def before(self, call):
        folder = {"office": self.room.folder, "witness": self.room.copy}.get(call.who)
        if folder and call.name == "send" and self.room.is_of(call.who, call):
            synced, there = events(folder, self.device.synced), events(folder)
            kinds = [it.kind for it in there]
            if synced != there or call.path == "socket" and kinds.count("line") != kinds.count("answer"):
                self.unsynced.append(f"{call}: {there[len(synced):]}")
        fault = super().before(call)
        if call.name == "sync" and call is not self.call:
            self.device.sync(call.path)
        return fault

    def run(self):
        with WatchedRoom(self.before) as room:
            self.room, self.device, self.night = room.with_witness(), Device(room.path), Night(room, may_end=self.may_end)
            self.night.run(lambda: f"{self.who} before call {self.number}, {self.call}")
            assert self.unsynced[:1] == [], f"what was sent, and is not on the device, {self.who} before call {self.number}, {self.call}"
            if self.who == "witness":
                room.start()  # one that was stopped at the end lacks that
                until("the witness has the same", lambda: room.events() == events(room.copy))
        return self

    @classmethod
    def each(cls, who, is_all, least):
        kinds = cls(who, 0).run().kinds
        assert len(kinds) > least, f"calls of {who}: {len(kinds)}"
        each(kinds, is_all, lambda number: cls(who, number).run())


@ALL
@pytest.mark.parametrize("who, least", [("office", 80), ("desk 1", 5), ("witness", 20)])
def test_stopped(who, least, is_all):
    """kill -9 of the office, of a desk or of the witness; office and witness send nothing of an event that is not on their device"""
    StopOf.each(who, is_all, least)


class FaultOf(StopOf):
    """A night in which a call of the office fails. If that writes or syncs a log with events, the office writes nothing more to it and ends
    with 3."""

    may_end, is_of_events, later = {1, 3}, False, ()

    def counts(self, call):
        return call.name in FAULTS and super().counts(call)

    def before(self, call):
        if self.call and call.pid == self.call.pid and is_of_log(self.call) and is_of_log(call):
            self.later += (call,)
        return super().before(call)

    def now(self, call):
        self.is_of_events = is_of_log(call) and events(self.room.folder) != []
        return FAULTS[call.name]

    def run(self):
        super().run()
        if self.is_of_events:
            assert self.later == (), f"what is written after {self.call} has failed"
            assert 3 in self.night.ended, f"the office has ended with 3 after {self.call}"
        return self


@ALL
def test_failed(is_all):
    """a call of the office fails once, as on a full volume or a broken device: it ends with 3, or goes on, and nothing is lost"""
    FaultOf.each("office", is_all, 40)


@ALL
def test_power_is_cut(is_all):
    """after a power cut before calls of the office and of the desks, log and disk hold what was shown"""
    chance, cuts = random.Random(86), {}  # what each cut leaves and how far the night is; the kind of the cut and its title

    def before(call):
        if call.pid in room.pids and changes(call):
            for image, what in zip(device.images(chance), ("names and bytes as synced", "bytes as synced", "a write is torn")):
                cuts.setdefault((image, night.done), (
                    (call.who, call.name, call.file, night.stage(), what),
                    f"a cut before {call.who}: {call.name} {call.path}, in line {night.done + 1}, {what}"))
        if call.name == "sync":
            device.sync(call.path)

    with WatchedRoom(before) as room:
        device, night = Device(room.path), Night(room)
        night.run(lambda: "without a cut")
    assert len(cuts) > 80, f"cuts: {len(cuts)}"
    found = [*cuts.items()]

    def go_on_after(number):
        (image, done), (_, title) = found[number - 1]
        with ApartRoom() as other:
            restore(image, other)
            Night(other, done).run(lambda: title)

    each([kind for kind, _ in cuts.values()], is_all, go_on_after)
