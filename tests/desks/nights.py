"""Nights of an office, whose logs can be written again, by logs.py, with other events; and the output of replay and rebuild for them."""
import os

from logs import Written
from room import Room


class Night(Room):
    """A night whose log, once an office has ended, can be edited."""

    def __init__(self, **more):
        super().__init__(**more)
        self.log, self.new = Written(self.folder), self.path / "new.disk"

    def begin(self, lines, is_stored=None):
        """A start with these lines, 'N LINE' each, and a clean end; or a stop before the last answer, with that line on the disk or not."""
        self.start()
        desks = {number: self.desk(number) for number in {int(it[0]) for it in lines}}
        for it in lines if is_stored is None else lines[:-1]:
            desks[int(it[0])].send(it[2:])
        if is_stored is not None:
            self.stops_at(desks[int(lines[-1][0])], lines[-1][2:], is_stored)
        self.stop()
        for it in desks.values():
            it.kill()
        self.log = Written(self.folder, self.events())

    def put(self):
        """Makes the file of the log."""
        self.log.put()
        return self

    def rebuild(self, status=0):
        self.new.unlink(missing_ok=True)
        return self.zhcount_office("--rebuild", self.folder, self.new, status=status)

    def made(self):
        """The output of a rebuild, and the export of the new disk."""
        return self.put().rebuild(), self.zhcount("export", disk=self.new)

    def both_refuse(self, text):
        """Replay and rebuild fail with this text, make no disk and leave nothing else."""
        before = {*os.listdir(self.path)} - {self.new.name}
        for said, start in (self.replay(status=1), ""), (self.rebuild(status=1), "not made: "):
            assert start in said and text in said, f"{text}: {said}"
        assert {*os.listdir(self.path)} == before, "the files beside"
