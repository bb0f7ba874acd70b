"""The log of a folder, FOLDER/night.db, read and written here by desks/FOLDER.md, without the scripts."""
import collections
import contextlib
import hashlib
import json
import pathlib
import re
import sqlite3
import tempfile

from places import TOP

APPLICATION, VERSION = 0x7A68636E, 1
SCHEMA = (TOP / "desks/FOLDER.md").read_text().partition("```sql\n")[2].partition("```")[0]
TIME = "2026-11-29T18:00:00.000+01:00"


class Event(collections.namedtuple("Event", "number at kind desk turn text sum", defaults=[""])):
    def sum_after(self, before):
        return hashlib.sha256(f"{before}{json.dumps(self[:6])}".encode()).hexdigest()

    def facts(self):
        return json.loads(self.text)


def bytes_of(path):
    with contextlib.suppress(FileNotFoundError):
        return pathlib.Path(path).read_bytes()
    return b""


def events(folder, read=bytes_of):
    """All events of a folder. An office keeps its log locked, so this reads a copy of it and of its -wal, both as they were at one time."""
    path = f"{folder}/night.db"
    for _ in range(1000):
        before, data, after = read(f"{path}-wal"), read(path), read(f"{path}-wal")
        if after == before or before and after.startswith(before):
            break
    with tempfile.TemporaryDirectory(prefix="log-") as room, contextlib.suppress(sqlite3.DatabaseError):  # it has no table yet
        copy = pathlib.Path(room, "night.db")
        copy.write_bytes(data)
        pathlib.Path(f"{copy}-wal").write_bytes(before)
        with contextlib.closing(sqlite3.connect(copy)) as db:
            return [Event(*row) for row in db.execute("SELECT * FROM event ORDER BY number")]
    return []


def first_words(answer):
    """An answer as a desk shows it or as the log has it; of a sheet what both have."""
    return re.match(r"(?:\d (?=sheet ))?(sheet \w+ \d+|.*)", answer)[1]


def check_chain(folder):
    """Each event has its number, and the sum that follows from the events before it."""
    before = ""
    for number, it in enumerate(events(folder), 1):
        assert (it.number, it.sum) == (number, it.sum_after(before)), f"event {number} of {folder} follows"
        before = it.sum


class Written:
    """The log of a folder, event by event, after these; nothing is in the file before `put`."""

    def __init__(self, folder, found=()):
        self.folder, self.events = pathlib.Path(folder), [*found]

    def add(self, kind, text, desk=0, turn=0):
        event = Event(len(self.events) + 1, TIME, kind, desk, turn, text)
        self.events.append(event._replace(sum=event.sum_after(self.events[-1].sum if self.events else "")))
        return self.events[-1]

    def edited(self, kind, within, old, new):
        """A log in which the events of this kind with a certain text within theirs have another one, and the sums follow."""
        other = Written(self.folder)
        for it in self.events:
            other.add(it.kind, it.text.replace(old, new) if it.kind == kind and within in it.text else it.text, it.desk, it.turn)
        assert [it.text for it in other.events] != [it.text for it in self.events], f"{old} is in an event {kind}"
        return other

    def put(self):
        """Makes the file, in place of the one that is there."""
        self.folder.mkdir(exist_ok=True)
        self.folder.chmod(0o2750)
        path = self.folder / "night.db"
        for it in (path, pathlib.Path(f"{path}-wal")):
            it.unlink(missing_ok=True)
        with contextlib.closing(sqlite3.connect(path)) as db:
            db.executescript(f"PRAGMA journal_mode=WAL; PRAGMA application_id={APPLICATION}; PRAGMA user_version={VERSION}; {SCHEMA}")
            db.executemany("INSERT INTO event VALUES (?, ?, ?, ?, ?, ?, ?)", self.events)
            db.commit()
        path.chmod(0o600)
