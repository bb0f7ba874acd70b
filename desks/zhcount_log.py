"""The log of a count, FOLDER/night.db, which an office and its witness keep alike: one table of events that is only ever appended to. Each
event has a sum, the SHA-256 of the sum before it and of its fields: two logs with one sum are the same, event by event."""
import contextlib
import datetime
import fcntl
import hashlib
import os
import pwd
import re
import sqlite3
import struct
from typing import Any, Callable, Generator, List, Optional, Sequence

from zhcount_state import Event, State, sum_of

APPLICATION, VERSION = 0x7A68636E, 1  # "zhcn", and of the tables below
TABLES = f"""
BEGIN EXCLUSIVE;
CREATE TABLE event (number INTEGER PRIMARY KEY, at TEXT NOT NULL, kind TEXT NOT NULL, desk INTEGER NOT NULL, turn INTEGER NOT NULL,
    text TEXT NOT NULL, sum TEXT NOT NULL);
CREATE TABLE sheet (desk INTEGER PRIMARY KEY, number INTEGER NOT NULL, text TEXT NOT NULL);
PRAGMA application_id = {APPLICATION};
PRAGMA user_version = {VERSION};
COMMIT;
"""
DESKS = range(1, 9)
LINE = 121  # bytes of a line that count: the program refuses what has more, whatever it says
OFTEN = 100  # events after which they go from night.db-wal into night.db
PATIENCE = 5  # seconds that the process before has for its end
SHEET = re.compile(r"sheet (?:provisional|final) \d+(?:\n|$)")
ROW = "(?, ?, ?, ?, ?, ?, ?)"
SPELLING = {byte: f"\\x{byte:02x}" for byte in range(256) if not 32 <= byte < 127 or byte == 92}
FAILED: List[Any] = []  # connections that must not be closed, since SQLite would write then


class Stopped(Exception):
    """Why a program ends, and its status: 0 told to, 1 it may be started again at once, 3 a person has to look first."""

    def __init__(self, reason: str, status: int = 3):
        super().__init__(reason)
        self.status = status


def now() -> str:
    return datetime.datetime.now().astimezone().isoformat(timespec="milliseconds")


def escaped(line: bytes) -> str:
    """The bytes of a line as text: printable ASCII as it is, others and the backslash as \\x5c."""
    return line.decode("latin-1").translate(SPELLING)


def unescaped(text: str) -> bytes:
    return re.sub(rb"\\x([0-9a-f]{2})", lambda it: bytes([int(it[1], 16)]), text.encode("ascii", "replace"))


def is_canonical(text: object) -> bool:
    """Whether this is how a line is spelt, and of one line: each has one spelling."""
    line = unescaped(text) if isinstance(text, str) else b"\n"
    return b"\n" not in line and len(line) <= LINE and escaped(line) == text


def noted(answer: str) -> str:
    """What the log has of an answer: of a sheet its first line, its length and its sum."""
    data, first_line = answer.encode(), answer.split("\n")[0]
    return f"{first_line} {len(data)} {hashlib.sha256(data).hexdigest()}" if SHEET.match(answer) else answer


def sync_folder(path: str) -> None:
    """Returns when the names in a folder are on the device."""
    at = os.open(path, os.O_RDONLY)
    try:
        os.fsync(at)
    finally:
        os.close(at)


def named(user: int) -> str:
    """The name of a user; the number of one who has none."""
    with contextlib.suppress(KeyError):
        return pwd.getpwuid(user).pw_name
    return str(user)


def holder(path: str) -> str:
    """Who has a file locked. No process asks that has it itself: its lock would be gone."""
    with contextlib.suppress(OSError), open(path, "r+b") as file:
        asked = fcntl.fcntl(file, fcntl.F_GETLK, struct.pack("hhqqi4x", fcntl.F_WRLCK, 0, 0, 0, 0))
        process = f"/proc/{struct.unpack('hhqqi4x', asked)[4]}"
        with open(f"{process}/cmdline", encoding="utf-8", errors="replace") as command:
            script = re.search(r"zhcount-(witness|office)(?= )( --re\w+)?", command.read().replace("\0", " "))
        return f"{script[0] if script else 'a program'}, process {process[6:]} of {named(os.stat(process).st_uid)}"
    return "another process"


def believing(task: Callable[..., None]) -> Callable[..., None]:
    """Stops at a fault of SQLite: after a sync that failed no other one can be believed."""
    def done(log: "Log", *args: Any, **named: Any) -> None:
        try:
            task(log, *args, **named)
        except sqlite3.Error as it:
            FAILED.append(log.db)
            raise Stopped(f"{log.file} could not be written or read: {it}") from None
    return done


class Log:
    """The events of a folder, which this process has for itself. `wait` is called with who has them meanwhile."""

    @believing
    def __init__(self, path: str, is_made: bool = True, wait: Optional[Callable[[str], None]] = None):
        self.path, self.state = os.path.realpath(path), State()
        self.file = os.path.join(self.path, "night.db")
        self.db: Any = None
        self.moved = 0  # the last event that night.db has had when a checkpoint was made
        os.umask(0o077)  # the log is its owner's alone
        self.make_folder(is_made)
        self.lock(wait)
        self.prepare()
        self.checkpoint()  # what the process before has written, and not synced, is no event yet
        sync_folder(self.path)
        for event in self.events():
            self.check(self.state, event)
            self.state.take(event)

    def make_folder(self, is_made: bool) -> None:
        """Makes the folder where there is none; one that is another user's, that others may use, or of another program is refused."""
        if is_made and not os.path.isdir(self.path):
            os.mkdir(self.path, 0o700)
            sync_folder(os.path.dirname(self.path))
        if os.path.exists(os.path.join(self.path, "protocol")):
            raise Stopped(f"{self.path} has the transcripts of an older zhcount: end that count with the scripts that it was begun with")
        if not os.path.exists(self.file) and (not is_made or os.path.exists(self.file + "-wal")):
            raise Stopped(f"{self.path} has no night.db")
        found, user = os.stat(self.path), named(os.geteuid())
        if found.st_uid != os.geteuid():
            raise Stopped(f"{self.path} belongs to {named(found.st_uid)}, and {user} runs the office: run it as {named(found.st_uid)}, or, "
                          f"as root, 'chown -R {user} {self.path}'")
        if found.st_mode & 0o027:
            raise Stopped(f"others may use {self.path}: 'chmod 2750 {self.path}' makes it right")
        os.chmod(self.path, 0o2750)  # also where a stop came before this

    def lock(self, wait: Optional[Callable[[str], None]]) -> None:
        """Opens the file once no other process has it."""
        while True:
            self.db = sqlite3.connect(self.file, timeout=PATIENCE, isolation_level=None)
            try:
                self.db.executescript("PRAGMA locking_mode = EXCLUSIVE; BEGIN EXCLUSIVE; COMMIT")
                return
            except sqlite3.OperationalError as it:
                if "locked" not in str(it):
                    raise
            self.db.close()
            who = holder(self.file)
            if not wait:
                raise Stopped(f"another office, witness or replay has {self.path}: {who}")
            wait(who)

    def prepare(self) -> None:
        """Makes the tables, or refuses those of another program. A commit is one append to the -wal and one sync."""
        is_new = not self.db.execute("SELECT 1 FROM sqlite_master").fetchone()
        found = [self.db.execute(f"PRAGMA {it}").fetchone()[0] for it in ("application_id", "user_version")]
        if not is_new and found != [APPLICATION, VERSION]:
            raise Stopped(f"{self.file} is of another program or version: application_id {found[0]}, user_version {found[1]}")
        settings = "PRAGMA journal_mode = WAL; PRAGMA synchronous = FULL; PRAGMA wal_autocheckpoint = 0;"
        self.db.executescript(settings + (TABLES if is_new else ""))

    @believing
    def checkpoint(self, how: str = "TRUNCATE") -> None:
        """Brings the -wal, synced, into night.db. SQLite does so by itself too, but says nothing of errors."""
        is_busy, pages, moved = self.db.execute(f"PRAGMA wal_checkpoint({how})").fetchone()
        if is_busy or not 0 <= pages == moved:
            raise sqlite3.OperationalError("its -wal can't be brought into it")
        self.moved = self.state.number

    def check(self, before: Any, event: Event) -> None:
        """Refuses an event that does not follow another one, or a state."""
        if event.number != before.number + 1 or event.sum != sum_of(before.sum, event[:-1]):
            raise Stopped(f"{self.file}: event {event.number} does not follow the one before it: somebody has changed the log")

    def events(self, after: int = 0, count: int = -1) -> Generator[Event, None, None]:
        for row in self.db.execute("SELECT * FROM event WHERE number > ? ORDER BY number LIMIT ?", (after, count)):
            yield Event(*row)

    def sum_at(self, number: int) -> str:
        return next((it.sum for it in self.events(number - 1, 1)), "") if number else ""

    def sheet(self, answer: Event) -> str:
        """A desk's last answer whole. The text of a sheet is in the log alone in which it was noted."""
        for text, in self.db.execute("SELECT text FROM sheet WHERE number = ?", (answer.number,)).fetchall():
            if noted(text) == answer.text:
                return text
        return re.sub(r"(sheet \w+ \d+) \d+ [0-9a-f]{64}", r"\1: its text is not in this log: ask for it again", answer.text)

    def add(self, kind: str, text: str, desk: int = 0, turn: int = 0) -> Event:
        """Appends an event, and returns it once it is on the device."""
        fields = self.state.number + 1, now(), kind, desk, turn, noted(text) if kind == "answer" else text
        event = Event(*fields, sum=sum_of(self.state.sum, fields))
        if event.text != text:
            self.append("REPLACE INTO sheet VALUES (?, ?, ?)", [desk, event.number, text])
        self.append(f"INSERT INTO event VALUES {ROW}", event, event)
        return event

    def keep(self, events: List[Event]) -> None:
        """Appends events of another log, if they follow, all of them or none."""
        for before, event in zip([self.state, *events], events):
            self.check(before, event)
        if events:
            self.append("INSERT INTO event VALUES " + ", ".join([ROW] * len(events)), [it for event in events for it in event], *events)

    @believing
    def append(self, statement: str, values: Sequence[Any], *events: Event) -> None:
        """Does what a statement says, which is a commit; and brings a long -wal into night.db, between lines."""
        self.db.execute(statement, values)
        for event in events:
            self.state.take(event)
        if not self.state.open and self.state.number >= self.moved + OFTEN:
            self.checkpoint("RESTART")  # the file keeps its length: a sync costs less where none is added

    def close(self) -> None:
        """A clean end: night.db has all, and there is no -wal. After a fault nothing more is done to the file."""
        if not FAILED:
            self.checkpoint()
            self.db.close()
            sync_folder(self.path)
