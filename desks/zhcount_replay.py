"""What a disk has, by which a start decides; and --replay and --rebuild, which run the lines of a log over a disk in memory and compare."""
import base64
import contextlib
import csv
import hashlib
import json
import os
import re
import select
import shutil
import sqlite3
import zlib
from typing import Any, Dict, FrozenSet, NamedTuple, Optional

from zhcount_log import Event, Log, Stopped, noted, sync_folder
from zhcount_program import Program, Run, content, counted, put, room_in_memory
from zhcount_state import Held, State, rows_of

NO_MEMORY = "refused memory"  # such a line changed nothing, and another time there may be memory


class Found(NamedTuple):
    """What one copy of a disk has."""
    commands: int
    held: Held
    closed: FrozenSet[str]
    export: str
    image: bytes

    def facts(self) -> Dict[str, Any]:
        """What a start and an end note of it."""
        return {"commands": self.commands, "export": hashlib.sha256(self.export.encode()).hexdigest()}

    def loaded(self) -> str:
        """What the log notes of commands that came by hand: the whole disk, as nothing else says how they came."""
        image = base64.b64encode(zlib.compress(self.image)).decode()
        return json.dumps({"commands": self.commands, "export": self.export, "closed": sorted(self.closed, key=int), "image": image})


def look(program: Program) -> Found:
    """What a program's disk has, all of one copy of it. The caller keeps all others from it, as by a run."""
    with room_in_memory() as room:
        copy = Program(program.setup, os.path.join(room, "disk"))
        image = content(shutil.copyfile(program.disk, copy.disk))
        (status, sums), (export, _) = copy.done("status"), copy.done("export")
    try:
        commands = int(re.findall(r"(\d+) commands", sums.decode())[0])
        closed = frozenset(it["number"] for it in csv.DictReader(status.decode().split("\n")) if it["state"] == "closed")
        return Found(commands, rows_of(export.decode()), closed, export.decode(), image)
    except (ValueError, LookupError):
        raise Stopped(f"what zhcount says of {program.disk} can't be read") from None


def decide(state: State, found: Found) -> str:
    """Whether a disk is that of the log: 'same'; 'stored', if it has what the line without an answer does, too; or 'loaded', if it has all
    and more. Any other is refused."""
    if (found.commands, found.held, found.closed) == (state.commands, state.held, state.closed):
        return "same"
    if state.open:
        rows, closed = state.effect(state.open)
        if (found.commands, found.held, found.closed) == (state.commands + 1, {**state.held, **rows}, closed):
            return "stored"
    has_all = all(row == found.held.get(place) or row[0] < found.held.get(place, (0, ""))[0] for place, row in state.held.items())
    if not has_all or found.commands <= state.commands:
        raise Stopped(f"the disk has {counted(found.commands)}, and not all of the log's {state.commands}: it is not the disk of this log")
    return "loaded"


def say(text: str) -> None:
    """A line on standard output, whatever a path has that is no text, if somebody reads it."""
    with contextlib.suppress(OSError):
        os.write(1, f"{text}\n".encode("utf-8", "backslashreplace"))


def compare(what: str, was: Any, here: Any) -> None:
    if was != here:
        raise Stopped(f"not the same: {what}: noted is '{was}', and here '{here}'")


class Rerun:
    """The events of a log, over a disk in a room. Before the image at event `first` no line is run."""

    def __init__(self, log: Log, room: str, first: int):
        self.log, self.first, self.state = log, first, State()
        self.program = Program(os.path.join(room, "setup.toml"), os.path.join(room, "disk"))
        self.run: Optional[Run] = None
        self.lines = self.starts = 0  # that were run
        self.other = ""  # the program that was said to be another one

    def all(self) -> None:
        with contextlib.closing(self.log.events()) as events:
            for event in events:
                if event.kind == "setup" or event.kind != "line" and event.number >= self.first:
                    getattr(self, f"take_{event.kind}")(event)
                self.state.take(event)
                if event.kind == "loaded" and event.number >= self.first:
                    self.follows()
        self.follows()

    def take_setup(self, event: Event) -> None:
        put(self.program.setup, event.text.encode())
        self.program.done("format")

    def take_answer(self, event: Event) -> None:
        if event.text == NO_MEMORY:
            return
        if not self.run:  # as the office does at a start
            self.run = self.program.run(select.select)
            self.run.resume(self.state.rows)
        line = self.state.lines[event.desk].text
        compare(f"event {event.number}, desk {event.desk}: {line}", event.text, noted(self.run.give(event.desk, line)))
        self.lines += 1

    def take_start(self, event: Event) -> None:
        """Says which program there was, if it was another one, and compares what the disk has."""
        self.starts += 1
        was, here = json.loads(event.text)["program"], self.program.identity()["program"]
        if was not in (here, self.other):
            self.other = was
            say(f"zhcount is another one here: its SHA-256 is {here}, and in start {self.state.start + 1} it was {was}")
        self.take_ended(event)

    def take_ended(self, event: Event) -> None:
        """Compares what the disk has with what an event says of it, if anything, and ends the run."""
        facts = json.loads(event.text)
        if facts["commands"] is not None:
            for name, here in look(self.program).facts().items():
                compare(f"event {event.number}, {event.kind}: {name}", facts[name], here)
        if self.run:
            self.run.end()
            self.run = None

    def take_loaded(self, event: Event) -> None:
        put(self.program.disk, zlib.decompress(base64.b64decode(json.loads(event.text)["image"])))

    def follows(self) -> None:
        compare(f"event {self.state.number}: the disk", "same", decide(self.state, look(self.program)))

    def sum_up(self) -> None:
        """Says what was compared, and up to where the log goes: two logs with one sum are the same."""
        say(f"the same: the answers to {counted(self.lines, 'line')} in {counted(self.starts, 'start')}, and the export")
        if self.first:
            say(f"event {self.first}: what came by hand before it is in its image, with which the disk begins")
        if self.state.open:
            say(f"desk {self.state.open.desk}: {self.state.open.text}: not answered, and left out")
        say(f"event {self.state.number}: {self.state.sum}")


def replay(folder: str, disk: Optional[str] = None) -> int:
    """Runs the lines of a log again, and compares. Where a disk is asked for it begins with the last image, and makes it. The status."""
    try:
        if disk is not None and os.path.lexists(disk):
            raise Stopped(f"{disk} is there already, and is left as it is")
        with contextlib.closing(Log(folder, is_made=False)) as log, room_in_memory() as room:
            if log.state.setup is None:
                raise Stopped(f"{log.path} has no start yet")
            images = [it.number for it in log.events() if it.kind == "loaded" and disk is not None]
            again = Rerun(log, room, max(images, default=0))
            again.all()
            if disk is not None:
                put(os.path.join(log.path, "setup.toml"), content(again.program.setup))
                make(disk, content(again.program.disk))
            again.sum_up()
        return 0
    except (Stopped, OSError, sqlite3.Error) as it:
        say(str(it) if disk is None else f"not made: {it}")
        return 1


def make(path: str, data: bytes) -> None:
    """Makes a file for its owner alone. It gets its name once all of it is on the device, if nothing else has that."""
    folder = os.path.dirname(os.path.abspath(path))
    with open(os.open(folder, os.O_TMPFILE | os.O_WRONLY, 0o600), "wb") as file:
        file.write(data)
        file.flush()
        os.fsync(file.fileno())
        os.link(f"/proc/self/fd/{file.fileno()}", path, src_dir_fd=file.fileno())  # by linkat, which follows the link there
    sync_folder(folder)
