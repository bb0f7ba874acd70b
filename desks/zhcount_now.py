"""What zhcount-office puts into its folder for the chancellery while it runs: the newest sheets, and copies of the disk. A copy is made
between two answers, when no call is running, with the lines that were answered by then. A child process (`main`) writes beside it what
follows from it and from these lines, and points the link `now` there. FOLDER.md describes the files, and which can be published."""
import contextlib
import csv
import glob
import io
import os
import re
import shutil
import signal
import subprocess
import sys
import time
from typing import Any, Callable, Dict, List

from zhcount_log import SHEET, Event, Log, Stopped
from zhcount_names import Names
from zhcount_program import Disk, Program, content, plain, put, room_in_memory
from zhcount_state import State, rows_of
from zhcount_stream import say
from zhcount_tables import differing, table_of

EVERY = 10  # seconds from one copy to the next, at least
LONGEST = 60  # seconds that a child may take
PRIORITY = 19  # of a child: desks come first
TABLES = ("held.csv", "votes.csv", "vote-groups.csv", "seats.csv", "seat-groups.csv", "seat-constituencies.csv", "no-seats")
HERE = os.path.dirname(os.path.realpath(__file__))
# The page that checks a sheet, where it is installed or among the sources; nothing where it is not there.
PAGE = next(filter(os.path.exists, (os.path.join(HERE, it, "index.html") for it in (".", "../page"))), "")


class Now:
    """The copies of the disk, one at a time."""

    def __init__(self, log: Log, disk: Disk, program: Program, totals: str):
        self.log, self.disk, self.program, self.totals = log, disk, program, totals
        # lines.csv, as a file in memory that a child inherits, and what follows from the events up to its last line
        self.lines, self.state = open(os.memfd_create("lines.csv"), "w", encoding="utf-8", newline=""), State()
        self.writer = csv.writer(self.lines, lineterminator="\n")
        self.lines.write("number,at,start,desk,turn,line,answer,answered_at\n")
        self.child: Any = None
        self.at, self.priority = float("-inf"), PRIORITY  # when the last copy was made; of its child
        self.shown = ""  # the copy that `now` leads to

    def clear(self) -> None:
        """Removes each copy that is not shown."""
        for path in glob.glob(f"{glob.escape(self.log.path)}/now-[0-9]*"):
            if path != self.shown:
                shutil.rmtree(path, ignore_errors=True)

    def note(self) -> None:
        """Adds the lines that were answered since: after each answer, so that a copy has few to add, however long the log is."""
        for event in self.log.events(self.state.number):
            self.state.take(event)
            if event.kind == "answer":
                line = self.state.lines[event.desk]
                self.writer.writerow([line.number, line.at, self.state.start, line.desk, line.turn, line.text, event.text, event.at])

    def take(self, line: Event, answer: str) -> None:
        """Notes an answer that was shown, and keeps a sheet in place of the last one of its kind."""
        self.note()
        if SHEET.match(answer):
            kind = "sheet-final-" if answer.startswith("sheet final") else "sheet-"
            new = os.path.join(self.log.path, f"{kind}{self.log.state.commands}")
            try:
                put(new, f"{line.desk} {answer}\n".encode())
                for path in set(glob.glob(f"{glob.escape(self.log.path)}/{kind}[0-9]*")) - {new}:
                    os.unlink(path)
            except OSError as it:
                say(f"a sheet is not put into the folder: {it}")

    def last(self) -> str:
        """The path of a copy that is made now."""
        return os.path.join(self.log.path, f"now-{self.log.state.commands}-{self.log.state.number}")

    def seconds(self) -> float:
        """How long the office may wait for something else."""
        return 1 if self.child else float("inf") if self.shown == self.last() else self.at + EVERY - time.monotonic()

    def look(self) -> None:
        """Looks after the child, or copies the disk where that is due. The office calls it between two answers alone."""
        try:
            if self.child and (self.child.poll() is not None or time.monotonic() >= self.at + LONGEST):
                self.end_child()
            elif not self.child and self.shown != self.last() and time.monotonic() >= self.at + EVERY:
                self.copy()
        except OSError as it:
            say(f"`now` could not be renewed: {it}")
            self.clear()

    def finish(self, wait: Callable[..., Any]) -> None:
        """Makes the last copy, and waits for its child, so that `now` shows the end; where the office is told twice, for nobody."""
        if self.child:
            with contextlib.suppress(ChildProcessError):
                self.end_child()
        self.at, self.priority = float("-inf"), 0
        self.look()
        while self.child:
            wait([], seconds=0.1)
            self.look()

    def copy(self) -> None:
        """Copies the disk, and starts the child, which has the lines as its standard input."""
        self.at = time.monotonic()
        self.disk.check()
        self.note()
        self.lines.flush()
        path, numbers = self.last(), (self.state.commands, os.fstat(self.lines.fileno()).st_size, os.getpid(), self.priority)
        os.mkdir(path)
        os.chmod(path, 0o2750)
        shutil.copyfile(self.disk.path, os.path.join(path, "disk"))
        words = [sys.executable, "-B", __file__, self.program.setup, path, *map(str, numbers), self.totals]
        self.child = subprocess.Popen(words, stdin=self.lines, stdout=subprocess.DEVNULL, start_new_session=True)

    def end_child(self) -> None:
        """Ends the child, if it is late, with what it has started. All is removed that is not shown then."""
        if self.child.poll() is None:
            os.killpg(self.child.pid, signal.SIGKILL)
        status, self.child = self.child.wait(), None
        self.shown = os.path.realpath(os.path.join(self.log.path, "now"))
        self.clear()
        if status < 0:
            raise ChildProcessError(f"its process was killed after {time.monotonic() - self.at:.0f} seconds")


def unconfirmed(program: Program, held: bytes, lines: List[Dict[str, str]]) -> bytes:
    """The rows held that one desk alone has entered, or nobody at a desk, as a table: it follows from the lines and their answers."""
    state, names = State(), Names(program)
    for it in lines:
        for kind in ("line", "answer"):
            state.take(Event(0, "", kind, int(it["desk"]), 0, it[kind]))
    rows = [[*place, *row, desks, names.municipalities[place[0]], names.groups[place[1]]] for place, row in rows_of(held.decode()).items()
            if len(desks := state.entered_by((place, row))) == 1]
    return table_of("municipality,list,number,votes,desk,municipality_name,list_name", rows)


def seats_of(program: Program, line: str) -> Dict[str, bytes]:
    """The seats, to be read and as tables; or why there are none."""
    flags = ["--final"] if line == "final" else []
    ran = program.started(subprocess.run, "seats", "--table", *flags, capture_output=True)
    if ran.stderr.startswith(b"zhcount: refused "):
        return {"seats": ran.stderr, "no-seats": ran.stderr}
    if ran.returncode:
        raise Stopped(f"zhcount seats: {plain(ran.stderr)}")
    tables = {f"seat-{it}.csv": program.done("seats", "--of", it, *flags)[0] for it in ("groups", "constituencies")}
    return {"seats": ran.stdout, "seats.csv": program.done("seats", *flags)[0], **tables}


def sheet_of(program: Program, line: str, commands: int) -> bytes:
    """The sheet, as run gives it: with a disk of its own, as it may write there. Its desk is always 1."""
    with room_in_memory() as room:
        copy = Program(program.setup, shutil.copyfile(program.disk, os.path.join(room, "disk")), is_apart=False)
        said = copy.started(subprocess.run, "run", input=f"1 {line}\n".encode(), stdout=subprocess.PIPE).stdout
    if not re.match(rb"1 sheet \w+ %d\n" % commands, said):
        raise Stopped(f"no sheet of the copy: {plain(said[:80])}")
    return said


def published(program: Program, files: Dict[str, bytes], line: str, commands: int) -> Dict[str, bytes]:
    """The files of `publish`, by these of the copy: the tables, with a sheet if there are seats, the set-up and the page."""
    found = {"setup.toml": content(program.setup), **{it: files[it] for it in TABLES if it in files}}
    if "no-seats" not in files:
        found["sheet.txt"] = sheet_of(program, line, commands)
    if PAGE:
        found["index.html"] = content(PAGE)
    return {f"publish/{name}": data for name, data in found.items()}


def made(setup: str, folder: str, commands: int, table: bytes, totals: str) -> Dict[str, bytes]:
    """What follows from a copy of the disk and from lines.csv, by the names of the files."""
    program = Program(setup, os.path.join(folder, "disk"), is_apart=False)  # it ends with this process
    status, held = program.done("status")[0], program.done("export")[0]
    implausible, sums = program.done("status", "--implausible")
    if b", %d commands;" % commands not in sums:
        raise Stopped(f"the copy has not the {commands} commands of the log: {plain(sums)}")
    lines = list(csv.DictReader(io.StringIO(table.decode(), newline="")))
    line = "final" if any(it["answer"].startswith(f"sheet final {commands} ") for it in lines) else "sheet"  # as a desk has had it
    files = {"lines.csv": table, "status": status, "sums": sums, "missing": program.done("status", "--missing")[0],
             "implausible": implausible, "held.csv": held, "unconfirmed": unconfirmed(program, held, lines),
             "votes.csv": program.done("votes")[0], "vote-groups.csv": program.done("votes", "--of", "groups")[0],
             **seats_of(program, line)}
    if totals:
        files["differs"], remarks = differing(totals, status.decode())
        if remarks:
            say(f"--totals: {'; '.join(remarks)}")
    return {**files, **published(program, files, line, commands)}


def show(folder: str, files: Dict[str, bytes]) -> None:
    """Puts files beside the copy, those that are published for everybody, and lets `now` lead to them."""
    os.chdir(folder)
    os.mkdir("publish")
    for name, data in files.items():
        with open(name, "wb") as file:
            file.write(data)
    for name in ("disk", *files):
        os.chmod(name, 0o644 if name.startswith("publish/") else 0o640)
    os.chmod("publish", 0o755)
    if os.path.exists("../witness"):
        os.symlink("../witness", "witness")
    os.symlink(os.path.basename(folder), "now")
    os.rename("now", "../now")


def main(setup: str, folder: str, commands: str, length: str, office: str, priority: str, totals: str) -> None:
    """The child, for a copy that has to have these commands. lines.csv is what its standard input has up to this length: the office goes on
    writing. Without the process of its office it shows nothing. `totals` may be empty."""
    os.nice(int(priority))
    try:
        files = made(setup, folder, int(commands), os.pread(0, int(length), 0), totals)
        if os.getppid() == int(office):
            show(folder, files)
    except (Stopped, OSError, subprocess.SubprocessError) as it:
        say(f"`now` could not be renewed: {it}")


if __name__ == "__main__":
    main(*sys.argv[1:])
