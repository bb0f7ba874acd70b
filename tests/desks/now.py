"""The files that an office puts into `now`, and a room whose office does so more often."""
import contextlib
import csv
import io
import os
import shutil

from logs import events
from processes import command_of, until
from room import Room

RETURNS = ["return 1 1 1 525", "return 1 2 1 300", "return 1 3 1 175", "return 2 1 1 240", "return 2 2 1 330", "return 2 3 1 30",
           "return 3 1 1 90", "return 3 2 1 60", "return 3 3 1 50"]
CLOSINGS = ["close 1", "close 2", "close 3"]
NEVER = 3600  # seconds
UNCONFIRMED = "municipality,list,number,votes,desk,municipality_name,list_name\n"
# The files of `now`, each with the task of the program that writes it.
FILES = {"status": "status", "missing": "status --missing", "implausible": "status --implausible", "held.csv": "export",
         "votes.csv": "votes", "vote-groups.csv": "votes --of groups", "seats": "seats --table", "seats.csv": "seats",
         "seat-groups.csv": "seats --of groups", "seat-constituencies.csv": "seats --of constituencies"}


class QuickRoom(Room):
    """A room whose office copies the disk more often, with a child that has more time and usual priority, and repeats each text."""

    def __init__(self, every=0.2, priority=0, **more):
        super().__init__(**more)
        self.held = self.path / "held"
        for file, name, value in [("now", "EVERY", every), ("now", "LONGEST", 600), ("now", "PRIORITY", priority), ("stream", "QUIET", 0)]:
            self.edit_script(f"zhcount_{file}.py", rf"^{name} = \S+", f"{name} = {value}")

    def on_copies(self, task):
        """Has the program first do this in bash when it is asked about a copy."""
        self.stands_in(f"case \"$*\" in */office/now-*/disk*) {task} ;; esac")

    def start_held(self):
        """Starts an office whose program waits when it is asked about a copy, until `goes_on`. The processes that wait."""
        self.held.write_text("")
        self.on_copies(f"while [ -e '{self.held}' ]; do sleep 0.02; done")
        self.start()
        return until("a question about a copy", self.left_over)

    def goes_on(self):
        self.held.unlink()

    def is_patient(self):
        """Gives the office endless patience with a child, until the file exists that this returns; then one second."""
        late = self.path / "late"
        added = f"lambda _, at: at + (1 if os.path.exists({str(late)!r}) else 10**6)"
        self.edit_script("zhcount_now.py", r"^LONGEST = \S+", f'LONGEST = type("Longest", (float,), {{"__radd__": {added}}})()')
        return late

    def child(self, word="-B"):
        """The child process that writes the files of a copy, found by its flag -B, or 0."""
        return super().child(word)

    def working(self):
        """The child that is at work. (The system's list of the children of a process can lack one.)"""
        return until("a child", self.child)

    def left_over(self):
        """The processes that ask about a copy."""
        return [it for it in os.listdir("/proc") if it.isdigit() and os.fsencode(f"--disk\0{self.folder}/now-") in command_of(it)]

    def shows(self, commands):
        """Waits until `now` has this number of commands and is the only copy. The copy."""
        until(lambda: f"now-{commands}: {self.office.said()}", lambda: names_of_now(self) == ["now", f"now-{commands}"])
        return (self.folder / "now").resolve()


def link_of(room):
    """The copy to which `now` leads, without the number of its last event."""
    with contextlib.suppress(OSError):
        return os.readlink(room.folder / "now").rpartition("-")[0]


def names_of_now(room):
    """`now` and the copies, likewise."""
    return sorted(it.name.rpartition("-")[0] or it.name for it in room.folder.iterdir() if it.name.startswith("now"))


def model(room, lines, line):
    """The files of `now`, and those of `publish`, as the program writes them after these lines, with the seats that this line asks for."""
    disk, flags = room.other_disk(*lines), ["--final"] if line == "final" else []
    ran = {name: room.ran(*words.split(" "), *(flags if "seats" in words else []), disk=disk) for name, words in FILES.items()}
    files = {"sums": ran["status"].stderr, **{name: it.stdout for name, it in ran.items() if it.returncode == 0}}
    published = {"setup.toml": room.setup.read_text()}
    if "seats" in files:
        published["sheet.txt"] = room.zhcount("run", disk=disk, given=f"1 {line}\n")
    else:
        files["seats"] = files["no-seats"] = ran["seats"].stderr
    published.update({name: text for name, text in files.items() if name.endswith(".csv") or name == "no-seats"})
    return files, published


def compare(room, lines, unconfirmed=None, shown=1000, line="sheet"):
    """Waits for the `now` after these lines, and compares it with the model. By default all returns are unconfirmed, entered by desk 1."""
    now, (files, published) = room.shows(len(lines)), model(room, lines, line)
    if unconfirmed is None:
        rows = [it.split(" ")[1:] for it in lines if it.startswith("return ")]
        unconfirmed = "".join(f"{','.join(row)},1,{' NMW'[int(row[0])]},{' ABC'[int(row[1])]}\n" for row in rows)
    compare_folder(now / "publish", published)
    compare_folder(now, {**files, "lines.csv": table_of_lines(room.folder, shown), "unconfirmed": UNCONFIRMED + unconfirmed},
                   ["disk", "publish"])
    copy = shutil.copyfile(now / "disk", room.path / "copy.disk")
    assert room.zhcount("export", disk=copy) == files["held.csv"], "the copy of the disk"
    return now


def compare_folder(folder, wanted, others=()):
    """The files of a folder are these, and others whose content is not compared."""
    for name, text in wanted.items():
        assert (folder / name).read_text() == text, f"{name} of {folder.name}"
    assert sorted(it.name for it in folder.iterdir()) == sorted([*wanted, *others]), f"nothing else is in {folder.name}"


def table_of_lines(folder, shown=1000):
    """`lines.csv` as it follows from a log: its answered lines, up to this number."""
    start, lines, table = 0, {}, io.StringIO()
    rows = [["number", "at", "start", "desk", "turn", "line", "answer", "answered_at"]]
    for it in events(folder):
        start += it.kind == "start"
        if it.kind == "line":
            lines[it.desk] = it
        elif it.kind == "answer":
            line = lines[it.desk]
            rows.append([line.number, line.at, start, line.desk, line.turn, line.text, it.text, it.at])
    csv.writer(table, lineterminator="\n").writerows(rows[:shown + 1])
    return table.getvalue()
