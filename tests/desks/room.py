"""A room for an office and its desks: a folder with a set-up and a disk. DESKS names another folder of the scripts."""
import contextlib
import itertools
import os
import pathlib
import re
import shutil
import signal
import subprocess
import sys
import tempfile

from counting import counted
from logs import events
from places import PROGRAM, REHEARSAL, TOP
from processes import SECONDS, Desk, Process, command_of, has_input, stand_still, until

SCRIPTS = pathlib.Path(os.environ.get("DESKS", TOP / "desks"))


class Room(contextlib.AbstractContextManager):
    def __init__(self, setup=REHEARSAL.read_text()):
        self.path = pathlib.Path(tempfile.mkdtemp(prefix="desks-", dir=self.shared()))
        self.scripts, self.environment = SCRIPTS, {"ZHCOUNT": str(PROGRAM)}
        self.setup, self.disk, self.folder = self.path / "setup.toml", self.path / "night.disk", self.path / "office"
        self.setup.write_text(setup)
        self.processes, self.office, self.options = [], None, []
        self.zhcount("format")

    @staticmethod
    def shared():
        """A folder in memory, where a sync costs nothing: a kill is not a power failure."""
        return "/dev/shm" if os.access("/dev/shm", os.W_OK) else tempfile.gettempdir()

    def __exit__(self, *_):
        for it in self.processes:
            it.kill()
        shutil.rmtree(self.path, ignore_errors=True)

    # The program and the scripts

    def ran(self, task, *words, disk=None, given=""):
        """A run of the program on the room's disk, or on another one."""
        return subprocess.run([PROGRAM, task, "--setup", self.setup, "--disk", disk or self.disk, *words], input=given, capture_output=True,
                              text=True)

    def zhcount(self, task, *words, **more):
        """The output of such a run, which must succeed."""
        ran = self.ran(task, *words, **more)
        assert ran.returncode == 0, f"zhcount {task}, which says {ran.stderr}"
        return ran.stdout

    def load(self, *rows):
        """Loads a table by hand."""
        path = self.path / "loaded.csv"
        path.write_text("".join(f"{it}\n" for it in ["municipality,list,number,votes", *rows]))
        return self.zhcount("load", "--csv", path)

    def by_hand(self, *lines, disk=None):
        """Types lines into `run` by hand. The answers."""
        return self.zhcount("run", disk=disk, given="".join(f"1 {it}\n" for it in lines))

    def other_disk(self, *lines):
        """A disk of the same set-up with these lines, and its path."""
        path = self.path / "other.disk"
        path.unlink(missing_ok=True)
        self.zhcount("format", disk=path)
        self.by_hand(*lines, disk=path)
        return path

    def script(self, name, *words):
        return [sys.executable, "-S", self.scripts / name, *words]  # -S: Python looks for no packages

    def edit_script(self, name, pattern, text):
        """Edits a script in a copy of all, which the room uses from now on."""
        if self.scripts != self.path / "scripts":
            self.scripts = shutil.copytree(self.scripts, self.path / "scripts")
        edit(self.scripts / name, pattern, text)

    def stands_in(self, task):
        """Makes a stand-in for the program, which first does this in bash."""
        path = self.path / "stand-in"
        path.write_text(f"#!/bin/bash\n{task}\nexec '{PROGRAM}' \"$@\"\n")
        path.chmod(0o755)
        self.environment["ZHCOUNT"] = str(path)

    def edits_answers(self, edit):
        """Makes one that edits the answers of `run` with sed."""
        self.stands_in(f"[ $1 = run ] && exec '{PROGRAM}' \"$@\" > >(exec sed -u '{edit}')")

    # The office

    def process(self, kind, words, **environment):
        process = kind(words, {**self.environment, **environment})
        self.processes.append(process)
        return process

    def start(self, *options, below=(), is_awaited=True):
        """Starts the office, below another program if that is given."""
        words = self.script("zhcount-office", *self.options, *options, self.setup, self.disk, self.folder)
        self.office = self.process(Process, [*below, *words])
        if is_awaited:
            self.await_start()
            assert self.serves(), f"the office starts: {self.office.said()}"
        return self.office

    def serves(self):
        return "desks can send lines" in self.office.said()

    def await_start(self):
        until(lambda: f"the office serves, or ends: {self.office.said()}", lambda: self.serves() or self.office.has_ended())

    def refuses(self, *texts, status=3):
        """The office does not start. It ends with this status and these texts."""
        self.start(is_awaited=False)
        self.await_start()
        assert not self.serves(), f"no start, but {texts}"
        self.ends(status, *texts)

    def stop(self, number=signal.SIGTERM):
        self.office.kill(number)
        return self.office.wait()

    def restart(self):
        """Kills the office, and starts another one."""
        self.stop(signal.SIGKILL)
        self.start()

    def ends(self, status, *texts):
        """The office ends of itself, with this status and these texts."""
        self.office.ends_with(status, "the office")
        self.office.says(*texts)
        assert "Traceback" not in self.office.said(), f"no traceback: {self.office.said()}"

    @staticmethod
    def children_of(process):
        pid = process.process.pid
        with contextlib.suppress(OSError):
            return list(map(int, pathlib.Path(f"/proc/{pid}/task/{pid}/children").read_text().split()))
        return []

    def child(self, word):
        """The process below the office that has this word in its command, or 0."""
        return next((it for it in self.children_of(self.office) if os.fsencode(word) in command_of(it).split(b"\0")), 0)

    def run_of_office(self):
        return until("a run", lambda: self.child("run"))

    def zhcount_office(self, *words, status=0):
        """The output of zhcount-office, which must end with this status."""
        ran = subprocess.run(self.script("zhcount-office", *words), env={**os.environ, **self.environment}, capture_output=True,
                             text=True, timeout=SECONDS)
        assert ran.returncode == status, f"the status of {words[0]}, which says {ran.stdout}{ran.stderr}"
        return ran.stdout + ran.stderr

    def replay(self, status=0):
        return self.zhcount_office("--replay", self.folder, status=status)

    def rebuilt(self):
        """The export of the disk that is made anew from the folder."""
        new = self.path / "new.disk"
        new.unlink(missing_ok=True)
        self.zhcount_office("--rebuild", self.folder, new)
        return self.zhcount("export", disk=new)

    # Desks

    def desk(self, number):
        return self.process(Desk, self.script("zhcount-desk", str(number), self.folder))

    def ask(self, number, *lines):
        """A desk that has sent these lines, and ended with `status`."""
        desk = self.desk(number)
        desk.status = desk.end("".join(f"{it}\n" for it in lines))
        return desk

    def note(self, desk, line):
        """Types a line at a desk and waits until it is in the log, but not for its answer."""
        desk.write(f"{line}\n")
        until(f"{line} is noted", lambda: self.noted()[-1:] == [line])

    def unanswered(self, desk, line):
        """Types a line that is in the log, but which the run, whose process is returned, does not get to answer."""
        run_process = self.run_of_office()
        stand_still(run_process)
        self.note(desk, line)
        until("it is given", lambda: has_input(run_process))
        return run_process

    def stops_at(self, desk, line, is_stored=False):
        """Kills the office while a line is in the log and unanswered. Its run then stores the line, or is killed too. The desk."""
        run_process = self.unanswered(desk, line)
        self.stop(signal.SIGKILL)
        os.kill(run_process, signal.SIGCONT if is_stored else signal.SIGKILL)
        until("the run has ended", lambda: not os.path.exists(f"/proc/{run_process}"))
        return desk

    # The log

    def events(self):
        return events(self.folder)

    def noted(self):
        """The lines in the log, in their order."""
        return [it.text for it in self.events() if it.kind == "line"]

    def of_desk(self, number):
        """The lines of a desk in the log, each with its answer, or None if it has none."""
        texts = [it.text for it in self.events() if it.desk == number]
        return list(itertools.zip_longest(texts[::2], texts[1::2]))

    def check(self, sent=()):
        """Ends the office, if it runs. Each line has one answer, the right one by the manual; disk and log agree, and a replay says so."""
        if not self.office.has_ended():
            assert self.stop() == 0, f"the end of the office: {self.office.said()}"
        found = self.events()
        count = counted(found)
        for number in sent:
            assert [text for text, _ in self.of_desk(number)] == sent[number], f"the lines of desk {number}"
        assert self.zhcount("export") == count.export(), "the export"
        assert found[-1].facts()["commands"] == count.commands, "the commands"
        return self.replay()


def edit(path, pattern, text):
    """Changes the one place of a file where this regular expression matches."""
    edited, times = re.subn(pattern, text, path.read_text(), flags=re.MULTILINE)
    assert times == 1, f"places with {pattern} in {path.name}"
    path.write_text(edited)


@contextlib.contextmanager
def running(room):
    """The room, while its office runs."""
    with room:
        room.start()
        yield room
