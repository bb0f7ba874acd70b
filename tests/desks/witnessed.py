"""A room whose office has a witness."""
import os
import signal
import sys

from logs import events
from processes import command_of, until
from quiet import patient_scripts, quiet_scripts
from room import SCRIPTS, Room

# A witness that can't be started while the file `away` exists. If `delay` exists when it is started, each message takes the seconds that
# this file contains, on its way to the witness and on its way back.
COMMAND = """#!/bin/bash
slowly() {{ while IFS= read -r line; do sleep "$(cat {delay})"; printf '%s\\n' "$line"; done; }}
[ -e {away} ] && exit 1
[ -e {delay} ] || exec {python} {script} {copy}
slowly | {python} {script} {copy} | {{ slowly; kill $$; }}
"""


class Witnessed(Room):
    """A room whose office has a witness, in another folder. Only the times of the office that a test measures are as usual. The others are
    long enough for a busy machine."""

    def __init__(self, *options, measures=(), seconds=60):
        super().__init__()
        self.scripts = patient_scripts(quiet_scripts(), *measures, seconds=seconds)
        other = self.path / "witness"
        other.mkdir()
        self.copy, self.away, self.delay, self.command = (other / it for it in ("copy", "away", "delay", "command"))
        self.command.write_text(COMMAND.format(python=sys.executable, script=SCRIPTS / "zhcount-witness", **vars(self)))
        self.command.chmod(0o755)
        self.options = ["--witness", str(self.command), *options]

    def __exit__(self, *fault):
        self.signal(signal.SIGCONT)
        super().__exit__(*fault)

    def witness(self):
        """The process of the witness; 0 if it does not run."""
        words = os.fsencode(f"zhcount-witness\0{self.copy}\0")
        return next((int(it) for it in os.listdir("/proc") if it.isdigit() and words in command_of(it)), 0)

    def signal(self, number):
        """Sends the witness a signal, if it runs."""
        if pid := self.witness():
            os.kill(pid, number)

    def lose_witness(self):
        self.away.touch()
        self.signal(signal.SIGKILL)

    def has_all(self):
        """Waits until the witness has each event of the office."""
        until("the witness has all", lambda: self.copy.exists() and events(self.folder) == events(self.copy))

    def said_of_it(self):
        """What the folder says of the witness."""
        return (self.folder / "witness").read_text()

    def says_of_it(self, text):
        """Waits until the folder says this of the witness."""
        until(lambda: f"the folder says '{text}': {self.said_of_it()}", lambda: self.said_of_it().startswith(text))

    def moves(self):
        """The witness's folder becomes that of the office, with a disk that is made anew from it."""
        until("the witness has ended", lambda: not self.witness())
        self.folder, self.disk, self.options = self.copy, self.path / "new.disk", []
        self.zhcount_office("--rebuild", self.folder, self.disk)
        assert (self.folder / "setup.toml").read_bytes() == self.setup.read_bytes(), "its set-up"
