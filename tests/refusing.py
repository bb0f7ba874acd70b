"""Runs of programs under tests/refuse.c, in which an allocation is refused, a call of a file fails, or a stream takes no more."""
import collections
import os
import subprocess

Run = collections.namedtuple("Run", "status out said is_reached")


class Preloaded:
    """Programs that run in a folder, with the library before the system's."""

    def __init__(self, library, room):
        self.room, self.reached, self.library = room, room / "reached", library

    def environment(self, **fails):
        """The environment of a run in which what `fails` says does. The file `reached` is there once the run has come to that."""
        self.reached.unlink(missing_ok=True)
        return {**os.environ, "LD_PRELOAD": str(self.library), "REACHED": "reached", **{name: str(it) for name, it in fails.items()}}

    def run(self, *words, given=os.devnull, **fails):
        """A run with this file as its input; is_reached: it came to what fails."""
        with open(self.room / given, "rb") as lines:
            ran = subprocess.run(words, cwd=self.room, env=self.environment(**fails), stdin=lines, capture_output=True)
        return Run(ran.returncode, *(it.decode(errors="replace") for it in (ran.stdout, ran.stderr)), self.reached.exists())
