"""Rooms whose office makes no copies of the disk for `now`, which have tests of their own: copies were most of the processes of a room. And
scripts that have more patience with a witness."""
import functools
import pathlib
import py_compile
import shutil
import tempfile

from room import SCRIPTS, Room, edit

MADE = []  # folders that go with the tests
TIMES = ("SILENCE", "PATIENCE", "QUICK", "MEETING")  # of an office with a witness


@functools.lru_cache(maxsize=None)
def edited(scripts, name, *edits):
    """A copy of the scripts in which each of these expressions, which matches once in this file, is another text."""
    MADE.append(tempfile.TemporaryDirectory(prefix="scripts-"))
    path = shutil.copytree(scripts, pathlib.Path(MADE[-1].name, "desks")) / name
    for it in edits:
        edit(path, *it)
    py_compile.compile(str(path), doraise=True)
    return path.parent


def quiet_scripts():
    """The scripts, but for a copy of the disk that is never made."""
    none = r"    def copy(\1        self.shown = self.last()\n\n    def is_not_called(\1"
    return edited(SCRIPTS, "zhcount_now.py", (r"^    def copy\((.*\n)", none))


def patient_scripts(scripts, *times, seconds=60):
    """Scripts whose office waits so long for a witness, but for these times, which a test measures: a busy machine may be slow."""
    return edited(scripts, "zhcount_witness.py", *((rf"^{it} = \S+", f"{it} = {seconds}") for it in TIMES if it not in times))


class QuietRoom(Room):
    def __init__(self, **more):
        super().__init__(**more)
        self.scripts = quiet_scripts()
