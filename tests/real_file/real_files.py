"""The program on real files: a folder, the tasks in it, and what a test asks of a run. No proof speaks of these files, since they are the
operating system's part. None of this cuts the power: a sync that does nothing passes here."""
import os
import random
import subprocess
from contextlib import contextmanager
from pathlib import Path
from typing import Iterator, NamedTuple, Optional, Sequence, Union

from places import REHEARSAL
from processes import SECONDS, Process

# From docs/FORMATS.md: the length of a disk, the start of its journal and the length of a page.
DISK, JOURNAL, PAGE = 1118720, 332032, 256
SEED = int(os.environ.get("SEED", "20270404"))
Ran = NamedTuple("Ran", [("status", int), ("out", str), ("said", str)])
Task = Union[str, Sequence[str]]  # a text with blanks between its words, or a list


def bash(script: str) -> tuple:
    """The words before a command that this script runs as "$@"."""
    return "bash", "-c", script, "bash"


def returns(municipality: int, first: int, last: int) -> str:
    """Returns of list 1 with these replacement numbers, and 7 votes more each time."""
    return "".join(f"1 return {municipality} 1 {number} {7 * number}\n" for number in range(first, last + 1))


def stored(first: int, last: int) -> str:
    return "".join(f"1 stored {number}\n" for number in range(first, last + 1))


def shows(number: int) -> str:
    """What a run shows for list 1 of a municipality after this many returns."""
    return f"1 shows {number} {7 * number}\n" if number else "1 none\n"


class Room:
    """A folder with a folder `kinds` in it."""

    def __init__(self, program: Path, path: Path) -> None:
        self.program, self.path, self.setup = program, path, str(REHEARSAL)
        self.chance = random.Random(SEED)
        (path / "kinds").mkdir()

    def words(self, task: Task, setup: Optional[str] = None) -> Sequence[str]:
        """The arguments of a task, with the set-up."""
        name, *rest = task.split() if isinstance(task, str) else task
        return [str(self.program), name, "--setup", setup or self.setup, *rest]

    def run(self, task: Task, lines: str = "", before: Sequence[str] = (), setup: Optional[str] = None) -> Ran:
        """A run of a task with these lines as its input, and its output in a file. `before` are words before the command."""
        with open(self.path / "out", "wb") as out:
            ran = subprocess.run([*before, *self.words(task, setup)], cwd=self.path, input=lines.encode(), stdout=out,
                                 stderr=subprocess.PIPE, timeout=SECONDS)
        return Ran(ran.returncode, *(it.decode(errors="replace") for it in ((self.path / "out").read_bytes(), ran.stderr)))

    def begun(self, disk: str, lines: str) -> Process:
        """The process of a run on a disk, with these lines as its input so far."""
        run = Process(self.words(["run", "--disk", str(self.path / disk)]), {})
        run.write(lines)
        return run

    def ends(self, task: Task, status: int = 0, fault: str = "", out: Optional[str] = "", **how) -> str:
        """The output of a task, which must end with this status, fault and output. None is any output."""
        ran = self.run(task, **how)
        assert ran == (status, ran.out if out is None else out, f"zhcount: {fault}\n" if fault else ""), f"{task}: {ran}"
        return ran.out

    def serves(self, disk: str, lines: str, replies: str) -> None:
        self.ends(["run", "--disk", disk], out=replies, lines=lines)

    def takes_a_new_disk(self, path: str) -> None:
        """A format takes what one that did not end has left."""
        self.ends(["format", "--disk", path])
        self.serves(path, "1 show 1 1\n1 return 1 1 1 7\n", "1 none\n1 stored 1\n")

    def has_its_space(self, path: str) -> bool:
        """Whether the file has the length of a disk, and blocks for all of it."""
        found = (self.path / path).stat()
        return found.st_size == DISK <= found.st_blocks * 512

    @contextmanager
    def untouched(self, path: str = "d") -> Iterator[None]:
        """What is done within it leaves the file as it is."""
        before = (self.path / path).read_bytes()
        yield
        assert (self.path / path).read_bytes() == before, path

    def names(self) -> Sequence[str]:
        return sorted(it.name for it in (self.path / "kinds").iterdir())
