"""How zhcount is called: its tasks, a run that answers lines, and the file of its disk."""
import contextlib
import glob
import hashlib
import os
import shutil
import subprocess
import tempfile
from typing import Any, Callable, Dict, Iterator, List, Optional, Tuple

from zhcount_log import SHEET, Stopped, sync_folder, unescaped

STREAMS: Dict[str, Any] = dict.fromkeys(("stdin", "stdout", "stderr"), subprocess.PIPE)
ALARMS = ("refused device", "refused reopen-disk")


def plain(error: bytes) -> str:
    return ", ".join(error.decode(errors="replace").split("\n")).strip(", ")


def content(path: str) -> bytes:
    with open(path, "rb") as file:
        return file.read()


def counted(number: int, what: str = "command") -> str:
    return f"{number} {what}{'' if number == 1 else 's'}"


def put(path: str, data: bytes) -> None:
    """Makes a file that the group may read, or replaces it, whole or not at all."""
    with open(path + ".new", "wb") as file:
        os.fchmod(file.fileno(), 0o640)
        file.write(data)
        file.flush()
        os.fsync(file.fileno())
    os.rename(path + ".new", path)
    sync_folder(os.path.dirname(path))


@contextlib.contextmanager
def room_in_memory() -> Iterator[str]:
    """A folder for a while, in memory where that is possible, as there a sync costs nothing. What killed processes left of theirs goes."""
    shared, prefix = "/dev/shm" if os.access("/dev/shm", os.W_OK) else tempfile.gettempdir(), f"zhcount-{os.geteuid()}-"
    for path in glob.glob(os.path.join(shared, prefix + "*")):
        if not os.path.exists(f"/proc/{path.split('-')[-2]}"):
            shutil.rmtree(path, ignore_errors=True)
    with tempfile.TemporaryDirectory(prefix=f"{prefix}{os.getpid()}-", dir=shared) as path:
        yield path


class Program:
    """zhcount with a set-up and a disk. If it is apart, a Ctrl-C at the terminal is for this process alone."""

    def __init__(self, setup: str, disk: str, is_apart: bool = True):
        self.name = os.environ.get("ZHCOUNT", "zhcount")
        self.setup, self.disk, self.files, self.is_apart = setup, disk, ["--setup", setup, "--disk", disk], is_apart

    def started(self, how: Callable[..., Any], task: str, *flags: str, **more: Any) -> Any:
        try:
            return how([self.name, task, *self.files, *flags], start_new_session=self.is_apart, **more)
        except OSError as it:
            raise Stopped(f"{self.name} can't be started: {it.strerror}", 1) from None

    def done(self, task: str, *flags: str) -> Tuple[bytes, bytes]:
        """Standard output and error of a task, for which nobody else has the disk."""
        ran = self.started(subprocess.run, task, *flags, stdin=subprocess.DEVNULL, capture_output=True)
        if ran.returncode:
            raise Stopped(f"zhcount {task}: {plain(ran.stderr) or plain(ran.stdout) or f'status {ran.returncode}'}")
        return ran.stdout, ran.stderr

    def identity(self) -> Dict[str, str]:
        """Its version, `-` where it says none; and the SHA-256 of its file."""
        said = subprocess.run([self.name, "--version"], stdin=subprocess.DEVNULL, capture_output=True).stdout.split()
        program = hashlib.sha256(content(shutil.which(self.name) or os.devnull)).hexdigest()
        return {"version": said[1].decode(errors="replace") if len(said) == 2 else "-", "program": program}

    def run(self, wait: Callable[..., Any], pause: Optional[Callable[[], None]] = None) -> "Run":
        """A run that has the disk, with no rows in it; pauses while another program has it."""
        while True:
            run = Run(self.started(subprocess.Popen, "run", bufsize=0, **STREAMS), wait)
            try:
                run.exchange(b"")  # an empty line is answered by desk 0
                return run
            except Stopped as it:
                if not pause or not run.error.startswith(b"zhcount: disk busy\n"):
                    raise Stopped(str(it), 3 if run.error else it.status) from None
                pause()


class Run:
    """A `zhcount run`: one line in, its answer out. Its input is this process's alone, so that it ends with it. `wait` is as select."""

    def __init__(self, process: Any, wait: Callable[..., Any]):
        self.process, self.wait, self.rest, self.fd = process, wait, b"", process.stdout.fileno()
        self.error = b""  # what it said at its end

    def give(self, desk: int, text: str) -> str:
        """The answer to a line of a desk; of a sheet all lines up to `end`."""
        answer = self.exchange(f"{desk} ".encode() + unescaped(text))
        if answer[2:] in ALARMS:
            raise Stopped(f"the disk has failed: {answer[2:]}. Copy it before anything else")
        if answer[:2] != f"{desk} ":
            raise Stopped(f"zhcount answered desk {desk} by '{answer[:60]}'")
        return answer[2:]

    def exchange(self, line: bytes) -> str:
        with contextlib.suppress(BrokenPipeError):
            os.write(self.process.stdin.fileno(), line + b"\n")
        answer = self.line()
        while SHEET.match(answer[2:]) and not answer.endswith("\nend"):
            answer += "\n" + self.line()
        return answer

    def line(self) -> str:
        while b"\n" not in self.rest:
            self.read()
        line, _, self.rest = self.rest.partition(b"\n")
        return line.decode("utf-8", "backslashreplace")

    def read(self) -> None:
        if self.fd in self.wait([self.fd], [], [])[0]:
            more = os.read(self.fd, 65536)
            if not more:
                raise Stopped(f"zhcount run has ended: {self.end()}", 1)
            self.rest += more

    def resume(self, rows: Dict[int, List[str]]) -> Dict[int, str]:
        """Gives the rows of open batches again, which live in its memory. Where it refuses one its batch is dropped: by desk, why."""
        dropped = {}
        for desk, lines in sorted(rows.items()):
            for held, line in enumerate(["open", *lines]):
                answer = self.give(desk, line)
                if answer != f"held {held}":
                    dropped[desk] = f"{line}: {answer}"
                    self.give(desk, "drop")
                    break
        return dropped

    def end(self) -> str:
        """Waits for its end; what it says of it."""
        if self.process.stdin:
            self.process.stdin.close()
            self.process.stdin = None
            while self.fd not in self.wait([self.fd], [], [])[0] or os.read(self.fd, 65536):
                pass
            self.error = self.process.communicate()[1]
        status = self.process.returncode or 0
        return plain(self.error) or (f"killed by signal {-status}" if status < 0 else f"status {status}")


class Disk:
    """The files of the disk and of the log: the same ones at their paths for as long as the office runs."""

    def __init__(self, path: str, folder: str):
        self.path = os.path.realpath(path)
        self.first = {it: self.file_at(it) for it in (self.path, os.path.join(folder, "night.db"))}

    def file_at(self, path: str) -> Tuple[int, ...]:
        """Which file stands at a path, and how long it is if it is the disk; nothing where it has no name or several."""
        with contextlib.suppress(OSError):
            at = os.stat(path)
            return (at.st_dev, at.st_ino, at.st_size * (path == self.path)) if at.st_nlink == 1 else ()
        return ()

    def check(self) -> None:
        """Stops the office if another file stands at one of the paths now: what is shown is there, and nowhere else."""
        for path, first in self.first.items():
            if not first or self.file_at(path) != first:
                raise Stopped(f"{path} is no longer the file that it was at the start, or has another name or length: put it back")
