"""A room whose processes ask (watched.c) before each call that changes or sends something: a test can stop them there, or let it fail."""
import contextlib
import functools
import os
import pathlib
import shutil
import signal
import socket
import stat
import subprocess
import tempfile
import threading
from typing import NamedTuple

from processes import Desk
from quiet import QuietRoom, patient_scripts

SECTOR = 512  # bytes that a device writes whole or not at all


@functools.lru_cache(maxsize=None)
def library():
    """The folder of the library that is preloaded and of the sockets of rooms, which exists as long as the tests run."""
    folder, source = tempfile.TemporaryDirectory(prefix="watched-"), pathlib.Path(__file__).with_name("watched.c")
    subprocess.run(["cc", "-shared", "-fPIC", "-O1", "-o", f"{folder.name}/watched.so", source, "-ldl"], check=True)
    return folder


class ApartRoom(QuietRoom):
    """A room whose disk has a folder of its own."""

    def __init__(self):
        super().__init__()
        made, self.disk = self.disk, self.path / "disks/night.disk"
        self.disk.parent.mkdir()
        made.rename(self.disk)


class Call(NamedTuple):
    """A call that a process is about to make."""
    pid: int
    who: str  # office, witness, or desk and its number; other processes that an office has started have its name
    name: str  # open, write, truncate, sync, chmod, make, unlink, rename, link; look, which changes nothing; send, to a pipe or socket
    path: str  # of a file; or pipe or socket, or shown for standard output

    @property
    def file(self):
        return os.path.basename(self.path)


class WatchedRoom(ApartRoom):
    """A room whose office, desks and witness are watched. `before` gets each call while the process waits, and kills it, or returns the
    number of the fault with which the call fails, or nothing."""

    def __init__(self, before, scripts=None):
        super().__init__()
        self.scripts = scripts or self.scripts
        self.before, self.pids, self.starting = before, set(), threading.Lock()
        self.copy = self.path / "witness/office"
        self.copy.parent.mkdir()
        self.socket = socket.socket(socket.AF_UNIX)
        self.socket.bind(f"{library().name}/{self.path.name}")
        self.socket.listen(64)
        threading.Thread(target=self.watch, daemon=True).start()

    def with_witness(self):
        self.scripts = patient_scripts(self.scripts)
        words = " ".join(f"'{it}'" for it in ["env", "WATCHED_AS=witness", *self.script("zhcount-witness", self.copy)])
        self.options += ["--witness", words]
        return self

    def watch(self):
        with contextlib.suppress(OSError):  # it was closed
            while True:
                with self.socket.accept()[0] as asking, contextlib.suppress(OSError):
                    pid, *fields = asking.recv(65536).decode().split("\n")[:-1] or "0"
                    with self.starting:  # until it is known whose process it is
                        fault = self.before(Call(int(pid), *fields)) if fields else 0  # a process that is killed as it asks says nothing
                    if fault:
                        asking.send(bytes([fault]))

    def __exit__(self, *fault):
        super().__exit__(*fault)
        self.socket.shutdown(socket.SHUT_RDWR)
        self.socket.close()

    def process(self, kind, words):
        watched = {"LD_PRELOAD": f"{library().name}/watched.so", "WATCHED": str(self.path), "WATCHER": self.socket.getsockname(),
                   "WATCHED_AS": f"desk {words[3]}" if kind is Desk else "office"}
        with self.starting:
            process = super().process(kind, words, **watched)
            self.pids.add(process.process.pid)
        return process

    def is_of(self, who, call):
        """Whether a call is one of the office, a desk or the witness itself."""
        return call.who == who and (call.pid in self.pids or who == "witness")


class Stop:
    """A stop (kill -9) before the call of this number among those that `counts` accepts, a method or this function."""

    def __init__(self, number, counts=None):
        self.number, self.calls, self.call = number, 0, None
        if counts:
            self.counts = counts

    def before(self, call):
        if self.counts(call):
            self.calls += 1
            if self.calls == self.number:
                self.call = call
                return self.now(call)
        return 0

    def now(self, call):
        os.kill(call.pid, signal.SIGKILL)


def some_of(kinds, is_all):
    """The numbers of these calls, from 1 on: all of them, or the first of each kind."""
    first = {kind: number for number, kind in reversed([*enumerate(kinds, 1)])}
    return range(1, len(kinds) + 1) if is_all else sorted(first.values())


class Device:
    """The bytes of files and the names in folders that are on the device, as of the last sync of each. A file is known by its inode, whose
    number is not used again while rooms are in memory."""

    def __init__(self, top):
        self.top, self.files, self.folders = top, {}, {}
        for path in (top, *pathlib.Path(top).rglob("*")):
            self.sync(path)

    def sync(self, path):
        """Takes a file or folder as synced, as it is now."""
        with contextlib.suppress(FileNotFoundError):
            found = os.lstat(path)
            if stat.S_ISDIR(found.st_mode):
                self.folders[found.st_ino] = named(path)
            elif stat.S_ISREG(found.st_mode):
                self.files[found.st_ino] = pathlib.Path(path).read_bytes()

    def images(self, chance):
        """What a power cut can leave, each as paths with their modes and bytes: the synced names and bytes alone; or all names, with the
        synced bytes of each file, or with these and some of the sectors that were written since."""
        return (frozenset(self.image("", os.lstat(self.top).st_ino, lambda ino, path: self.folders.get(ino, {}), self.bytes_of)),
                frozenset(self.image("", 0, lambda ino, path: named(path), self.bytes_of)),
                frozenset(self.image("", 0, lambda ino, path: named(path), lambda ino, path: self.torn(ino, path, chance))))

    def image(self, below, ino, names_of, bytes_of):
        path = os.path.join(self.top, below)
        for name, (inode, mode) in names_of(ino, path).items():
            there = os.path.join(below, name)
            yield there, mode, bytes_of(inode, os.path.join(path, name)) if stat.S_ISREG(mode) else b""
            if stat.S_ISDIR(mode):
                yield from self.image(there, inode, names_of, bytes_of)

    def bytes_of(self, ino, _=None):
        return self.files.get(ino, b"")

    def torn(self, ino, path, chance):
        """The synced bytes, but some of the sectors that have changed since, and perhaps the length, as they are now."""
        known, now = self.bytes_of(ino), pathlib.Path(path).read_bytes()
        before, after = known.ljust(len(now), b"\0"), now + known[len(now):]
        sectors = [chance.choice((before, after))[at:at + SECTOR] for at in range(0, len(before), SECTOR)]
        return b"".join(sectors)[:chance.choice((len(known), len(now)))]

    def synced(self, path):
        """The bytes of a file that are on the device; none if its name is not."""
        with contextlib.suppress(FileNotFoundError):
            (folder, name), ino = os.path.split(path), os.lstat(path).st_ino
            if self.folders.get(os.lstat(folder).st_ino, {}).get(name, (0,))[0] == ino:
                return self.bytes_of(ino)
        return b""


def named(folder):
    """The names in a folder, each with its inode and mode, without `now`, which a start makes anew."""
    with os.scandir(folder) as entries:
        return {it.name: (it.inode(), it.stat(follow_symlinks=False).st_mode) for it in entries if not it.name.startswith("now")}


def restore(image, room):
    """Makes the room's files those of an image of another room."""
    shutil.rmtree(room.path)
    room.path.mkdir(mode=0o700)
    for path, mode, data in sorted(image):
        there = room.path / path
        if stat.S_ISDIR(mode):
            there.mkdir()
        elif stat.S_ISSOCK(mode):
            with socket.socket(socket.AF_UNIX) as at:
                at.bind(str(there))
        else:
            there.write_bytes(data)
        there.chmod(stat.S_IMODE(mode))
