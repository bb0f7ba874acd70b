"""Calls the toolchain's prover on a copy of a crate. This is where the tool leans on the kit: `rt doc` prints the path of a page at the
kit's top, where bin/rattle, rlibs/, logic_built/ and rattle/logic/antt-project.json are; `rattle check` takes the words below, which are
those that `rt check` gives it; and `rt lib` leaves a library as out/rlib/NAME.rlib."""
import os
import re
import shutil
import subprocess
import tempfile
import threading
from pathlib import Path

from edited.report import Report
from edited.tree import PARTS, words_in

# (so that a check that does not end is noticed; a busy machine may take five times as long as a quiet one)
SECONDS = 90 * 60
KILLED = -9
GROUP = Path("/sys/fs/cgroup")
MEMORY_OF_A_LANE = 3_000_000_000
SAID = {"stdin": subprocess.DEVNULL, "stdout": subprocess.PIPE, "stderr": subprocess.STDOUT, "text": True, "errors": "replace"}


class Prover:
    """The prover, on as many copies of crates at once as there are lanes. The copies are put into this folder."""

    def __init__(self, tree, lanes, folder=None):
        said = subprocess.run(["rt", "doc"], stdout=subprocess.PIPE, text=True, check=True).stdout
        self.tree, self.lanes, self.folder, self.kit = tree, lanes, folder, Path(said.strip()).parent
        self.turns = threading.Semaphore(lanes)

    def words(self, crate):
        """The arguments of a check of the crate in the current folder, over the libraries that are built."""
        root = "src/main.rt" if (self.tree.folder(crate) / "src/main.rt").is_file() else "src/lib.rt"
        of_kit, own = ["std", *(it for it in self.tree.named[crate] if it not in self.tree.named)], self.tree.uses[crate]
        libraries = [f"{it}={self.kit}/rlibs/{it}.rlib" for it in of_kit] + [f"{it}={self.tree.library(it)}" for it in own]
        folders = [f"{self.kit}/rlibs", *(self.tree.library(it).parent for it in self.tree.below(crate))]
        return ["--crate-name", crate, root, *(word for it in libraries for word in ("--extern", it)),
                *(word for it in folders for word in ("-L", f"dependency={it}")),
                "--antt-project", f"{self.kit}/rattle/logic/antt-project.json", "--logic-built", f"{self.kit}/logic_built",
                "--links", f"{crate}="]

    def check(self, crate, texts, kept=None, jobs=1, only=()):
        """The report on the crate with these texts in place of its own, over the work in the folder `kept`, which the check adds to. It
        may be on these functions alone."""
        words = [self.kit / "bin/rattle", "check", *self.words(crate), *(["--incremental", kept] if kept else [])]
        words += [word for it in only for word in ("--only", it.path)]
        with self.turns, tempfile.TemporaryDirectory(dir=self.folder) as room:
            for part in PARTS:
                if (self.tree.folder(crate) / part).is_dir():
                    shutil.copytree(self.tree.folder(crate) / part, Path(room, part))
            for file, text in texts.items():
                Path(room, file).write_text(text, encoding="utf-8")
            said, status = self.call([*words, "--jobs", str(jobs)], room)
            if status == KILLED:  # most likely for memory
                said, status = self.call([*words, "--jobs", "1"], room)
        return Report(said, status)

    def call(self, words, folder):
        """What a command says in this folder, and its status. By setpriv, of util-linux, it ends with this process."""
        try:
            ran = subprocess.run(["setpriv", "--pdeathsig", "KILL", *words], cwd=folder, timeout=SECONDS, **SAID)
            return ran.stdout, ran.returncode
        except subprocess.TimeoutExpired:
            return f"rattle: no verdict after {SECONDS} seconds", 3

    def check_over(self, seed, kept, crate, texts, only):
        """The report on the crate with these texts, over a copy of the seed; or without one, over the work in the folder `kept`, on these
        functions alone, if it finds them."""
        if not seed:
            report = self.check(crate, texts, kept, only=only)
            return report if report.status != 2 else self.check(crate, texts, kept)
        with tempfile.TemporaryDirectory(dir=self.folder) as own:
            return self.check(crate, texts, shutil.copytree(seed, own, dirs_exist_ok=True))


def build_libraries(tree, crates, jobs, say):
    """Has the toolchain build the libraries below these crates that are not made from the sources of now. Whether all are in the end."""
    for name in (it for it in tree.below(*crates) if not tree.is_noted(it)):
        say(f"{name}: building the library")
        before = tree.library_sum(name)
        ran = subprocess.run(["rt", "lib", "--jobs", str(jobs)], cwd=tree.folder(name), **SAID)
        if ran.returncode or tree.library_sum(name) != before:
            say("\n".join([f"{name}: the library was not built", *ran.stdout.split("\n")[-20:]]))
            return False
        tree.note(name)
    return True


def processors():
    """The processors that the process may use, by its group's quota too."""
    found, (quota, *period) = len(os.sched_getaffinity(0)), words_in(GROUP / "cpu.max") or ["max"]
    return found if quota == "max" else max(1, min(found, int(quota) // int(period[0])))


def lanes_of_the_machine():
    """How many checks may run side by side, by the processors and the memory that is free, under the limit of the process's group too."""
    free = 1024 * int(re.search(r"MemAvailable: +(\d+)", Path("/proc/meminfo").read_text())[1])
    # (the first number of memory.stat is what can't be given back)
    free = min([free, *(int(it) - int(words_in(GROUP / "memory.stat")[1]) for it in words_in(GROUP / "memory.max") if it != "max")])
    return max(1, min(processors(), int(free * 0.9 / MEMORY_OF_A_LANE)))
