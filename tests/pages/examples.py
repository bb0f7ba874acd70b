"""Runs the examples of the pages, and compares what they print.

The blocks of a page are run in order, in one shell, and pages of one group in one folder. It has nothing but links to what is
in the repository's top folder after `make build`, and the PATH has no zhcount: that is for the commands of the page. Where all
is installed the folder is empty, the PATH has the commands, and what a page calls /usr/local is their place. A block says itself
what is done with it:

- A line begins with '$ ': a session at a terminal. Such a line is a command, and lines right below it that begin with '> '
  continue it. What follows, up to the next command, is what it prints, on standard output and standard error. If it is zhcount
  or make, without '<' or '|', lines such as '1 show 1 1' among these were typed, and are its input (of zhcount-desk lines such
  as 'show 1 1'). '..' is for any lines, and at a line's end for any rest of it. The status is 0, or 'echo $?' shows it.
- Every line is a line for the office and its reply, with two blanks or more between: a dialogue, in a rehearsal of its own.
  After two more blanks there may be a remark.
- Its fence names a file, for example '```toml setup.toml': the block is that file.
- Its fence is '```text not run': it is for people alone.

Any other block is a fault. ZHCOUNT names a different program from crates/zhcount/out/zhcount, which is then in its place."""
import contextlib
import os
import re
import shlex
import signal
import subprocess
import tempfile
from collections import namedtuple
from concurrent.futures import ThreadPoolExecutor
from pathlib import Path

from pages.markdown import blocks_of
from places import PROGRAM

GROUPS = [["README.md"], ["docs/MANUAL.md", "docs/CHECKING.md", "docs/de/CHECKING.md"], ["docs/FAQ.md"],
          ["docs/NIGHT.md"], ["docs/de/NIGHT.md"]]
WHERE_INSTALLED = ("docs/NIGHT.md", "docs/de/NIGHT.md")
TYPED_AT_DESK = re.compile(r"(return|show|last|withdraw|close|reopen|open|row|commit|drop|sheet|final)( \d+)*")
TYPED = re.compile(rf"[1-8] {TYPED_AT_DESK.pattern}")
TURN = re.compile(r"(\d+ [a-z]+(?: \d+)*) {2,}(\d [a-z]+.*?)(?: {2,}.*)?")
SECONDS = 600  # of a page
# What the shell itself says of a job that was killed.
OF_A_JOB = re.compile(r"^bash: line \d+: +\d+ (Killed|Terminated).*\n", re.M)
# Runs the command of each folder in turn, with its input, and keeps what it prints and its status; $? is that of the command before.
LOOP = r"""
status=0
for room; do
    text=$(< "$room/command")
    (exit "$status")
    eval "$text" < "$room/input" > "$room/output" 2>&1
    status=$?
    echo "$status" > "$room/status"
done
"""

# A command of a block: what is typed to it, what it is to print, and whether it may fail.
Step = namedtuple("Step", "command typed shown may_fail", defaults=((), (), False))


def step_of(text, next_text):
    """A command of a session with the lines below it; those that were typed to it are its input."""
    lines = re.match(r".*(?:\n> .*)*", text)[0]
    command, below = lines.replace("\n> ", "\n"), text[len(lines):].split("\n")[1:]
    has_terminal = re.match(r"(zhcount|make)\b", command) and not re.search("[<|]", command)
    form = TYPED_AT_DESK if command.startswith("zhcount-desk") else TYPED
    typed = [line for line in below if has_terminal and form.fullmatch(line)]
    return Step(command, typed, [line for line in below if line not in typed], next_text == "echo $?")


def steps_of(block, folder):
    """What is done with a block; None where no form fits."""
    file, turns = block.fence.partition(" ")[2], [TURN.fullmatch(line) for line in block.lines]
    if file == "not run":
        return []
    if block.lines[0].startswith("$ "):
        commands = re.split(r"(?:\A|\n)\$ ", "\n".join(block.lines))[1:]
        return [step_of(it, following.split("\n")[0]) for it, following in zip(commands, commands[1:] + [""])]
    if all(turns):
        return [Step("zhcount 2> /dev/null", [it[1] for it in turns], [it[2] for it in turns])]
    return [Step(f"(set -C; cat > {shlex.quote(str(folder / file))})", block.lines)] if file else None


def meets(output, shown):
    """Whether the output is what is shown, where '..' is for the rest."""
    pattern = ""
    for line in shown:
        rest = r"[^\n]*" if line.endswith("..") else ""
        pattern += r"(?:[^\n]*\n)*?" if line == ".." else re.escape(line.removesuffix("..")) + rest + r"\n"
    return re.fullmatch(pattern, output + "\n" * (output != "" and not output.endswith("\n")))


def fault_of(step, room, local):
    """What is wrong about a step that was run, if anything is."""
    output, status = (it.read_text(errors="replace") if it.exists() else "" for it in (room / "output", room / "status"))
    output = OF_A_JOB.sub("", output).replace(local, "/usr/local")
    if not status:
        return f"it ended the shell, or had not ended after {SECONDS} seconds\n{output}"
    if not meets(output, step.shown):
        return "\n".join([f"the page: {it}" for it in step.shown] + [f"printed:  {it}" for it in output.splitlines()])
    return f"its status is {status.strip()}, which the page does not show\n{output}" if status != "0\n" and not step.may_fail else ""


def run_page(tree, page, folder, environment, local):
    """Runs the blocks of a page, each step with a room, in one shell. The faults."""
    blocks = [(it, steps_of(it, folder)) for it in blocks_of(tree.read(page))]
    yield from (f"{page}:{it.line}: {it.lines[0]}: it can't be run, and its fence does not say so" for it, steps in blocks if steps is None)
    steps = [(block.line, it) for block, steps in blocks for it in steps or []]
    rooms = [Path(environment["TMPDIR"], "rooms", page, str(number)) for number in range(len(steps))]
    for (_, step), room in zip(steps, rooms):
        room.mkdir(parents=True)
        (room / "command").write_text(step.command.replace("/usr/local", local) + "\n")
        (room / "input").write_text("".join(f"{line}\n" for line in step.typed))
    words, none = ["bash", "--noprofile", "--norc", "-c", LOOP, "bash", *rooms], subprocess.DEVNULL
    shell = subprocess.Popen(words, cwd=folder, env=environment, stdin=none, stdout=none, stderr=none, start_new_session=True)
    with contextlib.suppress(subprocess.TimeoutExpired):
        shell.wait(SECONDS)
    with contextlib.suppress(ProcessLookupError):
        os.killpg(shell.pid, signal.SIGKILL)
    shell.wait()
    for (line, step), room in zip(steps, rooms):
        if fault := fault_of(step, room, local):
            yield f"{page}:{line}: {step.command}\n{fault}".rstrip().replace("\n", "\n    ")


def furnish(top, folder):
    """Links to what is in the repository's top folder, and to the built program."""
    (folder / "crates/zhcount/out").mkdir(parents=True)
    (folder / "crates/zhcount/out/zhcount").symlink_to(PROGRAM)
    for inside in ("", "crates", "crates/zhcount", "crates/zhcount/out"):
        for it in (top / inside).glob("[!.]*"):
            if not os.path.lexists(folder / inside / it.name):
                (folder / inside / it.name).symlink_to(it)


def run_group(tree, group):
    """The faults of these pages, run without what a reader has not: an installed program, and what a make gives to another."""
    with tempfile.TemporaryDirectory(prefix="documents-", ignore_cleanup_errors=True) as made:
        folder, temporary, local = (Path(tempfile.mkdtemp(dir=made)) for _ in range(3))
        path = [it for it in os.environ["PATH"].split(":") if not list(Path(it).glob("zhcount*"))]
        if group[0] in WHERE_INSTALLED:
            words = [tree.top / "scripts/install", "", local]
            subprocess.run(words, env={**os.environ, "ZHCOUNT": str(PROGRAM)}, stdout=subprocess.DEVNULL, check=True)
            path.insert(0, f"{local}/bin")
        else:
            furnish(tree.top, folder)
        kept = {name: it for name, it in os.environ.items() if name not in ("ZHCOUNT", "MAKEFLAGS", "MAKELEVEL", "MFLAGS")}
        environment = {**kept, "PATH": ":".join(path), "LC_ALL": "C", "TMPDIR": str(temporary)}
        return [fault for page in group for fault in run_page(tree, page, folder, environment, str(local))]


def examples(tree):
    """What is not as a page shows it; the groups are run side by side."""
    if not os.access(PROGRAM, os.X_OK):
        return [f"the program {PROGRAM} does not exist: make build makes it"]
    with ThreadPoolExecutor() as pool:
        return [fault for found in pool.map(lambda it: run_group(tree, it), GROUPS) for fault in found]
