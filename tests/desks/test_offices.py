"""Tests of an office alone: what it notes, its signals, its own log, who may use its files, its unit."""
import hashlib
import os
import re
import shlex
import shutil
import signal
import stat
import subprocess

import pytest

from logs import check_chain
from places import PROGRAM
from processes import stays, until
from room import SCRIPTS

FIRST = "return 1 1 1 525"
UNIT = SCRIPTS / "zhcount-office.service"
EXPOSURE = 15  # tenths; systemd counts from 0, which is safe, to 100


def modes(folder):
    return {it.name: stat.filemode(it.lstat().st_mode) for it in (folder, *folder.iterdir())}


def test_what_is_noted(room):
    """a start notes program and disk, an end its reason and the disk; a clean end leaves night.db alone, with all lines and answers"""
    assert room.ask(1, FIRST, "sh\\ow").out == ["stored 1", "refused syntax"]
    room.stop()
    room.start()
    room.restart()
    room.stop()
    room.office.says("stopped: told to", "every line is answered")
    check_chain(room.folder)
    found = room.events()
    kinds = ["setup", "start", *["line", "answer"] * 2, "ended", "start", "start", "ended"]
    assert [it.kind for it in found] == kinds, "the events"
    texts = [room.setup.read_text(), FIRST, "stored 1", "sh\\x5cow", "refused syntax"]
    assert [found[it].text for it in (0, 2, 3, 4, 5)] == texts, "the set-up, and the lines with their answers"
    version = subprocess.run([PROGRAM, "--version"], stdout=subprocess.PIPE, text=True).stdout.split()[1]
    program = {"version": version, "program": hashlib.sha256(PROGRAM.read_bytes()).hexdigest(), "dropped": {}}
    empty, held = ({"commands": number, "export": hashlib.sha256(export.encode()).hexdigest()}
                   for number, export in enumerate(["municipality,list,number,votes\n", room.zhcount("export")]))
    assert [found[it].facts() for it in (1, 7, 8)] == [{**program, **it} for it in (empty, held, held)], "the starts"
    assert [found[it].facts() for it in (6, 9)] == [{"reason": "told to", **held}] * 2, "the ends"
    assert all(re.fullmatch(r"\d{4}-\d\d-\d\dT\d\d:\d\d:\d\d\.\d{3}[+-]\d\d:\d\d", it.at) for it in found), "the times"
    assert modes(room.folder) == {"office": "drwxr-s---", "night.db": "-rw-------"}, "what is there"


@pytest.mark.parametrize("words", [
    *(f"zhcount-office {it}" for it in ("", "a", "a b c d", "--none a b c", "--witness '' a b c", "--witness-required a b c", "--replay",
                                        "--rebuild a", "--replay a --rebuild", "--totals t --replay a")),
    *(f"zhcount-desk {it}" for it in ("", "0", "9", "x", "1 a b", "--none")),
    *(f"zhcount-witness {it}" for it in ("", "a b", "--else a"))])
def test_arguments(words, tmp_path):
    """wrong arguments have status 2, and nothing is made"""
    script, *more = shlex.split(words)
    ran = subprocess.run([SCRIPTS / script, *more], cwd=tmp_path, capture_output=True, text=True)
    assert (ran.returncode, os.listdir(tmp_path)) == (2, []), f"the status of {words}: {ran.stderr}"


def test_told_to_end(room):
    """TERM ends the office after the line at work; a second signal ends it at once, and it names the line without an answer"""
    desks = {number: room.desk(number).talk("show 1 1 -> none") for number in (1, 2)}
    run_process = room.unanswered(desks[1], FIRST)
    desks[2].write("return 2 1 1 240\n")
    room.office.kill(signal.SIGTERM)
    stays("it waits", lambda: not room.office.has_ended())
    os.kill(run_process, signal.SIGCONT)
    room.ends(0, "every line is answered")
    assert desks[1].answer() == "stored 1"
    room.start()
    assert desks[2].answer() == "stored 2", "the answer of the next start"
    run_process = room.unanswered(desks[1], "close 1")
    room.office.kill(signal.SIGTERM)
    room.office.kill(signal.SIGINT)
    room.ends(0, "told to, twice", "unanswered: desk 1: close 1: the next start looks what became of it")
    os.kill(run_process, signal.SIGKILL)
    room.start()
    assert desks[1].answer() == "stored 3", "its answer"
    room.check()


def test_told_again_at_the_end(new_room):
    """Ctrl-C, and again while the office looks at the disk for the last time, does not reach the program: the status stays 0"""
    flag, seen = new_room.path / "flag", new_room.path / "seen"
    waits = f"touch '{seen}'; while [ -e '{flag}' ]; do sleep 0.02; done"
    new_room.stands_in(f"[ $1 = status ] && [ -e '{flag}' ] && {{ trap 'exit 1' INT; {waits}; }}")  # bash alone would overhear some INT
    office = new_room.start(below=["setsid"])
    assert new_room.ask(1, FIRST).out == ["stored 1"]
    flag.touch()
    os.killpg(office.process.pid, signal.SIGINT)  # as a terminal does, to all that it has started
    until("it looks at the disk, or has ended", lambda: seen.exists() or office.has_ended())
    if not office.has_ended():
        os.killpg(office.process.pid, signal.SIGINT)
    flag.unlink()
    assert office.wait() == 0, f"the status: {office.said()}"


@pytest.mark.parametrize("before", ["umask 077", "umask 000", "trap '' HUP", "exec 2> /dev/full", "exec 2>&-", "exec <&- >&- 2>&-",
                                    "exec 2> {}"])
def test_started_after(new_room, before):
    """after any umask, with an ignored signal, and with streams closed, full or read by nobody: an office serves, with the same modes"""
    room = new_room
    room.folder.mkdir(mode=0o700)
    pipe = os.pipe2(os.O_NONBLOCK)
    os.write(pipe[1], b"x" * 65536)  # as much as it takes
    shell = before.format(f"/proc/{os.getpid()}/fd/{pipe[1]}") + '; exec "$0" "$@"'
    room.start(below=["sh", "-c", shell], is_awaited=False)
    desk = room.desk(1)
    until(f"a desk is let in after {before}", lambda: desk.is_let_in() or room.office.has_ended())
    assert not room.office.has_ended(), f"it runs after {before}: {room.office.said()}"
    files = {"office": "drwxr-s---", "night.db": "-rw-------", "night.db-wal": "-rw-------", "desk": "srw-rw----"}
    assert modes(room.folder) == files, f"with {before}"
    streams = [os.path.realpath(f"/proc/{room.office.process.pid}/fd/{number}") for number in range(3)]
    assert [it for it in streams if it.startswith(str(room.folder))] == [], f"streams that are files of the folder after {before}"
    if "HUP" in before:
        room.office.kill(signal.SIGHUP)
    desk.talk(f"{FIRST} -> stored 1")
    assert room.stop() == 0, f"the end after {before}"
    for it in pipe:
        os.close(it)


def test_unit(tmp_path):
    """systemd finds little that the unit could do beyond its task; it starts an office again, unless a person has to look first"""
    text = UNIT.read_text()
    for line in ("StartLimitIntervalSec=0", "RestartPreventExitStatus=2 3", "RestrictAddressFamilies=AF_UNIX"):
        assert line in text.splitlines(), line
    assert re.search(r"^#? ?OnFailure=", text, re.MULTILINE), "OnFailure"
    assert int(re.search(r"^RestartSec=(\d+)$", text, re.MULTILINE)[1]) >= 2, "a pause"
    if not shutil.which("systemd-analyze"):
        pytest.skip("there is no systemd-analyze")
    path = tmp_path / UNIT.name
    path.write_text(re.sub(r"^ExecStart=\S+", "ExecStart=/bin/true", text, flags=re.MULTILINE))
    for words in (["verify", "--man=no"], ["security", "--offline=true", f"--threshold={EXPOSURE}", "--no-pager"]):
        ran = subprocess.run(["systemd-analyze", *words, path], capture_output=True, text=True)
        assert ran.returncode == 0, f"{words[0]}: {ran.stdout[-200:]}{ran.stderr}"
