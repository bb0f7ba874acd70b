"""Tests of an office's socket: bytes of any kind, its path, several connections of one desk, an office with another log, and streams."""
import contextlib
import json
import os
import pwd
import random
import re
import signal
import socket
import subprocess
import time

import pytest

from processes import SECONDS, Desk, stand_still, until


def connected(room):
    at = socket.socket(socket.AF_UNIX)
    at.connect(str(room.folder / "desk"))
    return at


def at_socket(room, *sent, seconds=SECONDS):
    """What the office answers to these bytes, each sent after the answer to those before, and whether it ends the connection."""
    got = b""
    with connected(room) as at, contextlib.suppress(BrokenPipeError, ConnectionResetError):  # it has ended, with bytes on their way
        at.settimeout(seconds)
        try:
            for it in sent:
                at.sendall(it)
                got += at.recv(65536)
            while more := at.recv(65536):
                got += more
        except TimeoutError:
            return got, False
    return got, True


def line_of(turn, text):
    return f'{{"turn": {turn}, "line": "{text}"}}\n'.encode()


HELLO = b'{"desk": 3}\n'  # which has sent one line
NO_LINES = [b"\n", b"garbage\n", b"[1]\n", b"[" * 995 + b"\n", b'{"a":' * 180 + b"\n", b"\0" * 500 + b"\n", b"\xff\xfe\n", b"x" * 1000000,
            b'{"desk": 4}\n', b'{"turn": 2}\n', b'{"turn": 2, "line": 5}\n', b'{"turn": 2, "line": "\xc3\xa9"}\n',
            *(line_of(turn, "show 1 1") for turn in ("2.0", 3, 1, 0, -1, "1e999", "9" * 900)),
            *(line_of(2, text) for text in (r"show 1 1\n2 close 1", r"show 1 1\\x0a2 close 1", r"\\x41", r"\\x5C", r"\ud800", "9" * 122)),
            line_of(2, r"\\x00" * 122), line_of(2, "show 1 1") + line_of(3, "show 1 1"), line_of(2, "show 1 1") + b"{"]
GREETING = {"log", "start", "turn", "line", "answer", "news", "rows", "batch", "closed", "witness"}
NO_DESKS = [*(b'{"desk": %s}\n' % it for it in (b"0", b"9", b'"3"', b"true", b"3.0", b"2")), b"{}\n", b"null\n", b"\0\n", b"x" * 2000,
            line_of(2, "show 1 1")]


def test_garbage(room):
    """only a line in its one spelling, alone, with the next turn is taken; anything else ends its connection alone, and is not noted"""
    room.ask(3, "show 3 3")
    room.restart()
    good = room.desk(2).talk("return 1 1 1 525 -> stored 1")
    first_lines = [(b'{"desk": 4}\n', line_of(it, "show 1 1")) for it in ("true", "1.0")]
    for *hello, data in [*((HELLO, it) for it in NO_LINES), *first_lines, *((it,) for it in NO_DESKS)]:
        got, has_ended = at_socket(room, *hello, data)
        is_said = len(data) > 65536 or [*json.loads(got.splitlines()[-1])] == ["refused"]
        assert has_ended and is_said, f"{data[:60]} ends the connection: {got}"
        assert not hello or {*json.loads(got.splitlines()[0])} == GREETING, f"a greeting comes first: {got}"
    chance = random.Random(86)
    for _ in range(100):
        data = bytearray(HELLO + line_of(2, "show 1 1") + line_of(3, "row 1 1 1 1"))
        for _ in range(chance.randint(1, 6)):
            at = chance.randrange(len(data))
            data[at:at + chance.randint(0, 3)] = bytes(chance.randrange(256) for _ in range(chance.randint(0, 3)))
        at_socket(room, bytes(data), seconds=0.02)
    said = len(room.office.error)
    for _ in range(300):
        at_socket(room, HELLO, line_of(7, "x" * 100))
    assert len(room.office.error) < said + 20, f"few lines: {len(room.office.error) - said}"
    assert room.ask(3, "show 1 1", "show 1 2").out == ["shows 1 525", "none"], "its next ones"
    good.talk("show 1 1 -> shows 1 525").end()
    room.check({2: ["return 1 1 1 525", "show 1 1"], 3: ["show 3 3", "show 1 1", "show 1 2"]})


def test_nobody_is_disturbed(room):
    """no desk waits for connections that say nothing, that are stopped, that flood the office, or that read no answer"""
    good, stopped = (room.desk(number).talk("show 1 1 -> none") for number in (1, 2))
    stopped.write("show 1 2\n")
    stopped.kill(signal.SIGSTOP)
    *idle, flood = [connected(room) for _ in range(201)]
    flood.sendall(b'{"desk": 5}\n')
    flood.setblocking(False)
    with contextlib.suppress(OSError):  # until it is full, or ended
        for turn in range(1, 20000):
            flood.sendall(line_of(turn, "show 1 1"))
    assert len(os.listdir(f"/proc/{room.office.process.pid}/fd")) < 100, "few of them are kept"
    began = time.monotonic()
    good.talk(*(f"return 1 1 {number} 525 -> stored {number}" for number in range(1, 31)))
    assert time.monotonic() - began < 150, f"the seconds that 30 answers took: {time.monotonic() - began}"
    assert room.ask(4, "show 1 1").out == ["shows 30 525"], "another one is let in"
    stopped.kill(signal.SIGCONT)
    assert stopped.answer() == "none", "the stopped one goes on"
    room.check()


def test_long_sheet_that_waits(new_room):
    """a desk that reads a sheet late, with more bytes than the socket takes at once, shows all of it, and no other desk waits for that"""
    new_room.edits_answers("/^house/{s/^/XXXXXXXXXX/;" + "s/X*/&&/;" * 15 + "}")
    new_room.start()
    desk = new_room.desk(1).talk(*(f"return {municipality} 1 1 90 -> stored {municipality}" for municipality in (1, 2, 3)))
    run_process = new_room.unanswered(desk, "sheet")
    stand_still(desk.process.pid)
    os.kill(run_process, signal.SIGCONT)
    until("it is answered", lambda: new_room.of_desk(1)[-1][1])
    assert new_room.ask(2, "show 1 1").out == ["shows 1 90"], "another desk's answer"
    desk.kill(signal.SIGCONT)
    assert desk.answer("sheet").split("\n")[1].count("X") == 10 << 15, "the length of its second line"


def test_long_path(new_room):
    """a folder whose path is longer than that of a socket can be has its socket, by each of its names, also after a stop"""
    new_room.folder = new_room.path / ("long" * 30) / ("longer" * 20)
    new_room.folder.parent.mkdir()
    new_room.start()
    assert new_room.ask(1, "return 1 1 1 525").out == ["stored 1"], "the answer"
    words = ["env", "-C", new_room.folder.parent, *new_room.script("zhcount-desk", "1", new_room.folder.name)]
    desk = new_room.process(Desk, words).talk("show 1 1 -> shows 1 525")
    new_room.restart()
    desk.talk("show 1 2 -> none").end()
    new_room.check()


def test_line_that_was_not_sent(room):
    """a desk gives up a line that it has not sent if another connection has its turn, and does not show the answer to that one"""
    desk = room.desk(3).talk("show 1 1 -> none")
    stand_still(desk.process.pid)
    desk.write("close 1\n")
    room.restart()
    assert room.ask(3, "return 3 1 1 90").out == ["stored 1"]
    desk.kill(signal.SIGCONT)
    until("it ends, or shows an answer", lambda: desk.has_ended() or len(desk.out) > 1)
    assert desk.out == ["none"], "what the first one shows"
    assert desk.wait() == 1, "its end"


@pytest.mark.parametrize("change, others, shown", [("another log", 2, "none"), ("older copy", 0, "none"), ("other lines", 1, "shows 1 90")])
def test_connect_again(room, change, others, shown):
    """a desk ends if its office has another log, an older one, or lines of another connection, and says which line has no answer"""
    desk = room.desk(3).talk("show 1 1 -> none")
    room.stop()
    copied = (room.folder / "night.db").read_bytes()
    room.start()
    is_idle = room.desk(4).talk("show 1 1 -> none")
    room.stops_at(desk.talk("show 1 2 -> none"), "return 3 1 1 90")
    stand_still(desk.process.pid)
    if change == "another log":
        for path in (room.folder, room.disk):
            path.rename(f"{path}.before")
        room.zhcount("format")
    elif change == "older copy":
        (room.folder / "night.db").write_bytes(copied)
        (room.folder / "night.db-wal").unlink()
    room.start()
    assert room.ask(3, *["show 1 1"] * others).out == ["none"] * others, "another connection"
    desk.kill(signal.SIGCONT)
    for it in [desk] if change == "other lines" else [desk, is_idle]:
        assert it.wait() == 1, "its end"
        it.says("the office has another log, or other lines of this desk, by now: connect again")
    desk.says("without an answer: return 3 1 1 90")
    assert desk.out == ["none", "none"], "what it shows"
    assert room.ask(3, "show 3 1").out == [shown], "connected again"


CLOCK = """import time as real
from types import SimpleNamespace
time = SimpleNamespace(strftime=real.strftime, monotonic=lambda: float(open({!r}).read()))"""


@pytest.mark.parametrize("has_typed", [False, True], ids=["idle", "stopped"])
def test_second_connection(new_room, has_typed):
    """a second connection of a desk is refused and learns who has it since when; if the first one was silent for a while, that one ends"""
    room, clock = new_room, new_room.path / "clock"  # by which an office knows how long a desk is silent
    clock.write_text("0")
    room.edit_script("zhcount_connections.py", "^import time$", CLOCK.format(str(clock)))
    room.start()
    first = room.desk(7).talk("return 1 1 1 525 -> stored 1")
    refusal = rf"desk 7: another connection has this desk: of {pwd.getpwuid(os.geteuid()).pw_name} since \d\d:\d\d:\d\d$"
    for seconds in (10, 20, 30):
        clock.write_text(str(seconds))
        second = room.ask(7, "show 1 1")
        assert (second.status, second.out) == (1, []), f"another one is refused after {seconds} seconds"
        assert re.search(refusal, second.said(), re.M), f"it is said: {second.said()}"
        first.talk("show 1 1 -> shows 1 525")
    if has_typed:
        stand_still(first.process.pid)  # so that it finds both, the line and what the office says
        first.write("close 1\n")
    clock.write_text("51")
    second = room.desk(7).talk("return 1 1 2 530 -> stored 2")
    second.says("before: show 1 1: shows 1 525")
    first.kill(signal.SIGCONT)
    assert first.wait() == 1, "the end of the first"
    assert re.search(r"desk 7: \w+ has taken this desk over", first.said()), f"it says why: {first.said()}"
    second.process.stdout.close()
    second.write("show 1 1\n")
    assert second.wait() == 1, "nobody hears it: it ends"
    assert room.ask(7, "show 1 1").out == ["shows 2 530"], "another one then"
    assert [it for it, _ in room.of_desk(7)][:5] == ["return 1 1 1 525", *["show 1 1"] * 3, "return 1 1 2 530"], "its lines"
    room.check()


def test_closed_streams(room):
    """the log never takes the place of a standard stream that is closed; each line is answered even if nobody reads the texts beside"""
    room.ask(3, "return 1 1 1 525")
    pipe = os.pipe2(os.O_NONBLOCK)
    os.write(pipe[1], b"x" * 65536)  # as much as it takes
    for streams, *wanted in [("<&-", 0, "", False), ("2>&-", 0, "shows 1 525\n", False), (">&-", 1, "", True),
                             (f"2> /proc/{os.getpid()}/fd/{pipe[1]}", 0, "shows 1 525\n", False), ("<&- >&- 2>&-", 0, "", False)]:
        ran = subprocess.run(["sh", "-c", f'exec "$@" {streams}', "sh", *room.script("zhcount-desk", "3", room.folder)], text=True,
                             input="show 1 1\n", capture_output=True, timeout=SECONDS)
        assert [ran.returncode, ran.stdout, "Bad file descriptor" in ran.stderr] == wanted, f"with {streams}: {ran.stderr}"
    room.ask(3).says("before: show 1 1: shows 1 525")
    for it in pipe:
        os.close(it)
    room.check({3: ["return 1 1 1 525", *["show 1 1"] * 3]})
