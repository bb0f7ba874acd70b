"""Desks over a real sshd, each with a key of its own, and what a key can't do. Then a witness that is reached by ssh: the office's machine
is lost at 25 moments, with eight desks without ssh, since 400 connections would take minutes; and the network hangs. LOSSES takes another
number of losses."""
import concurrent.futures
import os
import pathlib
import re
import shlex
import shutil
import signal
import subprocess
import time

import pytest

from processes import SECONDS, Desk, command_of, until
from room import Room, running
from witnessed import Witnessed

LOSSES = int(os.environ.get("LOSSES", "25"))
CONFIG = """HostKey {folder}/host
AuthorizedKeysFile {folder}/keys
StrictModes no
UsePAM no
PermitRootLogin forced-commands-only
ClientAliveInterval 5
ClientAliveCountMax 3
"""


class SshRoom(Room):
    """A room with keys, each for one thing: for desks, by their numbers, and 9, which nobody knows. Each connection has an sshd of its own,
    as inetd would start it."""

    def __init__(self):
        super().__init__()
        self.keys = self.path / "ssh"
        self.keys.mkdir(mode=0o700)
        self.make_key("host")
        (self.keys / "config").write_text(CONFIG.format(folder=self.keys))
        if os.geteuid() == 0:
            pathlib.Path("/run/sshd").mkdir(mode=0o755, exist_ok=True)
        for number in range(1, 9):
            self.adds_key(number, *self.script("zhcount-desk", number, self.folder))
        self.make_key(9)

    def make_key(self, name):
        """The public half of a new key."""
        subprocess.run(["ssh-keygen", "-q", "-t", "ed25519", "-N", "", "-f", self.keys / str(name)], check=True)
        return (self.keys / f"{name}.pub").read_text()

    def adds_key(self, name, *command):
        """Makes a key that can do this alone."""
        key = self.make_key(name)
        with open(self.keys / "keys", "a") as file:
            file.write(f'restrict,command="{shlex.join(map(str, command))}" {key}')

    def words(self, key, *words):
        """The call of ssh with this key, with these options, or this command for the other end."""
        settings = ["BatchMode=yes", "IdentitiesOnly=yes", "StrictHostKeyChecking=no", f"UserKnownHostsFile={self.keys}/known",
                    f"ProxyCommand=setsid /usr/sbin/sshd -i -f {self.keys}/config"]
        options = [it for setting in settings for it in ("-o", setting)]
        return ["ssh", "-F", "/dev/null", "-i", f"{self.keys}/{key}", *options, "office", *map(str, words)]

    def desk(self, number, *_):
        return self.process(Desk, self.words(number, "-T"))

    def ran_by_ssh(self, key, *words, text="show 1 1\n"):
        """What ssh with this key does with this input."""
        return subprocess.run(self.words(key, *words), input=text, capture_output=True, text=True, timeout=SECONDS)

    def is_at_work(self, number):
        """Whether this desk runs at the other end of a connection."""
        words = os.fsencode(f"zhcount-desk\0{number}\0{self.folder}\0")
        return any(words in command_of(it) for it in os.listdir("/proc"))


ROOM = SshRoom


def test_a_key_is_a_desk(room):
    """eight keys are eight desks at once; a key speaks for no other desk, opens no shell and forwards no port. A connection that is cut
    within a line lets go at once, and a dead one after a while"""
    desks = [room.desk(number).talk(f"return 1 1 {number} 525 -> stored {number}") for number in range(1, 9)]
    desks[2].write("return 1 1 9")
    desks[2].kill()
    until("desk 3 has ended", lambda: not room.is_at_work(3))
    other = room.script("zhcount-desk", 4, room.folder)
    ran = room.ran_by_ssh(3, *other, text="show 1 1\n4 return 1 1 9 5\n")
    assert ran.stdout == "shows 8 525\nrefused syntax\n" and "before: return 1 1 3 525: stored 3" in ran.stderr, f"desk 3 is shown {ran}"
    for command in ("echo hello", "sh"):
        assert room.ran_by_ssh(3, command).stdout == "shows 8 525\n", f"no shell by {command}"
    assert room.ran_by_ssh(3, "-s", "sftp").returncode, "no other service"
    ran = room.ran_by_ssh(3, "-tt", text="echo $((6 * 7))\n")
    assert "42" not in ran.stdout and "PTY allocation request failed" in ran.stderr, "no terminal"
    for options in (["-W", "127.0.0.1:9"], ["-N", "-o", "ExitOnForwardFailure=yes", "-R", "0:127.0.0.1:9"]):
        ran = room.ran_by_ssh(3, *options)
        assert ran.returncode == 255 and re.search("prohibited|remote port forwarding failed", ran.stderr), f"no port by {options}"
    assert room.ran_by_ssh(9).returncode == 255, "another key"
    desks[4].talk("show 1 1 -> shows 8 525")
    assert "another connection has this desk" in room.ran_by_ssh(5).stderr, "a second one is refused"
    desks[4].kill(signal.SIGSTOP)
    until("it is let in when the first is dead", lambda: room.ran_by_ssh(5).stdout == "shows 8 525\n")
    room.check({4: ["return 1 1 4 525"]})


def test_table(room):
    """a key for tables takes one from standard input, and nothing else; if the connection is cut before the end nothing is entered"""
    room.adds_key("table", *room.script("zhcount-desk", 3, room.folder, "--csv", "-"))
    cut, text = room.desk("table"), "\ufeffGemeinde;Liste;Fassung;Stimmen\r\n1;1;1;525\r\n1;2;1;300\r\n"
    cut.write(text)
    until("the desk reads", lambda: room.is_at_work(3))
    time.sleep(1)
    cut.kill()
    until("the desk has ended", lambda: not room.is_at_work(3))
    assert room.noted() == [], "nothing is sent"
    for answer in ("stored 1", "same"):
        ran = room.ran_by_ssh("table", "-T", "show 1 1", text=f"{text}3;1;1;90\r\n")
        assert (ran.returncode, ran.stdout) == (0, f"{answer}\n"), f"it is in: {ran.stderr}"
    room.check({3: ["open", "row 1 1 1 525", "row 1 2 1 300", "row 3 1 1 90", "commit"] * 2})


def reaching(room, other, name="witness"):
    """Lets the office of a room reach its witness by ssh, with a key of another room. The room."""
    other.adds_key(name, room.command)
    room.options[1] = shlex.join(other.words(name, "-T"))
    return room


def test_machine_is_lost(new_room):
    """whenever the office's machine is lost, the witness, reached by ssh, has all that desks were shown, and the night goes on there"""
    lines = {it: [f"return {1 + it % 3} {1 + it // 3} {number} 525" for number in range(1, 26)] for it in range(1, 9)}

    def night(loss):
        with running(reaching(Witnessed("--witness-required"), new_room, f"witness{loss}")) as room:
            desks, least = {it: room.desk(it) for it in lines}, 1 + 2 * loss % 100
            for it, desk in desks.items():
                desk.write("".join(f"{line}\n" for line in lines[it]))
            until(f"{least} answers", lambda: sum(len(it.out) for it in desks.values()) >= least)
            time.sleep(loss % 10 / 500)
            burns(room)
            room.moves()
            room.start()
            for it, desk in desks.items():
                assert room.of_desk(it)[:len(desk.out)] == list(zip(lines[it], desk.out)), f"what desk {it} was shown"
                room.ask(it, *lines[it][len(room.of_desk(it)):])
            room.check(lines)
            return sum(len(it.out) for it in desks.values())

    with concurrent.futures.ThreadPoolExecutor(6) as pool:
        shown = list(pool.map(night, range(LOSSES)))
    assert sum(shown) > 20 * LOSSES, f"answers were shown: {shown}"


def burns(room):
    """The machine of the office and the desks is lost, with all that is not the witness's."""
    machine = [*(it.process.pid for it in room.processes), *room.children_of(room.office)]
    subprocess.run(["kill", "-KILL", *map(str, machine)], stderr=subprocess.DEVNULL)  # some end with the office
    for it in room.processes:
        it.wait()
    shutil.rmtree(room.folder)
    room.disk.unlink()


@pytest.mark.xdist_group("times")
def test_network_hangs(new_room):
    """if the connection to the witness hangs, an answer is shown after five seconds, with the news that the witness is away, and the next
    ones at once; a new connection gets the folder once the witness before it has heard nothing for a while"""
    with running(reaching(Witnessed(measures=["PATIENCE", "SILENCE"]), new_room)) as room:
        desk, is_there = room.desk(1).talk("return 1 1 1 525 -> stored 1"), "the witness has been connected since"
        room.says_of_it(is_there)
        room.has_all()
        times = room.office.said().count(is_there)
        hung = int(re.search(r"PPid:\t(\d+)", pathlib.Path(f"/proc/{room.witness()}/status").read_text())[1])
        assert b"sshd" in command_of(hung), "it is sshd"
        os.kill(hung, signal.SIGSTOP)
        try:
            begun = time.monotonic()
            desk.talk("return 1 1 2 530 -> stored 2")
            took, said, begun = time.monotonic() - begun, room.said_of_it(), time.monotonic()
            assert 4 < took < 40 and "it takes too long" in said, f"after some five seconds: {took}, {said}"
            desk.says("no witness since")
            desk.talk(*(f"return 1 1 {number} 530 -> stored {number}" for number in range(3, 13)))
            assert time.monotonic() - begun < 40, "at once"  # ten times five seconds would be more
            room.office.says("it has said nothing for 10 seconds")
            until("it is there again", lambda: room.office.said().count(is_there) > times)
        finally:
            os.kill(hung, signal.SIGCONT)
        desk.talk("return 2 1 1 240 -> stored 13")
        room.has_all()
        room.check()
