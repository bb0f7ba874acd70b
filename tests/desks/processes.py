"""The processes of tests of the scripts, and how tests wait: PATIENCE seconds, but SHORTLY for IN_VAIN, which a mistake prevents."""
import contextlib
import os
import pathlib
import re
import select
import signal
import threading
import time
from subprocess import PIPE, Popen

SECONDS = int(os.environ.get("PATIENCE", "300"))  # a busy machine can take long
IN_VAIN, SHORTLY = os.environ.get("IN_VAIN", ""), 15
HAS_ENDED = "(it has ended)"  # in place of an answer


def until(what, holds, seconds=SECONDS):
    """Waits until something holds, and returns it. `what` is the text of the error if it never does, or a function that returns that."""
    begun = time.monotonic()
    while not (found := holds()):
        waited = time.monotonic() - begun
        if waited > seconds or IN_VAIN and waited > SHORTLY:
            text = what() if callable(what) else what
            if waited > seconds or IN_VAIN in text:
                raise AssertionError(f"not after {waited:.0f} seconds: {text}")
        time.sleep(0.01)
    return found


def stays(what, holds, seconds=0.5):
    """Checks for this long that something goes on holding."""
    end = time.monotonic() + seconds
    while time.monotonic() < end:
        assert holds(), what
        time.sleep(0.01)


def stand_still(pid):
    """Stops a process, and waits until it does nothing more."""
    os.kill(pid, signal.SIGSTOP)
    until("it stands still", lambda: "State:\tT" in pathlib.Path(f"/proc/{pid}/status").read_text())


def has_input(pid):
    """Whether the standard input of a process, a pipe, contains something that it has not read."""
    with open(os.open(f"/proc/{pid}/fd/0", os.O_RDONLY | os.O_NONBLOCK), "rb") as pipe:
        return select.select([pipe], [], [], 0)[0] != []


def command_of(pid):
    """The words of a process, each with a zero byte after it; b"" if it has ended."""
    with contextlib.suppress(OSError):
        return pathlib.Path(f"/proc/{pid}/cmdline").read_bytes()
    return b""


class Process:
    """A process with pipes, whose output is read as it comes."""

    def __init__(self, words, environment):
        self.process = Popen([*map(str, words)], env={**os.environ, **environment}, bufsize=0, stdin=PIPE, stdout=PIPE, stderr=PIPE)
        self.out, self.error = [], []
        self.readers = [threading.Thread(target=self.read, args=it, daemon=True)
                        for it in ((self.process.stdout, self.out), (self.process.stderr, self.error))]
        for it in self.readers:
            it.start()

    @staticmethod
    def read(stream, into):
        with contextlib.suppress(ValueError):  # it was closed
            for line in stream:
                into.append(line.decode("utf-8", "replace").rstrip("\n"))

    def write(self, text):
        with contextlib.suppress(BrokenPipeError):
            self.process.stdin.write(text.encode() if isinstance(text, str) else text)

    def said(self):
        return "\n".join(self.error)

    def says(self, *texts):
        """Waits until standard error contains all of these."""
        for text in texts:
            until(lambda: f"'{text}' is said: {self.said()}", lambda: text in self.said())

    def kill(self, number=signal.SIGKILL):
        """Sends a signal, and waits for the end after SIGKILL."""
        self.process.send_signal(number)
        if number == signal.SIGKILL:
            self.process.wait()

    def has_ended(self):
        return self.process.poll() is not None

    def end(self, text=""):
        """Closes the input after this text, and waits for the end. The status."""
        self.write(text)
        self.process.stdin.close()
        return self.wait()

    def wait(self):
        status = self.process.wait(SECONDS)
        for it in self.readers:
            it.join(30)  # longer if another process has its streams
        return status

    def ends_with(self, status, who):
        """Waits until it ends of itself, with this status."""
        found = self.wait()
        assert found == status, f"the end of {who}: {self.said()}"


class Desk(Process):
    """A desk that sends a line once the one before is answered."""

    taken = 0  # lines of output

    def talk(self, *exchanges):
        """Sends lines, each with the answer that it must get: 'LINE -> ANSWER'. The desk."""
        for line, wanted in (it.split(" -> ") for it in exchanges):
            assert self.send(line) == wanted, f"the answer to {line}"
        return self

    def send(self, line):
        self.write(line + "\n")
        return self.answer(line)

    def answer(self, line="", meanwhile=lambda: None):
        """The next answer, which is all lines of a sheet. `meanwhile` is called again and again."""
        def whole():
            meanwhile()
            if self.has_ended():
                self.wait()  # until all that it has shown is read
            found = self.out[self.taken:]
            if found and re.match(r"\d sheet (provisional|final) \d+$", found[0]):
                return found[:found.index("end") + 1] if "end" in found else None
            return found[:1] or ([HAS_ENDED] if self.has_ended() else None)
        answer = until(f"an answer to {line}", whole)
        self.taken += len(answer)
        return "\n".join(answer)

    def is_let_in(self):
        return ", start " in self.said()
