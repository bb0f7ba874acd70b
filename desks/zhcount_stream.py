"""Messages between office, desks and witness, a JSON object in each line, sent without waiting; lines on standard error; and how an office
waits and is told to end."""
import contextlib
import json
import os
import select
import signal
import time
from typing import Any, Callable, Dict, Optional, Sequence

from zhcount_log import Stopped, escaped

MOST = 1 << 22  # bytes of a message
QUIET = 60  # seconds in which a text is not said again
LAST: Dict[str, float] = {}  # the text that was said last, and when it may be said again


def hold_standard_streams() -> None:
    """Descriptors 0 to 2 that are closed become such that nothing can be written to, so that no other file gets their numbers."""
    while (number := os.open(os.devnull, os.O_RDONLY)) < 3:  # the lowest one that is free
        os.set_inheritable(number, True)
    os.close(number)


class Gone(Exception):
    """Why there is nobody at the other end, or nobody who speaks this language."""


class Ended(Gone):
    """There is nobody any more."""


class Stream:
    def __init__(self, out: int, into: int, longest: int = MOST):
        self.out, self.into, self.longest, self.rest, self.left = out, into, longest, b"", b""
        os.set_blocking(out, False)
        os.set_blocking(into, False)

    def send(self, **message: Any) -> None:
        self.left += json.dumps(message).encode() + b"\n"
        self.flush()

    def flush(self) -> None:
        while self.left and (taken := self.tried(os.write, self.into, self.left)):
            self.left = self.left[taken:]

    def read(self) -> None:
        data = self.tried(os.read, self.out, 65536)
        if data == b"":
            raise Ended("it has ended")
        self.rest += data or b""

    def tried(self, call: Callable[..., Any], *args: Any) -> Any:
        """What a call gives; nothing where it would wait."""
        try:
            return call(*args)
        except BlockingIOError:
            return None
        except OSError as it:
            raise Ended(it.strerror) from None

    def next(self) -> Optional[Dict[str, Any]]:
        line, end, rest = self.rest.partition(b"\n")
        if len(line) > self.longest:
            raise Gone(f"a message has more than {self.longest} bytes")
        if not end:
            return None
        self.rest = rest
        with contextlib.suppress(ValueError, RecursionError):
            message = json.loads(line)
            if isinstance(message, dict):
                return message
        raise Gone(f"what came is no message: '{escaped(line[:80])}'")


def say(text: str, name: str = "zhcount-office") -> None:
    """One line on standard error, unless it has just stood there. It never waits, and never stops the script: a pipe that can be written
    takes this much at once, and what can't be written is dropped."""
    if time.monotonic() < LAST.get(text, 0):
        return
    LAST.clear()
    LAST[text] = time.monotonic() + QUIET
    line = f"{name}: {text}".encode("utf-8", "backslashreplace")[:select.PIPE_BUF - 1] + b"\n"
    with contextlib.suppress(OSError):
        if select.select([], [2], [], 0)[1]:
            os.write(2, line)


class Ending:
    """How often the office was told to end. A signal that is ignored at the start, as by nohup, stays so."""

    def __init__(self) -> None:
        self.times = 0
        self.fd, into = os.pipe2(os.O_NONBLOCK | os.O_CLOEXEC)
        signal.set_wakeup_fd(into, warn_on_full_buffer=False)
        for it in (signal.SIGTERM, signal.SIGINT, signal.SIGHUP):
            if signal.getsignal(it) != signal.SIG_IGN:
                signal.signal(it, self.told)

    def told(self, *_: Any) -> None:
        self.times += 1

    def wait(self, readers: Sequence[int], writers: Sequence[int] = (), _: Sequence[int] = (), seconds: float = float("inf")) -> Any:
        """Waits as select does, also for being told to end. Told twice it does not wait."""
        if self.times > 1:
            raise Stopped("told to, twice", 0)
        ready = select.select([*readers, self.fd], writers, [], None if seconds == float("inf") else max(0, seconds))
        if self.fd in ready[0]:
            os.read(self.fd, 100)
        return ready

    def pause(self, text: str = "another program has the disk: waiting for its end") -> None:
        """Waits a little for something that another process has, and says so."""
        say(text)
        self.wait([], seconds=0.2)
        if self.times:
            raise Stopped("told to", 0)
