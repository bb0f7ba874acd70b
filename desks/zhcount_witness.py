"""What an office knows of its witness: a command that leads to zhcount-witness, which keeps the log too. It is started again whenever it
has failed. Answers wait for it while it is there: it has all that was shown, and is not slow."""
import contextlib
import json
import os
import signal
import subprocess
import time
from typing import Any, Callable, Dict, List, Optional

from zhcount_log import Log, Stopped, escaped, now
from zhcount_program import STREAMS
from zhcount_stream import Gone, Stream

SILENCE = 10  # seconds after which a witness that owes something has failed
PATIENCE = 5  # seconds that an answer waits for it
QUICK = 2  # seconds in which one that was away takes what it lacks last, to be there again
PAUSE = 3  # seconds between two signs of life; and before the command is started again
MEETING = 30  # seconds that a start waits for it: 20 for the end of the witness before it, whose office has gone
NEVER = float("inf")
MANY, PIECE = 100, 30000  # events that are sent at once; characters of a piece of them: a message has at most 64 KB


class Witness:
    def __init__(self, words: List[str], is_required: bool, log: Log, tell: Callable[..., None]):
        self.words, self.is_required, self.log, self.tell = words, is_required, log, tell
        self.process: Any = None
        self.stream: Any = None  # to its process, if there is one
        self.is_there: Optional[bool] = None if words else False  # whether answers wait for it; None: nobody knows yet
        self.until = time.monotonic() + MEETING if words else NEVER  # how long a start, or an answer, waits for it
        self.at = -NEVER if words else NEVER  # when it was asked, or failed
        self.owes = False  # whether it has to say something
        self.has = 0  # how many events it has
        self.goes_to: Optional[int] = None  # how many it has once it has what was sent; None before it has said what it has
        self.rest = ""  # what is still to be sent of these events
        self.why = self.text = ""  # why it is away, if that was told; what was told last

    def look(self) -> None:
        """Hears it, passes on what it lacks, and sees whether it is late. Never waits."""
        try:
            if not self.stream and self.time_left() <= 0:
                self.begin()
            if self.stream:
                self.stream.read()
                while (message := self.stream.next()) is not None:
                    self.hear(message)
                self.stream.flush()
                self.pass_on()
        except Gone as it:
            self.lose(str(it))
        self.count_the_wait()

    def readers(self) -> List[int]:
        return [self.stream.out] if self.stream else []

    def writers(self) -> List[int]:
        return [self.stream.into] if self.stream and self.stream.left else []

    def seconds(self) -> float:
        """How long nothing has to be done."""
        return min(self.time_left(), self.until - time.monotonic())

    def is_awaited(self) -> bool:
        """Whether a start has to wait for it, or it lacks what may not be shown without it."""
        return self.is_there is None or self.has < self.last() and (self.is_there or self.is_required)

    def time_left(self) -> float:
        return self.at + (SILENCE if self.owes else PAUSE) - time.monotonic()

    def count_the_wait(self) -> None:
        """An answer waits for it a bounded time, counted once. It is there again once it has all that was shown meanwhile, too."""
        if self.is_there and self.last() > self.has:
            self.until = min(self.until, time.monotonic() + PATIENCE)
        elif self.is_there:
            self.until = NEVER
            if self.why or not self.text:
                self.why, self.text = "", f"the witness has been connected since {now()}"
                self.tell(self.text, to_desks=True)
        if time.monotonic() >= self.until:
            self.is_away("it takes too long")

    def last(self) -> int:
        """The number of the last event that it has to have: a line goes there with its answer."""
        state = self.log.state
        return state.number - bool(state.open and state.open.number == state.number)

    def begin(self) -> None:
        try:
            process: Any = subprocess.Popen(self.words, bufsize=0, start_new_session=True, **STREAMS)
        except OSError as it:
            raise Gone(f"{self.words[0]} can't be started: {it.strerror}") from None
        self.process, self.stream = process, Stream(process.stdout.fileno(), process.stdin.fileno(), 1000)
        self.goes_to, self.rest = None, ""
        self.ask(number=self.log.state.number, sum=self.log.state.sum)

    def ask(self, **message: Any) -> None:
        self.at, self.owes = time.monotonic(), True
        self.stream.send(**message)

    def hear(self, message: Dict[str, Any]) -> None:
        """Takes what it says: for whom it waits, then what it has, and then, each time it was sent something, what it has now."""
        number, waits = message.get("number"), message.get("waits")
        if self.goes_to is None and isinstance(waits, str):
            self.at = time.monotonic()
            self.tell(f"the witness waits {escaped(waits.encode('utf-8', 'replace'))[:200]}")
            return
        if not self.owes or type(number) is not int or self.goes_to is not None and number != (self.has if self.rest else self.goes_to):
            raise Gone("what it says is not what zhcount-witness says")
        if self.goes_to is None:
            self.compare(number, message)
            self.goes_to, self.at = number, -NEVER  # it is sent something at once
        elif not self.rest and number < self.has + MANY and (self.is_there is None or time.monotonic() < self.at + QUICK):
            self.is_there = True  # that was all
        self.has, self.owes = number, False

    def compare(self, number: int, message: Dict[str, Any]) -> None:
        """Refuses another log, and one that has more than this one: at a start a person has to look; later the count goes on without it."""
        state, path = self.log.state, self.log.path
        why = f"the witness's log differs from that of {path}: give the folder of this count, or put the witness's aside"
        if number > state.number and message.get("at") == state.sum:
            why = (f"the witness has {number} events, and {path} the first {state.number} of them: if the count went on there, make the "
                   "disk from that folder by --rebuild, and go on with both; if not, put that folder aside")
        elif number <= state.number and self.log.sum_at(number) == message.get("sum"):
            return
        raise Stopped(why) if self.is_there is None else Gone(why)

    def pass_on(self) -> None:
        """Sends what it lacks, or now and then a sign of life, once it has answered what was sent before."""
        if self.owes and self.time_left() <= 0:
            raise Gone(f"it has said nothing for {SILENCE} seconds")
        if self.owes or not (self.rest or self.last() > self.has or self.time_left() <= 0):
            return
        if not self.rest:
            self.goes_to = min(self.last(), self.has + MANY)
            self.rest = json.dumps(list(self.log.events(self.has, self.goes_to - self.has)))
        piece, self.rest = self.rest[:PIECE], self.rest[PIECE:]
        self.ask(events=piece, more=bool(self.rest))

    def lose(self, why: str) -> None:
        """Its process has failed, and is ended. What that has said last on standard error is a part of the reason."""
        said = b""
        if self.process:
            with contextlib.suppress(OSError, subprocess.TimeoutExpired):  # another user's can't be ended
                os.killpg(self.process.pid, signal.SIGKILL)
                said = self.process.communicate(timeout=1)[1].strip().split(b"\n")[-1]
        self.process = self.stream = None  # with this its pipes are closed in any case
        self.owes, self.at = False, time.monotonic()
        self.is_away(f"{why}: {escaped(said)[:200]}" if said else why)

    def is_away(self, why: str) -> None:
        """No answer waits for it any more, or each until it is there. One that is required is still awaited by a start."""
        word = "waiting for the witness" if self.is_required else "no witness"
        if not self.why:
            self.text = f"{word} since {now()}: {why}"
            self.tell(self.text, to_desks=True)
        elif why != self.why:
            self.tell(f"still {word}: {why}")
        self.is_there = None if self.is_required and self.is_there is None else False
        self.why, self.until = why, NEVER
