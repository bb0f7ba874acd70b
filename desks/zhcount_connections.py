"""The desks of an office: the socket FOLDER/desk, and the connections to it."""
import contextlib
import os
import socket
import struct
import time
from typing import Any, Container, Dict, List

from zhcount_log import DESKS, is_canonical, named
from zhcount_stream import Ended, Gone, Stream, say

LONGEST = 1000  # bytes of a message of a desk
MOST = 40  # connections; of more the oldest without a desk is ended
SILENT = 20  # seconds without a message after which another connection gets the desk


class Connection(Stream):
    """Somebody at the socket; a desk once it has said which."""

    def __init__(self, at: socket.socket):
        super().__init__(at.fileno(), at.fileno(), LONGEST)
        self.socket, self.desk = at, 0
        self.user = named(struct.unpack("3i", at.getsockopt(socket.SOL_SOCKET, socket.SO_PEERCRED, 12))[1])
        self.since, self.heard = time.strftime("%H:%M:%S"), time.monotonic()


class Connections:
    """`office` says what a desk is told first, and answers its lines."""

    def __init__(self, office: Any):
        self.office, self.socket = office, socket.socket(socket.AF_UNIX, socket.SOCK_STREAM | socket.SOCK_NONBLOCK)
        self.all: List[Connection] = []

    def open(self, folder: str) -> None:
        """Makes the socket. Its path by the folder's descriptor is short."""
        at = os.open(folder, os.O_PATH)
        self.socket.bind(f"/proc/self/fd/{at}/desk")
        os.chmod(os.path.join(folder, "desk"), 0o660)
        self.socket.listen(MOST)
        os.close(at)

    @property
    def desks(self) -> Dict[int, Connection]:
        return {it.desk: it for it in self.all if it.desk}

    def readers(self) -> List[int]:
        return [self.socket.fileno(), *(it.out for it in self.all)]

    def writers(self) -> List[int]:
        return [it.into for it in self.all if it.left]

    def look(self, ready: Container[int]) -> None:
        """Looks at each that is ready; and lets in who has come, in place of the oldest one without a desk where there are too many."""
        for it in list(self.all):
            if it.out in ready and it in self.all:  # another one may have its desk now
                self.look_at(it)
        if self.socket.fileno() in ready:
            with contextlib.suppress(OSError):  # nobody is there any more, or too many files are open
                self.all.append(Connection(self.socket.accept()[0]))
        if len(self.all) > MOST:
            self.leave(next(it for it in self.all if not it.desk), Gone("too many connections"))

    def look_at(self, connection: Connection) -> None:
        """Takes the message of a connection, of which there is one at a time; and none once the office is told to end."""
        try:
            connection.flush()
            connection.read()
            message = None if self.office.ending.times else connection.next()
            if message is not None and (connection.rest or connection.left):
                raise Gone("it does not wait for an answer")
            if message is not None:
                (self.hear if connection.desk else self.greet)(connection, message)
        except Gone as it:
            self.leave(connection, it)

    def leave(self, connection: Connection, why: Gone) -> None:
        """Ends a connection, and says why where nobody did so."""
        self.all.remove(connection)
        if not isinstance(why, Ended):
            say(f"desk {connection.desk or '?'}: its connection is ended: {why}")
            with contextlib.suppress(Gone):
                connection.send(refused=str(why))
        connection.socket.close()

    def greet(self, connection: Connection, message: Dict[str, Any]) -> None:
        """Lets a desk in, where no other connection has it, or only one that is silent, which ends."""
        desk = message.get("desk")
        if type(desk) is not int or desk not in DESKS:
            raise Gone("no desk says so")
        before = self.desks.get(desk)
        if before and time.monotonic() < before.heard + SILENT:
            raise Gone(f"another connection has this desk: of {before.user} since {before.since}")
        if before:
            self.leave(before, Gone(f"{connection.user} has taken this desk over"))
        connection.desk = desk
        connection.send(**self.office.greeting(desk))

    def hear(self, connection: Connection, message: Dict[str, Any]) -> None:
        """Takes a line, if it is one, and the next one."""
        turn, line, connection.heard = message.get("turn"), message.get("line"), time.monotonic()
        last = self.office.log.state.lines.get(connection.desk)
        if type(turn) is not int or turn != (last.turn if last else 0) + 1:
            raise Gone("a turn that is not the next one")
        if not is_canonical(line):
            raise Gone("no line, or one that is too long")
        warning = self.office.names.warning(self.office.log.state, line)
        if warning:
            connection.send(news=warning)
        self.office.answer(self.office.log.add("line", line, connection.desk, turn))

    def tell(self, desk: int, **message: Any) -> None:
        with contextlib.suppress(KeyError, Gone):  # it is not there, or gone, as the next look at it finds
            self.desks[desk].send(**message)
