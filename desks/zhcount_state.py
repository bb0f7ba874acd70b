"""What follows from the events of a log: what its disk has, and what each desk has sent."""
import hashlib
import json
import re
from typing import Any, Dict, FrozenSet, List, NamedTuple, Optional, Sequence, Tuple

Held = Dict[Tuple[str, str], Tuple[int, str]]  # by municipality and list: number and votes
Row = Tuple[Tuple[str, str], Tuple[int, str]]  # an item of that
COMMAND = re.compile(r"return( \d+){4}|withdraw( \d+){3}|(close|reopen) \d+|commit")


class Event(NamedTuple):
    number: int
    at: str
    kind: str  # setup, start, loaded, ended; line and answer, of a desk
    desk: int = 0
    turn: int = 0
    text: str = ""
    sum: str = ""


def sum_of(before: str, fields: Sequence[Any]) -> str:
    return hashlib.sha256((before + json.dumps(fields)).encode()).hexdigest()


def rows_of(export: str) -> Held:
    rows = [it.split(",") for it in export.split("\n")[1:-1]]
    return {(municipality, group): (int(number), votes) for municipality, group, number, votes in rows}


class State:
    def __init__(self) -> None:
        self.number, self.sum, self.start, self.commands = 0, "", 0, 0
        self.setup: Optional[str] = None
        self.lines: Dict[int, Event] = {}  # by desk the last line
        self.answers: Dict[int, Event] = {}  # and the answer to it
        self.open: Optional[Event] = None  # the line that has no answer: there is one at most
        self.rows: Dict[int, List[str]] = {}  # by desk the rows of its open batch
        self.dropped: Dict[int, str] = {}  # by desk why a start has dropped its batch, up to its next line
        self.held: Held = {}
        self.closed: FrozenSet[str] = frozenset()
        self.put: Dict[int, Held] = {}  # by desk the rows that its last line has entered
        self.entered: Dict[Row, str] = {}  # by row the desks that have entered it, and "-" as long as none of them was answered stored

    def take(self, event: Event) -> None:
        self.number, self.sum = event.number, event.sum
        if event.kind != "ended":
            getattr(self, f"take_{event.kind}")(event)

    def take_setup(self, event: Event) -> None:
        self.setup = event.text

    def take_start(self, event: Event) -> None:
        self.start += 1
        for desk, why in json.loads(event.text).get("dropped", {}).items():
            del self.rows[int(desk)]
            self.dropped[int(desk)] = why

    def take_loaded(self, event: Event) -> None:
        """Commands that came by hand, while no office ran."""
        found = json.loads(event.text)
        self.commands, self.closed, self.held = found["commands"], frozenset(found["closed"]), rows_of(found["export"])

    def take_line(self, event: Event) -> None:
        self.lines[event.desk] = self.open = event
        self.answers.pop(event.desk, None)
        self.dropped.pop(event.desk, None)
        self.put[event.desk] = {}

    def take_answer(self, event: Event) -> None:
        line, desk, answer = self.lines[event.desk], event.desk, event.text
        self.open, self.answers[desk] = None, event
        word = line.text.split(" ")[0]
        if answer.startswith("stored "):
            self.commands = int(answer.split(" ")[1])
        if answer.startswith("stored ") or answer == "same":
            self.put[desk], self.closed = self.effect(line)
            self.held.update(self.put[desk])
            for row in self.put[desk].items():
                desks = self.entered_by(row).replace(str(desk), "") + str(desk)
                self.entered[row] = desks if answer == "same" else desks.replace("-", "")
        if word == "open" and answer == "held 0":
            self.rows[desk] = []
        elif word == "row" and answer.startswith("held "):
            self.rows[desk].append(line.text)
        elif word == "commit" and re.match("stored|same", answer) or word == "drop" and answer.startswith("dropped"):
            del self.rows[desk]

    def effect(self, line: Event) -> Tuple[Held, FrozenSet[str]]:
        """The rows that a line puts, and what is closed, once it is stored; of one that is no command what there is already."""
        word, *numbers = line.text.split(" ") if COMMAND.fullmatch(line.text) else [""]
        closed = {"close": self.closed.union(numbers), "reopen": self.closed.difference(numbers)}.get(word, self.closed)
        rows = {"commit": self.rows.get(line.desk, []), "return": [line.text], "withdraw": [f"{line.text} withdrawn"]}.get(word, [])
        return {(m, g): (int(n), v) for _, m, g, n, v in (it.split(" ") for it in rows)}, closed

    def entered_by(self, row: Row) -> str:
        """The desks that have entered a row; '-' among them where it came by hand."""
        return self.entered.get(row, "-")
