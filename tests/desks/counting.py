"""What the office answers to any line, by docs/MANUAL.md, in the count of the rehearsal: three municipalities with three lists each."""
import collections
import re
import types

from office import Office

NUMERAL = r"(0|[1-9]\d{0,9})"
FORMS = {"return": 4, "row": 4, "withdraw": 3, "show": 2, "last": 2, "close": 1, "reopen": 1, "open": 0, "commit": 0, "drop": 0, "sheet": 0,
         "final": 0}
# The canton of the rehearsal: its constituencies are its municipalities.
REHEARSAL = types.SimpleNamespace(constituency_of=[1, 2, 3], municipalities=lambda: range(1, 4), lists_in=lambda _: range(1, 4))


class Count(Office):
    """A count that is judged line by line, whatever is typed, and that knows which desk has entered a row. An office gives the rows of open
    batches again, so that they outlive a stop."""

    def __init__(self):
        super().__init__(REHEARSAL)
        self.setters = {}

    def answer(self, line):
        """The answer to 'N LINE' of a desk, which is taken, without the desk; of a sheet its first line."""
        desk, word, *numbers = line.split(" ")
        if FORMS.get(word) != len(numbers) or not all(re.fullmatch(NUMERAL, it) and int(it) < 2**32 for it in numbers):
            return "refused syntax"
        taken = [int(it) for it in numbers]
        if word in ("return", "row", "withdraw") and not taken[2]:
            return "refused syntax"
        before = dict(self.held)
        answer = self.misplaced(*taken) or super().answer(line)[2:]
        self.note_setters(desk, before)
        return answer

    def misplaced(self, municipality=1, group=1, _=0, votes=0):
        """The refusal of numbers that are not a place in the canton, or too many votes; '' where both are right."""
        if municipality not in self.canton.municipalities():
            return "refused municipality"
        if group not in self.canton.lists_in(municipality):
            return "refused list"
        return "refused votes" if votes > 10**9 else ""

    def on_last(self, _desk, *at):
        return f"last {self.setters[at]}" if at in self.setters else "none"

    def on_sheet(self, desk):
        return super().on_sheet(desk) if any(votes for _, votes in self.held.values()) else "refused nogroup"

    def become(self, commands, export, closed, **_):
        """What came by hand, as by desk 0: the disk has this many commands, these rows, and these municipalities closed."""
        before, rows = self.held, [it.split(",") for it in export.split("\n")[1:-1]]
        self.held = {(int(m), int(g)): (int(n), None if v == "withdrawn" else int(v)) for m, g, n, v in rows}
        self.commands, self.closed = commands, {int(it) for it in closed}
        self.note_setters(0, before)

    def note_setters(self, desk, before):
        self.setters.update({place: desk for place, entry in self.held.items() if entry != before.get(place)})


def random_line(chance, count):
    """A line that mostly makes sense in a count, of which other desks may know more by now."""
    municipality, group = chance.randint(1, 3), chance.randint(1, 3)
    number = max(1, count.held.get((municipality, group), (0, 0))[0] + chance.choice([1, 1, 1, 1, 0, 2, -1]))
    words = {"return": 30, "withdraw": 6, "close": 4, "reopen": 6, "open": 8, "row": 22, "commit": 10, "drop": 2, "show": 5, "last": 3,
             "sheet": 2, "final": 1, "x y": 1}
    word = chance.choices([*words], [*words.values()])[0]
    return " ".join([word, *map(str, [municipality, group, number, chance.randint(0, 3000)][:FORMS.get(word, 0)])])


def counted(found):
    """What is held after the events of a log, each answer of which has to be that of the manual."""
    count, lines, turns = Count(), {}, collections.Counter()
    for it in found:
        turns[it.desk] += it.kind == "line"
        assert it.turn == turns[it.desk], f"the turn of {it}"
        if it.kind == "line":
            assert lines == {}, "a line that waits beside"
            lines[it.desk] = it.text
        elif it.kind == "answer":
            line = lines.pop(it.desk)
            wanted = count.answer(f"{it.desk} {line}")
            if not wanted.startswith("sheet ") or not re.match(f"{wanted} |refused (exhausted|tied)", it.text):  # these are proved
                assert it.text == wanted, f"the answer to desk {it.desk}: {line}"
        elif it.kind == "loaded":
            count.become(**it.facts())
        elif it.kind == "start":
            for desk in it.facts()["dropped"]:
                count.batches.pop(desk)
    assert lines == {}, "lines without an answer"
    return count
