#!/usr/bin/env python3
"""Makes the night of a canton from a seed: night.py FOLDER [SEED].

The folder gets `setup.toml`, and in `evening` and `night` the lines that eight desks send before and after a stop.
"""
import pathlib
import sys

sys.dont_write_bytecode = True
from canton import Canton, Chance

SEED = 2027
DESKS = range(1, 9)
BATCH_DESKS = (7, 8)
STOPS = range(500, 1000)  # moments at which the stop can come
SHEETS = range(100, 1000, 100)  # when desk 1 asks for the seats


class Desk:
    """One desk, with its own municipalities: what it sends, and at which moments."""

    def __init__(self, number, canton, chance):
        self.number, self.canton, self.chance = number, canton, chance
        self.lines, self.moment = [], 0
        self.sent = {}  # the number under which a municipality and list were sent last

    def say(self, *texts):
        self.lines += [(self.moment, self.number, f"{self.number} {text}") for text in texts]

    def send(self, municipality, group, votes):
        """The next number's return."""
        number = self.sent.get((municipality, group), 0) + 1
        self.sent[municipality, group] = number
        self.say(f"return {municipality} {group} {number} {votes}")

    def take(self, municipality, moment):
        """The returns of a municipality have come: they are entered, and it is closed."""
        self.moment = max(self.moment + 1, moment)
        rows = [(municipality, group, self.canton.votes[municipality, group]) for group in self.canton.lists_in(municipality)]
        if self.number in BATCH_DESKS:
            self.enter_batch(rows)
        else:
            for row in rows:
                self.enter(*row)
        self.say(f"close {municipality}")
        if self.chance.once_in(9):  # a correction comes when the municipality is closed already
            _, group, votes = self.chance.shuffled(rows)[0]
            self.moment += self.chance.between(1, 30)
            self.say(f"return {municipality} {group} {self.sent[municipality, group] + 1} {votes + 4}", f"reopen {municipality}")
            self.send(municipality, group, votes + 4)
            self.say(f"close {municipality}")

    def enter(self, municipality, group, votes):
        """A return, with the mistakes that people make."""
        self.moment += self.chance.below(2)
        place, again = f"{municipality} {group}", []
        if (municipality, group) in self.sent:  # something is held already
            self.say(f"return {place} 1 {votes}", f"show {place}")
        elif self.chance.once_in(40):  # a wrong figure, seen at once
            self.send(municipality, group, votes + 9)
        elif self.chance.once_in(50):  # a wrong number
            self.say(f"return {place} 2 {votes}", f"show {place}")
        elif self.chance.once_in(30):
            again = [f"return {place} 1 {votes}"]
        self.send(municipality, group, votes)
        self.say(*again)

    def enter_batch(self, rows):
        municipality, group, votes = rows[-1]
        if self.chance.once_in(4):  # a wrong number, which only the commit finds
            self.batch(rows[:-1])
            self.say(f"row {municipality} {group} 2 {votes}", "commit", f"show {municipality} {group}", "drop")
        self.batch(rows)
        self.say("commit")
        self.sent.update({row[:2]: 1 for row in rows})

    def batch(self, rows):
        self.say("open")
        for municipality, group, votes in rows:
            self.moment += self.chance.below(2)
            row = f"row {municipality} {group} 1 {votes}"
            self.say(*[row] * (1 + self.chance.once_in(50)))  # at times the same row once more

    def withdraw(self, municipality, group):
        self.sent[municipality, group] += 1
        self.say(f"withdraw {municipality} {group} {self.sent[municipality, group]}")


def desks_of(canton, chance):
    desks = [Desk(number, canton, chance) for number in DESKS]
    arrivals = sorted((chance.between(30, 950), m) for m in canton.municipalities())
    for desk in desks:
        queue = [(moment, m) for moment, m in arrivals if 1 + (m - 1) * len(DESKS) // len(canton.names) == desk.number]
        for place, (moment, m) in enumerate(queue):
            if (desk.number, place) == (3, 4):  # a return is entered for another municipality, and taken back there
                other = queue[place + 1][1]
                desk.moment = max(desk.moment + 1, moment)
                desk.send(other, 1, canton.votes[m, 1])
                desk.withdraw(other, 1)
            desk.take(m, moment)
            if (desk.number, place) == (2, 5):  # a list turns out not to stand there any more
                group = len(canton.lists_in(m))
                desk.say(f"reopen {m}")
                desk.withdraw(m, group)
                desk.say(f"show {m} {group}", f"close {m}")
    return desks


def lost_batch(lines):
    """The lines of a batch that is still open after these."""
    begun = None
    for place, (_, _, line) in enumerate(lines):
        word = line.split()[1]
        begun = place if word == "open" else None if word in ("commit", "drop") else begun
    return [] if begun is None else lines[begun:]


def split(lines, moment):
    """The lines before a moment, and those from it on."""
    return [it for it in lines if it[0] < moment], [it for it in lines if it[0] >= moment]


def merged(desks):
    """The lines before the stop, which breaks a batch, and after it, in the order in which they arrive. After it a desk first sends a lost
    batch from its beginning, or else its last line."""
    stop = next(it for it in STOPS if any(lost_batch(split(desk.lines, it)[0]) for desk in desks))
    before, after = split([(moment, 1, "1 sheet") for moment in SHEETS], stop)
    for desk in desks:
        early, late = split(desk.lines, stop)
        lost = lost_batch(early)
        again = late[:1] + lost if lost else early[-1:]
        before += early
        after += [(stop, *it[1:]) for it in again] + late
    return [[line for _, _, line in sorted(lines, key=lambda it: it[:2])] for lines in (before, after)]


def main(folder, seed=SEED):
    chance = Chance(int(seed))
    canton = Canton(chance)
    evening, night = merged(desks_of(canton, chance))
    pathlib.Path(folder, "setup.toml").write_text(canton.setup())
    for name, lines in (("evening", evening), ("night", [*night, "1 final"])):
        pathlib.Path(folder, name).write_text("".join(f"{line}\n" for line in lines))


if __name__ == "__main__":
    if len(sys.argv) not in (2, 3):
        sys.exit(__doc__)
    main(*sys.argv[1:])
