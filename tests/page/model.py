"""Elections made up for the tests, and their sheets: an independent model of STATUTE and FORMATS in exact fractions. It finds divisors by
a search of its own, so that they differ from the office's; a sheet is as right with them."""
import random
from fractions import Fraction

MILLION = 1_000_000


def fit(weights, total):
    """The seats of these weights, given one by one to the weight whose next seat is worth most, and their key."""
    seats = [0] * len(weights)

    def following():
        return max(range(len(weights)), key=lambda i: Fraction(weights[i], 2 * seats[i] + 1))

    for _ in range(total):
        seats[following()] += 1
    last = min((i for i in range(len(weights)) if seats[i]), key=lambda i: Fraction(weights[i], 2 * seats[i] - 1))
    a, b = weights[last] + weights[following()], seats[last] + seats[following()]
    if any(abs(Fraction(w * b, a) - s) >= Fraction(1, 2) for w, s in zip(weights, seats)):
        raise ValueError("the seats are tied, so there is no sheet")
    return seats, f"{a}/{b}"


def step(quotients, total):
    """A divisor for which these quotients, once more divided by it, round to this total: between two thresholds."""
    worth = sorted((q / (s + 0.5) for q in quotients if q for s in range(total + 1)), reverse=True)
    return worth[0] * 2 if total == 0 else (worth[total - 1] + worth[total]) / 2


def divisors(votes, rows, columns):
    """Divisors of rows and columns, in millionths, under which the votes round to seats with these totals."""
    x, y = [1.0] * len(rows), [1.0] * len(columns)
    for _ in range(2000):
        x = [step([v / b for v, b in zip(row, y)], seats) for row, seats in zip(votes, rows)]
        y = [step([v / a for v, a in zip(column, x)], seats) for column, seats in zip(zip(*votes), columns)]
        scaled = [round(a * MILLION) for a in x], [round(b * MILLION) for b in y]
        if is_right(votes, rows, columns, *scaled):
            return scaled
    raise ValueError("no divisors were found: take another seed")


def is_right(votes, rows, columns, x, y):
    if min(x) == 0 or min(y) == 0:
        return False
    seats = seats_by(votes, x, y)
    return [sum(row) for row in seats] == rows and [sum(column) for column in zip(*seats)] == columns


def seats_by(votes, x, y):
    return [[int(Fraction(v * MILLION ** 2, a * b) + Fraction(1, 2)) for v, b in zip(row, y)] for row, a in zip(votes, x)]


class Election:
    """A house, persons, and the votes of each list; None for a list that does not stand."""

    def __init__(self, house, persons, votes, quorum=None, names=None, groups=None):
        self.house, self.persons, self.votes, self.quorum = house, persons, votes, quorum
        self.names = names or [f"District {d + 1}" for d in range(len(persons))]
        self.groups = groups or [f"Group {g + 1}" for g in range(len(votes[0]))]

    def setup(self):
        lines = [f"version = {2 if self.quorum else 1}", f"house = {self.house}"]
        lines += [f"canton_quorum = {self.quorum}"] if self.quorum else []
        for name, persons in zip(self.names, self.persons):
            lines += ["[[constituency]]", f'name = "{name}"', f"persons = {persons}"]
        for d, name in enumerate(self.names):
            lines += ["[[municipality]]", f'name = "{name}"', f"constituency = {d + 1}"]
        for name, votes in zip(self.groups, zip(*self.votes)):
            lines += ["[[group]]", f'name = "{name}"', f"stands = {[d for d, v in enumerate(votes, 1) if v is not None]}"]
        return "\n".join(lines) + "\n"

    def held(self):
        rows = [f"{d},{g},1,{v}" for d, row in enumerate(self.votes, 1) for g, v in enumerate(row, 1) if v is not None]
        return "\n".join(["municipality,list,number,votes"] + rows) + "\n"

    def files(self, **more):
        """The sheet, the set-up, and the returns."""
        return self.sheet(**more), self.setup(), self.held()

    def takes_part(self, g):
        totals = [sum(v or 0 for v in row) for row in self.votes]
        own = [row[g] or 0 for row in self.votes]
        canton = self.quorum is not None and sum(own) > 0 and 1000 * sum(own) >= self.quorum * sum(totals)
        return canton or any(v > 0 and 100 * v >= 5 * total for v, total in zip(own, totals))

    def sheet(self, kind="final", commands=1234, part=None):
        """The sheet; `part` says who takes part in place of the quorum, for a forgery."""
        part = part or [self.takes_part(g) for g in range(len(self.groups))]
        seats, seats_key = fit(self.persons, self.house)
        voters = [[None if v is None else (2 * v + s) // (2 * s) for v in row] for row, s in zip(self.votes, seats)]
        sums = [sum(row[g] or 0 for row in voters) for g in range(len(self.groups))]
        upper, upper_key = fit([number if takes else 0 for number, takes in zip(sums, part)], self.house)
        columns = [g for g in range(len(self.groups)) if upper[g]]
        question = [[row[g] or 0 for g in columns] for row in self.votes]
        x, y = divisors(question, seats, [upper[g] for g in columns])
        lower = seats_by(question, x, y)
        lines = [f"1 sheet {kind} {commands}", f"house {self.house}", f"seats key {seats_key}", f"upper key {upper_key}"]
        lines += [f"quorum canton {self.quorum}"] if self.quorum else []
        for d, name in enumerate(self.names):
            total = sum(v or 0 for v in self.votes[d])
            lines.append(f"constituency {d + 1} persons {self.persons[d]} seats {seats[d]} votes {total} divisor {decimal(x[d])} {name}")
        for g, name in enumerate(self.groups):
            divisor = decimal(y[columns.index(g)]) if g in columns else "-"
            lines.append(f"group {g + 1} quorum {'yes' if part[g] else 'no'} voters {sums[g] if part[g] else '-'} "
                         f"seats {upper[g]} divisor {divisor} {name}")
        for d, row in enumerate(self.votes):
            for g, v in enumerate(row):
                if v is not None:
                    s = lower[d][columns.index(g)] if g in columns else 0
                    lines.append(f"list {d + 1} {g + 1} votes {v} voters {voters[d][g] if part[g] else '-'} seats {s}")
        return "\n".join(lines + ["end"]) + "\n"


def decimal(number):
    return f"{number // MILLION}.{number % MILLION:06d}"


def made_up(seed, rows, columns, house, **more):
    """An election with random votes, in which some lists do not stand."""
    chance = random.Random(seed)
    persons = [chance.randint(20_000, 90_000) for _ in range(rows)]
    strength = [chance.uniform(0.5, 2) for _ in range(columns)]
    votes = [[None if g > 1 and chance.random() < 0.1 else round(p * strength[g] * chance.uniform(0.6, 1.4)) for g in range(columns)]
             for p in persons]
    return Election(house, persons, votes, **more)
