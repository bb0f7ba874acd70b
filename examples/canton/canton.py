"""A canton made up from a seed: its set-up, and the votes of its lists. All names and figures are invented."""

HOUSE = 180
LISTS = ["Ahorn", "Birke", "Buche", "Eiche", "Erle", "Esche", "Föhre", "Hasel", "Linde", "Tanne", "Ulme"]
STRENGTHS = [262, 186, 143, 118, 96, 71, 49, 33, 22, 13, 7]  # per mille of the votes
STANDS_IN = {"Linde": 9, "Tanne": 5, "Ulme": 3}  # the first constituencies; the other lists stand everywhere
STRONGHOLDS = {("Hasel", 12): 2, ("Tanne", 5): 6}  # where a small list is this many times as strong

CONSTITUENCIES = ["Fernsee", "Hochmoor", "Steinbruch", "Breitried", "Nebelbach", "Dunkelwald", "Weitfeld", "Rosshang",
                  "Silbergrund", "Krummbach", "Lindenmatt", "Sonnenrain", "Tiefenau", "Wolkenstein", "Adlerfluh",
                  "Birkenmoos", "Hirschboden", "Quellental"]
MUNICIPALITIES_IN = [1, 1, 1, 1, 2, 3, 6, 8, 9, 10, 11, 12, 13, 14, 16, 18, 24, 30]
BEGINNINGS = ["Albris", "Brendo", "Cavors", "Drimel", "Eldras", "Fulmer", "Gombri", "Hurnis", "Ilvan", "Jostra",
              "Kelbur", "Lurmen", "Mafrin", "Nombes", "Orlis", "Pralto", "Quendi", "Rufels", "Sarvin", "Tolmer"]
ENDS = ["wil", "ikon", "bach", "tal", "feld", "berg", "au", "hofen", "stetten"]


class Chance:
    """Numbers from a seed (splitmix64), the same with every version of Python."""

    def __init__(self, seed):
        self.state = seed

    def below(self, end):
        self.state = (self.state + 0x9E3779B97F4A7C15) % 2**64
        mixed = self.state
        mixed = (mixed ^ mixed >> 30) * 0xBF58476D1CE4E5B9 % 2**64
        mixed = (mixed ^ mixed >> 27) * 0x94D049BB133111EB % 2**64
        return (mixed ^ mixed >> 31) % end

    def between(self, least, most):
        return least + self.below(most - least + 1)

    def once_in(self, times):
        return self.below(times) == 0

    def shuffled(self, items):
        items = list(items)
        for last in range(len(items) - 1, 0, -1):
            other = self.below(last + 1)
            items[last], items[other] = items[other], items[last]
        return items


class Canton:
    """Constituencies, municipalities and lists count from 1, as in the set-up."""

    def __init__(self, chance):
        self.persons = [chance.between(30_000, 120_000) for _ in CONSTITUENCIES]
        self.constituency_of = [d for d, count in enumerate(MUNICIPALITIES_IN, 1) for _ in range(count)]
        self.names = chance.shuffled(beginning + end for beginning in BEGINNINGS for end in ENDS)
        weights = [chance.between(5, 100) for _ in self.names]
        self.size = [self.persons[d - 1] * weight // sum(w for w, e in zip(weights, self.constituency_of) if e == d)
                     for d, weight in zip(self.constituency_of, weights)]
        self.votes = {(m, g): self.some_votes(chance, m, g) for m in self.municipalities() for g in self.lists_in(m)}

    def municipalities(self):
        return range(1, len(self.names) + 1)

    def stands(self, group):
        return range(1, STANDS_IN.get(LISTS[group - 1], len(CONSTITUENCIES)) + 1)

    def lists_in(self, municipality):
        return [g for g in range(1, len(LISTS) + 1) if self.constituency_of[municipality - 1] in self.stands(g)]

    def some_votes(self, chance, municipality, group):
        """Each voter has as many votes as the constituency has seats, and some three in ten persons vote."""
        d = self.constituency_of[municipality - 1]
        seats = max(1, HOUSE * self.persons[d - 1] // sum(self.persons))
        strength = STRENGTHS[group - 1] * STRONGHOLDS.get((LISTS[group - 1], d), 1)
        return self.size[municipality - 1] * seats * strength * chance.between(200, 400) // 1_000_000

    def setup(self):
        """The text of the set-up."""
        lines = ["# Names and figures are invented.", "version = 1", f"house = {HOUSE}"]
        for name, persons in zip(CONSTITUENCIES, self.persons):
            lines += ["[[constituency]]", f'name = "{name}"', f"persons = {persons}"]
        for name, d in zip(self.names, self.constituency_of):
            lines += ["[[municipality]]", f'name = "{name}"', f"constituency = {d}"]
        for group, name in enumerate(LISTS, 1):
            lines += ["[[group]]", f'name = "{name}"', f"stands = {list(self.stands(group))}"]
        return "\n".join(lines) + "\n"
